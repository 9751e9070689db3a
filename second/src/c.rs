//! The functions of bjargolsk.h by this program: a session is lent as its image and updated in place, results are packed.

use crate::calls::{OccAnswer, Undone, DONE, NOT_WELL_FORMED, WONT_READ};
use crate::image;
use crate::plan::Order;
use crate::save::{self, Moved};
use crate::session::Session;

/// The answer in bits 0 to 7, a small number in bits 8 to 15, one of 16 bits above.
fn packed(answer: u8, small: u8, high: u16) -> u32 {
    u32::from(high) << 16 | u32::from(small) << 8 | u32::from(answer)
}

/// The reason, and the number of the data byte.
pub fn with_fault(told: OccAnswer) -> u32 {
    match told.fault {
        Some(fault) => packed(told.answer, fault.reason.number(), fault.byte as u16),
        None => packed(told.answer, 0, 0),
    }
}

pub fn with_bell((answer, bell): (u8, u16)) -> u32 {
    packed(answer, 0, bell)
}

/// The entries passed, and the kind.
pub fn with_passed(told: Undone) -> u32 {
    packed(told.answer, told.passed, u16::from(told.kind))
}

pub fn with_kind((answer, kind): (u8, u8)) -> u32 {
    packed(answer, 0, u16::from(kind))
}

/// Whether there is a plan, and how many packets it has.
pub fn with_plan((answer, order): (u8, Option<Order>)) -> u32 {
    match order {
        Some(order) => packed(answer, 1, order.len() as u16),
        None => packed(answer, 0, 0),
    }
}

pub fn with_verdict((answer, accepted): (u8, bool)) -> u32 {
    packed(answer, u8::from(accepted), 0)
}

/// An image of another length isn't well formed.
fn on(image: &mut [u8], call: impl FnOnce(&mut Session<&mut [u8]>) -> u32) -> u32 {
    image::call(image, call).unwrap_or(NOT_WELL_FORMED.into())
}

pub fn fresh(image: &mut [u8]) -> u32 {
    let bytes = image::write(&Session::fresh());
    if image.len() != bytes.len() {
        return NOT_WELL_FORMED.into();
    }
    image.copy_from_slice(&bytes);
    DONE.into()
}

pub fn occ(image: &mut [u8], sender: u8, command: &[u8], reply: &mut [u8]) -> u32 {
    on(image, |session| with_fault(session.occ(sender, command, reply)))
}

pub fn sbe(image: &mut [u8], request: &[u8], reply: &mut [u8]) -> u32 {
    on(image, |session| with_bell(session.sbe(request, reply)))
}

pub fn sbe_seeprom(
    image: &mut [u8],
    request: &[u8],
    reply: &mut [u8],
    seeprom: &[u8],
    data: &mut [u8],
) -> u32 {
    on(image, |session| {
        let told = session.sbe_seeprom(request, reply, seeprom, data);
        with_bell((told.answer, told.bell))
    })
}

pub fn time(image: &mut [u8], microseconds: u64) -> u32 {
    on(image, |session| with_bell(session.time(microseconds)))
}

pub fn undo(image: &mut [u8]) -> u32 {
    on(image, |session| with_passed(session.undo()))
}

pub fn redo(image: &mut [u8]) -> u32 {
    on(image, |session| with_kind(session.redo()))
}

pub fn plan(image: &mut [u8], packets: &[u8], wanted: u8, order: &mut [u8]) -> u32 {
    on(image, |session| with_plan(session.plan(packets, wanted, order)))
}

pub fn plan_ok(image: &mut [u8], packets: &[u8], wanted: u8, order: &[u8]) -> u32 {
    on(image, |session| with_verdict(session.plan_ok(packets, wanted, order)))
}

/// How many bytes were written.
pub fn with_length((answer, length): Moved) -> u32 {
    packed(answer, 0, length as u16)
}

pub fn save(image: &mut [u8], output: &mut [u8]) -> u32 {
    match image::read(image).filter(|session| session.well_formed()) {
        Some(session) => with_length(save::hand_out(&save::write_new(&session), output)),
        None => NOT_WELL_FORMED.into(),
    }
}

/// Whatever session was there.
pub fn restore(image: &mut [u8], saved: &[u8]) -> u32 {
    if image.len() != image::IMAGE_LENGTH {
        return NOT_WELL_FORMED.into();
    }
    match save::read_new(saved) {
        Some(session) => {
            image.copy_from_slice(&image::write(&session));
            DONE.into()
        }
        None => WONT_READ.into(),
    }
}

pub fn move_up(saved: &[u8], output: &mut [u8]) -> u32 {
    with_length(save::move_up(saved, output))
}

pub fn move_down(saved: &[u8], output: &mut [u8]) -> u32 {
    with_length(save::move_down(saved, output))
}

pub fn watch(image: &mut [u8]) -> u32 {
    on(image, |session| session.watch().into())
}

pub fn forget(image: &mut [u8], count: u32) -> u32 {
    on(image, |session| session.forget(count).into())
}
