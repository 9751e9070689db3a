//! The functions of bjargolsk.h by the proved library, on slices: for the programs that link it. Beside `speed`'s stack meter the one file with
//! `unsafe`.
#![allow(unsafe_code)]

#[path = "../../include/bjargolsk.rs"]
mod ffi;

// SAFETY, of each: a pointer comes with the length of the slice that it was taken from, and no two slices overlap, as one of them at most is shared.

pub fn fresh(image: &mut [u8]) -> u32 {
    unsafe { ffi::bjargolsk_fresh(image.as_mut_ptr(), image.len()) }
}

pub fn occ(image: &mut [u8], sender: u8, command: &[u8], reply: &mut [u8]) -> u32 {
    let (session, length) = (image.as_mut_ptr(), image.len());
    let (to, room) = (reply.as_mut_ptr(), reply.len());
    unsafe { ffi::bjargolsk_occ(session, length, sender, command.as_ptr(), command.len(), to, room) }
}

pub fn sbe(image: &mut [u8], request: &[u8], reply: &mut [u8]) -> u32 {
    let (session, length) = (image.as_mut_ptr(), image.len());
    let (to, room) = (reply.as_mut_ptr(), reply.len());
    unsafe { ffi::bjargolsk_sbe(session, length, request.as_ptr(), request.len(), to, room) }
}

pub fn undo(image: &mut [u8]) -> u32 {
    unsafe { ffi::bjargolsk_undo(image.as_mut_ptr(), image.len()) }
}

pub fn redo(image: &mut [u8]) -> u32 {
    unsafe { ffi::bjargolsk_redo(image.as_mut_ptr(), image.len()) }
}

pub fn sbe_seeprom(
    image: &mut [u8],
    request: &[u8],
    reply: &mut [u8],
    seeprom: &[u8],
    data: &mut [u8],
) -> u32 {
    let (session, length) = (image.as_mut_ptr(), image.len());
    let (asked, asked_length) = (request.as_ptr(), request.len());
    let (to, room) = (reply.as_mut_ptr(), reply.len());
    let (from, from_length) = (seeprom.as_ptr(), seeprom.len());
    let (into, into_length) = (data.as_mut_ptr(), data.len());
    unsafe {
        ffi::bjargolsk_sbe_seeprom(
            session,
            length,
            asked,
            asked_length,
            to,
            room,
            from,
            from_length,
            into,
            into_length,
        )
    }
}

pub fn time(image: &mut [u8], microseconds: u64) -> u32 {
    unsafe { ffi::bjargolsk_time(image.as_mut_ptr(), image.len(), microseconds) }
}

pub fn plan(image: &mut [u8], packets: &[u8], wanted: u8, order: &mut [u8]) -> u32 {
    let (session, length) = (image.as_ptr(), image.len());
    let (to, room) = (order.as_mut_ptr(), order.len());
    unsafe { ffi::bjargolsk_plan(session, length, packets.as_ptr(), packets.len(), wanted, to, room) }
}

pub fn plan_ok(image: &mut [u8], packets: &[u8], wanted: u8, order: &[u8]) -> u32 {
    let (session, length) = (image.as_ptr(), image.len());
    let (from, count) = (order.as_ptr(), order.len());
    unsafe { ffi::bjargolsk_plan_ok(session, length, packets.as_ptr(), packets.len(), wanted, from, count) }
}

pub fn save(image: &mut [u8], output: &mut [u8]) -> u32 {
    unsafe { ffi::bjargolsk_save(image.as_ptr(), image.len(), output.as_mut_ptr(), output.len()) }
}

pub fn restore(image: &mut [u8], saved: &[u8]) -> u32 {
    unsafe { ffi::bjargolsk_restore(image.as_mut_ptr(), image.len(), saved.as_ptr(), saved.len()) }
}

pub fn move_up(saved: &[u8], output: &mut [u8]) -> u32 {
    unsafe { ffi::bjargolsk_move_up(saved.as_ptr(), saved.len(), output.as_mut_ptr(), output.len()) }
}

pub fn move_down(saved: &[u8], output: &mut [u8]) -> u32 {
    unsafe { ffi::bjargolsk_move_down(saved.as_ptr(), saved.len(), output.as_mut_ptr(), output.len()) }
}

pub fn watch(image: &mut [u8]) -> u32 {
    unsafe { ffi::bjargolsk_watch(image.as_mut_ptr(), image.len()) }
}

pub fn forget(image: &mut [u8], count: u32) -> u32 {
    unsafe { ffi::bjargolsk_forget(image.as_mut_ptr(), image.len(), count) }
}
