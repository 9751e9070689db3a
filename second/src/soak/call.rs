//! The calls that are compared. A later call of bjargolsk.h joins here: a function in `Library`, a case in `Call`, and the generator's orders.

use super::proved;
use second::bytes::hex;
use second::c;
use second::calls::{OCC_REPLY_LENGTH, SBE_REPLY_LENGTH};
use second::plan::{MOST_PACKETS, SLOT};
use second::save::{LONGEST_BASE, NEW_LENGTH};
use std::rc::Rc;

/// Image, request, reply, the SEEPROM's image, the second buffer.
type SbeSeeprom = fn(&mut [u8], &[u8], &mut [u8], &[u8], &mut [u8]) -> u32;

/// The functions of bjargolsk.h, by one of the two programs.
pub struct Library {
    fresh: fn(&mut [u8]) -> u32,
    occ: fn(&mut [u8], u8, &[u8], &mut [u8]) -> u32,
    sbe: fn(&mut [u8], &[u8], &mut [u8]) -> u32,
    undo: fn(&mut [u8]) -> u32,
    redo: fn(&mut [u8]) -> u32,
    forget: fn(&mut [u8], u32) -> u32,
    sbe_seeprom: SbeSeeprom,
    time: fn(&mut [u8], u64) -> u32,
    watch: fn(&mut [u8]) -> u32,
    plan: fn(&mut [u8], &[u8], u8, &mut [u8]) -> u32,
    plan_ok: fn(&mut [u8], &[u8], u8, &[u8]) -> u32,
    save: fn(&mut [u8], &mut [u8]) -> u32,
    restore: fn(&mut [u8], &[u8]) -> u32,
    move_up: fn(&[u8], &mut [u8]) -> u32,
    move_down: fn(&[u8], &mut [u8]) -> u32,
}

pub const PROVED: Library = Library {
    fresh: proved::fresh,
    occ: proved::occ,
    sbe: proved::sbe,
    undo: proved::undo,
    redo: proved::redo,
    forget: proved::forget,
    sbe_seeprom: proved::sbe_seeprom,
    time: proved::time,
    watch: proved::watch,
    plan: proved::plan,
    plan_ok: proved::plan_ok,
    save: proved::save,
    restore: proved::restore,
    move_up: proved::move_up,
    move_down: proved::move_down,
};
pub const SECOND: Library = Library {
    fresh: c::fresh,
    occ: c::occ,
    sbe: c::sbe,
    undo: c::undo,
    redo: c::redo,
    forget: c::forget,
    sbe_seeprom: c::sbe_seeprom,
    time: c::time,
    watch: c::watch,
    plan: c::plan,
    plan_ok: c::plan_ok,
    save: c::save,
    restore: c::restore,
    move_up: c::move_up,
    move_down: c::move_down,
};

/// All that a call's outcome hangs on beside the session; `room` is the length of the reply buffer.
#[derive(Clone)]
pub enum Call {
    Fresh,
    Occ {
        sender: u8,
        command: Vec<u8>,
        room: usize,
    },
    Sbe {
        request: Vec<u8>,
        room: usize,
    },
    Undo,
    Redo,
    Forget(u32),
    /// With an image of the SEEPROM lent, and a buffer of `data_room` bytes for what is read.
    SbeSeeprom {
        request: Vec<u8>,
        room: usize,
        seeprom: Rc<Vec<u8>>,
        data_room: usize,
    },
    Time(u64),
    Watch,
    /// Of packets in slots; `room` is the length of the buffer for the order.
    Plan {
        packets: Rc<Vec<u8>>,
        wanted: u8,
        room: usize,
    },
    PlanOk {
        packets: Rc<Vec<u8>>,
        wanted: u8,
        order: Vec<u8>,
    },
    Save {
        room: usize,
    },
    Restore {
        saved: Vec<u8>,
    },
    /// These two take no session.
    MoveUp {
        saved: Vec<u8>,
        room: usize,
    },
    MoveDown {
        saved: Vec<u8>,
        room: usize,
    },
}

pub const NAMES: [&str; 15] = [
    "fresh",
    "occ",
    "sbe",
    "undo",
    "redo",
    "forget",
    "sbe_seeprom",
    "time",
    "watch",
    "plan",
    "plan_ok",
    "save",
    "restore",
    "move_up",
    "move_down",
];

pub const SBE_SEEPROM: usize = 6;

/// The buffers that a call is lent: `input` and `second_input` hold its bytes, `reply` and `data` have its rooms.
pub struct Lending<'a> {
    pub image: &'a mut [u8],
    pub input: &'a [u8],
    pub reply: &'a mut [u8],
    pub second_input: &'a [u8],
    pub data: &'a mut [u8],
}

impl Call {
    /// Its place in `NAMES`.
    pub fn number(&self) -> usize {
        match self {
            Call::Fresh => 0,
            Call::Occ { .. } => 1,
            Call::Sbe { .. } => 2,
            Call::Undo => 3,
            Call::Redo => 4,
            Call::Forget(_) => 5,
            Call::SbeSeeprom { .. } => SBE_SEEPROM,
            Call::Time(_) => 7,
            Call::Watch => 8,
            Call::Plan { .. } => 9,
            Call::PlanOk { .. } => 10,
            Call::Save { .. } => 11,
            Call::Restore { .. } => 12,
            Call::MoveUp { .. } => 13,
            Call::MoveDown { .. } => 14,
        }
    }

    pub fn name(&self) -> &'static str {
        NAMES[self.number()]
    }

    /// The bytes that it is lent to read.
    pub fn input(&self) -> &[u8] {
        match self {
            Call::Occ { command: bytes, .. }
            | Call::Sbe { request: bytes, .. }
            | Call::SbeSeeprom { request: bytes, .. } => bytes,
            Call::Plan { packets, .. } | Call::PlanOk { packets, .. } => packets,
            Call::Restore { saved } | Call::MoveUp { saved, .. } | Call::MoveDown { saved, .. } => saved,
            _ => &[],
        }
    }

    /// The length of the buffer that it is lent to write.
    pub fn room(&self) -> usize {
        match self {
            Call::Occ { room, .. }
            | Call::Sbe { room, .. }
            | Call::SbeSeeprom { room, .. }
            | Call::Plan { room, .. }
            | Call::Save { room }
            | Call::MoveUp { room, .. }
            | Call::MoveDown { room, .. } => *room,
            _ => 0,
        }
    }

    pub fn set_room(&mut self, length: usize) {
        match self {
            Call::Occ { room, .. }
            | Call::Sbe { room, .. }
            | Call::SbeSeeprom { room, .. }
            | Call::Plan { room, .. }
            | Call::Save { room }
            | Call::MoveUp { room, .. }
            | Call::MoveDown { room, .. } => *room = length,
            _ => {}
        }
    }

    /// What else it is lent to read: the SEEPROM's image, or a proposal.
    pub fn second_input(&self) -> &[u8] {
        match self {
            Call::SbeSeeprom { seeprom, .. } => seeprom,
            Call::PlanOk { order, .. } => order,
            _ => &[],
        }
    }

    /// The length of the second buffer that it is lent to write.
    pub fn data_room(&self) -> usize {
        match self {
            Call::SbeSeeprom { data_room, .. } => *data_room,
            _ => 0,
        }
    }

    /// The length of a whole reply buffer, as `standin` lends one.
    pub fn whole_room(&self) -> usize {
        match self {
            Call::Occ { .. } => OCC_REPLY_LENGTH,
            Call::Sbe { .. } | Call::SbeSeeprom { .. } => SBE_REPLY_LENGTH,
            Call::Plan { .. } => MOST_PACKETS,
            Call::Save { .. } | Call::MoveUp { .. } => NEW_LENGTH,
            Call::MoveDown { .. } => LONGEST_BASE,
            _ => 0,
        }
    }

    /// Made by a program on lent buffers.
    pub fn make(&self, library: &Library, lent: Lending) -> u32 {
        let Lending { image, input, reply, second_input, data } = lent;
        match self {
            Call::Fresh => (library.fresh)(image),
            Call::Occ { sender, .. } => (library.occ)(image, *sender, input, reply),
            Call::Sbe { .. } => (library.sbe)(image, input, reply),
            Call::Undo => (library.undo)(image),
            Call::Redo => (library.redo)(image),
            Call::Forget(count) => (library.forget)(image, *count),
            Call::SbeSeeprom { .. } => (library.sbe_seeprom)(image, input, reply, second_input, data),
            Call::Plan { wanted, .. } => (library.plan)(image, input, *wanted, reply),
            Call::PlanOk { wanted, .. } => (library.plan_ok)(image, input, *wanted, second_input),
            Call::Save { .. } => (library.save)(image, reply),
            Call::Restore { .. } => (library.restore)(image, input),
            Call::MoveUp { .. } => (library.move_up)(input, reply),
            Call::MoveDown { .. } => (library.move_down)(input, reply),
            Call::Time(microseconds) => (library.time)(image, *microseconds),
            Call::Watch => (library.watch)(image),
        }
    }

    /// As a line for `standin`.
    pub fn line(&self) -> String {
        match self {
            Call::Occ { sender, command, .. } => format!("occ {sender:02X} {}", hex(command)),
            Call::Sbe { request, .. } | Call::SbeSeeprom { request, .. } => format!("sbe {}", hex(request)),
            Call::Time(microseconds) => format!("time {microseconds}"),
            Call::Plan { packets, wanted, .. } => format!("{}plan {wanted}", prepared(packets)),
            Call::PlanOk { packets, wanted, order } => {
                format!("{}# is {order:?} a plan for {wanted}? No line asks that", prepared(packets))
            }
            Call::Forget(count) => format!("forget {count}"),
            Call::Restore { saved } => format!("restore {}", hex(saved)),
            Call::MoveUp { saved, .. } | Call::MoveDown { saved, .. } => {
                format!("# {} of this save, as a program of that name does: {}", self.name(), hex(saved))
            }
            Call::Fresh | Call::Undo | Call::Redo | Call::Watch | Call::Save { .. } => {
                self.name().to_string()
            }
        }
    }
}

/// The packets of slots as lines; zeros at a slot's end are left out, and so the lines may say less than the slots.
fn prepared(slots: &[u8]) -> String {
    let mut text = "packet\n".to_string();
    for slot in slots.chunks(SLOT) {
        let length = slot.iter().rposition(|byte| *byte != 0).map_or(1, |last| last + 1);
        let length =
            slot.get(2..4).map_or(length, |l| length.max(6 + usize::from(l[0]) * 256 + usize::from(l[1])));
        text += &format!("packet {}\n", hex(&slot[..length.min(slot.len())]));
    }
    text
}
