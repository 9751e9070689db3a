//! The SBE mailbox: four registers in, four out, and the doorbell.

use crate::bytes::Reader;
use crate::journal::Change;
use crate::record::*;
use crate::session::{Accepted, Standing};
use std::ops::{Range, RangeInclusive};

/// Primary and secondary status.
pub type Status = (u16, u16);
pub const SUCCESS: Status = (0, 0);
pub const UNKNOWN_CLASS: Status = (0x01, 0x01);
pub const UNKNOWN_COMMAND: Status = (0x01, 0x02);
pub const INVALID_ADDRESS: Status = (0x02, 0x03);
pub const INVALID_TARGET_TYPE: Status = (0x02, 0x04);
pub const INVALID_CHIPLET: Status = (0x02, 0x05);
pub const BUFFER_TOO_SMALL: Status = (0x02, 0x18);
pub const INVALID_PARAMETERS: Status = (0x02, 0x19);
/// Denied chip-op access: in a watch-only session.
pub const ACCESS_DENIED: Status = (0x05, 0x20);

pub const RESPONSE_ASKED: u16 = 0x0100;
pub const ACKNOWLEDGE_ASKED: u16 = 0x0200;
pub const START: u16 = 0x0001;
pub const STOP: u16 = 0x0002;

pub struct Request {
    pub flags: u16,
    pub sequence: u16,
    pub class: u8,
    pub command: u8,
    /// Registers 1 to 3.
    pub registers: [u64; 3],
}

impl Request {
    /// `None` under 32 bytes; more are ignored, as are the reserved ones.
    pub fn read(bytes: &[u8]) -> Option<Request> {
        let mut rest = Reader::new(bytes);
        rest.u16()?;
        Some(Request {
            flags: rest.u16()?,
            sequence: rest.u16()?,
            class: rest.u8()?,
            command: rest.u8()?,
            registers: [rest.u64()?, rest.u64()?, rest.u64()?],
        })
    }
}

/// Doorbell bit 14, rung once when the timer expires.
pub const TIMER_EXPIRED: u16 = 0x0002;

/// Bit 0 is the most significant. Rung as asked, refused or not.
pub fn doorbell(flags: u16) -> u16 {
    let mut bell = 0;
    if flags & RESPONSE_ASKED != 0 {
        bell |= 0x8000;
    }
    if flags & ACKNOWLEDGE_ASKED != 0 {
        bell |= 0x4000;
    }
    bell
}

pub fn response(request: &Request, (primary, secondary): Status) -> [u8; 32] {
    let mut bytes = [0; 32];
    let [p0, p1] = primary.to_be_bytes();
    let [s0, s1] = secondary.to_be_bytes();
    let [q0, q1] = request.sequence.to_be_bytes();
    bytes[..8].copy_from_slice(&[p0, p1, s0, s1, q0, q1, request.class, request.command]);
    bytes
}

/// What a request that passed every test does.
#[allow(clippy::large_enum_variant)] // one is made for a call, and a box would cost more than the move
pub enum Effect {
    Change(Accepted),
    /// These bytes of the lent image are served.
    Serve(Range<usize>),
    /// No more than its response.
    Respond,
}

/// In a watch-only session what would make a journal entry is refused, once all else is right.
pub fn judge(session: &Standing, request: &Request, image: usize, room: usize) -> Result<Effect, Status> {
    match judge_request(session, request, image, room)? {
        Effect::Change(_) if session.is_watched() => Err(ACCESS_DENIED),
        effect => Ok(effect),
    }
}

/// Class, then command, then flags, then what the command itself asks. `image` and `room` are the lengths of the two buffers that
/// are lent for reading the SEEPROM.
fn judge_request(session: &Standing, request: &Request, image: usize, room: usize) -> Result<Effect, Status> {
    let now = session.record;
    let (before, record) = match (request.class, request.command) {
        (0xD1, 0x01) => deadman(now, request)?,
        (0xD1, 0x02) => return only_flags(request, 0).map(|()| Effect::Respond),
        (0xD1, 0x03) => cores(now, request)?,
        (0xD3, 0x01) => return put_ring(request).map(|()| Effect::Respond),
        (0xD4, 0x01) => return control_timer(session, request).map(Effect::Change),
        (0xD7, 0x03) => return read_seeprom(request, image, room).map(Effect::Serve),
        (0xD7, 0x04) => areas(now, request)?,
        (0xD1 | 0xD3..=0xD7, _) => return Err(UNKNOWN_COMMAND),
        _ => return Err(UNKNOWN_CLASS),
    };
    Ok(Effect::Change(Accepted { before, record, timer: session.timer, next_id: session.next_id }))
}

type Judged = Result<(Change, Record), Status>;

fn only_flags(request: &Request, named: u16) -> Result<(), Status> {
    need(request.flags & !(RESPONSE_ASKED | ACKNOWLEDGE_ASKED | named) == 0, INVALID_PARAMETERS)
}

fn need(held: bool, status: Status) -> Result<(), Status> {
    if held {
        Ok(())
    } else {
        Err(status)
    }
}

/// Exactly one of the flags start and stop; true for start.
fn starts(request: &Request) -> Result<bool, Status> {
    only_flags(request, START | STOP)?;
    match request.flags & (START | STOP) {
        START => Ok(true),
        STOP => Ok(false),
        _ => Err(INVALID_PARAMETERS),
    }
}

fn deadman(now: &Record, request: &Request) -> Judged {
    let (running, time) = if starts(request)? { (1, request.registers[0]) } else { (0, 0) };
    let before = Change::Deadman { running: now.running, time: now.time };
    Ok((before, Record { running, time, ..*now }))
}

fn cores(now: &Record, request: &Request) -> Judged {
    only_flags(request, 0)?;
    let mask = (request.registers[0] >> 32) as u32;
    Ok((Change::Mask(now.mask), Record { mask, ..*now }))
}

/// Target types 0 to 4, each with its chiplets: section 1.1.6's table.
const CHIPLETS: [&[RangeInclusive<u8>]; 5] = [
    &[0x00..=0xFF],
    &[0x01..=0x01, 0x02..=0x03, 0x08..=0x09, 0x0C..=0x0F, 0x10..=0x14, 0x18..=0x1F, 0x20..=0x27],
    &[0xFF..=0xFF],
    &[0xFF..=0xFF],
    &[0x00..=0x0F],
];

/// Ring id and mode are taken as sent, and nothing is kept of them.
fn put_ring(request: &Request) -> Result<(), Status> {
    only_flags(request, 0)?;
    let [t0, t1, _, chiplet, ..] = request.registers[0].to_be_bytes();
    let target = usize::from(u16::from_be_bytes([t0, t1]));
    let chiplets = CHIPLETS.get(target).ok_or(INVALID_TARGET_TYPE)?;
    need(chiplets.iter().any(|ids| ids.contains(&chiplet)), INVALID_CHIPLET)
}

/// The timeout is register 1's second half; one that runs is started afresh.
fn control_timer(session: &Standing, request: &Request) -> Result<Accepted, Status> {
    let timeout = request.registers[0] & 0xFFFF_FFFF;
    let timer = if starts(request)? { Timer { running: 1, left: timeout } } else { Timer::default() };
    let before = Change::Timer(session.timer);
    Ok(Accepted { before, record: *session.record, timer, next_id: session.next_id })
}

/// As much of a lent image counts.
pub const SEEPROM_LENGTH: usize = 65536;

/// Offset and size in multiples of 8, both within the image; then the room for the data.
fn read_seeprom(request: &Request, image: usize, room: usize) -> Result<Range<usize>, Status> {
    only_flags(request, 0)?;
    let offset = request.registers[0] >> 32;
    let size = request.registers[0] & 0xFFFF_FFFF;
    let aligned = offset.is_multiple_of(8) && size.is_multiple_of(8);
    need(aligned && offset + size <= image.min(SEEPROM_LENGTH) as u64, INVALID_PARAMETERS)?;
    need(size <= room as u64, BUFFER_TOO_SMALL)?;
    Ok(offset as usize..(offset + size) as usize)
}

fn areas(now: &Record, request: &Request) -> Judged {
    only_flags(request, 0)?;
    let [sizes, ffdc_address, pass_address] = request.registers;
    let ffdc = area(ffdc_address, (sizes >> 32) as u32)?;
    let pass = area(pass_address, sizes as u32)?;
    let before = Change::Areas { ffdc: now.ffdc, pass: now.pass };
    Ok((before, Record { ffdc, pass, ..*now }))
}

/// Size 0 makes address and size 0, whatever the address.
fn area(address: u64, size: u32) -> Result<Area, Status> {
    if size == 0 {
        return Ok(Area::default());
    }
    let area = Area { address, size };
    match area_fault(&area) {
        None => Ok(area),
        Some(AreaFault::Address) => Err(INVALID_ADDRESS),
        Some(AreaFault::Size) => Err(INVALID_PARAMETERS),
    }
}
