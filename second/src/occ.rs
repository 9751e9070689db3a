//! OCC packets: what each command needs, and the reply.

use crate::bytes::Reader;
use crate::journal::{read_caps, Change};
use crate::record::*;
use crate::session::{Accepted, Standing};

pub const HTMGT: u8 = 0x10;
pub const BMC: u8 = 0x20;
pub const LONGEST_DATA: usize = 4090;

pub const SUCCESS: u8 = 0x00;
pub const INVALID_COMMAND: u8 = 0x11;
pub const INVALID_LENGTH: u8 = 0x12;
pub const INVALID_DATA: u8 = 0x13;
pub const CHECKSUM_FAILURE: u8 = 0x14;
pub const INTERNAL_ERROR: u8 = 0x15;
pub const STATE_PROHIBITS: u8 = 0x16;

pub const POLL: u8 = 0x00;
pub const CLEAR_LOG: u8 = 0x12;
pub const SET_STATE: u8 = 0x20;
pub const CONFIGURATION: u8 = 0x21;
pub const USER_CAP: u8 = 0x22;
pub const RESET_PREP: u8 = 0x25;
pub const VERSION: u8 = 0x10;

/// What a good command does.
#[allow(clippy::large_enum_variant)] // one is made for a call, and a box would cost more than the move
pub enum Effect {
    Poll,
    Change(Accepted),
}

/// Why data is wrong, in the order that decides where two hold at one byte.
#[derive(Clone, Copy, PartialEq, Eq, Debug)]
pub enum Reason {
    BadVersion,
    BadCount,
    OutOfRange,
    Repeated,
    Clash,
    NotPending,
}

impl Reason {
    /// From 1, as the C interface has it.
    pub fn number(self) -> u8 {
        self as u8 + 1
    }

    pub fn words(self) -> &'static str {
        match self {
            Reason::BadVersion => "bad version",
            Reason::BadCount => "bad count",
            Reason::OutOfRange => "out of range",
            Reason::Repeated => "repeated",
            Reason::Clash => "clash",
            Reason::NotPending => "not pending",
        }
    }
}

/// The first data byte that is wrong, counted from 1, and why.
#[derive(Clone, Copy, PartialEq, Eq, Debug)]
pub struct Fault {
    pub byte: usize,
    pub reason: Reason,
}

/// An error status; where the data is wrong, the fault beside it.
pub struct Refusal {
    pub status: u8,
    pub fault: Option<Fault>,
}

impl From<u8> for Refusal {
    fn from(status: u8) -> Self {
        Refusal { status, fault: None }
    }
}

type Judged = Result<Effect, Refusal>;

/// The two-byte sum, ignoring overflow.
pub fn checksum(bytes: &[u8]) -> u16 {
    bytes.iter().fold(0u16, |sum, byte| sum.wrapping_add(u16::from(*byte)))
}

/// Type and data of the packet at the front of the command.
fn read_packet(command: &[u8]) -> Result<(u8, &[u8]), Refusal> {
    let [_, command_type, high, low, rest @ ..] = command else {
        return Err(INVALID_LENGTH.into());
    };
    let length = usize::from(u16::from_be_bytes([*high, *low]));
    need(length <= LONGEST_DATA && length + 6 <= command.len(), INVALID_LENGTH)?;
    let (data, after) = rest.split_at_checked(length).ok_or(INVALID_LENGTH)?;
    let sent = Reader::new(after).u16().ok_or(INVALID_LENGTH)?;
    let summed = command.get(..length + 4).map(checksum);
    need(summed == Some(sent), CHECKSUM_FAILURE)?;
    Ok((*command_type, data))
}

/// What is open, type by type: to whom, and in which sessions. HTMGT may send every type.
struct Open {
    command_type: u8,
    to_bmc: bool,
    when_watched: bool,
}

const OPEN: [Open; 6] = [
    Open { command_type: POLL, to_bmc: true, when_watched: true },
    Open { command_type: CLEAR_LOG, to_bmc: false, when_watched: true },
    Open { command_type: SET_STATE, to_bmc: false, when_watched: false },
    Open { command_type: CONFIGURATION, to_bmc: false, when_watched: false },
    Open { command_type: USER_CAP, to_bmc: true, when_watched: false },
    Open { command_type: RESET_PREP, to_bmc: false, when_watched: false },
];

/// Every status of the table, in its order.
pub fn judge(session: &Standing, sender: u8, command: &[u8]) -> Judged {
    let (command_type, data) = read_packet(command)?;
    let open = OPEN.iter().find(|open| open.command_type == command_type).ok_or(INVALID_COMMAND)?;
    need(sender != BMC || open.to_bmc, INVALID_COMMAND)?;
    let judged = match command_type {
        POLL => poll(data),
        CLEAR_LOG => clear_log(session, data),
        SET_STATE => set_state(session, data),
        CONFIGURATION => configuration(session, data),
        USER_CAP => user_cap(session, data),
        _ => reset_prep(session, data),
    };
    if session.is_watched() && !open.when_watched {
        shut(judged)
    } else {
        judged
    }
}

/// The profile forbids with the role and the state: once the data is right, and before a log is asked for.
fn shut(judged: Judged) -> Judged {
    match judged {
        Err(refusal) if refusal.status != INTERNAL_ERROR => Err(refusal),
        _ => Err(STATE_PROHIBITS.into()),
    }
}

fn change(session: &Standing, before: Change, record: Record) -> Judged {
    Ok(Effect::Change(Accepted { before, record, timer: session.timer, next_id: session.next_id }))
}

fn need(held: bool, status: u8) -> Result<(), Refusal> {
    if held {
        Ok(())
    } else {
        Err(status.into())
    }
}

/// What the data must hold, with the number of the byte that is wrong if it doesn't. Asked byte by byte, the first is told.
fn right(held: bool, byte: usize, reason: Reason) -> Result<(), Refusal> {
    if held {
        Ok(())
    } else {
        Err(wrong(byte, reason))
    }
}

fn wrong(byte: usize, reason: Reason) -> Refusal {
    Refusal { status: INVALID_DATA, fault: Some(Fault { byte, reason }) }
}

/// The data if it has exactly the length the type fixes.
fn exactly<const N: usize>(data: &[u8]) -> Result<[u8; N], Refusal> {
    data.try_into().map_err(|_| INVALID_LENGTH.into())
}

fn poll(data: &[u8]) -> Judged {
    let [version] = exactly(data)?;
    right(version == VERSION, 1, Reason::BadVersion)?;
    Ok(Effect::Poll)
}

fn clear_log(session: &Standing, data: &[u8]) -> Judged {
    let [id] = exactly(data)?;
    let mut record = *session.record;
    let place = record.place_of(id).ok_or(wrong(1, Reason::NotPending))?;
    let log = record.logs[place];
    record.remove_log(place);
    change(session, Change::Clear { place: place as u8, log }, record)
}

fn set_state(session: &Standing, data: &[u8]) -> Judged {
    let [version, state, reserved] = exactly(data)?;
    right(version == 0, 1, Reason::BadVersion)?;
    right(state_fits(state), 2, Reason::OutOfRange)?;
    right(reserved == 0, 3, Reason::OutOfRange)?;
    let ready = match state {
        OBSERVATION => session.worked_out.observation == 1,
        ACTIVE => session.worked_out.active == 1,
        _ => true,
    };
    need(ready, STATE_PROHIBITS)?;
    let before = Change::State(session.record.state);
    change(session, before, Record { state, ..*session.record })
}

fn configuration(session: &Standing, data: &[u8]) -> Judged {
    match *data.first().ok_or(INVALID_LENGTH)? {
        FORMAT_ROLE => role(session, data),
        FORMAT_CAPS => caps(session, data),
        FORMAT_THROTTLES => throttles(session, data),
        FORMAT_THERMAL => thermal(session, data),
        _ => Err(wrong(1, Reason::OutOfRange)),
    }
}

fn role(session: &Standing, data: &[u8]) -> Judged {
    let [_, role] = exactly(data)?;
    let now = session.record;
    right(role <= MASTER, 2, Reason::OutOfRange)?;
    need(now.state == STANDBY, STATE_PROHIBITS)?;
    let before = Change::Role { received: now.role_received, role: now.role };
    change(session, before, Record { role, role_received: 1, ..*now })
}

fn caps(session: &Standing, data: &[u8]) -> Judged {
    let [_, version, values @ ..] = exactly::<8>(data)?;
    let now = session.record;
    let caps = read_caps(&mut Reader::new(&values)).ok_or(INVALID_LENGTH)?;
    right(version == VERSION, 2, Reason::BadVersion)?;
    right(caps.minimum <= caps.maximum, 5, Reason::Clash)?; // at the maximum
    need(now.is_master(), STATE_PROHIBITS)?;
    let before = Change::Caps { received: now.caps_received, caps: now.caps };
    change(session, before, Record { caps, caps_received: 1, ..*now })
}

/// The sets of a packet whose third byte is their count, each with the number of its first byte: the length is judged first,
/// then version and count.
fn counted_sets(data: &[u8], length: usize) -> Result<impl Iterator<Item = (usize, &[u8])>, Refusal> {
    let [_, version, count, sets @ ..] = data else {
        return Err(INVALID_LENGTH.into());
    };
    need(sets.len() == length * usize::from(*count), INVALID_LENGTH)?;
    right(*version == VERSION, 2, Reason::BadVersion)?;
    right(*count >= 1, 3, Reason::BadCount)?;
    Ok((4..).step_by(length).zip(sets.chunks_exact(length)))
}

fn throttles(session: &Standing, data: &[u8]) -> Judged {
    let mut table = Throttles::default();
    for (byte, sent) in counted_sets(data, 12)? {
        let mut set = Reader::new(sent);
        let (hub, mba) = set.u8().zip(set.u8()).ok_or(INVALID_LENGTH)?;
        let values = set.array().ok_or(INVALID_LENGTH)?;
        right(hub <= 7, byte, Reason::OutOfRange)?;
        // A pair with a wrong MBA is no pair yet, so it can't have been seen.
        let seen = mba <= 1 && table.presence >> (2 * hub + mba) & 1 == 1;
        right(!seen, byte, Reason::Repeated)?;
        right(mba <= 1, byte + 1, Reason::OutOfRange)?;
        table.presence |= 1 << (2 * hub + mba);
        table.sets[usize::from(2 * hub + mba)] = values;
    }
    let now = session.record;
    let before = Change::Throttles { received: now.throttles_received, throttles: now.throttles };
    change(session, before, Record { throttles: table, throttles_received: 1, ..*now })
}

fn thermal(session: &Standing, data: &[u8]) -> Judged {
    let mut table = FRESH_THERMAL;
    let mut seen = [false; 3];
    for (byte, set) in counted_sets(data, 4)? {
        let fru = usize::from(set[0]);
        right(fru < seen.len(), byte, Reason::OutOfRange)?;
        right(!seen[fru], byte, Reason::Repeated)?;
        right(thresholds_fit(set[1], set[2]), byte + 2, Reason::Clash)?; // at ERROR
        seen[fru] = true;
        table[3 * fru..3 * fru + 3].copy_from_slice(&set[1..]);
    }
    let now = session.record;
    let before = Change::Thermal { received: now.thermal_received, thermal: now.thermal };
    change(session, before, Record { thermal: table, thermal_received: 1, ..*now })
}

fn user_cap(session: &Standing, data: &[u8]) -> Judged {
    let user_cap = u16::from_be_bytes(exactly(data)?);
    let now = session.record;
    let within = (now.caps.minimum..=now.caps.maximum).contains(&user_cap);
    right(user_cap == 0 || (now.has_caps() && within), 1, Reason::OutOfRange)?;
    need(now.is_master(), STATE_PROHIBITS)?;
    change(session, Change::UserCap(now.user_cap), Record { user_cap, ..*now })
}

fn reset_prep(session: &Standing, data: &[u8]) -> Judged {
    let [version, reason] = exactly(data)?;
    right(version == 0, 1, Reason::BadVersion)?;
    right(reason <= 2, 2, Reason::OutOfRange)?;
    let now = session.record;
    let mut record = Record { state: STANDBY, ..*now };
    let mut next_id = session.next_id;
    let due = reason == 1 || (reason == 2 && now.is_master());
    if due {
        let id = u8::try_from(next_id).map_err(|_| INTERNAL_ERROR)?;
        need(record.insert_log(now.pending(), Log { id, reason }), INTERNAL_ERROR)?;
        next_id += 1;
    }
    let before = Change::Reset { state: now.state, log_made: u8::from(due) };
    Ok(Effect::Change(Accepted { before, record, timer: session.timer, next_id }))
}

/// A reply's data: at most a poll's, 40 bytes and a block of 20.
pub struct Data {
    bytes: [u8; 60],
    length: usize,
}

impl Data {
    pub fn none() -> Self {
        Data { bytes: [0; 60], length: 0 }
    }

    /// The one data byte of an error reply.
    pub fn log_id(id: u8) -> Self {
        let mut data = Data::none();
        data.add(&[id]);
        data
    }

    fn add(&mut self, bytes: &[u8]) {
        self.bytes[self.length..self.length + bytes.len()].copy_from_slice(bytes);
        self.length += bytes.len();
    }

    pub fn bytes(&self) -> &[u8] {
        &self.bytes[..self.length]
    }
}

/// Poll data: 40 bytes, and the CAPS block for a master with caps received.
pub fn poll_data(session: &Standing) -> Data {
    let (record, worked) = (session.record, session.worked_out);
    let master = u8::from(record.is_master());
    let status = master << 7 | worked.observation << 1 | worked.active;
    let oldest = record.logs[0].id;
    let log_length: u16 = if oldest == 0 { 0 } else { 0x0010 };
    let blocks = u8::from(record.is_master() && record.has_caps());

    let mut data = Data::none();
    data.add(&[status, 0, 0x01, worked.wanted, record.state, 0, 0, oldest]);
    data.add(&(u32::from(oldest) * 256).to_be_bytes());
    data.add(&log_length.to_be_bytes());
    data.add(&[0, 0]);
    data.add(b"bench\0\0\0\0\0\0\0\0\0\0\0");
    data.add(b"SENSOR");
    data.add(&[blocks, 0x01]);
    if blocks == 1 {
        add_caps_block(&mut data, session);
    }
    data
}

/// Header of section 2.1, body of section 7.4.
fn add_caps_block(data: &mut Data, session: &Standing) {
    let caps = &session.record.caps;
    data.add(b"CAPS");
    data.add(&[0x00, 0x01, 0x0C, 0x01]);
    let body =
        [session.worked_out.limit, 0, caps.maximum, caps.maximum, caps.minimum, session.record.user_cap];
    body.iter().for_each(|value| data.add(&value.to_be_bytes()));
}

/// Writes a reply at the front of the buffer, which has room for it, and gives its length. Bytes past it are kept.
pub fn write_reply(buffer: &mut [u8], head: [u8; 3], data: &[u8]) -> usize {
    let before_sum = 5 + data.len();
    let (packet, rest) = buffer.split_at_mut(before_sum);
    packet[..3].copy_from_slice(&head);
    packet[3..5].copy_from_slice(&(data.len() as u16).to_be_bytes());
    packet[5..].copy_from_slice(data);
    rest[..2].copy_from_slice(&checksum(packet).to_be_bytes());
    before_sum + 2
}

/// A command packet with its length and checksum; the data is at most 65,535 bytes.
pub fn command_packet(sequence: u8, command_type: u8, data: &[u8]) -> Vec<u8> {
    let mut packet = vec![sequence, command_type];
    packet.extend((data.len() as u16).to_be_bytes());
    packet.extend(data);
    packet.extend(checksum(&packet).to_be_bytes());
    packet
}
