//! OCC commands: right ones, ones with a single thing off, and long ones.

use super::{random::Random, scene};
use crate::occ::{self, checksum, command_packet};
use crate::record::*;
use crate::session::Session;

/// What a command is about; the formats of 0x21 count singly.
#[derive(Clone, Copy, PartialEq, Eq, Debug)]
pub enum About {
    Poll,
    Clear,
    State,
    Role,
    Caps,
    Throttles,
    Thermal,
    UserCap,
    Reset,
    UnknownType,
    UnknownFormat,
}

pub const ALL: [About; 11] = [
    About::Poll,
    About::Clear,
    About::State,
    About::Role,
    About::Caps,
    About::Throttles,
    About::Thermal,
    About::UserCap,
    About::Reset,
    About::UnknownType,
    About::UnknownFormat,
];

/// Type and data of a packet, before it is framed.
pub type Content = (u8, Vec<u8>);

/// Data that is right as far as the session allows.
pub fn right(random: &mut Random, session: &Session, about: About) -> Content {
    match about {
        About::Poll => (occ::POLL, vec![occ::VERSION]),
        About::Clear => (occ::CLEAR_LOG, vec![pending_id(random, session)]),
        About::State => (occ::SET_STATE, vec![0, 1 + random.below(3) as u8, 0]),
        About::Role => (occ::CONFIGURATION, vec![FORMAT_ROLE, u8::from(random.percent(65))]),
        About::Caps => (occ::CONFIGURATION, caps(random, session)),
        About::Throttles => (occ::CONFIGURATION, throttles(random)),
        About::Thermal => (occ::CONFIGURATION, thermal(random)),
        About::UserCap => (occ::USER_CAP, user_cap(random, session).to_be_bytes().to_vec()),
        About::Reset => (occ::RESET_PREP, vec![0, random.below(3) as u8]),
        About::UnknownType => (unknown_type(random), random.bytes(3)),
        About::UnknownFormat => (occ::CONFIGURATION, unknown_format(random)),
    }
}

fn pending_id(random: &mut Random, session: &Session) -> u8 {
    let pending = session.record.pending();
    session.record.logs[random.below(pending.max(1)).min(LOG_PLACES - 1)].id
}

fn caps_data(minimum: u16, maximum: u16, oversubscription: u16) -> Vec<u8> {
    let mut data = vec![FORMAT_CAPS, occ::VERSION];
    for value in [minimum, maximum, oversubscription] {
        data.extend(value.to_be_bytes());
    }
    data
}

fn caps(random: &mut Random, session: &Session) -> Vec<u8> {
    let user_cap = session.record.user_cap;
    let one = if random.one_in(3) { random.near_u16(user_cap) } else { random.edge_u16() };
    let two = if random.one_in(6) { one } else { random.edge_u16() };
    let over = random.edge_u16();
    caps_data(one.min(two), one.max(two), over)
}

/// Many values near the bounds, so that the limit is raised and lowered.
fn user_cap(random: &mut Random, session: &Session) -> u16 {
    let caps = &session.record.caps;
    match random.below(4) {
        0 => 0,
        1 => caps.minimum,
        2 => caps.maximum,
        _ => caps.minimum + random.below(usize::from(caps.maximum.saturating_sub(caps.minimum)) + 1) as u16,
    }
}

fn throttle_data(random: &mut Random, pairs: &[usize]) -> Vec<u8> {
    let mut data = vec![FORMAT_THROTTLES, occ::VERSION, pairs.len() as u8];
    for pair in pairs {
        data.extend([(pair / 2) as u8, (pair % 2) as u8]);
        let plain = random.one_in(5);
        data.extend(if plain { [0; 10] } else { random.array() });
    }
    data
}

fn throttles(random: &mut Random) -> Vec<u8> {
    let count = random.pick(&[1, 1, 1, 2, 2, 3, 5, 15, 16]);
    let pairs = random.distinct(count, PAIRS);
    throttle_data(random, &pairs)
}

fn thermal_data(random: &mut Random, frus: &[usize]) -> Vec<u8> {
    let mut data = vec![FORMAT_THERMAL, occ::VERSION, frus.len() as u8];
    for fru in frus {
        let [dvfs, error] = scene::thresholds(random);
        data.extend([*fru as u8, dvfs, error, random.byte()]);
    }
    data
}

fn thermal(random: &mut Random) -> Vec<u8> {
    let count = random.between(1, 3);
    let frus = random.distinct(count, 3);
    thermal_data(random, &frus)
}

fn unknown_type(random: &mut Random) -> u8 {
    loop {
        let near = random.pick(&[0x01, 0x10, 0x11, 0x13, 0x1F, 0x23, 0x24, 0x26, 0x40, 0xFF]);
        let kind = if random.one_in(2) { near } else { random.byte() };
        if ![0x00, 0x12, 0x20, 0x21, 0x22, 0x25].contains(&kind) {
            return kind;
        }
    }
}

fn unknown_format(random: &mut Random) -> Vec<u8> {
    let format = random.pick(&[0x00, 0x01, 0x02, 0x04, 0x05, 0x06, 0x08, 0x0F, 0x11, 0x14, 0xFF]);
    let length = random.pick(&[0, 1, 2, 7, 14]);
    let mut data = vec![format];
    data.extend(random.bytes(length));
    data
}

/// Data with one thing off, or at an edge.
pub fn off(random: &mut Random, session: &Session, about: About) -> Content {
    let (kind, mut data) = right(random, session, about);
    match about {
        About::Poll => data[0] = random.pick(&[0x00, 0x0F, 0x11, 0x01, 0x20, 0xFF]),
        About::Clear => data[0] = not_pending(random, session),
        About::State => {
            set_one(random, &mut data, &[(0, 1), (0, 0x10), (1, 0), (1, 4), (1, 255), (2, 1), (2, 255)])
        }
        About::Role => data[1] = random.pick(&[2, 3, 0x80, 0xFF]),
        About::Caps => return (kind, off_caps(random, data)),
        About::Throttles => return (kind, off_throttles(random)),
        About::Thermal => return (kind, off_thermal(random)),
        About::UserCap => data = off_user_cap(random, session).to_be_bytes().to_vec(),
        About::Reset => set_one(random, &mut data, &[(0, 1), (0, 0x10), (1, 3), (1, 255)]),
        About::UnknownType | About::UnknownFormat => {}
    }
    (kind, data)
}

/// The right length, and two to four bytes that may each be wrong: the first of them counts. The format and the count stay.
pub fn several_off(random: &mut Random, session: &Session, about: About) -> Content {
    let (kind, mut data) = right(random, session, about);
    if about == About::Throttles {
        let count = random.pick(&[2, 3, 16, 16, 17]);
        data = throttle_data(random, &all_pairs_and_one()[..count]);
    }
    let set_length = if about == About::Throttles { 12 } else { 4 };
    for _ in 0..random.between(2, 4) {
        // The first three bytes, or one of the first three of a set.
        let sets = data.len().saturating_sub(3).div_ceil(set_length);
        let in_a_set = 3 + set_length * random.below(sets) + random.below(3);
        let place = random.pick(&[0, 1, 2, in_a_set, in_a_set, in_a_set]);
        let fixed = kind == occ::CONFIGURATION && (place == 0 || (place == 2 && data[0] >= FORMAT_THROTTLES));
        if let Some(byte) = data.get_mut(place).filter(|_| !fixed) {
            *byte = random.pick(&[0, 0, 1, 1, 2, 3, 4, 7, 8, 0x10, 0x11, 0xFE, 0xFF]);
        }
    }
    (kind, data)
}

fn set_one(random: &mut Random, data: &mut [u8], choices: &[(usize, u8)]) {
    let (place, value) = random.pick(choices);
    data[place] = value;
}

/// 0, the next id and the neighbours of pending ids.
fn not_pending(random: &mut Random, session: &Session) -> u8 {
    let near = pending_id(random, session);
    let next = session.next_id as u8;
    let any = random.byte();
    random.pick(&[0, near.wrapping_add(1), near.wrapping_sub(1), next, next.wrapping_sub(1), any])
}

fn off_caps(random: &mut Random, mut data: Vec<u8>) -> Vec<u8> {
    if random.one_in(3) {
        data[1] = random.pick(&[0x00, 0x0F, 0x11, 0x20]);
        return data;
    }
    let maximum = random.edge_u16().min(65534);
    let minimum = if random.one_in(3) { random.u16().max(maximum + 1) } else { maximum + 1 };
    caps_data(minimum, maximum, random.u16())
}

/// Hub 8, MBA 2, a pair twice, a wrong count, a count of 0, a wrong version; or an edge that is right.
fn off_throttles(random: &mut Random) -> Vec<u8> {
    let count = random.pick(&[1, 2, 3, 16, 16]);
    let pairs = random.distinct(count, PAIRS);
    let mut data = throttle_data(random, &pairs);
    let set = 3 + 12 * random.below(count);
    match random.below(11) {
        0 => data[set] = 8,
        1 => data[set] = random.pick(&[7, 9, 16, 0x80, 0xFF]),
        2 => data[set + 1] = 2,
        3 => data[set + 1] = random.pick(&[3, 16, 0xFF]),
        4 | 5 => repeat_a_set(random, &mut data, 12, 2),
        6 => data[1] = random.pick(&[0x00, 0x0F, 0x11, 0x20]),
        7 => data[2] = random.near_u16(u16::from(data[2])) as u8,
        8 => data = vec![FORMAT_THROTTLES, occ::VERSION, 0],
        9 => data = throttle_data(random, &all_pairs_and_one()),
        _ => data = vec![FORMAT_THROTTLES, 0x11, 0],
    }
    data
}

/// Seventeen, so that only the last is there twice.
fn all_pairs_and_one() -> Vec<usize> {
    (0..=PAIRS).map(|pair| pair % PAIRS).collect()
}

/// Gives a set the key of another, first, last or any.
fn repeat_a_set(random: &mut Random, data: &mut Vec<u8>, length: usize, key: usize) {
    let count = (data.len() - 3) / length;
    if count == 1 {
        data.extend_from_within(3..3 + length);
        data[2] = 2;
        return;
    }
    let (one, two) = match random.below(3) {
        0 => (0, count - 1),
        1 => (count - 2, count - 1),
        _ => (random.below(count - 1), count - 1),
    };
    let (from, to) = (3 + one * length, 3 + two * length);
    data.copy_within(from..from + key, to);
}

/// FRU 3, a FRU twice, DVFS over ERROR, a wrong count, a count of 0, a wrong version; or an edge, an unset one too.
fn off_thermal(random: &mut Random) -> Vec<u8> {
    let count = random.between(1, 3);
    let frus = random.distinct(count, 3);
    let mut data = thermal_data(random, &frus);
    let set = 3 + 4 * random.below(count);
    match random.below(10) {
        0 => data[set] = 3,
        1 => data[set] = random.pick(&[2, 4, 0x80, 0xFF]),
        2 => data[set + 1] = data[set + 2].saturating_add(1),
        3 => data[set + 1..set + 3].copy_from_slice(&random.pick(&[
            [0xFE, 0xFD],
            [0xFE, 0],
            [0xFF, 0xFE],
            [1, 0],
        ])),
        4 => data[set + 2] = data[set + 1].saturating_sub(1),
        5 => repeat_a_set(random, &mut data, 4, 1),
        6 => data[1] = random.pick(&[0x00, 0x0F, 0x11, 0x20]),
        7 => data[2] = random.near_u16(u16::from(data[2])) as u8,
        8 => data = vec![FORMAT_THERMAL, occ::VERSION, 0],
        _ => data = thermal_data(random, &[0, 1, 2, 0]),
    }
    data
}

fn off_user_cap(random: &mut Random, session: &Session) -> u16 {
    let caps = &session.record.caps;
    let any = random.edge_u16();
    let (minimum, maximum) = (caps.minimum, caps.maximum);
    random.pick(&[minimum.wrapping_sub(1), maximum.wrapping_add(1), minimum, maximum, any, 1])
}

/// One byte more, one less, none, only the format, or many more.
pub fn wrong_length(random: &mut Random, data: &mut Vec<u8>) {
    match random.below(6) {
        0 | 1 => data.push(random.pick(&[0, 1, 0x10])),
        2 | 3 => drop(data.pop()),
        4 => data.truncate(random.below(4)),
        _ => {
            let more = random.between(2, 20);
            data.extend(random.bytes(more));
        }
    }
}

/// Checksum, length field or the command's own end is off; or bytes follow, which is right.
pub fn wrong_frame(random: &mut Random, packet: &mut Vec<u8>) {
    let length = packet.len();
    match random.below(12) {
        0 => set_checksum(packet, |sum| sum.wrapping_add(1)),
        1 => set_checksum(packet, |sum| sum.wrapping_sub(1)),
        2 => set_checksum(packet, u16::swap_bytes),
        3 => set_checksum(packet, |sum| sum ^ 0x0100),
        4 => drop(packet.pop()),
        5 => set_length(packet, |length| length.wrapping_add(1)),
        6 => set_length(packet, |length| length.wrapping_sub(1)),
        7 => set_length(packet, |length| length | 0x1000),
        8 | 9 => {
            let more = random.pick(&[1, 1, 2, 6, 30]);
            packet.extend(random.bytes(more));
        }
        10 => packet.truncate(random.below(7)),
        _ => {
            let place = random.below(length);
            packet[place] ^= 1 << random.below(8);
        }
    }
}

fn set_checksum(packet: &mut [u8], change: fn(u16) -> u16) {
    let Some((_, end)) = packet.split_last_chunk_mut::<2>() else {
        return;
    };
    *end = change(u16::from_be_bytes(*end)).to_be_bytes();
}

/// The checksum at the command's end is made right again.
fn set_length(packet: &mut [u8], change: fn(u16) -> u16) {
    let Some(field) = packet.get_mut(2..4) else {
        return;
    };
    let length = change(u16::from_be_bytes([field[0], field[1]]));
    field.copy_from_slice(&length.to_be_bytes());
    let Some((front, end)) = packet.split_last_chunk_mut::<2>() else {
        return;
    };
    *end = checksum(front).to_be_bytes();
}

pub fn sender(random: &mut Random, command_type: u8) -> u8 {
    let for_bmc = command_type == occ::POLL || command_type == occ::USER_CAP;
    match random.below(40) {
        0 => random.pick(&[0x00, 0x01, 0x0F, 0x11, 0x1F, 0x21, 0x30, 0x40, 0xFF]),
        1 | 2 => occ::BMC,
        3..=14 if for_bmc => occ::BMC,
        _ => occ::HTMGT,
    }
}

pub const KNOWN_TYPES: [u8; 6] = [0x00, 0x12, 0x20, 0x21, 0x22, 0x25];

/// A packet of many bytes, its sum often past 65,535, its command often longer than it.
pub fn long(random: &mut Random, most: usize) -> Vec<u8> {
    let length = random.pick(&[4090, 4090, 4091, 4091, 4089, 4092, 4096, 3063, 1023, 300, 260, 8186]);
    let length = length.min(most);
    let fill = random.pick(&[0xFF, 0xFF, 0xFE, 0x80, 0x00]);
    let mut data = if random.one_in(4) { random.bytes(length) } else { vec![fill; length] };
    let kind = if random.one_in(3) { unknown_type(random) } else { random.pick(&KNOWN_TYPES) };
    let head = random.pick(&[[0x12, 0x10, 0xFF], [0x13, 0x10, 0xFF], [0x05, 0x10, 0x01], [0x03, 1, 0]]);
    data.iter_mut().zip(head).for_each(|(place, byte)| *place = byte);
    let mut packet = command_packet(random.byte(), kind, &data);
    match random.below(8) {
        0 => set_checksum(&mut packet, |sum| sum.wrapping_add(1)),
        1 => set_checksum(&mut packet, |_| 0xFFFF),
        2 => drop(packet.pop()),
        3 => {
            let room = 8192usize.min(most + 100).saturating_sub(packet.len());
            let more = if random.one_in(2) { room } else { random.below(room + 1) };
            packet.extend(random.bytes(more));
        }
        _ => {}
    }
    packet
}

/// Sets enough for a whole count of 255: the length is right, the pairs or FRUs aren't.
pub fn crowded(random: &mut Random) -> Content {
    let (length, format) = random.pick(&[(12, FORMAT_THROTTLES), (4, FORMAT_THERMAL)]);
    let count = random.pick(&[17usize, 18, 255]);
    let mut data = vec![format, occ::VERSION, count as u8];
    for set in 0..count {
        let start = data.len();
        data.resize(start + length, 0);
        let pair = set % PAIRS;
        let key = if length == 12 { [(pair / 2) as u8, (pair % 2) as u8] } else { [(set % 3) as u8, 0] };
        data[start..start + 2].copy_from_slice(&key);
    }
    (occ::CONFIGURATION, data)
}
