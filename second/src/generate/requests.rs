//! SBE requests: right ones, and every way of being refused.

use super::random::Random;
use crate::sbe::{ACKNOWLEDGE_ASKED, RESPONSE_ASKED, START, STOP};

fn frame(random: &mut Random, flags: u16, class: u8, command: u8, registers: [u64; 3]) -> Vec<u8> {
    let reserved = if random.one_in(2) { 0 } else { random.u16() };
    let mut request = reserved.to_be_bytes().to_vec();
    request.extend(flags.to_be_bytes());
    request.extend(random.u16().to_be_bytes());
    request.extend([class, command]);
    registers.iter().for_each(|register| request.extend(register.to_be_bytes()));
    request
}

fn asked(random: &mut Random) -> u16 {
    random.pick(&[0, RESPONSE_ASKED, ACKNOWLEDGE_ASKED, RESPONSE_ASKED | ACKNOWLEDGE_ASKED])
}

fn any_register(random: &mut Random) -> u64 {
    let any = random.u64();
    random.pick(&[0, 1, any, any, u64::MAX, any & 0xFFFF_FFFF, any << 32, 1 << 63])
}

/// Flags that are right, have one more bit, or are anything.
fn flags(random: &mut Random, right: u16) -> u16 {
    match random.below(10) {
        0 => right ^ 1 << random.below(16),
        1 => random.u16(),
        2 => random.pick(&[0x0001, 0x0002, 0x0003, 0x0004, 0x0400, 0x8000, 0x0000, 0x0300, 0x0303]),
        _ => right,
    }
}

pub fn deadman(random: &mut Random) -> Vec<u8> {
    let right = asked(random) | random.pick(&[START, START, STOP]);
    let flags = flags(random, right);
    let registers = [any_register(random), any_register(random), any_register(random)];
    frame(random, flags, 0xD1, 0x01, registers)
}

pub fn cores(random: &mut Random) -> Vec<u8> {
    let right = asked(random);
    let flags = flags(random, right);
    let registers = [any_register(random), any_register(random), any_register(random)];
    frame(random, flags, 0xD1, 0x03, registers)
}

fn size(random: &mut Random) -> u32 {
    let any = random.u64() as u32;
    let blocks = random.below(64) as u32 * 128;
    random.pick(&[0, 0, 128, 256, blocks, blocks, any & !127, 0xFFFF_FF80, 0x8000_0000, 127, 129, 1, any])
}

/// Near the end of 2^64 the sum with the size is just in, just over, or wraps.
fn address(random: &mut Random, size: u32) -> u64 {
    let any = random.u64();
    let up_to_the_end = 0u64.wrapping_sub(u64::from(size));
    match random.below(12) {
        0 => 0,
        1 => up_to_the_end,
        2 => up_to_the_end.wrapping_add(128),
        3 => up_to_the_end.wrapping_sub(128),
        4 => 0u64.wrapping_sub(128),
        5 => any & !127 | random.pick(&[1, 64, 127]),
        6 => any,
        7 => up_to_the_end & !127,
        _ => any & !127,
    }
}

pub fn areas(random: &mut Random) -> Vec<u8> {
    let right = asked(random);
    let flags = flags(random, right);
    let (ffdc, pass) = (size(random), size(random));
    let sizes = u64::from(ffdc) << 32 | u64::from(pass);
    let registers = [sizes, address(random, ffdc), address(random, pass)];
    frame(random, flags, 0xD7, 0x04, registers)
}

pub fn exit_contained(random: &mut Random) -> Vec<u8> {
    let right = asked(random);
    let flags = flags(random, right);
    let registers = [any_register(random), any_register(random), any_register(random)];
    frame(random, flags, 0xD1, 0x02, registers)
}

/// The chiplets at the ends of the table's ranges and next to them.
const CHIPLETS_ABOUT: [u8; 24] = [
    0x00, 0x01, 0x02, 0x03, 0x04, 0x07, 0x08, 0x09, 0x0A, 0x0B, 0x0C, 0x0F, 0x10, 0x14, 0x15, 0x17, 0x18,
    0x1F, 0x20, 0x27, 0x28, 0x7F, 0xFE, 0xFF,
];

pub fn ring(random: &mut Random) -> Vec<u8> {
    let (any, any_byte) = (random.u16(), random.byte());
    let target = random.pick(&[0, 1, 1, 1, 1, 2, 2, 3, 3, 4, 4, 5, 6, 0x0100, 0x0101, 0xFFFF, any]);
    let chiplet = if random.one_in(6) { any_byte } else { random.pick(&CHIPLETS_ABOUT) };
    let reserved = random.pick(&[0, 0, 1, any_byte]);
    let rest = random.u64() & 0xFFFF_FFFF;
    let first = u64::from(target) << 48 | u64::from(reserved) << 40 | u64::from(chiplet) << 32 | rest;
    let right = asked(random);
    let flags = flags(random, right);
    let registers = [first, any_register(random), any_register(random)];
    frame(random, flags, 0xD3, 0x01, registers)
}

pub fn timer(random: &mut Random) -> Vec<u8> {
    let right = asked(random) | random.pick(&[START, START, START, STOP]);
    let flags = flags(random, right);
    let any = random.u64();
    let timeout = random.pick(&[0, 1, 2, 100, any % 1000, any % 1000, any & 0xFFFF_FFFF, 0xFFFF_FFFF]);
    let reserved = random.pick(&[0, 0, 1 << 32, any & !0xFFFF_FFFF]);
    let registers = [reserved | timeout, any_register(random), any_register(random)];
    frame(random, flags, 0xD4, 0x01, registers)
}

/// Of an image of that length: what stands at its end or goes past it most of all.
pub fn seeprom(random: &mut Random, image: usize) -> Vec<u8> {
    let end = image.min(65536) as u64 & !7;
    let any = random.u64();
    let inside = any % (end / 8 + 1) * 8;
    let offset = match random.below(12) {
        0 => end,
        1 => end.saturating_sub(8),
        2 => end + 8,
        3 => random.pick(&[65528, 65536, 0xFFFF_FFF8, 0xFFFF_FFFF, 1 << 31]),
        4 => inside + random.pick(&[1, 2, 4, 7]),
        5 | 6 => 0,
        _ => inside,
    };
    let left = end.saturating_sub(offset);
    let size = match random.below(12) {
        0 => 0,
        1 | 2 => left,
        3 => left + 8,
        4 => left.saturating_sub(8),
        5 => {
            random.pick(&[65536, 0xFFFF_FFF8, 0xFFFF_FFFF, 1 << 31, 0u64.wrapping_sub(offset) & 0xFFFF_FFFF])
        }
        6 => left.min(64) + random.pick(&[1, 2, 4, 7]),
        7 => left + random.pick(&[1, 7]),
        _ => left.min(8 * (any >> 32 & 15)),
    };
    let right = asked(random);
    let flags = flags(random, right);
    let registers = [offset << 32 | size & 0xFFFF_FFFF, any_register(random), any_register(random)];
    frame(random, flags, 0xD7, 0x03, registers)
}

/// Classes and commands, known and unknown.
pub fn stray(random: &mut Random) -> Vec<u8> {
    let any = random.byte();
    let classes = [0xD1, 0xD3, 0xD4, 0xD5, 0xD6, 0xD7, 0xD0, 0xD2, 0xD8, 0x00, 0xFF, 0x01, any];
    let class = random.pick(&classes);
    let command = random.pick(&[0x00, 0x01, 0x02, 0x03, 0x04, 0x05, 0x06, 0x0C, 0xFF, any]);
    let right = asked(random);
    let flags = flags(random, right);
    let registers = [any_register(random), any_register(random), any_register(random)];
    frame(random, flags, class, command, registers)
}

/// Of any sort, with a SEEPROM's image of that length lent.
pub fn any(random: &mut Random, image: usize) -> Vec<u8> {
    let mut request = match random.below(20) {
        0..=2 => deadman(random),
        3 | 4 => cores(random),
        5..=8 => areas(random),
        9..=11 => timer(random),
        12 | 13 => ring(random),
        14 | 15 => seeprom(random, image),
        16 => exit_contained(random),
        _ => stray(random),
    };
    match random.below(24) {
        0 => request.truncate(random.pick(&[0, 1, 7, 8, 16, 24, 31, 31])),
        1 => {
            let more = random.pick(&[1, 1, 8, 32]);
            request.extend(random.bytes(more));
        }
        _ => {}
    }
    request
}
