//! Lines that aren't understood, of each sort the protocol's page names, and lines just inside its bounds.

use super::random::Random;
use crate::image::IMAGE_LENGTH;
use crate::plan::SLOT;
use crate::protocol::{LONGEST_COMMAND, LONGEST_LINE, LONGEST_SEEPROM, LONGEST_SENT};
use crate::save::NEW_LENGTH;

const SHORT: &[&str] = &[
    "poll",
    "OCC 10 01",
    "Undo",
    "occ10 01 00",
    "undo,",
    "sbe:",
    "   \t fresh! now",
    "? what",
    "x # not a comment",
    "occ",
    "occ  \t ",
    "occ 1",
    "occ 1 0",
    "occ zz",
    "occ 1g 00",
    "occ #10",
    "occ 10 0",
    "occ 10 0 1",
    "occ 10 01 0g",
    "occ 10 01,02",
    "occ 10 0x10",
    "\tocc 10 01 00 00 01 10 00 1",
    "occ 10 01 00 00 01 10 00 12 # comment",
    "sbe 0",
    "sbe 00 0\t0",
    "sbe 00112233445566778899aabbccddeeffG0",
    "sbe -1",
    "send",
    "send 10",
    "send 10 ",
    "send 10 2",
    "send 1021 0",
    "send x0 21",
    "send 10 y1",
    "send 10 21 03 0",
    "send 10 21 03 01.",
    "undo 1",
    "undo undo",
    "redo 1",
    "redo\tredo",
    "Redo",
    "redo,",
    "redone",
    "forget",
    "forget  \t",
    "forget -1",
    "forget x",
    "forget 1x",
    "forget 1 2",
    "forget 4294967296",
    "forget  000004294967296 x",
    "forget 18446744073709551616",
    "forget1",
    "Forget 1",
    "time",
    "time\t ",
    "time -1",
    "time 1.5",
    "time 1 2",
    "time 18446744073709551616",
    "time 0018446744073709551616x",
    "time 99999999999999999999999",
    "times 1",
    "time1",
    "seeprom 0",
    "seeprom 0g",
    "seeprom 00 1",
    "seeprom 00,",
    "Seeprom 00",
    "seeproms",
    "packet 0",
    "packet 0g",
    "packet 01 0",
    "packets",
    "Packet 00",
    "plan",
    "plan \t",
    "plan x",
    "plan 256",
    "plan  0000256x",
    "plan 2 3",
    "plan 2,",
    "plan2",
    "planned 2",
    "save 1",
    "Save",
    "saved",
    "restore",
    "restore 0",
    "restore 0g",
    "restore 01 02 03",
    "restored",
    "watch 1",
    "watch\twatch",
    "Watch",
    "watching",
    "why 1",
    "why\twhy",
    "why?",
    "Why",
    "fresh\t.",
    "image  #",
    "show 00",
    "journal 0",
    "  help me",
    "load",
    "load 0",
    "load 00 11 22",
    "load 0 0",
    "load q",
    "buffers",
    "buffer4096",
    "Buffer 32",
    "buffer x",
    "buffer \t-1",
    "buffer +1",
    "buffer #",
    "buffer /1",
    "buffer :1",
    "buffer 12x",
    "buffer 0x20",
    "buffer 12 x",
    "buffer 1 2",
    "buffer 8,192",
    "buffer 8193",
    "buffer  \t 0008193 ",
    "buffer 8193x",
    "buffer 9999 x",
    "buffer 65568",
    "buffer 4294967328",
    "buffer 18446744073709551615",
    "buffer 18446744073709551648 x",
    "buffer 340282366920938463463374607431768211488",
];

/// Comments, blank lines and words with blanks around: all fine.
const FINE: &[&str] = &[
    "",
    " ",
    "\t",
    "# a comment",
    "  \t# occ 10",
    "#",
    " help ",
    "\tshow",
    "journal\t\t",
    "image   ",
    "\tredo ",
];

pub fn short_count() -> usize {
    SHORT.len()
}

pub fn short(number: usize) -> Vec<u8> {
    SHORT.get(number).map_or(vec![], |line| line.as_bytes().to_vec())
}

pub fn fine(random: &mut Random) -> Vec<u8> {
    random.pick(FINE).as_bytes().to_vec()
}

/// Bytes no one would type: returns inside, zeros, high bytes.
pub fn odd(random: &mut Random) -> Vec<u8> {
    let mut line = random
        .pick(&[
            &b"\r"[..],
            b"undo\r",
            b"undo \r\r",
            b"\xC3\xA9",
            b"\0",
            b"occ 10 \xFF0",
            b"occ 10 \r1",
            b"sbe 0\0",
            b"\x0Bundo",
            b"undo\x0C",
            b"redo\r",
            b"redo \0",
        ])
        .to_vec();
    if random.one_in(3) {
        line.insert(0, random.pick(b" \t"));
    }
    line
}

const LONG_COUNT: usize = 32;

/// Numbers that a small file can do without.
pub const MORE_OF_THE_SAME: [usize; 7] = [0, 1, 5, 6, 7, 10, 24];

pub fn long_count() -> usize {
    LONG_COUNT
}

fn repeated(head: &str, part: &str, count: usize, tail: &str) -> Vec<u8> {
    let mut line = head.as_bytes().to_vec();
    line.extend(part.as_bytes().repeat(count));
    line.extend(tail.as_bytes());
    line
}

fn padded(head: &str, pad: u8, length: usize) -> Vec<u8> {
    let mut line = head.as_bytes().to_vec();
    line.resize(length.max(line.len()), pad);
    line
}

/// Lines at and over the bounds of line, command and image.
pub fn long(random: &mut Random, number: usize) -> Vec<u8> {
    let most = LONGEST_COMMAND;
    match number {
        0 => padded("", b' ', LONGEST_LINE + 1),
        1 => padded("#", b'#', LONGEST_LINE + 1),
        2 => padded("undo", b' ', LONGEST_LINE + 1),
        3 => padded("occ 10 ", b'0', LONGEST_LINE + random.between(1, 3000)),
        4 => padded("undo", b' ', LONGEST_LINE),
        5 => padded("# ", b'x', LONGEST_LINE),
        6 => padded("show", b'\t', LONGEST_LINE),
        7 => padded("zz", b'z', LONGEST_LINE),
        8 => repeated("occ 10 ", "01", most, ""),
        9 => repeated("occ 10 ", "01", most, "02"),
        10 => repeated("occ 20", " ff", most, "  zz"),
        11 => repeated("sbe ", "00", most, "\t\t "),
        12 => repeated("sbe", " 00", most, " 1"),
        13 => repeated("send 10 00 ", "FF", LONGEST_SENT, " "),
        14 => repeated("send 10 00 ", "FF", LONGEST_SENT, " 0"),
        15 => repeated("send 1021", "13", LONGEST_SENT, "x"),
        16 => repeated("load ", "00", IMAGE_LENGTH - 1, ""),
        17 => repeated("load ", "00", IMAGE_LENGTH, " 00"),
        18 => repeated("load ", "00", IMAGE_LENGTH, " z"),
        19 => repeated("load", " 00", IMAGE_LENGTH - 1, " 0z"),
        20 => padded("buffer ", b'9', LONGEST_LINE),
        21 => repeated("buffer ", "0", LONGEST_LINE - 11, "4096"),
        22 => repeated("seeprom ", "5A", LONGEST_SEEPROM, " "),
        23 => repeated("seeprom ", "5A", LONGEST_SEEPROM, " zz"),
        24 => repeated("seeprom", " 5A", LONGEST_SEEPROM, "5A"),
        25 => repeated("packet ", "5A", SLOT, " "),
        26 => repeated("packet ", "5A", SLOT, " z"),
        27 => repeated("packet", " 5A", SLOT, "5A"),
        28 => b"packet".to_vec(),
        29 => repeated("restore ", "00", NEW_LENGTH, ""),
        30 => repeated("restore ", "01", NEW_LENGTH + 1, " "),
        _ => repeated("restore ", "01", 16380, ""),
    }
}
