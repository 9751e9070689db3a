//! Ways to write a line that mean the same: blanks, tabs, either case.

use super::random::Random;

/// How the bytes of one line are written.
#[derive(Clone, Copy, PartialEq, Eq)]
pub enum Style {
    Compact,
    Spaced,
    Ragged,
}

pub fn style(random: &mut Random, small: bool) -> Style {
    match random.below(10) {
        0 if !small => Style::Ragged,
        1..=4 if !small => Style::Spaced,
        0 if random.one_in(4) => Style::Ragged,
        _ => Style::Compact,
    }
}

fn blanks(random: &mut Random, line: &mut Vec<u8>, most: usize) {
    for _ in 0..random.below(most + 1) {
        line.push(random.pick(b" \t "));
    }
}

fn digit(random: &mut Random, value: u8, style: Style, capitals: bool) -> u8 {
    let capital = if style == Style::Ragged { random.one_in(2) } else { capitals };
    let digits = if capital { b"0123456789ABCDEF" } else { b"0123456789abcdef" };
    digits[usize::from(value & 15)]
}

pub fn bytes(random: &mut Random, line: &mut Vec<u8>, bytes: &[u8], style: Style) {
    let capitals = random.one_in(2);
    for byte in bytes {
        match style {
            Style::Compact => {}
            Style::Spaced => line.push(b' '),
            Style::Ragged => blanks(random, line, 2),
        }
        line.push(digit(random, byte >> 4, style, capitals));
        line.push(digit(random, byte & 15, style, capitals));
    }
}

/// A word and a number, with more blanks than needed now and then.
pub fn number_line(random: &mut Random, word: &str, number: &str) -> Vec<u8> {
    let mut line = Vec::new();
    let most = if random.one_in(4) { 3 } else { 0 };
    blanks(random, &mut line, most);
    line.extend(word.as_bytes());
    line.push(random.pick(b"     \t"));
    blanks(random, &mut line, most);
    line.extend(number.as_bytes());
    blanks(random, &mut line, most);
    line
}

/// A word and bytes in the given style, with blanks around now and then.
pub fn line(random: &mut Random, word: &str, parts: &[&[u8]], style: Style) -> Vec<u8> {
    let mut line = Vec::new();
    let stray = random.one_in(12);
    if stray {
        blanks(random, &mut line, 3);
    }
    line.extend(word.as_bytes());
    for (place, part) in parts.iter().enumerate() {
        // A blank after the word is needed, the others aren't.
        if place == 0 || !random.one_in(8) {
            line.push(random.pick(b"     \t"));
        }
        bytes(random, &mut line, part, style);
    }
    if stray {
        blanks(random, &mut line, 3);
    }
    line
}
