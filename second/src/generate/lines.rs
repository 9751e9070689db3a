//! The bench that writes lines for `standin`, spelled in many ways.

use super::random::Random;
use super::spelling::{self, Style};
use super::{Bench, Generator};
use crate::protocol::{parse, Order, Program, LONGEST_SEEPROM};
use crate::session::Session;
use std::io::Write;

/// Writes lines and lets this program answer them, so that the session is always known.
struct Lines {
    program: Program,
    text: Vec<u8>,
    left: u64,
    small: bool,
}

pub fn generate(count: u64, seed: u64, small: bool, output: &mut impl Write) -> std::io::Result<()> {
    let lines = Lines { program: Program::default(), text: Vec::new(), left: count, small };
    let mut generator = Generator::new(seed, small, lines);
    generator.tour();
    generator.bench.write_to(output)?;
    while generator.bench.left > 0 {
        generator.episode();
        generator.bench.write_to(output)?;
    }
    generator.bench.finish(&mut generator.random);
    generator.bench.write_to(output)
}

/// All but what looks at the session, puts another in its place or lends buffers.
fn is_call(order: &Order) -> bool {
    let looks =
        matches!(order, Order::Image | Order::Save | Order::Why | Order::Show | Order::Journal | Order::Help);
    let lends = matches!(order, Order::Buffer(_) | Order::Seeprom(_) | Order::Packet(_));
    !looks && !lends && !matches!(order, Order::Fresh | Order::Load(_) | Order::Restore(_))
}

impl Bench for Lines {
    fn session(&mut self) -> &Session {
        &self.program.session
    }

    fn left(&self) -> u64 {
        self.left
    }

    fn seeprom(&self) -> usize {
        self.program.seeprom.len()
    }

    fn longest_seeprom(&self) -> usize {
        if self.small {
            100
        } else {
            LONGEST_SEEPROM
        }
    }

    fn give(&mut self, random: &mut Random, order: Order) {
        match &order {
            Order::Occ { sender, command } => self.line(random, "occ", &[&[*sender], command]),
            Order::Send { sender, command_type, data } => {
                self.line(random, "send", &[&[*sender], &[*command_type], data])
            }
            Order::Sbe(request) => self.line(random, "sbe", &[request]),
            Order::Load(image) => self.line(random, "load", &[image]),
            Order::Buffer(Some(length)) => self.number(random, "buffer", *length as u64),
            Order::Save => self.line(random, "save", &[]),
            Order::Restore(saved) => self.line(random, "restore", &[saved]),
            Order::Packet(packet) => self.line(random, "packet", &[packet]),
            Order::Plan(wanted) => self.number(random, "plan", u64::from(*wanted)),
            Order::Watch => self.line(random, "watch", &[]),
            Order::Time(microseconds) => self.number(random, "time", *microseconds),
            Order::Seeprom(image) => self.line(random, "seeprom", &[image]),
            Order::Buffer(None) => self.line(random, "buffer", &[]),
            Order::Undo => self.line(random, "undo", &[]),
            Order::Redo => self.line(random, "redo", &[]),
            Order::Forget(count) => self.number(random, "forget", u64::from(*count)),
            Order::Fresh => self.line(random, "fresh", &[]),
            Order::Image => self.line(random, "image", &[]),
            Order::Why => self.line(random, "why", &[]),
            Order::Show => self.line(random, "show", &[]),
            Order::Journal => self.line(random, "journal", &[]),
            Order::Help => self.line(random, "help", &[]),
        }
    }

    /// Writes a line, unless all calls are made, and asks `why` after a call. A return at its end is the line end's.
    fn say(&mut self, random: &mut Random, line: &[u8]) {
        if self.left == 0 {
            return;
        }
        self.text.extend(line);
        let was_call = if random.one_in(10) {
            self.text.push(b'\r');
            self.take_in(line)
        } else {
            self.take_in(line.strip_suffix(b"\r").unwrap_or(line))
        };
        self.text.push(b'\n');
        if was_call {
            self.text.extend(random.pick(&[&b"why\n"[..], b"why\n", b"why\n", b" why\t\n", b"why\r\n"]));
        }
    }
}

impl Lines {
    fn write_to(&mut self, output: &mut impl Write) -> std::io::Result<()> {
        output.write_all(&self.text)?;
        self.text.clear();
        Ok(())
    }

    /// True for a call.
    fn take_in(&mut self, line: &[u8]) -> bool {
        let Some(Ok(order)) = parse(line) else {
            return false;
        };
        let call = is_call(&order);
        self.left -= u64::from(call);
        self.program.obey(order);
        call
    }

    /// The end of a file: the whole session once more, and a last line without a line feed.
    fn finish(&mut self, random: &mut Random) {
        self.text.extend(b"show\njournal\nimage");
        if random.one_in(2) {
            self.text.extend(b"\r");
        }
    }

    fn line(&mut self, random: &mut Random, word: &str, parts: &[&[u8]]) {
        let bytes: usize = parts.iter().map(|part| part.len()).sum();
        let mut style = spelling::style(random, self.small);
        if bytes > 4200 {
            style = Style::Compact; // spelled wider, it might pass the longest line
        }
        let line = spelling::line(random, word, parts, style);
        self.say(random, &line);
    }

    /// With zeros before the number now and then.
    fn number(&mut self, random: &mut Random, word: &str, number: u64) {
        let zeros = if random.one_in(6) { random.between(1, 30) } else { 0 };
        let line = spelling::number_line(random, word, &format!("{}{number}", "0".repeat(zeros)));
        self.say(random, &line);
    }
}
