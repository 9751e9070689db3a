//! The line protocol: lines in, lines out.

use crate::bytes::{hex, hex_spaced};
use crate::calls::{OccAnswer, Undone, DONE, NOT_WELL_FORMED, OCC_REPLY_LENGTH, SBE_REPLY_LENGTH, WONT_READ};
use crate::image::{self, IMAGE_LENGTH};
use crate::occ::{command_packet, Fault};
use crate::plan::{slots, MOST_PACKETS, SLOT};
use crate::save::{read_new, write_new};
use crate::sbe::SEEPROM_LENGTH;
use crate::session::Session;
use crate::show::{journal_listing, show};
use std::io::{BufRead, BufReader, Read, Write};

pub const LONGEST_LINE: usize = 32768;
pub const LONGEST_COMMAND: usize = 8192;
/// A packet adds six bytes to the data.
pub const LONGEST_SENT: usize = LONGEST_COMMAND - 6;
pub const LONGEST_BUFFER: u64 = 8192;
/// One more than a plan takes, so that a line can ask for too many.
pub const MOST_PREPARED: usize = 6;
/// Of a line; a file may lend more.
pub const LONGEST_SEEPROM: usize = 8192;

fn help() -> String {
    format!(
        "\
occ SS BYTES      an OCC command from sender SS (10 HTMGT, 20 BMC)
sbe BYTES         an SBE mailbox request of 32 bytes
undo              take the newest change back
redo              put the change last taken back in again
forget N          forget the N oldest changes
time N            N microseconds have passed
watch             go on with a watch-only session over this one
fresh             begin again with a fresh session
image             the session as {IMAGE_LENGTH} bytes
load BYTES        go on with the session of such an image
save              the session in the form for keeping
restore BYTES     go on with the session of such a form
send SS TT DATA   as occ: a packet of type TT, framed for you
buffer N          reply buffers of N bytes; alone: whole ones again
seeprom BYTES     lend these bytes as the SEEPROM's image
packet BYTES      prepare a packet for a plan; alone: drop all
plan N            in which order prepared packets lead to state N
why               which data byte the last packet had wrong
show              the session for a person
journal           the journal's entries
help              these words
.
"
    )
}

/// A line that was understood.
#[derive(Debug, PartialEq, Eq)]
pub enum Order {
    Occ {
        sender: u8,
        command: Vec<u8>,
    },
    Sbe(Vec<u8>),
    Undo,
    Redo,
    Forget(u32),
    Time(u64),
    Watch,
    Fresh,
    Image,
    Load(Vec<u8>),
    Save,
    Restore(Vec<u8>),
    Send {
        sender: u8,
        command_type: u8,
        data: Vec<u8>,
    },
    /// Reply buffers of that length; `None`: whole ones.
    Buffer(Option<usize>),
    /// The image of the SEEPROM that is lent from now on.
    Seeprom(Vec<u8>),
    /// Prepared as the next one; without bytes all are dropped.
    Packet(Vec<u8>),
    Plan(u8),
    Why,
    Show,
    Journal,
    Help,
}

pub type Complaint = String;

fn is_blank(byte: u8) -> bool {
    byte == b' ' || byte == b'\t'
}

fn digit(byte: u8) -> Option<u8> {
    char::from(byte).to_digit(16).map(|value| value as u8)
}

/// Reads a line from left to right.
struct Scanner<'a> {
    line: &'a [u8],
    at: usize,
}

impl Scanner<'_> {
    fn peek(&self) -> Option<u8> {
        self.line.get(self.at).copied()
    }

    fn column(&self) -> usize {
        self.at + 1
    }

    fn skip_blanks(&mut self) {
        while self.peek().is_some_and(is_blank) {
            self.at += 1;
        }
    }

    /// All bytes up to the next blank or the line's end.
    fn word(&mut self) -> &[u8] {
        let start = self.at;
        while self.peek().is_some_and(|byte| !is_blank(byte)) {
            self.at += 1;
        }
        self.line.get(start..self.at).unwrap_or(&[])
    }

    fn digit(&mut self) -> Result<u8, Complaint> {
        let value = self.peek().and_then(digit);
        let value = value.ok_or_else(|| format!("? hex digit expected at column {}", self.column()))?;
        self.at += 1;
        Ok(value)
    }

    /// Blanks may stand before a byte, not inside it.
    fn byte(&mut self) -> Result<u8, Complaint> {
        self.skip_blanks();
        Ok(self.digit()? << 4 | self.digit()?)
    }

    /// A decimal number, at most `most`: all digits up to the first byte that is none, however many they are.
    fn number(&mut self, most: u64) -> Result<u64, Complaint> {
        self.skip_blanks();
        let column = self.column();
        let mut value = Some(0u64); // `None` once it passes what 64 bits hold
        while let Some(byte @ b'0'..=b'9') = self.peek() {
            value = value.and_then(|value| value.checked_mul(10)?.checked_add(u64::from(byte - b'0')));
            self.at += 1;
        }
        if self.column() == column {
            return Err(format!("? number expected at column {column}"));
        }
        value.filter(|value| *value <= most).ok_or_else(|| format!("? number over {most} at column {column}"))
    }

    /// All bytes to the line's end; `over` words the complaint about one past the most.
    fn bytes(&mut self, most: usize, over: fn(usize) -> Complaint) -> Result<Vec<u8>, Complaint> {
        let mut bytes = Vec::new();
        loop {
            self.skip_blanks();
            if self.peek().is_none() {
                return Ok(bytes);
            }
            if bytes.len() == most {
                return Err(over(self.column()));
            }
            bytes.push(self.byte()?);
        }
    }

    fn nothing_more(&mut self, order: Order) -> Result<Order, Complaint> {
        self.skip_blanks();
        match self.peek() {
            None => Ok(order),
            Some(_) => Err(format!("? nothing more expected at column {}", self.column())),
        }
    }
}

fn command_over(column: usize) -> Complaint {
    format!("? command over 8192 bytes at column {column}")
}

fn seeprom_over(column: usize) -> Complaint {
    format!("? seeprom over {LONGEST_SEEPROM} bytes at column {column}")
}

fn packet_over(column: usize) -> Complaint {
    format!("? packet over {SLOT} bytes at column {column}")
}

fn wrong_image(_column: usize) -> Complaint {
    format!("? image must be {IMAGE_LENGTH} bytes")
}

/// `None` for a line that is skipped. The line comes without its end.
pub fn parse(line: &[u8]) -> Option<Result<Order, Complaint>> {
    if line.len() > LONGEST_LINE {
        return Some(Err("? line over 32768 bytes at column 32769".to_string()));
    }
    let mut scanner = Scanner { line, at: 0 };
    scanner.skip_blanks();
    match scanner.peek() {
        None | Some(b'#') => None,
        Some(_) => Some(parse_words(&mut scanner)),
    }
}

fn parse_words(rest: &mut Scanner) -> Result<Order, Complaint> {
    let column = rest.column();
    match rest.word() {
        b"occ" => {
            Ok(Order::Occ { sender: rest.byte()?, command: rest.bytes(LONGEST_COMMAND, command_over)? })
        }
        b"sbe" => Ok(Order::Sbe(rest.bytes(LONGEST_COMMAND, command_over)?)),
        b"send" => Ok(Order::Send {
            sender: rest.byte()?,
            command_type: rest.byte()?,
            data: rest.bytes(LONGEST_SENT, command_over)?,
        }),
        b"load" => parse_image(rest),
        b"buffer" => parse_buffer(rest),
        b"undo" => rest.nothing_more(Order::Undo),
        b"redo" => rest.nothing_more(Order::Redo),
        b"forget" => {
            let count = rest.number(u32::MAX.into())?;
            rest.nothing_more(Order::Forget(count as u32))
        }
        b"time" => {
            let microseconds = rest.number(u64::MAX)?;
            rest.nothing_more(Order::Time(microseconds))
        }
        b"save" => rest.nothing_more(Order::Save),
        // More than any line has: the form decides, not the line.
        b"restore" => Ok(Order::Restore(rest.bytes(LONGEST_LINE, command_over)?)),
        b"packet" => Ok(Order::Packet(rest.bytes(SLOT, packet_over)?)),
        b"plan" => {
            let wanted = rest.number(u8::MAX.into())?;
            rest.nothing_more(Order::Plan(wanted as u8))
        }
        b"watch" => rest.nothing_more(Order::Watch),
        b"seeprom" => Ok(Order::Seeprom(rest.bytes(LONGEST_SEEPROM, seeprom_over)?)),
        b"fresh" => rest.nothing_more(Order::Fresh),
        b"image" => rest.nothing_more(Order::Image),
        b"why" => rest.nothing_more(Order::Why),
        b"show" => rest.nothing_more(Order::Show),
        b"journal" => rest.nothing_more(Order::Journal),
        b"help" => rest.nothing_more(Order::Help),
        _ => Err(format!("? unknown word at column {column}")),
    }
}

fn parse_image(rest: &mut Scanner) -> Result<Order, Complaint> {
    let bytes = rest.bytes(IMAGE_LENGTH, wrong_image)?;
    if bytes.len() == IMAGE_LENGTH {
        Ok(Order::Load(bytes))
    } else {
        Err(wrong_image(rest.column()))
    }
}

fn parse_buffer(rest: &mut Scanner) -> Result<Order, Complaint> {
    rest.skip_blanks();
    if rest.peek().is_none() {
        return Ok(Order::Buffer(None));
    }
    let length = rest.number(LONGEST_BUFFER)?;
    rest.nothing_more(Order::Buffer(Some(length as usize)))
}

/// The session, the sequence number of the last `send`, the length of reply buffers if they aren't whole, the SEEPROM's image, the
/// buffer for what is read from it, the packets that are prepared for a plan, and what the last OCC call had wrong.
pub struct Program {
    pub session: Session,
    sequence: u8,
    buffer: Option<usize>,
    pub seeprom: Vec<u8>,
    data: Vec<u8>,
    pub packets: Vec<Vec<u8>>,
    pub fault: Option<Fault>,
}

impl Default for Program {
    fn default() -> Self {
        Program::with_seeprom(Vec::new())
    }
}

impl Program {
    /// At the start, with that image lent.
    pub fn with_seeprom(seeprom: Vec<u8>) -> Self {
        let data = vec![0; SEEPROM_LENGTH];
        Program {
            session: Session::fresh(),
            sequence: 0,
            buffer: None,
            seeprom,
            data,
            packets: Vec::new(),
            fault: None,
        }
    }

    /// What is written for a line, empty for one that is skipped.
    pub fn answer(&mut self, line: &[u8]) -> String {
        match parse(line) {
            None => String::new(),
            Some(Err(complaint)) => complaint + "\n",
            Some(Ok(order)) => self.obey(order),
        }
    }

    pub fn obey(&mut self, order: Order) -> String {
        match order {
            Order::Occ { sender, command } => self.occ(sender, &command),
            Order::Sbe(request) => self.sbe(&request),
            Order::Send { sender, command_type, data } => {
                self.sequence = self.sequence.wrapping_add(1);
                self.occ(sender, &command_packet(self.sequence, command_type, &data))
            }
            Order::Undo => undone(self.session.undo()),
            Order::Redo => redone(self.session.redo()),
            Order::Forget(count) => format!("{}\n", self.session.forget(count)),
            Order::Time(microseconds) => match self.session.time(microseconds) {
                (DONE, bell) => format!("{DONE} bell {bell:04X}\n"),
                (answer, _) => format!("{answer}\n"),
            },
            Order::Save if self.session.well_formed() => format!("save {}\n", hex(&write_new(&self.session))),
            Order::Save => format!("{NOT_WELL_FORMED}\n"),
            Order::Restore(saved) => match read_new(&saved) {
                Some(session) => {
                    self.session = session;
                    format!("{DONE}\n")
                }
                None => format!("{WONT_READ}\n"),
            },
            Order::Packet(packet) => self.prepare(packet),
            Order::Plan(wanted) => self.plan(wanted),
            Order::Watch => format!("{}\n", self.session.watch()),
            Order::Seeprom(bytes) => {
                self.seeprom = bytes;
                "ok\n".to_string()
            }
            Order::Fresh => self.go_on_with(Some(Session::fresh())),
            Order::Load(bytes) => self.go_on_with(image::read(&bytes)),
            Order::Buffer(length) => {
                self.buffer = length;
                "ok\n".to_string()
            }
            Order::Why => match self.fault {
                Some(fault) => format!("{} {}\n", fault.byte, fault.reason.words()),
                None => "0\n".to_string(),
            },
            Order::Image => format!("image {}\n", hex(&image::write(&self.session))),
            Order::Show => show(&self.session),
            Order::Journal => journal_listing(&self.session) + ".\n",
            Order::Help => help(),
        }
    }

    fn go_on_with(&mut self, session: Option<Session>) -> String {
        match session {
            Some(session) => {
                self.session = session;
                "ok\n".to_string()
            }
            None => wrong_image(0) + "\n",
        }
    }

    fn occ(&mut self, sender: u8, command: &[u8]) -> String {
        let mut reply = vec![0; self.buffer.unwrap_or(OCC_REPLY_LENGTH)];
        let OccAnswer { answer, length, fault } = self.session.occ(sender, command, &mut reply);
        self.fault = fault;
        match reply.get(..length) {
            Some(written) if answer == DONE => format!("{answer} {}\n", hex_spaced(written)),
            _ => format!("{answer}\n"),
        }
    }

    fn sbe(&mut self, request: &[u8]) -> String {
        let mut response = vec![0; self.buffer.unwrap_or(SBE_REPLY_LENGTH)];
        let told = self.session.sbe_seeprom(request, &mut response, &self.seeprom, &mut self.data);
        match response.get(..SBE_REPLY_LENGTH) {
            Some(written) if told.answer == DONE => {
                let (written, data) = (hex_spaced(written), self.served(told.served));
                format!("{DONE} {written} bell {:04X}{data}\n", told.bell)
            }
            _ => format!("{}\n", told.answer),
        }
    }

    fn prepare(&mut self, packet: Vec<u8>) -> String {
        if packet.is_empty() {
            self.packets.clear();
        } else if self.packets.len() == MOST_PREPARED {
            return "? six packets at most\n".to_string();
        } else {
            self.packets.push(packet);
        }
        "ok\n".to_string()
    }

    fn plan(&self, wanted: u8) -> String {
        match self.session.plan(&slots(&self.packets), wanted, &mut [0; MOST_PACKETS]) {
            (DONE, Some(order)) => {
                let numbers: String = order.iter().map(|number| format!(" {number}")).collect();
                format!("{DONE} plan{numbers}\n")
            }
            (DONE, None) => format!("{DONE} no plan\n"),
            (answer, _) => format!("{answer}\n"),
        }
    }

    /// What a read of the SEEPROM adds to the line.
    fn served(&self, length: Option<usize>) -> String {
        match length.and_then(|length| self.data.get(..length)) {
            None => String::new(),
            Some([]) => " data".to_string(),
            Some(read) => format!(" data {}", hex(read)),
        }
    }
}

/// The answer of an undo; if it was done, the kind and the number passed.
fn undone(told: Undone) -> String {
    match told.answer {
        DONE => format!("{DONE} {:02X} {}\n", told.kind, told.passed),
        answer => format!("{answer}\n"),
    }
}

/// The answer of a redo, and the kind if it was done.
fn redone((answer, kind): (u8, u8)) -> String {
    match answer {
        DONE => format!("{DONE} {kind:02X}\n"),
        _ => format!("{answer}\n"),
    }
}

/// Takes bytes and hands out lines; of a line that is too long it keeps just enough to tell.
#[derive(Default)]
pub struct Lines {
    kept: Vec<u8>,
    ended_in_return: bool,
    length: usize,
}

impl Lines {
    /// Adds a part of a line, its line feed not included.
    fn add(&mut self, part: &[u8]) {
        let space = (LONGEST_LINE + 1).saturating_sub(self.kept.len());
        self.kept.extend(part.iter().take(space));
        self.length += part.len();
        if let Some(last) = part.last() {
            self.ended_in_return = *last == b'\r';
        }
    }

    /// The line without its end, and ready for the next. One return belongs to the line's end.
    fn take(&mut self) -> Vec<u8> {
        let length = self.length - usize::from(self.ended_in_return);
        let mut line = std::mem::take(&mut self.kept);
        line.truncate(length);
        *self = Lines::default();
        line
    }

    fn is_empty(&self) -> bool {
        self.length == 0
    }
}

/// Answers every line, with that image of the SEEPROM lent at the start; writes out what is answered before it waits for more input.
pub fn serve(input: impl Read, mut output: impl Write, seeprom: Vec<u8>) -> std::io::Result<()> {
    let mut input = BufReader::with_capacity(1 << 16, input);
    let mut program = Program::with_seeprom(seeprom);
    for_each_line(&mut input, |line, more_waits| {
        output.write_all(program.answer(line).as_bytes())?;
        if more_waits {
            Ok(())
        } else {
            output.flush()
        }
    })
}

/// Calls with each line and whether more input is already at hand.
pub fn for_each_line(
    input: &mut BufReader<impl Read>,
    mut each: impl FnMut(&[u8], bool) -> std::io::Result<()>,
) -> std::io::Result<()> {
    let mut lines = Lines::default();
    loop {
        let held = input.fill_buf()?;
        if held.is_empty() {
            break;
        }
        let feed = held.iter().position(|byte| *byte == b'\n');
        lines.add(&held[..feed.unwrap_or(held.len())]);
        let taken = feed.map_or(held.len(), |at| at + 1);
        input.consume(taken);
        if feed.is_some() {
            // A part of a line at hand may be followed by a wait, so only a whole one counts.
            let more_waits = input.buffer().contains(&b'\n');
            each(&lines.take(), more_waits)?;
        }
    }
    if lines.is_empty() {
        Ok(())
    } else {
        each(&lines.take(), false)
    }
}

#[cfg(test)]
mod tests {
    use super::*;

    fn number(line: &str, most: u64) -> Result<u64, Complaint> {
        Scanner { line: line.as_bytes(), at: 0 }.number(most)
    }

    #[test]
    fn numbers_up_to_what_64_bits_hold() {
        let most = u64::MAX;
        assert_eq!(number(" 18446744073709551615x", most), Ok(most));
        assert_eq!(number("000018446744073709551615", most), Ok(most));
        let over = |column: usize| Err(format!("? number over 18446744073709551615 at column {column}"));
        assert_eq!(number("18446744073709551616", most), over(1));
        assert_eq!(number("\t 99999999999999999999", most), over(3));
        assert_eq!(number("0", 0), Ok(0));
        assert_eq!(number("1", 0), Err("? number over 0 at column 1".to_string()));
    }

    #[test]
    fn a_number_is_due_up_to_the_end_of_the_line() {
        assert_eq!(number("", 9), Err("? number expected at column 1".to_string()));
        assert_eq!(number("  \t", 9), Err("? number expected at column 4".to_string()));
        assert_eq!(number("  a1", 9), Err("? number expected at column 3".to_string()));
    }
}
