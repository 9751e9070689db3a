//! Recorded traces: a row of entries, one byte of kind and a body whose length the kind fixes. Played from a fresh session.

use crate::calls::{DONE, OCC_REPLY_LENGTH, SBE_REPLY_LENGTH};
use crate::occ::command_packet;
use crate::protocol::{for_each_line, parse, Order};
use crate::session::Session;
use std::io::{BufReader, Read, Write};

pub const SHORT: u8 = 0x01;
pub const LONG: u8 = 0x02;
pub const MAILBOX: u8 = 0x03;
pub const UNDO: u8 = 0x04;
pub const SHORT_COMMAND: usize = 64;
pub const LONG_COMMAND: usize = 4096;
const REQUEST: usize = 32;

/// Sender and command, request, nothing.
pub fn body_length(kind: u8) -> Option<usize> {
    match kind {
        SHORT => Some(1 + SHORT_COMMAND),
        LONG => Some(1 + LONG_COMMAND),
        MAILBOX => Some(REQUEST),
        UNDO => Some(0),
        _ => None,
    }
}

/// Why an entry won't read.
#[derive(Clone, Copy, PartialEq, Eq, Debug)]
pub enum Stop {
    UnknownKind,
    CutEntry,
}

impl Stop {
    pub fn words(self) -> &'static str {
        match self {
            Stop::UnknownKind => "unknown kind",
            Stop::CutEntry => "cut entry",
        }
    }
}

/// Makes an entry's call: the session answer in decimal and, if a reply was written, its status bytes in hex.
pub fn play(session: &mut Session, kind: u8, body: &[u8]) -> String {
    match (kind, body) {
        (SHORT | LONG, [sender, command @ ..]) => {
            let mut reply = [0; OCC_REPLY_LENGTH];
            match session.occ(*sender, command, &mut reply).answer {
                DONE => format!("{DONE} {:02X}", reply[2]),
                answer => answer.to_string(),
            }
        }
        (MAILBOX, request) => {
            let mut response = [0; SBE_REPLY_LENGTH];
            match session.sbe(request, &mut response).0 {
                DONE => format!("{DONE} {}", crate::bytes::hex(&response[..4])),
                answer => answer.to_string(),
            }
        }
        _ => session.undo().answer.to_string(),
    }
}

/// Fills the buffer, or as much of it as there is input. What is written goes out before more input is waited for.
fn fill(
    input: &mut BufReader<impl Read>,
    output: &mut impl Write,
    buffer: &mut [u8],
) -> std::io::Result<usize> {
    let mut filled = 0;
    while filled < buffer.len() {
        if input.buffer().is_empty() {
            output.flush()?;
        }
        match input.read(&mut buffer[filled..]) {
            Ok(0) => break,
            Ok(count) => filled += count,
            Err(error) if error.kind() == std::io::ErrorKind::Interrupted => {}
            Err(error) => return Err(error),
        }
    }
    Ok(filled)
}

/// Plays a trace of any length from a fresh session, with a line for each entry as soon as it is there; then why it stopped, if it did
/// before the end, and the offset of the entry that won't read.
pub fn replay(input: impl Read, mut output: impl Write) -> std::io::Result<()> {
    let mut input = BufReader::with_capacity(1 << 16, input);
    let mut session = Session::fresh();
    let (mut offset, mut number) = (0u64, 0u64);
    let (mut kind, mut body) = ([0], [0; 1 + LONG_COMMAND]);
    while fill(&mut input, &mut output, &mut kind)? == 1 {
        let read = match body_length(kind[0]) {
            None => Err(Stop::UnknownKind),
            Some(length) if fill(&mut input, &mut output, &mut body[..length])? < length => {
                Err(Stop::CutEntry)
            }
            Some(length) => Ok(&body[..length]),
        };
        match read {
            Ok(body) => {
                number += 1;
                offset += 1 + body.len() as u64;
                writeln!(output, "{number} {}", play(&mut session, kind[0], body))?;
            }
            Err(stop) => {
                writeln!(output, "{} at {offset}", stop.words())?;
                break;
            }
        }
    }
    output.flush()
}

/// An OCC entry, short where the command allows; the rest of the command is zero. `None` for a command that is too long.
pub fn occ_entry(sender: u8, command: &[u8]) -> Option<Vec<u8>> {
    let (kind, length) =
        if command.len() <= SHORT_COMMAND { (SHORT, SHORT_COMMAND) } else { (LONG, LONG_COMMAND) };
    let mut entry = vec![kind, sender];
    entry.extend(command);
    entry.resize(2 + length, 0);
    (command.len() <= length).then_some(entry)
}

/// A mailbox entry; a shorter request is filled up with zeros, of a longer one the call ignores the rest.
pub fn sbe_entry(request: &[u8]) -> Vec<u8> {
    let mut entry = vec![MAILBOX];
    entry.extend(request);
    entry.resize(1 + REQUEST, 0);
    entry
}

/// The trace of the lines `occ`, `sbe`, `send` and `undo`; or the complaint about the first line that is no call.
pub fn from_lines(input: impl Read) -> std::io::Result<Result<Vec<u8>, String>> {
    let mut trace = Vec::new();
    let (mut number, mut sequence) = (0, 0u8);
    let mut complaint = None;
    for_each_line(&mut BufReader::new(input), |line, _| {
        number += 1;
        let entry = match parse(line) {
            None => Ok(vec![]),
            Some(Ok(Order::Undo)) => Ok(vec![UNDO]),
            Some(Ok(Order::Sbe(request))) => Ok(sbe_entry(&request)),
            Some(Ok(Order::Occ { sender, command })) => {
                occ_entry(sender, &command).ok_or("command over 4096 bytes")
            }
            Some(Ok(Order::Send { sender, command_type, data })) => {
                sequence = sequence.wrapping_add(1);
                occ_entry(sender, &command_packet(sequence, command_type, &data))
                    .ok_or("command over 4096 bytes")
            }
            Some(Ok(_)) => Err("a trace has occ, sbe, send and undo only"),
            Some(Err(_)) => Err("line not understood"),
        };
        match entry {
            Ok(entry) => trace.extend(entry),
            Err(words) if complaint.is_none() => complaint = Some(format!("line {number}: {words}")),
            Err(_) => {}
        }
        Ok(())
    })?;
    Ok(complaint.map_or(Ok(trace), Err))
}
