//! Counts what a file of lines reaches: answers, statuses, kinds undone and redone, what is forgotten, time
//! that passes, rules broken, complaints.

use crate::journal::{entries, Change, Holding, MARKED};
use crate::occ::command_packet;
use crate::protocol::{for_each_line, parse, Order, Program};
use crate::save::{move_down, write_new, LONGEST_BASE};
use crate::session::{Session, WATCH_ONLY};
use std::cmp::Ordering;
use std::collections::BTreeMap;
use std::io::{BufReader, Read};

type Counts = BTreeMap<String, u64>;

/// Answer 0 as a line tells it.
const DONE_WORD: &str = "0";

fn add(counts: &mut Counts, what: String) {
    *counts.entry(what).or_default() += 1;
}

/// The table of counts, one line each, in alphabetical order.
pub fn count(input: &mut BufReader<impl Read>) -> std::io::Result<String> {
    let mut counts = Counts::new();
    let mut program = Program::default();
    for_each_line(input, |line, _| {
        count_line(&mut counts, &mut program, line);
        Ok(())
    })?;
    Ok(counts.iter().map(|(what, times)| format!("{times:8} {what}\n")).collect())
}

/// `line K: TEXT`, the line of input that the N-th line of output answers; empty if there is none.
pub fn answered(input: &mut BufReader<impl Read>, number: usize) -> std::io::Result<String> {
    let mut program = Program::default();
    let (mut line_number, mut written) = (0, 0);
    let mut found = String::new();
    for_each_line(input, |line, _| {
        line_number += 1;
        let before = written;
        written += program.answer(line).lines().count();
        if before < number && number <= written {
            found = format!("line {line_number}: {}\n", String::from_utf8_lossy(line));
        }
        Ok(())
    })?;
    Ok(found)
}

fn count_line(counts: &mut Counts, program: &mut Program, line: &[u8]) {
    match parse(line) {
        None => add(counts, "line skipped".to_string()),
        Some(Err(complaint)) => {
            let sort = complaint.split(" at column").next().unwrap_or("");
            add(counts, format!("complaint {sort}"));
        }
        Some(Ok(order)) => count_order(counts, program, order),
    }
}

fn count_order(counts: &mut Counts, program: &mut Program, order: Order) {
    let before = program.session.clone();
    let described = describe(&order, &before, program.packets.len());
    let loaded = matches!(order, Order::Load(_));
    let asked_why = order == Order::Why;
    let saved = order == Order::Save;
    let restored = matches!(order, Order::Restore(_));
    let named = match &described {
        Described::Occ(what)
        | Described::Sbe(what)
        | Described::Undo(what)
        | Described::Redo(what)
        | Described::Forget(what)
        | Described::Time(what)
        | Described::Watch(what)
        | Described::Plan(what) => what.clone(),
        Described::Other => String::new(),
    };
    let answer = program.obey(order);
    let profile = if watched(&before) { ", watched," } else { "" };
    let words: Vec<&str> = answer.split_whitespace().collect();
    let number = words.first().copied().unwrap_or("");
    match described {
        Described::Occ(what) => {
            add(counts, "call occ".to_string());
            let status = words.get(3).map_or(String::new(), |status| format!(" status {status}"));
            add(counts, format!("occ {what}{profile} answer {number}{status}"));
            if let Some(fault) = program.fault {
                let sort = what.split(' ').next().unwrap_or("");
                add(counts, format!("why {}", fault.reason.words()));
                add(counts, format!("why {sort} {} at {}", fault.reason.words(), place(sort, fault.byte)));
            }
        }
        Described::Sbe(what) => {
            add(counts, "call sbe".to_string());
            let status =
                words.get(1..5).map_or(String::new(), |status| format!(" status {}", status.concat()));
            let bell = words.get(34).map_or(String::new(), |bell| format!(" bell {bell}"));
            if let Some(read) = words.get(35).map(|_| words.get(36).map_or(0, |data| data.len() / 2)) {
                let least = read.checked_ilog2().map_or(0, |power| 1 << power);
                add(counts, format!("seeprom read of {least} bytes or more"));
            }
            add(counts, format!("sbe {what}{profile} answer {number}{status}"));
            add(counts, format!("sbe answer {number}{status}{bell}"));
        }
        Described::Undo(what) => {
            add(counts, "call undo".to_string());
            add(counts, format!("undo {what}{profile} answer {number}"));
            if let (DONE_WORD, Some(passed)) = (number, words.get(2)) {
                add(counts, format!("undo passed {passed:>2}"));
            }
        }
        Described::Redo(what) => {
            add(counts, "call redo".to_string());
            add(counts, format!("redo {what}{profile} answer {number}"));
        }
        Described::Forget(what) => {
            add(counts, "call forget".to_string());
            add(counts, format!("forget {what} answer {number}"));
        }
        Described::Time(what) => {
            add(counts, "call time".to_string());
            let bell = words.last().filter(|_| number == DONE_WORD).map_or("", |bell| *bell);
            add(counts, format!("time {what} answer {number} {bell}"));
        }
        Described::Watch(what) => {
            add(counts, "call watch".to_string());
            add(counts, format!("watch {what} answer {number}"));
        }
        Described::Plan(what) => {
            add(counts, "call plan".to_string());
            let found = match words.get(1..) {
                Some(["plan", order @ ..]) => format!(" plan of {}", order.len()),
                Some(["no", ..]) => " no plan".to_string(),
                _ => String::new(),
            };
            add(counts, format!("plan {what} answer {number}{found}"));
        }
        Described::Other if asked_why => add(counts, "line why".to_string()),
        Described::Other => add(counts, "line not a call".to_string()),
    }
    if !named.is_empty() {
        count_room(counts, &before, &program.session, number, &named);
        count_redo_store(counts, &before, &program.session, number);
        count_marks(counts, &before, &program.session);
    }
    if loaded {
        count_rules(counts, &program.session);
    }
    if saved {
        let down = move_down(&write_new(&before), &mut [0; LONGEST_BASE]).0;
        add(counts, format!("save answer {number}, down {down}"));
    }
    if restored {
        add(counts, format!("restore answer {number}"));
    }
}

enum Described {
    Occ(String),
    Sbe(String),
    Undo(String),
    Redo(String),
    Forget(String),
    Time(String),
    Watch(String),
    Plan(String),
    Other,
}

fn describe(order: &Order, session: &Session, packets: usize) -> Described {
    match order {
        Order::Occ { sender, command } => Described::Occ(occ_sort(*sender, command)),
        Order::Send { sender, command_type, data } => {
            Described::Occ(occ_sort(*sender, &command_packet(0, *command_type, data)))
        }
        Order::Sbe(request) => Described::Sbe(match request.get(6..8) {
            Some([class @ 0xD1, command @ (1..=3)]) => format!("{class:02X} {command:02X}"),
            Some([class @ 0xD7, command @ (3 | 4)]) => format!("{class:02X} {command:02X}"),
            Some([0xD3, 1]) => format!("D3 01 {}", ring_sort(request)),
            Some([class @ 0xD4, command @ 1]) => format!("{class:02X} {command:02X}"),
            Some([class @ 0xD1..=0xD7, _]) => format!("{class:02X} other"),
            Some(_) => "other class".to_string(),
            None => "short".to_string(),
        }),
        Order::Undo => Described::Undo(undo_sort(session)),
        Order::Redo => Described::Redo(redo_sort(session)),
        Order::Plan(wanted) => Described::Plan(plan_sort(session, *wanted, packets)),
        Order::Watch => Described::Watch(watch_sort(session)),
        Order::Time(microseconds) => Described::Time(time_sort(session, *microseconds)),
        Order::Forget(count) => Described::Forget(forget_sort(session, *count as usize)),
        _ => Described::Other,
    }
}

fn occ_sort(sender: u8, command: &[u8]) -> String {
    let sender = match sender {
        0x10 => "HTMGT",
        0x20 => "BMC",
        _ => "stranger",
    };
    let sort = match command {
        [_, 0x21, _, _, format @ (0x03 | 0x07 | 0x12 | 0x13), _, _, ..] => {
            format!("21/{format:02X}")
        }
        [_, 0x21, ..] => "21/other".to_string(),
        [_, kind @ (0x00 | 0x12 | 0x20 | 0x22 | 0x25), ..] => format!("{kind:02X}"),
        _ => "other".to_string(),
    };
    format!("{sort} {sender}")
}

/// Where a fault is: the number of the byte, or which set and which of its bytes.
fn place(sort: &str, byte: usize) -> String {
    let set_length = match sort {
        "21/12" => 12,
        "21/13" => 4,
        _ => return format!("byte {byte}"),
    };
    let Some(after) = byte.checked_sub(4) else {
        return format!("byte {byte}");
    };
    let set = match after / set_length {
        0 => "the first set",
        1 => "the second set",
        2..=14 => "a set in between",
        15 => "the sixteenth set",
        16 => "the seventeenth set",
        _ => "a set further on",
    };
    format!("byte {} of {set}", after % set_length + 1)
}

/// The newest entry's kind, and why it may not be undone.
fn undo_sort(session: &Session) -> String {
    if !session.well_formed() {
        return "of a damaged session".to_string();
    }
    let Some(newest) = session.journal.newest(Holding::Before) else {
        return "of an empty journal".to_string();
    };
    let pending = session.record.pending();
    let why = match newest {
        Change::Clear { .. } if pending == 4 => " (4 pend)",
        Change::Clear { place, .. } if usize::from(place) > pending => " (place too high)",
        Change::Clear { log, .. } if u16::from(log.id) >= session.next_id => " (id not below next)",
        Change::Clear { log, .. } if session.record.place_of(log.id).is_some() => " (id twice)",
        Change::Reset { log_made: 1, .. } if pending == 0 => " (log made, none pends)",
        Change::Reset { log_made: 1, .. } => " (log made)",
        _ => "",
    };
    format!("kind {:02X}{why}", newest.kind())
}

/// The newest entry's kind in the redo store, and why it may not be put back.
fn redo_sort(session: &Session) -> String {
    if !session.well_formed() {
        return "of a damaged session".to_string();
    }
    let Some(newest) = session.redo.newest(Holding::After) else {
        return "of an empty store".to_string();
    };
    let (logs, pending) = (&session.record.logs, session.record.pending());
    let there = |place: u8| logs.get(usize::from(place)).copied().unwrap_or_default();
    let why = match newest {
        Change::ClearAgain { place, .. } if usize::from(place) >= pending => " (no log there)",
        Change::ClearAgain { place, log } if there(place).id != log.id => " (another id there)",
        Change::ClearAgain { place, log } if there(place) != log => " (another reason there)",
        Change::ResetAgain(log) if log.id == 0 => " (no log)",
        Change::ResetAgain(_) if pending == 4 => " (4 pend)",
        Change::ResetAgain(log) if log.id <= session.record.newest_log().id => " (id not above)",
        Change::ResetAgain(log) if u16::from(log.id) >= session.next_id => " (id not below next)",
        Change::ResetAgain(_) => " (a log)",
        _ => "",
    };
    format!("kind {:02X}{why}", newest.kind())
}

/// The target type, if it is one of the table's.
fn ring_sort(request: &[u8]) -> String {
    match request.get(8..10) {
        Some([0, target @ 0..=4]) => format!("type {target}"),
        _ => "other type".to_string(),
    }
}

fn watched(session: &Session) -> bool {
    session.profile == WATCH_ONLY
}

/// For which state, and of how many packets.
fn plan_sort(session: &Session, wanted: u8, packets: usize) -> String {
    let state = match wanted {
        _ if !session.well_formed() => return "of a damaged session".to_string(),
        2 | 3 if session.record.state == wanted => "for the state at hand",
        2 => "for state 2",
        3 => "for state 3",
        _ => "for another state",
    };
    format!("{state}, of {packets}{}", if watched(session) { ", watched" } else { "" })
}

/// What is lost by opening.
fn watch_sort(session: &Session) -> String {
    let lost = match (session.journal.used, session.redo.used) {
        _ if !session.well_formed() => return "over a damaged session".to_string(),
        (0, 0) => "over empty stores",
        (_, 0) => "over a journal",
        (0, _) => "over a redo store",
        _ => "over both stores",
    };
    format!("{lost}{}", if watched(session) { ", again" } else { "" })
}

/// Against what the timer has left.
fn time_sort(session: &Session, microseconds: u64) -> String {
    let timer = &session.timer;
    let sort = match microseconds.cmp(&timer.left) {
        _ if !session.well_formed() => "of a damaged session",
        _ if timer.running == 0 => "while off",
        Ordering::Less => "fewer than are left",
        Ordering::Equal if microseconds == 0 => "none, with none left",
        Ordering::Equal => "as many as are left",
        Ordering::Greater => "more than are left",
    };
    sort.to_string()
}

/// How many of how many, whether marks move, and whether anything can be redone.
fn forget_sort(session: &Session, count: usize) -> String {
    if !session.well_formed() {
        return "of a damaged session".to_string();
    }
    let held = session.inspect().journal.entries;
    let many = match count {
        0 => "none",
        _ if count == held => "all",
        _ if count == held + 1 => "one too many",
        _ if count > held => "far too many",
        _ if count.is_multiple_of(MARKED) => "a multiple of 32",
        _ => "some",
    };
    let marked = if held > MARKED { ", marked" } else { "" };
    let redo = if session.redo.used > 0 { ", some to redo" } else { "" };
    format!("{many}{marked}{redo}")
}

/// How many entries the store has, by powers of two, and what calls do to a store that isn't empty.
fn count_redo_store(counts: &mut Counts, before: &Session, after: &Session, number: &str) {
    let held = |session: &Session| entries(session.redo.used_bytes().unwrap_or(&[])).count();
    let (had, has) = (held(before), held(after));
    if number == "0" && had > 0 && has == 0 && after.journal.used > before.journal.used && had > 1 {
        add(counts, "redo store of several entries emptied by a change".to_string());
    }
    if number == "0" && has > had {
        add(counts, format!("redo store of {} entries or more", 1 << has.ilog2()));
    }
    if number == "5" && had > 0 {
        add(counts, "answer 5 with a redo store that isn't empty".to_string());
    }
    if number == "0" && before.redo.used + before.journal.used == 2048 && had > 0 {
        add(counts, "call with both stores full together".to_string());
    }
}

/// Marks that came or went with an entry, and how many there are now.
fn count_marks(counts: &mut Counts, before: &Session, after: &Session) {
    let used = |session: &Session| session.marks.iter().filter(|mark| **mark != 0).count();
    let (had, has) = (used(before), used(after));
    if has > had {
        add(counts, format!("mark set, now {} or more beside the first", 1 << has.ilog2()));
    }
    if has < had {
        add(counts, format!("mark taken away, was {} or more beside the first", 1 << had.ilog2()));
    }
}

/// Changes that took the last of the room, and refusals for want of one byte.
fn count_room(counts: &mut Counts, before: &Session, after: &Session, number: &str, what: &str) {
    if number == "0" && after.journal.room() == 0 && before.journal.room() > 0 {
        let kind = after.journal.bytes.get(usize::from(before.journal.used));
        add(counts, format!("room used up by kind {:02X}", kind.unwrap_or(&0)));
    }
    let one_short = [1, 2, 3, 4, 7, 9, 10, 24, 163].contains(&before.journal.room());
    if number == "5" && one_short {
        add(counts, format!("answer 5 with room {}: {what}", before.journal.room()));
    }
}

fn count_rules(counts: &mut Counts, session: &Session) {
    let broken = session.broken_rules();
    match broken.as_slice() {
        [] => add(counts, "loaded well formed".to_string()),
        [only] => add(counts, format!("loaded with only this rule broken: {only}")),
        several => {
            several.iter().for_each(|rule| add(counts, format!("loaded with several rules broken: {rule}")))
        }
    }
}
