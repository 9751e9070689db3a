//! Random well-formed sessions, also ones no fresh session leads to.

use super::random::Random;
use crate::journal::{Change, Holding, Store, STORE_LENGTH};
use crate::record::*;
use crate::session::{Session, WATCH_ONLY};

pub fn caps(random: &mut Random) -> Caps {
    let (one, two) = (random.edge_u16(), random.edge_u16());
    let two = if random.one_in(8) { one } else { two };
    Caps { minimum: one.min(two), maximum: one.max(two), oversubscription: random.edge_u16() }
}

/// DVFS and ERROR in order; now and then either is unset, or both stand at the last number.
pub fn thresholds(random: &mut Random) -> [u8; 2] {
    let (one, two) = (random.byte(), random.byte());
    let (low, high) = (one.min(two), one.max(two));
    match random.below(10) {
        0 | 1 => [0xFF, one],
        2 => [one, 0xFF],
        3 => [0xFF, random.pick(&[0, 0xFE, 0xFF])],
        4 => random.pick(&[[0xFE, 0xFE], [0xFE, 0xFF], [0, 0], [0, 0xFE]]),
        5 => [one, one],
        _ => [low, high],
    }
}

pub fn thermal(random: &mut Random) -> [u8; 9] {
    let mut bytes = FRESH_THERMAL;
    for fru in bytes.chunks_exact_mut(3) {
        if random.percent(70) {
            fru[..2].copy_from_slice(&thresholds(random));
            fru[2] = random.byte();
        }
    }
    bytes
}

pub fn throttles(random: &mut Random) -> Throttles {
    let presence =
        if random.one_in(6) { random.pick(&[0, 0xFFFF, 1, 0x8000]) } else { random.u16() & random.u16() };
    let mut table = Throttles { presence, ..Throttles::default() };
    for (pair, set) in table.sets.iter_mut().enumerate() {
        if presence >> pair & 1 == 1 {
            *set = random.array();
        }
    }
    table
}

pub fn area(random: &mut Random) -> Area {
    let size = random.pick(&[0, 128, 4096, 0xFFFF_FF80]);
    let up_to_the_end = 0u64.wrapping_sub(u64::from(size));
    let any = (random.u64() & !127).min(up_to_the_end);
    match size {
        0 => Area::default(),
        _ => Area { address: random.pick(&[0, up_to_the_end, any, any]), size },
    }
}

fn deadman(random: &mut Random) -> (u8, u64) {
    let time = random.u64();
    random.pick(&[(0, 0), (1, 0), (1, time), (1, u64::MAX)])
}

pub fn timer(random: &mut Random) -> Timer {
    let any = random.u64();
    match random.below(6) {
        0 | 1 => Timer::default(),
        2 => Timer { running: 1, left: random.pick(&[0, 1, u64::MAX, 1 << 32]) },
        3 => Timer { running: 1, left: any },
        _ => Timer { running: 1, left: any % 1000 },
    }
}

/// Rising ids below the next id, which is often near its end.
fn logs(random: &mut Random) -> ([Log; LOG_PLACES], u16) {
    let count = random.between(0, LOG_PLACES);
    let next_id = match random.below(4) {
        0 => random.between(250, 256),
        1 => count + 1,
        2 => random.between(count + 1, count + 6),
        _ => random.between(count + 1, 256),
    };
    let mut ids = random.distinct(count, next_id - 1);
    ids.sort_unstable();
    let mut logs = [Log::default(); LOG_PLACES];
    for (log, id) in logs.iter_mut().zip(ids) {
        *log = Log { id: 1 + id as u8, reason: random.pick(&[1, 2]) };
    }
    (logs, next_id as u16)
}

fn record(random: &mut Random) -> Record {
    let mut record = Record::fresh();
    record.state = random.pick(&[STANDBY, STANDBY, OBSERVATION, ACTIVE]);
    if random.percent(80) {
        (record.role_received, record.role) = (1, u8::from(random.percent(65)));
    }
    if random.percent(60) {
        (record.caps_received, record.caps) = (1, caps(random));
    }
    if random.percent(60) {
        (record.thermal_received, record.thermal) = (1, thermal(random));
    }
    if random.percent(50) {
        (record.throttles_received, record.throttles) = (1, throttles(random));
    }
    let (low, high) = (record.caps.minimum, record.caps.maximum);
    let any = random.u16();
    record.user_cap = random.pick(&[0, low, high, low.wrapping_sub(1), high.wrapping_add(1), any]);
    record.mask = random.pick(&[0, 3, u32::from(any) << 16 | 1, u32::MAX]);
    (record.running, record.time) = deadman(random);
    record.ffdc = area(random);
    record.pass = area(random);
    record
}

/// An entry of the kind, with values that a well-formed record could hold.
pub fn change(random: &mut Random, kind: u8, holding: Holding) -> Change {
    let received = u8::from(random.percent(60));
    let got = received == 1;
    match kind {
        0x01 => {
            let log = Log { id: 1 + random.below(255) as u8, reason: random.pick(&[1, 2]) };
            let place = random.below(LOG_PLACES) as u8;
            match holding {
                Holding::Before => Change::Clear { place, log },
                Holding::After => Change::ClearAgain { place, log },
            }
        }
        0x02 => Change::State(random.pick(&[1, 2, 3])),
        0x03 => Change::Role { received, role: if got { random.pick(&[0, 1]) } else { 0 } },
        0x04 => Change::Caps { received, caps: if got { caps(random) } else { Caps::default() } },
        0x05 => Change::UserCap(random.edge_u16()),
        0x06 => {
            let thermal = if got { thermal(random) } else { FRESH_THERMAL };
            Change::Thermal { received, thermal }
        }
        0x07 => {
            let throttles = if got { throttles(random) } else { Throttles::default() };
            Change::Throttles { received, throttles }
        }
        0x08 if holding == Holding::After => {
            let log = Log { id: 1 + random.below(255) as u8, reason: random.pick(&[1, 2]) };
            Change::ResetAgain(random.pick(&[Log::default(), log]))
        }
        0x08 => Change::Reset { state: random.pick(&[1, 2, 3]), log_made: random.pick(&[0, 1]) },
        0x09 => Change::Mask(random.u64() as u32),
        0x0A => {
            let (running, time) = deadman(random);
            Change::Deadman { running, time }
        }
        0x0B => Change::Areas { ffdc: area(random), pass: area(random) },
        _ => Change::Timer(timer(random)),
    }
}

/// Kinds with the length of their whole entry, longest first.
const LENGTHS: [(u8, usize); 12] = [
    (0x07, 164),
    (0x0B, 25),
    (0x06, 11),
    (0x0A, 10),
    (0x0C, 10),
    (0x04, 8),
    (0x09, 5),
    (0x01, 4),
    (0x08, 3),
    (0x05, 3),
    (0x03, 3),
    (0x02, 2),
];

/// Adds entries until exactly `room` bytes of the store are left, if it can be done.
pub fn fill(random: &mut Random, store: &mut Store, room: usize, holding: Holding) {
    loop {
        let gap = store.room().saturating_sub(room);
        // A gap of 1 can't be filled, so none is left.
        let fitting: Vec<u8> = LENGTHS
            .iter()
            .filter(|(_, length)| *length == gap || length + 2 <= gap)
            .map(|(kind, _)| *kind)
            .collect();
        let Some(longest) = fitting.first().copied() else {
            return;
        };
        let kind = if random.percent(40) { longest } else { random.pick(&fitting) };
        let entry = change(random, kind, holding);
        store.push(&entry);
    }
}

/// A session whose journal is empty, short, full, or has just the room of some kind of entry.
pub fn session(random: &mut Random) -> Session {
    let room = match random.below(8) {
        0 => 2048,
        1 => random.below(4),
        2 => random.pick(&[1, 2, 3, 4, 7, 8, 10, 11, 24, 25, 163, 164]),
        3 => random.below(2046),
        _ => 2048 - random.between(2, 60),
    };
    session_with_room(random, room)
}

pub fn session_with_room(random: &mut Random, room: usize) -> Session {
    let mut session = Session::fresh();
    let (logs, next_id) = logs(random);
    session.set_record(Record { logs, ..record(random) });
    session.next_id = next_id;
    session.timer = timer(random);
    fill(random, &mut session.journal, room, Holding::Before);
    session.mark_all();
    if random.one_in(2) {
        fill_redo(random, &mut session);
    }
    session
}

/// A watch-only session: some clears in each store, the newest one that fits the logs now and then.
pub fn watched(random: &mut Random) -> Session {
    let mut session = session_with_room(random, STORE_LENGTH);
    session.profile = WATCH_ONLY;
    session.redo = Store::empty();
    let (before, after) = match random.below(6) {
        0 => (512, 0),
        1 => (random.between(30, 70), random.between(0, 440)),
        2 => (0, 0),
        _ => (random.between(0, 5), random.between(0, 5)),
    };
    for (store, count, holding) in
        [(&mut session.journal, before, Holding::Before), (&mut session.redo, after, Holding::After)]
    {
        for _ in 0..count {
            let clear = change(random, 0x01, holding);
            store.push(&clear);
        }
    }
    let pending = session.record.pending();
    if pending > 0 && random.one_in(2) {
        let place = random.below(pending);
        let again = Change::ClearAgain { place: place as u8, log: session.record.logs[place] };
        session.redo.push(&again);
    }
    if session.journal.used + session.redo.used > STORE_LENGTH as u16 {
        session.redo = Store::empty();
    }
    session.mark_all();
    session
}

/// Numbers of entries at which marks come and go, and the most.
const ABOUT_MARKS: [usize; 15] = [1, 31, 32, 33, 34, 63, 64, 65, 96, 97, 320, 992, 993, 1023, 1024];

/// A session with that many entries in its journal, short ones where there are many; the redo store has what room is left, or less.
pub fn session_with_entries(random: &mut Random, count: usize) -> Session {
    let mut session = session_with_room(random, STORE_LENGTH);
    (session.journal, session.redo) = (Store::empty(), Store::empty());
    for left in (0..count).rev() {
        let room = session.journal.room().saturating_sub(2 * left);
        let fitting: Vec<u8> =
            LENGTHS.iter().filter(|(_, length)| *length <= room.min(11)).map(|(kind, _)| *kind).collect();
        let kind = if fitting.is_empty() { 0x02 } else { random.pick(&fitting) };
        let entry = change(random, kind, Holding::Before);
        session.journal.push(&entry);
    }
    session.mark_all();
    if random.one_in(2) {
        fill_redo(random, &mut session);
    }
    session
}

pub fn entries_about_marks(random: &mut Random) -> usize {
    let any = random.between(0, 1024);
    if random.one_in(5) {
        any
    } else {
        random.pick(&ABOUT_MARKS)
    }
}

/// As many bytes as the journal leaves free, a few less, or just an entry or two; the newest may fit the logs that pend.
pub fn fill_redo(random: &mut Random, session: &mut Session) {
    let most = session.journal.room();
    let length = match random.below(4) {
        0 => most,
        1 => most.saturating_sub(random.between(1, 20)),
        _ => random.between(2, 60).min(most),
    };
    let newest = fitting_redo(random, session).filter(|_| length > 6 && random.one_in(2));
    let kept = if newest.is_some() { 4 } else { 0 };
    fill(random, &mut session.redo, STORE_LENGTH - length + kept, Holding::After);
    if let Some(newest) = newest {
        session.redo.push(&newest);
    }
}

/// A pending log's clear, or a log behind those that pend: either can be redone.
fn fitting_redo(random: &mut Random, session: &Session) -> Option<Change> {
    let (record, pending) = (&session.record, session.record.pending());
    if random.one_in(2) {
        let place = random.below(pending.max(1));
        let log = record.logs[place];
        return (pending > 0).then_some(Change::ClearAgain { place: place as u8, log });
    }
    let lowest = usize::from(record.newest_log().id) + 1;
    let highest = usize::from(session.next_id) - 1;
    let id = (lowest <= highest).then(|| random.between(lowest, highest) as u8)?;
    Some(Change::ResetAgain(Log { id, reason: random.pick(&[1, 2]) }))
}
