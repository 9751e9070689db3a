//! Damaged sessions: each rule of well-formedness broken by itself, bytes changed, undos and redos that fail.

use super::random::Random;
use super::scene;
use crate::image::{self, IMAGE_LENGTH};
use crate::journal::{body_length, entries, Change, Holding, Store, MARKS, STORE_LENGTH};
use crate::record::*;
use crate::session::Session;

type Damage = fn(&mut Random, &mut Session);

/// Each breaks one rule of the record; worked-out values are made to fit again afterwards.
const RECORD_DAMAGES: &[Damage] = &[
    |r, s| s.record.state = r.pick(&[0, 4, 5, 255]),
    |r, s| (s.record.role_received, s.record.role) = (1, r.pick(&[2, 3, 255])),
    |_, s| (s.record.role_received, s.record.role) = (0, 1),
    |r, s| s.record.role_received = r.pick(&[2, 255]),
    |r, s| s.record.caps_received = r.pick(&[2, 255]),
    |r, s| s.record.throttles_received = r.pick(&[2, 255]),
    |r, s| s.record.thermal_received = r.pick(&[2, 255]),
    |r, s| (s.record.caps_received, s.record.caps) = (0, one_cap(r)),
    |_, s| (s.record.caps_received, s.record.caps) = (0, ONLY_OVERSUBSCRIPTION),
    |r, s| (s.record.caps_received, s.record.caps) = (1, crossed_caps(r)),
    |r, s| (s.record.thermal_received, s.record.thermal) = (0, one_threshold(r)),
    |r, s| (s.record.thermal_received, s.record.thermal) = (1, crossed_thermal(r)),
    |r, s| (s.record.throttles_received, s.record.throttles) = (1, absent_not_zero(r)),
    |r, s| (s.record.throttles_received, s.record.throttles.presence) = (0, 1 << r.below(16)),
    |_, s| {
        (s.record.throttles_received, s.record.throttles) =
            (0, Throttles { presence: 1, ..Throttles::default() })
    },
    |_, s| (s.record.throttles_received, s.record.throttles) = (0, last_byte_set()),
    |r, s| s.record.running = r.pick(&[2, 255]),
    |r, s| (s.record.running, s.record.time) = (0, r.pick(&[1, 1 << 63])),
    |_, s| s.record.ffdc = WRONG_AREAS[0],
    |_, s| s.record.ffdc = WRONG_AREAS[1],
    |_, s| s.record.ffdc = WRONG_AREAS[2],
    |_, s| s.record.ffdc = WRONG_AREAS[3],
    |r, s| s.record.ffdc = r.pick(&WRONG_AREAS),
    |_, s| s.record.pass = WRONG_AREAS[0],
    |_, s| s.record.pass = WRONG_AREAS[1],
    |_, s| s.record.pass = WRONG_AREAS[2],
    |_, s| s.record.pass = WRONG_AREAS[3],
    |r, s| s.record.pass = r.pick(&WRONG_AREAS),
    |r, s| wrong_reason(r, s),
    |r, s| behind_unused(r, s, Log { id: 9, reason: 1 }),
    |r, s| behind_unused(r, s, Log { id: 0, reason: 1 }),
    |r, s| reason_without_id(r, s),
    |_, s| set_logs(s, &[2, 1]),
    |_, s| set_logs(s, &[3, 3]),
    |_, s| set_logs(s, &[1, 2, 3, 3]),
    |_, s| set_logs(s, &[4, 5, 6, 1]),
    |_, s| s.next_id = u16::from(s.record.logs[0].id.max(1)),
    |_, s| last_id_at_next(s),
];

/// Each breaks one rule of the rest of the session.
const OTHER_DAMAGES: &[Damage] = &[
    |_, s| (s.record.logs, s.next_id) = ([Log::default(); LOG_PLACES], 0),
    |_, s| s.next_id = 257,
    |r, s| s.next_id = r.pick(&[258, 512, 513, 65535]),
    |r, s| {
        s.worked_out.limit = r.pick(&[
            s.worked_out.limit.wrapping_add(1),
            s.worked_out.limit.wrapping_sub(1),
            s.record.user_cap ^ 1,
        ])
    },
    |_, s| s.worked_out.limit = s.record.caps.maximum ^ s.record.user_cap ^ 3,
    |r, s| s.worked_out.observation ^= r.pick(&[1, 2, 0x80]),
    |r, s| s.worked_out.active ^= r.pick(&[1, 2, 0x80]),
    |r, s| s.worked_out.wanted ^= r.pick(&[1, 0x10, 0x13, 0x11]),
    |_, s| s.journal.used = 2049,
    |r, s| s.journal.used = r.pick(&[2050, 4096, 65535]),
    |_, s| s.journal.used = (s.journal.used + 1).min(2048),
    |r, s| cut_newest(r, &mut s.journal),
    |r, s| unknown_kind(r, s, Holding::Before),
    |_, s| first_unused(&mut s.journal, 1),
    |_, s| first_unused(&mut s.journal, 0x02),
    |_, s| s.journal.bytes[STORE_LENGTH - 1] = 1,
    |_, s| s.redo.used = 2049,
    |r, s| s.redo.used = r.pick(&[2050, 4096, 65535]),
    |r, s| shorter_redo(r, s, |redo| redo.used += 1),
    |r, s| cut_newest(r, &mut s.redo),
    |r, s| unknown_kind(r, s, Holding::After),
    |r, s| shorter_redo(r, s, |redo| first_unused(redo, 1)),
    |r, s| shorter_redo(r, s, |redo| first_unused(redo, 0x02)),
    |r, s| shorter_redo(r, s, |redo| redo.bytes[STORE_LENGTH - 1] = 1),
    |r, s| together(r, s, 2049),
    |r, s| together(r, s, 2050),
    |r, s| together(r, s, 4096),
    |r, s| s.timer.running = r.pick(&[2, 3, 255]),
    |r, s| s.timer = Timer { running: r.pick(&[2, 128]), left: 0 },
    |r, s| s.timer = Timer { running: 0, left: r.pick(&[1, 1 << 32, u64::MAX]) },
    |_, s| s.timer = Timer { running: 0, left: 1 << 63 },
    |r, s| s.profile = r.pick(&[3, 128, 255]),
    |_, s| s.profile = 2,
    |r, s| another_kind_watched(r, s, Holding::Before),
    |r, s| another_kind_watched(r, s, Holding::Before),
    |r, s| another_kind_watched(r, s, Holding::After),
    |r, s| another_kind_watched(r, s, Holding::After),
];

/// A watch-only session with an entry of another kind than a clear's in one store, in front or behind.
fn another_kind_watched(random: &mut Random, session: &mut Session, holding: Holding) {
    *session = scene::watched(random);
    (session.journal, session.redo) = (Store::empty(), Store::empty());
    let store = match holding {
        Holding::Before => &mut session.journal,
        Holding::After => &mut session.redo,
    };
    let kind = random.between(2, 12) as u8;
    let other = scene::change(random, kind, holding);
    let clears = random.below(4);
    let before = random.below(clears + 1);
    for place in 0..=clears {
        let clear = scene::change(random, 0x01, holding);
        store.push(if place == before { &other } else { &clear });
    }
}

/// Each breaks one rule of the marks.
const MARK_DAMAGES: &[Damage] = &[
    // of an empty journal, or of one with entries but no second mark
    |r, s| {
        with_entries(r, s, 0);
        s.marks[0] = r.pick(&[1, 2, 0x8000]);
    },
    |r, s| {
        with_entries(r, s, 1);
        s.marks[0] = r.pick(&[1, 2, 65535]);
    },
    |r, s| {
        with_entries(r, s, 32);
        s.marks[1] = s.journal.used;
    },
    |r, s| {
        with_entries(r, s, 32);
        s.marks[1] = offset_of(s, 31);
    },
    |r, s| {
        with_entries(r, s, 31);
        s.marks[r.between(1, 31)] = r.pick(&[1, 64, 65535]);
    },
    // a used one that is 0, off by a byte, at the entry before or behind
    |r, s| {
        with_entries(r, s, 33);
        s.marks[1] = 0;
    },
    |r, s| {
        with_entries(r, s, 33);
        s.marks[1] -= 1;
    },
    |r, s| {
        with_entries(r, s, 34);
        s.marks[1] += 1;
    },
    |r, s| {
        with_entries(r, s, 33);
        s.marks[1] = offset_of(s, 31);
    },
    |r, s| {
        with_entries(r, s, 34);
        s.marks[1] = offset_of(s, 33);
    },
    |r, s| {
        with_entries(r, s, 65);
        s.marks.swap(1, 2);
    },
    |r, s| {
        with_entries(r, s, 65);
        s.marks[1] = s.marks[2];
    },
    |r, s| {
        with_entries(r, s, 65);
        s.marks[2] = s.marks[1];
    },
    |r, s| {
        with_entries(r, s, 65);
        s.marks[0] = s.marks[1];
    },
    |r, s| {
        with_entries(r, s, 65);
        s.marks[2] = 0x100 | s.marks[2] & 0xFF;
    },
    |r, s| {
        with_entries(r, s, 1024);
        s.marks[31] = 0;
    },
    |r, s| {
        with_entries(r, s, 1024);
        s.marks[r.between(1, 31)] ^= 2;
    },
    // one too many, with right ones before it
    |r, s| {
        with_entries(r, s, 64);
        s.marks[2] = s.journal.used;
    },
    |r, s| {
        with_entries(r, s, 65);
        s.marks[31] = r.pick(&[1, s.marks[2]]);
    },
    |r, s| {
        with_entries(r, s, 992);
        s.marks[31] = r.pick(&[1, s.journal.used]);
    },
    // all of them
    |r, s| {
        with_entries(r, s, 200);
        s.marks = [0; MARKS];
    },
    |r, s| {
        with_entries(r, s, 200);
        s.marks = [65535; MARKS];
    },
    |r, s| {
        with_entries(r, s, 200);
        s.marks.rotate_left(1);
    },
];

/// Of the journal's entry of that number, from 0.
fn offset_of(session: &Session, number: usize) -> u16 {
    let used = session.journal.used_bytes().unwrap_or(&[]);
    entries(used).flatten().nth(number).map_or(0, |entry| entry.offset as u16)
}

/// Another journal, of that many entries.
fn with_entries(random: &mut Random, session: &mut Session, count: usize) {
    *session = scene::session_with_entries(random, count);
}

/// Entries whose values no well-formed record could hold, for the journal or the redo store.
const WRONG_CHANGES: &[fn(&mut Random) -> Change] = &[
    |_| Change::Clear { place: 4, log: Log { id: 1, reason: 1 } },
    |r| Change::Clear { place: 0, log: Log { id: 0, reason: r.pick(&[1, 2]) } },
    |r| Change::Clear { place: 0, log: Log { id: 7, reason: r.pick(&[0, 3]) } },
    |r| Change::State(r.pick(&[0, 4])),
    |_| Change::Role { received: 2, role: 0 },
    |_| Change::Role { received: 1, role: 2 },
    |_| Change::Role { received: 0, role: 1 },
    |_| Change::Caps { received: 2, caps: Caps::default() },
    |r| Change::Caps { received: 0, caps: one_cap(r) },
    |r| Change::Caps { received: 1, caps: crossed_caps(r) },
    |_| Change::Thermal { received: 2, thermal: FRESH_THERMAL },
    |r| Change::Thermal { received: 0, thermal: one_threshold(r) },
    |r| Change::Thermal { received: 1, thermal: crossed_thermal(r) },
    |_| Change::Throttles { received: 2, throttles: Throttles::default() },
    |r| Change::Throttles {
        received: 0,
        throttles: Throttles { presence: 1 << r.below(16), ..Throttles::default() },
    },
    |_| Change::Throttles { received: 0, throttles: last_byte_set() },
    |r| Change::Throttles { received: 1, throttles: absent_not_zero(r) },
    |r| Change::Reset { state: r.pick(&[0, 4]), log_made: 0 },
    |r| Change::Reset { state: 1, log_made: r.pick(&[2, 255]) },
    |r| Change::Deadman { running: 0, time: r.pick(&[1, 1 << 56]) },
    |_| Change::Deadman { running: 2, time: 0 },
    |r| Change::Areas { ffdc: r.pick(&WRONG_AREAS), pass: Area::default() },
    |r| Change::Areas { ffdc: scene::area(r), pass: r.pick(&WRONG_AREAS) },
    |r| Change::Timer(Timer { running: 0, left: r.pick(&[1, 1 << 56]) }),
    |r| Change::Timer(Timer { running: r.pick(&[2, 255]), left: 0 }),
];

/// The same where the redo store's bodies differ from the journal's.
const WRONG_REDOS: &[fn(&mut Random) -> Change] = &[
    |_| Change::ResetAgain(Log { id: 0, reason: 1 }),
    |_| Change::ResetAgain(Log { id: 0, reason: 2 }),
    |r| Change::ResetAgain(Log { id: 1 + r.below(255) as u8, reason: 0 }),
    |r| Change::ResetAgain(Log { id: 1 + r.below(255) as u8, reason: r.pick(&[3, 255]) }),
];

pub fn count() -> usize {
    RECORD_DAMAGES.len()
        + OTHER_DAMAGES.len()
        + MARK_DAMAGES.len()
        + 2 * WRONG_CHANGES.len()
        + WRONG_REDOS.len()
}

/// Breaks one rule of a well-formed session, the one of that number.
pub fn break_rule(random: &mut Random, session: &mut Session, number: usize) {
    if let Some(damage) = RECORD_DAMAGES.get(number) {
        damage(random, session);
        session.worked_out = session.record.work_out();
        return;
    }
    let number = number.saturating_sub(RECORD_DAMAGES.len());
    if let Some(damage) = OTHER_DAMAGES.get(number) {
        damage(random, session);
        return session.mark_all();
    }
    let number = number.saturating_sub(OTHER_DAMAGES.len());
    if let Some(damage) = MARK_DAMAGES.get(number) {
        return damage(random, session);
    }
    let number = number.saturating_sub(MARK_DAMAGES.len());
    let holding = if number < WRONG_CHANGES.len() { Holding::Before } else { Holding::After };
    let wrong = [WRONG_CHANGES, WRONG_CHANGES, WRONG_REDOS].concat()[number](random);
    if holding == Holding::After && matches!(wrong, Change::Reset { .. }) {
        return insert_entry(random, session, holding, |redo| redo.push_bytes(&[0x08, 1, 0]));
        // id 1, no reason
    }
    insert_entry(random, session, holding, |store| store.push(&wrong));
}

/// Puts an entry behind the others of a store, or in front of some more. The other store makes room.
fn insert_entry(
    random: &mut Random,
    session: &mut Session,
    holding: Holding,
    push: impl Fn(&mut Store) -> bool,
) {
    let (store, other) = match holding {
        Holding::Before => (&mut session.journal, &mut session.redo),
        Holding::After => (&mut session.redo, &mut session.journal),
    };
    if store.room() < 170 {
        *store = Store::empty();
    }
    push(store);
    if random.one_in(2) {
        let room = store.room().saturating_sub(random.between(2, 30));
        scene::fill(random, store, room, holding);
    }
    if store.used + other.used > STORE_LENGTH as u16 {
        *other = Store::empty();
    }
    session.mark_all();
}

/// Room in both stores, so that one byte more doesn't break the rule of their lengths.
fn shorter_redo(random: &mut Random, session: &mut Session, damage: fn(&mut Store)) {
    if session.redo.used + session.journal.used >= STORE_LENGTH as u16 {
        (session.journal, session.redo) = (Store::empty(), Store::empty());
        let length = random.between(2, 60);
        scene::fill(random, &mut session.redo, STORE_LENGTH - length, Holding::After);
    }
    damage(&mut session.redo);
}

/// Both stores right, but for their length together.
fn together(random: &mut Random, session: &mut Session, length: usize) {
    let least = length - STORE_LENGTH;
    let journal = random.between(least.max(2), STORE_LENGTH.min(length - 2));
    (session.journal, session.redo) = (Store::empty(), Store::empty());
    scene::fill(random, &mut session.journal, STORE_LENGTH - journal, Holding::Before);
    let redo = length - usize::from(session.journal.used);
    scene::fill(random, &mut session.redo, STORE_LENGTH - redo, Holding::After);
}

const ONLY_OVERSUBSCRIPTION: Caps = Caps { minimum: 0, maximum: 0, oversubscription: 1 };

fn one_cap(random: &mut Random) -> Caps {
    random.pick(&[
        ONLY_OVERSUBSCRIPTION,
        Caps { maximum: 1, ..Caps::default() },
        Caps { minimum: 1, maximum: 1, oversubscription: 0 },
    ])
}

fn crossed_caps(random: &mut Random) -> Caps {
    let maximum = random.edge_u16().min(65534);
    Caps { minimum: maximum + 1, maximum, oversubscription: random.u16() }
}

fn one_threshold(random: &mut Random) -> [u8; 9] {
    let mut thermal = FRESH_THERMAL;
    thermal[random.below(9)] = random.pick(&[0xFE, 0]);
    thermal
}

fn crossed_thermal(random: &mut Random) -> [u8; 9] {
    let mut thermal = scene::thermal(random);
    let fru = 3 * random.below(3);
    let error = random.byte().min(0xFD);
    let dvfs = random.pick(&[error + 1, 0xFE]);
    thermal[fru..fru + 2].copy_from_slice(&[dvfs, error]);
    thermal
}

fn absent_not_zero(random: &mut Random) -> Throttles {
    let mut table = scene::throttles(random);
    let pair = random.below(PAIRS);
    table.presence &= !(1 << pair);
    table.sets[pair] = [0; 10];
    table.sets[pair][random.below(10)] = 1;
    table
}

fn last_byte_set() -> Throttles {
    let mut table = Throttles::default();
    table.sets[PAIRS - 1][9] = 1;
    table
}

/// Size 0 with an address, then address off, size off, end over 2^64.
const WRONG_AREAS: [Area; 7] = [
    Area { address: 128, size: 0 },
    Area { address: 64, size: 128 },
    Area { address: 128, size: 127 },
    Area { address: u64::MAX - 127, size: 256 },
    Area { address: 1, size: 128 },
    Area { address: 0, size: 1 },
    Area { address: u64::MAX - 127, size: 129 },
];

/// These logs pend and no others; the next id stands above them.
fn set_logs(session: &mut Session, ids: &[u8]) {
    session.record.logs = [Log::default(); LOG_PLACES];
    for (log, id) in session.record.logs.iter_mut().zip(ids) {
        *log = Log { id: *id, reason: 1 };
    }
    session.next_id = session.next_id.max(ids.iter().copied().max().map_or(1, u16::from) + 1);
}

fn wrong_reason(random: &mut Random, session: &mut Session) {
    set_logs(session, &[1, 3, 9][..random.between(1, 3)]);
    let place = random.below(session.record.pending());
    session.record.logs[place].reason = random.pick(&[0, 3, 255]);
}

/// A log, or only a reason, behind an unused place.
fn behind_unused(random: &mut Random, session: &mut Session, log: Log) {
    let used = random.below(3);
    set_logs(session, &[2, 4, 6][..used]);
    session.next_id = session.next_id.max(10);
    session.record.logs[used + 1 + random.below(3 - used)] = log;
}

/// At the first unused place.
fn reason_without_id(random: &mut Random, session: &mut Session) {
    let used = random.below(4);
    set_logs(session, &[2, 4, 6][..used]);
    session.record.logs[used].reason = random.pick(&[1, 2]);
}

fn last_id_at_next(session: &mut Session) {
    set_logs(session, &[1, 2]);
    session.next_id = 2;
}

fn cut_newest(random: &mut Random, store: &mut Store) {
    if store.used == 0 {
        store.push(&Change::Mask(0x01020304));
    }
    let cut = random.between(1, 3).min(usize::from(store.used));
    store.used -= cut as u16;
    let used = usize::from(store.used);
    if random.one_in(2) {
        store.bytes[used..].fill(0);
    }
}

fn unknown_kind(random: &mut Random, session: &mut Session, holding: Holding) {
    let kind = random.pick(&[0x00, 0x0D, 0x0E, 0xFF]);
    insert_entry(random, session, holding, |store| store.push_bytes(&[kind]));
}

fn first_unused(store: &mut Store, value: u8) {
    if store.room() == 0 {
        *store = Store::empty();
    }
    let used = usize::from(store.used);
    store.bytes[used] = value;
}

const fn back(place: u8, id: u8) -> Change {
    Change::Clear { place, log: Log { id, reason: 2 } }
}

const LOG_MADE: Change = Change::Reset { state: 2, log_made: 1 };

/// Pending ids and the newest entry: some can't be undone, some just can.
const HARD_UNDO_CASES: &[(&[u8], Change)] = &[
    (&[10, 20, 30, 40], back(0, 5)),
    (&[10, 20, 30, 40], back(3, 45)),
    (&[], back(1, 5)),
    (&[10], back(2, 15)),
    (&[10, 20], back(3, 25)),
    (&[10, 20], back(1, 10)),
    (&[10, 20], back(1, 20)),
    (&[10, 20], back(0, 15)),
    (&[10, 20], back(2, 15)),
    (&[10, 20], back(2, 21)),
    (&[10, 20], back(2, 255)),
    (&[], back(0, 1)),
    (&[], back(0, 2)),
    (&[10, 20, 30], back(3, 40)),
    (&[10, 20, 30], back(1, 15)),
    (&[10, 20, 30], back(0, 9)),
    (&[10, 20, 30], back(3, 2)),
    (&[], LOG_MADE),
    (&[20], LOG_MADE),
];

pub const HARD_UNDOS: usize = HARD_UNDO_CASES.len();

/// Well formed, but the newest entry can't be undone, or just can. Past the cases above, at random.
pub fn hard_undo(random: &mut Random, session: &mut Session, number: usize) {
    if session.journal.room() < 4 {
        session.journal = Store::empty();
    }
    let any = random.byte().max(1);
    let id = random.pick(&[5, 10, 15, 20, 21, 25, 30, 35, 40, 45, 255, any]);
    let pending: &[u8] = &[10, 20, 30, 40][..random.between(0, 4)];
    let drawn = (pending, back(random.below(LOG_PLACES) as u8, id));
    let (pending, newest) = HARD_UNDO_CASES.get(number).copied().unwrap_or(drawn);
    session.next_id = random.pick(&[1, 2, 21, 46, 256]);
    set_logs(session, pending);
    session.journal.push(&newest);
    session.mark_all();
}

const fn again(place: u8, id: u8) -> Change {
    Change::ClearAgain { place, log: Log { id, reason: 1 } }
}

const fn made(id: u8, reason: u8) -> Change {
    Change::ResetAgain(Log { id, reason })
}

/// Pending ids, all with reason 1, and the newest entry of the redo store; the next id is 46.
const HARD_REDO_CASES: &[(&[u8], Change)] = &[
    (&[10, 20, 30, 40], again(0, 10)),
    (&[10, 20, 30, 40], again(3, 40)),
    (&[10, 20, 30, 40], again(1, 10)),
    (&[10, 20, 30, 40], again(1, 30)),
    (&[10, 20], again(1, 20)),
    (&[10, 20], again(2, 20)),
    (&[10, 20], again(3, 30)),
    (&[10, 20], Change::ClearAgain { place: 1, log: Log { id: 20, reason: 2 } }),
    (&[], again(0, 10)),
    (&[10, 20, 30, 40], made(45, 1)),
    (&[10, 20, 30, 40], made(0, 0)),
    (&[10, 20, 30], made(45, 2)),
    (&[10, 20, 30], made(30, 1)),
    (&[10, 20, 30], made(29, 1)),
    (&[10, 20, 30], made(31, 1)),
    (&[10, 20, 30], made(46, 1)),
    (&[10, 20, 30], made(255, 2)),
    (&[], made(1, 1)),
    (&[], made(45, 2)),
    (&[], made(46, 2)),
];

pub const HARD_REDOS: usize = HARD_REDO_CASES.len();

/// Well formed, but the newest entry of the redo store can't be put back, or just can. Past the cases above, at random.
pub fn hard_redo(random: &mut Random, session: &mut Session, number: usize) {
    if session.journal.room() < 10 {
        session.journal = Store::empty();
        session.mark_all();
    }
    session.redo = Store::empty();
    if random.one_in(2) {
        let length = random.between(2, 40).min(session.journal.room() - 4);
        scene::fill(random, &mut session.redo, STORE_LENGTH - length, Holding::After);
    }
    let pending: &[u8] = &[10, 20, 30, 40][..random.between(0, 4)];
    let id = random.pick(&[9, 10, 11, 20, 30, 31, 40, 41, 45, 46]);
    let place = random.below(LOG_PLACES) as u8;
    let newest = random.pick(&[again(place, id), made(id, 2)]);
    let (pending, newest) = HARD_REDO_CASES.get(number).copied().unwrap_or((pending, newest));
    session.next_id = 46;
    set_logs(session, pending);
    session.redo.push(&newest);
}

/// Where a changed byte tells most: head, received marks, logs, areas, worked-out values, ids, the stores' edges, the
/// journal's marks, the timer, the profile.
fn telling_place(random: &mut Random, image: &[u8]) -> usize {
    let used = usize::from(u16::from_be_bytes([image[237], image[238]])).min(STORE_LENGTH);
    let redo = usize::from(u16::from_be_bytes([image[2287], image[2288]])).min(STORE_LENGTH);
    match random.below(19) {
        0 | 1 => random.below(10),
        2 => 170 + random.below(15),
        3 | 4 => 185 + random.below(8),
        5 => 193 + random.below(37),
        6 => 230 + random.below(5),
        7 => 235 + random.below(2),
        8 => 237 + random.below(2),
        9 => 239 + random.below(used.max(1)),
        10 => 239 + used.min(STORE_LENGTH - 1),
        11 => 2287 + random.below(2),
        12 => 2289 + random.below(redo.max(1)),
        13 => 2289 + redo.min(STORE_LENGTH - 1),
        14 => 4337 + random.below(2 * MARKS),
        15 => 4337 + random.below(6),
        16 => 4401 + random.below(9),
        17 => 4410,
        _ => random.below(IMAGE_LENGTH),
    }
}

/// One to three bytes of a well-formed session's image changed.
pub fn change_bytes(random: &mut Random, session: &Session) -> Vec<u8> {
    let mut image = image::write(session);
    for _ in 0..random.between(1, 3) {
        let place = telling_place(random, &image);
        let now = image[place];
        let any = random.byte();
        let bit = now ^ 1 << random.below(8);
        image[place] = random.pick(&[now.wrapping_add(1), now.wrapping_sub(1), bit, any, 0, 1, 2, 255]);
    }
    image
}

/// Random bytes all over, or only in one part of a fresh image.
pub fn random_bytes(random: &mut Random) -> Vec<u8> {
    let mut image = image::write(&Session::fresh());
    let parts = [
        (0, IMAGE_LENGTH),
        (0, 239),
        (239, 2048),
        (185, 8),
        (206, 24),
        (2287, 2050),
        (2289, 2048),
        (4337, 64),
        (4401, 9),
        (4410, 1),
    ];
    let (start, length) = random.pick(&parts);
    let bytes = random.bytes(length);
    image[start..start + length].copy_from_slice(&bytes);
    image
}

/// Stores of entries with random bodies: kinds and lengths right, values not judged.
pub fn random_stores(random: &mut Random, session: &mut Session) {
    (session.journal, session.redo) = (Store::empty(), Store::empty());
    for store in [&mut session.journal, &mut session.redo] {
        for _ in 0..random.below(4) {
            let kind = random.between(1, 12) as u8;
            let mut entry = vec![kind];
            entry.extend(random.bytes(body_length(kind).unwrap_or(0)).iter().map(|byte| byte & 3));
            store.push_bytes(&entry);
        }
    }
    session.mark_all();
}
