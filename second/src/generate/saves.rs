//! Saved sessions of both forms: right ones, such as can't go down, and such as won't read.

use super::{damage, random::Random, scene};
use crate::journal::{entries, Change, Entry, Holding, Store};
use crate::record::Timer;
use crate::save::{write_base, write_new, PARTS};
use crate::session::{Session, WATCH_ONLY};

/// Of either form, for that seed.
pub fn any(seed: u64) -> Vec<u8> {
    let mut random = Random::new(seed);
    if random.one_in(2) {
        base(&mut random)
    } else {
        new_form(&mut random)
    }
}

/// A base save, or what looks like one.
pub fn base(random: &mut Random) -> Vec<u8> {
    let mut session = session_of_the_base(random);
    if random.one_in(4) {
        beyond_the_base(random, &mut session);
    }
    if random.one_in(5) {
        let number = random.below(damage::count());
        damage::break_rule(random, &mut session, number);
    }
    let saved = write_base(&session);
    if random.one_in(4) {
        spoilt(random, saved, &[230, 232])
    } else {
        saved
    }
}

/// A new form, or what looks like one.
pub fn new_form(random: &mut Random) -> Vec<u8> {
    let mut session = match random.below(4) {
        0 => scene::session(random),
        1 => scene::watched(random),
        _ => session_of_the_base(random),
    };
    if random.one_in(4) {
        beyond_the_base(random, &mut session);
    }
    if random.one_in(6) {
        let number = random.below(damage::count());
        damage::break_rule(random, &mut session, number);
    }
    let saved = write_new(&session);
    if random.one_in(4) {
        spoilt(random, saved, &starts())
    } else {
        saved
    }
}

/// Where the parts of the new form start, and where the last one ends.
fn starts() -> Vec<usize> {
    let mut starts = vec![0];
    for (_, length) in PARTS {
        starts.push(starts[starts.len() - 1] + 1 + length);
    }
    starts
}

/// A session that the base version could have saved.
pub fn session_of_the_base(random: &mut Random) -> Session {
    let mut session = if random.one_in(4) {
        let count = scene::entries_about_marks(random);
        scene::session_with_entries(random, count)
    } else {
        scene::session(random)
    };
    session.timer = Timer::default();
    session.redo = Store::empty();
    for fru in session.record.thermal.chunks_exact_mut(3) {
        fru[..2].sort_unstable();
    }
    let journal = std::mem::replace(&mut session.journal, Store::empty());
    for entry in entries(journal.used_bytes().unwrap_or(&[])).flatten() {
        if let Some(change) = change_of_the_base(random, &entry) {
            session.journal.push(&change);
        }
    }
    session.mark_all();
    session
}

/// Thresholds in order, and no timer.
fn change_of_the_base(random: &mut Random, entry: &Entry) -> Option<Change> {
    match Change::read(entry.kind, entry.body, Holding::Before)? {
        Change::Timer(_) => Some(scene::change(random, 0x0A, Holding::Before)),
        Change::Thermal { received, mut thermal } => {
            thermal.chunks_exact_mut(3).for_each(|fru| fru[..2].sort_unstable());
            Some(Change::Thermal { received, thermal })
        }
        change => Some(change),
    }
}

/// One thing that the base version doesn't have, or whose rule came later.
fn beyond_the_base(random: &mut Random, session: &mut Session) {
    if session.journal.room() < 30 {
        session.journal = Store::empty();
    }
    let unset = [1, 2, 3, 0xFF, random.byte().min(0xFE), 9, 4, 5, 6];
    match random.below(6) {
        0 => (session.record.thermal_received, session.record.thermal) = (1, unset),
        1 => {
            session.journal.push(&Change::Thermal { received: 1, thermal: unset });
        }
        2 => session.timer = Timer { running: 1, left: random.pick(&[0, 1, 7]) },
        3 => {
            let timer = scene::timer(random);
            session.journal.push(&Change::Timer(timer));
        }
        4 => scene::fill_redo(random, session),
        _ => session.profile = WATCH_ONLY,
    }
    if random.one_in(2) && session.journal.room() > 4 {
        session.journal.push(&Change::State(1));
    }
    session.set_record(session.record);
    session.mark_all();
}

/// Cut, too long, or with a byte changed: at the places given as often as not.
fn spoilt(random: &mut Random, mut saved: Vec<u8>, places: &[usize]) -> Vec<u8> {
    let place = if random.one_in(2) { random.pick(places) } else { random.below(saved.len()) };
    match random.below(4) {
        0 => saved.truncate(place),
        1 => {
            let more = random.pick(&[1, 2, 8, 100]);
            let byte = random.pick(&[0, 2]);
            saved.resize(saved.len() + more, byte);
        }
        _ => {
            let place = place.min(saved.len().saturating_sub(1));
            let changed = saved.get(place).map(|byte| byte.wrapping_add(random.pick(&[1, 255, 0x80])));
            if let (Some(byte), Some(changed)) = (saved.get_mut(place), changed) {
                *byte = changed;
            }
        }
    }
    saved
}
