//! The session as a value: what it holds, when it is well formed, and a change put into it.

use crate::journal::*;
use crate::record::*;

/// The bytes of the two stores are the session's own, or parts of an image that was lent.
#[derive(Clone, PartialEq, Eq, Debug)]
pub struct Session<B = [u8; STORE_LENGTH]> {
    pub record: Record,
    pub worked_out: WorkedOut,
    pub next_id: u16,
    pub journal: Store<B>,
    pub redo: Store<B>,
    /// Of the journal's entries.
    pub marks: Marks,
    pub timer: Timer,
    /// Fixed at opening.
    pub profile: u8,
}

pub const FULL: u8 = 0;
pub const WATCH_ONLY: u8 = 1;

/// What commands are judged by: the session without its stores.
pub struct Standing<'a> {
    pub record: &'a Record,
    pub worked_out: &'a WorkedOut,
    pub next_id: u16,
    pub timer: Timer,
    profile: u8,
}

impl Standing<'_> {
    pub fn is_watched(&self) -> bool {
        self.profile == WATCH_ONLY
    }
}

/// A command that passed every status: what stood before, and what shall stand.
pub struct Accepted {
    pub before: Change,
    pub record: Record,
    pub timer: Timer,
    pub next_id: u16,
}

/// A session with all that the rules compare, found in one pass.
pub struct Inspection<'a> {
    standing: Standing<'a>,
    due: WorkedOut,
    pub journal: Survey,
    pub redo: Survey,
    marks: &'a Marks,
}

/// A rule of well-formedness: its name and whether a session obeys it.
pub type Rule = (&'static str, fn(&Inspection) -> bool);

/// Every rule of "A session is well formed if", one by one.
pub const RULES: &[Rule] = &[
    ("state", |s| state_fits(s.standing.record.state)),
    ("role", |s| role_fits(s.standing.record.role_received, s.standing.record.role)),
    ("caps", |s| caps_fit(s.standing.record.caps_received, &s.standing.record.caps)),
    ("throttles", |s| throttles_fit(s.standing.record.throttles_received, &s.standing.record.throttles)),
    ("thermal", |s| thermal_fits(s.standing.record.thermal_received, &s.standing.record.thermal)),
    ("deadman", |s| deadman_fits(s.standing.record.running, s.standing.record.time)),
    ("ffdc area", |s| area_fits(&s.standing.record.ffdc)),
    ("pass area", |s| area_fits(&s.standing.record.pass)),
    ("unused log places zero", |s| unused_logs_zero(s.standing.record)),
    ("log ids rising", |s| logs_rising(s.standing.record)),
    ("log reasons", |s| log_reasons_fit(s.standing.record)),
    ("log ids below next id", |s| logs_below(s.standing.record, s.standing.next_id)),
    ("next id", |s| (1..=256).contains(&s.standing.next_id)),
    ("limit", |s| s.standing.worked_out.limit == s.due.limit),
    ("observation-ready", |s| s.standing.worked_out.observation == s.due.observation),
    ("active-ready", |s| s.standing.worked_out.active == s.due.active),
    ("wanted format", |s| s.standing.worked_out.wanted == s.due.wanted),
    ("used length", |s| !s.journal.too_long),
    ("journal entries", |s| !s.journal.damaged),
    // Of a journal that can't be read to its end, no body is judged.
    ("journal bodies", |s| !s.journal.wrong_body || s.journal.damaged),
    ("unused journal zero", |s| !s.journal.rest_not_zero),
    ("redo used length", |s| !s.redo.too_long),
    ("redo entries", |s| !s.redo.damaged),
    ("redo bodies", |s| !s.redo.wrong_body || s.redo.damaged),
    ("unused redo zero", |s| !s.redo.rest_not_zero),
    ("lengths together", |s| s.journal.too_long || s.redo.too_long || s.lengths() <= STORE_LENGTH),
    // Where the journal can't be read to its end, no mark has an entry to be at.
    ("marks at their entries", |s| !s.journal.reads() || s.marks_fit(0, s.journal.used_marks())),
    ("unused marks zero", |s| !s.journal.reads() || s.marks_fit(s.journal.used_marks(), MARKS)),
    ("timer", |s| timer_fits(&s.standing.timer)),
    ("profile", |s| s.standing.profile <= WATCH_ONLY),
    ("journal of clears", |s| !s.standing.is_watched() || !s.journal.reads() || s.journal.clears_only),
    ("redo store of clears", |s| !s.standing.is_watched() || !s.redo.reads() || s.redo.clears_only),
];

impl Inspection<'_> {
    fn lengths(&self) -> usize {
        usize::from(self.journal.used) + usize::from(self.redo.used)
    }

    fn marks_fit(&self, from: usize, to: usize) -> bool {
        self.marks[from..to] == self.journal.marks[from..to]
    }

    pub fn well_formed(&self) -> bool {
        RULES.iter().all(|(_, obeyed)| obeyed(self))
    }
}

impl Session {
    pub fn fresh() -> Self {
        let record = Record::fresh();
        Session {
            record,
            worked_out: record.work_out(),
            next_id: 1,
            journal: Store::empty(),
            redo: Store::empty(),
            marks: [0; MARKS],
            timer: Timer::default(),
            profile: FULL,
        }
    }
}

impl<B: Bytes> Session<B> {
    pub fn standing(&self) -> Standing<'_> {
        Standing {
            record: &self.record,
            worked_out: &self.worked_out,
            next_id: self.next_id,
            timer: self.timer,
            profile: self.profile,
        }
    }

    pub fn inspect(&self) -> Inspection<'_> {
        Inspection {
            standing: self.standing(),
            due: self.record.work_out(),
            journal: self.journal.survey(Holding::Before),
            redo: self.redo.survey(Holding::After),
            marks: &self.marks,
        }
    }

    /// The marks as the journal's entries ask for them, found by a walk over all of it.
    pub fn mark_all(&mut self) {
        self.marks = self.journal.survey(Holding::Before).marks;
    }

    /// The last mark that is used, of a well-formed session.
    fn last_mark(&self) -> usize {
        self.marks.iter().rposition(|mark| *mark != 0).unwrap_or(0)
    }

    /// The newest entry of a well-formed session's journal, with its number; nothing before the last mark is looked at.
    pub fn newest(&self) -> Option<Newest> {
        let mark = usize::from(self.marks[self.last_mark()]);
        let found = newest_from_mark(self.journal.used_bytes()?.get(mark..)?)?;
        Some(Newest { offset: mark + found.offset, ..found })
    }

    /// How many entries the journal of a well-formed session holds.
    fn entries(&self) -> usize {
        self.newest().map_or(0, |newest| self.last_mark() * MARKED + newest.passed + 1)
    }

    /// Adds an entry to the journal, with its mark if it is to have one; false, and nothing done, without room.
    pub fn enter(&mut self, change: &Change) -> bool {
        let (number, offset) = (self.entries(), self.journal.used);
        let entered = self.journal.push(change);
        if entered && number.is_multiple_of(MARKED) {
            self.marks[number / MARKED] = offset;
        }
        entered
    }

    /// Drops so many of the oldest entries; the others move down, and the marks are theirs from then on.
    pub fn drop_oldest(&mut self, count: usize) {
        let Some(used) = self.journal.used_bytes() else {
            return;
        };
        let kept = || entries(used).map_while(Result::ok).skip(count).map(|entry| entry.offset);
        let front = kept().next().unwrap_or(used.len());
        let mut marks = [0; MARKS];
        for (mark, offset) in marks.iter_mut().zip(kept().step_by(MARKED)) {
            *mark = (offset - front) as u16;
        }
        self.marks = marks;
        self.journal.drop_front(front);
    }

    /// Zeroes the newest entry, and the mark that stood at it.
    pub fn strike(&mut self, newest: Newest) {
        let last = self.last_mark();
        if newest.passed == 0 {
            self.marks[last] = 0;
        }
        self.journal.cut(newest.offset);
    }

    pub fn well_formed(&self) -> bool {
        self.inspect().well_formed()
    }

    pub fn broken_rules(&self) -> Vec<&'static str> {
        let inspection = self.inspect();
        RULES.iter().filter(|(_, obeyed)| !obeyed(&inspection)).map(|(name, _)| *name).collect()
    }

    /// Worked-out values always follow the record.
    pub fn set_record(&mut self, record: Record) {
        self.record = record;
        self.worked_out = record.work_out();
    }

    /// Becomes the watch-only session over itself: nothing can be taken back or put in again, all else stays.
    pub fn open_to_watch(&mut self) {
        self.journal.cut(0);
        self.redo.cut(0);
        self.marks = [0; MARKS];
        self.profile = WATCH_ONLY;
    }

    /// Adds the entry, makes the change and empties the redo store; false, and nothing done, if the entry is longer than
    /// the journal's room.
    pub fn accept(&mut self, accepted: &Accepted) -> bool {
        if !self.enter(&accepted.before) {
            return false;
        }
        self.set_record(accepted.record);
        self.timer = accepted.timer;
        self.next_id = accepted.next_id;
        self.redo.cut(0);
        true
    }
}
