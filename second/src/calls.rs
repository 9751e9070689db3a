//! The calls on a session and their answers: OCC and SBE commands, undo, redo, forget, time reports and opening to watch.

use crate::journal::{Bytes, Change, Holding};
use crate::occ;
use crate::record::{record_fits, Record, Timer};
use crate::sbe;
use crate::session::Session;

pub const OCC_REPLY_LENGTH: usize = 4096;
pub const SBE_REPLY_LENGTH: usize = 32;

/// The session answers, by the paper's numbers.
pub const DONE: u8 = 0;
pub const NOT_WELL_FORMED: u8 = 1;
pub const UNKNOWN_SENDER: u8 = 2;
pub const REPLY_TOO_SHORT: u8 = 3;
pub const COMMAND_TOO_SHORT: u8 = 4;
pub const JOURNAL_FULL: u8 = 5;
pub const NOTHING_TO_UNDO: u8 = 6;
/// Redo alike.
pub const CANNOT_UNDO: u8 = 7;
pub const NOTHING_TO_REDO: u8 = 8;
/// To forget.
pub const NOT_SO_MANY: u8 = 9;
/// More than five packets, or a wanted state other than 2 and 3.
pub const NOTHING_TO_PLAN: u8 = 10;
/// Of saved sessions: won't read or is ill formed; can't go down; output buffer too short.
pub const WONT_READ: u8 = 11;
pub const CANNOT_GO_DOWN: u8 = 12;
pub const OUTPUT_TOO_SHORT: u8 = 13;

/// What an OCC call gives beside the reply.
#[derive(Clone, Copy, PartialEq, Eq, Debug)]
pub struct OccAnswer {
    pub answer: u8,
    /// The reply's length, 0 when none is written.
    pub length: usize,
    /// Which data byte is wrong; `None` when the status isn't 0x13.
    pub fault: Option<occ::Fault>,
}

impl OccAnswer {
    fn refused(answer: u8) -> Self {
        OccAnswer { answer, length: 0, fault: None }
    }
}

/// What an SBE call gives beside the response.
#[derive(Clone, Copy, PartialEq, Eq, Debug)]
pub struct SbeAnswer {
    pub answer: u8,
    pub bell: u16,
    /// How many bytes of the SEEPROM were read; `None` where none were asked for or the request was refused.
    pub served: Option<usize>,
}

impl SbeAnswer {
    fn refused(answer: u8) -> Self {
        SbeAnswer { answer, bell: 0, served: None }
    }
}

/// What an undo gives: the kind of the entry and how many were passed to find it, both 0 when refused.
#[derive(Clone, Copy, PartialEq, Eq, Debug)]
pub struct Undone {
    pub answer: u8,
    pub kind: u8,
    pub passed: u8,
}

impl Undone {
    fn refused(answer: u8) -> Self {
        Undone { answer, kind: 0, passed: 0 }
    }
}

impl<B: Bytes> Session<B> {
    pub fn occ(&mut self, sender: u8, command: &[u8], reply: &mut [u8]) -> OccAnswer {
        if !self.well_formed() {
            return OccAnswer::refused(NOT_WELL_FORMED);
        }
        if sender != occ::HTMGT && sender != occ::BMC {
            return OccAnswer::refused(UNKNOWN_SENDER);
        }
        if reply.len() < OCC_REPLY_LENGTH {
            return OccAnswer::refused(REPLY_TOO_SHORT);
        }
        let [sequence, command_type, _, _, ..] = *command else {
            return OccAnswer::refused(COMMAND_TOO_SHORT);
        };
        let mut fault = None;
        let (status, data) = match occ::judge(&self.standing(), sender, command) {
            Err(refusal) => {
                fault = refusal.fault;
                (refusal.status, occ::Data::log_id(0))
            }
            Ok(occ::Effect::Poll) => (occ::SUCCESS, occ::poll_data(&self.standing())),
            Ok(occ::Effect::Change(accepted)) if self.accept(&accepted) => (occ::SUCCESS, occ::Data::none()),
            Ok(occ::Effect::Change(_)) => return OccAnswer::refused(JOURNAL_FULL),
        };
        let length = occ::write_reply(reply, [sequence, command_type, status], data.bytes());
        OccAnswer { answer: DONE, length, fault }
    }

    /// The answer and the doorbell; the response is 32 bytes when the answer is 0. No SEEPROM is lent.
    pub fn sbe(&mut self, request: &[u8], response: &mut [u8]) -> (u8, u16) {
        let told = self.sbe_seeprom(request, response, &[], &mut []);
        (told.answer, told.bell)
    }

    /// The same with an image of the SEEPROM lent, and a buffer for what is read from it.
    pub fn sbe_seeprom(
        &mut self,
        request: &[u8],
        response: &mut [u8],
        seeprom: &[u8],
        data: &mut [u8],
    ) -> SbeAnswer {
        if !self.well_formed() {
            return SbeAnswer::refused(NOT_WELL_FORMED);
        }
        if response.len() < SBE_REPLY_LENGTH {
            return SbeAnswer::refused(REPLY_TOO_SHORT);
        }
        let Some(request) = sbe::Request::read(request) else {
            return SbeAnswer::refused(COMMAND_TOO_SHORT);
        };
        let mut served = None;
        let status = match sbe::judge(&self.standing(), &request, seeprom.len(), data.len()) {
            Err(status) => status,
            Ok(sbe::Effect::Respond) => sbe::SUCCESS,
            Ok(sbe::Effect::Serve(range)) => {
                served = Some(range.len());
                data[..range.len()].copy_from_slice(&seeprom[range]);
                sbe::SUCCESS
            }
            Ok(sbe::Effect::Change(accepted)) if self.accept(&accepted) => sbe::SUCCESS,
            Ok(sbe::Effect::Change(_)) => return SbeAnswer::refused(JOURNAL_FULL),
        };
        response[..SBE_REPLY_LENGTH].copy_from_slice(&sbe::response(&request, status));
        SbeAnswer { answer: DONE, bell: sbe::doorbell(request.flags), served }
    }

    /// So many microseconds have passed: the answer and the doorbell. No change: nothing is entered, and what can be redone stays.
    pub fn time(&mut self, microseconds: u64) -> (u8, u16) {
        if !self.well_formed() {
            return (NOT_WELL_FORMED, 0);
        }
        if self.timer.running == 0 {
            return (DONE, 0);
        }
        match self.timer.left.checked_sub(microseconds) {
            None | Some(0) => {
                self.timer = Timer::default();
                (DONE, sbe::TIMER_EXPIRED)
            }
            Some(left) => {
                self.timer.left = left;
                (DONE, 0)
            }
        }
    }

    /// Takes the newest change back. The next id is never wound back.
    pub fn undo(&mut self) -> Undone {
        if !self.well_formed() {
            return Undone::refused(NOT_WELL_FORMED);
        }
        let Some(newest) = self.newest() else {
            return Undone::refused(NOTHING_TO_UNDO);
        };
        let Some((change, record)) = self.put_in(self.journal.read(newest.offset, Holding::Before)) else {
            return Undone::refused(CANNOT_UNDO);
        };
        self.strike(newest);
        let kept = self.redo.push(&change.opposite(&self.record, self.timer));
        assert!(kept, "both stores together hold at most what one has room for");
        self.set_record(record);
        self.timer = change.set(self.timer);
        Undone { answer: DONE, kind: change.kind(), passed: newest.passed as u8 }
    }

    /// Puts the change last taken back in again: the answer and its kind, 0 when refused. The next id doesn't move.
    pub fn redo(&mut self) -> (u8, u8) {
        let inspection = self.inspect();
        if !inspection.well_formed() {
            return (NOT_WELL_FORMED, 0);
        }
        let Some(newest) = inspection.redo.newest else {
            return (NOTHING_TO_REDO, 0);
        };
        let Some((change, record)) = self.put_in(self.redo.read(newest, Holding::After)) else {
            return (CANNOT_UNDO, 0);
        };
        self.redo.cut(newest);
        let entered = self.enter(&change.opposite(&self.record, self.timer));
        assert!(entered, "both stores together hold at most what one has room for");
        self.set_record(record);
        self.timer = change.set(self.timer);
        (DONE, change.kind())
    }

    /// Forgets the `count` oldest changes, so that their room is used again; the record stays, and so does what can be redone.
    pub fn forget(&mut self, count: u32) -> u8 {
        let inspection = self.inspect();
        if !inspection.well_formed() {
            return NOT_WELL_FORMED;
        }
        let count = count as usize;
        if count > inspection.journal.entries {
            return NOT_SO_MANY;
        }
        self.drop_oldest(count);
        DONE
    }

    /// Opens a watch-only session over this one, which is lost.
    pub fn watch(&mut self) -> u8 {
        if !self.well_formed() {
            return NOT_WELL_FORMED;
        }
        self.open_to_watch();
        DONE
    }

    /// The change with the record that it gives, if that is well formed.
    fn put_in(&self, change: Option<Change>) -> Option<(Change, Record)> {
        let change = change?;
        let record = change.put(&self.record).filter(|record| record_fits(record, self.next_id))?;
        Some((change, record))
    }
}
