//! Saved sessions: the base version's form, the new one, and the way from one to the other.

use crate::bytes::{Reader, Writer};
use crate::calls::{CANNOT_GO_DOWN, DONE, OUTPUT_TOO_SHORT, WONT_READ};
use crate::image::{read_marks, read_record, write_marks, write_record, RECORD_LENGTH};
use crate::journal::*;
use crate::record::Timer;
use crate::session::{Session, FULL};

/// A base save: the record, the next id, then the used journal and nothing more.
pub const BASE_HEAD: usize = RECORD_LENGTH + 2;
pub const LONGEST_BASE: usize = BASE_HEAD + STORE_LENGTH;

/// The parts of the new form in their order: one byte of kind, and a body of that length.
pub const PARTS: [(u8, usize); 7] = [
    (0x01, RECORD_LENGTH),
    (0x02, 2),
    (0x03, STORE_LENGTH),
    (0x04, STORE_LENGTH),
    (0x05, 2 * MARKS),
    (0x06, 1),
    (0x07, 9),
];
pub const NEW_LENGTH: usize = 4409;

/// The answer, and how many bytes were written to a buffer that is kept in every other case.
pub type Moved = (u8, usize);

/// The new form of a session.
pub fn write_new(session: &Session) -> Vec<u8> {
    let mut saved = vec![0; NEW_LENGTH];
    let mut rest = Writer::new(&mut saved);
    rest.put(&[0x01]);
    write_record(&mut rest, &session.record);
    rest.put(&[0x02]);
    rest.put(&session.next_id.to_be_bytes());
    rest.put(&[0x03]);
    rest.put(&session.journal.bytes);
    rest.put(&[0x04]);
    rest.put(&session.redo.bytes);
    rest.put(&[0x05]);
    write_marks(&mut rest, &session.marks);
    rest.put(&[0x06, session.profile, 0x07]);
    write_timer(&mut rest, &session.timer);
    saved
}

/// The session of a new form, if it reads and is well formed.
pub fn read_new(saved: &[u8]) -> Option<Session> {
    let mut rest = Some(saved).filter(|saved| saved.len() == NEW_LENGTH).map(Reader::new)?;
    kind(&mut rest, 0x01)?;
    let record = read_record(&mut rest)?;
    kind(&mut rest, 0x02)?;
    let mut session = Session { next_id: rest.u16()?, ..Session::fresh() };
    session.set_record(record);
    kind(&mut rest, 0x03)?;
    session.journal = padded(rest.array()?)?;
    kind(&mut rest, 0x04)?;
    session.redo = padded(rest.array()?)?;
    kind(&mut rest, 0x05)?;
    session.marks = read_marks(&mut rest)?;
    kind(&mut rest, 0x06)?;
    session.profile = rest.u8()?;
    kind(&mut rest, 0x07)?;
    session.timer = read_timer(&mut rest)?;
    session.well_formed().then_some(session)
}

fn kind(rest: &mut Reader, due: u8) -> Option<()> {
    (rest.u8()? == due).then_some(())
}

/// A store whose used length is read off: entries up to the first 00 where a kind is due.
fn padded(bytes: [u8; STORE_LENGTH]) -> Option<Store> {
    let used = match entries(&bytes).find_map(Result::err) {
        None => STORE_LENGTH,
        Some(offset) if bytes[offset] == 0 => offset,
        Some(_) => return None,
    };
    Some(Store { used: used as u16, bytes })
}

pub fn write_base(session: &Session) -> Vec<u8> {
    let used = session.journal.used_bytes().unwrap_or(&[]);
    let mut saved = vec![0; BASE_HEAD + used.len()];
    let mut rest = Writer::new(&mut saved);
    write_record(&mut rest, &session.record);
    rest.put(&session.next_id.to_be_bytes());
    rest.put(used);
    saved
}

/// The session of a base save, with all that the base version didn't have as it stands when nothing was done to it.
fn read_base(saved: &[u8]) -> Option<Session> {
    let (head, journal) = saved.split_at_checked(BASE_HEAD)?;
    let mut rest = Reader::new(head);
    let record = read_record(&mut rest)?;
    let mut session = Session { next_id: rest.u16()?, ..Session::fresh() };
    session.set_record(record);
    session.journal.push_bytes(journal).then_some(())?;
    session.mark_all();
    Some(session).filter(|session| session.well_formed() && is_of_the_base(session))
}

/// What the base version can hold: none of the later parts or kinds, and thresholds by document 01's first rule.
fn is_of_the_base(session: &Session) -> bool {
    let journal = session.journal.used_bytes().unwrap_or(&[]);
    session.redo.used == 0
        && session.profile == FULL
        && session.timer == Timer::default()
        && in_order_first(&session.record.thermal)
        && entries(journal).flatten().all(|entry| is_entry_of_the_base(&entry))
}

fn is_entry_of_the_base(entry: &Entry) -> bool {
    match (entry.kind, entry.body) {
        (0x06, [_received, thermal @ ..]) => in_order_first(thermal),
        (kind, _) => kind <= 0x0B,
    }
}

/// DVFS at most ERROR, 0xFF a number like any other.
fn in_order_first(thermal: &[u8]) -> bool {
    thermal.chunks_exact(3).all(|fru| fru[0] <= fru[1])
}

/// Writes the bytes if there is room for all of them; else nothing.
pub fn hand_out(saved: &[u8], output: &mut [u8]) -> Moved {
    match output.get_mut(..saved.len()) {
        Some(place) => {
            place.copy_from_slice(saved);
            (DONE, saved.len())
        }
        None => (OUTPUT_TOO_SHORT, 0),
    }
}

/// A base save in the new form.
pub fn move_up(saved: &[u8], output: &mut [u8]) -> Moved {
    match read_base(saved) {
        Some(session) => hand_out(&write_new(&session), output),
        None => (WONT_READ, 0),
    }
}

/// A new form as a base save, if the base version can hold it.
pub fn move_down(saved: &[u8], output: &mut [u8]) -> Moved {
    match read_new(saved) {
        None => (WONT_READ, 0),
        Some(session) if !is_of_the_base(&session) => (CANNOT_GO_DOWN, 0),
        Some(session) => hand_out(&write_base(&session), output),
    }
}
