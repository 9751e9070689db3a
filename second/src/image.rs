//! The image of a session: its fields in order, big-endian, no padding. Both ways lose nothing.

use crate::bytes::{Reader, Writer};
use crate::journal::*;
use crate::record::*;
use crate::session::Session;

pub const RECORD_LENGTH: usize = 230;
/// All before the journal's bytes; the redo store's used length follows them.
const HEAD_LENGTH: usize = 239;
const REDO_AT: usize = HEAD_LENGTH + STORE_LENGTH;
const TAIL_AT: usize = REDO_AT + 2 + STORE_LENGTH;
/// All behind the redo store's bytes: marks, timer, profile.
const TAIL_LENGTH: usize = 2 * MARKS + 9 + 1;
pub const IMAGE_LENGTH: usize = TAIL_AT + TAIL_LENGTH;

pub fn write(session: &Session) -> Vec<u8> {
    let mut bytes = vec![0; IMAGE_LENGTH];
    write_head(&mut bytes[..HEAD_LENGTH], session);
    write_tail(&mut bytes[TAIL_AT..], session);
    let mut rest = Writer::new(&mut bytes[HEAD_LENGTH..]);
    rest.put(&session.journal.bytes);
    rest.put(&session.redo.used.to_be_bytes());
    rest.put(&session.redo.bytes);
    bytes
}

fn write_head<B>(head: &mut [u8], session: &Session<B>) {
    let mut head = Writer::new(head);
    write_record(&mut head, &session.record);
    let worked = &session.worked_out;
    head.put(&worked.limit.to_be_bytes());
    head.put(&[worked.observation, worked.active, worked.wanted]);
    head.put(&session.next_id.to_be_bytes());
    head.put(&session.journal.used.to_be_bytes());
}

fn write_tail<B>(tail: &mut [u8], session: &Session<B>) {
    let mut tail = Writer::new(tail);
    write_marks(&mut tail, &session.marks);
    write_timer(&mut tail, &session.timer);
    tail.put(&[session.profile]);
}

pub fn write_marks(bytes: &mut Writer, marks: &Marks) {
    marks.iter().for_each(|mark| bytes.put(&mark.to_be_bytes()));
}

pub fn write_record(head: &mut Writer, record: &Record) {
    head.put(&[record.state, record.role]);
    write_caps(head, &record.caps);
    write_throttles(head, &record.throttles);
    head.put(&record.user_cap.to_be_bytes());
    head.put(&record.thermal);
    head.put(&[record.role_received, record.caps_received]);
    head.put(&[record.throttles_received, record.thermal_received]);
    for log in &record.logs {
        head.put(&[log.id, log.reason]);
    }
    head.put(&record.mask.to_be_bytes());
    head.put(&[record.running]);
    head.put(&record.time.to_be_bytes());
    write_area(head, &record.ffdc);
    write_area(head, &record.pass);
}

/// `None` if the number of bytes isn't the image's.
pub fn read(bytes: &[u8]) -> Option<Session> {
    if bytes.len() != IMAGE_LENGTH {
        return None;
    }
    let (front, tail) = bytes.split_at(TAIL_AT);
    let (head, rest) = front.split_at(HEAD_LENGTH);
    let mut rest = Reader::new(rest);
    let journal = rest.array()?;
    let redo = Store { used: rest.u16()?, bytes: rest.array()? };
    read_around(head, journal, redo, tail)
}

/// Makes a call on an image in place: the stores stay where they are, all else is written back. `None` as above.
pub fn call<R>(bytes: &mut [u8], make: impl FnOnce(&mut Session<&mut [u8]>) -> R) -> Option<R> {
    if bytes.len() != IMAGE_LENGTH {
        return None;
    }
    let (front, tail) = bytes.split_at_mut(TAIL_AT);
    let (front, behind) = front.split_at_mut(REDO_AT);
    let (head, journal) = front.split_at_mut(HEAD_LENGTH);
    let (redo_used, redo) = behind.split_first_chunk_mut::<2>()?;
    let redo = Store { used: u16::from_be_bytes(*redo_used), bytes: redo };
    let mut session = read_around(head, journal, redo, tail)?;
    let result = make(&mut session);
    write_head(head, &session);
    *redo_used = session.redo.used.to_be_bytes();
    write_tail(tail, &session);
    Some(result)
}

/// What stands around the stores.
fn read_around<B>(head: &[u8], journal: B, redo: Store<B>, tail: &[u8]) -> Option<Session<B>> {
    let (mut rest, mut tail) = (Reader::new(head), Reader::new(tail));
    Some(Session {
        record: read_record(&mut rest)?,
        worked_out: WorkedOut {
            limit: rest.u16()?,
            observation: rest.u8()?,
            active: rest.u8()?,
            wanted: rest.u8()?,
        },
        next_id: rest.u16()?,
        journal: Store { used: rest.u16()?, bytes: journal },
        redo,
        marks: read_marks(&mut tail)?,
        timer: read_timer(&mut tail)?,
        profile: tail.u8()?,
    })
}

pub fn read_marks(tail: &mut Reader) -> Option<Marks> {
    let mut marks = [0; MARKS];
    for mark in &mut marks {
        *mark = tail.u16()?;
    }
    Some(marks)
}

pub fn read_record(rest: &mut Reader) -> Option<Record> {
    Some(Record {
        state: rest.u8()?,
        role: rest.u8()?,
        caps: read_caps(rest)?,
        throttles: Throttles { presence: rest.u16()?, sets: read_sets(rest)? },
        user_cap: rest.u16()?,
        thermal: rest.array()?,
        role_received: rest.u8()?,
        caps_received: rest.u8()?,
        throttles_received: rest.u8()?,
        thermal_received: rest.u8()?,
        logs: read_logs(rest)?,
        mask: rest.u32()?,
        running: rest.u8()?,
        time: rest.u64()?,
        ffdc: read_area(rest)?,
        pass: read_area(rest)?,
    })
}

fn read_logs(rest: &mut Reader) -> Option<[Log; LOG_PLACES]> {
    let mut logs = [Log::default(); LOG_PLACES];
    for log in &mut logs {
        *log = Log { id: rest.u8()?, reason: rest.u8()? };
    }
    Some(logs)
}
