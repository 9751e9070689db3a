//! Forgetting: what is left is as if it had begun at the record after the forgotten changes.

use second::c;
use second::calls::{DONE, NOTHING_TO_UNDO, NOT_SO_MANY};
use second::image;
use second::occ::command_packet;
use second::record::Record;
use second::session::Session;

/// Changes of several kinds and lengths, over and over; the record after each, the fresh one first.
fn changed(count: usize) -> (Session, Vec<Record>) {
    let packets: [(u8, &[u8]); 8] = [
        (0x21, &[3, 1]),
        (0x21, &[7, 0x10, 1, 0, 2, 0, 0, 0]),
        (0x22, &[1, 5]),
        (0x25, &[0, 1]),
        (0x12, &[1]),
        (0x21, &[0x13, 0x10, 1, 0, 85, 95, 5]),
        (0x20, &[0, 2, 0]),
        (0x25, &[0, 0]),
    ];
    let mut session = Session::fresh();
    let mut records = vec![session.record];
    for (kind, data) in packets.iter().cycle().take(count) {
        let data = match kind {
            0x12 => vec![session.record.logs[0].id],
            _ => data.to_vec(),
        };
        let mut reply = [0; 4096];
        session.occ(0x10, &command_packet(1, *kind, &data), &mut reply);
        assert_eq!(reply[2], 0, "type {kind:02X} was refused");
        records.push(session.record);
    }
    (session, records)
}

#[test]
fn what_is_left_starts_from_the_record_after_the_forgotten() {
    let (whole, records) = changed(140);
    for count in [0, 1, 2, 31, 32, 33, 64, 100, 139, 140] {
        let mut session = whole.clone();
        session.undo();
        session.redo();
        assert_eq!(session.forget(count), DONE);
        assert_eq!((session.record, session.next_id), (whole.record, whole.next_id));
        assert!(session.well_formed());
        let freed = image::write(&session);
        for record in records[count as usize..140].iter().rev() {
            assert_eq!(session.undo().answer, DONE);
            assert_eq!(session.record, *record);
            assert!(session.well_formed());
        }
        assert_eq!(session.undo().answer, NOTHING_TO_UNDO);
        for record in &records[count as usize + 1..] {
            assert_eq!(session.redo().0, DONE);
            assert_eq!(session.record, *record);
        }
        assert_eq!(image::write(&session), freed);
    }
}

#[test]
fn more_than_are_held_changes_nothing() {
    let (whole, _) = changed(40);
    for count in [41, 42, 72, 65576, u32::MAX] {
        let mut image = image::write(&whole);
        assert_eq!(c::forget(&mut image, count), u32::from(NOT_SO_MANY));
        assert_eq!(image, image::write(&whole));
    }
    let mut image = image::write(&whole);
    assert_eq!(c::forget(&mut image, 40), 0);
    assert_eq!(c::undo(&mut image), 6);
    assert_eq!(c::forget(&mut image[1..], 0), 1);
}

#[test]
fn forgetting_in_two_goes_is_forgetting_at_once() {
    let (whole, _) = changed(100);
    for (first, second) in [(1, 1), (32, 1), (31, 2), (50, 50), (0, 7), (99, 1)] {
        let (mut once, mut twice) = (whole.clone(), whole.clone());
        assert_eq!(once.forget(first + second), DONE);
        assert_eq!((twice.forget(first), twice.forget(second)), (DONE, DONE));
        assert!(once == twice);
    }
}
