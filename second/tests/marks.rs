//! The marks of the journal, and how many entries an undo passes.

use second::c;
use second::image::{self, IMAGE_LENGTH};
use second::journal::{entries, newest_from_mark, Newest};
use second::protocol::{parse, Order, Program};
use second::session::Session;

const MARKS_AT: usize = 4337;

/// The marks that the journal's entries ask for, read off the image's bytes.
fn due_marks(session: &Session) -> Vec<u8> {
    let used = session.journal.used_bytes().expect("a used length in range");
    let offsets = entries(used).map(|entry| entry.expect("a journal that reads").offset as u16);
    let mut marks: Vec<u8> = offsets.step_by(32).flat_map(u16::to_be_bytes).collect();
    marks.resize(64, 0);
    marks
}

fn held(session: &Session) -> usize {
    entries(session.journal.used_bytes().expect("a used length in range")).count()
}

/// Random calls on well-formed sessions: each leaves the marks that its journal asks for, and an undo tells the number of the request.
#[test]
fn calls_leave_right_marks() {
    let mut lines = Vec::new();
    second::generate::generate(6000, 27, false, &mut lines).expect("writing to memory");
    let mut program = Program::default();
    let mut told = [0; 32];
    for line in lines.split(|byte| *byte == b'\n') {
        let Some(Ok(order)) = parse(line.strip_suffix(b"\r").unwrap_or(line)) else { continue };
        let (undo, loaded) = (order == Order::Undo, matches!(order, Order::Load(_)));
        let before = program.session.clone();
        let answer = program.obey(order);
        if loaded || !before.well_formed() {
            continue;
        }
        assert!(program.session.well_formed());
        let image = image::write(&program.session);
        assert_eq!(&image[MARKS_AT..MARKS_AT + 64], due_marks(&program.session));
        if undo && answer.starts_with('0') {
            let newest = held(&before) - 1;
            let passed = newest - newest / 32 * 32;
            assert!(answer.ends_with(&format!(" {passed}\n")), "{answer}");
            told[passed] += 1;
        }
    }
    assert!(told.iter().all(|count| *count > 0), "{told:?}");
}

#[test]
fn the_result_of_undo_has_the_number_passed() {
    let mut image = vec![0; IMAGE_LENGTH];
    let mut reply = vec![0; 4096];
    assert_eq!(c::fresh(&mut image), 0);
    assert_eq!(c::undo(&mut image), 6);
    let packet = second::occ::command_packet(1, 0x20, &[0, 1, 0]);
    for _ in 0..64 {
        assert_eq!(c::occ(&mut image, 0x10, &packet, &mut reply), 0);
    }
    for (result, redone) in [(0x0002_1F00, 0x0002_0000), (0x0002_1F00, 0x0002_0000)] {
        assert_eq!(c::undo(&mut image), result);
        assert_eq!(c::redo(&mut image), redone);
    }
    for passed in (0..32u32).rev().chain((0..32).rev()) {
        assert_eq!(c::undo(&mut image), 0x0002_0000 | passed << 8);
    }
    assert_eq!(c::undo(&mut image), 6);
    image[MARKS_AT + 63] = 1;
    assert_eq!(c::undo(&mut image), 1);
}

#[test]
fn the_newest_is_found_in_a_part() {
    assert_eq!(newest_from_mark(&[]), None);
    assert_eq!(newest_from_mark(&[2, 1]), Some(Newest { offset: 0, passed: 0 }));
    assert_eq!(newest_from_mark(&[2, 1, 5, 0, 0, 2, 3]), Some(Newest { offset: 5, passed: 2 }));
}
