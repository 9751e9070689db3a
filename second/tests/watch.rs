//! Watch-only sessions: students can't break one.

use second::c;
use second::image;
use second::protocol::{parse, Order, Program};
use second::record::{Log, Record};
use second::session::{Session, FULL, WATCH_ONLY};

fn without_logs(record: &Record) -> Record {
    Record { logs: [Log::default(); 4], ..*record }
}

/// Random lines, with a watch-only session opened wherever a well-formed one is at hand: from there to the next `fresh`, `load` or `restore`
/// only logs go and come back, and the profile stays.
#[test]
fn a_watch_only_session_keeps_all_but_its_logs() {
    let mut lines = Vec::new();
    second::generate::generate(9000, 30, false, &mut lines).expect("writing to memory");
    let mut program = Program::default();
    let (mut opened, mut calls, mut accepted) = (None::<Session>, 0, 0);
    for line in lines.split(|byte| *byte == b'\n') {
        let Some(Ok(order)) = parse(line.strip_suffix(b"\r").unwrap_or(line)) else { continue };
        let other = matches!(order, Order::Fresh | Order::Load(_) | Order::Restore(_));
        let before = program.session.journal.used;
        program.obey(order);
        if other {
            opened = (program.session.watch() == 0).then(|| program.session.clone());
            continue;
        }
        let (Some(start), now) = (&opened, &program.session) else { continue };
        calls += 1;
        accepted += usize::from(now.journal.used != before);
        assert!(now.well_formed());
        assert_eq!((now.profile, now.next_id), (WATCH_ONLY, start.next_id));
        assert_eq!(without_logs(&now.record), without_logs(&start.record));
        assert!(now.record.logs.iter().all(|log| log.id == 0 || start.record.logs.contains(log)));
    }
    assert!(calls > 1000 && accepted > 50, "{calls} calls, {accepted} of them move the journal");
}

#[test]
fn opening_drops_both_stores_and_nothing_else() {
    let mut session = Session::fresh();
    let mut reply = [0; 4096];
    for _ in 0..70 {
        let packet = second::occ::command_packet(1, 0x20, &[0, 1, 0]);
        assert_eq!(session.occ(0x10, &packet, &mut reply).answer, 0);
    }
    session.timer.running = 1;
    session.timer.left = 7;
    session.undo();
    let mut lent = image::write(&session);
    assert_eq!(c::watch(&mut lent), 0);
    let opened = image::read(&lent).expect("an image");
    assert_eq!(
        (opened.record, opened.timer, opened.next_id),
        (session.record, session.timer, session.next_id)
    );
    assert!(lent[237..4401].iter().all(|byte| *byte == 0));
    assert_eq!((session.profile, opened.profile), (FULL, WATCH_ONLY));
    assert_eq!(c::undo(&mut lent), 6);
    assert_eq!(c::redo(&mut lent), 8);
    lent[4410] = 2;
    assert_eq!(c::watch(&mut lent), 1);
    assert_eq!(c::watch(&mut lent[..4410]), 1);
}

/// With lent buffers, which lines don't give: reads are served and refused as in any session.
#[test]
fn reads_of_the_seeprom_stay_open() {
    let mut lent = image::write(&Session::fresh());
    assert_eq!(c::watch(&mut lent), 0);
    let opened = lent.clone();
    let mut request = [0; 32];
    (request[6], request[7], request[15]) = (0xD7, 0x03, 8);
    let seeprom = [1, 2, 3, 4, 5, 6, 7, 8];
    for (room, status) in [(7, [0, 2, 0, 0x18]), (8, [0; 4])] {
        let (mut response, mut data) = ([0; 32], vec![0xEE; room]);
        assert_eq!(c::sbe_seeprom(&mut lent, &request, &mut response, &seeprom, &mut data), 0);
        assert_eq!(response[..4], status);
        assert_eq!(data, if room == 8 { seeprom.to_vec() } else { vec![0xEE; room] });
        assert_eq!(lent, opened);
    }
}
