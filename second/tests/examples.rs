//! The ten worked examples of the document, through the line protocol and, where buffers matter, the calls.

use second::calls::*;
use second::image;
use second::protocol::Program;
use second::session::*;

fn told(program: &mut Program, lines: &[&str]) -> String {
    let answers: Vec<String> = lines.iter().map(|line| program.answer(line.as_bytes())).collect();
    answers.last().cloned().unwrap_or_default()
}

fn after(lines: &[&str]) -> (Program, String) {
    let mut program = Program::default();
    let last = told(&mut program, lines);
    (program, last)
}

const MASTER: &str = "send 10 21 03 01";
const CAPS_500_1500: &str = "send 10 21 07 10 01F4 05DC 0000";

#[test]
fn example_1_poll_of_a_fresh_session() {
    let (_, reply) = after(&["occ 10 01 00 00 01 10 00 12"]);
    assert_eq!(
        reply,
        "0 01 00 00 00 28 00 00 01 03 01 00 00 00 00 00 00 00 00 00 00 00 62 65 6E 63 68 00 00 00 \
         00 00 00 00 00 00 00 00 53 45 4E 53 4F 52 00 01 04 09\n"
    );
}

#[test]
fn example_2_wrong_checksum() {
    assert_eq!(after(&["occ 10 01 00 00 01 10 00 13"]).1, "0 01 00 14 00 01 00 00 16\n");
}

#[test]
fn example_3_user_cap_then_higher_minimum() {
    let (mut program, reply) = after(&[MASTER, CAPS_500_1500, "occ 20 02 22 00 02 03 E8 01 11"]);
    assert_eq!(reply, "0 02 22 00 00 00 00 24\n");
    assert_eq!(program.session.worked_out.limit, 1000);
    told(&mut program, &["send 10 21 07 10 044C 05DC 0000"]);
    assert_eq!(program.session.worked_out.limit, 1100);
    assert_eq!(told(&mut program, &["undo"]), "0 04 3\n");
    assert_eq!(program.session.worked_out.limit, 1000);
}

#[test]
fn example_4_user_cap_over_the_maximum() {
    let caps = "send 10 21 07 10 01F4 0384 0000";
    let (_, reply) = after(&[MASTER, caps, "occ 10 02 22 00 02 03 E8 01 11"]);
    assert_eq!(reply, "0 02 22 13 00 01 00 00 38\n");
}

#[test]
fn example_5_master() {
    let (program, reply) = after(&["occ 10 03 21 00 02 03 01 00 2A"]);
    assert_eq!(reply, "0 03 21 00 00 00 00 24\n");
    assert_eq!((program.session.record.role, program.session.record.role_received), (1, 1));
}

#[test]
fn example_6_processor_thresholds() {
    let (program, reply) = after(&["occ 10 04 21 00 07 13 10 01 00 55 5F 05 01 09"]);
    assert_eq!(reply, "0 04 21 00 00 00 00 25\n");
    assert_eq!(program.session.record.thermal, [85, 95, 5, 255, 255, 255, 255, 255, 255]);
}

#[test]
fn example_7_active_is_forbidden_when_fresh() {
    let (program, reply) = after(&["occ 10 05 20 00 03 00 03 00 00 2B"]);
    assert_eq!(reply, "0 05 20 16 00 01 00 00 3C\n");
    assert_eq!(program.session, Session::fresh());
}

#[test]
fn example_8_ids_are_not_wound_back() {
    let reset = "occ 10 07 25 00 02 00 01 00 2F";
    let (mut program, _) = after(&[reset]);
    assert_eq!(program.session.record.logs[0].id, 1);
    assert_eq!(told(&mut program, &["undo"]), "0 08 0\n");
    assert_eq!(program.session.record.pending(), 0);
    told(&mut program, &[reset]);
    assert_eq!(program.session.record.logs[0].id, 2);
    assert_eq!(program.session.next_id, 3);
}

#[test]
fn example_9_cores_out() {
    let request = format!("sbe 00 00 01 00 00 07 D1 03 00 00 00 03 {}", "00".repeat(20));
    let (mut program, reply) = after(&[&request]);
    let zeros = " 00".repeat(24);
    assert_eq!(reply, format!("0 00 00 00 00 00 07 D1 03{zeros} bell 8000\n"));
    assert!(told(&mut program, &["show"]).contains("\ncores out 30 31\n"));
}

#[test]
fn example_10_longest_data() {
    let mut session = Session::fresh();
    let mut reply = [0; OCC_REPLY_LENGTH];
    for (length, status) in [(4090usize, 0x11), (4091, 0x12)] {
        let packet = second::occ::command_packet(9, 0xEE, &vec![0xFF; length]);
        assert_eq!(
            session.occ(0x10, &packet, &mut reply),
            OccAnswer { answer: DONE, length: 8, fault: None }
        );
        assert_eq!(reply[2], status);
    }
}

#[test]
fn reply_buffers_one_short() {
    let mut session = Session::fresh();
    let mut reply = [0xAA; OCC_REPLY_LENGTH - 1];
    for (sender, answer) in [(0x10, REPLY_TOO_SHORT), (0x11, UNKNOWN_SENDER)] {
        assert_eq!(session.occ(sender, &[], &mut reply), OccAnswer { answer, length: 0, fault: None });
    }
    let mut response = [0xAA; SBE_REPLY_LENGTH - 1];
    assert_eq!(session.sbe(&[], &mut response), (REPLY_TOO_SHORT, 0));
    assert!(reply.iter().chain(&response).all(|byte| *byte == 0xAA));
}

#[test]
fn images_are_read_back_as_they_were() {
    for factor in [1usize, 7, 251] {
        let bytes: Vec<u8> = (0..image::IMAGE_LENGTH).map(|at| (at * factor % 256) as u8).collect();
        let session = image::read(&bytes).expect("an image");
        assert_eq!(image::write(&session), bytes);
    }
    assert_eq!(image::IMAGE_LENGTH, 4411);
    assert!(image::read(&[0; 4410]).is_none() && image::read(&[0; 4412]).is_none());
}

#[test]
fn calls_on_an_image_are_the_calls_on_its_session() {
    let mut session = Session::fresh();
    let mut lent = image::write(&session);
    let (mut ours, mut theirs) = ([0; OCC_REPLY_LENGTH], [0; OCC_REPLY_LENGTH]);
    for data in [&[3u8, 1][..], &[0x13, 0x10, 1, 0, 85, 95, 5], &[3, 2]] {
        let packet = second::occ::command_packet(1, 0x21, data);
        let answer = session.occ(0x10, &packet, &mut ours);
        assert_eq!(image::call(&mut lent, |lent| lent.occ(0x10, &packet, &mut theirs)), Some(answer));
        assert!(ours == theirs && lent == image::write(&session));
    }
    for _ in 0..3 {
        let answer = session.undo();
        assert_eq!(image::call(&mut lent, |lent| lent.undo()), Some(answer));
        assert_eq!(lent, image::write(&session));
    }
    assert_eq!(image::call(&mut lent[1..], |_| ()), None);
}

#[test]
fn listings_of_the_document() {
    use second::journal::list;
    assert_eq!(list(&[9, 0, 0, 0, 0, 8, 1, 1]), "journal 2\n09 00000000\n08 0101\n");
    assert_eq!(list(&[]), "journal 0\n");
    assert_eq!(list(&[8, 0xFF, 0xFF]), "journal 1\n08 FFFF\n");
    assert_eq!(list(&[8, 1, 1, 0]), "damaged at 3\n");
    assert_eq!(list(&[8, 1, 1, 9, 0]), "damaged at 3\n");
    assert_eq!(list(&[0; 2049]), "too long\n");
}

#[test]
fn a_fresh_session_shows_as_the_page_says() {
    let page = "state 1 standby\nrole 0 slave not received\ncaps 0 0 0 not received\nuser cap 0\n\
                limit 0\nobservation-ready no\nactive-ready no\nwanted format 03\n\
                thresholds 255 255 255 255 255 255 255 255 255 not received\n\
                throttles none not received\nlogs none\ncores out none\ndeadman off 0\n\
                area ffdc 0000000000000000 00000000\narea pass 0000000000000000 00000000\n\
                redo 0\ntimer off\nprofile full\nnext id 1\njournal 0\nroom 2048\n.\n";
    assert_eq!(after(&["show"]).1, page);
}
