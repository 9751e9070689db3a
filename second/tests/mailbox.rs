//! More of the mailbox: the buffers that a read of the SEEPROM is lent, a file that is lent, and time.

use second::c;
use second::calls::DONE;
use second::image;
use second::protocol::{parse, Order, Program};
use second::sbe;
use second::session::Session;
use std::io::Write;
use std::process::{Command, Stdio};

fn read(offset: u32, size: u32) -> Vec<u8> {
    let mut request = vec![0; 32];
    request[6..8].copy_from_slice(&[0xD7, 0x03]);
    request[8..12].copy_from_slice(&offset.to_be_bytes());
    request[12..16].copy_from_slice(&size.to_be_bytes());
    request
}

/// The status, and the second buffer of that many bytes, all EE before.
fn served(seeprom: &[u8], room: usize, request: &[u8]) -> (sbe::Status, Vec<u8>) {
    let mut image = image::write(&Session::fresh());
    let (mut reply, mut data) = (vec![0xEE; 40], vec![0xEE; room]);
    assert_eq!(c::sbe_seeprom(&mut image, request, &mut reply, seeprom, &mut data), 0);
    assert_eq!(image, image::write(&Session::fresh()));
    assert_eq!(reply[32..], [0xEE; 8]);
    ((u16::from_be_bytes([reply[0], reply[1]]), u16::from_be_bytes([reply[2], reply[3]])), data)
}

#[test]
fn the_second_buffer_is_kept_but_for_the_data() {
    let seeprom: Vec<u8> = (0..70_000).map(|at| (at % 251) as u8).collect();
    for (offset, size, room) in
        [(0, 8, 8), (8, 16, 20), (65528, 8, 9), (0, 65536, 65536), (64, 0, 0), (65536, 0, 3)]
    {
        let (status, data) = served(&seeprom, room, &read(offset, size));
        assert_eq!(status, sbe::SUCCESS);
        let (offset, size) = (offset as usize, size as usize);
        assert_eq!(data[..size], seeprom[offset..offset + size]);
        assert!(data[size..].iter().all(|byte| *byte == 0xEE));
    }
}

#[test]
fn the_second_buffer_is_judged_last() {
    let seeprom = [1; 24];
    for (offset, size, room, status) in [
        (0, 8, 7, sbe::BUFFER_TOO_SMALL),
        (0, 24, 23, sbe::BUFFER_TOO_SMALL),
        (16, 8, 0, sbe::BUFFER_TOO_SMALL),
        (16, 16, 0, sbe::INVALID_PARAMETERS),
        (4, 8, 0, sbe::INVALID_PARAMETERS),
        (0, 12, 0, sbe::INVALID_PARAMETERS),
        (0, 0, 0, sbe::SUCCESS),
    ] {
        let (told, data) = served(&seeprom, room, &read(offset, size));
        assert_eq!(told, status, "{size} bytes at {offset}, room for {room}");
        assert!(data.iter().all(|byte| *byte == 0xEE));
    }
}

#[test]
fn only_the_first_65536_bytes_count() {
    for (length, offset, size, status) in [
        (65536, 65536, 0, sbe::SUCCESS),
        (70_000, 65536, 8, sbe::INVALID_PARAMETERS),
        (70_000, 65536, 0, sbe::SUCCESS),
        (65535, 65528, 8, sbe::INVALID_PARAMETERS),
        (65535, 65528, 0, sbe::SUCCESS),
    ] {
        assert_eq!(served(&vec![0; length], 70_000, &read(offset, size)).0, status);
    }
}

/// The program with cases/seeprom's file lent, against the answers by hand.
#[test]
fn a_file_is_lent() {
    let folder = std::path::Path::new(env!("CARGO_MANIFEST_DIR")).join("cases/seeprom");
    let mut program = Command::new(env!("CARGO_BIN_EXE_second"))
        .arg("seeprom")
        .arg(folder.join("image"))
        .stdin(Stdio::piped())
        .stdout(Stdio::piped())
        .spawn()
        .expect("the program starts");
    let lines = std::fs::read(folder.join("lines")).expect("the lines");
    program.stdin.take().expect("its input").write_all(&lines).expect("it reads");
    let told = program.wait_with_output().expect("it ends");
    assert!(told.stdout == std::fs::read(folder.join("answers")).expect("the answers"));
}

/// A folder can be opened and not read.
#[test]
fn a_file_that_cannot_be_read_is_told_and_no_line_is_answered() {
    for file in ["cases/seeprom/nosuch", "cases/seeprom"] {
        let mut program = Command::new(env!("CARGO_BIN_EXE_second"))
            .args(["seeprom", file])
            .current_dir(env!("CARGO_MANIFEST_DIR"))
            .stdin(Stdio::piped())
            .stdout(Stdio::piped())
            .stderr(Stdio::piped())
            .spawn()
            .expect("the program starts");
        // It may have ended before it is written to.
        let _ = program.stdin.take().expect("its input").write_all(b"fresh\n");
        let told = program.wait_with_output().expect("it ends");
        assert!(!told.status.success() && told.stdout.is_empty() && !told.stderr.is_empty(), "{file}");
    }
}

/// Random lines with all time reports left out: every other answer stays, but for what shows the timer itself.
#[test]
fn time_passing_is_no_change() {
    let mut lines = Vec::new();
    second::generate::generate(8000, 29, false, &mut lines).expect("writing to memory");
    let (mut with, mut without) = (Program::default(), Program::default());
    let mut left_out = 0;
    for line in lines.split(|byte| *byte == b'\n') {
        match parse(line.strip_suffix(b"\r").unwrap_or(line)) {
            Some(Ok(Order::Time(microseconds))) => {
                let before = with.session.clone();
                if with.session.time(microseconds).0 == DONE {
                    left_out += 1;
                }
                assert!(Session { timer: before.timer, ..with.session.clone() } == before);
            }
            Some(Ok(Order::Show | Order::Image | Order::Journal | Order::Save)) => {}
            Some(Ok(order)) => {
                let Some(Ok(same)) = parse(line.strip_suffix(b"\r").unwrap_or(line)) else { unreachable!() };
                assert_eq!(with.obey(order), without.obey(same));
            }
            _ => {}
        }
    }
    assert!(left_out > 60, "{left_out} reports");
}
