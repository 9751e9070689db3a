//! Saved sessions: those that are kept, those that are refused, the way up and down, buffers one byte short.

use second::c;
use second::generate::{saves, Random};
use second::image::{self, IMAGE_LENGTH};
use second::journal::Change;
use second::record::Timer;
use second::save::{move_down, move_up, read_new, write_base, write_new, LONGEST_BASE, NEW_LENGTH, PARTS};
use second::session::{Session, WATCH_ONLY};
use std::path::PathBuf;
use std::process::{Command, Stdio};

/// What is kept for ever, and what is refused.
const KEPT: &str = "../saves";
const REFUSED: &str = "cases/saves";

fn stored(folder: &str, end: &str) -> Vec<(PathBuf, Vec<u8>)> {
    let folder = std::path::Path::new(env!("CARGO_MANIFEST_DIR")).join(folder);
    let paths =
        std::fs::read_dir(folder).expect("the stored saves").map(|entry| entry.expect("a file").path());
    paths
        .filter(|path| path.extension().is_some_and(|extension| extension == end))
        .map(|path| (path.clone(), std::fs::read(&path).expect("a save")))
        .collect()
}

/// What a move wrote into a buffer of `0xEE`, or its refusal; what it didn't write is kept.
fn moved(outcome: (u8, usize), output: &[u8]) -> Result<Vec<u8>, u8> {
    let (answer, length) = outcome;
    let written = if answer == 0 { length } else { 0 };
    assert!(output[written..].iter().all(|byte| *byte == 0xEE));
    if answer == 0 {
        Ok(output[..length].to_vec())
    } else {
        Err(answer)
    }
}

fn up(saved: &[u8]) -> Result<Vec<u8>, u8> {
    let mut output = [0xEE; NEW_LENGTH + 9];
    moved(move_up(saved, &mut output), &output)
}

fn down(saved: &[u8]) -> Result<Vec<u8>, u8> {
    let mut output = [0xEE; LONGEST_BASE + 9];
    moved(move_down(saved, &mut output), &output)
}

#[test]
fn kept_saves_move_up_and_down_again() {
    let saves = stored(KEPT, "base");
    assert!(saves.len() >= 21 && stored(KEPT, "new").len() >= 18);
    for (path, base) in saves {
        let Ok(new) = std::fs::read(path.with_extension("new")) else {
            let line = std::fs::read(path.with_extension("refused")).expect("what becomes of it");
            assert!(
                line == b"11 won't read or is ill formed\n" && up(&base) == Err(11),
                "{}",
                path.display()
            );
            continue;
        };
        assert!(up(&base) == Ok(new.clone()), "{}", path.display());
        assert!(down(&new) == Ok(base), "{}", path.display());
    }
}

#[test]
fn stored_saves_are_refused_as_their_names_say() {
    for (path, saved) in stored(REFUSED, "up-11") {
        assert!(up(&saved) == Err(11), "{}", path.display());
    }
    for (end, answer) in [("down-11", 11), ("down-12", 12)] {
        for (path, saved) in stored(REFUSED, end) {
            assert!(down(&saved) == Err(answer), "{}", path.display());
        }
    }
    assert!(
        stored(REFUSED, "up-11").len() >= 30
            && stored(REFUSED, "down-11").len() >= 40
            && stored(REFUSED, "down-12").len() >= 10
    );
}

/// Every other kind of every part, every length but the right one.
#[test]
fn nothing_else_reads_as_a_new_form() {
    let (_, mut saved) = stored(KEPT, "new").remove(0);
    let mut at = 0;
    for (kind, length) in PARTS {
        for other in (0..=0xFF).filter(|other| *other != kind) {
            saved[at] = other;
            assert!(down(&saved) == Err(11), "part {kind} of kind {other}");
        }
        saved[at] = kind;
        at += 1 + length;
    }
    assert_eq!(at, NEW_LENGTH);
    for length in 0..NEW_LENGTH {
        assert!(down(&saved[..length]) == Err(11), "cut at {length}");
    }
    assert!(down(&saved).is_ok());
    for more in 0..=0xFF {
        assert!(down(&[&saved[..], &[more]].concat()) == Err(11), "{more} more");
    }
}

/// What can't go down, by itself and every number of reasons together. A watch-only session with another kind than 01 in a store is ill formed, which is
/// tested first.
#[test]
fn reasons_for_12_alone_and_together() {
    let unset = [0xFF, 95, 5, 0xFF, 0xFF, 0xFF, 0xFF, 0xFF, 0xFF];
    for reasons in 0..64 {
        let has = |reason: u32| reasons & (1 << reason) != 0;
        let mut session = Session::fresh();
        if has(0) {
            session.redo.push(&Change::State(2));
        }
        if has(1) {
            session.journal.push(&Change::Timer(Timer::default()));
        }
        if has(2) {
            session.journal.push(&Change::Thermal { received: 1, thermal: unset });
        }
        if has(3) {
            session.timer = Timer { running: 1, left: 0 };
        }
        if has(4) {
            let record = second::record::Record { thermal: unset, thermal_received: 1, ..session.record };
            session.set_record(record);
        }
        if has(5) {
            session.profile = WATCH_ONLY;
        }
        let due = match reasons {
            0 => Ok(write_base(&session)),
            _ if has(5) && (has(0) || has(1) || has(2)) => Err(11),
            _ => Err(12),
        };
        assert!(down(&write_new(&session)) == due, "reasons {reasons:06b}");
    }
}

/// Of random saves, right and not: up then down gives the same bytes, down then up the same session, and a refusal keeps the buffer.
#[test]
fn there_and_back() {
    let mut random = Random::new(33);
    let (mut went_up, mut went_down) = (0, 0);
    for _ in 0..400 {
        let saved = saves::base(&mut random);
        if let Ok(new) = up(&saved) {
            assert!(down(&new) == Ok(saved));
            went_up += 1;
        }
        let saved = saves::new_form(&mut random);
        if let Ok(base) = down(&saved) {
            assert!(up(&base) == Ok(saved));
            went_down += 1;
        }
    }
    assert!(went_up > 100 && went_down > 50, "{went_up} up, {went_down} down");
}

#[test]
fn what_is_saved_is_restored() {
    let mut random = Random::new(34);
    let mut restored = 0;
    for _ in 0..400 {
        let saved = saves::new_form(&mut random);
        let mut image = vec![0x77; IMAGE_LENGTH];
        let result = c::restore(&mut image, &saved);
        if result != 0 {
            assert!(result == 11 && image.iter().all(|byte| *byte == 0x77));
            continue;
        }
        let session = image::read(&image).expect("an image");
        assert!(session.well_formed() && write_new(&session) == saved);
        let mut output = vec![0xEE; NEW_LENGTH + 1];
        assert_eq!(c::save(&mut image, &mut output), (NEW_LENGTH as u32) << 16);
        assert!(output[..NEW_LENGTH] == saved && output[NEW_LENGTH] == 0xEE);
        restored += 1;
    }
    assert!(restored > 150, "{restored} restored");
}

#[test]
fn buffers_one_byte_short() {
    let session = Session::fresh();
    let (new, base) = (write_new(&session), write_base(&session));
    let mut image = image::write(&session);
    let mut short = [0xEE; NEW_LENGTH - 1];
    assert_eq!(c::save(&mut image, &mut short), 13);
    assert_eq!(c::move_up(&base, &mut short), 13);
    assert_eq!(c::move_up(&base[1..], &mut short), 11);
    assert_eq!(c::move_down(&new, &mut short[..231]), 13);
    assert_eq!(c::move_down(&new[1..], &mut short[..231]), 11);
    let watched = {
        let mut session = session.clone();
        session.watch();
        write_new(&session)
    };
    assert_eq!(c::move_down(&watched, &mut short[..231]), 12);
    assert!(short.iter().all(|byte| *byte == 0xEE));
    assert_eq!(c::move_down(&new, &mut short[..232]), 232 << 16);
    assert_eq!(short[..232], base);
    assert_eq!(c::restore(&mut image[1..], &new), 1);
    assert_eq!(c::save(&mut image[1..], &mut short), 1);
    image[0] = 0;
    assert_eq!(c::save(&mut image, &mut short), 1);
    assert_eq!(c::restore(&mut image, &new), 0);
    assert!(read_new(&new).is_some_and(|read| read == session));
}

/// The programs: the other form on standard output, or a line on standard error.
#[test]
fn programs_on_pipes() {
    let run = |name: &str, path: &PathBuf| {
        let told = Command::new(env!("CARGO_BIN_EXE_second"))
            .arg(name)
            .stdin(Stdio::from(std::fs::File::open(path).expect("a save")))
            .output()
            .expect("the program runs");
        (told.status.success(), told.stdout, String::from_utf8_lossy(&told.stderr).into_owned())
    };
    let (path, new) = stored(KEPT, "new").remove(0);
    let base = std::fs::read(path.with_extension("base")).expect("its base save");
    assert_eq!(run("move_up", &path.with_extension("base")), (true, new, String::new()));
    assert_eq!(run("move_down", &path), (true, base, String::new()));
    for (end, name, line) in [
        ("up-11", "move_up", "11 won't read or is ill formed\n"),
        ("down-11", "move_down", "11 won't read or is ill formed\n"),
        ("down-12", "move_down", "12 can't go down\n"),
    ] {
        assert_eq!(run(name, &stored(REFUSED, end)[0].0), (false, vec![], line.to_string()));
    }
}
