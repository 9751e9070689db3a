//! Pairs of traces, and where they part, by hand.

use second::part::{read_file, shared, LONGEST};
use second::trace::replay;
use std::path::{Path, PathBuf};

/// Each pair of cases/parts, by cases/parts.py, gives the lines that stand beside it.
#[test]
fn stored_pairs_have_their_lines() {
    let folder = Path::new(env!("CARGO_MANIFEST_DIR")).join("cases/parts");
    let mut held = 0;
    for entry in std::fs::read_dir(folder).expect("the folder of stored pairs") {
        let path = entry.expect("a file").path();
        if path.extension().is_some_and(|end| end == "lines") {
            let [first, second] =
                ["first", "second"].map(|end| std::fs::read(path.with_extension(end)).expect("a trace"));
            let lines = std::fs::read_to_string(&path).expect("its lines");
            assert_eq!(shared(&first, &second).text(), lines, "{}", path.display());
            held += 1;
        }
    }
    assert!(held >= 60, "{held} pairs");
}

#[test]
fn the_run_is_a_part_of_the_first() {
    let (one, two) = ([4, 4, 4, 9], [4, 4, 3]);
    let run = shared(&one, &two).run;
    assert_eq!((run.as_ptr(), run.len()), (one.as_ptr(), 2));
}

fn lines(trace: &[u8]) -> Vec<String> {
    let mut lines = Vec::new();
    replay(trace, &mut lines).expect("writing to memory");
    String::from_utf8_lossy(&lines).lines().map(str::to_string).collect()
}

/// Random pairs: the run's lines are the first lines of both, and no longer run of whole entries is shared.
#[test]
fn the_run_plays_alike_in_both_and_is_the_longest() {
    let short = |(first, second): &(Vec<u8>, Vec<u8>)| first.len().max(second.len()) < 20_000;
    for (first, second) in (0..80).map(second::generate::traces::pair).filter(short) {
        let told = shared(&first, &second);
        let played = lines(told.run);
        assert_eq!(played.len(), told.entries);
        assert!(second.starts_with(told.run));
        let (one, two) = (lines(&first), lines(&second));
        assert!(one.starts_with(&played) && two.starts_with(&played));
        let more = |trace: &[u8]| second::generate::traces::starts(trace).get(told.entries + 1).copied();
        if let (Some(end), Some(other)) = (more(&first), more(&second)) {
            assert_ne!(first[..end], second[..other]);
        }
    }
}

fn scratch(name: &str, length: usize) -> PathBuf {
    let path = std::env::temp_dir().join(format!("second-parts-{}-{name}", std::process::id()));
    std::fs::write(&path, vec![4; length]).expect("a scratch file");
    path
}

#[test]
fn files_of_one_mebibyte_at_most() {
    for (name, length) in [("longest", LONGEST), ("longer", LONGEST + 1)] {
        let path = scratch(name, length);
        let file = path.to_str().expect("a name that is text");
        let read = read_file(file);
        std::fs::remove_file(&path).expect("removing it");
        match length {
            LONGEST => assert_eq!(read.map(|bytes| bytes.len()), Ok(LONGEST)),
            _ => assert_eq!(read, Err(format!("{file}: over 1048576 bytes\n"))),
        }
        assert_eq!(read_file(file), Err(format!("{file}: cannot be opened\n")));
    }
}
