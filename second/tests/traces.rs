//! Traces with their lines given by hand, and lines turned into traces.

use second::trace::{from_lines, replay};

fn played(trace: &[u8]) -> String {
    let mut lines = Vec::new();
    replay(trace, &mut lines).expect("writing to memory");
    String::from_utf8(lines).expect("lines are text")
}

fn hex(text: &str) -> Vec<u8> {
    let digits: Vec<u8> = text.bytes().filter(|byte| *byte != b' ').collect();
    digits
        .chunks(2)
        .map(|two| u8::from_str_radix(std::str::from_utf8(two).expect("ASCII"), 16).expect("hex"))
        .collect()
}

fn padded(front: &str, length: usize) -> Vec<u8> {
    let mut bytes = hex(front);
    bytes.resize(length, 0);
    bytes
}

fn short(front: &str) -> Vec<u8> {
    padded(&format!("01 {front}"), 66)
}

fn mailbox(front: &str) -> Vec<u8> {
    padded(&format!("03 {front}"), 33)
}

/// Each trace of cases/traces, by cases/traces.py, gives the lines that stand beside it.
#[test]
fn stored_traces_have_their_lines() {
    let folder = std::path::Path::new(env!("CARGO_MANIFEST_DIR")).join("cases/traces");
    let mut held = 0;
    for entry in std::fs::read_dir(folder).expect("the folder of stored traces") {
        let path = entry.expect("a file").path();
        if path.extension().is_some_and(|end| end == "trace") {
            let trace = std::fs::read(&path).expect("a trace");
            let lines = std::fs::read_to_string(path.with_extension("lines")).expect("its lines");
            assert_eq!(played(&trace), lines, "{}", path.display());
            held += 1;
        }
    }
    assert!(held >= 20, "{held} traces");
}

/// Input that comes a byte at a time, as from a slow pipe.
struct Drip<'a>(&'a [u8]);

impl std::io::Read for Drip<'_> {
    fn read(&mut self, buffer: &mut [u8]) -> std::io::Result<usize> {
        let length = buffer.len().min(1);
        std::io::Read::read(&mut self.0, &mut buffer[..length])
    }
}

#[test]
fn a_trace_may_come_a_byte_at_a_time() {
    let trace = include_bytes!("../../examples/bring-up.trace");
    let mut lines = Vec::new();
    replay(Drip(&trace[..4960]), &mut lines).expect("writing to memory");
    assert_eq!(String::from_utf8_lossy(&lines), played(&trace[..4960]));
}

fn traced(lines: &str) -> Result<Vec<u8>, String> {
    from_lines(lines.as_bytes()).expect("reading from memory")
}

#[test]
fn lines_become_entries() {
    let lines =
        "# a remark\n\nocc 10 01 00 00 01 10 00 12\r\nsend 10 21 03 01\n send 20 00 10\nundo\nsbe 00 00 01\n";
    let entries = [
        short("10 01 00 00 01 10 00 12"),
        short("10 01 21 00 02 03 01 00 28"),
        short("20 02 00 00 01 10 00 13"),
        vec![4],
        mailbox("00 00 01"),
    ];
    assert_eq!(traced(lines), Ok(entries.concat()));
    assert_eq!(traced(""), Ok(vec![]));
}

#[test]
fn long_commands_become_long_entries() {
    let command = |bytes: usize| format!("occ 10{}\n", " AA".repeat(bytes));
    for (bytes, kind, length) in [(64, 1, 66), (65, 2, 4098), (4096, 2, 4098)] {
        let trace = traced(&command(bytes)).expect("a trace");
        assert_eq!((trace[0], trace[1], trace.len()), (kind, 0x10, length));
        assert!(trace[2..2 + bytes].iter().all(|byte| *byte == 0xAA));
        assert!(trace[2 + bytes..].iter().all(|byte| *byte == 0));
    }
    assert_eq!(traced(&command(4097)), Err("line 1: command over 4096 bytes".to_string()));
    let sent = |bytes: usize| format!("send 10 30{}\n", " AA".repeat(bytes));
    assert_eq!(traced(&sent(4090)).map(|trace| trace.len()), Ok(4098));
    assert_eq!(traced(&sent(4091)), Err("line 1: command over 4096 bytes".to_string()));
}

#[test]
fn other_lines_are_no_trace() {
    let only_calls = |line| Err(format!("line {line}: a trace has occ, sbe, send and undo only"));
    assert_eq!(traced("undo\nfresh\n"), only_calls(2));
    assert_eq!(traced("# x\n\nredo"), only_calls(3));
    assert_eq!(traced("show\nimage\n"), only_calls(1));
    assert_eq!(traced("undo\nundo\nwhy\nredo\n"), only_calls(3));
    assert_eq!(traced("undo\nocc 1\n"), Err("line 2: line not understood".to_string()));
}

#[test]
fn the_example_is_made_of_its_calls() {
    let trace = include_bytes!("../../examples/bring-up.trace");
    assert_eq!(traced(include_str!("../../examples/bring-up.calls")), Ok(trace.to_vec()));
    assert_eq!(played(trace), include_str!("../../examples/bring-up.lines"));
}
