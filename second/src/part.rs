//! Where two recordings part: the longest run of whole entries that both share at the start.

use crate::trace::{body_length, Stop};
use std::io::Read;

/// The longest file that is taken.
pub const LONGEST: usize = 1 << 20;

/// An entry and what follows it, or why it won't read; `None` at the end of a trace.
type Next<'a> = Option<Result<(&'a [u8], &'a [u8]), Stop>>;

fn next(trace: &[u8]) -> Next<'_> {
    let kind = trace.first()?;
    Some(match body_length(*kind) {
        None => Err(Stop::UnknownKind),
        Some(length) => trace.split_at_checked(1 + length).ok_or(Stop::CutEntry),
    })
}

/// Which of the two traces.
#[derive(Clone, Copy, PartialEq, Eq, Debug)]
pub enum Which {
    First,
    Second,
}

#[derive(Clone, Copy, PartialEq, Eq, Debug)]
pub struct Shared<'a> {
    /// The run, a part of the first trace.
    pub run: &'a [u8],
    pub entries: usize,
    /// Why a first entry won't read; the first trace's comes before the second's.
    pub refusal: Option<(Stop, Which)>,
}

pub fn shared<'a>(first: &'a [u8], second: &[u8]) -> Shared<'a> {
    let (mut ours, mut theirs) = (first, second);
    let mut entries = 0;
    while let (Some(Ok((one, after_one))), Some(Ok((two, after_two)))) = (next(ours), next(theirs)) {
        if one != two {
            break;
        }
        entries += 1;
        (ours, theirs) = (after_one, after_two);
    }
    let stopped = |trace, which| next(trace).and_then(Result::err).map(|stop| (stop, which));
    let refusal = stopped(first, Which::First).or_else(|| stopped(second, Which::Second));
    Shared { run: &first[..first.len() - ours.len()], entries, refusal }
}

impl Shared<'_> {
    /// One line, and a second one for a refusal.
    pub fn text(&self) -> String {
        let (entries, bytes) = (self.entries, self.run.len());
        let mut text = format!("shared {entries} entries, {bytes} bytes; next {}\n", entries + 1);
        if let Some((stop, which)) = self.refusal {
            let which = if which == Which::First { "first" } else { "second" };
            text.push_str(&format!("{} in the {which}\n", stop.words()));
        }
        text
    }
}

/// A trace from a file, or the line that says why there is none.
pub fn read_file(name: &str) -> Result<Vec<u8>, String> {
    let mut bytes = Vec::new();
    let file = std::fs::File::open(name).map_err(|_| format!("{name}: cannot be opened\n"))?;
    file.take(LONGEST as u64 + 1).read_to_end(&mut bytes).map_err(|_| format!("{name}: cannot be read\n"))?;
    if bytes.len() > LONGEST {
        return Err(format!("{name}: over {LONGEST} bytes\n"));
    }
    Ok(bytes)
}
