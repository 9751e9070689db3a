//! `second`: the line protocol on standard input and output; or traces; or the generators; or the coverage count.
#![forbid(unsafe_code)]

use second::calls::{DONE, WONT_READ};
use second::save::{Moved, NEW_LENGTH};
use second::sbe::SEEPROM_LENGTH;
use std::io::{stdin, stdout, BufReader, BufWriter, Read, Write};
use std::process::ExitCode;

const USAGE: &str = "usage: second
       second seeprom FILE
       second generate COUNT SEED [--small]
       second coverage < LINES
       second answered N < LINES
       second replay < TRACE
       second trace < LINES > TRACE
       second part TRACE TRACE
       second move_up < SAVE > SAVE
       second move_down < SAVE > SAVE
       second generate-save SEED > SAVE
       second generate-trace SEED [ENTRIES] > TRACE
       second generate-pair SEED TRACE TRACE";

/// The line protocol with a file lent as the SEEPROM's image: as much of it as counts.
fn serve_with(file: &str) -> std::io::Result<()> {
    let mut image = Vec::new();
    std::fs::File::open(file)?.take(SEEPROM_LENGTH as u64).read_to_end(&mut image)?;
    second::protocol::serve(stdin().lock(), BufWriter::new(stdout().lock()), image)
}

fn generate(count: &str, seed: &str, small: bool) -> std::io::Result<()> {
    let (Ok(count), Ok(seed)) = (count.parse(), seed.parse()) else {
        return Err(std::io::Error::other(USAGE));
    };
    let mut output = BufWriter::new(stdout().lock());
    second::generate::generate(count, seed, small, &mut output)?;
    output.flush()
}

/// The line that the N-th line of output answers, by its number.
fn answered(number: &str) -> std::io::Result<()> {
    let Ok(number) = number.parse() else {
        return Err(std::io::Error::other(USAGE));
    };
    let text = second::coverage::answered(&mut BufReader::new(stdin().lock()), number)?;
    stdout().lock().write_all(text.as_bytes())
}

/// Nothing is written for lines that are no trace: the complaint goes to standard error.
fn trace() -> std::io::Result<ExitCode> {
    match second::trace::from_lines(stdin().lock())? {
        Ok(trace) => {
            let mut output = stdout().lock();
            output.write_all(&trace)?;
            output.flush()?;
            Ok(ExitCode::SUCCESS)
        }
        Err(complaint) => {
            eprintln!("{complaint}");
            Ok(ExitCode::FAILURE)
        }
    }
}

/// Where two files part; a file that can't be taken is told instead, the first before the second.
fn part(first: &str, second: &str) -> std::io::Result<ExitCode> {
    let read = second::part::read_file(first).and_then(|one| Ok((one, second::part::read_file(second)?)));
    match read {
        Ok((one, two)) => {
            stdout().lock().write_all(second::part::shared(&one, &two).text().as_bytes())?;
            Ok(ExitCode::SUCCESS)
        }
        Err(line) => {
            eprint!("{line}");
            Ok(ExitCode::FAILURE)
        }
    }
}

/// A saved session in the other form; a refusal goes to standard error, and nothing to standard output.
fn move_across(make: fn(&[u8], &mut [u8]) -> Moved) -> std::io::Result<ExitCode> {
    let (mut saved, mut output) = (Vec::new(), [0; NEW_LENGTH]);
    // One byte more than either form has is enough to tell that it has too many.
    stdin().lock().take(NEW_LENGTH as u64 + 1).read_to_end(&mut saved)?;
    let (answer, length) = make(&saved, &mut output);
    match answer {
        DONE => {
            let mut written = stdout().lock();
            written.write_all(&output[..length])?;
            written.flush()?;
            return Ok(ExitCode::SUCCESS);
        }
        WONT_READ => eprintln!("{answer} won't read or is ill formed"),
        _ => eprintln!("{answer} can't go down"),
    }
    Ok(ExitCode::FAILURE)
}

/// A saved session of either form, right or not.
fn generate_save(seed: &str) -> std::io::Result<()> {
    let Ok(seed) = seed.parse() else {
        return Err(std::io::Error::other(USAGE));
    };
    stdout().lock().write_all(&second::generate::saves::any(seed))
}

fn generate_pair(seed: &str, first: &str, second: &str) -> std::io::Result<()> {
    let Ok(seed) = seed.parse() else {
        return Err(std::io::Error::other(USAGE));
    };
    let (one, two) = second::generate::traces::pair(seed);
    std::fs::write(first, one)?;
    std::fs::write(second, two)
}

/// A trace of any sort, or a right one of that many entries.
fn generate_trace(seed: &str, entries: Option<&str>) -> std::io::Result<()> {
    let (Ok(seed), Ok(entries)) = (seed.parse(), entries.map(str::parse).transpose()) else {
        return Err(std::io::Error::other(USAGE));
    };
    let trace = match entries {
        None => second::generate::traces::any(seed),
        Some(entries) => second::generate::traces::right(seed, entries),
    };
    let mut output = stdout().lock();
    output.write_all(&trace)?;
    output.flush()
}

fn run(arguments: &[&str]) -> std::io::Result<()> {
    match arguments {
        [] => second::protocol::serve(stdin().lock(), BufWriter::new(stdout().lock()), Vec::new()),
        ["seeprom", file] => serve_with(file),
        ["generate", count, seed] => generate(count, seed, false),
        ["generate", count, seed, "--small"] => generate(count, seed, true),
        ["coverage"] => {
            let text = second::coverage::count(&mut BufReader::new(stdin().lock()))?;
            stdout().lock().write_all(text.as_bytes())
        }
        ["answered", number] => answered(number),
        ["replay"] => second::trace::replay(stdin().lock(), BufWriter::new(stdout().lock())),
        ["generate-trace", seed] => generate_trace(seed, None),
        ["generate-trace", seed, entries] => generate_trace(seed, Some(entries)),
        ["generate-save", seed] => generate_save(seed),
        ["generate-pair", seed, first, second] => generate_pair(seed, first, second),
        _ => Err(std::io::Error::other(USAGE)),
    }
}

fn main() -> ExitCode {
    let arguments: Vec<String> =
        std::env::args_os().skip(1).map(|argument| argument.to_string_lossy().into_owned()).collect();
    let arguments: Vec<&str> = arguments.iter().map(String::as_str).collect();
    let ended = match arguments.as_slice() {
        ["trace"] => trace(),
        ["part", first, second] => part(first, second),
        ["move_up"] => move_across(second::save::move_up),
        ["move_down"] => move_across(second::save::move_down),
        _ => run(&arguments).map(|()| ExitCode::SUCCESS),
    };
    match ended {
        Ok(code) => code,
        // A reader that went away isn't a fault of ours.
        Err(error) if error.kind() == std::io::ErrorKind::BrokenPipe => ExitCode::SUCCESS,
        Err(error) => {
            eprintln!("{error}");
            ExitCode::from(2)
        }
    }
}
