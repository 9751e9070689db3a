//! `soak COUNT SEED`: random calls by the proved library and by this program, in one process; after each call everything is compared.
#![deny(unsafe_code)]

use bench::Soak;
use second::generate::Generator;
use std::io::IsTerminal;
use std::process::ExitCode;
use std::time::Duration;

mod bench;
mod call;
mod pair;
mod shrink;

#[path = "../proved.rs"]
mod proved;

fn rate(calls: u64, time: Duration) -> u64 {
    (calls as f64 / time.as_secs_f64().max(0.001)) as u64
}

fn progress(made: u64, wanted: u64, time: Duration) -> String {
    format!("{made} of {wanted} calls, {} s, {} calls/s", time.as_secs(), rate(made, time))
}

/// One line that moves.
fn tell_terminal(made: u64, wanted: u64, time: Duration) {
    eprint!("\r\x1B[K{}", progress(made, wanted, time));
}

fn tell_log(made: u64, wanted: u64, time: Duration) {
    eprintln!("{}", progress(made, wanted, time));
}

/// Tells the difference and the shortest lines that show it again.
fn report(seed: u64, found: &bench::Found) {
    println!("difference at call {}, seed {seed}", found.number);
    println!("  {}", found.difference.text());
    let call = found.calls.last().map(call::Call::line).unwrap_or_default();
    println!("  call: {}", call.get(..200).unwrap_or(&call));
    match shrink::shortest(found) {
        Some((lines, difference)) => {
            println!("the shortest lines that show it, for standin ({}):", difference.text());
            print!("{lines}");
        }
        None => println!("the same calls, made again on other buffers, show no difference"),
    }
}

fn main() -> ExitCode {
    let numbers: Vec<Option<u64>> = std::env::args().skip(1).map(|word| word.parse().ok()).collect();
    let [Some(count), Some(seed)] = numbers[..] else {
        eprintln!("usage: soak COUNT SEED, two decimal numbers");
        return ExitCode::from(2);
    };
    let terminal = std::io::stderr().is_terminal();
    let soak = if terminal {
        Soak::new(count, Duration::from_millis(500), tell_terminal)
    } else {
        Soak::new(count, Duration::from_secs(60), tell_log)
    };
    let mut generator = Generator::new(seed, false, soak);
    generator.tour();
    while generator.bench.left > 0 {
        generator.episode();
    }
    let soak = &generator.bench;
    if terminal {
        eprint!("\r\x1B[K");
    }
    if let Some(found) = &soak.found {
        report(seed, found);
        return ExitCode::FAILURE;
    }
    let time = soak.time();
    print!("{}", soak.reached.text());
    let rate = rate(soak.made, time);
    println!(
        "{count} calls compared, seed {seed}: no difference; {:.1} s, {rate} calls/s",
        time.as_secs_f64()
    );
    ExitCode::SUCCESS
}
