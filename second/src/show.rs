//! The session for a person; a damaged one shows too.

use crate::journal::{list, Store, STORE_LENGTH};
use crate::record::*;
use crate::session::{Session, FULL, WATCH_ONLY};
use std::fmt::Write;

fn mark(received: u8) -> &'static str {
    if received == 0 {
        "not received"
    } else {
        "received"
    }
}

fn yes_no(flag: u8) -> &'static str {
    if flag == 0 {
        "no"
    } else {
        "yes"
    }
}

fn joined(words: impl Iterator<Item = String>) -> String {
    let words: Vec<String> = words.collect();
    if words.is_empty() {
        "none".to_string()
    } else {
        words.join(" ")
    }
}

/// The listing of the used part, as the lister writes it.
fn listing(store: &Store) -> String {
    match store.used_bytes() {
        Some(used) => list(used),
        None => list(&[0; STORE_LENGTH + 1]),
    }
}

pub fn journal_listing(session: &Session) -> String {
    listing(&session.journal)
}

/// `redo` and what the listing's first line says, a number without its word.
fn redo_line(session: &Session) -> String {
    let listing = listing(&session.redo);
    let first = listing.lines().next().unwrap_or("");
    format!("redo {}", first.strip_prefix("journal ").unwrap_or(first))
}

pub fn show(session: &Session) -> String {
    let mut text = String::new();
    // Writing to a String can't fail.
    let _ = write_configuration(&mut text, session);
    let _ = write_rest(&mut text, session);
    text
}

fn write_configuration(text: &mut String, session: &Session) -> std::fmt::Result {
    let (record, worked) = (&session.record, &session.worked_out);
    let state = match record.state {
        STANDBY => "standby",
        OBSERVATION => "observation",
        ACTIVE => "active",
        _ => "unknown",
    };
    let role = match record.role {
        SLAVE => "slave",
        MASTER => "master",
        _ => "unknown",
    };
    let caps = &record.caps;
    writeln!(text, "state {} {state}", record.state)?;
    writeln!(text, "role {} {role} {}", record.role, mark(record.role_received))?;
    write!(text, "caps {} {} {} ", caps.minimum, caps.maximum, caps.oversubscription)?;
    writeln!(text, "{}", mark(record.caps_received))?;
    writeln!(text, "user cap {}", record.user_cap)?;
    writeln!(text, "limit {}", worked.limit)?;
    writeln!(text, "observation-ready {}", yes_no(worked.observation))?;
    writeln!(text, "active-ready {}", yes_no(worked.active))?;
    writeln!(text, "wanted format {:02X}", worked.wanted)?;
    let thermal = joined(record.thermal.iter().map(u8::to_string));
    writeln!(text, "thresholds {thermal} {}", mark(record.thermal_received))
}

fn write_rest(text: &mut String, session: &Session) -> std::fmt::Result {
    let record = &session.record;
    let presence = record.throttles.presence;
    let pairs = (0..16).filter(|pair| presence >> pair & 1 == 1);
    let pairs = joined(pairs.map(|pair| format!("{}.{}", pair / 2, pair % 2)));
    let logs = record.logs.iter().filter(|log| log.id != 0);
    let logs = joined(logs.map(|log| format!("{}:{}", log.id, log.reason)));
    let cores = (0..32).filter(|core| record.mask << core >> 31 == 1);
    let deadman = if record.running == 0 { "off" } else { "on" };
    writeln!(text, "throttles {pairs} {}", mark(record.throttles_received))?;
    writeln!(text, "logs {logs}")?;
    writeln!(text, "cores out {}", joined(cores.map(|core| core.to_string())))?;
    writeln!(text, "deadman {deadman} {}", record.time)?;
    for (name, area) in [("ffdc", &record.ffdc), ("pass", &record.pass)] {
        writeln!(text, "area {name} {:016X} {:08X}", area.address, area.size)?;
    }
    writeln!(text, "{}", redo_line(session))?;
    match session.timer {
        Timer { running: 0, .. } => writeln!(text, "timer off")?,
        Timer { left, .. } => writeln!(text, "timer on {left}")?,
    }
    let profile = match session.profile {
        FULL => "full",
        WATCH_ONLY => "watch-only",
        _ => "unknown",
    };
    writeln!(text, "profile {profile}")?;
    writeln!(text, "next id {}", session.next_id)?;
    let listing = journal_listing(session);
    writeln!(text, "{}", listing.lines().next().unwrap_or(""))?;
    writeln!(text, "room {}", session.journal.room())?;
    writeln!(text, ".")
}
