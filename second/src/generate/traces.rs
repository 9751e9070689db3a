//! Random traces: right ones of any length, and such as end in a cut entry or an unknown kind; and pairs of them.

use super::commands::{self, About};
use super::{random::Random, requests};
use crate::occ::{self, command_packet};
use crate::part::LONGEST;
use crate::session::Session;
use crate::trace::{self, LONG, LONG_COMMAND, SHORT_COMMAND, UNDO};

/// Makes entries and plays them as it goes, so that the session is known.
pub struct Maker {
    random: Random,
    session: Session,
    bytes: Vec<u8>,
    made: usize,
}

/// A trace for that seed.
pub fn any(seed: u64) -> Vec<u8> {
    let mut maker = Maker::new(seed);
    maker.entries();
    maker.end();
    maker.bytes
}

/// A trace of that many entries that reads to its end.
pub fn right(seed: u64, entries: usize) -> Vec<u8> {
    let mut maker = Maker::new(seed);
    while maker.made < entries {
        maker.step();
    }
    maker.bytes
}

impl Maker {
    pub fn new(seed: u64) -> Self {
        Maker { random: Random::new(seed), session: Session::fresh(), bytes: Vec::new(), made: 0 }
    }

    /// None, a few, some tens, now and then so many that the journal is full, seldom thousands.
    fn entries(&mut self) {
        let count = match self.random.below(48) {
            0..=3 => 0,
            4..=7 => 1,
            8..=23 => self.random.between(2, 12),
            24..=39 => self.random.between(13, 80),
            40..=43 => self.random.between(81, 400),
            44..=46 => self.random.between(400, 1500),
            _ => self.random.between(3000, 9000),
        };
        if self.random.percent(70) {
            self.bring_up();
        }
        for _ in 0..count {
            self.step();
        }
        if self.random.one_in(4) {
            (0..self.random.between(1, 40)).for_each(|_| self.add(vec![UNDO]));
        }
    }

    fn bring_up(&mut self) {
        let master = u8::from(self.random.percent(70));
        self.packet(occ::HTMGT, occ::CONFIGURATION, &[crate::record::FORMAT_ROLE, master]);
        for about in [About::Thermal, About::Caps, About::Throttles, About::State] {
            if self.random.percent(60) {
                self.right(about);
            }
        }
    }

    fn step(&mut self) {
        // Throttle packets are long entries, so there are fewer of them; a full journal is mostly undone.
        let full = self.session.journal.room() < 40;
        match self.random.below(if full { 20 } else { 12 }) {
            0..=3 => {
                let about = self.random.pick(&commands::ALL);
                if about != About::Throttles || self.random.one_in(4) {
                    self.right(about);
                }
            }
            4 | 5 => self.nearly_right(),
            6..=8 => {
                let request = requests::any(&mut self.random, 0);
                self.add(trace::sbe_entry(&request));
            }
            9 if self.random.one_in(6) => {
                let packet = commands::long(&mut self.random, LONG_COMMAND - 6);
                let sender = commands::sender(&mut self.random, packet[1]);
                self.command(sender, &packet[..packet.len().min(LONG_COMMAND)]);
            }
            9 => self.right(About::Poll),
            _ => self.add(vec![UNDO]),
        }
    }

    fn right(&mut self, about: About) {
        let (kind, data) = commands::right(&mut self.random, &self.session, about);
        self.packet(occ::HTMGT, kind, &data);
    }

    fn nearly_right(&mut self) {
        let about = self.random.pick(&commands::ALL);
        let (random, session) = (&mut self.random, &self.session);
        let (kind, mut data) = match random.below(3) {
            0 => commands::off(random, session, about),
            1 => commands::several_off(random, session, about),
            _ => commands::right(random, session, about),
        };
        if random.one_in(4) {
            commands::wrong_length(random, &mut data);
        }
        let sender = commands::sender(random, kind);
        let mut packet = command_packet(random.byte(), kind, &data);
        if random.one_in(3) {
            commands::wrong_frame(random, &mut packet);
        }
        self.command(sender, &packet);
    }

    fn packet(&mut self, sender: u8, kind: u8, data: &[u8]) {
        let packet = command_packet(self.random.byte(), kind, data);
        self.command(sender, &packet);
    }

    /// As short as it can be, or a long entry for a short command; now and then with bytes behind the packet, which count for nothing.
    fn command(&mut self, sender: u8, command: &[u8]) {
        let mut command = command.to_vec();
        if self.random.one_in(6) && command.len() <= SHORT_COMMAND {
            let rest = self.random.bytes(SHORT_COMMAND - command.len());
            command.extend(rest);
        }
        let mut entry = trace::occ_entry(sender, &command).unwrap_or(vec![UNDO]);
        if self.random.one_in(60) {
            entry[0] = LONG;
            entry.resize(2 + LONG_COMMAND, 0);
        }
        self.add(entry);
    }

    fn add(&mut self, entry: Vec<u8>) {
        trace::play(&mut self.session, entry[0], &entry[1..]);
        self.bytes.extend(entry);
        self.made += 1;
    }

    /// Right, cut in its last entry or anywhere, or followed by what is no kind.
    fn end(&mut self) {
        match self.random.below(8) {
            0 | 1 => {
                let kind = self.random.pick(&[1, 1, 2, 2, 3]);
                let length = trace::body_length(kind).unwrap_or(0);
                let some = self.random.below(length);
                let kept = self.random.pick(&[0, 1, length - 1, some]);
                self.bytes.push(kind);
                let body = self.random.bytes(kept);
                self.bytes.extend(body);
            }
            2 => {
                let kept = self.random.between(0, self.bytes.len());
                self.bytes.truncate(kept);
            }
            3 | 4 => {
                let any = self.random.byte();
                let kind = self.random.pick(&[0x00, 0x05, 0x06, 0x0B, 0x80, 0xFF, any]);
                self.bytes.push(kind);
                let more = self.random.pick(&[0, 0, 1, 64, 300]);
                let bytes = self.random.bytes(more);
                self.bytes.extend(bytes);
            }
            _ => {}
        }
    }
}

/// The offsets at which the entries that read start, and the end of the last.
pub fn starts(trace: &[u8]) -> Vec<usize> {
    let mut starts = vec![0];
    let mut at = 0;
    while let Some(length) = trace.get(at).and_then(|kind| trace::body_length(*kind)) {
        at += 1 + length;
        if at > trace.len() {
            break;
        }
        starts.push(at);
    }
    starts
}

/// Two traces for that seed that share a start, or don't.
pub fn pair(seed: u64) -> (Vec<u8>, Vec<u8>) {
    let mut random = Random::new(!seed);
    let mut first = any(seed);
    first.truncate(LONGEST);
    let mut second = first.clone();
    let starts = starts(&first);
    let boundary = random.pick(&starts);
    match random.below(10) {
        0 => {}
        1 => second.truncate(boundary),
        2 => change_byte(&mut random, &mut second, boundary),
        3 => {
            let within = random.between(0, second.len());
            change_byte(&mut random, &mut second, within);
        }
        4 => second.truncate(random.between(0, first.len())),
        5 => {
            // another way on from there
            second.truncate(boundary);
            second.extend(any(seed ^ 1));
            second.truncate(LONGEST);
        }
        6 => second.clear(),
        7 => second = any(seed ^ 2),
        8 => {
            // a first entry that won't read, in one or in both
            let kind = random.pick(&[0, 5, 1, 2, 3]);
            second = vec![kind; random.between(1, 30)];
            if random.one_in(3) {
                first = vec![random.pick(&[0, 2, 3, 0xFF]); random.between(0, 30)];
            }
        }
        _ => {
            // both cut in the same entry, at different bytes
            let kept = (boundary + random.below(40)).min(first.len());
            first.truncate((boundary + random.below(40)).min(first.len()));
            second.truncate(kept);
        }
    }
    second.truncate(LONGEST);
    if random.one_in(2) {
        (second, first)
    } else {
        (first, second)
    }
}

/// To another kind, or by one bit.
fn change_byte(random: &mut Random, trace: &mut [u8], at: usize) {
    if let Some(byte) = trace.get_mut(at) {
        *byte = random.pick(&[*byte ^ 1, *byte ^ 2, *byte ^ 0x80, byte.wrapping_add(1), 0]);
    }
}
