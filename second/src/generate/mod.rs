//! Calls for the comparison of the two programs: episodes that look at the session as they go. What becomes of the calls is the bench's: lines
//! for `standin`, or calls on both programs in one process.

mod commands;
mod damage;
mod episodes;
mod lines;
mod malformed;
mod random;
mod requests;
pub mod saves;
mod scene;
mod spelling;
pub mod traces;

use crate::image;
use crate::occ::{self, command_packet};
use crate::protocol::Order;
use crate::session::Session;
use commands::About;
pub use lines::generate;
pub use random::Random;

/// Takes the orders of a generator as they come, makes the calls, and so knows the session.
pub trait Bench {
    fn session(&mut self) -> &Session;

    /// How many calls are still wanted; once it is 0, orders do nothing.
    fn left(&self) -> u64;

    fn give(&mut self, random: &mut Random, order: Order);

    /// The length of the SEEPROM's image that is lent, and of the longest that can be.
    fn seeprom(&self) -> usize;
    fn longest_seeprom(&self) -> usize;

    /// A saved session to be moved up, or down: for a bench that has the calls, which no line makes.
    fn move_across(&mut self, _random: &mut Random, _up: bool, _saved: Vec<u8>) {}

    /// A line that need not be an order: for a bench that reads lines.
    fn say(&mut self, _random: &mut Random, _line: &[u8]) {}
}

/// Draws orders for a bench.
pub struct Generator<B> {
    pub random: Random,
    pub bench: B,
    small: bool,
}

impl<B: Bench> Generator<B> {
    pub fn new(seed: u64, small: bool, bench: B) -> Self {
        Generator { random: Random::new(seed), bench, small }
    }

    fn session(&mut self) -> &Session {
        self.bench.session()
    }

    fn give(&mut self, order: Order) {
        self.bench.give(&mut self.random, order);
    }

    fn say(&mut self, line: &[u8]) {
        self.bench.say(&mut self.random, line);
    }

    fn occ(&mut self, sender: u8, command: &[u8]) {
        self.give(Order::Occ { sender, command: command.to_vec() });
    }

    /// A right frame, as `occ` or as `send`.
    fn framed(&mut self, sender: u8, command_type: u8, data: &[u8]) {
        if self.random.one_in(3) {
            self.give(Order::Send { sender, command_type, data: data.to_vec() });
        } else {
            let packet = command_packet(self.random.byte(), command_type, data);
            self.occ(sender, &packet);
        }
    }

    /// A command that is right as far as the session allows.
    fn right(&mut self, about: About) {
        let for_bmc = matches!(about, About::Poll | About::UserCap);
        let sender = if for_bmc && self.random.one_in(3) { occ::BMC } else { occ::HTMGT };
        self.right_from(sender, about);
    }

    /// Right but, it may be, for its sender.
    fn right_from(&mut self, sender: u8, about: About) {
        let (kind, data) = commands::right(&mut self.random, self.bench.session(), about);
        self.framed(sender, kind, &data);
    }

    /// A command with one thing off: data, length, sender or frame.
    fn nearly_right(&mut self) {
        let about = self.about();
        let (random, session) = (&mut self.random, self.bench.session());
        let fault = random.below(11);
        let (kind, mut data) = if fault == 10 {
            commands::several_off(random, session, about)
        } else if fault < 6 {
            commands::off(random, session, about)
        } else {
            commands::right(random, session, about)
        };
        if fault == 6 || fault == 7 {
            commands::wrong_length(random, &mut data);
        }
        let sender = commands::sender(random, kind);
        if fault < 8 || fault == 10 {
            return self.framed(sender, kind, &data);
        }
        let mut packet = command_packet(self.random.byte(), kind, &data);
        commands::wrong_frame(&mut self.random, &mut packet);
        self.occ(sender, &packet);
    }

    fn about(&mut self) -> About {
        match self.random.pick(&commands::ALL) {
            // Rarer than the others.
            About::UnknownType | About::UnknownFormat if self.random.one_in(2) => About::UserCap,
            about => about,
        }
    }

    fn sbe(&mut self) {
        let request = requests::any(&mut self.random, self.bench.seeprom());
        self.give(Order::Sbe(request));
    }

    /// Lends another image of the SEEPROM, and reads from it.
    fn lend(&mut self) {
        let longest = self.bench.longest_seeprom();
        let any = self.random.below(longest + 1);
        let short = self.random.pick(&[0, 1, 7, 8, 9, 16, 63, 64, 100]);
        let bound = self.random.pick(&[4096, 8184, 8192, 65528, 65535, 65536, 65537, 65544, 70000]);
        let length = match self.random.below(20) {
            0 => any,
            1..=3 => bound,
            _ => short,
        };
        let image = self.random.bytes(length.min(longest));
        self.give(Order::Seeprom(image));
        for _ in 0..self.random.between(1, 5) {
            let request = requests::seeprom(&mut self.random, self.bench.seeprom());
            self.give(Order::Sbe(request));
        }
    }

    /// About as much time as the timer has left.
    fn pass_time(&mut self) {
        let left = self.session().timer.left;
        let random = &mut self.random;
        let any = random.u64();
        let microseconds = match random.below(8) {
            0 => left,
            1 => left.wrapping_add(1),
            2 | 3 => left.saturating_sub(1),
            4 => left / 2,
            5 => random.pick(&[0, 1, u64::MAX, 1 << 63, 1 << 32, left.wrapping_sub(1)]),
            6 if random.one_in(4) => any,
            _ => any % 300,
        };
        self.give(Order::Time(microseconds));
    }

    fn plan(&mut self, wanted: u8) {
        self.give(Order::Plan(wanted));
    }

    /// Of any sort that a plan may meet, most of them right where their turn comes.
    fn prepared(&mut self, wanted: u8) -> Vec<u8> {
        let (random, session) = (&mut self.random, self.bench.session());
        let about = random.pick(&[
            About::Role,
            About::Role,
            About::Caps,
            About::Caps,
            About::Thermal,
            About::Thermal,
            About::Throttles,
            About::State,
            About::State,
            About::Reset,
            About::Poll,
            About::Clear,
            About::UserCap,
        ]);
        let (kind, mut data) = match about {
            About::State => (occ::SET_STATE, vec![0, random.pick(&[wanted, wanted, wanted, 1, 2, 3]), 0]),
            About::Role => (occ::CONFIGURATION, vec![crate::record::FORMAT_ROLE, random.pick(&[0, 1, 1])]),
            _ if random.one_in(8) => commands::off(random, session, about),
            _ => commands::right(random, session, about),
        };
        if random.one_in(25) {
            commands::wrong_length(random, &mut data);
        }
        let mut packet = command_packet(random.byte(), kind, &data);
        if random.one_in(20) {
            commands::wrong_frame(random, &mut packet);
        }
        if random.one_in(12) {
            let more = random.pick(&[1, 8, 100]);
            packet.extend(random.bytes(more));
        }
        packet.truncate(crate::plan::SLOT);
        packet
    }

    fn restore(&mut self, saved: &[u8]) {
        self.give(Order::Restore(saved.to_vec()));
    }

    fn watch(&mut self) {
        self.give(Order::Watch);
    }

    fn timer(&mut self) {
        let request = requests::timer(&mut self.random);
        self.give(Order::Sbe(request));
    }

    fn undo(&mut self) {
        self.give(Order::Undo);
    }

    fn redo(&mut self) {
        self.give(Order::Redo);
    }

    fn forget(&mut self, count: u32) {
        self.give(Order::Forget(count));
    }

    /// About as many as the journal holds, a few of them, or far too many.
    fn forget_some(&mut self) {
        let held = self.session().inspect().journal.entries;
        let (any, random) = (self.random.below(held + 1), &mut self.random);
        let count = match random.below(8) {
            0 => random.pick(&[0, held, held + 1, held.saturating_sub(1)]),
            1 => random.pick(&[held + 2, 2048, 65536 + any, 1 << 31, u32::MAX as usize]),
            2 => random.pick(&[31, 32, 33, 64]).min(held),
            3 => any,
            _ => random.between(0, held.min(5)),
        };
        self.forget(count as u32);
    }

    fn long_packet(&mut self) {
        if self.random.one_in(4) {
            let (kind, data) = commands::crowded(&mut self.random);
            return self.framed(0x10, kind, &data);
        }
        let most = if self.small && !self.random.one_in(40) { 300 } else { 8186 };
        let packet = commands::long(&mut self.random, most);
        let sender = commands::sender(&mut self.random, packet[1]);
        self.occ(sender, &packet);
    }

    /// Reply buffers of that length from now on.
    fn buffer(&mut self, length: usize) {
        self.give(Order::Buffer(Some(length)));
    }

    fn whole_buffers(&mut self) {
        self.give(Order::Buffer(None));
    }

    fn load(&mut self, image: &[u8]) {
        self.give(Order::Load(image.to_vec()));
    }

    fn load_session(&mut self, session: &Session) {
        self.load(&image::write(session));
    }

    /// Lines that aren't calls: the image most of all.
    fn look(&mut self) {
        let order = match self.random.below(6) {
            0 => Order::Show,
            1 => Order::Journal,
            2 if self.random.one_in(8) => Order::Help,
            3 if self.random.one_in(2) => Order::Why,
            2 | 3 if self.small => Order::Show,
            4 if self.small => Order::Journal,
            _ => Order::Image,
        };
        self.give(order);
    }

    fn odd_line(&mut self) {
        let line = match self.random.below(4) {
            0 => malformed::fine(&mut self.random),
            1 => malformed::odd(&mut self.random),
            _ => malformed::short(self.random.below(malformed::short_count())),
        };
        self.say(&line);
    }
}
