//! Episodes: what is done to one session, from `fresh` or a `load` on.

use super::commands::About;
use super::{commands, damage, malformed, requests, saves, scene, Bench, Generator};
use crate::protocol::{Order, LONGEST_BUFFER};
use crate::record::*;
use crate::save::write_new;
use crate::session::Session;

/// The lengths of the entries that `change` makes: state, deadman, cores, areas, role, reset, user cap, clear,
/// caps, thermal, throttles, timer.
const ENTRY_LENGTHS: [usize; CHANGES] = [2, 10, 5, 25, 3, 3, 3, 4, 8, 11, 164, 10];
const CHANGES: usize = 12;

/// Reply buffers at the bounds of SBE and OCC calls and of `buffer`.
const BUFFER_LENGTHS: [usize; 6] = [0, 31, 32, 4095, 4096, 8192];

impl<B: Bench> Generator<B> {
    /// Each sort of damage and of malformed line once, so that no file lacks any.
    pub fn tour(&mut self) {
        for number in 0..malformed::short_count() {
            self.say(&malformed::short(number));
        }
        for number in 0..malformed::long_count() {
            if self.small && malformed::MORE_OF_THE_SAME.contains(&number) {
                continue;
            }
            let line = malformed::long(&mut self.random, number);
            self.say(&line);
        }
        let rounds = if self.small { 1 } else { 2 };
        for number in 0..rounds * damage::count() {
            self.broken_session(number % damage::count());
        }
        for number in 0..damage::HARD_UNDOS {
            self.hard_undo(number);
        }
        for number in 0..damage::HARD_REDOS {
            self.hard_redo(number);
        }
        for number in 0..2 * CHANGES {
            self.loaded_brim(number / 2, number % 2);
        }
        self.every_redo();
        self.every_mark();
        self.every_forget();
        self.every_shut();
        (0..if self.small { 2 } else { 8 }).for_each(|_| self.watching());
        (0..if self.small { 12 } else { 40 }).for_each(|_| self.plans());
        (0..if self.small { 6 } else { 20 }).for_each(|_| self.saves());
        self.every_chiplet();
        self.every_seeprom();
        for _ in 0..if self.small { 2 } else { 6 } {
            self.timers();
        }
        self.every_fault();
        self.every_buffer();
        self.every_wrong_byte();
        for length in [4090, 4091] {
            self.framed(0x10, 0xEE, &vec![0xFF; length]);
        }
        self.long_packets(if self.small { 4 } else { 20 });
    }

    /// Journals with about as many entries as a mark takes.
    fn every_mark(&mut self) {
        let counts = if self.small { &[32, 64, 1024][..] } else { &[1, 32, 64, 96, 992, 1024] };
        for count in counts {
            self.about_marks(*count);
        }
    }

    /// Undos and redos across the last mark or two, and changes there.
    fn about_marks(&mut self, count: usize) {
        let session = scene::session_with_entries(&mut self.random, count);
        self.load_session(&session);
        self.framed(0x10, 0x20, &[0, 1, 0]);
        self.undo();
        self.redo();
        let most = self.random.pick(&[2, 3, 4, 34, 66]);
        self.undos(most);
        self.give(Order::Image);
        self.redos(most);
        self.every_change();
        self.back_and_forth(2);
        self.look();
    }

    /// Each number at a bound, of no entries, one, some, and the most.
    fn every_forget(&mut self) {
        let counts: &[usize] =
            if self.small { &[0, 1, 33, 1024] } else { &[0, 1, 31, 32, 33, 64, 65, 97, 1024] };
        for count in counts {
            for forgotten in [0, 1, 32, count.saturating_sub(1), *count, count + 1, u32::MAX as usize] {
                if self.small && ![1, 32, *count].contains(&forgotten) {
                    continue;
                }
                let session = scene::session_with_entries(&mut self.random, *count);
                self.load_session(&session);
                self.forget(forgotten as u32);
                self.give(Order::Image);
                self.undo();
                self.redo();
            }
        }
        self.forget(0);
        self.forget(u32::MAX);
    }

    /// A full journal, from fresh or loaded: room is made by forgetting, and used again.
    fn room_made(&mut self) {
        let count = scene::entries_about_marks(&mut self.random);
        let session = match self.random.below(3) {
            0 => scene::session_with_room(&mut self.random, 0),
            1 => scene::session_with_room(&mut self.random, 1),
            _ => scene::session_with_entries(&mut self.random, count),
        };
        self.load_session(&session);
        for _ in 0..self.random.between(2, 5) {
            self.every_change();
            self.forget_some();
            match self.random.below(4) {
                0 => self.undos(5),
                1 => self.back_and_forth(1),
                2 => self.steps(1, 8),
                _ => {}
            }
        }
        if self.random.one_in(3) {
            self.undo_to_the_start();
            self.redo_to_the_end();
        }
        self.look();
    }

    /// Every chiplet of every type, and a type too many; in a small file those at the ends of the table's ranges.
    fn every_chiplet(&mut self) {
        self.give(Order::Fresh);
        for target in 0..6 {
            for chiplet in 0..=0x28 {
                let end = [0, 1, 3, 4, 8, 9, 10, 12, 15, 16, 20, 21, 24, 31, 32, 39, 40].contains(&chiplet);
                if !self.small || (target == 1 && end) || chiplet == 0x10 {
                    self.put_ring(target, chiplet);
                }
            }
            self.put_ring(target, 0xFE);
            self.put_ring(target, 0xFF);
        }
    }

    fn put_ring(&mut self, target: u8, chiplet: u8) {
        let mut request = vec![0; 32];
        request[6..8].copy_from_slice(&[0xD3, 1]);
        (request[9], request[11]) = (target, chiplet);
        self.give(Order::Sbe(request));
    }

    /// Images of several lengths, read in every way.
    fn every_seeprom(&mut self) {
        self.give(Order::Fresh);
        let lengths: &[usize] = if self.small { &[0, 20, 64] } else { &[0, 7, 8, 64, 8192, 65536, 70000] };
        for length in lengths {
            let length = self.bench.longest_seeprom().min(*length);
            let image = self.random.bytes(length);
            self.give(Order::Seeprom(image));
            for _ in 0..if self.small { 8 } else { 40 } {
                let request = requests::seeprom(&mut self.random, self.bench.seeprom());
                self.give(Order::Sbe(request));
            }
        }
        self.lend();
    }

    /// The timer started and stopped, undone and redone, with time between all of them, and other changes.
    fn timers(&mut self) {
        if self.random.one_in(3) {
            let session = scene::session(&mut self.random);
            self.load_session(&session);
        } else {
            self.give(Order::Fresh);
        }
        for _ in 0..self.random.between(10, 40) {
            match self.random.below(10) {
                0..=2 => self.timer(),
                3 | 4 if self.session().timer.running == 0 => self.timer(),
                3 | 4 => self.pass_time(),
                5 | 6 => self.undo(),
                7 => self.redo(),
                8 => {
                    self.undo();
                    self.pass_time();
                    self.redo();
                    self.pass_time();
                    self.undo();
                }
                _ => {
                    let number = self.random.below(CHANGES);
                    self.change(number);
                }
            }
            if self.random.one_in(2) {
                self.pass_time();
            }
        }
        self.undos(4);
        self.pass_time();
        self.redos(4);
        self.look();
    }

    /// Packets of a bring-up and others, in any order, and plans for both states, from a session of any sort.
    fn plans(&mut self) {
        match self.random.below(5) {
            0 => {
                let session = scene::session(&mut self.random);
                self.load_session(&session);
            }
            1 => self.steps(1, 6),
            2 => {
                self.give(Order::Fresh);
                let (role, next) = (self.random.pick(&[0, 1]), self.random.below(CHANGES));
                self.framed(0x10, 0x21, &[FORMAT_ROLE, role]);
                self.change(next);
            }
            _ => self.give(Order::Fresh),
        }
        if self.random.one_in(6) {
            self.watch();
        }
        for _ in 0..self.random.between(1, 3) {
            self.give(Order::Packet(vec![]));
            let wanted = self.random.pick(&[OBSERVATION, OBSERVATION, ACTIVE]);
            let count = self.random.pick(&[0, 1, 2, 3, 4, 4, 5, 5, 5, 5, 5, 6, 7]);
            if self.random.one_in(2) {
                self.bring_up_packets(wanted, count);
            } else {
                for _ in 0..count {
                    let packet = self.prepared(wanted);
                    self.give(Order::Packet(packet));
                }
            }
            let any = self.random.byte();
            let strange = self.random.pick(&[0, 1, 4, 255, any]);
            self.plan(wanted);
            self.plan(5 - wanted);
            if self.random.one_in(4) {
                self.plan(strange);
            }
            if self.random.one_in(3) {
                self.step();
                self.plan(wanted);
            }
        }
    }

    /// What a bring-up needs, in any order, with one thing left out or twice now and then.
    fn bring_up_packets(&mut self, wanted: u8, count: usize) {
        let master = u8::from(self.random.percent(60));
        let mut packets = [
            (0x21, vec![FORMAT_ROLE, master]),
            (0x20, vec![0, wanted, 0]),
            commands::right(&mut self.random, self.bench.session(), About::Thermal),
            commands::right(&mut self.random, self.bench.session(), About::Throttles),
            (0x21, vec![FORMAT_CAPS, 0x10, 1, 0, 2, 0, 0, 0]),
        ];
        if self.random.one_in(4) {
            let (from, to) = (self.random.below(5), self.random.below(5));
            packets[to] = packets[from].clone();
        }
        for place in self.random.distinct(count.min(5), 5) {
            let (kind, data) = &packets[place];
            let packet = crate::occ::command_packet(self.random.byte(), *kind, data);
            self.give(Order::Packet(packet));
        }
    }

    /// Sessions saved and restored, their own and others', and saves moved up and down.
    fn saves(&mut self) {
        if self.random.one_in(2) {
            let session = scene::session(&mut self.random);
            self.load_session(&session);
        }
        self.give(Order::Save);
        if self.session().well_formed() {
            let own = write_new(self.session());
            self.steps(1, 4);
            self.restore(&own);
            self.give(Order::Image);
        }
        for _ in 0..self.random.between(1, 3) {
            let saved = saves::new_form(&mut self.random);
            self.restore(&saved);
            self.undo();
            self.redo();
            self.give(Order::Save);
        }
        self.steps(1, 6);
        for _ in 0..self.random.between(2, 8) {
            let up = self.random.one_in(2);
            let saved = match self.random.below(8) {
                0 if up => saves::new_form(&mut self.random),
                0 => saves::base(&mut self.random),
                _ if up => saves::base(&mut self.random),
                _ => saves::new_form(&mut self.random),
            };
            self.bench.move_across(&mut self.random, up, saved);
        }
    }

    /// A watch-only session, opened over another or loaded: what is open, what is shut, and clears back and forth.
    fn watching(&mut self) {
        match self.random.below(4) {
            0 => {
                let session = scene::watched(&mut self.random);
                self.load_session(&session);
            }
            1 => {
                self.give(Order::Fresh);
                if !self.random.one_in(4) {
                    self.framed(0x10, 0x21, &[FORMAT_ROLE, 1]);
                    (0..self.random.between(0, 4)).for_each(|_| self.framed(0x10, 0x25, &[0, 1]));
                }
                self.watch();
            }
            _ => {
                let session = scene::session(&mut self.random);
                self.load_session(&session);
                self.watch();
            }
        }
        self.give(Order::Image);
        for _ in 0..self.random.between(2, 12) {
            match self.random.below(8) {
                0 => self.right(About::Clear),
                1 => {
                    let sender = self.random.pick(&[0x10, 0x20]);
                    self.right_from(sender, About::Clear);
                }
                2 => self.undos(2),
                3 => self.redos(2),
                4 => self.back_and_forth(1),
                5 => self.timer(),
                _ => self.step(),
            }
        }
        self.every_change();
        if self.random.one_in(4) {
            self.watch();
        }
        self.undo_to_the_start();
        self.redo_to_the_end();
        self.look();
    }

    /// Each sort of command and request, with everything wrong that it can have, in a watch-only session.
    fn every_shut(&mut self) {
        self.give(Order::Fresh);
        self.framed(0x10, 0x21, &[FORMAT_ROLE, 1]);
        (0..4).for_each(|_| self.framed(0x10, 0x25, &[0, 1]));
        self.watch();
        // While every log pends: what is open to HTMGT alone is so in this profile too.
        for about in commands::ALL {
            self.right_from(0x20, about);
        }
        for about in commands::ALL {
            for _ in 0..if self.small { 1 } else { 6 } {
                self.right(about);
                let (kind, data) = commands::off(&mut self.random, self.bench.session(), about);
                self.framed(0x10, kind, &data);
                let sender = commands::sender(&mut self.random, kind);
                self.framed(sender, kind, &data);
            }
        }
        (0..if self.small { 12 } else { 60 }).for_each(|_| self.sbe());
        self.every_change();
        self.undos(3);
        self.redos(3);
        self.give(Order::Show);
    }

    /// Each sort of command with each sort of fault that any command can have.
    fn every_fault(&mut self) {
        self.give(Order::Fresh);
        self.framed(0x10, 0x21, &[FORMAT_ROLE, 1]);
        for about in commands::ALL {
            let (kind, data) = commands::right(&mut self.random, self.bench.session(), about);
            for sender in [0x10, 0x11, 0x20] {
                self.framed(sender, kind, &data);
            }
            let shorter = data.split_last().map_or(&[][..], |(_, front)| front);
            self.framed(0x10, kind, shorter);
            self.framed(0x10, kind, &[&data[..], &[0]].concat());
            self.framed(0x10, kind, &[]);
            let mut packet = crate::occ::command_packet(0xA5, kind, &data);
            packet[4] ^= 1;
            self.occ(0x10, &packet);
            (0..6).for_each(|length| self.occ(0x10, &packet[..length]));
            self.occ(0x30, &packet[..3]);
        }
    }

    /// Each command with each of its first bytes, or those of each set, set to values in and out of range.
    fn every_wrong_byte(&mut self) {
        self.give(Order::Fresh);
        self.framed(0x10, 0x21, &[FORMAT_ROLE, 1]);
        for about in commands::ALL {
            let (kind, data) = commands::right(&mut self.random, self.bench.session(), about);
            let values = if self.small { &[0xFF][..] } else { &[0, 1, 2, 3, 8, 0x10, 0xFE, 0xFF] };
            for place in 0..data.len().min(if self.small { 8 } else { 40 }) {
                for value in values {
                    let mut wrong = data.clone();
                    wrong[place] = *value;
                    self.framed(0x10, kind, &wrong);
                }
            }
            (0..if self.small { 4 } else { 20 }).for_each(|_| {
                let (kind, data) = commands::several_off(&mut self.random, self.bench.session(), about);
                self.framed(0x10, kind, &data);
            });
        }
    }

    /// Packets of sets most of all, with one or several bytes wrong.
    fn wrong_packets(&mut self) {
        if self.random.one_in(2) {
            self.give(Order::Fresh);
        }
        for _ in 0..self.random.between(20, 60) {
            let sets = [About::Throttles, About::Throttles, About::Thermal, About::Thermal];
            let about = if self.random.one_in(4) { self.about() } else { self.random.pick(&sets) };
            let (random, session) = (&mut self.random, self.bench.session());
            let (kind, data) = if random.one_in(2) {
                commands::off(random, session, about)
            } else {
                commands::several_off(random, session, about)
            };
            self.framed(0x10, kind, &data);
        }
    }

    /// Calls that are refused for another reason, or not at all, with each length of reply buffer.
    fn every_buffer(&mut self) {
        for length in BUFFER_LENGTHS {
            self.buffer(length);
            self.give(Order::Fresh);
            self.framed(0x10, 0x21, &[FORMAT_ROLE, 1]);
            self.framed(0x11, 0x00, &[0x10]);
            self.occ(0x20, &[1, 0, 0]);
            self.sbe_right(1);
            self.give(Order::Sbe(vec![0; 31]));
            self.undo();
            self.whole_buffers();
        }
    }

    /// A few calls with reply buffers of another length, then whole ones again, so that little else is lost.
    fn other_buffers(&mut self) {
        let any = self.random.between(0, LONGEST_BUFFER as usize);
        let bound = self.random.pick(&BUFFER_LENGTHS);
        let length = if self.random.one_in(8) { any } else { bound };
        self.buffer(length);
        for _ in 0..self.random.between(1, 3) {
            match self.random.below(6) {
                0 | 1 => self.right(About::Poll),
                2 => self.nearly_right(),
                3 | 4 => self.sbe(),
                _ => self.undo(),
            }
        }
        self.whole_buffers();
    }

    pub fn episode(&mut self) {
        let loads = if self.small { 36 } else { 194 };
        match self.random.below(loads) {
            0..=9 => self.bring_up(),
            10..=13 => self.walk_from_fresh(),
            14..=17 => self.brim(),
            18..=21 => self.logs_from_fresh(),
            22..=25 => self.back_and_forth_from_fresh(),
            26 => self.long_packets(3),
            27 => (0..10).for_each(|_| self.odd_line()),
            28 if self.small => self.ids_of_any_number(),
            29 if self.small => self.scene(),
            30 if self.small => self.room_made(),
            31 if self.small => self.timers(),
            32 if self.small => self.wrong_packets(),
            33 if self.small => self.timers(),
            34 if self.small => self.watching(),
            35 if self.small => self.plans(),
            28..=37 => self.ids_of_any_number(),
            38..=53 => self.scene(),
            54..=59 => {
                let (number, short) = (self.random.below(CHANGES), self.random.below(2));
                self.loaded_brim(number, short);
            }
            60..=69 => {
                let number = self.random.below(damage::HARD_UNDOS + 6);
                self.hard_undo(number);
            }
            70..=79 => {
                let number = self.random.below(damage::HARD_REDOS + 6);
                self.hard_redo(number);
            }
            80..=97 => {
                let number = self.random.below(damage::count());
                self.broken_session(number);
            }
            98..=112 => self.changed_bytes(),
            113 | 114 => self.random_image(),
            115 | 116 => self.random_stores(),
            117 | 118 => self.every_redo(),
            119..=126 => self.wrong_packets(),
            127..=134 => {
                let count = scene::entries_about_marks(&mut self.random);
                self.about_marks(count);
            }
            135..=144 => self.room_made(),
            145..=156 => self.timers(),
            157..=160 => self.lend(),
            161..=170 => self.watching(),
            171..=184 => self.plans(),
            185..=192 => self.saves(),
            _ => self.bounds(),
        }
        if !self.small || self.random.one_in(4) {
            self.give(Order::Image);
        }
    }

    /// One call of any sort, with what makes changes favoured.
    fn step(&mut self) {
        match self.random.below(100) {
            0..=33 => {
                let about = self.about();
                self.right(about);
            }
            34..=61 => self.nearly_right(),
            62..=78 => self.sbe(),
            79 => self.timer(),
            80..=82 => self.pass_time(),
            83..=91 => self.undo(),
            92..=95 => self.redo(),
            96 if self.random.one_in(2) => self.forget_some(),
            96 => self.redo(),
            97 if self.random.one_in(4) => self.long_packet(),
            97 if self.random.one_in(4) => self.lend(),
            97 => self.right(About::Poll),
            _ => self.odd_line(),
        }
        if self.random.one_in(if self.small { 80 } else { 20 }) {
            self.look();
        }
        if self.random.one_in(60) {
            self.other_buffers();
        }
    }

    fn steps(&mut self, least: usize, most: usize) {
        for _ in 0..self.random.between(least, most) {
            self.step();
        }
    }

    fn undos(&mut self, most: usize) {
        for _ in 0..self.random.between(1, most) {
            self.undo();
        }
    }

    fn redos(&mut self, most: usize) {
        for _ in 0..self.random.between(1, most) {
            self.redo();
        }
    }

    /// Many undos, then many redos, again and again, with a change in between now and then.
    fn back_and_forth(&mut self, rounds: usize) {
        for _ in 0..rounds {
            let most = self.random.pick(&[1, 1, 2, 2, 3, 5, 5, 40]);
            self.undos(most);
            self.redos(most + 2);
            if self.random.one_in(3) {
                self.right(About::Poll);
            }
            match self.random.below(8) {
                0 | 1 => self.step(),
                2 => {
                    let number = self.random.below(CHANGES);
                    self.change(number);
                    self.redo();
                }
                3 => self.look(),
                _ => {}
            }
        }
    }

    fn back_and_forth_from_fresh(&mut self) {
        self.give(Order::Fresh);
        self.framed(0x10, 0x21, &[FORMAT_ROLE, 1]);
        if self.random.one_in(30) {
            // the longest chain there can be: entries of two bytes
            let entries = if self.small { 60 } else { 1100 };
            (0..entries).for_each(|_| self.framed(0x10, 0x20, &[0, 1, 0]));
            self.undo_to_the_start();
            self.redo_to_the_end();
        } else {
            self.every_change();
            self.log_steps(5, 30);
        }
        let rounds = self.random.between(2, 8);
        self.back_and_forth(rounds);
        self.undo_to_the_start();
        self.give(Order::Show);
        self.redo_to_the_end();
        self.give(Order::Show);
    }

    /// One change of each kind, each undone and redone, then all of them.
    fn every_redo(&mut self) {
        self.give(Order::Fresh);
        self.framed(0x10, 0x21, &[FORMAT_ROLE, 1]);
        for number in [5, 4, 8, 9, 10, 6, 0, 1, 2, 3, 7, 5, 11] {
            self.change(number);
            self.undo();
            self.redo();
        }
        self.undo_to_the_start();
        self.redo_to_the_end();
        self.undos(6);
        let number = self.random.below(CHANGES);
        self.change(number);
        self.redo();
        self.give(Order::Image);
    }

    fn redo_to_the_end(&mut self) {
        while self.bench.left() > 0 && self.session().redo.used > 0 {
            let before = self.session().redo.used;
            self.redo();
            if self.session().redo.used == before {
                break; // refused
            }
        }
        self.redos(2);
    }

    fn walk_from_fresh(&mut self) {
        self.give(Order::Fresh);
        self.steps(20, 120);
        self.undos(12);
        self.redos(12);
    }

    /// Role, thresholds, caps and throttles in any order, states in between, then commands near the bounds.
    fn bring_up(&mut self) {
        self.give(Order::Fresh);
        let master = u8::from(self.random.percent(70));
        let role_first = self.random.percent(80);
        if role_first {
            self.framed(0x10, 0x21, &[FORMAT_ROLE, master]);
        }
        for number in self.random.distinct(4, 4) {
            let about = [About::Caps, About::Thermal, About::Throttles, About::State][number];
            self.right(about);
            if self.random.one_in(3) {
                self.step();
            }
        }
        if !role_first {
            self.framed(0x10, 0x21, &[FORMAT_ROLE, master]);
        }
        for state in [OBSERVATION, ACTIVE] {
            self.right(About::Poll);
            self.framed(0x10, 0x20, &[0, state, 0]);
        }
        self.caps_and_user_caps();
        self.steps(5, 60);
        if self.random.one_in(3) {
            self.undo_to_the_start();
            self.redo_to_the_end();
        }
    }

    /// Caps move under a user cap; polls show the limit.
    fn caps_and_user_caps(&mut self) {
        for _ in 0..self.random.between(1, 6) {
            match self.random.below(5) {
                0 => self.right(About::Caps),
                1 => self.right(About::UserCap),
                2 => {
                    let (kind, data) = commands::off(&mut self.random, self.bench.session(), About::UserCap);
                    let sender = commands::sender(&mut self.random, kind);
                    self.framed(sender, kind, &data);
                }
                3 => self.undo(),
                _ => self.right(About::Poll),
            }
        }
        self.right(About::Poll);
    }

    fn undo_to_the_start(&mut self) {
        while self.bench.left() > 0 && self.session().journal.used > 0 {
            let before = self.session().journal.used;
            self.undo();
            if self.session().journal.used == before {
                break; // refused
            }
        }
        self.undos(2);
    }

    /// The journal filled by real commands until a change just fits, or misses by one byte.
    fn brim(&mut self) {
        self.give(Order::Fresh);
        self.framed(0x10, 0x21, &[FORMAT_ROLE, 1]);
        self.framed(0x10, 0x25, &[0, 1]);
        let number = self.random.below(CHANGES);
        let room = ENTRY_LENGTHS[number] - self.random.below(2);
        for _ in 0..12 {
            if self.random.one_in(5) {
                self.step();
            }
            if self.session().journal.room() >= 166 + room {
                self.right(About::Throttles);
            }
        }
        self.fill_to(room);
        self.change(number);
        self.every_change();
        self.step();
        if self.random.one_in(2) {
            self.forget_some();
            self.change(number);
            self.every_change();
        }
        if self.random.one_in(2) {
            self.undo_to_the_start();
            self.redo_to_the_end();
        } else {
            self.undos(8);
            self.steps(3, 10);
            self.back_and_forth(2);
        }
    }

    /// The same from a loaded session whose journal has just that room, on a master in standby with one log.
    fn loaded_brim(&mut self, number: usize, short: usize) {
        let room = ENTRY_LENGTHS[number] - short;
        let session = scene::session_with_room(&mut self.random, room);
        let mut session = Session { next_id: session.next_id.clamp(2, 255), ..session };
        let mut logs = [Log::default(); LOG_PLACES];
        logs[0] = Log { id: 1, reason: 1 };
        let record = Record { state: STANDBY, role: MASTER, role_received: 1, logs, ..session.record };
        session.set_record(record);
        self.load_session(&session);
        self.change(number);
        if !self.small {
            self.every_change();
        }
        self.undos(4);
        self.redos(2);
        self.change(number);
        self.redo();
        self.give(Order::Show);
    }

    /// Entries of 25, 5, 3 and 2 bytes until the room is that, or as near as they come.
    fn fill_to(&mut self, room: usize) {
        for _ in 0..80 {
            let gap = self.session().journal.room().saturating_sub(room);
            match gap {
                0 | 1 => return,
                2 | 4 => self.framed(0x10, 0x20, &[0, 1, 0]),
                3 | 5 | 6 => self.framed(0x10, 0x25, &[0, 0]),
                7..=29 => self.sbe_right(1),
                _ => self.sbe_right(2),
            }
        }
    }

    fn sbe_right(&mut self, which: usize) {
        let mut request = vec![0; 32];
        let head = [[0xD1, 1], [0xD1, 3], [0xD7, 4], [0xD4, 1]][which % 4];
        request[6..8].copy_from_slice(&head);
        request[3] = if which.is_multiple_of(3) { 1 + self.random.below(2) as u8 } else { 0 };
        request[15] = if which == 3 { self.random.byte() } else { 0 };
        self.give(Order::Sbe(request));
    }

    /// One change of each kind, in any order, with a log to clear if there can be one.
    fn every_change(&mut self) {
        for number in self.random.distinct(CHANGES, CHANGES) {
            self.change(number);
            if self.random.one_in(6) {
                self.undo();
            }
        }
    }

    /// A command that makes the entry whose length stands at that number of ENTRY_LENGTHS.
    fn change(&mut self, number: usize) {
        match number {
            0 => self.framed(0x10, 0x20, &[0, 1, 0]),
            1 => self.sbe_right(0),
            2 => self.sbe_right(1),
            3 => self.sbe_right(2),
            4 => self.framed(0x10, 0x21, &[FORMAT_ROLE, 1]),
            5 => self.framed(0x10, 0x25, &[0, 1]),
            6 => self.framed(0x10, 0x22, &[0, 0]),
            7 => self.right(About::Clear),
            8 => self.right(About::Caps),
            9 => self.right(About::Thermal),
            10 => self.right(About::Throttles),
            _ => self.sbe_right(3),
        }
    }

    /// Resets, clears and undos until four pend and beyond.
    fn logs_from_fresh(&mut self) {
        self.give(Order::Fresh);
        if self.random.one_in(2) {
            self.framed(0x10, 0x21, &[FORMAT_ROLE, 1]);
        }
        self.log_steps(12, 60);
    }

    fn log_steps(&mut self, least: usize, most: usize) {
        for _ in 0..self.random.between(least, most) {
            match self.random.below(12) {
                0..=3 => self.framed(0x10, 0x25, &[0, 1]),
                4 => self.framed(0x10, 0x25, &[0, 2]),
                5 => self.right(About::Reset),
                6 | 7 => self.right(About::Clear),
                8 => self.right(About::Poll),
                9 => self.undo(),
                10 => self.back_and_forth(1),
                _ => self.step(),
            }
        }
    }

    /// Resets and clears where the next id is anything, near its end as often as not.
    fn ids_of_any_number(&mut self) {
        let mut session = scene::session(&mut self.random);
        let lowest = self.random.pick(&[5, 250]);
        session.next_id = self.random.between(lowest, 256) as u16;
        let count = self.random.below(5);
        let mut ids = self.random.distinct(count, usize::from(session.next_id) - 1);
        ids.sort_unstable();
        session.record.logs = [Log::default(); LOG_PLACES];
        for (log, id) in session.record.logs.iter_mut().zip(ids) {
            *log = Log { id: 1 + id as u8, reason: self.random.pick(&[1, 2]) };
        }
        self.load_session(&session);
        self.log_steps(6, 30);
        self.undos(6);
        self.redos(6);
    }

    /// A random well-formed session, then steps, undos and redos of entries that were never made.
    fn scene(&mut self) {
        let session = scene::session(&mut self.random);
        self.load_session(&session);
        match self.random.below(4) {
            0 => self.every_change(),
            1 => self.redos(25),
            2 => self.back_and_forth(3),
            _ => {}
        }
        self.steps(3, 25);
        self.undos(25);
        self.look();
    }

    fn hard_undo(&mut self, number: usize) {
        let mut session = scene::session(&mut self.random);
        damage::hard_undo(&mut self.random, &mut session, number);
        self.load_session(&session);
        self.undos(2);
        self.right(About::Poll);
        self.steps(0, 4);
        self.right(About::State);
        self.undos(4);
    }

    fn hard_redo(&mut self, number: usize) {
        let mut session = scene::session(&mut self.random);
        damage::hard_redo(&mut self.random, &mut session, number);
        self.load_session(&session);
        self.redos(2);
        self.right(About::Poll);
        self.back_and_forth(2);
        self.right(About::State);
        self.redo();
    }

    /// A call of each sort; enough where every answer is 1.
    fn calls_of_each_sort(&mut self) {
        self.right(About::Poll);
        self.undo();
        self.redo();
        self.sbe();
        self.forget_some();
        self.pass_time();
        if !self.session().well_formed() || self.random.one_in(8) {
            self.plan(OBSERVATION);
            self.give(Order::Save);
            self.watch();
        }
        if self.random.one_in(12) {
            self.other_buffers();
        }
        if self.session().well_formed() {
            self.steps(3, 15);
            self.back_and_forth(2);
        } else if self.random.one_in(2) {
            self.steps(1, 3);
        }
        self.give(Order::Show);
        self.look();
    }

    fn broken_session(&mut self, number: usize) {
        let mut session = scene::session(&mut self.random);
        damage::break_rule(&mut self.random, &mut session, number);
        self.load_session(&session);
        self.calls_of_each_sort();
    }

    /// Of a session at hand or of a random one.
    fn changed_bytes(&mut self) {
        let session = if self.random.one_in(3) {
            Session::clone(self.session())
        } else {
            scene::session(&mut self.random)
        };
        let image = damage::change_bytes(&mut self.random, &session);
        self.load(&image);
        self.calls_of_each_sort();
    }

    fn random_image(&mut self) {
        let image = damage::random_bytes(&mut self.random);
        self.load(&image);
        self.calls_of_each_sort();
    }

    fn random_stores(&mut self) {
        let mut session = scene::session(&mut self.random);
        damage::random_stores(&mut self.random, &mut session);
        self.load_session(&session);
        self.calls_of_each_sort();
    }

    fn long_packets(&mut self, count: usize) {
        for _ in 0..count {
            self.long_packet();
        }
        let mut request = requests::any(&mut self.random, self.bench.seeprom());
        request.extend(self.random.bytes(40));
        self.give(Order::Sbe(request));
    }

    fn bounds(&mut self) {
        let number = self.random.below(malformed::long_count());
        let line = malformed::long(&mut self.random, number);
        self.say(&line);
        self.step();
    }
}
