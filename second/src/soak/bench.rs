//! The bench of the soak: each order of the generator is a call by both programs.

use super::call::{Call, NAMES};
use super::pair::{Difference, Pair, LONGEST_PACKETS, LONGEST_SEEPROM, SHIFTS};
use second::calls::DONE;
use second::generate::{Bench, Random};
use second::image::{self, IMAGE_LENGTH};
use second::occ::command_packet;
use second::plan::{slots, MOST_PACKETS, SLOT};
use second::protocol::{Order, LONGEST_BUFFER, LONGEST_COMMAND};
use second::session::Session;
use std::collections::BTreeMap;
use std::rc::Rc;
use std::time::{Duration, Instant};

/// Reply buffers, and how often one of them is lent in place of a whole one.
const ROOMS: [usize; 18] =
    [0, 1, 6, 7, 31, 32, 33, 67, 100, 232, 2279, 4095, 4096, 4097, 4408, 4410, 8191, 8192];
const ODD_ROOMS: usize = 16;
/// How often a call is made on an image of another length too.
const ODD_IMAGES: usize = 64;
/// How often the buffers are filled anew.
const PAINTS: usize = 8;
/// How many calls are made between two looks at the clock, a power of two.
const BETWEEN_LOOKS: u64 = 4096;

/// A difference, with all that is needed to see it again.
pub struct Found {
    /// The call's number, from 1.
    pub number: u64,
    pub difference: Difference,
    /// The image of the last load or fresh session, and the calls from there on, the last one being that which differs.
    pub start: Vec<u8>,
    pub calls: Vec<Call>,
    /// The image before that last call.
    pub before: Vec<u8>,
}

/// What was reached: how often each call gave each answer, and how often a packet or request each status.
#[derive(Default)]
pub struct Reached {
    answers: [[u64; 16]; NAMES.len()],
    occ_statuses: [u64; 32],
    /// Primary in the high half, secondary in the low one.
    sbe_statuses: BTreeMap<u32, u64>,
    /// On images of another length.
    odd_images: u64,
    loads: u64,
    /// Plans by how many packets they have, and none; proposals that were accepted, and that weren't.
    plans: [u64; MOST_PACKETS + 1],
    no_plan: u64,
    proposals: [u64; 2],
}

/// Those that came, with their place.
fn numbered(counts: &[u64]) -> impl Iterator<Item = (usize, &u64)> {
    counts.iter().enumerate().filter(|(_, count)| **count > 0)
}

impl Reached {
    fn count(&mut self, call: &Call, result: u32, reply: &[u8]) {
        let answer = result & 0xFF;
        self.answers[call.number()][answer as usize & 15] += 1;
        if answer != u32::from(DONE) {
            return;
        }
        let (small, high) = (result >> 8 & 0xFF, result >> 16);
        match (call, reply) {
            (Call::Plan { .. }, _) if small == 0 => self.no_plan += 1,
            (Call::Plan { .. }, _) => self.plans[high as usize % (MOST_PACKETS + 1)] += 1,
            (Call::PlanOk { .. }, _) => self.proposals[small as usize & 1] += 1,
            (Call::Occ { .. }, [_, _, status, ..]) => self.occ_statuses[usize::from(status & 31)] += 1,
            (Call::Sbe { .. } | Call::SbeSeeprom { .. }, [a, b, c, d, ..]) => {
                *self.sbe_statuses.entry(u32::from_be_bytes([*a, *b, *c, *d])).or_default() += 1
            }
            _ => {}
        }
    }

    pub fn text(&self) -> String {
        let mut text = String::new();
        for (name, answers) in NAMES.iter().zip(&self.answers) {
            text += &format!("{name} answers");
            numbered(answers).for_each(|(answer, count)| text += &format!(" {answer}: {count}"));
            text.push('\n');
        }
        text += "occ statuses";
        numbered(&self.occ_statuses).for_each(|(status, count)| text += &format!(" {status:02X}: {count}"));
        text += "\nsbe statuses";
        self.sbe_statuses.iter().for_each(|(status, count)| text += &format!(" {status:08X}: {count}"));
        text += "\nplans of so many packets";
        numbered(&self.plans).for_each(|(packets, count)| text += &format!(" {packets}: {count}"));
        let [refused, accepted] = self.proposals;
        text += &format!(", none: {}; proposals accepted {accepted}, not {refused}", self.no_plan);
        let (loads, odd) = (self.loads, self.odd_images);
        text + &format!("\n{loads} images loaded, {odd} calls on images of another length\n")
    }
}

pub struct Soak {
    pair: Pair,
    /// For images of other lengths, which no call changes.
    odd: Pair,
    /// As the image shows it, once it is asked for.
    session: Option<Session>,
    sequence: u8,
    /// The length of reply buffers, if not whole.
    buffer: Option<usize>,
    /// The image of the SEEPROM that is lent.
    seeprom: Rc<Vec<u8>>,
    /// Prepared for plans.
    packets: Vec<Vec<u8>>,
    start: Vec<u8>,
    calls: Vec<Call>,
    before: Vec<u8>,
    pub left: u64,
    pub made: u64,
    pub found: Option<Found>,
    pub reached: Reached,
    began: Instant,
    told: Instant,
    tell: fn(u64, u64, Duration),
    every: Duration,
}

impl Soak {
    /// `tell` is called now and then, with the calls made, the calls wanted and the time.
    pub fn new(count: u64, every: Duration, tell: fn(u64, u64, Duration)) -> Self {
        let longest = LONGEST_COMMAND.max(LONGEST_BUFFER as usize);
        let mut pair = Pair::new(longest);
        let start = image::write(&Session::fresh());
        pair.load(&start, 0);
        Soak {
            pair,
            odd: Pair::new(longest),
            session: None,
            sequence: 0,
            buffer: None,
            seeprom: Rc::default(),
            packets: Vec::new(),
            before: start.clone(),
            start,
            calls: Vec::new(),
            left: count,
            made: 0,
            found: None,
            reached: Reached::default(),
            began: Instant::now(),
            told: Instant::now(),
            tell,
            every,
        }
    }

    pub fn time(&self) -> Duration {
        self.began.elapsed()
    }

    fn load(&mut self, random: &mut Random, image: Vec<u8>) {
        self.reached.loads += 1;
        self.pair.load(&image, random.below(SHIFTS));
        self.pair.paint(true, random.byte());
        self.start = image;
        self.calls.clear();
        self.session = None;
    }

    fn room(&self, random: &mut Random, whole: usize) -> usize {
        if random.one_in(ODD_ROOMS) {
            let any = random.between(0, LONGEST_BUFFER as usize);
            let short = [any, whole.saturating_sub(1), whole + 1];
            return if random.one_in(4) { random.pick(&short) } else { random.pick(&ROOMS) };
        }
        self.buffer.unwrap_or(whole)
    }

    fn call(&mut self, random: &mut Random, mut call: Call) {
        if self.left == 0 {
            return;
        }
        let room = self.room(random, call.whole_room());
        call.set_room(room);
        if random.one_in(PAINTS) {
            self.pair.paint(false, random.byte());
        }
        if random.one_in(ODD_IMAGES) {
            self.on_another_length(random, &call);
        }
        if self.left == 0 {
            return;
        }
        self.before.copy_from_slice(self.pair.image());
        let result = self.pair.make(&call, random.below(SHIFTS));
        self.session = None;
        self.count(&call, result.ok());
        let fresh = matches!(call, Call::Fresh);
        let anew = matches!(call, Call::Restore { .. });
        self.calls.push(call);
        match result {
            Err(difference) => {
                self.give_up(difference, self.start.clone(), self.calls.clone(), self.before.clone())
            }
            Ok(result) if fresh || (anew && result == 0) => {
                self.start.copy_from_slice(self.pair.image());
                self.calls.clear();
            }
            Ok(_) => {}
        }
    }

    /// A plan of the packets in slots, whose unused bytes are anything, and a proposal or two judged.
    fn plans(&mut self, random: &mut Random, wanted: u8) {
        let mut packets = slots(&self.packets);
        if random.one_in(8) {
            let more = random.pick(&[1, SLOT, 20480usize.saturating_sub(packets.len()), 20481]);
            packets.extend(random.bytes(more));
        }
        if random.one_in(16) {
            packets.truncate(random.below(packets.len() + 1));
        }
        packets.truncate(LONGEST_PACKETS);
        let packets = Rc::new(packets);
        self.call(random, Call::Plan { packets: Rc::clone(&packets), wanted, room: 0 });
        for _ in 0..2 {
            let order = self.proposal(random, &packets, wanted);
            self.call(random, Call::PlanOk { packets: Rc::clone(&packets), wanted, order });
        }
    }

    /// A plan, one with a slip, or numbers at random.
    fn proposal(&mut self, random: &mut Random, packets: &[u8], wanted: u8) -> Vec<u8> {
        let plan = self.session().plan(packets, wanted, &mut [0; MOST_PACKETS]).1;
        let length = random.pick(&[0, 1, 2, 3, 4, 5, 5, 6, 9]);
        let numbers: Vec<u8> =
            random.distinct(length.min(5), 5).iter().map(|place| *place as u8 + 1).collect();
        let any: Vec<u8> = (0..length).map(|_| random.pick(&[0, 1, 1, 2, 3, 4, 5, 6, 255])).collect();
        match (plan, random.below(4)) {
            (Some(plan), 0 | 1) => plan,
            (Some(mut plan), 2) => {
                let place = random.below(plan.len() + 1);
                plan.insert(place, random.pick(&[0, 1, 2, 3, 4, 5, 6]));
                plan
            }
            (_, 3) => any,
            _ => numbers,
        }
    }

    /// With the SEEPROM lent, or by the call that lends none. The second buffer is as long as what is asked for, a little less or
    /// more, or as long as can be.
    fn sbe(&self, random: &mut Random, request: Vec<u8>) -> Call {
        if random.one_in(3) {
            return Call::Sbe { request, room: 0 };
        }
        let size =
            request.get(12..16).map_or(0, |size| u32::from_be_bytes([size[0], size[1], size[2], size[3]]));
        let size = (size as usize).min(LONGEST_SEEPROM - 8);
        let data_room = match random.below(6) {
            0 => size,
            1 => size.saturating_sub(random.pick(&[1, 8])),
            2 => size + random.pick(&[1, 8]),
            3 => random.pick(&[0, 1, 7, 8]),
            _ => 65536.min(size + 4096),
        };
        Call::SbeSeeprom { request, room: 0, seeprom: Rc::clone(&self.seeprom), data_room }
    }

    /// The same call on the image at hand, cut or with more behind it: nothing may change.
    fn on_another_length(&mut self, random: &mut Random, call: &Call) {
        let any = random.below(2 * IMAGE_LENGTH);
        let length =
            random.pick(&[0, 1, 230, 2287, IMAGE_LENGTH - 1, IMAGE_LENGTH + 1, 4337, 4401, 4411, any, any]);
        if length == IMAGE_LENGTH {
            return;
        }
        let mut image = self.pair.image().to_vec();
        let more = random.pick(&[0, 1, 0xFF]);
        image.resize(length, more);
        self.odd.load(&image, random.below(SHIFTS));
        self.odd.paint(true, random.byte());
        let result = self.odd.make(call, random.below(SHIFTS));
        self.reached.odd_images += 1;
        self.count(call, result.ok());
        if let Err(difference) = result {
            self.give_up(difference, image.clone(), vec![call.clone()], image);
        }
    }

    fn give_up(&mut self, difference: Difference, start: Vec<u8>, calls: Vec<Call>, before: Vec<u8>) {
        self.found = Some(Found { number: self.made, difference, start, calls, before });
        self.left = 0;
    }

    fn count(&mut self, call: &Call, result: Option<u32>) {
        self.made += 1;
        self.left -= 1;
        if let Some(result) = result {
            self.reached.count(call, result, self.pair.reply());
        }
        if self.made & (BETWEEN_LOOKS - 1) == 0 && self.told.elapsed() >= self.every {
            self.told = Instant::now();
            (self.tell)(self.made, self.made + self.left, self.began.elapsed());
        }
    }
}

impl Bench for Soak {
    fn session(&mut self) -> &Session {
        let image = self.pair.image();
        self.session.get_or_insert_with(|| image::read(image).unwrap_or_else(Session::fresh))
    }

    fn left(&self) -> u64 {
        self.left
    }

    fn seeprom(&self) -> usize {
        self.seeprom.len()
    }

    fn longest_seeprom(&self) -> usize {
        LONGEST_SEEPROM
    }

    fn move_across(&mut self, random: &mut Random, up: bool, saved: Vec<u8>) {
        let call = if up { Call::MoveUp { saved, room: 0 } } else { Call::MoveDown { saved, room: 0 } };
        self.call(random, call);
    }

    fn give(&mut self, random: &mut Random, order: Order) {
        match order {
            Order::Occ { sender, command } => self.call(random, Call::Occ { sender, command, room: 0 }),
            Order::Send { sender, command_type, data } => {
                self.sequence = self.sequence.wrapping_add(1);
                let command = command_packet(self.sequence, command_type, &data);
                self.call(random, Call::Occ { sender, command, room: 0 });
            }
            Order::Sbe(request) => {
                let call = self.sbe(random, request);
                self.call(random, call);
            }
            Order::Time(microseconds) => self.call(random, Call::Time(microseconds)),
            Order::Watch => self.call(random, Call::Watch),
            Order::Save => self.call(random, Call::Save { room: 0 }),
            Order::Restore(saved) => self.call(random, Call::Restore { saved }),
            Order::Packet(packet) if packet.is_empty() => self.packets.clear(),
            Order::Packet(packet) => self.packets.push(packet),
            Order::Plan(wanted) => self.plans(random, wanted),
            Order::Seeprom(image) => self.seeprom = Rc::new(image),
            Order::Undo => self.call(random, Call::Undo),
            Order::Redo => self.call(random, Call::Redo),
            Order::Forget(count) => self.call(random, Call::Forget(count)),
            Order::Fresh => self.call(random, Call::Fresh),
            Order::Load(image) => self.load(random, image),
            Order::Buffer(length) => self.buffer = length,
            // These look at the session, and all of it is compared after each call.
            Order::Image | Order::Why | Order::Show | Order::Journal | Order::Help => {}
        }
    }
}
