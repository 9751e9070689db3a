//! Plans: an order of prepared packets from HTMGT that leads to a wanted state, and the small check of one.

use crate::calls::{DONE, NOTHING_TO_PLAN, NOT_WELL_FORMED, OCC_REPLY_LENGTH, REPLY_TOO_SHORT};
use crate::journal::Bytes;
use crate::occ;
use crate::record::{ACTIVE, OBSERVATION};
use crate::session::Session;

/// Packets stand one after the other, each in a slot of that length; the last slot may be shorter.
pub const SLOT: usize = 4096;
pub const MOST_PACKETS: usize = 5;

/// Packet numbers from 1.
pub type Order = Vec<u8>;

/// The packets of lines, laid out in slots: zeros fill a slot up, but for the last one, which ends with its packet.
pub fn slots(packets: &[Vec<u8>]) -> Vec<u8> {
    let mut slots = Vec::new();
    for (before, packet) in packets.iter().enumerate() {
        slots.resize(before * SLOT, 0);
        slots.extend(packet);
    }
    slots
}

impl<B: Bytes> Session<B> {
    /// What is asked of any plan: a well-formed session, five packets at most, and state 2 or 3.
    fn plannable(&self, slots: &[u8], wanted: u8) -> u8 {
        if !self.well_formed() {
            NOT_WELL_FORMED
        } else if slots.len() > MOST_PACKETS * SLOT || ![OBSERVATION, ACTIVE].contains(&wanted) {
            NOTHING_TO_PLAN
        } else {
            DONE
        }
    }

    /// The session that a plan runs on: this one's record and next id, the full profile, nothing to undo.
    fn trial(&self) -> Session {
        let mut trial = Session { next_id: self.next_id, timer: self.timer, ..Session::fresh() };
        trial.set_record(self.record);
        trial
    }

    /// The answer and the plan, if there is one: the least in number of packets, then in their order. It is written to `order`,
    /// whose bytes past it are kept.
    pub fn plan(&self, slots: &[u8], wanted: u8, order: &mut [u8]) -> (u8, Option<Order>) {
        let answer = self.plannable(slots, wanted);
        if answer != DONE {
            return (answer, None);
        }
        if order.len() < MOST_PACKETS {
            return (REPLY_TOO_SHORT, None);
        }
        let found = least(self.trial(), &slots.chunks(SLOT).collect::<Vec<_>>(), wanted);
        if let Some(found) = &found {
            order[..found.len()].copy_from_slice(found);
        }
        (DONE, found)
    }

    /// The answer, and whether that proposal is a plan, whoever made it.
    pub fn plan_ok(&self, slots: &[u8], wanted: u8, order: &[u8]) -> (u8, bool) {
        let answer = self.plannable(slots, wanted);
        (answer, answer == DONE && leads(self.trial(), slots, wanted, order))
    }
}

/// From HTMGT: answer 0 and success.
fn succeeds(session: &mut Session, packet: &[u8]) -> bool {
    let mut reply = [0; OCC_REPLY_LENGTH];
    session.occ(occ::HTMGT, packet, &mut reply).answer == DONE && reply[2] == occ::SUCCESS
}

/// Each number names a packet, none twice, each packet succeeds, and the last state is the wanted one.
fn leads(mut session: Session, slots: &[u8], wanted: u8, order: &[u8]) -> bool {
    let packets: Vec<&[u8]> = slots.chunks(SLOT).collect();
    let mut used = [false; MOST_PACKETS];
    for number in order {
        let Some(place) = usize::from(*number).checked_sub(1).filter(|place| *place < packets.len()) else {
            return false;
        };
        if std::mem::replace(&mut used[place], true) || !succeeds(&mut session, packets[place]) {
            return false;
        }
    }
    session.record.state == wanted
}

/// All orders that succeed so far, those of fewer packets first, each length in the packets' order.
fn least(start: Session, packets: &[&[u8]], wanted: u8) -> Option<Order> {
    let mut level = vec![(Order::new(), start)];
    while !level.is_empty() {
        if let Some((order, _)) = level.iter().find(|(_, session)| session.record.state == wanted) {
            return Some(order.clone());
        }
        level = level.iter().flat_map(|(order, session)| longer(order, session, packets)).collect();
    }
    None
}

/// One packet more, each that isn't used yet and succeeds.
fn longer(order: &Order, session: &Session, packets: &[&[u8]]) -> Vec<(Order, Session)> {
    let mut found = Vec::new();
    for (number, packet) in (1..).zip(packets) {
        let mut session = session.clone();
        if !order.contains(&number) && succeeds(&mut session, packet) {
            found.push(([&order[..], &[number]].concat(), session));
        }
    }
    found
}
