//! Plans: the search against all orders there are, each judged by the check; and the buffers.

use second::c;
use second::generate::Random;
use second::image;
use second::occ::command_packet;
use second::plan::{slots, SLOT};
use second::session::Session;

/// Packets of a bring-up, and some that fail or aren't needed.
fn packets() -> Vec<Vec<u8>> {
    let mut packets: Vec<Vec<u8>> = [
        (0x21, &[3, 0][..]),
        (0x21, &[3, 1]),
        (0x21, &[0x13, 0x10, 1, 0, 85, 95, 5]),
        (0x21, &[7, 0x10, 1, 0, 2, 0, 0, 0]),
        (0x21, &[0x12, 0x10, 1, 0, 0, 1, 2, 3, 4, 5, 6, 7, 8, 9, 10]),
        (0x20, &[0, 1, 0]),
        (0x20, &[0, 2, 0]),
        (0x20, &[0, 3, 0]),
        (0x25, &[0, 0]),
        (0x25, &[0, 1]),
        (0x00, &[0x10]),
        (0x12, &[1]),
        (0x22, &[1, 5]),
    ]
    .iter()
    .map(|(kind, data)| command_packet(1, *kind, data))
    .collect();
    let mut wrong_sum = packets[0].clone();
    wrong_sum[7] ^= 1;
    packets.push(wrong_sum);
    packets
}

/// What a bring-up needs, as often as not.
fn random_packet(random: &mut Random) -> Vec<u8> {
    let packets = packets();
    let place = if random.one_in(2) { random.pick(&[0, 2, 6]) } else { random.below(packets.len()) };
    packets[place].clone()
}

/// All orders of numbers up to `count`, none twice: fewer first, then the least.
fn orders(count: u8) -> Vec<Vec<u8>> {
    let mut all = vec![vec![]];
    let mut level: Vec<Vec<u8>> = vec![vec![]];
    for _ in 0..count {
        level = level
            .iter()
            .flat_map(|order| {
                (1..=count)
                    .filter(|number| !order.contains(number))
                    .map(|number| [&order[..], &[number]].concat())
                    .collect::<Vec<_>>()
            })
            .collect();
        all.extend(level.clone());
    }
    all
}

fn sessions() -> Vec<Session> {
    let mut sessions = vec![Session::fresh(), Session::fresh(), Session::fresh()];
    let mut reply = [0; 4096];
    for (session, most) in sessions.iter_mut().skip(1).zip([3, 9]) {
        for (_, packet) in (0..most).zip(packets().iter().skip(1)) {
            session.occ(0x10, packet, &mut reply);
        }
    }
    sessions
}

#[test]
fn the_plan_is_the_first_order_that_the_check_accepts() {
    let mut random = Random::new(32);
    let (mut found, mut none) = (0, 0);
    for round in 0..300 {
        let chosen: Vec<Vec<u8>> =
            (0..random.pick(&[0, 1, 3, 5, 5])).map(|_| random_packet(&mut random)).collect();
        let slots = slots(&chosen);
        let wanted = random.pick(&[2, 3]);
        let mut lent = image::write(&sessions()[round % 3]);
        let before = lent.clone();
        let mut order = [0xEE; 7];
        let result = c::plan(&mut lent, &slots, wanted, &mut order);
        let accepted = orders(chosen.len() as u8)
            .into_iter()
            .find(|order| c::plan_ok(&mut lent, &slots, wanted, order) == 0x0000_0100);
        match accepted {
            Some(plan) => {
                assert_eq!(result, (plan.len() as u32) << 16 | 0x0100);
                assert_eq!(order[..plan.len()], plan[..]);
                assert!(order[plan.len()..].iter().all(|byte| *byte == 0xEE));
                found += 1;
            }
            None => {
                assert_eq!((result, order), (0, [0xEE; 7]));
                none += 1;
            }
        }
        assert_eq!(lent, before);
    }
    assert!(found > 20 && none > 20, "{found} plans, {none} times none");
}

#[test]
fn proposals_that_are_no_order_are_not_accepted() {
    let chosen = [command_packet(1, 0x21, &[3, 0]), command_packet(1, 0x21, &[0x13, 0x10, 1, 0, 85, 95, 5])];
    let slots = slots(&[chosen[0].clone(), chosen[1].clone(), command_packet(1, 0x20, &[0, 2, 0])]);
    let mut lent = image::write(&Session::fresh());
    for (order, result) in [
        (&[1u8, 2, 3][..], 0x0100),
        (&[2, 1, 3], 0x0100),
        (&[1, 2], 0),
        (&[], 0),
        (&[0, 1, 2, 3], 0),
        (&[1, 2, 3, 4], 0),
        (&[1, 2, 3, 3], 0),
        (&[1, 1, 2, 3], 0),
        (&[1, 2, 3, 255], 0),
        (&[3, 1, 2], 0),
        (&[1, 2, 3, 1, 2, 3], 0),
    ] {
        assert_eq!(c::plan_ok(&mut lent, &slots, 2, order), result, "{order:?}");
        assert_eq!(c::plan_ok(&mut lent, &slots, 3, order), 0);
        assert_eq!(c::plan_ok(&mut lent, &slots, 4, order), 10);
    }
    lent[0] = 2;
    assert_eq!(c::plan_ok(&mut lent, &slots, 2, &[]), 0x0100);
    assert_eq!(c::plan_ok(&mut lent, &[], 2, &[]), 0x0100);
    assert_eq!(c::plan_ok(&mut lent, &slots, 2, &[1]), 0);
}

/// Master, thresholds, caps, a pair, active.
fn bring_up_to_active() -> Vec<Vec<u8>> {
    let packets = packets();
    [1, 2, 3, 4, 7].map(|place| packets[place].clone()).to_vec()
}

#[test]
fn proposals_of_five() {
    let mut lent = image::write(&Session::fresh());
    let slots = slots(&bring_up_to_active());
    for (order, result) in [
        (&[1u8, 2, 3, 4, 5][..], 0x0100),
        (&[4, 2, 1, 3, 5], 0x0100),
        // Caps before the role that they need; the state before its time.
        (&[3, 1, 2, 4, 5], 0),
        (&[1, 2, 3, 5, 4], 0),
        (&[1, 2, 3, 4], 0),
        // 0 and 6 name no packet; none comes twice, and so no order has more than five.
        (&[0, 1, 2, 3, 4], 0),
        (&[1, 2, 3, 4, 6], 0),
        (&[1, 2, 3, 4, 5, 6], 0),
        (&[1, 2, 3, 4, 5, 5], 0),
        (&[1, 2, 3, 4, 5, 0, 0], 0),
        (&[], 0),
    ] {
        assert_eq!(c::plan_ok(&mut lent, &slots, 3, order), result, "{order:?}");
        assert_eq!(c::plan_ok(&mut lent, &slots, 2, order), 0, "{order:?}");
    }
    let long: Vec<u8> = (0..=255).collect();
    assert_eq!(c::plan_ok(&mut lent, &slots, 3, &long), 0);
}

#[test]
fn what_a_proposal_passes_on_its_way() {
    let packets = packets();
    let chosen =
        |places: &[usize]| slots(&places.iter().map(|place| packets[*place].clone()).collect::<Vec<_>>());
    let mut lent = image::write(&Session::fresh());
    // Role, thresholds, state 2, a poll, a reset: a poll succeeds anywhere; the wanted state has to be the last.
    let some = chosen(&[0, 2, 6, 10, 8]);
    for (order, result) in [
        (&[1u8, 2, 3][..], 0x0100),
        (&[4, 1, 2, 3], 0x0100),
        (&[1, 4, 2, 3], 0x0100),
        (&[1, 2, 3, 4], 0x0100),
        (&[5, 1, 2, 3], 0x0100),
        (&[1, 2, 3, 5], 0),
        (&[1, 2, 3, 5, 4], 0),
        (&[1, 2, 5, 4, 3], 0x0100),
    ] {
        assert_eq!(c::plan_ok(&mut lent, &some, 2, order), result, "{order:?}");
    }
    // One that fails, here a wrong sum, makes it none, wherever it stands.
    let failing = chosen(&[0, 2, 6, 13]);
    for order in [[4u8, 1, 2, 3], [1, 4, 2, 3], [1, 2, 4, 3], [1, 2, 3, 4]] {
        assert_eq!(c::plan_ok(&mut lent, &failing, 2, &order), 0, "{order:?}");
    }
    // With the next id 256, at 235 in the image, a reset that is due a log gets 0x15; one that isn't doesn't.
    let resets = chosen(&[0, 2, 6, 9, 8]);
    assert_eq!(c::plan_ok(&mut lent, &resets, 2, &[4, 1, 2, 3]), 0x0100);
    lent[235..237].copy_from_slice(&[1, 0]);
    assert_eq!(c::plan_ok(&mut lent, &resets, 2, &[4, 1, 2, 3]), 0);
    assert_eq!(c::plan_ok(&mut lent, &resets, 2, &[5, 1, 2, 3]), 0x0100);
    // Watch-only, the image's last byte: planned on as full.
    *lent.last_mut().unwrap() = 1;
    assert_eq!(c::plan_ok(&mut lent, &resets, 2, &[5, 1, 2, 3]), 0x0100);
}

#[test]
fn slots_are_counted_by_their_length() {
    let packets = packets();
    let mut lent = image::write(&Session::fresh());
    let mut lent_2 = lent.clone();
    lent_2[0] = 2;
    // 4,096 bytes are one packet, 4,097 are two; a slot of one byte names a packet, which gets answer 4.
    let polls = slots(&[packets[10].clone(), vec![0x11]]);
    assert_eq!(polls.len(), SLOT + 1);
    assert_eq!(c::plan_ok(&mut lent_2, &polls[..SLOT], 2, &[1]), 0x0100);
    assert_eq!(c::plan_ok(&mut lent_2, &polls[..SLOT], 2, &[2]), 0);
    assert_eq!(c::plan_ok(&mut lent_2, &polls, 2, &[1]), 0x0100);
    assert_eq!(c::plan_ok(&mut lent_2, &polls, 2, &[2]), 0);
    // A packet that ends with its slot, at the slots' end too; a byte less is cut.
    let longest = |count: usize| {
        let mut slots = slots(&[packets[0].clone(), packets[2].clone(), packets[6].clone()]);
        slots.resize(count, 0xEE);
        slots
    };
    for count in [2 * SLOT + 9, 3 * SLOT, 5 * SLOT] {
        assert_eq!(c::plan(&mut lent, &longest(count), 2, &mut [0; 5]), 0x0003_0100);
    }
    assert_eq!(c::plan(&mut lent, &longest(2 * SLOT + 9)[..2 * SLOT + 8], 2, &mut [0; 5]), 0);
    assert_eq!(c::plan(&mut lent, &longest(5 * SLOT + 1), 2, &mut [0; 5]), 10);
}

#[test]
fn the_order_is_written_at_the_front() {
    let slots = slots(&bring_up_to_active());
    let mut lent = image::write(&Session::fresh());
    for length in 5..8 {
        let mut order = vec![0xEE; length];
        assert_eq!(c::plan(&mut lent, &slots, 3, &mut order), 0x0005_0100);
        assert_eq!(order[..5], [1, 2, 3, 4, 5]);
        assert!(order[5..].iter().all(|byte| *byte == 0xEE));
    }
    // Of four bytes it is kept, though a shorter plan would have room; so it is where there is none.
    let mut order = [0xEE; 4];
    assert_eq!(c::plan(&mut lent, &slots, 3, &mut order), 3);
    assert_eq!(c::plan(&mut lent, &[], 3, &mut order), 3);
    lent[0] = 2;
    assert_eq!(c::plan(&mut lent, &slots, 2, &mut order), 3);
    assert_eq!(order, [0xEE; 4]);
    let mut order = [0xEE; 5];
    assert_eq!(c::plan(&mut lent, &slots, 2, &mut order), 0x0000_0100);
    assert_eq!(order, [0xEE; 5]);
}

#[test]
fn refusals_in_their_order() {
    let mut lent = image::write(&Session::fresh());
    let five = vec![0; 5 * SLOT];
    let six = vec![0; 5 * SLOT + 1];
    assert_eq!(c::plan(&mut lent, &five, 2, &mut [0; 5]), 0);
    assert_eq!(c::plan(&mut lent, &six, 2, &mut [0; 5]), 10);
    assert_eq!(c::plan(&mut lent, &five, 2, &mut [0; 4]), 3);
    assert_eq!(c::plan(&mut lent, &six, 2, &mut [0; 4]), 10);
    assert_eq!(c::plan(&mut lent, &five, 1, &mut []), 10);
    assert_eq!(c::plan_ok(&mut lent, &six, 2, &[]), 10);
    lent[0] = 4;
    assert_eq!(c::plan(&mut lent, &six, 1, &mut []), 1);
    assert_eq!(c::plan_ok(&mut lent, &six, 1, &[]), 1);
    assert_eq!(c::plan(&mut lent, &five, 2, &mut [0; 4]), 1);
    assert_eq!(c::plan(&mut lent[1..], &six, 1, &mut []), 1);
    assert_eq!(c::plan_ok(&mut lent[1..], &[], 2, &[]), 1);
}
