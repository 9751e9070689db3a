//! Times of the proved library and of this program on the same calls, in one run. The proved library takes a session as its image and
//! updates it in place; this program is measured the same way, and also on its own session value. `--stack`: the stack that a call uses.
use second::c;
use second::calls::{NOT_WELL_FORMED, WONT_READ};
use second::image::{self, IMAGE_LENGTH};
use second::occ::command_packet;
use second::plan::{slots, SLOT};
use second::save::{self, NEW_LENGTH};
use second::session::Session;
use std::hint::black_box;
use std::time::{Duration, Instant};

mod stack;

#[allow(dead_code)] // no session is made fresh here
#[path = "../proved.rs"]
mod proved;

const ROUNDS: usize = 7;
const ROUND: Duration = Duration::from_millis(150);
const HTMGT: u8 = 0x10;
/// For a reply or a save, whichever is longer.
const ROOM: usize = NEW_LENGTH;
/// An image that is lent.
static SEEPROM: [u8; 65536] = [0x5A; 65536];

enum Call {
    Occ(Vec<u8>),
    Sbe(Vec<u8>),
    Undo,
    Redo,
    Forget(u32),
    Time(u64),
    Watch,
    /// Of packets in slots, for state 3.
    Plan(Vec<u8>),
    /// Is that order one?
    PlanOk(Vec<u8>, Vec<u8>),
    Save,
    Restore(Vec<u8>),
    /// These two take no session.
    MoveUp(Vec<u8>),
    MoveDown(Vec<u8>),
    /// With all of `SEEPROM` lent.
    Seeprom(Vec<u8>),
    /// Back to where the calls started: made along, but not counted.
    Again(Box<Start>),
}

/// One session, in both forms.
struct Start {
    image: Vec<u8>,
    session: Session,
}

/// Calls that leave the session as they found it, so that they can be made again and again.
struct Work {
    name: &'static str,
    start: Session,
    calls: Vec<Call>,
}

fn proved(image: &mut [u8], call: &Call, reply: &mut [u8]) -> u32 {
    match call {
        Call::Occ(command) => proved::occ(image, HTMGT, command, reply),
        Call::Sbe(request) => proved::sbe(image, request, &mut reply[..32]),
        Call::Undo => proved::undo(image),
        Call::Redo => proved::redo(image),
        Call::Forget(count) => proved::forget(image, *count),
        Call::Time(microseconds) => proved::time(image, *microseconds),
        Call::Watch => proved::watch(image),
        Call::Plan(packets) => proved::plan(image, packets, 3, &mut reply[..5]),
        Call::PlanOk(packets, order) => proved::plan_ok(image, packets, 3, order),
        Call::Save => proved::save(image, reply),
        Call::Restore(saved) => proved::restore(image, saved),
        Call::MoveUp(saved) => proved::move_up(saved, reply),
        Call::MoveDown(saved) => proved::move_down(saved, reply),
        Call::Seeprom(request) => {
            let (reply, data) = reply.split_at_mut(32);
            proved::sbe_seeprom(image, request, reply, &SEEPROM, data)
        }
        Call::Again(start) => {
            image.copy_from_slice(&start.image);
            0
        }
    }
}

fn on_value(session: &mut Session, call: &Call, reply: &mut [u8]) -> u32 {
    match call {
        Call::Occ(command) => c::with_fault(session.occ(HTMGT, command, reply)),
        Call::Sbe(request) => c::with_bell(session.sbe(request, &mut reply[..32])),
        Call::Undo => c::with_passed(session.undo()),
        Call::Redo => c::with_kind(session.redo()),
        Call::Forget(count) => session.forget(*count).into(),
        Call::Time(microseconds) => c::with_bell(session.time(*microseconds)),
        Call::Watch => session.watch().into(),
        Call::Plan(packets) => c::with_plan(session.plan(packets, 3, &mut reply[..5])),
        Call::PlanOk(packets, order) => c::with_verdict(session.plan_ok(packets, 3, order)),
        Call::Save if session.well_formed() => {
            c::with_length(save::hand_out(&save::write_new(session), reply))
        }
        Call::Save => NOT_WELL_FORMED.into(),
        Call::Restore(saved) => match save::read_new(saved) {
            Some(saved) => {
                *session = saved;
                0
            }
            None => WONT_READ.into(),
        },
        Call::MoveUp(saved) => c::move_up(saved, reply),
        Call::MoveDown(saved) => c::move_down(saved, reply),
        Call::Seeprom(request) => {
            let (reply, data) = reply.split_at_mut(32);
            let told = session.sbe_seeprom(request, reply, &SEEPROM, data);
            c::with_bell((told.answer, told.bell))
        }
        Call::Again(start) => {
            session.clone_from(&start.session);
            0
        }
    }
}

fn on_image(image: &mut [u8], call: &Call, reply: &mut [u8]) -> u32 {
    match call {
        Call::Occ(command) => c::occ(image, HTMGT, command, reply),
        Call::Sbe(request) => c::sbe(image, request, &mut reply[..32]),
        Call::Undo => c::undo(image),
        Call::Redo => c::redo(image),
        Call::Forget(count) => c::forget(image, *count),
        Call::Time(microseconds) => c::time(image, *microseconds),
        Call::Watch => c::watch(image),
        Call::Plan(packets) => c::plan(image, packets, 3, &mut reply[..5]),
        Call::PlanOk(packets, order) => c::plan_ok(image, packets, 3, order),
        Call::Save => c::save(image, reply),
        Call::Restore(saved) => c::restore(image, saved),
        Call::MoveUp(saved) => c::move_up(saved, reply),
        Call::MoveDown(saved) => c::move_down(saved, reply),
        Call::Seeprom(request) => {
            let (reply, data) = reply.split_at_mut(32);
            c::sbe_seeprom(image, request, reply, &SEEPROM, data)
        }
        Call::Again(start) => {
            image.copy_from_slice(&start.image);
            0
        }
    }
}

/// An active master with caps, from fresh.
fn brought_up() -> Session {
    let mut session = Session::fresh();
    let mut reply = vec![0; ROOM];
    let sets = throttle_sets();
    for (kind, data) in [
        (0x21, vec![0x03, 1]),
        (0x21, vec![0x13, 0x10, 1, 0, 85, 95, 5]),
        (0x21, vec![0x07, 0x10, 0x01, 0xF4, 0x05, 0xDC, 0, 0]),
        (0x21, sets),
        (0x20, vec![0, 3, 0]),
    ] {
        session.occ(HTMGT, &command_packet(1, kind, &data), &mut reply);
        assert_eq!(reply[2], 0, "bring-up was refused");
    }
    session
}

/// All sixteen pairs.
fn throttle_sets() -> Vec<u8> {
    let mut data = vec![0x12, 0x10, 16];
    for pair in 0..16 {
        data.extend([pair / 2, pair % 2]);
        data.extend([1, 2, 3, 4, 5, 6, 7, 8, 9, 10]);
    }
    data
}

/// As many, the last one the first again.
fn repeated_pair() -> Vec<u8> {
    let mut data = throttle_sets();
    data[183..185].fill(0);
    data
}

/// From fresh, that many times set to standby: an entry of two bytes each.
fn with_entries(count: usize) -> Session {
    let mut session = Session::fresh();
    let mut reply = vec![0; ROOM];
    for _ in 0..count {
        session.occ(HTMGT, &command_packet(1, 0x20, &[0, 1, 0]), &mut reply);
        assert_eq!(reply[2], 0, "set state was refused");
    }
    session
}

/// Watch-only, with a log pending.
fn watched() -> Session {
    let mut session = after(&brought_up(), 0x25, &[0, 1]);
    assert_eq!(session.watch(), 0, "opening was refused");
    session
}

fn after(before: &Session, kind: u8, data: &[u8]) -> Session {
    let mut session = before.clone();
    session.occ(HTMGT, &command_packet(1, kind, data), &mut [0; ROOM]);
    session
}

fn occ(kind: u8, data: &[u8]) -> Call {
    Call::Occ(command_packet(1, kind, data))
}

fn mask() -> Call {
    let mut request = vec![0; 32];
    (request[2], request[6], request[7], request[11]) = (0x01, 0xD1, 0x03, 0x03);
    Call::Sbe(request)
}

fn timer_stop() -> Call {
    let mut request = vec![0; 32];
    (request[3], request[6], request[7]) = (0x02, 0xD4, 0x01);
    Call::Sbe(request)
}

/// 2,048 bytes from the image's midst.
fn seeprom_read() -> Call {
    let mut request = vec![0; 32];
    (request[6], request[7], request[10], request[14]) = (0xD7, 0x03, 0x80, 0x08);
    Call::Seeprom(request)
}

/// Five packets, each filling its slot.
fn five(packet: &[u8]) -> Vec<u8> {
    let mut slot = packet.to_vec();
    slot.resize(SLOT, 0);
    slot.repeat(5)
}

/// A bring-up to state 3, turned round.
fn bring_up_packets() -> Vec<u8> {
    let packets = [
        command_packet(1, 0x20, &[0, 3, 0]),
        command_packet(1, 0x21, &throttle_sets()),
        command_packet(1, 0x21, &[0x07, 0x10, 0x01, 0xF4, 0x05, 0xDC, 0, 0]),
        command_packet(1, 0x21, &[0x13, 0x10, 1, 0, 85, 95, 5]),
        command_packet(1, 0x21, &[0x03, 1]),
    ];
    slots(&packets)
}

fn works() -> Vec<Work> {
    let poll = || vec![occ(0x00, &[0x10])];
    let state = || vec![occ(0x20, &[0, 1, 0]), Call::Undo];
    let back = || vec![Call::Undo, Call::Redo];
    let up = brought_up();
    let throttled = after(&up, 0x21, &throttle_sets());
    let (half, full) = (with_entries(500), with_entries(1000));
    let mut works = vec![
        work("poll", &up, poll()),
        work("user cap and undo", &up, vec![occ(0x22, &[0x03, 0xE8]), Call::Undo]),
        work("16-pair throttle packet and undo", &up, vec![occ(0x21, &throttle_sets()), Call::Undo]),
        work("the same, its last pair the first again (0x13)", &up, vec![occ(0x21, &repeated_pair())]),
        work("undo and redo of the throttles", &throttled, back()),
        work("4,096-byte packet (0x11)", &up, vec![occ(0x30, &[0xFF; 4090])]),
        work("SBE mask and undo", &up, vec![mask(), Call::Undo]),
        work("SBE timer stop and undo", &up, vec![timer_stop(), Call::Undo]),
        work("SBE read of 2,048 bytes of the SEEPROM", &up, vec![seeprom_read()]),
        work("time report", &up, vec![Call::Time(1)]),
        work("clear log and undo, watch-only", &watched(), vec![occ(0x12, &[1]), Call::Undo]),
        work("user cap, watch-only (0x16)", &watched(), vec![occ(0x22, &[0x03, 0xE8])]),
        work("poll, 500 entries", &half, poll()),
        work("set state and undo, 500 entries", &half, state()),
        work("poll, 1,000 entries", &full, poll()),
        work("set state and undo, 1,000 entries", &full, state()),
        work("undo and redo, 1,000 entries", &full, back()),
    ];
    // What undo takes to find the newest entry, beside the test for answer 1, which a poll makes too.
    for (polled, taken_back, entries) in [
        ("poll, 1 entry", "undo and redo, 1 entry", 1),
        ("poll, 32 entries", "undo and redo, 32 entries", 32),
        ("poll, 33 entries", "undo and redo, 33 entries", 33),
    ] {
        let start = with_entries(entries);
        works.push(work(polled, &start, poll()));
        works.push(work(taken_back, &start, back()));
    }
    // Plans from a fresh session: the longest packets, of which none succeeds; such as all succeed, so that all orders are run; and a bring-up.
    let fresh = Session::fresh();
    let longest = five(&command_packet(1, 0x30, &[0xFF; 4090]));
    let all_orders = five(&command_packet(1, 0x21, &throttle_sets()));
    works.push(work("plan: five packets of 4,096 bytes, none", &fresh, vec![Call::Plan(longest)]));
    works.push(work(
        "plan: five packets that succeed, 326 orders, none",
        &fresh,
        vec![Call::Plan(all_orders)],
    ));
    works.push(work("plan: a bring-up of five, turned round", &fresh, vec![Call::Plan(bring_up_packets())]));
    let proposal = Call::PlanOk(bring_up_packets(), vec![5, 3, 4, 2, 1]);
    works.push(work("plan_ok: the same, proposed", &fresh, vec![proposal]));
    // Saves, and the way back and across: a session that is restored is the one that was there.
    for (saved, restored, start) in [
        ("save, 1 entry", "restore, 1 entry", with_entries(1)),
        ("save, 1,000 entries", "restore, 1,000 entries", full.clone()),
    ] {
        works.push(work(saved, &start, vec![Call::Save]));
        works.push(work(restored, &start, vec![Call::Restore(save::write_new(&start))]));
    }
    for (moved_up, moved_down, start) in [
        ("move up, 1 entry", "move down, 1 entry", with_entries(1)),
        ("move up, 1,000 entries", "move down, 1,000 entries", full.clone()),
    ] {
        works.push(work(moved_up, &fresh, vec![Call::MoveUp(save::write_base(&start))]));
        works.push(work(moved_down, &fresh, vec![Call::MoveDown(save::write_new(&start))]));
    }
    // Forgetting and opening don't lead back, so the session is copied back each time; the time has that copy in it.
    for (name, call) in [
        ("forget 1 of 1,000 entries, copied back", Call::Forget(1)),
        ("forget 500 of 1,000 entries, copied back", Call::Forget(500)),
        ("watch over 1,000 entries, copied back", Call::Watch),
    ] {
        let back = Start { image: image::write(&full), session: full.clone() };
        works.push(work(name, &full, vec![call, Call::Again(Box::new(back))]));
    }
    works
}

/// The calls are made once before: a change that is undone stays in the redo store until the next one empties it.
fn work(name: &'static str, before: &Session, calls: Vec<Call>) -> Work {
    let mut start = before.clone();
    for call in &calls {
        on_value(&mut start, call, &mut [0; ROOM]);
    }
    Work { name, start, calls }
}

/// Both give the same results, replies and images, and the calls lead back to the start.
fn check(work: &Work) {
    let start = image::write(&work.start);
    let (mut ours, mut theirs) = (start.clone(), start.clone());
    for call in &work.calls {
        let (mut r, mut q) = (vec![0xEE; ROOM], vec![0xEE; ROOM]);
        assert_eq!(
            on_image(&mut ours, call, &mut r),
            proved(&mut theirs, call, &mut q),
            "{}: results differ",
            work.name
        );
        assert!(r == q && ours == theirs, "{}: replies or sessions differ", work.name);
    }
    assert!(ours == start, "{}: the calls don't lead back", work.name);
}

/// Nanoseconds for one call: the least of several rounds.
fn time(calls: &[Call], mut make: impl FnMut(&Call)) -> f64 {
    let mut best = f64::INFINITY;
    let counted = calls.iter().filter(|call| !matches!(call, Call::Again(_))).count();
    for _ in 0..ROUNDS {
        let (begin, mut made) = (Instant::now(), 0u32);
        while begin.elapsed() < ROUND {
            for _ in 0..16 {
                calls.iter().for_each(&mut make);
            }
            made += 16 * counted as u32;
        }
        best = best.min(begin.elapsed().as_secs_f64() * 1e9 / f64::from(made));
    }
    best
}

/// What no call that tests a whole session can be faster than by much: one pass that sums the image's bytes.
fn limit() -> f64 {
    let image = image::write(&brought_up());
    time(&[Call::Undo], |_| {
        black_box(black_box(&image).iter().fold(0u32, |sum, byte| sum.wrapping_add(u32::from(*byte))));
    })
}

/// Time, calls per second, and the time as a multiple of the limit.
fn told(time: f64, limit: f64) -> String {
    format!("{time:.0} ns, {:.0}/s, {:.1}", 1e9 / time, time / limit)
}

fn times() {
    let limit = limit();
    println!(
        "Each column: nanoseconds for a call, calls per second, and the time as a multiple of the limit,"
    );
    println!("one pass that sums the image's {IMAGE_LENGTH} bytes.\n");
    println!(
        "| Calls | proved, on an image | second, on an image | proved / second | second, on its own value |"
    );
    println!("|---|---|---|---|---|");
    println!("| the image's bytes summed, the limit | {0} | {0} | | |", told(limit, limit));
    for work in works() {
        check(&work);
        let start = image::write(&work.start);
        let (mut lent, mut reply) = (start.clone(), vec![0; ROOM]);
        let a = time(&work.calls, |c| {
            black_box(proved(black_box(&mut lent), black_box(c), &mut reply));
        });
        let mut lent = start.clone();
        let b = time(&work.calls, |c| {
            black_box(on_image(black_box(&mut lent), black_box(c), &mut reply));
        });
        let mut value = work.start.clone();
        let v = time(&work.calls, |c| {
            black_box(on_value(black_box(&mut value), black_box(c), &mut reply));
        });
        let columns = (told(a, limit), told(b, limit), told(v, limit));
        println!("| {} | {} | {} | {:.2} | {} |", work.name, columns.0, columns.1, a / b, columns.2);
    }
}

/// The stack of each sort of call, in bytes. A call is made once before, so that nothing is loaded while it is measured.
fn stacks() {
    let capped = after(&brought_up(), 0x22, &[0x03, 0xE8]);
    let full = with_entries(1000);
    let undone = {
        let mut session = capped.clone();
        session.undo();
        session
    };
    println!("Bytes of stack that one call on an image uses.\n");
    println!("| Call | proved | second |");
    println!("|---|---|---|");
    for (name, start, call) in [
        ("occ: poll", brought_up(), occ(0x00, &[0x10])),
        ("occ: user cap", brought_up(), occ(0x22, &[0x03, 0xE8])),
        ("occ: throttle packet, 195 data bytes", brought_up(), occ(0x21, &throttle_sets())),
        ("sbe: mask", brought_up(), mask()),
        ("sbe_seeprom: 2,048 bytes", brought_up(), seeprom_read()),
        ("time", brought_up(), Call::Time(1)),
        ("undo", capped, Call::Undo),
        ("redo", undone, Call::Redo),
        ("plan: a bring-up of five, turned round", Session::fresh(), Call::Plan(bring_up_packets())),
        (
            "plan_ok: the same, proposed",
            Session::fresh(),
            Call::PlanOk(bring_up_packets(), vec![5, 3, 4, 2, 1]),
        ),
        ("save", full.clone(), Call::Save),
        ("restore", full.clone(), Call::Restore(save::write_new(&full))),
        ("move_up", full.clone(), Call::MoveUp(save::write_base(&full))),
        ("move_down", full.clone(), Call::MoveDown(save::write_new(&full))),
        ("forget: 500 of 1,000 entries", full.clone(), Call::Forget(500)),
        ("watch: over 1,000 entries", full, Call::Watch),
    ] {
        let used = |make: fn(&mut [u8], &Call, &mut [u8]) -> u32| {
            let (mut image, mut reply) = (image::write(&start), [0; ROOM]);
            assert_eq!(make(&mut image.clone(), &call, &mut reply) & 0xFF, 0, "{name}: refused");
            stack::used_by(|| {
                black_box(make(black_box(&mut image), black_box(&call), black_box(&mut reply)));
            })
        };
        println!("| {name} | {} | {} |", used(proved), used(on_image));
    }
}

fn main() {
    let arguments: Vec<String> = std::env::args().skip(1).collect();
    match arguments.iter().map(String::as_str).collect::<Vec<_>>().as_slice() {
        [] => times(),
        ["--stack"] => stacks(),
        _ => {
            eprintln!("usage: speed [--stack]");
            std::process::exit(2);
        }
    }
}
