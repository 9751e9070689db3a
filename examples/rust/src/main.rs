//! A master OCC brought up and capped; changes taken back, one step too far, and one put in again; a cap that is too high; the oldest changes forgotten; the
//! SBE's timer; a part of its SEEPROM read; a session that can only be watched; a plan for a bring-up; a session saved, moved to the base version's form and back,
//! and restored.

#[path = "../../../include/bjargolsk.rs"]
mod ffi;

const HTMGT: u8 = 0x10;
const BMC: u8 = 0x20;
const SLOT: usize = 4096;
const SAVED: usize = 4409;
const BASE_SAVED: usize = 2280;

/// A session's image, and the buffer for replies.
struct Bench {
    session: [u8; ffi::BJARGOLSK_SESSION],
    reply: [u8; 4096],
    sequence: u8,
}

// SAFETY of the calls below: each buffer is borrowed whole, by its pointer and its own length, and no two are the same.
impl Bench {
    fn fresh() -> Self {
        let mut bench = Bench {
            session: [0; ffi::BJARGOLSK_SESSION],
            reply: [0; 4096],
            sequence: 0,
        };
        bench.begin();
        bench
    }

    fn begin(&mut self) {
        let result = unsafe { ffi::bjargolsk_fresh(self.session.as_mut_ptr(), self.session.len()) };
        println!("fresh: answer {result}");
    }

    fn shown(&self, answer: u32, length: usize) -> String {
        let length = if answer == 0 { length } else { 0 };
        self.reply[..length]
            .iter()
            .map(|b| format!(" {b:02X}"))
            .collect()
    }

    /// A packet is sequence, type, two bytes of data length, data, and the two-byte sum of all that.
    fn framed(&mut self, kind: u8, data: &[u8]) -> Vec<u8> {
        self.sequence += 1;
        let mut packet = vec![self.sequence, kind];
        packet.extend_from_slice(&(data.len() as u16).to_be_bytes());
        packet.extend_from_slice(data);
        let sum = packet
            .iter()
            .fold(0u16, |sum, &b| sum.wrapping_add(b.into()));
        packet.extend_from_slice(&sum.to_be_bytes());
        packet
    }

    fn occ(&mut self, name: &str, sender: u8, kind: u8, data: &[u8]) {
        let packet = self.framed(kind, data);
        self.sent(name, sender, &packet);
    }

    fn sent(&mut self, name: &str, sender: u8, packet: &[u8]) {
        let result = unsafe {
            ffi::bjargolsk_occ(
                self.session.as_mut_ptr(),
                self.session.len(),
                sender,
                packet.as_ptr(),
                packet.len(),
                self.reply.as_mut_ptr(),
                self.reply.len(),
            )
        };
        let (answer, reason, place) = (result & 0xFF, result >> 8 & 0xFF, result >> 16);
        let wrong = match reason {
            0 => String::new(),
            _ => format!(" reason {reason} byte {place}"),
        };
        let length = 7 + usize::from(u16::from_be_bytes([self.reply[3], self.reply[4]]));
        println!(
            "{name}: answer {answer}{wrong}{}",
            self.shown(answer, length)
        );
    }

    fn sbe(&mut self, name: &str, request: &[u8]) {
        let result = unsafe {
            ffi::bjargolsk_sbe(
                self.session.as_mut_ptr(),
                self.session.len(),
                request.as_ptr(),
                request.len(),
                self.reply.as_mut_ptr(),
                self.reply.len(),
            )
        };
        let (answer, bell) = (result & 0xFF, result >> 16);
        println!(
            "{name}: answer {answer} bell {bell:04X}{}",
            self.shown(answer, 32)
        );
    }

    /// The call lends an image of the SEEPROM, and a buffer for what the request reads of it.
    fn seeprom(&mut self, request: &[u8], image: &[u8]) {
        let mut data = [0u8; 8];
        let result = unsafe {
            ffi::bjargolsk_sbe_seeprom(
                self.session.as_mut_ptr(),
                self.session.len(),
                request.as_ptr(),
                request.len(),
                self.reply.as_mut_ptr(),
                self.reply.len(),
                image.as_ptr(),
                image.len(),
                data.as_mut_ptr(),
                data.len(),
            )
        };
        let (answer, bell) = (result & 0xFF, result >> 16);
        println!(
            "seeprom: answer {answer} bell {bell:04X}{}",
            self.shown(answer, 32)
        );
        let data: String = data.iter().map(|b| format!(" {b:02X}")).collect();
        println!("data:{data}");
    }

    fn time(&mut self, microseconds: u64) {
        let (session, length) = (self.session.as_mut_ptr(), self.session.len());
        let result = unsafe { ffi::bjargolsk_time(session, length, microseconds) };
        let (answer, bell) = (result & 0xFF, result >> 16);
        println!("time {microseconds}: answer {answer} bell {bell:04X}");
    }

    fn undo(&mut self) {
        let result = unsafe { ffi::bjargolsk_undo(self.session.as_mut_ptr(), self.session.len()) };
        let (answer, passed, kind) = (result & 0xFF, result >> 8 & 0xFF, result >> 16);
        println!("undo: answer {answer} kind {kind:02X} passed {passed}");
    }

    fn redo(&mut self) {
        let result = unsafe { ffi::bjargolsk_redo(self.session.as_mut_ptr(), self.session.len()) };
        println!("redo: answer {} kind {:02X}", result & 0xFF, result >> 16);
    }

    fn forget(&mut self, n: u32) {
        let result =
            unsafe { ffi::bjargolsk_forget(self.session.as_mut_ptr(), self.session.len(), n) };
        println!("forget: answer {}", result & 0xFF);
    }

    fn watch(&mut self) {
        let result = unsafe { ffi::bjargolsk_watch(self.session.as_mut_ptr(), self.session.len()) };
        println!("watch: answer {}", result & 0xFF);
    }

    /// Packets stand in slots; the numbers of the plan are returned, from 1.
    fn plan(&self, packets: &[u8], wanted: u8) -> Vec<u8> {
        let mut order = [0; 5];
        let result = unsafe {
            ffi::bjargolsk_plan(
                self.session.as_ptr(),
                self.session.len(),
                packets.as_ptr(),
                packets.len(),
                wanted,
                order.as_mut_ptr(),
                order.len(),
            )
        };
        let (answer, found, count) = (result & 0xFF, result >> 8 & 0xFF, result >> 16);
        let numbers = order[..count as usize].to_vec();
        let told = match (answer, found) {
            (0, 0) => " no plan",
            (0, _) => " plan",
            _ => "",
        };
        println!("plan {wanted}: answer {answer}{told}{}", listed(&numbers));
        numbers
    }

    fn check(&self, packets: &[u8], wanted: u8, proposal: &[u8]) {
        let result = unsafe {
            ffi::bjargolsk_plan_ok(
                self.session.as_ptr(),
                self.session.len(),
                packets.as_ptr(),
                packets.len(),
                wanted,
                proposal.as_ptr(),
                proposal.len(),
            )
        };
        let (answer, accepted) = (result & 0xFF, result >> 8 & 0xFF);
        let told = if accepted == 1 {
            "accepted"
        } else {
            "not accepted"
        };
        println!("proposal{}: answer {answer} {told}", listed(proposal));
    }

    fn save(&self) -> Vec<u8> {
        let mut out = vec![0; SAVED];
        let result = unsafe {
            ffi::bjargolsk_save(
                self.session.as_ptr(),
                self.session.len(),
                out.as_mut_ptr(),
                out.len(),
            )
        };
        moved("save", result, out)
    }

    fn restore(&mut self, saved: &[u8]) {
        let result = unsafe {
            ffi::bjargolsk_restore(
                self.session.as_mut_ptr(),
                self.session.len(),
                saved.as_ptr(),
                saved.len(),
            )
        };
        println!("restore: answer {}", result & 0xFF);
    }
}

fn move_up(saved: &[u8]) -> Vec<u8> {
    let mut out = vec![0; SAVED];
    let result =
        unsafe { ffi::bjargolsk_move_up(saved.as_ptr(), saved.len(), out.as_mut_ptr(), out.len()) };
    moved("move up", result, out)
}

fn move_down(saved: &[u8]) -> Vec<u8> {
    let mut out = vec![0; BASE_SAVED];
    let result = unsafe {
        ffi::bjargolsk_move_down(saved.as_ptr(), saved.len(), out.as_mut_ptr(), out.len())
    };
    moved("move down", result, out)
}

/// Of a saved session: the bytes that were written.
fn moved(name: &str, result: u32, mut out: Vec<u8>) -> Vec<u8> {
    println!("{name}: answer {} bytes {}", result & 0xFF, result >> 16);
    out.truncate((result >> 16) as usize);
    out
}

fn listed(numbers: &[u8]) -> String {
    numbers.iter().map(|number| format!(" {number}")).collect()
}

/// A request of these bytes and zeros.
fn request(front: [u8; 16]) -> [u8; 32] {
    let mut request = [0; 32];
    request[..16].copy_from_slice(&front);
    request
}

fn main() {
    let deadman = request([
        0, 0, 0x01, 0x01, 0, 7, 0xD1, 0x01, 0, 0, 0, 0, 0, 0, 0x03, 0xE8,
    ]);
    let timer = request([
        0, 0, 0x00, 0x01, 0, 8, 0xD4, 0x01, 0, 0, 0, 0, 0, 0, 0x03, 0xE8,
    ]);
    let read = request([0, 0, 0x01, 0x00, 0, 9, 0xD7, 0x03, 0, 0, 0, 8, 0, 0, 0, 8]);
    let image = [0, 1, 2, 3, 4, 5, 6, 7, 8, 9, 10, 11, 12, 13, 14, 15];

    let mut bench = Bench::fresh();
    bench.occ("poll", HTMGT, 0x00, &[0x10]);
    bench.occ("role", HTMGT, 0x21, &[0x03, 0x01]);
    bench.occ("thermal", HTMGT, 0x21, &[0x13, 0x10, 1, 0, 80, 90, 10]);
    bench.occ(
        "caps",
        HTMGT,
        0x21,
        &[0x07, 0x10, 0x01, 0xF4, 0x05, 0xDC, 0x07, 0xD0],
    );
    bench.occ(
        "throttles",
        HTMGT,
        0x21,
        &[0x12, 0x10, 1, 0, 0, 0, 1, 0, 2, 0, 3, 0, 4, 0, 5],
    );
    bench.occ("state", HTMGT, 0x20, &[0, 3, 0]);
    bench.occ("user cap", BMC, 0x22, &[0x03, 0xE8]);
    bench.occ("poll", BMC, 0x00, &[0x10]);
    bench.undo();
    bench.occ("poll", BMC, 0x00, &[0x10]);
    bench.sbe("deadman", &deadman);
    // The deadman is to go. The state went too: that was one step too far.
    bench.undo();
    bench.undo();
    bench.redo();
    bench.occ("poll", BMC, 0x00, &[0x10]);
    // Status 0x13; the result says which data byte is wrong, and why.
    bench.occ("high cap", BMC, 0x22, &[0x07, 0xD0]);
    bench.occ("stranger", 0x30, 0x00, &[0x10]);
    // Five changes are held. All but the newest are forgotten: undo takes that one back, and no more.
    bench.forget(6);
    bench.forget(4);
    bench.undo();
    bench.undo();
    // A timer of 1,000 microseconds, of which 400 pass. Undo stops it, redo gives it back with 600 left; it expires when these have passed, and rings once.
    bench.sbe("timer", &timer);
    bench.time(400);
    bench.undo();
    bench.time(600);
    bench.redo();
    bench.time(600);
    bench.time(600);
    // 8 bytes from offset 8 on.
    bench.seeprom(&read, &image);
    // A reset leaves log 1. For a training room the session is made watch-only: status 0x16 to the state, 05/20 to the deadman; the log may be cleared, and that
    // taken back. No change from before can be.
    bench.occ("reset", HTMGT, 0x25, &[0, 1]);
    bench.watch();
    bench.occ("state", HTMGT, 0x20, &[0, 3, 0]);
    bench.sbe("deadman", &deadman);
    bench.occ("clear", HTMGT, 0x12, &[1]);
    bench.undo();
    bench.undo();
    bench.occ("poll", BMC, 0x00, &[0x10]);
    // Five packets in the wrong order, for a fresh session: the plan for active, and none for observation, which no packet asks for. Another order that leads
    // there is accepted too. The plan is sent; a command's bytes past its packet are ignored. Then active is there, and the plan for it is empty.
    bench.begin();
    let mut packets = Vec::new();
    for (kind, data) in [
        (0x20, &[0, 3, 0][..]),
        (0x21, &[0x12, 0x10, 1, 0, 0, 0, 1, 0, 2, 0, 3, 0, 4, 0, 5]),
        (0x21, &[0x07, 0x10, 0x01, 0xF4, 0x05, 0xDC, 0x07, 0xD0]),
        (0x21, &[0x13, 0x10, 1, 0, 80, 90, 10]),
        (0x21, &[0x03, 0x01]),
    ] {
        let mut packet = bench.framed(kind, data);
        packet.resize(SLOT, 0);
        packets.extend(packet);
    }
    bench.plan(&packets, 2);
    let order = bench.plan(&packets, 3);
    bench.check(&packets, 3, &[5, 4, 3, 2, 1]);
    bench.check(&packets, 3, &[1, 2, 3, 4, 5]);
    for number in order {
        let slot = usize::from(number - 1) * SLOT;
        bench.sent("planned", HTMGT, &packets[slot..slot + SLOT]);
    }
    bench.plan(&packets, 3);
    bench.plan(&packets, 4);
    // Saved, and the state taken back. It could be redone, and the base version has no place for that: saved now, the session can't go down. The first save can,
    // and up again it has the same bytes; cut by a byte it won't read. Restored, the state is active again.
    let saved = bench.save();
    bench.undo();
    move_down(&bench.save());
    let base = move_down(&saved);
    let again = move_up(&base);
    println!(
        "same: bytes {}",
        if again == saved { saved.len() } else { 0 }
    );
    move_up(&base[..base.len() - 1]);
    bench.restore(&saved);
    bench.occ("poll", BMC, 0x00, &[0x10]);
}
