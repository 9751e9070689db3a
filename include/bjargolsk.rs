//! The functions of bjargolsk.h for Rust: `#[path = ".."] mod` this file, and link the archive (examples/rust/build.rs).

/// As in bjargolsk.h: goes up with every change of a function, a constant or the image's bytes.
#[allow(dead_code)]
pub const BJARGOLSK_VERSION: u32 = 7;
/// The image's length.
#[allow(dead_code)]
pub const BJARGOLSK_SESSION: usize = 4411;

extern "C" {
    pub fn bjargolsk_fresh(session: *mut u8, session_length: usize) -> u32;
    pub fn bjargolsk_occ(
        session: *mut u8,
        session_length: usize,
        sender: u8,
        command: *const u8,
        command_length: usize,
        reply: *mut u8,
        reply_length: usize,
    ) -> u32;
    pub fn bjargolsk_sbe(
        session: *mut u8,
        session_length: usize,
        request: *const u8,
        request_length: usize,
        reply: *mut u8,
        reply_length: usize,
    ) -> u32;
    pub fn bjargolsk_sbe_seeprom(
        session: *mut u8,
        session_length: usize,
        request: *const u8,
        request_length: usize,
        reply: *mut u8,
        reply_length: usize,
        seeprom: *const u8,
        seeprom_length: usize,
        data: *mut u8,
        data_length: usize,
    ) -> u32;
    pub fn bjargolsk_time(session: *mut u8, session_length: usize, microseconds: u64) -> u32;
    pub fn bjargolsk_undo(session: *mut u8, session_length: usize) -> u32;
    pub fn bjargolsk_redo(session: *mut u8, session_length: usize) -> u32;
    pub fn bjargolsk_forget(session: *mut u8, session_length: usize, n: u32) -> u32;
    pub fn bjargolsk_watch(session: *mut u8, session_length: usize) -> u32;
    pub fn bjargolsk_plan(
        session: *const u8,
        session_length: usize,
        packets: *const u8,
        packets_length: usize,
        wanted: u8,
        order: *mut u8,
        order_length: usize,
    ) -> u32;
    pub fn bjargolsk_plan_ok(
        session: *const u8,
        session_length: usize,
        packets: *const u8,
        packets_length: usize,
        wanted: u8,
        order: *const u8,
        order_length: usize,
    ) -> u32;
    pub fn bjargolsk_save(session: *const u8, session_length: usize, out: *mut u8, out_length: usize) -> u32;
    pub fn bjargolsk_restore(
        session: *mut u8,
        session_length: usize,
        saved: *const u8,
        saved_length: usize,
    ) -> u32;
    pub fn bjargolsk_move_up(saved: *const u8, saved_length: usize, out: *mut u8, out_length: usize) -> u32;
    pub fn bjargolsk_move_down(saved: *const u8, saved_length: usize, out: *mut u8, out_length: usize)
        -> u32;
    pub fn bjargolsk_part(
        first: *const u8,
        first_length: usize,
        second: *const u8,
        second_length: usize,
        text: *mut u8,
        text_length: usize,
    ) -> u32;
}
