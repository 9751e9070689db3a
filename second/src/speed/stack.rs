//! How much stack a call uses: it is made on a thread whose stack is a buffer of ours, painted below where the call starts.

use std::ffi::{c_int, c_void};
use std::ptr::{null_mut, read_volatile, write_volatile};

const LENGTH: usize = 1 << 20;
const PAINT: u8 = 0xA5;
/// Left unpainted below the painter's own frame.
const GAP: usize = 128;

extern "C" {
    fn pthread_attr_init(attributes: *mut Attributes) -> c_int;
    fn pthread_attr_setstack(attributes: *mut Attributes, stack: *mut c_void, length: usize) -> c_int;
    fn pthread_create(
        thread: *mut usize,
        attributes: *const Attributes,
        start: extern "C" fn(*mut c_void) -> *mut c_void,
        argument: *mut c_void,
    ) -> c_int;
    fn pthread_join(thread: usize, result: *mut *mut c_void) -> c_int;
}

/// Room for glibc's pthread_attr_t, 56 or 64 bytes.
#[repr(C, align(16))]
struct Attributes([u64; 16]);

#[repr(C, align(65536))]
struct Stack([u8; LENGTH]);

struct Job<'a> {
    call: &'a mut dyn FnMut(),
    low: *mut u8,
    used: usize,
}

/// Paints from the stack's low end up to this frame, and tells where this frame is: about where the call's will be.
#[inline(never)]
unsafe fn paint(low: *mut u8) -> usize {
    let mark = 0u8;
    let here = &raw const mark as usize;
    for at in 0..here - low as usize - GAP {
        write_volatile(low.add(at), PAINT);
    }
    here
}

#[inline(never)]
unsafe fn first_unpainted(low: *const u8) -> usize {
    let mut at = low;
    while read_volatile(at) == PAINT {
        at = at.add(1);
    }
    at as usize
}

extern "C" fn run(job: *mut c_void) -> *mut c_void {
    // SAFETY: `used_by` hands its own job over and waits for the thread; the stack below `paint`'s frame holds nothing.
    unsafe {
        let job = &mut *job.cast::<Job>();
        let start = paint(job.low);
        (job.call)();
        job.used = start - first_unpainted(job.low);
    }
    null_mut()
}

/// Bytes of stack below the frame that makes the call.
pub fn used_by(mut call: impl FnMut()) -> usize {
    let mut stack = Box::<Stack>::new_uninit();
    let mut job = Job { call: &mut call, low: stack.as_mut_ptr().cast(), used: 0 };
    let (mut attributes, mut thread) = (Attributes([0; 16]), 0);
    // SAFETY: the stack, the attributes and the job outlive the thread, which is waited for.
    unsafe {
        let mut failed = pthread_attr_init(&mut attributes);
        failed |= pthread_attr_setstack(&mut attributes, job.low.cast(), LENGTH);
        failed |= pthread_create(&mut thread, &attributes, run, (&raw mut job).cast());
        assert_eq!(failed, 0, "no thread could be made");
        assert_eq!(pthread_join(thread, null_mut()), 0, "the thread can't be waited for");
    }
    job.used
}
