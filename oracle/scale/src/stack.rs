//! Stack for calls of the archive, whose buffers lie there; and how deep a call goes: the stack below it is painted before, and looked through
//! after.

use std::thread;

/// What a thread that calls the archive has. Those that Rust starts by itself have 2 MB.
pub const STACK: usize = 16 << 20;
/// What of it is painted, and what is left out next to the painting function's own frame.
const PAINTED: usize = 12 << 20;
const OWN_FRAME: usize = 4096;
const PAINT: u8 = 0xC3;

/// The call on a thread that has so much.
pub fn with_stack<T: Send>(call: impl FnOnce() -> T + Send) -> T {
    thread::scope(|scope| {
        thread::Builder::new()
            .stack_size(STACK)
            .spawn_scoped(scope, call)
            .expect("a thread can be started")
            .join()
            .expect("the call ends")
    })
}

/// The bytes of stack that the call takes, rounded up to the part that is not painted.
pub fn stack_of(call: impl FnOnce() + Send) -> usize {
    with_stack(|| depth_of(call))
}

#[inline(never)]
fn depth_of(call: impl FnOnce()) -> usize {
    let here = 0u8;
    let top = &raw const here as usize - OWN_FRAME;
    let painted = top - PAINTED..top;

    for place in painted.clone() {
        // SAFETY: the place is in this thread's stack, which is longer than what is painted, and below every frame in use.
        unsafe { (place as *mut u8).write_volatile(PAINT) };
    }

    call();

    let untouched = painted
        // SAFETY: as above.
        .take_while(|place| unsafe { (*place as *const u8).read_volatile() } == PAINT)
        .count();
    PAINTED - untouched + OWN_FRAME
}
