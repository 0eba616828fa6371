//! How deep the stack gets in a call: it is painted before the call, and the deepest place that has
//! lost its paint afterwards is where the call got to.

use std::ptr;
use std::thread::{self, Builder};

/// Of the thread that makes the call; mapped whole from the start, unlike the main thread's.
const STACK: usize = 16 << 20;

/// How far down the paint goes, so the greatest depth that can be told.
const PAINTED: usize = 4 << 20;

/// Left unpainted, for what the painting frame itself has and calls below its mark.
const MARGIN: usize = 1 << 10;

/// Unlikely to be written by a call: neither an address nor a small number.
const PAINT: u64 = 0x5aa5_c33c_9669_0ff0;

/// The painted words below the mark, the deepest first.
fn places(mark: usize) -> impl Iterator<Item = *mut u64> {
    let step = size_of_val(&PAINT);
    (mark - PAINTED..mark - MARGIN).step_by(step).map(ptr::without_provenance_mut)
}

/// Paints the stack below this frame, and gives the frame's address. Not inlined, as only its own
/// frame is known to be small enough for the margin.
#[inline(never)]
fn paint() -> usize {
    let local = 0_u64;
    let mark = ptr::from_ref(&local).addr();
    for place in places(mark) {
        // SAFETY: the place is aligned as `local` is, within the stack of `depth`'s thread, and
        // below every frame: in no allocation, where a volatile write needs no provenance.
        unsafe { place.write_volatile(PAINT) };
    }
    mark
}

/// Keeps the call's frame below the mark, where inlining would lift it above.
#[inline(never)]
fn run(call: impl FnOnce()) {
    call();
}

fn depth_here(call: impl FnOnce()) -> usize {
    let mark = paint();
    run(call);
    // SAFETY: as in `paint`, for the call's frames have ended.
    let changed = |place: &*mut u64| unsafe { place.read_volatile() } != PAINT;
    places(mark).find(changed).map_or(MARGIN, |place| mark - place.addr())
}

/// How many octets deep the stack gets in the call, to the word; told as `MARGIN` if it is less,
/// and as `PAINTED` if it is more.
pub fn depth(call: impl FnOnce() + Send) -> usize {
    thread::scope(|scope| {
        let thread = Builder::new().stack_size(STACK).spawn_scoped(scope, || depth_here(call));
        thread.expect("a thread can start").join().expect("the call returns")
    })
}
