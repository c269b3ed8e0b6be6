//! The stack that a call uses: the part below the caller's frame is painted, and the deepest byte that the call altered is
//! looked for. A byte that a frame holds and nobody writes is not seen, so this is the stack touched.

use std::hint::black_box;
use std::thread;

use crate::programs::{Program, ROOM};
use crate::timing::Timed;

const STACK: usize = 4 << 20;
/// How deep is painted.
const DEPTH: usize = 1 << 20;
/// The part next to the frame is not painted, since the painter's own frame is there. A call that uses less is not measured.
const GAP: usize = 512;
const PAINT: u8 = 0xa5;

/// The bytes of stack that one call of a program touches.
pub fn used_by(program: Program, book: &[u8]) -> usize {
    let mut report = [0; ROOM];
    used(|| {
        black_box(program.call(black_box(book), black_box(&mut report)));
    })
}

/// The bytes of stack below this frame that a call touches, in a thread whose stack is large enough to be painted.
fn used(call: impl FnMut() + Send) -> usize {
    thread::scope(|scope| {
        let thread = thread::Builder::new().stack_size(STACK);
        let run = thread.spawn_scoped(scope, || painted(call));
        run.expect("a thread can be had").join()
    })
    .expect("the call returns")
}

#[inline(never)]
fn painted(mut call: impl FnMut()) -> usize {
    let frame = black_box(0_u8);
    let top = &raw const frame as usize;
    // The first call binds what is bound late.
    call();
    paint(top);
    call();
    top - deepest(top)
}

#[inline(never)]
fn paint(top: usize) {
    for place in top - DEPTH..top - GAP {
        // SAFETY: this thread's stack reaches further down, and below the painter's frame it is free.
        unsafe { (place as *mut u8).write_volatile(PAINT) }
    }
}

/// The lowest place that has lost its paint.
#[inline(never)]
fn deepest(top: usize) -> usize {
    let mut place = top - DEPTH;
    // SAFETY: these places were painted.
    while place < top - GAP && unsafe { (place as *const u8).read_volatile() } == PAINT {
        place += 1;
    }
    place
}

/// Whether the method finds what is known: an array of so many bytes, all written, and a few bytes of frame.
pub fn finds_what_is_known() -> bool {
    let found = [
        used(fill::<4_096>),
        used(fill::<49_152>),
        used(fill::<200_000>),
    ];
    let known = [4_096, 49_152, 200_000];
    let near = |(found, known): (&usize, &usize)| (*known..known + GAP).contains(found);
    found.iter().zip(&known).all(near)
}

#[inline(never)]
fn fill<const BYTES: usize>() {
    let mut bytes = [0_u8; BYTES];
    for byte in &mut bytes {
        // SAFETY: a byte of the array.
        unsafe { (byte as *mut u8).write_volatile(1) }
    }
    black_box(&bytes);
}
