//! Many books compared, by several threads.

use std::sync::atomic::{AtomicU64, Ordering};
use std::thread;
use std::time::{Duration, Instant};

use second::make::{self, Made};

use crate::compare::{compare, Counts, Difference};
use crate::program::Tried;
use crate::shrink::shrink;

/// Which books.
#[derive(Clone, Copy, Debug, PartialEq, Eq)]
pub struct Plan {
    pub count: u64,
    pub seed: u64,
    /// The first index.
    pub from: u64,
    pub threads: u64,
}

/// A book for which something differs.
pub struct Found {
    pub index: u64,
    pub made: Made,
    pub difference: Difference,
}

/// What a run came to.
pub struct Outcome {
    pub counts: Counts,
    /// The one of the lowest index, however many threads there are.
    pub first: Option<Found>,
    pub time: Duration,
}

/// Makes the calls that one thread tries.
pub type Start<'a> = &'a (dyn Fn() -> Tried + Sync);

/// What the threads tell one another.
struct Shared {
    done: AtomicU64,
    /// No book of a later index is compared any more.
    stop: AtomicU64,
}

/// Compares all books of the plan, or those up to the first difference. `tell` hears now and then how many
/// books are done.
pub fn run(plan: Plan, start: Start, tell: &mut dyn FnMut(u64)) -> Outcome {
    let began = Instant::now();
    let shared = Shared {
        done: AtomicU64::new(0),
        stop: AtomicU64::new(u64::MAX),
    };
    let worked = thread::scope(|scope| {
        let shared = &shared;
        let workers: Vec<_> = (0..plan.threads)
            .map(|nth| scope.spawn(move || work(plan, nth, start, shared)))
            .collect();
        while !workers.iter().all(|worker| worker.is_finished()) {
            thread::sleep(Duration::from_millis(20));
            tell(shared.done.load(Ordering::Relaxed));
        }
        let ends = workers.into_iter().map(|worker| worker.join());
        ends.collect::<Result<Vec<_>, _>>()
    });
    let (counts, first) = summed(worked.expect("no thread of the harness panics"));
    Outcome {
        counts,
        first,
        time: began.elapsed(),
    }
}

fn summed(worked: Vec<(Counts, Option<Found>)>) -> (Counts, Option<Found>) {
    let mut counts = Counts::default();
    let mut all = Vec::new();
    for (seen, found) in worked {
        counts.add(&seen);
        all.extend(found);
    }
    (counts, all.into_iter().min_by_key(|found| found.index))
}

/// One thread's books: every so many-th, up to its own or another's first difference.
fn work(plan: Plan, nth: u64, start: Start, shared: &Shared) -> (Counts, Option<Found>) {
    let mut tried = start();
    let mut counts = Counts::default();
    let indexes = (nth..plan.count).step_by(plan.threads as usize);
    for index in indexes.map(|at| plan.from.wrapping_add(at)) {
        if index > shared.stop.load(Ordering::Relaxed) {
            break;
        }
        let made = make::book(plan.seed, index);
        let compared = compare(
            &mut tried,
            &made.bytes,
            variety(plan.seed, index),
            &mut counts,
        );
        shared.done.fetch_add(1, Ordering::Relaxed);
        if let Err(difference) = compared {
            shared.stop.fetch_min(index, Ordering::Relaxed);
            let found = Found {
                index,
                made,
                difference,
            };
            return (counts, Some(found));
        }
    }
    (counts, None)
}

/// Another for each book; a run of numbers from it fills the book's buffers.
fn variety(seed: u64, index: u64) -> u64 {
    seed.wrapping_mul(0x9e37_79b9_7f4a_7c15)
        .wrapping_add(index.wrapping_mul(8))
}

/// How many fillings and rearrangements a smaller book is tried with: the one that showed the difference in the
/// whole book need not show it in a part.
const VARIETIES: u64 = 6;

/// A small book with a difference of the same check, and that difference.
pub fn shrunk(found: &Found, tried: &mut Tried) -> (Vec<u8>, Difference) {
    let mut last = found.difference.clone();
    let small = shrink(&found.made.bytes, &mut |bytes| {
        let shown = (0..VARIETIES).find_map(|variety| {
            let other = compare(tried, bytes, variety, &mut Counts::default()).err()?;
            (other.check == found.difference.check).then_some(other)
        });
        shown.map(|other| last = other).is_some()
    });
    (small, last)
}
