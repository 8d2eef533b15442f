//! Turns of a plan: a final delivery, an early delivery and work, each timed.

use crate::clock::timed;
use jobstore::raw::Committed;
use jobstore_tests::calls::{Calls, Opening};
use jobstore_tests::limits::LARGEST_BUDGET;
use jobstore_tests::workload::{Plan, Turn, OBJECTS, START};

/// The calls of a turn, in the order of their times.
pub const CALLS: usize = 3;
pub const EARLY: usize = 0;
pub const WORK: usize = 1;
pub const FINAL: usize = 2;

/// The times of a turn's calls, and the answer of its final delivery. Work leaves everything finished.
pub fn take(store: &mut impl Calls, turn: &Turn) -> ([f64; CALLS], Committed) {
    let (last, committed) = timed(|| store.deliver_final(turn.committed.client, turn.committed.sequence));
    let (early, delivered) = timed(|| store.early(turn.delivered.client, turn.delivered.sequence, &turn.body));
    let (work, executed) = timed(|| store.work(LARGEST_BUDGET));
    assert_eq!((committed.number, committed.outcome, delivered, executed.number), (0, 0, 0, 0));
    ([early, work, last], committed)
}

pub fn open(store: &mut impl Calls, opening: &Opening) {
    assert_eq!(store.open(opening), 0);
}

/// The plan's first transactions pending and finished, and this many readers open, with turns `between` their openings
/// and `behind` the last. Yields how many turns were taken.
pub fn begin(store: &mut impl Calls, plan: &Plan, readers: u32, between: usize, behind: usize) -> usize {
    open(store, &plan.opening);
    for (key, body) in &plan.first {
        assert_eq!(store.early(key.client, key.sequence, body), 0);
    }
    store.work(LARGEST_BUDGET);
    let mut turns = plan.turns.iter();
    for reader in 0..readers {
        for turn in turns.by_ref().take(between) {
            take(store, turn);
        }
        assert_eq!(store.open_reader(reader), 0);
    }
    for turn in turns.by_ref().take(behind) {
        take(store, turn);
    }
    plan.turns.len() - turns.len()
}

/// No transfer changes the sum of all objects.
pub fn check_sum(mut store: impl Calls) {
    store.close_reader(0);
    assert_eq!(store.open_reader(0), 0);
    let sum: i64 = (0..OBJECTS as u32).map(|object| store.read(0, object).value).sum();
    assert_eq!(sum, START * OBJECTS as i64);
}
