//! Replicas in the midst of their work, and every call on each of them.

use crate::clock::{batched, timed, Least};
use crate::turns::{self, begin, take};
use jobstore::Key;
use jobstore_tests::calls::Calls;
use jobstore_tests::library::Library;
use jobstore_tests::limits::{LARGEST_BUDGET, STANDARD};
use jobstore_tests::workload::{plan, Plan, Workload, OBJECTS};

/// Turns behind the last reader's opening: by then nearly every object has been stored since.
const BEHIND: usize = 300;

#[derive(Clone, Copy)]
pub struct Stage {
    pub pending: usize,
    pub readers: u32,
    /// Transactions between the openings of two readers: the more, the more versions an object has.
    pub between: usize,
    /// Objects have bounds, which nothing reaches; else the widest.
    pub bounded: bool,
}

impl Stage {
    /// A plan that leads there and has these turns left.
    pub fn plan(&self, seed: u64, turns: usize) -> Plan {
        let transactions = self.readers as usize * self.between + BEHIND + turns;
        plan(Workload { seed, pending: self.pending, transactions, hot: 0, late: 0, bounded: self.bounded })
    }

    /// Yields how many of the plan's turns it took to get there.
    pub fn begin(&self, store: &mut impl Calls, plan: &Plan) -> usize {
        begin(store, plan, self.readers, self.between, BEHIND)
    }

    pub fn name(&self, areas: &Library) -> String {
        match self.readers {
            0 => format!("{} pending, no reader", self.pending),
            1 => format!("{} pending, 1 reader, {:.1} versions", self.pending, versions(areas)),
            open => format!("{} pending, {open} readers, {:.1} versions", self.pending, versions(areas)),
        }
    }

    /// The oldest reader, a middle one and the newest; where none is open, the one that is opened to be closed.
    pub fn closed(&self) -> [u32; 3] {
        [0, self.readers / 2, self.newest()]
    }

    pub fn newest(&self) -> u32 {
        self.readers.saturating_sub(1)
    }
}

/// Versions an object, on average.
fn versions(areas: &Library) -> f64 {
    let count = |object| f64::from(areas.record[8 * STANDARD.object(object)]);
    (0..OBJECTS).map(count).sum::<f64>() / OBJECTS as f64
}

/// What is measured of a stage: single calls where it begins, then the calls of its turns.
pub const CALLS: [&str; 13] = [
    "read",
    "find",
    "show body",
    "dry run",
    "work, nothing left",
    "open",
    "open reader",
    "close, the oldest",
    "close, a middle one",
    "close, the newest",
    "early delivery",
    "work",
    "final delivery",
];
pub const READ: usize = 0;
pub const FIND: usize = 1;
pub const DRY_RUN: usize = 3;
pub const CLOSES: [usize; 3] = [7, 8, 9];
pub const EARLY: usize = 10;
pub const WORK: usize = 11;
pub const FINAL: usize = 12;

/// One implementation at a stage.
pub struct Measured<C> {
    pub stage: Stage,
    pub start: C,
    plan: Plan,
    /// Turns that led to the start.
    taken: usize,
    singles: Least,
    turns: Least,
}

impl<C: Calls + Clone> Measured<C> {
    pub fn new(stage: Stage, mut start: C) -> Measured<C> {
        let plan = stage.plan(1, 100);
        let taken = stage.begin(&mut start, &plan);
        Measured { stage, start, plan, taken, singles: Least::default(), turns: Least::default() }
    }

    pub fn pass(&mut self) {
        let mut store = self.start.clone();
        let times = self.plan.turns[self.taken..].iter().flat_map(|turn| take(&mut store, turn).0);
        self.turns.take(times.collect());
        self.singles.take(self.single_calls());
    }

    /// The time of each call, in the order of their names.
    pub fn figures(&self) -> Vec<f64> {
        let turn = [turns::EARLY, turns::WORK, turns::FINAL].map(|call| self.turns.mean(turns::CALLS, call));
        [&self.singles.figures[..], &turn].concat()
    }

    /// A pending key: those of the last turns are pending.
    fn key(&self, index: usize) -> Key {
        self.plan.turns[self.taken - 1 - index % self.stage.pending].delivered
    }

    fn single_calls(&self) -> Vec<f64> {
        let start = &self.start;
        let newest = self.stage.newest();
        let mut open = start.clone();
        open.open_reader(newest);
        let mut without = open.clone();
        without.close_reader(newest);
        let mut copy = start.clone();
        let mut times = vec![
            batched(|index| open.read(newest, 8 * index as u32)),
            batched(|index| start.find(self.key(index).client, self.key(index).sequence)),
            batched(|index| start.show_body(self.key(index).client, self.key(index).sequence).len()),
            batched(|index| start.dry_run(self.key(index).client, self.key(index).sequence)),
            batched(|_| copy.work(LARGEST_BUDGET)),
            batched(|_| turns::open(&mut copy, &self.plan.opening)),
            each_time_on(&without, |store| store.open_reader(newest)),
        ];
        times.extend(self.stage.closed().map(|reader| each_time_on(&open, |store| store.close_reader(reader))));
        times
    }
}

/// A call that changes the store, each time on the same bytes.
fn each_time_on<C: Calls + Clone>(store: &C, call: impl Fn(&mut C) -> u32) -> f64 {
    let once = |_| {
        let mut copy = store.clone();
        let (time, number) = timed(|| call(&mut copy));
        assert_eq!(number, 0);
        time
    };
    (0..16).map(once).fold(f64::MAX, f64::min)
}
