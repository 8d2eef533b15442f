//! Lists of transactions: how many a second, how many keep their early results, and how many operations the others cost
//! once more.

use crate::clock::Least;
use crate::turns::{begin, check_sum, take, CALLS, EARLY, FINAL, WORK};
use jobstore::raw::Committed;
use jobstore_tests::calls::Calls;
use jobstore_tests::independent::Independent;
use jobstore_tests::library::Library;
use jobstore_tests::limits::STANDARD;
use jobstore_tests::workload::{plan, Plan, Workload};

const PENDING: usize = 8;
const READERS: u32 = 7;
const BETWEEN: usize = 32;
const TURNS: usize = 500;

/// One implementation's way through a plan.
struct Run<C> {
    start: C,
    times: Least,
    committed: Vec<Committed>,
}

impl<C: Calls + Clone> Run<C> {
    /// From where the last `TURNS` turns of the plan are left.
    fn new(mut store: C, plan: &Plan, readers: u32) -> Run<C> {
        let behind = plan.turns.len() - TURNS - readers as usize * BETWEEN;
        begin(&mut store, plan, readers, BETWEEN, behind);
        Run { start: store, times: Least::default(), committed: Vec::new() }
    }

    fn pass(&mut self, plan: &Plan) {
        let mut store = self.start.clone();
        let turns = plan.turns[plan.turns.len() - TURNS..].iter().map(|turn| take(&mut store, turn));
        let (times, committed): (Vec<_>, Vec<_>) = turns.unzip();
        self.times.take(times.concat());
        self.committed = committed;
        check_sum(store);
    }

    fn time(&self, call: usize) -> f64 {
        self.times.mean(CALLS, call)
    }

    fn transaction(&self) -> f64 {
        self.time(EARLY) + self.time(WORK) + self.time(FINAL)
    }
}

/// The library and the independent implementation on one list.
pub struct List {
    hot: usize,
    late: usize,
    readers: u32,
    plan: Plan,
    library: Run<Library>,
    independent: Run<Independent>,
}

/// Few and many late ones, no reader and seven, objects all alike and some hot.
pub fn lists() -> Vec<List> {
    let mut lists = Vec::new();
    for hot in [0, 90] {
        for readers in [0, READERS] {
            lists.extend([0, 5, 50].map(|late| List::new(hot, late, readers)));
        }
    }
    lists
}

impl List {
    fn new(hot: usize, late: usize, readers: u32) -> List {
        let transactions = readers as usize * BETWEEN + 300 + TURNS;
        let plan = plan(Workload { seed: 1, pending: PENDING, transactions, hot, late, bounded: false });
        let library = Run::new(Library::new(), &plan, readers);
        let independent = Run::new(Independent::new(STANDARD), &plan, readers);
        List { hot, late, readers, plan, library, independent }
    }

    pub fn pass(&mut self) {
        self.library.pass(&self.plan);
        self.independent.pass(&self.plan);
        assert_eq!(self.library.committed, self.independent.committed);
    }

    fn print(&self, scan: f64) {
        let kept = self.library.committed.iter().filter(|committed| committed.kept == 1).count();
        let again: u32 = self.library.committed.iter().map(|committed| committed.operations).sum();
        let call = |call| self.library.time(call) / scan;
        let a_second = |time: f64| format!("{:>9.0} {:>6.2}", 1e9 / time, time / scan);
        println!(
            "{:<10} {:>3} % {:>7} {:>4.0} % {:>6.2} {:>7.2} {:>6.2} {:>6.2} {} {}",
            if self.hot > 0 { "few hot" } else { "all alike" },
            self.late,
            self.readers,
            kept as f64 * 100.0 / TURNS as f64,
            f64::from(again) / TURNS as f64,
            call(EARLY),
            call(WORK),
            call(FINAL),
            a_second(self.library.transaction()),
            a_second(self.independent.transaction()),
        );
    }
}

pub fn print(lists: &[List], scan: f64) {
    println!("Transactions, {PENDING} pending: scans a call; transactions a second, and scans a transaction");
    println!("(again: operations that final deliveries carried out, a transaction)");
    println!(
        "{:<10} {:>5} {:>7} {:>6} {:>6} {:>7} {:>6} {:>6} {:>16} {:>16}",
        "objects", "late", "readers", "kept", "again", "early", "work", "final", "library", "independent"
    );
    lists.iter().for_each(|list| list.print(scan));
}
