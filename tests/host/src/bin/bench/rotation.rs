//! A dozen unrelated replicas by turns, so that no branch is learned and no area stays in the first cache.

use crate::clock::{scan, timed, Least};
use crate::stages::Stage;
use crate::turns::take;
use jobstore_tests::calls::Calls;
use jobstore_tests::library::Library;
use jobstore_tests::workload::{Plan, Turn};
use std::hint::black_box;

const REPLICAS: u64 = 12;
const TURNS: usize = 8;

/// The order of the figures; the last is the scan.
const CALLS: [&str; 7] = ["read", "find", "early", "work", "final", "dry", "close"];
const SCAN: usize = CALLS.len();

pub struct Rotation {
    stage: Stage,
    replicas: Vec<(Library, Plan)>,
    times: Least,
}

impl Rotation {
    pub fn new(stage: Stage) -> Rotation {
        let replica = |seed| {
            let plan = stage.plan(seed, TURNS);
            let mut replica = Library::new();
            stage.begin(&mut replica, &plan);
            (replica, plan)
        };
        Rotation { stage, replicas: (1..=REPLICAS).map(replica).collect(), times: Least::default() }
    }

    pub fn pass(&mut self) {
        let mut stores: Vec<Library> = self.replicas.iter().map(|(replica, _)| replica.clone()).collect();
        let times = (0..TURNS).flat_map(|turn| self.round(&mut stores, turn));
        self.times.take(times.collect());
    }

    /// One turn of each replica, and then the other calls, each on all replicas before the next.
    fn round(&self, stores: &mut [Library], turn: usize) -> Vec<f64> {
        let turns: Vec<&Turn> =
            self.replicas.iter().map(|(_, plan)| &plan.turns[plan.turns.len() - TURNS + turn]).collect();
        let taken: Vec<_> = stores.iter_mut().zip(&turns).map(|(store, turn)| take(store, turn).0).collect();
        let newest = self.stage.newest();
        let mut open = stores.to_vec();
        open.iter_mut().for_each(|store| assert!([0, 11].contains(&store.open_reader(newest))));
        let key = |index: usize| turns[index].delivered;
        let read = by_turns(&mut open, |_, store| store.read(newest, 16 * turn as u32).number);
        let found = by_turns(&mut open, |index, store| store.find(key(index).client, key(index).sequence).number);
        let tried = by_turns(&mut open, |index, store| store.dry_run(key(index).client, key(index).sequence).number);
        let scanned = by_turns(&mut open, |_, store| u32::from(black_box(scan(store)) == 0));
        let closed = by_turns(&mut open, |_, store| store.close_reader(self.stage.closed()[turn % 3]));
        let figures = |index: usize| {
            let [early, work, last] = taken[index];
            [read[index], found[index], early, work, last, tried[index], closed[index], scanned[index]]
        };
        (0..stores.len()).flat_map(figures).collect()
    }

    fn time(&self, call: usize) -> f64 {
        self.times.mean(CALLS.len() + 1, call)
    }

    fn print(&self, unit: f64) {
        let name = self.stage.name(&self.replicas[0].0);
        for (name, scan) in [(&*name, unit), ("  in scans in rotation", self.time(SCAN))] {
            print!("{name:<38}");
            (0..CALLS.len()).for_each(|call| print!(" {:>6.2}", self.time(call) / scan));
            println!();
        }
    }
}

/// The time of one call on each of the replicas; it answers 0.
fn by_turns(stores: &mut [Library], call: impl Fn(usize, &mut Library) -> u32) -> Vec<f64> {
    let once = |(index, store)| {
        let (time, number) = timed(|| call(index, store));
        assert_eq!(number, 0);
        time
    };
    stores.iter_mut().enumerate().map(once).collect()
}

pub fn print(rotations: &[Rotation], scan: f64) {
    println!("A dozen replicas by turns; a scan among them takes {:.0} ns", rotations[0].time(SCAN));
    print!("{:<38}", "");
    CALLS.iter().for_each(|call| print!(" {call:>6}"));
    println!();
    rotations.iter().for_each(|rotation| rotation.print(scan));
}
