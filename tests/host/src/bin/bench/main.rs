//! The cost of each call of the proved library, as a ratio to a bare scan of both areas in the same run, beside the
//! independent implementation on the same calls.

mod clock;
mod growth;
mod lists;
mod rotation;
mod stages;
mod turns;

use clock::{batched, own_time, scan, wide_scan};
use growth::Growth;
use jobstore_tests::independent::Independent;
use jobstore_tests::library::Library;
use jobstore_tests::limits::STANDARD;
use jobstore_tests::workload::{LOWER, UPPER};
use rotation::Rotation;
use stages::{Measured, Stage, CALLS, CLOSES, DRY_RUN, EARLY, FINAL, FIND, READ, WORK};

const PASSES: usize = 60;

/// What read and find, early delivery, work, final delivery and dry run, and close are to cost, in scans.
type Aims = Option<[f64; 5]>;

const STAGES: [(Stage, Aims); 6] = [
    (Stage { pending: 8, readers: 0, between: 0, bounded: false }, Some([1.25, 1.3, 1.5, 1.6, 1.35])),
    (Stage { pending: 8, readers: 7, between: 9, bounded: false }, None),
    (Stage { pending: 8, readers: 7, between: 31, bounded: false }, Some([2.3, 2.5, 2.7, 2.9, 2.7])),
    (Stage { pending: 8, readers: 7, between: 1200, bounded: false }, Some([1.9, 2.1, 2.4, 2.6, 2.6])),
    (Stage { pending: 31, readers: 0, between: 0, bounded: false }, Some([2.2, 2.3, 2.8, 3.1, 2.3])),
    (Stage { pending: 31, readers: 7, between: 31, bounded: false }, None),
];

/// Both implementations at one stage.
struct Pair {
    aims: Aims,
    library: Measured<Library>,
    independent: Measured<Independent>,
}

impl Pair {
    fn new((stage, aims): (Stage, Aims)) -> Pair {
        let library = Measured::new(stage, Library::new());
        let independent = Measured::new(stage, Independent::new(STANDARD));
        Pair { aims, library, independent }
    }

    /// The stage once more, with bounds that nothing reaches.
    fn with_bounds((stage, aims): (Stage, Aims)) -> Pair {
        Pair::new((Stage { bounded: true, ..stage }, aims))
    }

    fn pass(&mut self) {
        self.library.pass();
        self.independent.pass();
    }

    fn name(&self) -> String {
        self.library.stage.name(&self.library.start)
    }
}

/// Of the three closes the dearest.
fn print_aims(title: &str, pairs: &[Pair], scan: f64) {
    println!("{title}");
    print!("{:<38}", "");
    ["read", "find", "early", "work", "final", "dry", "close"].iter().for_each(|call| print!(" {call:>6}"));
    println!();
    let line = |name: &str, figures: &[f64]| {
        print!("{name:<38}");
        figures.iter().for_each(|figure| print!(" {figure:>6.2}"));
        println!();
    };
    let scans = |figures: Vec<f64>| {
        let close = CLOSES.iter().map(|&call| figures[call]).fold(0.0, f64::max);
        let [read, find, early, work, last, dry] = [READ, FIND, EARLY, WORK, FINAL, DRY_RUN].map(|call| figures[call]);
        [read, find, early, work, last, dry, close].map(|time| time / scan)
    };
    for pair in pairs {
        line(&pair.name(), &scans(pair.library.figures()));
        if let Some([look, early, work, last, close]) = pair.aims {
            line("  aim", &[look, look, early, work, last, last, close]);
        }
        line("  independent implementation", &scans(pair.independent.figures()));
    }
}

/// Every call at every stage.
fn print_calls(pairs: &[Pair], scan: f64) {
    println!("Every call, nanoseconds and scans, at the same stages:");
    pairs.iter().enumerate().for_each(|(stage, pair)| println!("  {}  {}", stage + 1, pair.name()));
    print!("{:<20}", "");
    (1..=pairs.len()).for_each(|stage| print!("  {stage:>11}"));
    println!();
    let figures: Vec<Vec<f64>> = pairs.iter().map(|pair| pair.library.figures()).collect();
    for (call, name) in CALLS.iter().enumerate() {
        print!("{name:<20}");
        figures.iter().for_each(|figures| print!("  {:>5.0} {:>5.2}", figures[call], figures[call] / scan));
        println!();
    }
    println!("{:.0} reads a second, one object each, no other reader open", 1e9 / figures[0][READ]);
}

fn machine() -> String {
    let text = std::fs::read_to_string("/proc/cpuinfo").unwrap_or_default();
    let line = text.lines().find(|line| line.starts_with("model name")).unwrap_or_default();
    line.split(": ").nth(1).unwrap_or("unknown processor").to_string()
}

fn main() {
    let areas = Library::new();
    let mut pairs = STAGES.map(Pair::new);
    let mut bounded = STAGES.map(Pair::with_bounds);
    let mut lists = lists::lists();
    let mut growth = Growth::new();
    let mut rotations = [STAGES[0].0, STAGES[2].0, STAGES[3].0].map(Rotation::new);
    let (mut scanned, mut wide) = (f64::MAX, f64::MAX);
    for _ in 0..PASSES {
        pairs.iter_mut().chain(&mut bounded).for_each(Pair::pass);
        rotations.iter_mut().for_each(Rotation::pass);
        growth.pass();
        lists.iter_mut().for_each(lists::List::pass);
        scanned = scanned.min(batched(|_| scan(&areas)));
        wide = wide.min(batched(|_| wide_scan(&areas)));
    }
    println!("{}; of each call the least time of {PASSES} passes, less {:.0} ns of the clock", machine(), own_time());
    let bytes = areas.record.len() + areas.bodies.len();
    println!("bare scan of both areas ({bytes} bytes): {scanned:.0} ns; of 64 bytes a turn {wide:.0} ns\n");
    print_aims("Scans a call, 128 objects (close: the dearest of the three below)", &pairs, scanned);
    println!();
    print_aims(&format!("The same with bounds {LOWER} and {UPPER}, which nothing reaches"), &bounded, scanned);
    println!();
    print_calls(&pairs, scanned);
    println!();
    rotation::print(&rotations, scanned);
    println!();
    lists::print(&lists, scanned);
    println!();
    growth.print(scanned);
    println!("\nHiperTM, standalone, on its machine: about 95,000 write and 250,000 read-only transactions a second.");
}
