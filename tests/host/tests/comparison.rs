//! Random lists of calls: the proved library, the independent implementation and the plain table, answers and bytes.

use jobstore::raw::{Committed, Executed, Preview, Value};
use jobstore::{Body, PREVIEW_PLACES};
use jobstore_tests::calls::{Answer, Call, Calls, Opening};
use jobstore_tests::comparison::{compare_lists, Comparison};
use jobstore_tests::independent::Independent;
use jobstore_tests::layout::{parse, print};
use jobstore_tests::library::Library;
use jobstore_tests::limits::SMALL;
use jobstore_tests::lists::Mix;
use jobstore_tests::observation::required;
use jobstore_tests::random::Random;
use jobstore_tests::serial::Serial;
use jobstore_tests::settings::{lists, seed};

#[test]
fn random_lists() {
    let coverage = compare_lists(seed(), lists(3000)).unwrap_or_else(|difference| panic!("{difference}"));
    println!("from seed {}\n{coverage}", seed());
    assert_eq!(coverage.missing(required()), Vec::<String>::new(), "too few lists, or a mix that misses something");
}

/// Objects 10, 20, 30; A, B and C delivered early and worked on.
fn depot() -> Comparison {
    let mut all = Comparison::new(Library::new());
    let a = Body::new().load(0, 0).set(1, 5).add(0, 1).store(0, 0);
    let (b, c) = (Body::new().load(0, 1).store(0, 2), Body::new().load(0, 0).store(0, 1));
    answers(&mut all, Call::Open(Opening::plain(&[10, 20, 30], 0)), Answer::Number(0));
    for (client, body) in (1..).zip([a, b, c]) {
        answers(&mut all, Call::Early { client, sequence: 1, body: body.into() }, Answer::Number(0));
    }
    let executed = Executed { number: 0, operations: 8, finished: 3 };
    answers(&mut all, Call::Work { count: 100 }, Answer::Executed(executed));
    all
}

/// The answer of all three is the paper's.
fn answers(all: &mut Comparison, call: Call, paper: Answer) {
    assert_eq!(all.apply(&call), Ok(paper), "{call:?}");
}

/// Final deliveries by client, each with kept or not, and the table that they leave, values with their stamps. Only B
/// and C are run again, and they have two operations.
fn delivers(finals: [(u32, u32); 3], table: [(i64, u32); 3]) {
    let mut all = depot();
    for (stamp, (client, kept)) in (1..).zip(finals) {
        let operations = if kept == 1 { 0 } else { 2 };
        let committed = Committed { number: 0, outcome: 0, kept, stamp, stored: 1, operations };
        answers(&mut all, Call::Final { client, sequence: 1 }, Answer::Committed(committed));
    }
    answers(&mut all, Call::OpenReader { reader: 6 }, Answer::Number(0));
    for (object, (value, stamp)) in (0..).zip(table) {
        answers(&mut all, Call::Read { reader: 6, object }, Answer::Value(Value { number: 0, value, stamp }));
    }
}

/// The dry run of the first key of a client: outcome, kept or not, the stamp, and the values of the objects.
fn tells(all: &mut Comparison, client: u32, [outcome, kept, stamp]: [u32; 3], table: &[i64]) {
    let mut values = [0; PREVIEW_PLACES];
    values[..table.len()].copy_from_slice(table);
    let preview = Preview { number: 0, outcome, kept, stamp, values };
    answers(all, Call::DryRun { client, sequence: 1 }, Answer::Preview(Box::new(preview)));
}

/// C read early what A stored.
#[test]
fn dry_runs_of_the_small_depot_on_all_three() {
    let mut all = depot();
    tells(&mut all, 1, [0, 1, 1], &[15, 20, 30]);
    tells(&mut all, 2, [0, 1, 1], &[10, 20, 20]);
    tells(&mut all, 3, [0, 0, 1], &[10, 10, 30]);
    let refused = Preview { number: 8, outcome: 0, kept: 0, stamp: 0, values: [0; PREVIEW_PLACES] };
    answers(&mut all, Call::DryRun { client: 4, sequence: 1 }, Answer::Preview(Box::new(refused)));
}

#[test]
fn the_small_depot_on_all_three() {
    delivers([(1, 1), (2, 1), (3, 1)], [(15, 1), (15, 3), (20, 2)]);
    delivers([(3, 0), (1, 1), (2, 0)], [(15, 2), (10, 1), (10, 3)]);
    delivers([(2, 1), (1, 1), (3, 1)], [(15, 2), (15, 3), (20, 1)]);
}

/// Operations carried out, outcome and objects stored.
type Run = [u32; 3];
const DONE: Run = [6, 0, 2];
const OUTSIDE: Run = [5, 3, 0];
/// The start stamp, which a value keeps unless the run is done.
const START: u32 = 40;

/// A tank of 20 litres with bounds 0 and 50, and a gauge at 7. A job reads the tank, stores that at the gauge, and pours.
fn pours(litres: i64, worked: bool, [operations, outcome, stored]: Run, table: [i64; 2]) {
    let mut all = Comparison::new(Library::new());
    let widest = Opening::plain(&[20, 7], START);
    let opening = Opening { lower: vec![0, i64::MIN], upper: vec![50, i64::MAX], ..widest };
    answers(&mut all, Call::Open(opening), Answer::Number(0));
    let body = Body::new().load(0, 0).store(0, 1).set(1, litres).add(0, 1).store(0, 0).load(2, 1);
    answers(&mut all, Call::Early { client: 1, sequence: 1, body: body.into() }, Answer::Number(0));
    if worked {
        let executed = Executed { number: 0, operations, finished: 1 };
        answers(&mut all, Call::Work { count: 100 }, Answer::Executed(executed));
    }
    let (kept, operations) = if worked { (1, 0) } else { (0, operations) };
    tells(&mut all, 1, [outcome, kept, START + 1], &table);
    let committed = Committed { number: 0, outcome, kept, stamp: START + 1, stored, operations };
    answers(&mut all, Call::Final { client: 1, sequence: 1 }, Answer::Committed(committed));
    answers(&mut all, Call::OpenReader { reader: 0 }, Answer::Number(0));
    let stamp = if outcome == 0 { START + 1 } else { START };
    for (object, value) in (0..).zip(table) {
        answers(&mut all, Call::Read { reader: 0, object }, Answer::Value(Value { number: 0, value, stamp }));
    }
}

#[test]
fn a_tank_with_bounds_on_all_three() {
    for worked in [false, true] {
        pours(-20, worked, DONE, [0, 20]);
        pours(30, worked, DONE, [50, 20]);
        for litres in [-24, -21, 31, i64::MAX - 20] {
            pours(litres, worked, OUTSIDE, [20, 7]);
        }
    }
}

/// The other kind of limits, without the library: the method, the plain table and the layout among themselves.
#[test]
fn small_limits() {
    for list in 0..300 {
        let mut random = Random::new(seed().wrapping_add(list));
        let mix = Mix::new(&mut random, SMALL);
        let (mut independent, mut serial) = (Independent::new(SMALL), Serial::new(SMALL));
        let mut call = Call::Open(mix.opening(&mut random));
        for _ in 0..100 {
            let (answer, plain) = (independent.perform(&call), serial.perform(&call));
            assert_eq!(answer.seen(), plain, "seed {}: {call:?}", seed().wrapping_add(list));
            if let Answer::Preview(preview) = &answer {
                assert_eq!(preview.values[SMALL.objects..], [0; PREVIEW_PLACES - SMALL.objects]);
            }
            let state = independent.state.as_ref().unwrap();
            let (record, bodies) = print(SMALL, state);
            assert_eq!(parse(SMALL, &record, &bodies).as_ref(), Ok(state));
            let pending = state.pending.len() as u32;
            let for_all = independent.clone().work(SMALL.operations as u32 * pending);
            assert_eq!((for_all.number, for_all.finished), (0, pending));
            call = mix.call(&mut random, Some(state));
        }
    }
}
