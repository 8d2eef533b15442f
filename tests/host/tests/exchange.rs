//! Neighbours that may change places: pending transactions delivered finally in two orders.

use jobstore::Body;
use jobstore_tests::calls::{Calls, Opening};
use jobstore_tests::exchange::{compare_exchanges, required, Moment};
use jobstore_tests::exchange::{
    BOTH_STORE, EACH_STORES, FIRST_STORES, LAST_STAMP, SAME_CLIENT, SECOND_STORES, STORE_AND_READ,
};
use jobstore_tests::library::Library;
use jobstore_tests::settings::{lists, seed};

const LISTS: u64 = 600;
/// What so many lists come across at least: a third of what they do, so that no change of the mix starves the test.
const FLOORS: [(&str, u64); 5] = [
    ("pairs exchanged", 4500),
    ("exchanged: both store", 600),
    ("pairs not to be exchanged", 8000),
    ("not to be exchanged: the first stores what the second reads", 900),
    ("not to be exchanged: the second stores what the first reads", 900),
];

#[test]
fn random_exchanges() {
    let lists = lists(LISTS);
    let coverage = compare_exchanges(seed(), lists).unwrap_or_else(|difference| panic!("{difference}"));
    println!("from seed {}\n{coverage}", seed());
    assert_eq!(coverage.missing(required()), Vec::<String>::new(), "too few lists, or a mix that misses something");
    for (name, floor) in FLOORS {
        assert!(lists < LISTS || coverage.of(name) >= floor, "{name}: fewer than {floor}");
    }
}

/// Objects 10, 20, 30, 40, and transactions of these clients, numbered and delivered early in this order, then worked.
fn moment<const JOBS: usize>(stamp: u32, jobs: [(u32, Body); JOBS]) -> Moment {
    let mut library = Library::new();
    assert_eq!(library.open(&Opening::plain(&[10, 20, 30, 40], stamp)), 0);
    for (sequence, (client, body)) in (1..).zip(&jobs) {
        assert_eq!(library.early(*client, sequence, body.as_bytes()), 0);
    }
    assert_eq!(library.work(100).finished as usize, JOBS);
    Moment::new(library).unwrap()
}

fn stores(value: i64, object: u8) -> Body {
    Body::new().set(0, value).store(0, object)
}

fn copies(from: u8, to: u8) -> Body {
    Body::new().load(0, from).store(0, to)
}

/// The values that the two orders leave.
fn tables(moment: &Moment) -> [Vec<i64>; 2] {
    [[0, 1], [1, 0]].map(|order| moment.deliver(&order).unwrap().values())
}

/// The second read early what the first stores, so it is run again: from then on the third has read what nobody stored,
/// and it and all after it restart.
#[test]
fn kept_first_and_run_again_second() {
    let moment = moment(0, [(1, stores(7, 0)), (2, copies(0, 1)), (3, copies(1, 2)), (4, copies(3, 3))]);
    assert_eq!(moment.obstacle(3, 1), None);
    let [one, other] = moment.exchange([&[3, 1], &[1, 3]]).unwrap();
    assert_eq!([one.answers[&1].kept, one.answers[&3].kept], [0, 1]);
    assert_eq!([other.answers[&1].kept, other.answers[&3].kept], [0, 0]);
    assert_eq!(one.values(), [10, 10, 30, 40]);
    assert_eq!([one.objects[1].timestamp, one.objects[3].timestamp], [2, 1]);
    assert_eq!([other.objects[1].timestamp, other.objects[3].timestamp], [1, 2]);
}

/// All read one object, and one fails after a store. They take the last stamps.
#[test]
fn apart() {
    let fails = Body::new().load(0, 0).store(0, 2).fail();
    let moment = moment(u32::MAX - 3, [(1, copies(0, 1)), (2, fails), (3, copies(0, 3))]);
    for order in [[0, 2, 1], [1, 0, 2], [1, 2, 0], [2, 0, 1], [2, 1, 0]] {
        let [one, other] = moment.exchange([&[0, 1, 2], &order]).unwrap();
        assert_eq!([0, 1, 2].map(|place| other.answers[&place].outcome), [0, 1, 0]);
        assert_eq!([one.values(), other.values()], [[10, 10, 30, 10], [10, 10, 30, 10]]);
    }
}

#[test]
fn not_apart() {
    let twice = Body::new().load(0, 0).add(0, 0).store(0, 0);
    let pairs = [
        (FIRST_STORES, stores(5, 0), copies(0, 1), [[5, 5, 30, 40], [5, 10, 30, 40]]),
        (SECOND_STORES, copies(0, 1), stores(5, 0), [[5, 10, 30, 40], [5, 5, 30, 40]]),
        (EACH_STORES, copies(0, 1), copies(1, 0), [[10, 10, 30, 40], [20, 20, 30, 40]]),
        (BOTH_STORE, stores(5, 0), stores(6, 0), [[6, 20, 30, 40], [5, 20, 30, 40]]),
        (STORE_AND_READ, twice, stores(6, 0), [[6, 20, 30, 40], [12, 20, 30, 40]]),
    ];
    for (obstacle, first, second, expected) in pairs {
        let moment = moment(0, [(1, first), (2, second)]);
        assert_eq!(moment.obstacle(0, 1), Some(obstacle));
        assert_eq!(tables(&moment), expected, "{obstacle}");
    }
}

/// A client's lower number is refused after the higher one, and any delivery for which no stamp is left.
#[test]
fn not_both_accepted() {
    let pairs = [
        (SAME_CLIENT, 0, [1, 1], [[5, 6, 30, 40], [10, 6, 30, 40]]),
        (LAST_STAMP, u32::MAX - 1, [1, 2], [[5, 20, 30, 40], [10, 6, 30, 40]]),
        (LAST_STAMP, u32::MAX, [1, 2], [[10, 20, 30, 40], [10, 20, 30, 40]]),
    ];
    for (obstacle, stamp, [first, second], expected) in pairs {
        let moment = moment(stamp, [(first, stores(5, 0)), (second, stores(6, 1))]);
        assert_eq!(moment.obstacle(0, 1), Some(obstacle));
        assert_eq!(tables(&moment), expected, "{obstacle}");
    }
}
