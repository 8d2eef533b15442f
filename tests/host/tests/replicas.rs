//! Three replicas with different early orders and work, and equal final deliveries.

use jobstore_tests::agreement::{compare_plans, required};
use jobstore_tests::settings::{lists, seed};

#[test]
fn three_replicas() {
    let coverage = compare_plans(seed(), lists(1500)).unwrap_or_else(|difference| panic!("{difference}"));
    println!("from seed {}\n{coverage}", seed());
    assert_eq!(coverage.missing(required()), Vec::<String>::new(), "too few plans, or a mix that misses something");
}
