//! Areas with every count of readers and versions, and with 31 and 32 pending, damaged in each field.

use jobstore_tests::each_field::{compare_fields, required};
use jobstore_tests::settings::{lists, seed};

#[test]
fn damaged_in_each_field() {
    let rounds = (lists(3000) / 1000).max(1);
    let coverage = compare_fields(seed(), rounds).unwrap_or_else(|difference| panic!("{difference}"));
    println!("from seed {}\n{coverage}", seed());
    assert_eq!(coverage.missing(required()), Vec::<String>::new(), "too few rounds, or a field never damaged");
}
