//! Damaged and forged areas: refusal 1 exactly where the layout's reader says so, and the method on the others.

use jobstore_tests::damage::{compare_damages, required};
use jobstore_tests::settings::{lists, seed};

#[test]
fn damaged_areas() {
    let coverage = compare_damages(seed(), lists(8000)).unwrap_or_else(|difference| panic!("{difference}"));
    println!("from seed {}\n{coverage}", seed());
    assert_eq!(coverage.missing(required()), Vec::<String>::new(), "too few lists, or a damage never done");
}
