//! The randomised comparisons from the command line. Each failure names the arguments that repeat it.
//!
//!     compare [--damage | --fields | --replicas | --exchange] [--lists N] [--seed S] [--quiet]

use jobstore_tests::comparison::Difference;
use jobstore_tests::coverage::Coverage;
use jobstore_tests::{agreement, comparison, damage, each_field, exchange, observation};
use std::process::ExitCode;

type Comparison = fn(u64, u64) -> Result<Coverage, Difference>;
type Required = fn() -> Vec<String>;

struct Arguments {
    comparison: Comparison,
    required: Required,
    lists: u64,
    seed: u64,
    quiet: bool,
}

fn arguments() -> Option<Arguments> {
    let mut given = Arguments {
        comparison: comparison::compare_lists,
        required: observation::required,
        lists: 1000,
        seed: 1,
        quiet: false,
    };
    let mut words = std::env::args().skip(1);
    while let Some(word) = words.next() {
        match word.as_str() {
            "--damage" => (given.comparison, given.required) = (damage::compare_damages, damage::required),
            "--fields" => (given.comparison, given.required) = (each_field::compare_fields, each_field::required),
            "--replicas" => (given.comparison, given.required) = (agreement::compare_plans, agreement::required),
            "--exchange" => (given.comparison, given.required) = (exchange::compare_exchanges, exchange::required),
            "--lists" => given.lists = words.next()?.parse().ok()?,
            "--seed" => given.seed = words.next()?.parse().ok()?,
            "--quiet" => given.quiet = true,
            _ => return None,
        }
    }
    Some(given)
}

fn main() -> ExitCode {
    let Some(Arguments { comparison, required, lists, seed, quiet }) = arguments() else {
        eprintln!("compare [--damage | --fields | --replicas | --exchange] [--lists N] [--seed S] [--quiet]");
        return ExitCode::from(2);
    };
    match comparison(seed, lists) {
        Ok(coverage) => {
            if !quiet {
                print!("{coverage}");
                println!("never happened: {:?}", coverage.missing(required()));
            }
            println!("{lists} lists from seed {seed}: no difference");
            ExitCode::SUCCESS
        }
        Err(difference) => {
            println!("{difference}");
            ExitCode::FAILURE
        }
    }
}
