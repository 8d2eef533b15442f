//! How much the tests do, from the environment: JOBSTORE_LISTS and JOBSTORE_SEED.

pub fn lists(otherwise: u64) -> u64 {
    setting("JOBSTORE_LISTS", otherwise)
}

pub fn seed() -> u64 {
    setting("JOBSTORE_SEED", 1)
}

fn setting(name: &str, otherwise: u64) -> u64 {
    std::env::var(name).map_or(otherwise, |text| text.parse().unwrap_or_else(|_| panic!("{name} is not a number")))
}
