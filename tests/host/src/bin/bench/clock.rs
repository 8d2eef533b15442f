//! Times, in nanoseconds. Of each thing that is measured the least time counts: other work on the machine only ever
//! adds to it.

use jobstore_tests::library::Library;
use std::hint::black_box;
use std::sync::OnceLock;
use std::time::Instant;

/// What a time of nothing is: taken off every other.
pub fn own_time() -> f64 {
    static OWN: OnceLock<f64> = OnceLock::new();
    *OWN.get_or_init(|| (0..10_000).map(|_| elapsed(|| ()).0).fold(f64::MAX, f64::min))
}

pub fn timed<A>(call: impl FnOnce() -> A) -> (f64, A) {
    let (time, answer) = elapsed(call);
    (time - own_time(), answer)
}

fn elapsed<A>(call: impl FnOnce() -> A) -> (f64, A) {
    let began = Instant::now();
    let answer = call();
    (began.elapsed().as_nanos() as f64, answer)
}

/// The time of one of many like calls in a row.
pub fn batched<A>(mut call: impl FnMut(usize) -> A) -> f64 {
    const CALLS: usize = 16;
    let batch = || timed(|| (0..CALLS).for_each(|index| drop(black_box(call(index))))).0;
    let times = std::iter::repeat_with(batch).take(8);
    times.fold(f64::MAX, f64::min) / CALLS as f64
}

/// The least that each of some figures was so far.
#[derive(Clone, Default)]
pub struct Least {
    pub figures: Vec<f64>,
}

impl Least {
    pub fn take(&mut self, figures: Vec<f64>) {
        if self.figures.is_empty() {
            self.figures = figures;
        } else {
            self.figures.iter_mut().zip(figures).for_each(|(least, figure)| *least = least.min(figure));
        }
    }

    /// Where every `count` figures belong together: the mean of those that stand at `index`.
    pub fn mean(&self, count: usize, index: usize) -> f64 {
        let figures = self.figures.iter().skip(index).step_by(count);
        figures.clone().sum::<f64>() / figures.count() as f64
    }
}

/// The unit: both areas' words of 8 bytes, OR-ed, which is the least that a look at every byte costs.
pub fn scan(areas: &Library) -> u64 {
    or(black_box(&areas.record)) | or(black_box(&areas.bodies))
}

/// The compiler makes vectors of it, 32 bytes a turn.
#[inline(never)]
fn or(area: &[u8]) -> u64 {
    let words = area.chunks_exact(8);
    let rest = words.remainder().iter().fold(0, |sum, &byte| sum | u64::from(byte));
    words.fold(rest, |sum, word| sum | u64::from_le_bytes(word.try_into().unwrap()))
}

/// The same with 64 bytes a turn, as the library's own scans of unused bytes are.
pub fn wide_scan(areas: &Library) -> u64 {
    wide_or(black_box(&areas.record)) | wide_or(black_box(&areas.bodies))
}

#[inline(never)]
fn wide_or(area: &[u8]) -> u64 {
    let turns = area.chunks_exact(64);
    let rest = or(turns.remainder());
    let mut sums = [0; 8];
    for turn in turns {
        for (sum, word) in sums.iter_mut().zip(turn.chunks_exact(8)) {
            *sum |= u64::from_le_bytes(word.try_into().unwrap());
        }
    }
    sums.iter().fold(rest, |all, sum| all | sum)
}
