//! Random openings: start values with bounds around them, and what makes an opening refused.

use crate::bodies::value;
use crate::calls::Opening;
use crate::random::Random;

/// What the objects of an opening are like.
#[derive(Clone, Copy, Debug)]
pub struct Objects {
    pub n: usize,
    /// Values from all of 64 bits.
    pub wild: bool,
    /// How often an object has bounds of its own, of 100; the others have the widest.
    pub bounded: usize,
}

impl Objects {
    /// Accepted, if the number of objects is.
    pub fn opening(&self, random: &mut Random, stamp: u32) -> Opening {
        let values: Vec<i64> = (0..self.n).map(|_| value(random, self.wild)).collect();
        let mut opening = Opening::plain(&values, stamp);
        for (object, value) in values.into_iter().enumerate() {
            if random.percent(self.bounded) {
                (opening.lower[object], opening.upper[object]) = around(random, value);
            }
        }
        opening
    }
}

/// Bounds mostly so near that stores miss them now and then. Some are a tank's, that is never below 0.
fn around(random: &mut Random, value: i64) -> (i64, i64) {
    let lower = value.saturating_sub_unsigned(distance(random));
    let upper = value.saturating_add_unsigned(distance(random));
    (if random.percent(20) { value.min(0) } else { lower }, upper)
}

fn distance(random: &mut Random) -> u64 {
    match random.below(8) {
        0 => 0,
        1 => u64::MAX,
        2 | 3 => random.below(4) as u64,
        _ => random.below(2000) as u64,
    }
}

/// One of the lists has another length than n.
pub fn miscounted(random: &mut Random, mut opening: Opening) -> Opening {
    let any = random.below(400);
    let list = match random.below(3) {
        0 => &mut opening.values,
        1 => &mut opening.lower,
        _ => &mut opening.upper,
    };
    let length = random.pick(&[0, list.len().saturating_sub(1), list.len() + 1, any]);
    list.resize(length, 0);
    // As for broken bodies: no room behind the end.
    list.shrink_to_fit();
    opening
}

/// One object's start value is outside its bounds, if 64 bits leave room for it, or its lower bound is above its upper.
pub fn misplaced(random: &mut Random, mut opening: Opening) -> Opening {
    let n = opening.values.len();
    let any = random.below(n);
    let object = random.pick(&[0, n - 1, any]);
    let value = opening.values[object];
    let by = random.pick(&[1, 1, 1000, i64::MAX]);
    let (below, above) = (value.saturating_sub(by), value.saturating_add(by));
    let (lower, upper) = (&mut opening.lower[object], &mut opening.upper[object]);
    (*lower, *upper) = match random.below(3) {
        0 => (above, above.max(*upper)),
        1 => (below.min(*lower), below),
        _ => random.pick(&[(value, below), (above, value), (above, below)]),
    };
    opening
}
