//! A transaction's body as document 01 describes it: bytes to operations and back.

use crate::limits::REGISTERS;
use std::cmp::Ordering;

#[derive(Clone, Copy, PartialEq, Eq, Debug)]
pub enum Operation {
    Load(usize, usize),
    Store(usize, usize),
    Set(usize, i64),
    Add(usize, usize),
    Subtract(usize, usize),
    Skip(usize, usize),
    Fail,
    Divide(usize, i64),
}

pub const LARGEST_DIVISOR: i64 = 1_000_000;

/// The rule that a body breaks first.
pub type Flaw = &'static str;

fn ask(holds: bool, flaw: Flaw) -> Result<(), Flaw> {
    if holds {
        Ok(())
    } else {
        Err(flaw)
    }
}

/// The operations of a well-formed body.
pub fn decode(body: &[u8], most: usize, objects: usize) -> Result<Vec<Operation>, Flaw> {
    let m = usize::from(*body.first().ok_or("no byte")?);
    ask(m >= 1, "m is 0")?;
    ask(m <= most, "m above its limit")?;
    let length = 1 + 11 * m;
    ask(body.len() >= length, "too short")?;
    ask(body.len() <= length, "too long")?;
    let (operations, constants) = body[1..].split_at(3 * m);
    (0..m)
        .map(|k| {
            let constant = i64::from_le_bytes(constants[8 * k..8 * k + 8].try_into().unwrap());
            operation(&operations[3 * k..3 * k + 3], constant, m - 1 - k, objects)
        })
        .collect()
}

/// `left` operations follow this one.
fn operation(bytes: &[u8], constant: i64, left: usize, objects: usize) -> Result<Operation, Flaw> {
    let (kind, first, second) = (bytes[0], usize::from(bytes[1]), usize::from(bytes[2]));
    ask(kind <= 7, "kind above 7")?;
    ask(kind == 6 || first < REGISTERS, "register first above 3")?;
    ask(kind == 2 || kind == 7 || constant == 0, "constant where none belongs")?;
    match kind {
        0 | 1 => ask(second < objects, "object n or more")?,
        2 => ask(second == 0, "set with a second")?,
        3 | 4 => ask(second < REGISTERS, "register second above 3")?,
        5 => {
            ask(second >= 1, "skip of 0")?;
            // So at most 15, since a body has at most 16 operations.
            ask(second <= left, "skip past the end")?;
        }
        6 => ask(first == 0 && second == 0, "fail with a first or second")?,
        _ => {
            ask(second == 0, "divide with a second")?;
            ask(constant >= 1, "divisor below 1")?;
            ask(constant <= LARGEST_DIVISOR, "divisor above 1,000,000")?;
        }
    }
    Ok(match kind {
        0 => Operation::Load(first, second),
        1 => Operation::Store(first, second),
        2 => Operation::Set(first, constant),
        3 => Operation::Add(first, second),
        4 => Operation::Subtract(first, second),
        5 => Operation::Skip(first, second),
        6 => Operation::Fail,
        _ => Operation::Divide(first, constant),
    })
}

/// Every flaw that a body can have.
pub const FLAWS: [Flaw; 17] = [
    "no byte",
    "m is 0",
    "m above its limit",
    "too short",
    "too long",
    "kind above 7",
    "register first above 3",
    "constant where none belongs",
    "object n or more",
    "set with a second",
    "register second above 3",
    "skip of 0",
    "skip past the end",
    "fail with a first or second",
    "divide with a second",
    "divisor below 1",
    "divisor above 1,000,000",
];

/// The bytes of any operations, well formed or not.
pub fn encode(operations: &[Operation]) -> Vec<u8> {
    let mut bytes = vec![operations.len() as u8];
    let mut constants = Vec::new();
    for operation in operations {
        let (kind, first, second, constant) = match *operation {
            Operation::Load(r, o) => (0, r, o, 0),
            Operation::Store(r, o) => (1, r, o, 0),
            Operation::Set(r, c) => (2, r, 0, c),
            Operation::Add(r, s) => (3, r, s, 0),
            Operation::Subtract(r, s) => (4, r, s, 0),
            Operation::Skip(r, count) => (5, r, count, 0),
            Operation::Fail => (6, 0, 0, 0),
            Operation::Divide(r, c) => (7, r, 0, c),
        };
        bytes.extend([kind, first as u8, second as u8]);
        constants.extend(i64::to_le_bytes(constant));
    }
    bytes.extend(constants);
    bytes
}

/// To the nearest whole number, an exact half to the even neighbour. From the neighbour below, whatever the sign, and in
/// 128 bits, where nothing overflows: the library goes by magnitudes.
pub fn quotient(value: i64, divisor: i64) -> i64 {
    let (value, divisor) = (i128::from(value), i128::from(divisor));
    let below = value.div_euclid(divisor);
    let up = match (2 * value.rem_euclid(divisor)).cmp(&divisor) {
        Ordering::Less => 0,
        Ordering::Equal => below.rem_euclid(2),
        Ordering::Greater => 1,
    };
    (below + up) as i64
}

#[cfg(test)]
mod tests {
    use super::*;

    #[test]
    fn quotients() {
        let cases = [(7, 2, 4), (-7, 2, -4), (5, 2, 2), (-5, 2, -2), (4, 3, 1), (5, 3, 2), (-4, 3, -1), (0, 7, 0)];
        for (value, divisor, expected) in cases {
            assert_eq!(quotient(value, divisor), expected);
        }
        assert_eq!(quotient(i64::MAX, 1), i64::MAX);
        assert_eq!(quotient(i64::MIN, 1), i64::MIN);
        assert_eq!(quotient(i64::MAX, 2), 1 << 62);
        assert_eq!(quotient(i64::MAX - 2, 2), (1 << 62) - 2);
        assert_eq!(quotient(i64::MIN, 2), -(1 << 62));
        assert_eq!(quotient(i64::MIN + 3, 2), 2 - (1 << 62));
    }

    /// The paper's words, by trying every number: the nearest, and of two the even one.
    #[test]
    fn quotients_by_search() {
        for divisor in 1..=12 {
            for value in -60..=60 {
                let nearest = (-60..=60i64).min_by_key(|&q| ((value - q * divisor).abs(), q.rem_euclid(2)));
                assert_eq!(Some(quotient(value, divisor)), nearest, "{value} / {divisor}");
            }
        }
    }

    #[test]
    fn bodies_come_back() {
        let operations = [
            Operation::Load(0, 2),
            Operation::Store(3, 1),
            Operation::Set(1, i64::MIN),
            Operation::Add(0, 1),
            Operation::Subtract(2, 3),
            Operation::Skip(0, 2),
            Operation::Fail,
            Operation::Divide(1, 1_000_000),
        ];
        assert_eq!(decode(&encode(&operations), 16, 3), Ok(operations.to_vec()));
        assert_eq!(decode(&encode(&operations), 8, 3), Ok(operations.to_vec()));
        assert_eq!(decode(&encode(&operations), 7, 3), Err("m above its limit"));
        assert_eq!(decode(&encode(&operations), 16, 2), Err("object n or more"));
    }

    #[test]
    fn skips_at_the_end() {
        assert_eq!(decode(&encode(&[Operation::Skip(0, 1)]), 16, 1), Err("skip past the end"));
        assert!(decode(&encode(&[Operation::Skip(0, 1), Operation::Fail]), 16, 1).is_ok());
        assert_eq!(decode(&encode(&[Operation::Skip(0, 0), Operation::Fail]), 16, 1), Err("skip of 0"));
    }
}
