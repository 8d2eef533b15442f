//! Random bodies: well-formed ones that meet on a few objects, and broken ones.

use crate::body::{encode, Operation, LARGEST_DIVISOR};
use crate::limits::REGISTERS;
use crate::random::Random;
use Operation::{Add, Divide, Fail, Load, Set, Skip, Store, Subtract};

/// What a list's bodies are made of.
#[derive(Clone, Copy, Debug)]
pub struct Taste {
    /// Operations in a body, at most.
    pub most: usize,
    /// Objects that nearly all bodies name: 0 to hot - 1.
    pub hot: usize,
    /// Constants from all of 64 bits, so that sums overflow.
    pub wild: bool,
}

const ENDS: [i64; 8] = [i64::MAX, i64::MAX - 1, i64::MIN, i64::MIN + 1, i64::MAX / 2 + 1, i64::MIN / 2 - 1, -1, 0];

pub fn value(random: &mut Random, wild: bool) -> i64 {
    match random.below(if wild { 4 } else { 2 }) {
        0 => random.below(5) as i64 - 2,
        1 => random.below(2001) as i64 - 1000,
        2 => random.pick(&ENDS),
        _ => random.next() as i64,
    }
}

fn object(random: &mut Random, n: usize, taste: Taste) -> usize {
    if random.percent(90) {
        random.below(taste.hot.min(n))
    } else if random.percent(30) {
        n - 1
    } else {
        random.below(n)
    }
}

pub fn valid(random: &mut Random, n: usize, taste: Taste) -> Vec<u8> {
    let (a, b) = (object(random, n, taste), object(random, n, taste));
    let amount = value(random, taste.wild);
    let body = match random.below(13) {
        0 | 1 => vec![Load(0, a), Set(1, amount), Subtract(0, 1), Store(0, a), Load(2, b), Add(2, 1), Store(2, b)],
        2 => vec![Load(0, a), Store(0, b)],
        3 => vec![Set(0, amount), Store(0, a)],
        4 => vec![Load(0, a), Load(1, b), Add(0, 1), Store(0, a), Load(3, a), Store(3, b)],
        5 => vec![Load(0, a), Divide(0, divisor(random)), Store(0, b)],
        6 => vec![Load(1, a), Skip(1, 2), Load(2, b), Fail, Store(1, b)],
        7 => vec![Store(0, b), Load(0, a), Skip(0, 1), Fail, Set(1, amount), Store(1, b)],
        8 => vec![Load(0, a), Load(1, b)],
        9 => halved(random, taste.wild, b),
        _ => operations(random, n, taste),
    };
    if body.len() <= taste.most {
        encode(&body)
    } else {
        encode(&operations(random, n, taste))
    }
}

fn divisor(random: &mut Random) -> i64 {
    match random.below(4) {
        0 => 1,
        1 => 2 * random.between(1, 8) as i64,
        2 => random.between(1, LARGEST_DIVISOR as usize) as i64,
        _ => LARGEST_DIVISOR,
    }
}

/// A quotient that ends in a half: anywhere in 64 bits where `wild`, else a small one.
fn halved(random: &mut Random, wild: bool, to: usize) -> Vec<Operation> {
    let most = if random.percent(50) { 8 } else { LARGEST_DIVISOR as usize / 2 };
    let half = random.between(1, most) as i64;
    let whole = if wild { value(random, wild) / (2 * half) } else { value(random, wild) };
    // The half nearer to 0, so that nothing overflows.
    let below = whole - i64::from(whole > 0);
    vec![Set(0, (2 * below + 1) * half), Divide(0, 2 * half), Store(0, to)]
}

fn operations(random: &mut Random, n: usize, taste: Taste) -> Vec<Operation> {
    let m = if random.percent(20) { taste.most } else { random.between(1, taste.most) };
    (0..m)
        .map(|k| {
            let (r, s) = (random.below(REGISTERS), random.below(REGISTERS));
            let o = object(random, n, taste);
            match random.weighted(&[24, 24, 12, 12, 12, 10, 2, 6]) {
                0 => Load(r, o),
                1 => Store(r, o),
                2 => Set(r, value(random, taste.wild)),
                3 => Add(r, s),
                4 => Subtract(r, s),
                5 if k + 1 < m => Skip(r, random.between(1, m - 1 - k)),
                6 => Fail,
                _ => Divide(r, divisor(random)),
            }
        })
        .collect()
}

/// A well-formed body with one thing wrong, or plain noise.
pub fn broken(random: &mut Random, n: usize, taste: Taste) -> Vec<u8> {
    let mut body = valid(random, n, taste);
    let m = usize::from(body[0]);
    let k = random.below(m);
    let (kind, first, second, constant) = (1 + 3 * k, 2 + 3 * k, 3 + 3 * k, 1 + 3 * m + 8 * k);
    match random.below(14) {
        0 => body.truncate(random.below(body.len())),
        1 => body.resize(body.len() + random.between(1, 300), 0),
        2 => body[0] = random.pick(&[0, body[0] - 1, body[0] + 1, 255]),
        3 => body = encode(&vec![Store(0, 0); taste.most + 1]),
        4 => body[kind] = random.pick(&[8, 9, 128, 255]),
        5 => body[first] = random.pick(&[4, 5, 255]),
        6 => body[second] = random.pick(&[n.min(255) as u8, 4, 16, 255, 0, 1]),
        7 => body[constant + random.below(8)] ^= 1 << random.below(8),
        8 => {
            body[kind] = 7;
            let divisor = random.pick(&[0, -1, i64::MIN, LARGEST_DIVISOR + 1, i64::MAX, 1]);
            body[constant..constant + 8].copy_from_slice(&divisor.to_le_bytes());
        }
        9 => body[kind] = random.below(8) as u8,
        10 => body = vec![m as u8; 1 + 11 * m],
        11 => body.clear(),
        12 => {
            body[kind] = 5;
            body[second] = random.pick(&[0, (m - k) as u8, 15, 16, 255]);
        }
        _ => body.iter_mut().skip(1).for_each(|byte| *byte = random.next() as u8),
    }
    // No room behind the end, so that a tool that watches memory sees each byte too far.
    body.shrink_to_fit();
    body
}
