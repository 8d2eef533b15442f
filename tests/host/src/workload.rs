//! What the benchmark runs: Bank's transfers, delivered early into a window of pending transactions and finally out of it.

use crate::body::{encode, Operation};
use crate::calls::Opening;
use crate::random::Random;
use jobstore::Key;
use Operation::{Add, Load, Set, Store, Subtract};

pub const OBJECTS: usize = 128;
/// Every object's value at the start.
pub const START: i64 = 500_000;
/// Bounds that no plan's transfers reach, so that with them and without them the same is done.
pub const LOWER: i64 = 0;
pub const UPPER: i64 = 1_000_000;
/// The hot objects are the first ones.
const HOT: usize = 8;
const CLIENTS: usize = 16;

#[derive(Clone, Copy)]
pub struct Workload {
    pub seed: u64,
    /// Pending transactions as a final delivery comes.
    pub pending: usize,
    pub transactions: usize,
    /// The chance in percent that an object is one of the hot ones.
    pub hot: usize,
    /// The chance in percent that a final delivery is not of the first in the optimistic order.
    pub late: usize,
    /// Objects have bounds, which nothing reaches; else the widest.
    pub bounded: bool,
}

/// A pending transaction is finally delivered, and a new one takes its place at the end.
pub struct Turn {
    pub committed: Key,
    pub delivered: Key,
    pub body: Vec<u8>,
}

pub struct Plan {
    pub opening: Opening,
    /// Fills the window.
    pub first: Vec<(Key, Vec<u8>)>,
    pub turns: Vec<Turn>,
}

fn opening(bounded: bool) -> Opening {
    let plain = Opening::plain(&[START; OBJECTS], 0);
    if bounded {
        Opening { lower: vec![LOWER; OBJECTS], upper: vec![UPPER; OBJECTS], ..plain }
    } else {
        plain
    }
}

/// One object gives an amount to each of one to three others, so that their sum stays.
fn transfer(random: &mut Random, hot: usize) -> Vec<u8> {
    let mut objects: Vec<usize> = Vec::new();
    let count = random.between(2, 4);
    while objects.len() < count {
        let object = if random.percent(hot) { random.below(HOT) } else { random.below(OBJECTS) };
        if !objects.contains(&object) {
            objects.push(object);
        }
    }
    let mut body = vec![Load(0, objects[0]), Set(1, random.between(1, 100) as i64)];
    for &object in &objects[1..] {
        body.extend([Subtract(0, 1), Load(2, object), Add(2, 1), Store(2, object)]);
    }
    body.push(Store(0, objects[0]));
    encode(&body)
}

/// Up to 16 pending transactions each have a client of their own, so that a final delivery makes no other one leave; with
/// more, one in the optimistic order makes none leave.
fn next_key(random: &mut Random, pending: &[Key], last: &mut [u32; CLIENTS]) -> Key {
    loop {
        let client = random.below(CLIENTS);
        if pending.iter().filter(|key| key.client == client as u32).count() <= pending.len() / CLIENTS {
            last[client] += 1;
            return Key { client: client as u32, sequence: last[client] };
        }
    }
}

pub fn plan(workload: Workload) -> Plan {
    let Workload { seed, pending: window, transactions, hot, late, bounded } = workload;
    let mut random = Random::new(seed);
    let mut last = [0; CLIENTS];
    let mut pending = Vec::new();
    let mut first = Vec::new();
    for _ in 0..window {
        let key = next_key(&mut random, &pending, &mut last);
        pending.push(key);
        first.push((key, transfer(&mut random, hot)));
    }
    let turn = |_| {
        let place = if random.percent(late) { random.between(1, window - 1) } else { 0 };
        let committed = pending.remove(place);
        let delivered = next_key(&mut random, &pending, &mut last);
        pending.push(delivered);
        Turn { committed, delivered, body: transfer(&mut random, hot) }
    };
    let turns = (0..transactions).map(turn).collect();
    Plan { opening: opening(bounded), first, turns }
}
