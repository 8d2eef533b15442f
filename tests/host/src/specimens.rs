//! Honest states with every number of readers open, every count of versions, and few and many pending.

use crate::bodies::{valid, value, Taste};
use crate::body::{encode, Operation};
use crate::calls::Calls;
use crate::independent::{Bounds, Independent, State};
use crate::limits::{CLIENTS, STANDARD};
use crate::openings::Objects;
use crate::random::Random;
use Operation::{Load, Set, Store};

#[derive(Clone, Copy, Debug)]
pub struct Specimen {
    /// Open ones.
    pub readers: usize,
    /// Of these, opened with no commit since the one before.
    pub twins: usize,
    pub pending: usize,
}

const fn specimen(readers: usize, twins: usize, pending: usize) -> Specimen {
    Specimen { readers, twins, pending }
}

pub const SPECIMENS: [Specimen; 11] = [
    specimen(0, 0, 32),
    specimen(1, 0, 31),
    specimen(2, 0, 1),
    specimen(2, 1, 8),
    specimen(3, 0, 32),
    specimen(4, 0, 0),
    specimen(5, 0, 31),
    specimen(6, 0, 8),
    specimen(7, 3, 32),
    specimen(7, 0, 31),
    specimen(7, 0, 8),
];

impl Specimen {
    /// Reached by calls. There is an object for every set of readers: each reader of the set holds a version of its own,
    /// so that objects have every count of versions and every way to it.
    pub fn state(&self, random: &mut Random) -> State {
        let holding = self.readers - self.twins;
        let n = 1 << holding;
        let mut replica = Independent::new(STANDARD);
        let stamp = random.pick(&[0, 7, 1 << 31]);
        let opening = Objects { n, wild: true, bounded: 100 }.opening(random, stamp);
        assert_eq!(replica.open(&opening), 0);
        let some: Vec<usize> = (0..n).filter(|_| random.percent(50)).collect();
        store(random, &mut replica, &some);
        let mut numbers: Vec<u32> = (0..STANDARD.readers as u32).collect();
        random.shuffle(&mut numbers);
        let (holders, twins) = numbers[..self.readers].split_at(holding);
        for (index, holder) in holders.iter().enumerate() {
            for reader in [Some(holder), twins.get(index)].into_iter().flatten() {
                assert_eq!(replica.open_reader(*reader), 0);
            }
            let held: Vec<usize> = (0..n).filter(|object| object >> index & 1 == 1).collect();
            store(random, &mut replica, &held);
        }
        fill(random, &mut replica, self.pending);
        replica.state.unwrap()
    }
}

fn opened(replica: &Independent) -> &State {
    replica.state.as_ref().unwrap()
}

/// Commits that give each of the objects a new version.
fn store(random: &mut Random, replica: &mut Independent, objects: &[usize]) {
    for some in objects.chunks(STANDARD.operations / 2) {
        let client = random.below(CLIENTS);
        let sequence = opened(replica).last[client] + random.between(1, 3) as u32;
        let store = |&object: &usize| {
            let Bounds { lower, upper } = opened(replica).bounds[object];
            [Set(0, value(random, true).clamp(lower, upper)), Store(0, object)]
        };
        let body: Vec<Operation> = some.iter().flat_map(store).collect();
        assert_eq!(replica.early(client as u32, sequence, &encode(&body)), 0);
        assert_eq!(replica.deliver_final(client as u32, sequence).stored, some.len() as u32);
    }
}

/// So many pending: two of three finished, then one partly run if its body allows it, the others not begun.
fn fill(random: &mut Random, replica: &mut Independent, pending: usize) {
    let n = opened(replica).objects.len();
    let taste = Taste { most: STANDARD.operations, hot: n, wild: true };
    let finished = pending - pending / 3;
    for place in 0..pending {
        let client = place % CLIENTS;
        let sequence = opened(replica).last[client] + 1 + 3 * place as u32;
        let stores_soon = place == finished && random.percent(50);
        let body = if stores_soon { store_soon(random.below(n)) } else { valid(random, n, taste) };
        assert_eq!(replica.early(client as u32, sequence, &body), 0);
    }
    while opened(replica).finished() < finished {
        replica.work(1);
    }
    replica.work(random.between(1, 4) as u32);
}

/// A body that is found partly run with a store on record, which random ones seldom are. What was read may be stored.
fn store_soon(object: usize) -> Vec<u8> {
    encode(&[Load(0, object), Store(0, object), Set(1, 1), Set(2, 2), Set(3, 3)])
}
