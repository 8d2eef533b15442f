//! Random lists of calls. What is drawn looks at the replica's state, so that most calls are accepted and the others
//! miss by little.

use crate::bodies::{broken, valid, Taste};
use crate::calls::{Call, Opening};
use crate::independent::State;
use crate::limits::{Limits, CLIENTS, LARGEST_BUDGET};
use crate::openings::{miscounted, misplaced, Objects};
use crate::random::Random;

/// What one list is like.
#[derive(Clone, Debug)]
pub struct Mix {
    limits: Limits,
    taste: Taste,
    /// How often an object has bounds of its own, of 100.
    bounded: usize,
    clients: usize,
    /// How often a call has arguments that are probably refused, of 100.
    careless: usize,
    /// How often the first pending transaction is the one delivered, of 100.
    in_order: usize,
    /// Work comes in small counts.
    small_work: bool,
    /// early, work, final, open reader, read, close, find, show body, dry run, open.
    weights: [usize; 10],
}

const BUSY: [usize; 10] = [30, 20, 28, 4, 8, 3, 3, 3, 8, 1];
const FILLING: [usize; 10] = [70, 8, 6, 2, 4, 1, 4, 4, 4, 1];
const READING: [usize; 10] = [22, 12, 26, 14, 14, 4, 3, 3, 4, 2];
const EAGER: [usize; 10] = [30, 40, 28, 1, 1, 1, 1, 1, 12, 0];
const KEEPING: [usize; 10] = [30, 5, 30, 20, 5, 1, 1, 1, 4, 0];

impl Mix {
    pub fn new(random: &mut Random, limits: Limits) -> Mix {
        Mix {
            limits,
            taste: Taste { most: limits.operations, hot: random.pick(&[1, 2, 2, 3, 5, 40]), wild: random.percent(30) },
            bounded: random.pick(&[0, 30, 60, 100]),
            clients: random.pick(&[1, 2, 3, CLIENTS, CLIENTS]),
            careless: random.pick(&[0, 3, 10, 30]),
            in_order: random.pick(&[0, 40, 80, 100]),
            small_work: random.percent(50),
            weights: random.pick(&[BUSY, BUSY, FILLING, READING, EAGER, KEEPING]),
        }
    }

    pub fn opening(&self, random: &mut Random) -> Opening {
        let most = self.limits.objects;
        let n = match random.below(6) {
            0 => 1,
            1 | 2 => random.between(1, 6),
            3 | 4 => random.between(1, most.min(24)),
            _ if random.percent(50) => most,
            _ => random.between(1, most),
        };
        let stamp = match random.below(8) {
            0..=2 => 0,
            3 | 4 => random.next() as u32,
            5 => u32::MAX - random.below(60) as u32,
            6 => u32::MAX - random.below(6) as u32,
            _ => random.below(1000) as u32,
        };
        self.objects(n).opening(random, stamp)
    }

    fn objects(&self, n: usize) -> Objects {
        Objects { n, wild: self.taste.wild, bounded: self.bounded }
    }

    fn refused_opening(&self, random: &mut Random) -> Opening {
        let opening = self.opening(random);
        match random.below(4) {
            0 => miscounted(random, opening),
            1 => misplaced(random, opening),
            2 => {
                let misplaced = misplaced(random, opening);
                miscounted(random, misplaced)
            }
            _ => self.outnumbered(random),
        }
    }

    /// As many values and bounds as one another, and another number of objects.
    fn outnumbered(&self, random: &mut Random) -> Opening {
        let most = self.limits.objects;
        let any = random.below(400);
        let n = random.pick(&[0, 0, most, most + 1, most + 1, any, u32::MAX as usize]);
        let given = random.pick(&[0, most, most + 1, any, n.saturating_sub(1).min(400), n.min(400)]);
        let stamp = random.next() as u32;
        Opening { n: n as u32, ..self.objects(given).opening(random, stamp) }
    }

    /// A call for a replica in this state; `None` is one not opened.
    pub fn call(&self, random: &mut Random, state: Option<&State>) -> Call {
        let careless = random.percent(self.careless);
        let (client, sequence) = match state {
            Some(state) if !careless => self.pending_key(random, state),
            Some(state) => self.any_key(random, state),
            None => (random.below(CLIENTS) as u32, random.below(4) as u32),
        };
        match random.weighted(&self.weights) {
            0 => self.early(random, state, careless),
            1 => Call::Work { count: self.count(random, careless) },
            2 if !careless && state.is_some_and(|state| state.pending.is_empty()) => self.early(random, state, false),
            2 => Call::Final { client, sequence },
            3 => Call::OpenReader { reader: self.reader(random, state, careless, false) },
            4 => {
                let n = state.map_or(1, |state| state.objects.len());
                let object = if careless { random.pick(&[n, n - 1, 128, usize::MAX]) } else { random.below(n) };
                let closed = careless && random.percent(60);
                Call::Read { reader: self.reader(random, state, closed, true), object: object as u32 }
            }
            5 => Call::CloseReader { reader: self.reader(random, state, careless, true) },
            6 => Call::Find { client, sequence },
            7 => Call::ShowBody { client, sequence },
            8 => Call::DryRun { client, sequence },
            _ if random.percent(70) => Call::Open(self.refused_opening(random)),
            _ => Call::Open(self.opening(random)),
        }
    }

    fn early(&self, random: &mut Random, state: Option<&State>, careless: bool) -> Call {
        let n = state.map_or(3, |state| state.objects.len());
        let (client, sequence) = match state {
            Some(state) if careless && random.percent(50) => self.any_key(random, state),
            Some(state) => self.fresh_key(random, state),
            None => (random.below(CLIENTS) as u32, random.between(1, 4) as u32),
        };
        let body = if careless { broken(random, n, self.taste) } else { valid(random, n, self.taste) };
        Call::Early { client, sequence, body }
    }

    /// Mostly the client's next number, at times one with room below it or one below a pending number.
    fn fresh_key(&self, random: &mut Random, state: &State) -> (u32, u32) {
        let client = random.below(self.clients) as u32;
        let last = state.last[client as usize];
        let pending = state.pending.iter().filter(|pending| pending.client == client);
        let highest = pending.map(|pending| pending.sequence).max().unwrap_or(last);
        let sequence = match random.below(200) {
            0 => u32::MAX,
            1 => u32::MAX - 1,
            2..=20 => last.saturating_add(random.between(1, 3) as u32),
            21..=60 => highest.saturating_add(random.between(1, 4) as u32),
            _ => highest.saturating_add(1),
        };
        (client, sequence)
    }

    fn pending_key(&self, random: &mut Random, state: &State) -> (u32, u32) {
        if state.pending.is_empty() {
            return self.fresh_key(random, state);
        }
        let place = if random.percent(self.in_order) { 0 } else { random.below(state.pending.len()) };
        (state.pending[place].client, state.pending[place].sequence)
    }

    fn any_key(&self, random: &mut Random, state: &State) -> (u32, u32) {
        let (client, sequence) = self.pending_key(random, state);
        let last = state.last[client as usize % CLIENTS];
        match random.below(8) {
            0 => (random.pick(&[16, 17, 255, 256, u32::MAX, 1 << 31]), sequence),
            1 => (client, 0),
            2 => (client, last),
            3 => (client, last.saturating_add(1)),
            4 => (client, u32::MAX),
            5 => (random.below(CLIENTS) as u32, random.next() as u32),
            6 => (random.below(CLIENTS) as u32, sequence),
            _ => (client, sequence),
        }
    }

    fn count(&self, random: &mut Random, careless: bool) -> u32 {
        if careless {
            return random.pick(&[LARGEST_BUDGET, LARGEST_BUDGET + 1, u32::MAX, 0, 1 << 31]);
        }
        match random.below(10) {
            0 => 0,
            1 => random.pick(&[100, 512, LARGEST_BUDGET]),
            _ if self.small_work => random.between(1, 6) as u32,
            _ => random.between(1, 120) as u32,
        }
    }

    /// A reader that is open, or not, as wanted; careless gets any.
    fn reader(&self, random: &mut Random, state: Option<&State>, careless: bool, open: bool) -> u32 {
        let most = self.limits.readers;
        if careless {
            let any = random.below(most);
            return random.pick(&[any, any, most, most + 1, u32::MAX as usize]) as u32;
        }
        let fits = |reader: &usize| state.map_or(true, |state| state.readers[*reader].is_some() == open);
        let readers: Vec<usize> = (0..most).filter(fits).collect();
        if readers.is_empty() {
            random.below(most) as u32
        } else {
            random.pick(&readers) as u32
        }
    }
}
