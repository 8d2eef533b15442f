//! Documents 01 and 02 once more, from the papers alone and on ordinary Rust data: the speculative method.
//! It shares no code with the proved library.

use crate::body::{decode, quotient, Operation};
use crate::calls::{previewed, Calls, Opening};
use crate::coverage::Coverage;
use crate::limits::{Limits, CLIENTS, LARGEST_BUDGET, REGISTERS};
use jobstore::raw::{Committed, Executed, Found, Preview, Value};

#[derive(Clone, Copy, PartialEq, Eq, Debug)]
pub struct Version {
    pub timestamp: u32,
    pub value: i64,
}

/// The values that an object may take: both ends are inside.
#[derive(Clone, Copy, PartialEq, Eq, Debug)]
pub struct Bounds {
    pub lower: i64,
    pub upper: i64,
}

/// What an early run left on record. `outcome` is there once the run has ended.
#[derive(Clone, PartialEq, Eq, Debug, Default)]
pub struct Run {
    pub program_counter: usize,
    pub outcome: Option<u32>,
    pub registers: [i64; REGISTERS],
    pub reads: Vec<(usize, i64)>,
    pub writes: Vec<(usize, i64)>,
}

/// A pending job.
#[derive(Clone, PartialEq, Eq, Debug)]
pub struct Transaction {
    pub client: u32,
    pub sequence: u32,
    pub body: Vec<u8>,
    pub run: Run,
}

/// An opened replica. Versions stand oldest first, pending transactions in optimistic order. Each object has bounds.
#[derive(Clone, PartialEq, Eq, Debug)]
pub struct State {
    pub timestamp: u32,
    pub last: [u32; CLIENTS],
    pub readers: Vec<Option<u32>>,
    pub objects: Vec<Vec<Version>>,
    pub bounds: Vec<Bounds>,
    pub pending: Vec<Transaction>,
}

/// `state` is `None` as long as the areas would fail the shape check.
#[derive(Clone, Debug)]
pub struct Independent {
    pub limits: Limits,
    pub state: Option<State>,
    pub coverage: Coverage,
}

impl Bounds {
    pub const WIDEST: Bounds = Bounds { lower: i64::MIN, upper: i64::MAX };

    pub fn ordered(&self) -> bool {
        self.lower <= self.upper
    }

    pub fn contains(&self, value: i64) -> bool {
        (self.lower..=self.upper).contains(&value)
    }
}

impl Run {
    /// Carries out one operation of a run that has not ended, and names what happened.
    pub fn step(&mut self, program: &[Operation], table: &[i64], bounds: &[Bounds]) -> &'static str {
        let operation = program[self.program_counter];
        self.program_counter += 1;
        let event = match operation {
            Operation::Load(register, object) => self.load(register, object, table),
            Operation::Store(register, object) => self.store(register, object, bounds[object]),
            Operation::Set(register, constant) => {
                self.registers[register] = constant;
                "set"
            }
            Operation::Add(to, by) => self.sum(to, self.registers[to].checked_add(self.registers[by]), "add"),
            Operation::Subtract(to, by) => self.sum(to, self.registers[to].checked_sub(self.registers[by]), "subtract"),
            Operation::Skip(register, count) if self.registers[register] < 0 => {
                self.program_counter += count;
                "skip taken"
            }
            Operation::Skip(..) => "skip not taken",
            Operation::Fail => self.stop(1, "fail"),
            Operation::Divide(register, divisor) => self.divide(register, divisor),
        };
        if self.outcome.is_none() && self.program_counter == program.len() {
            self.outcome = Some(0);
        }
        event
    }

    fn load(&mut self, register: usize, object: usize, table: &[i64]) -> &'static str {
        let (value, event) = if let Some(value) = lookup(&self.writes, object) {
            (value, "load of its own store")
        } else if let Some(value) = lookup(&self.reads, object) {
            (value, "load of a value read before")
        } else {
            self.reads.push((object, table[object]));
            (table[object], "load from the table")
        };
        self.registers[register] = value;
        event
    }

    fn store(&mut self, register: usize, object: usize, bounds: Bounds) -> &'static str {
        let value = self.registers[register];
        if !bounds.contains(value) {
            let first = self.writes.is_empty();
            return self.stop(3, outside(value < bounds.lower, first));
        }
        let event = match self.writes.iter_mut().find(|(stored, _)| *stored == object) {
            Some(write) => {
                write.1 = value;
                "store of an object stored before"
            }
            None => {
                self.writes.push((object, value));
                "store"
            }
        };
        if value == bounds.lower {
            "store at its lower bound"
        } else if value == bounds.upper {
            "store at its upper bound"
        } else {
            event
        }
    }

    fn sum(&mut self, to: usize, result: Option<i64>, event: &'static str) -> &'static str {
        match result {
            Some(value) => {
                self.registers[to] = value;
                event
            }
            None => self.stop(2, if event == "add" { "add that overflows" } else { "subtract that overflows" }),
        }
    }

    fn divide(&mut self, register: usize, divisor: i64) -> &'static str {
        let value = self.registers[register];
        self.registers[register] = quotient(value, divisor);
        let (half, even) = (2 * (value % divisor).abs() == divisor, value / divisor % 2 == 0);
        match (half, even, value < 0) {
            (false, _, false) => "divide",
            (false, _, true) => "divide a negative value",
            (true, true, false) => "divide that ends in a half, toward zero",
            (true, true, true) => "divide a negative value that ends in a half, toward zero",
            (true, false, false) => "divide that ends in a half, away from zero",
            (true, false, true) => "divide a negative value that ends in a half, away from zero",
        }
    }

    fn stop(&mut self, outcome: u32, event: &'static str) -> &'static str {
        self.outcome = Some(outcome);
        self.writes.clear();
        event
    }

    pub fn matches(&self, table: &[i64]) -> bool {
        self.reads.iter().all(|&(object, value)| table[object] == value)
    }
}

fn outside(below: bool, first: bool) -> &'static str {
    match (below, first) {
        (true, true) => "store below its lower bound",
        (true, false) => "store below its lower bound, after other stores",
        (false, true) => "store above its upper bound",
        (false, false) => "store above its upper bound, after other stores",
    }
}

fn lookup(entries: &[(usize, i64)], object: usize) -> Option<i64> {
    entries.iter().find(|(named, _)| *named == object).map(|&(_, value)| value)
}

impl State {
    /// The newest value of every object.
    pub fn committed(&self) -> Vec<i64> {
        self.objects.iter().map(|versions| versions.last().unwrap().value).collect()
    }

    pub fn place(&self, client: u32, sequence: u32) -> Option<usize> {
        self.pending.iter().position(|pending| (pending.client, pending.sequence) == (client, sequence))
    }

    pub fn finished(&self) -> usize {
        self.pending.iter().filter(|pending| pending.run.outcome.is_some()).count()
    }

    fn spent(&self, client: u32, sequence: u32) -> bool {
        sequence <= self.last[client as usize]
    }

    fn prune(&mut self) -> usize {
        let before: usize = self.objects.iter().map(Vec::len).sum();
        for versions in &mut self.objects {
            let held: Vec<Version> = (0..versions.len())
                .filter(|&index| held(versions, index, &self.readers))
                .map(|index| versions[index])
                .collect();
            *versions = held;
        }
        before - self.objects.iter().map(Vec::len).sum::<usize>()
    }

    /// The first whose reads no longer match, and all after it, restart. Yields how many of those had begun.
    fn walk(&mut self) -> usize {
        let mut table = self.committed();
        let mut stale = false;
        let mut restarted = 0;
        for pending in &mut self.pending {
            stale = stale || !pending.run.matches(&table);
            if stale {
                restarted += usize::from(pending.run.program_counter > 0);
                pending.run = Run::default();
            }
            overlay(&mut table, &pending.run.writes);
        }
        restarted
    }
}

/// The newest of all, or the newest not above some open reader's timestamp.
pub fn held(versions: &[Version], index: usize, readers: &[Option<u32>]) -> bool {
    index + 1 == versions.len() || readers.iter().flatten().any(|&reader| newest(versions, reader) == Some(index))
}

/// The index of the newest version not above the timestamp.
pub fn newest(versions: &[Version], timestamp: u32) -> Option<usize> {
    (0..versions.len()).rev().find(|&index| versions[index].timestamp <= timestamp)
}

pub fn overlay(table: &mut [i64], writes: &[(usize, i64)]) {
    for &(object, value) in writes {
        table[object] = value;
    }
}

impl Independent {
    pub fn new(limits: Limits) -> Independent {
        Independent { limits, state: None, coverage: Coverage::default() }
    }

    fn commit(&mut self, place: usize) -> Committed {
        let state = self.state.as_mut().unwrap();
        let table = state.committed();
        let Transaction { client, sequence, body, run } = state.pending.remove(place);
        let kept = run.outcome.is_some() && run.matches(&table);
        let (run, operations) =
            if kept { (run, 0) } else { whole(&body, self.limits, &table, &state.bounds, &mut self.coverage) };
        state.timestamp += 1;
        for &(object, value) in &run.writes {
            state.objects[object].push(Version { timestamp: state.timestamp, value });
        }
        self.coverage.add("versions that a commit let go", state.prune() as u64);
        state.last[client as usize] = sequence;
        state.pending.retain(|pending| pending.client != client || pending.sequence > sequence);
        self.coverage.add("begun transactions that restarted", state.walk() as u64);
        let (outcome, stored) = (run.outcome.unwrap(), run.writes.len() as u32);
        Committed { number: 0, outcome, kept: u32::from(kept), stamp: state.timestamp, stored, operations }
    }
}

impl Calls for Independent {
    fn open(&mut self, opening: &Opening) -> u32 {
        let Opening { n, values, lower, upper, stamp: timestamp } = opening;
        let (n, timestamp) = (*n as usize, *timestamp);
        if n < 1 || n > self.limits.objects || [values, lower, upper].iter().any(|list| list.len() != n) {
            return 2;
        }
        let bounds: Vec<Bounds> = lower.iter().zip(upper).map(|(&lower, &upper)| Bounds { lower, upper }).collect();
        if bounds.iter().zip(values).any(|(bounds, &value)| !bounds.ordered() || !bounds.contains(value)) {
            return 15;
        }
        self.state = Some(State {
            timestamp,
            last: [0; CLIENTS],
            readers: vec![None; self.limits.readers],
            objects: values.iter().map(|&value| vec![Version { timestamp, value }]).collect(),
            bounds,
            pending: Vec::new(),
        });
        0
    }

    fn early(&mut self, client: u32, sequence: u32, body: &[u8]) -> u32 {
        let Some(state) = &mut self.state else { return 1 };
        if client as usize >= CLIENTS {
            return 3;
        }
        if state.spent(client, sequence) {
            return 4;
        }
        if state.place(client, sequence).is_some() {
            return 5;
        }
        if decode(body, self.limits.operations, state.objects.len()).is_err() {
            return 6;
        }
        if state.pending.len() >= self.limits.pending {
            return 7;
        }
        state.pending.push(Transaction { client, sequence, body: body.to_vec(), run: Run::default() });
        0
    }

    fn work(&mut self, count: u32) -> Executed {
        let refused = |number| Executed { number, operations: 0, finished: 0 };
        let Some(state) = &mut self.state else { return refused(1) };
        if count > LARGEST_BUDGET {
            return refused(14);
        }
        let mut operations = 0;
        let mut table = state.committed();
        for pending in &mut state.pending {
            let program = decode(&pending.body, self.limits.operations, table.len()).unwrap();
            while pending.run.outcome.is_none() && operations < count {
                self.coverage.count(pending.run.step(&program, &table, &state.bounds));
                operations += 1;
            }
            if pending.run.outcome.is_none() {
                break;
            }
            overlay(&mut table, &pending.run.writes);
        }
        Executed { number: 0, operations, finished: state.finished() as u32 }
    }

    fn deliver_final(&mut self, client: u32, sequence: u32) -> Committed {
        let refused = |number| Committed { number, outcome: 0, kept: 0, stamp: 0, stored: 0, operations: 0 };
        let Some(state) = &mut self.state else { return refused(1) };
        if client as usize >= CLIENTS {
            return refused(3);
        }
        if state.spent(client, sequence) {
            return refused(4);
        }
        let Some(place) = state.place(client, sequence) else { return refused(8) };
        if state.timestamp == u32::MAX {
            return refused(9);
        }
        self.commit(place)
    }

    fn open_reader(&mut self, reader: u32) -> u32 {
        let Some(state) = &mut self.state else { return 1 };
        match state.readers.get_mut(reader as usize) {
            None => 10,
            Some(Some(_)) => 11,
            Some(closed) => {
                *closed = Some(state.timestamp);
                0
            }
        }
    }

    fn read(&self, reader: u32, object: u32) -> Value {
        let refused = |number| Value { number, value: 0, stamp: 0 };
        let Some(state) = &self.state else { return refused(1) };
        match (state.readers.get(reader as usize), state.objects.get(object as usize)) {
            (None, _) => refused(10),
            (Some(None), _) => refused(12),
            (_, None) => refused(13),
            (Some(Some(timestamp)), Some(versions)) => {
                let Version { timestamp: stamp, value } = versions[newest(versions, *timestamp).unwrap()];
                Value { number: 0, value, stamp }
            }
        }
    }

    fn close_reader(&mut self, reader: u32) -> u32 {
        let Some(state) = &mut self.state else { return 1 };
        match state.readers.get_mut(reader as usize) {
            None => 10,
            Some(None) => 12,
            Some(open) => {
                *open = None;
                self.coverage.add("versions that a close let go", state.prune() as u64);
                0
            }
        }
    }

    fn find(&self, client: u32, sequence: u32) -> Found {
        let refused = |number| Found { number, place: 0, length: 0 };
        let Some(state) = &self.state else { return refused(1) };
        if client as usize >= CLIENTS {
            return refused(3);
        }
        let Some(place) = state.place(client, sequence) else { return refused(8) };
        Found { number: 0, place: place as u32, length: state.pending[place].body.len() as u32 }
    }

    fn show_body(&self, client: u32, sequence: u32) -> &[u8] {
        let Some(state) = &self.state else { return &[] };
        state.place(client, sequence).map_or(&[], |place| &state.pending[place].body)
    }

    fn dry_run(&self, client: u32, sequence: u32) -> Preview {
        let mut copy = Independent { state: self.state.clone(), ..Independent::new(self.limits) };
        let committed = copy.deliver_final(client, sequence);
        previewed(committed, copy.state.iter().flat_map(State::committed))
    }
}

/// The body run from its start to its end on one table, and the operations carried out. The place where the run ends
/// counts those passed over too.
fn whole(body: &[u8], limits: Limits, table: &[i64], bounds: &[Bounds], coverage: &mut Coverage) -> (Run, u32) {
    let program = decode(body, limits.operations, table.len()).unwrap();
    let mut run = Run::default();
    let mut operations = 0;
    while run.outcome.is_none() {
        coverage.count(run.step(&program, table, bounds));
        operations += 1;
    }
    coverage.count_if(operations == limits.operations, "final: run again, as many operations as can be");
    coverage.count_if(operations == program.len(), "final: run again, carries out every operation of its body");
    coverage.count_if(operations < run.program_counter, "final: run again, passes operations over");
    coverage.count_if(run.program_counter < program.len(), "final: run again, stops before its last operation");
    (run, operations as u32)
}
