//! "The plain table" of documents 01 and 02: it is fed the calls' arguments only and runs the finally delivered
//! transactions one after another. What the paper leaves out of the comparison (work's counts, kept or run again, the
//! operations of a final delivery) is 0.

use crate::body::{decode, quotient, Operation};
use crate::calls::{previewed, Calls, Opening};
use crate::limits::{Limits, CLIENTS, LARGEST_BUDGET, REGISTERS};
use jobstore::raw::{Committed, Executed, Found, Preview, Value};

#[derive(Clone, Copy, PartialEq, Eq, Debug)]
pub struct Object {
    pub value: i64,
    pub timestamp: u32,
    pub lower: i64,
    pub upper: i64,
}

impl Object {
    /// A test of its own, spelt out: it shares no code with the method's.
    #[allow(clippy::manual_range_contains)]
    fn takes(&self, value: i64) -> bool {
        self.lower <= value && value <= self.upper
    }
}

#[derive(Clone, PartialEq, Eq, Debug)]
pub struct Pending {
    pub client: u32,
    pub sequence: u32,
    pub body: Vec<u8>,
}

/// Before the first accepted opening there are no objects, and its answers say nothing.
#[derive(Clone, PartialEq, Eq, Debug)]
pub struct Serial {
    pub limits: Limits,
    pub timestamp: u32,
    pub objects: Vec<Object>,
    pub last: [u32; CLIENTS],
    pub pending: Vec<Pending>,
    pub readers: Vec<Option<Vec<Object>>>,
}

impl Serial {
    pub fn new(limits: Limits) -> Serial {
        let readers = vec![None; limits.readers];
        Serial { limits, timestamp: 0, objects: Vec::new(), last: [0; CLIENTS], pending: Vec::new(), readers }
    }

    pub fn opened(&self) -> bool {
        !self.objects.is_empty()
    }

    fn place(&self, client: u32, sequence: u32) -> Option<usize> {
        self.pending.iter().position(|pending| pending.client == client && pending.sequence == sequence)
    }

    /// The outcome, and the last value given to each object.
    fn execute(&self, body: &[u8]) -> (u32, Vec<Option<i64>>) {
        let program = decode(body, self.limits.operations, self.objects.len()).unwrap();
        let mut registers = [0i64; REGISTERS];
        let mut table = vec![None; self.objects.len()];
        let mut next = 0;
        while next < program.len() {
            let operation = program[next];
            next += 1;
            match operation {
                Operation::Load(r, o) => registers[r] = table[o].unwrap_or(self.objects[o].value),
                Operation::Store(r, o) if self.objects[o].takes(registers[r]) => table[o] = Some(registers[r]),
                Operation::Store(..) => return (3, table),
                Operation::Set(r, constant) => registers[r] = constant,
                Operation::Add(..) | Operation::Subtract(..) => match sum(&registers, operation) {
                    Ok((r, value)) => registers[r] = value,
                    Err(_) => return (2, table),
                },
                Operation::Skip(r, count) => next += if registers[r] < 0 { count } else { 0 },
                Operation::Fail => return (1, table),
                Operation::Divide(r, divisor) => registers[r] = quotient(registers[r], divisor),
            }
        }
        (0, table)
    }
}

impl Calls for Serial {
    fn open(&mut self, opening: &Opening) -> u32 {
        let Opening { n, ref values, ref lower, ref upper, stamp: timestamp } = *opening;
        let lengths = [values.len(), lower.len(), upper.len()];
        if n == 0 || n > self.limits.objects as u32 || lengths != [n as usize; 3] {
            return 2;
        }
        let object = |o: usize| Object { value: values[o], timestamp, lower: lower[o], upper: upper[o] };
        let objects: Vec<Object> = (0..n as usize).map(object).collect();
        // Nothing is inside bounds of which the lower is above the upper.
        if !objects.iter().all(|object| object.takes(object.value)) {
            return 15;
        }
        *self = Serial { timestamp, objects, ..Serial::new(self.limits) };
        0
    }

    fn early(&mut self, client: u32, sequence: u32, body: &[u8]) -> u32 {
        if client > 15 {
            3
        } else if sequence <= self.last[client as usize] {
            4
        } else if self.place(client, sequence).is_some() {
            5
        } else if decode(body, self.limits.operations, self.objects.len()).is_err() {
            6
        } else if self.pending.len() == self.limits.pending {
            7
        } else {
            self.pending.push(Pending { client, sequence, body: body.to_vec() });
            0
        }
    }

    fn work(&mut self, count: u32) -> Executed {
        Executed { number: if count > LARGEST_BUDGET { 14 } else { 0 }, operations: 0, finished: 0 }
    }

    fn deliver_final(&mut self, client: u32, sequence: u32) -> Committed {
        let refused = |number| Committed { number, outcome: 0, kept: 0, stamp: 0, stored: 0, operations: 0 };
        if client > 15 {
            return refused(3);
        }
        if sequence <= self.last[client as usize] {
            return refused(4);
        }
        let Some(place) = self.place(client, sequence) else { return refused(8) };
        if self.timestamp == u32::MAX {
            return refused(9);
        }
        let (outcome, table) = self.execute(&self.pending[place].body);
        self.timestamp += 1;
        let mut stored = 0;
        for (object, value) in self.objects.iter_mut().zip(table) {
            if let (0, Some(value)) = (outcome, value) {
                *object = Object { value, timestamp: self.timestamp, ..*object };
                stored += 1;
            }
        }
        self.last[client as usize] = sequence;
        self.pending.retain(|pending| pending.client != client || pending.sequence > sequence);
        Committed { number: 0, outcome, kept: 0, stamp: self.timestamp, stored, operations: 0 }
    }

    fn open_reader(&mut self, reader: u32) -> u32 {
        match self.readers.get(reader as usize) {
            None => 10,
            Some(Some(_)) => 11,
            Some(None) => {
                self.readers[reader as usize] = Some(self.objects.clone());
                0
            }
        }
    }

    fn read(&self, reader: u32, object: u32) -> Value {
        let refused = |number| Value { number, value: 0, stamp: 0 };
        let Some(reader) = self.readers.get(reader as usize) else { return refused(10) };
        let Some(copy) = reader else { return refused(12) };
        let Some(object) = copy.get(object as usize) else { return refused(13) };
        Value { number: 0, value: object.value, stamp: object.timestamp }
    }

    fn close_reader(&mut self, reader: u32) -> u32 {
        match self.readers.get(reader as usize) {
            None => 10,
            Some(None) => 12,
            Some(Some(_)) => {
                self.readers[reader as usize] = None;
                0
            }
        }
    }

    fn find(&self, client: u32, sequence: u32) -> Found {
        let refused = |number| Found { number, place: 0, length: 0 };
        if client > 15 {
            return refused(3);
        }
        let Some(place) = self.place(client, sequence) else { return refused(8) };
        Found { number: 0, place: place as u32, length: self.pending[place].body.len() as u32 }
    }

    fn show_body(&self, client: u32, sequence: u32) -> &[u8] {
        self.place(client, sequence).map_or(&[], |place| &self.pending[place].body)
    }

    fn dry_run(&self, client: u32, sequence: u32) -> Preview {
        let mut copy = self.clone();
        let committed = copy.deliver_final(client, sequence);
        previewed(committed, copy.objects.iter().map(|object| object.value))
    }
}

/// An add or subtract in 128 bits: an error where it leaves 64.
fn sum(registers: &[i64; REGISTERS], operation: Operation) -> Result<(usize, i64), std::num::TryFromIntError> {
    let (to, by, sign) = match operation {
        Operation::Add(to, by) => (to, by, 1),
        Operation::Subtract(to, by) => (to, by, -1),
        _ => unreachable!(),
    };
    let result = i128::from(registers[to]) + sign * i128::from(registers[by]);
    Ok((to, i64::try_from(result)?))
}
