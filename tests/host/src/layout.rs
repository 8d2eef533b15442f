//! The two areas as docs/LAYOUT.md describes them: a reader that asks all that the papers' shape check asks and that
//! unused bytes are 0, and a printer.

use crate::body::decode;
use crate::independent::{held, newest, Bounds, Run, State, Transaction, Version};
use crate::limits::{Limits, CLIENTS, REGISTERS};

/// First cells of the parts of the record area.
pub const TIMESTAMP: usize = 0;
pub const LASTS: usize = 1;
pub const READERS: usize = LASTS + CLIENTS;

/// Cells in a row.
pub const KEY: usize = 0;
pub const PROGRAM_COUNTER: usize = 1;
pub const OUTCOME: usize = 2;
pub const FIRST_REGISTER: usize = 3;
pub const READ_COUNT: usize = FIRST_REGISTER + REGISTERS;
pub const ENTRY_COUNT: usize = READ_COUNT + 1;
pub const ENTRIES: usize = ENTRY_COUNT + 1;

impl Limits {
    pub fn object_count(&self) -> usize {
        READERS + self.readers
    }
    /// Cells in an object: its bounds stand behind the places of its versions.
    pub fn lower(&self) -> usize {
        1 + 2 * (self.readers + 1)
    }
    pub fn upper(&self) -> usize {
        self.lower() + 1
    }
    pub fn object_cells(&self) -> usize {
        self.upper() + 1
    }
    pub fn object(&self, index: usize) -> usize {
        self.object_count() + 1 + index * self.object_cells()
    }
    pub fn pending_count(&self) -> usize {
        self.object(self.objects)
    }
    pub fn row_cells(&self) -> usize {
        ENTRIES + 2 * self.operations
    }
    pub fn row(&self, index: usize) -> usize {
        self.pending_count() + 1 + index * self.row_cells()
    }
    pub fn record_length(&self) -> usize {
        8 * self.row(self.pending)
    }
    /// Bytes of one place of the body area.
    pub fn place_length(&self) -> usize {
        1 + 11 * self.operations
    }
    pub fn bodies_length(&self) -> usize {
        self.pending * self.place_length()
    }
}

pub fn cell(record: &[u8], index: usize) -> u64 {
    u64::from_le_bytes(record[8 * index..8 * index + 8].try_into().unwrap())
}

pub fn set_cell(record: &mut [u8], index: usize, value: u64) {
    record[8 * index..8 * index + 8].copy_from_slice(&value.to_le_bytes());
}

/// Why areas fail the shape check: the sentence of the papers, shortened.
pub type Unshaped = &'static str;

fn ask(holds: bool, sentence: Unshaped) -> Result<(), Unshaped> {
    if holds {
        Ok(())
    } else {
        Err(sentence)
    }
}

/// Every sentence that areas can fail.
pub const SENTENCES: &[Unshaped] = &[
    "record area of its length",
    "body area of its length",
    "timestamp of 32 bits",
    "n within its limit",
    "n at least 1",
    "pending count within its limit",
    "unused bytes 0",
    "last numbers of 32 bits",
    "reader stamps not above the unit's",
    "versions within their limit",
    "at least one version",
    "version stamps of 32 bits",
    "version stamps rising",
    "version stamps not above the unit's",
    "a version for every open reader",
    "each version held by the rule",
    "lower bounds not above their upper ones",
    "versions inside their object's bounds",
    "a client 0 to 15",
    "pending keys unspent",
    "pending keys distinct",
    "bodies well formed",
    "finished first, then at most one partly run",
    "place at most m",
    "outcome 0 to 3",
    "reads and stores no more than the place",
    "reads no more than reads and stores",
    "a transaction not begun has no outcome",
    "a transaction not begun has registers 0",
    "no stores with 1, 2 or 3",
    "stores inside their object's bounds",
    "reads and stores name objects below n",
    "reads and stores name different objects",
];

/// Two areas being read.
struct Reader<'a> {
    limits: Limits,
    record: &'a [u8],
    bodies: &'a [u8],
}

pub fn parse(limits: Limits, record: &[u8], bodies: &[u8]) -> Result<State, Unshaped> {
    ask(record.len() == limits.record_length(), "record area of its length")?;
    ask(bodies.len() == limits.bodies_length(), "body area of its length")?;
    let areas = Reader { limits, record, bodies };
    let timestamp = areas.narrow(TIMESTAMP, "timestamp of 32 bits")?;
    let mut state = State {
        timestamp,
        last: areas.lasts()?,
        readers: areas.readers(timestamp)?,
        objects: Vec::new(),
        bounds: Vec::new(),
        pending: Vec::new(),
    };
    let n = areas.count(limits.object_count(), limits.objects, "n within its limit")?;
    ask(n >= 1, "n at least 1")?;
    for index in 0..n {
        state.objects.push(areas.object(index, timestamp, &state.readers)?);
        state.bounds.push(areas.bounds(index, &state.objects[index])?);
    }
    let pending = areas.count(limits.pending_count(), limits.pending, "pending count within its limit")?;
    for index in 0..pending {
        let transaction = areas.transaction(index, &state)?;
        state.pending.push(transaction);
    }
    // What the reader did not look at is unused, and the printer leaves it 0.
    ask(print(limits, &state) == (record.to_vec(), bodies.to_vec()), "unused bytes 0")?;
    Ok(state)
}

impl Reader<'_> {
    fn cell(&self, index: usize) -> u64 {
        cell(self.record, index)
    }

    fn signed(&self, index: usize) -> i64 {
        self.cell(index) as i64
    }

    fn narrow(&self, index: usize, sentence: Unshaped) -> Result<u32, Unshaped> {
        u32::try_from(self.cell(index)).map_err(|_| sentence)
    }

    fn count(&self, index: usize, limit: usize, sentence: Unshaped) -> Result<usize, Unshaped> {
        let count = self.cell(index);
        ask(count <= limit as u64, sentence)?;
        Ok(count as usize)
    }

    fn lasts(&self) -> Result<[u32; CLIENTS], Unshaped> {
        let mut lasts = [0; CLIENTS];
        for (client, last) in lasts.iter_mut().enumerate() {
            *last = self.narrow(LASTS + client, "last numbers of 32 bits")?;
        }
        Ok(lasts)
    }

    fn readers(&self, timestamp: u32) -> Result<Vec<Option<u32>>, Unshaped> {
        let reader = |index| {
            let Some(taken) = self.cell(READERS + index).checked_sub(1) else { return Ok(None) };
            ask(taken <= u64::from(timestamp), "reader stamps not above the unit's")?;
            Ok(Some(taken as u32))
        };
        (0..self.limits.readers).map(reader).collect()
    }

    /// An object's versions, oldest first.
    fn object(&self, index: usize, timestamp: u32, readers: &[Option<u32>]) -> Result<Vec<Version>, Unshaped> {
        let at = self.limits.object(index);
        let count = self.count(at, self.limits.readers + 1, "versions within their limit")?;
        ask(count >= 1, "at least one version")?;
        let mut versions = Vec::new();
        for j in (0..count).rev() {
            let stamp = self.narrow(at + 1 + 2 * j, "version stamps of 32 bits")?;
            versions.push(Version { timestamp: stamp, value: self.signed(at + 2 + 2 * j) });
        }
        ask(versions.windows(2).all(|pair| pair[0].timestamp < pair[1].timestamp), "version stamps rising")?;
        ask(versions[count - 1].timestamp <= timestamp, "version stamps not above the unit's")?;
        let one_each = readers.iter().flatten().all(|&reader| newest(&versions, reader).is_some());
        ask(one_each, "a version for every open reader")?;
        ask((0..count).all(|index| held(&versions, index, readers)), "each version held by the rule")?;
        Ok(versions)
    }

    fn bounds(&self, index: usize, versions: &[Version]) -> Result<Bounds, Unshaped> {
        let at = self.limits.object(index);
        let bounds =
            Bounds { lower: self.signed(at + self.limits.lower()), upper: self.signed(at + self.limits.upper()) };
        ask(bounds.ordered(), "lower bounds not above their upper ones")?;
        let inside = versions.iter().all(|version| bounds.contains(version.value));
        ask(inside, "versions inside their object's bounds")?;
        Ok(bounds)
    }

    /// `state` holds all that stands before this row.
    fn transaction(&self, index: usize, state: &State) -> Result<Transaction, Unshaped> {
        let key = self.cell(self.limits.row(index) + KEY);
        let (client, sequence) = ((key >> 32) as u32, key as u32);
        ask((client as usize) < CLIENTS, "a client 0 to 15")?;
        ask(sequence > state.last[client as usize], "pending keys unspent")?;
        ask(state.place(client, sequence).is_none(), "pending keys distinct")?;
        let place = &self.bodies[index * self.limits.place_length()..(index + 1) * self.limits.place_length()];
        let m = usize::from(place[0]);
        ask(m <= self.limits.operations, "bodies well formed")?;
        let body = place[..1 + 11 * m].to_vec();
        ask(decode(&body, self.limits.operations, state.objects.len()).is_ok(), "bodies well formed")?;
        let run = self.run(index, m, state.objects.len())?;
        let inside = run.writes.iter().all(|&(object, value)| state.bounds[object].contains(value));
        ask(inside, "stores inside their object's bounds")?;
        let run_before = state.pending.last().map(|before| &before.run);
        let finished_before = run_before.map_or(true, |before| before.outcome.is_some());
        ask(finished_before || run.program_counter == 0, "finished first, then at most one partly run")?;
        Ok(Transaction { client, sequence, body, run })
    }

    fn run(&self, index: usize, m: usize, n: usize) -> Result<Run, Unshaped> {
        let row = self.limits.row(index);
        let program_counter = self.count(row + PROGRAM_COUNTER, m, "place at most m")?;
        let outcome = self.count(row + OUTCOME, 3, "outcome 0 to 3")? as u32;
        let entries = self.count(row + ENTRY_COUNT, program_counter, "reads and stores no more than the place")?;
        let reads = self.count(row + READ_COUNT, entries, "reads no more than reads and stores")?;
        let set = |from, to| self.entries(row, from, to, n);
        let mut run = Run { program_counter, reads: set(0, reads)?, writes: set(reads, entries)?, ..Run::default() };
        for (r, register) in run.registers.iter_mut().enumerate() {
            *register = self.signed(row + FIRST_REGISTER + r);
        }
        if program_counter == 0 {
            ask(outcome == 0, "a transaction not begun has no outcome")?;
            ask(run.registers == [0; REGISTERS], "a transaction not begun has registers 0")?;
        } else if outcome != 0 || program_counter == m {
            run.outcome = Some(outcome);
            ask(outcome == 0 || run.writes.is_empty(), "no stores with 1, 2 or 3")?;
        }
        Ok(run)
    }

    /// Entries of a row that name different objects below n.
    fn entries(&self, row: usize, from: usize, to: usize, n: usize) -> Result<Vec<(usize, i64)>, Unshaped> {
        let mut entries: Vec<(usize, i64)> = Vec::new();
        for j in from..to {
            let object = self.cell(row + ENTRIES + 2 * j);
            ask(object < n as u64, "reads and stores name objects below n")?;
            let object = object as usize;
            ask(entries.iter().all(|(named, _)| *named != object), "reads and stores name different objects")?;
            entries.push((object, self.signed(row + ENTRIES + 2 * j + 1)));
        }
        Ok(entries)
    }
}

/// The record area and the body area of a state within its limits.
pub fn print(limits: Limits, state: &State) -> (Vec<u8>, Vec<u8>) {
    let mut record = vec![0; limits.record_length()];
    let mut put = |index, value| set_cell(&mut record, index, value);
    put(TIMESTAMP, u64::from(state.timestamp));
    for (client, last) in state.last.iter().enumerate() {
        put(LASTS + client, u64::from(*last));
    }
    for (index, reader) in state.readers.iter().enumerate() {
        put(READERS + index, reader.map_or(0, |timestamp| u64::from(timestamp) + 1));
    }
    put(limits.object_count(), state.objects.len() as u64);
    for (index, versions) in state.objects.iter().enumerate() {
        let at = limits.object(index);
        put(at, versions.len() as u64);
        for (j, version) in versions.iter().rev().enumerate() {
            put(at + 1 + 2 * j, u64::from(version.timestamp));
            put(at + 2 + 2 * j, version.value as u64);
        }
        put(at + limits.lower(), state.bounds[index].lower as u64);
        put(at + limits.upper(), state.bounds[index].upper as u64);
    }
    put(limits.pending_count(), state.pending.len() as u64);
    for (index, transaction) in state.pending.iter().enumerate() {
        print_row(limits.row(index), transaction, &mut put);
    }
    (record, print_bodies(limits, &state.pending))
}

fn print_row(row: usize, transaction: &Transaction, put: &mut impl FnMut(usize, u64)) {
    let run = &transaction.run;
    put(row + KEY, u64::from(transaction.client) << 32 | u64::from(transaction.sequence));
    put(row + PROGRAM_COUNTER, run.program_counter as u64);
    put(row + OUTCOME, u64::from(run.outcome.unwrap_or(0)));
    for (r, register) in run.registers.iter().enumerate() {
        put(row + FIRST_REGISTER + r, *register as u64);
    }
    put(row + READ_COUNT, run.reads.len() as u64);
    put(row + ENTRY_COUNT, (run.reads.len() + run.writes.len()) as u64);
    for (j, (object, value)) in run.reads.iter().chain(&run.writes).enumerate() {
        put(row + ENTRIES + 2 * j, *object as u64);
        put(row + ENTRIES + 2 * j + 1, *value as u64);
    }
}

fn print_bodies(limits: Limits, pending: &[Transaction]) -> Vec<u8> {
    let mut bodies = vec![0; limits.bodies_length()];
    for (place, transaction) in bodies.chunks_mut(limits.place_length()).zip(pending) {
        place[..transaction.body.len()].copy_from_slice(&transaction.body);
    }
    bodies
}

#[cfg(test)]
mod tests {
    use crate::limits::{SMALL, STANDARD};

    #[test]
    fn lengths_as_written_down() {
        assert_eq!((STANDARD.record_length(), STANDARD.bodies_length()), (30_160, 5_664));
        assert_eq!((SMALL.record_length(), SMALL.bodies_length()), (2_920, 712));
        assert_eq!((STANDARD.object_count(), STANDARD.object(1), STANDARD.pending_count()), (24, 44, 2_457));
        assert_eq!((STANDARD.lower(), STANDARD.upper(), STANDARD.object_cells()), (17, 18, 19));
        assert_eq!((STANDARD.row(0), STANDARD.row(1)), (2_458, 2_499));
    }
}
