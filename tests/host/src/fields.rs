//! Every field of two areas: where it stands, and what it is. A class is a kind of field that the check of the areas
//! treats alike, so that each class can be damaged and counted.

use crate::body::{decode, Operation};
use crate::independent::{Bounds, State, Transaction};
use crate::layout::{
    ENTRIES, ENTRY_COUNT, FIRST_REGISTER, KEY, LASTS, OUTCOME, PROGRAM_COUNTER, READERS, READ_COUNT, TIMESTAMP,
};
use crate::limits::{Limits, CLIENTS, REGISTERS};

#[derive(Clone, Copy, PartialEq, Eq, Debug)]
pub enum Place {
    /// Of the record area.
    Cell(usize),
    /// Of the body area.
    Byte(usize),
}

/// What is to be seen if the field is damaged.
#[derive(Clone, Copy, PartialEq, Eq, Debug)]
pub enum Meaning {
    /// 0, and nothing else passes.
    Unused,
    /// Whatever it holds passes.
    Free,
    /// What lies inside passes, and nothing else.
    Inside(Bounds),
    /// Some of what it may hold passes.
    Ruled,
}

#[derive(Clone, Debug)]
pub struct Field {
    pub place: Place,
    pub class: String,
    pub meaning: Meaning,
}

/// The fields of a state's areas, each byte of them in one.
pub fn fields(limits: Limits, state: &State) -> Vec<Field> {
    let mut all = Fields { list: Vec::new() };
    all.cell(TIMESTAMP, "stamp", Meaning::Ruled);
    (0..CLIENTS).for_each(|client| all.cell(LASTS + client, "last number", Meaning::Ruled));
    for (index, reader) in state.readers.iter().enumerate() {
        all.cell(READERS + index, if reader.is_some() { "open reader" } else { "closed reader" }, Meaning::Ruled);
    }
    all.cell(limits.object_count(), "number of objects", Meaning::Ruled);
    (0..limits.objects).for_each(|object| all.object(limits, object, state));
    all.cell(limits.pending_count(), "number pending", Meaning::Ruled);
    for place in 0..limits.pending {
        all.row(limits, place, state);
        all.body(limits, place * limits.place_length(), state.pending.get(place), state.objects.len());
    }
    all.list
}

/// Those listed so far.
struct Fields {
    list: Vec<Field>,
}

impl Fields {
    fn put(&mut self, place: Place, class: String, meaning: Meaning) {
        self.list.push(Field { place, class, meaning });
    }

    fn cell(&mut self, at: usize, class: &str, meaning: Meaning) {
        self.put(Place::Cell(at), class.to_string(), meaning);
    }

    fn object(&mut self, limits: Limits, object: usize, state: &State) {
        let at = limits.object(object);
        let Some(versions) = state.objects.get(object).map(Vec::len) else {
            let end = at + limits.object_cells();
            return (at..end).for_each(|cell| self.cell(cell, "unused object", Meaning::Unused));
        };
        self.cell(at, &format!("count of {versions} versions"), Meaning::Ruled);
        let inside = Meaning::Inside(state.bounds[object]);
        for j in 0..versions {
            self.cell(at + 1 + 2 * j, &format!("stamp {} of {versions}", j + 1), Meaning::Ruled);
            self.cell(at + 2 + 2 * j, &format!("value {} of {versions}", j + 1), inside);
        }
        let (lower, upper) = (at + limits.lower(), at + limits.upper());
        let tail = format!("tail behind {versions} versions");
        (at + 1 + 2 * versions..lower).for_each(|cell| self.cell(cell, &tail, Meaning::Unused));
        let narrowest = narrowest(state, object);
        self.cell(lower, "lower bound", Meaning::Inside(Bounds { upper: narrowest.lower, ..Bounds::WIDEST }));
        self.cell(upper, "upper bound", Meaning::Inside(Bounds { lower: narrowest.upper, ..Bounds::WIDEST }));
    }

    fn row(&mut self, limits: Limits, place: usize, state: &State) {
        let at = limits.row(place);
        let end = at + limits.row_cells();
        let Some(Transaction { run, .. }) = state.pending.get(place) else {
            return (at..end).for_each(|cell| self.cell(cell, "unused row", Meaning::Unused));
        };
        let begun = run.program_counter > 0;
        let kind = match run.outcome {
            Some(outcome) => format!("outcome {outcome}"),
            None if begun => "partly run".to_string(),
            None => "not begun".to_string(),
        };
        let free = if begun { Meaning::Free } else { Meaning::Unused };
        self.cell(at + KEY, &format!("key, {kind}"), Meaning::Ruled);
        self.cell(at + PROGRAM_COUNTER, &format!("place, {kind}"), Meaning::Ruled);
        self.cell(at + OUTCOME, &format!("outcome, {kind}"), Meaning::Ruled);
        (0..REGISTERS).for_each(|r| self.cell(at + FIRST_REGISTER + r, &format!("register, {kind}"), free));
        self.cell(at + READ_COUNT, &format!("number of reads, {kind}"), Meaning::Ruled);
        self.cell(at + ENTRY_COUNT, &format!("number of entries, {kind}"), Meaning::Ruled);
        let reads = run.reads.iter().map(|_| ("read", Meaning::Free));
        let stores = run.writes.iter().map(|&(object, _)| ("store", Meaning::Inside(state.bounds[object])));
        for (j, (set, meaning)) in reads.chain(stores).enumerate() {
            self.cell(at + ENTRIES + 2 * j, &format!("{set}'s object, {kind}"), Meaning::Ruled);
            self.cell(at + ENTRIES + 2 * j + 1, &format!("{set}'s value, {kind}"), meaning);
        }
        let entries = run.reads.len() + run.writes.len();
        let tail = format!("tail of a row, {kind}");
        (at + ENTRIES + 2 * entries..end).for_each(|cell| self.cell(cell, &tail, Meaning::Unused));
    }

    fn body(&mut self, limits: Limits, at: usize, pending: Option<&Transaction>, n: usize) {
        let end = at + limits.place_length();
        let program = pending.map_or(Vec::new(), |pending| decode(&pending.body, limits.operations, n).unwrap());
        let unused = if program.is_empty() { "unused body" } else { "tail of a body" };
        let m = program.len();
        if m > 0 {
            self.put(Place::Byte(at), "number of operations".to_string(), Meaning::Ruled);
        }
        for (k, operation) in program.iter().enumerate() {
            let kind = kind(operation);
            let constant = if kind == "set" { Meaning::Free } else { Meaning::Ruled };
            for (part, byte) in ["kind", "first", "second"].iter().zip(at + 1 + 3 * k..) {
                self.put(Place::Byte(byte), format!("{part} of a {kind}"), Meaning::Ruled);
            }
            for byte in (at + 1 + 3 * m + 8 * k..).take(8) {
                self.put(Place::Byte(byte), format!("constant of a {kind}"), constant);
            }
        }
        let used = if m > 0 { 1 + 11 * m } else { 0 };
        (at + used..end).for_each(|byte| self.put(Place::Byte(byte), unused.to_string(), Meaning::Unused));
    }
}

/// The narrowest bounds that the object can have: around its versions and the stores on record.
pub fn narrowest(state: &State, object: usize) -> Bounds {
    let stores = state.pending.iter().flat_map(|pending| &pending.run.writes);
    let stored = stores.filter(|write| write.0 == object).map(|write| write.1);
    let held: Vec<i64> = state.objects[object].iter().map(|version| version.value).chain(stored).collect();
    Bounds { lower: *held.iter().min().unwrap(), upper: *held.iter().max().unwrap() }
}

pub const KINDS: [&str; 8] = ["load", "store", "set", "add", "subtract", "skip", "fail", "divide"];

fn kind(operation: &Operation) -> &'static str {
    match operation {
        Operation::Load(..) => "load",
        Operation::Store(..) => "store",
        Operation::Set(..) => "set",
        Operation::Add(..) => "add",
        Operation::Subtract(..) => "subtract",
        Operation::Skip(..) => "skip",
        Operation::Fail => "fail",
        Operation::Divide(..) => "divide",
    }
}
