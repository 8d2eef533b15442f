//! The proved library, by its exports and by the Rust package, the independent implementation and the plain table side
//! by side: every answer, and both areas after every call.

use crate::body::decode;
use crate::calls::{previewed, Answer, Call, Calls};
use crate::coverage::Coverage;
use crate::face::Face;
use crate::independent::{overlay, Bounds, Independent, Run, State, Version};
use crate::layout::{parse, print};
use crate::library::Library;
use crate::limits::{Limits, STANDARD};
use crate::lists::Mix;
use crate::observation::{observe, observe_ceiling, FIRST_RUN_AGAIN};
use crate::random::Random;
use crate::serial::{Object, Serial};

pub struct Comparison {
    pub limits: Limits,
    pub library: Library,
    pub independent: Independent,
    /// Consulted from the first accepted opening on: it is fed arguments only.
    pub serial: Serial,
    /// The start stamp of the last accepted opening.
    pub start: Option<u32>,
    pub coverage: Coverage,
}

/// What was not equal.
pub type Difference = String;

pub fn same<T: PartialEq + std::fmt::Debug>(what: &str, library: T, expected: T) -> Result<(), Difference> {
    if library == expected {
        Ok(())
    } else {
        Err(format!("{what}: library {library:?}, expected {expected:?}"))
    }
}

impl Comparison {
    /// From areas with any contents.
    pub fn new(library: Library) -> Comparison {
        let limits = STANDARD;
        let mut independent = Independent::new(limits);
        independent.state = parse(limits, &library.record, &library.bodies).ok();
        let (serial, coverage) = (Serial::new(limits), Coverage::default());
        Comparison { limits, library, independent, serial, start: None, coverage }
    }

    /// One call on all of them; its answer, if nothing differs.
    pub fn apply(&mut self, call: &Call) -> Result<Answer, Difference> {
        let before = self.library.clone();
        let state_before = self.independent.state.clone();
        let answer = self.library.perform(call);
        let expected = self.expected(call);
        same("answer", &answer, &expected)?;
        self.compare_face(call, &before, &answer)?;
        self.compare_serial(call, &answer)?;
        if answer.refused() {
            same("areas changed by a refusal", self.library == before, true)?;
        }
        match *call {
            Call::ShowBody { client, sequence } => self.compare_part(client, sequence)?,
            Call::DryRun { client, sequence } | Call::Final { client, sequence } => {
                self.compare_dry_run(client, sequence, &before)?;
            }
            _ => {}
        }
        self.compare_areas(&before)?;
        self.compare_ceiling()?;
        if let (Call::Open(opening), Answer::Number(0)) = (call, &answer) {
            self.start = Some(opening.stamp);
        }
        let (before, after) = (state_before.as_ref(), self.independent.state.as_ref());
        observe(&mut self.coverage, self.limits, self.start, call, &answer, before, after);
        Ok(answer)
    }

    fn lengths_fit(&self) -> bool {
        let lengths = (self.library.record.len(), self.library.bodies.len());
        lengths == (self.limits.record_length(), self.limits.bodies_length())
    }

    fn expected(&mut self, call: &Call) -> Answer {
        match call {
            Call::Open(_) if !self.lengths_fit() => Answer::Number(1),
            _ => self.independent.perform(call),
        }
    }

    /// The same call by the Rust package. Its opening takes no number of objects beside the values.
    fn compare_face(&self, call: &Call, before: &Library, answer: &Answer) -> Result<(), Difference> {
        if matches!(call, Call::Open(opening) if opening.n as usize != opening.values.len()) {
            return Ok(());
        }
        let mut face = Face::from(before.clone());
        same("answer by the Rust package", &face.perform(call), answer)?;
        same("areas by the Rust package", face.into_areas() == self.library, true)
    }

    fn compare_serial(&mut self, call: &Call, answer: &Answer) -> Result<(), Difference> {
        let opening = matches!(call, Call::Open(_)) && *answer == Answer::Number(0);
        if !opening && !self.serial.opened() {
            return Ok(());
        }
        let plain = self.serial.perform(call);
        same("answer and the plain table's", &answer.seen(), &plain)?;
        self.compare_tables()
    }

    /// All that the plain table holds, with what the independent state says of it.
    fn compare_tables(&self) -> Result<(), Difference> {
        let (state, serial) = (self.independent.state.as_ref().unwrap(), &self.serial);
        same("stamp", state.timestamp, serial.timestamp)?;
        same("last numbers", state.last, serial.last)?;
        same("committed table", &committed_objects(state), &serial.objects)?;
        same("pending", state.pending.len(), serial.pending.len())?;
        for (pending, plain) in state.pending.iter().zip(&serial.pending) {
            let key = (pending.client, pending.sequence, &pending.body);
            same("pending", key, (plain.client, plain.sequence, &plain.body))?;
        }
        for (reader, copy) in serial.readers.iter().enumerate() {
            same("readers", state.readers[reader].is_some(), copy.is_some())?;
            for object in 0..copy.as_ref().map_or(0, Vec::len) as u32 {
                let seen = self.independent.read(reader as u32, object);
                same("reader's table", seen, serial.read(reader as u32, object))?;
            }
        }
        early_results(self.limits, state)
    }

    /// Show body yields a part of the lent area itself.
    fn compare_part(&self, client: u32, sequence: u32) -> Result<(), Difference> {
        let part = self.library.show_body(client, sequence);
        let found = self.independent.find(client, sequence);
        same("empty exactly when Find refuses", part.is_empty(), found.number != 0)?;
        if found.number == 0 {
            let start = found.place as usize * self.limits.place_length();
            let very = &self.library.bodies[start..start + found.length as usize];
            same("the very bytes", part.as_ptr_range(), very.as_ptr_range())?;
        }
        Ok(())
    }

    /// A dry run changes no byte, and the final delivery does on a copy of both areas what it told. This is asked of every
    /// dry run, and of one right before every final delivery.
    fn compare_dry_run(&self, client: u32, sequence: u32, before: &Library) -> Result<(), Difference> {
        let mut copy = before.clone();
        let preview = before.dry_run(client, sequence);
        same("areas changed by a dry run", *before == copy, true)?;
        let committed = copy.deliver_final(client, sequence);
        let after = parse(self.limits, &copy.record, &copy.bodies);
        let delivered = previewed(committed, after.iter().flat_map(State::committed));
        same("dry run and the final delivery on a copy", preview, delivered)
    }

    fn compare_areas(&self, before: &Library) -> Result<(), Difference> {
        let Library { record, bodies } = &self.library;
        let parsed = parse(self.limits, record, bodies);
        let Some(state) = &self.independent.state else {
            same("unshaped areas changed", &self.library == before, true)?;
            return same("areas pass the shape check", parsed.is_ok(), false);
        };
        same_states(&parsed.map_err(|sentence| format!("areas fail the shape check: {sentence}"))?, state)?;
        let (printed_record, printed_bodies) = print(self.limits, state);
        same("record area's bytes", *record == printed_record, true)?;
        same("body area's bytes", *bodies == printed_bodies, true)
    }

    /// Work on a copy, with a body's most operations for each pending transaction: whatever early results the areas hold,
    /// it finishes all of them.
    pub fn compare_ceiling(&mut self) -> Result<(), Difference> {
        let Some(state) = &self.independent.state else { return Ok(()) };
        let pending = state.pending.len();
        let count = (self.limits.operations * pending) as u32;
        let executed = self.library.clone().work(count);
        same("work for all pending", (executed.number, executed.finished as usize), (0, pending))?;
        same("work for all pending: no more than its count", executed.operations <= count, true)?;
        observe_ceiling(&mut self.coverage, self.limits, state, executed.operations == count);
        Ok(())
    }
}

/// The newest version and the bounds of every object, as the plain table has them.
pub fn committed_objects(state: &State) -> Vec<Object> {
    let object = |(versions, bounds): (&Vec<Version>, &Bounds)| {
        let Version { timestamp, value } = versions[versions.len() - 1];
        Object { value, timestamp, lower: bounds.lower, upper: bounds.upper }
    };
    state.objects.iter().zip(&state.bounds).map(object).collect()
}

/// Part by part, so that a report is short.
fn same_states(library: &State, expected: &State) -> Result<(), Difference> {
    same("areas: stamp", library.timestamp, expected.timestamp)?;
    same("areas: last numbers", library.last, expected.last)?;
    same("areas: readers", &library.readers, &expected.readers)?;
    same("areas: n", library.objects.len(), expected.objects.len())?;
    for (object, (versions, others)) in library.objects.iter().zip(&expected.objects).enumerate() {
        same(&format!("areas: versions of object {object}"), versions, others)?;
    }
    same("areas: bounds", &library.bounds, &expected.bounds)?;
    same("areas: number pending", library.pending.len(), expected.pending.len())?;
    for (place, (pending, other)) in library.pending.iter().zip(&expected.pending).enumerate() {
        same(&format!("areas: pending at place {place}"), pending, other)?;
    }
    same("areas: state", library == expected, true)
}

/// "Early results on record": they equal those of running the pending transactions in early order.
fn early_results(limits: Limits, state: &State) -> Result<(), Difference> {
    let mut table = state.committed();
    for pending in &state.pending {
        let recorded = &pending.run;
        let program = decode(&pending.body, limits.operations, table.len()).unwrap();
        let mut run = Run::default();
        while run.outcome.is_none() && run.program_counter < recorded.program_counter {
            run.step(&program, &table, &state.bounds);
        }
        same("early results on record", recorded, &run)?;
        overlay(&mut table, &run.writes);
    }
    Ok(())
}

/// One list, drawn from its seed. On a difference the shortest list found that shows it is in the report.
pub fn compare_list(seed: u64, coverage: &mut Coverage) -> Result<usize, Difference> {
    let mut random = Random::new(seed);
    let mix = Mix::new(&mut random, STANDARD);
    let mut comparison = Comparison::new(Library::new());
    let mut calls = Vec::new();
    let unopened = if random.percent(10) { random.between(1, 12) } else { 0 };
    let length = random.between(10, 220);
    while calls.len() < unopened + length {
        let call = match calls.len() {
            position if position == unopened => Call::Open(mix.opening(&mut random)),
            _ => mix.call(&mut random, comparison.independent.state.as_ref()),
        };
        calls.push(call);
        if let Err(difference) = comparison.apply(calls.last().unwrap()) {
            return Err(report(seed, &difference, calls));
        }
    }
    coverage.join(&comparison.coverage);
    coverage.join(&comparison.independent.coverage);
    Ok(calls.len())
}

fn report(seed: u64, difference: &str, calls: Vec<Call>) -> Difference {
    let shortest = shorten(calls);
    let mut lines = format!("compare --lists 1 --seed {seed}\n{difference}\nshortest list found:\n");
    for call in &shortest {
        lines += &format!("  {call:?}\n");
    }
    lines + &format!("difference there: {:?}\n", repeat(&shortest).err())
}

/// The calls once more from areas of zeros.
pub fn repeat(calls: &[Call]) -> Result<(), Difference> {
    let mut comparison = Comparison::new(Library::new());
    calls.iter().try_for_each(|call| comparison.apply(call).map(drop))
}

/// Drops calls, many at once and then fewer, as long as some difference stays.
fn shorten(mut calls: Vec<Call>) -> Vec<Call> {
    let mut size = calls.len() / 2;
    while size >= 1 {
        let mut start = 0;
        while start < calls.len() {
            let mut fewer = calls.clone();
            fewer.drain(start..(start + size).min(calls.len()));
            if repeat(&fewer).is_err() {
                calls = fewer;
            } else {
                start += size;
            }
        }
        size /= 2;
    }
    calls
}

/// Lists from this seed on, and what they came across.
pub fn compare_lists(seed: u64, lists: u64) -> Result<Coverage, Difference> {
    let mut coverage = Coverage::default();
    for list in 0..lists {
        let calls = compare_list(seed.wrapping_add(list), &mut coverage)?;
        coverage.add("calls", calls as u64);
    }
    coverage.add("lists", lists);
    same(FIRST_RUN_AGAIN, coverage.of(FIRST_RUN_AGAIN), 0)?;
    Ok(coverage)
}
