//! The specimens, damaged in each field. Whether the library answers 1 is for the reader of the layout to say; on areas
//! that still pass, the independent implementation takes up what they hold.

use crate::bodies::{valid, Taste};
use crate::calls::{Call, Calls};
use crate::comparison::{same, Comparison, Difference};
use crate::coverage::Coverage;
use crate::fields::{fields, Field, Meaning, Place, KINDS};
use crate::independent::{Bounds, State, Version};
use crate::layout::{cell, parse, print, set_cell};
use crate::library::Library;
use crate::limits::STANDARD;
use crate::random::Random;
use crate::specimens::{Specimen, SPECIMENS};
use std::fmt::Display;

/// What a field takes in turn: what is near what it holds, and what other fields hold.
fn others(random: &mut Random, areas: &Library, state: &State, field: &Field) -> Vec<u64> {
    let (old, bits) = match field.place {
        Place::Cell(at) => (cell(&areas.record, at), 64),
        Place::Byte(at) => (u64::from(areas.bodies[at]), 8),
    };
    let flipped = old ^ 1 << random.below(bits);
    let (stamp, n) = (u64::from(state.timestamp), state.objects.len() as u64);
    let reader = random.pick(&state.readers).map_or(0, |taken| u64::from(taken) + 1);
    let small = [2, 3, 4, 5, 7, 8, 9, 15, 16, 17, 31, 32, 33, 128, 129, n, n + 1, stamp, stamp + 1, stamp + 2];
    let wide = [reader, reader.wrapping_sub(1), u64::from(u32::MAX), 1 << 32, 1 << 63, u64::MAX];
    let (small, wide) = (random.pick(&small), random.pick(&wide));
    let mut values = match field.meaning {
        Meaning::Unused => vec![flipped],
        Meaning::Free => vec![flipped, random.next()],
        Meaning::Inside(Bounds { lower, upper }) => {
            [lower, upper, lower.wrapping_sub(1), upper.wrapping_add(1)].map(|edge| edge as u64).to_vec()
        }
        Meaning::Ruled => vec![0, 1, old.wrapping_add(1), old.wrapping_sub(1), flipped, small, wide],
    };
    values.retain(|value| value & (u64::MAX >> (64 - bits)) != old);
    values
}

fn write(areas: &mut Library, place: Place, value: u64) {
    match place {
        Place::Cell(at) => set_cell(&mut areas.record, at, value),
        Place::Byte(at) => areas.bodies[at] = value as u8,
    }
}

fn printed(state: &State) -> Library {
    let (record, bodies) = print(STANDARD, state);
    Library { record, bodies }
}

/// Calls that the undamaged replica takes, one of each kind where it can: each damage meets one of them.
fn calls(random: &mut Random, state: &State) -> Vec<Call> {
    let (client, sequence) = state.pending.first().map_or((1, u32::MAX), |first| (first.client, first.sequence));
    let open = state.readers.iter().position(Option::is_some).unwrap_or(0) as u32;
    let closed = state.readers.iter().position(Option::is_none).unwrap_or(0) as u32;
    let n = state.objects.len();
    let taste = Taste { most: STANDARD.operations, hot: n, wild: true };
    vec![
        Call::Find { client, sequence },
        Call::Read { reader: open, object: random.below(n) as u32 },
        Call::Work { count: 9 },
        Call::Final { client, sequence },
        Call::CloseReader { reader: open },
        Call::Early { client: 0, sequence: u32::MAX, body: valid(random, n, taste) },
        Call::OpenReader { reader: closed },
        Call::ShowBody { client, sequence },
        Call::DryRun { client, sequence },
    ]
}

/// One specimen, and how far its damages are.
struct Trial<'a> {
    specimen: Specimen,
    state: &'a State,
    calls: Vec<Call>,
    done: usize,
    coverage: &'a mut Coverage,
}

impl Trial<'_> {
    /// Each field in turn takes other values, one at a time.
    fn each_field(&mut self, random: &mut Random) -> Result<(), Difference> {
        let sound = printed(self.state);
        for field in fields(STANDARD, self.state) {
            for value in others(random, &sound, self.state, &field) {
                let mut areas = sound.clone();
                write(&mut areas, field.place, value);
                let damage = format!("{:?} takes {value}", field.place);
                self.meet(&field.class, areas).map_err(|difference| format!("{damage}: {difference}"))?;
            }
        }
        Ok(())
    }

    /// Each version in turn is taken out, and in each object one is put in somewhere.
    fn each_version(&mut self, random: &mut Random) -> Result<(), Difference> {
        let state = self.state;
        for (object, versions) in state.objects.iter().enumerate() {
            let count = versions.len();
            for index in 0..count {
                let mut fewer = state.clone();
                fewer.objects[object].remove(index);
                self.meet(&format!("one of {count} versions taken out"), printed(&fewer))?;
            }
            if count <= STANDARD.readers {
                let mut more = state.clone();
                more.objects[object].insert(random.below(count + 1), any_version(random, state, object));
                more.objects[object].sort_by_key(|version| version.timestamp);
                self.meet(&format!("one put in to {count} versions"), printed(&more))?;
            }
        }
        Ok(())
    }

    /// One call on damaged areas: 1 and no byte changed where they fail the check; else as on what they hold.
    fn meet(&mut self, class: &str, areas: Library) -> Result<(), Difference> {
        let call = &self.calls[self.done % self.calls.len()];
        self.done += 1;
        let verdict = match parse(STANDARD, &areas.record, &areas.bodies) {
            Ok(_) => Comparison::new(areas).apply(call).map(|_| "passes"),
            Err(sentence) => {
                let mut lent = areas.clone();
                let answer = lent.perform(call);
                let refused = answer.refused() && answer.number().map_or(true, |number| number == 1);
                same(sentence, refused && lent == areas, true).map(|()| "fails")
            }
        };
        let verdict = verdict.map_err(|difference| format!("{:?}, {class}, {call:?}: {difference}", self.specimen))?;
        let Specimen { readers, pending, .. } = self.specimen;
        self.coverage.count(&format!("{class}: {verdict}"));
        self.coverage.count(&format!("{readers} readers, {class}: {verdict}"));
        self.coverage.count(&format!("{pending} pending, {class}: {verdict}"));
        self.coverage.count(&format!("{} on areas: {verdict}", call.name()));
        Ok(())
    }
}

/// A stamp from the objects' oldest to just above the replica's, and a value inside the object's bounds.
fn any_version(random: &mut Random, state: &State, object: usize) -> Version {
    let oldest = state.objects.iter().map(|versions| versions[0].timestamp).min().unwrap();
    let stamp = random.between(oldest as usize, state.timestamp as usize + 1);
    let Bounds { lower, upper } = state.bounds[object];
    Version { timestamp: stamp as u32, value: (random.next() as i64).clamp(lower, upper) }
}

/// All specimens, damaged in each field, as often as wanted; what they came across.
pub fn compare_fields(seed: u64, rounds: u64) -> Result<Coverage, Difference> {
    let mut coverage = Coverage::default();
    for seed in (0..rounds).map(|round| seed.wrapping_add(round)) {
        let mut random = Random::new(seed);
        for specimen in SPECIMENS {
            let state = specimen.state(&mut random);
            let calls = calls(&mut random, &state);
            let mut trial = Trial { specimen, state: &state, calls, done: 0, coverage: &mut coverage };
            let met = trial.each_field(&mut random).and_then(|()| trial.each_version(&mut random));
            met.map_err(|difference| format!("compare --fields --lists 1 --seed {seed}\n{difference}"))?;
        }
    }
    coverage.add("rounds", rounds);
    Ok(coverage)
}

fn fails(class: impl Display) -> String {
    format!("{class}: fails")
}

fn passes(class: impl Display) -> String {
    format!("{class}: passes")
}

fn either(class: impl Display) -> [String; 2] {
    [fails(&class), passes(&class)]
}

/// All that the damages have to come across.
pub fn required() -> Vec<String> {
    let mut names = [of_versions(), of_rows(), of_bodies()].concat();
    names.extend(["stamp", "last number", "open reader", "closed reader", "number of operations"].map(either).concat());
    names.extend(["lower bound", "upper bound"].map(either).concat());
    names.extend(["number of objects", "number pending"].map(fails));
    names.extend(["unused object", "unused row", "unused body", "tail of a body"].map(fails));
    for call in ["find", "read", "work", "final", "close", "early", "open reader", "show body", "dry run"] {
        names.extend(either(format!("{call} on areas")));
    }
    names
}

/// Of each version of each count, with every number of readers open.
fn of_versions() -> Vec<String> {
    let mut names = Vec::new();
    for count in 1..=STANDARD.readers + 1 {
        names.push(fails(format!("count of {count} versions")));
        names.push(fails(format!("one of {count} versions taken out")));
        for j in 1..=count {
            names.extend(either(format!("stamp {j} of {count}")));
            names.extend(either(format!("value {j} of {count}")));
        }
        for readers in count - 1..=STANDARD.readers {
            names.push(fails(format!("{readers} readers, count of {count} versions")));
            names.extend((1..=count).map(|j| fails(format!("{readers} readers, stamp {j} of {count}"))));
            names.extend((1..=count).map(|j| fails(format!("{readers} readers, value {j} of {count}"))));
        }
    }
    for count in 1..=STANDARD.readers {
        names.push(fails(format!("tail behind {count} versions")));
        names.push(passes(format!("one of {} versions taken out", count + 1)));
        names.extend(either(format!("one put in to {count} versions")));
    }
    names
}

/// Of each field of a row, by the row's kind; and with nearly all and all places taken.
fn of_rows() -> Vec<String> {
    const RULED: [&str; 6] = ["key", "place", "outcome", "number of reads", "number of entries", "tail of a row"];
    let mut names = Vec::new();
    for kind in ["outcome 0", "outcome 1", "outcome 2", "outcome 3", "partly run", "not begun"] {
        names.extend(RULED.map(|class| fails(format!("{class}, {kind}"))));
        names.push(passes(format!("key, {kind}")));
    }
    for kind in ["outcome 0", "outcome 1", "outcome 2", "outcome 3", "partly run"] {
        names.extend(either(format!("read's object, {kind}")));
        names.extend(["read's value", "register", "outcome"].map(|class| passes(format!("{class}, {kind}"))));
    }
    for kind in ["outcome 0", "partly run"] {
        names.extend(["store's object", "store's value"].map(|class| either(format!("{class}, {kind}"))).concat());
    }
    names.push(fails("register, not begun"));
    for pending in [STANDARD.pending - 1, STANDARD.pending] {
        for kind in ["outcome 0", "not begun"] {
            names.extend(RULED.map(|class| fails(format!("{pending} pending, {class}, {kind}"))));
        }
        names.extend(["number pending", "tail of a body"].map(|class| fails(format!("{pending} pending, {class}"))));
        names.extend(KINDS.map(|kind| fails(format!("{pending} pending, kind of a {kind}"))));
    }
    names
}

/// Of each part of an operation, by its kind.
fn of_bodies() -> Vec<String> {
    let mut names = Vec::new();
    for kind in KINDS {
        names.extend(["kind", "first", "second"].map(|part| fails(format!("{part} of a {kind}"))));
        names.push(passes(format!("kind of a {kind}")));
    }
    for kind in ["load", "store", "add", "subtract", "skip"] {
        names.extend(["first", "second"].map(|part| passes(format!("{part} of a {kind}"))));
    }
    names.extend(["first of a set", "first of a divide", "constant of a set"].map(passes));
    names.extend(either("constant of a divide"));
    for kind in ["load", "store", "add", "subtract", "skip", "fail"] {
        names.push(fails(format!("constant of a {kind}")));
    }
    names
}
