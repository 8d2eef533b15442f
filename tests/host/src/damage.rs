//! Areas of an honest replica, damaged or forged, and then calls on them. Whether the library answers 1 is for the
//! reader of the layout to say; on areas that still pass, the independent implementation takes up what they hold.

use crate::bodies::{valid, value, Taste};
use crate::bounds_damage::{self, damage_bounds};
use crate::calls::{Call, Calls, Opening};
use crate::comparison::{Comparison, Difference};
use crate::coverage::Coverage;
use crate::fields::narrowest;
use crate::independent::{Bounds, Independent, State};
use crate::layout::{self, cell, parse, print, set_cell};
use crate::library::Library;
use crate::limits::{Limits, CLIENTS, REGISTERS, STANDARD};
use crate::lists::Mix;
use crate::observation::{verdicts, FIRST_RUN_AGAIN};
use crate::random::Random;

/// A state that some list of calls leads to.
fn honest(random: &mut Random, mix: &Mix) -> State {
    let mut independent = Independent::new(STANDARD);
    independent.open(&mix.opening(random));
    for _ in 0..random.between(0, 120) {
        let call = mix.call(random, independent.state.as_ref());
        independent.perform(&call);
    }
    independent.state.unwrap()
}

/// Damages the areas and names the kind of damage.
fn damage(random: &mut Random, state: &State, areas: &mut Library) -> &'static str {
    match random.below(14) {
        0 => flip(random, areas),
        1 => noise(random, areas),
        2 => lengths(random, areas),
        3 => exchange(random, state, areas),
        4..=7 => change_cell(random, state, areas),
        8 | 9 => reprinted(state, areas, |damaged| damage_bounds(random, damaged)),
        _ => reprinted(state, areas, |forged| {
            for _ in 0..random.between(1, 4) {
                forge(random, forged);
            }
            if random.percent(80) {
                bring_inside(forged);
            }
            "forged"
        }),
    }
}

/// The areas of the state as it is after the change, whose name it yields.
fn reprinted(state: &State, areas: &mut Library, change: impl FnOnce(&mut State) -> &'static str) -> &'static str {
    let mut changed = state.clone();
    let kind = change(&mut changed);
    (areas.record, areas.bodies) = print(STANDARD, &changed);
    kind
}

/// A byte's place in the area, mostly one that is in use.
fn place(random: &mut Random, area: &[u8]) -> usize {
    let used: Vec<usize> = (0..area.len()).filter(|&at| area[at] != 0).collect();
    if used.is_empty() || random.percent(30) {
        random.below(area.len())
    } else {
        random.pick(&used)
    }
}

fn flip(random: &mut Random, areas: &mut Library) -> &'static str {
    let area = if random.percent(60) { &mut areas.record } else { &mut areas.bodies };
    let at = place(random, area);
    area[at] ^= 1 << random.below(8);
    "bit flipped"
}

/// All bytes of an area, or some in a row: few of them, so that now and then only a value changes, and the areas pass.
fn noise(random: &mut Random, areas: &mut Library) -> &'static str {
    let whole = random.percent(20);
    let area = if random.percent(60) { &mut areas.record } else { &mut areas.bodies };
    let start = if whole { 0 } else { place(random, area) };
    let most = random.pick(&[2, 8, 64]);
    let end = if whole { area.len() } else { (start + random.between(1, most)).min(area.len()) };
    let fill = random.pick(&[None, None, Some(0), Some(1), Some(255)]);
    area[start..end].iter_mut().for_each(|byte| *byte = fill.unwrap_or(random.next() as u8));
    "bytes overwritten"
}

fn lengths(random: &mut Random, areas: &mut Library) -> &'static str {
    for area in [&mut areas.record, &mut areas.bodies] {
        let any = random.below(40_000);
        let length = random.pick(&[area.len(), area.len(), area.len() - 1, area.len() + 1, area.len() + 8, 0, any]);
        area.resize(length, 0);
        // As for broken bodies: no room behind the end.
        area.shrink_to_fit();
    }
    "other lengths"
}

/// Rows or bodies change places, or one is written over another.
fn exchange(random: &mut Random, state: &State, areas: &mut Library) -> &'static str {
    let rows = (state.pending.len() + 1).min(STANDARD.pending);
    let (from, to) = (random.below(rows), random.below(rows));
    let (first, size) = (8 * STANDARD.row(0), 8 * STANDARD.row_cells());
    if random.percent(60) {
        move_part(random, &mut areas.record[first..], size, from, to);
    }
    if random.percent(60) {
        move_part(random, &mut areas.bodies, STANDARD.place_length(), from, to);
    }
    "rows or bodies exchanged"
}

fn move_part(random: &mut Random, parts: &mut [u8], size: usize, from: usize, to: usize) {
    let (a, b) = (parts[from * size..][..size].to_vec(), parts[to * size..][..size].to_vec());
    parts[to * size..][..size].copy_from_slice(&a);
    if random.percent(50) {
        parts[from * size..][..size].copy_from_slice(&b);
    }
}

/// One cell that means something takes a value near what it may hold.
fn change_cell(random: &mut Random, state: &State, areas: &mut Library) -> &'static str {
    let limits = STANDARD;
    let object = limits.object(random.below(state.objects.len()));
    let place = random.below(state.pending.len().max(1));
    let run = state.pending.get(place).map(|pending| &pending.run);
    let entries = run.map_or(0, |run| run.reads.len() + run.writes.len());
    let row = limits.row(place);
    let at = match random.below(11) {
        0 => layout::TIMESTAMP,
        1 => layout::LASTS + random.below(CLIENTS),
        2 => layout::READERS + random.below(limits.readers),
        3 => limits.object_count(),
        4 => object + random.below(limits.object_cells()),
        5 => object + random.below(4),
        6 => limits.pending_count(),
        7 => row + random.below(layout::ENTRIES),
        8 => row + layout::ENTRIES + random.below(2 * (entries + 1).min(limits.operations)),
        9 => object + random.pick(&[limits.lower(), limits.upper()]),
        _ => row + random.pick(&[layout::PROGRAM_COUNTER, layout::OUTCOME, layout::READ_COUNT, layout::ENTRY_COUNT]),
    };
    let old = cell(&areas.record, at);
    let (above, other) = (1 << random.below(64), random.below(17) as u64);
    let distance = random.pick(&[1, 2, limits.row_cells(), limits.object_cells()]);
    let near = cell(&areas.record, (at + distance) % (limits.record_length() / 8));
    let wide = random.pick(&[u64::from(u32::MAX), 1 << 32, u64::MAX, 1 << 63]);
    let n = state.objects.len() as u64;
    let choices = [0, 1, 2, 3, n, old.wrapping_add(1), old.wrapping_sub(1), near, other, old ^ above, wide];
    set_cell(&mut areas.record, at, random.pick(&choices));
    "cell changed"
}

/// Changes what is on record so that areas mostly still pass.
fn forge(random: &mut Random, state: &mut State) {
    let n = state.objects.len();
    let object = random.below(n);
    let new = value(random, true);
    match random.below(13) {
        0 => state.objects[object].iter_mut().for_each(|version| version.value = version.value.wrapping_add(new)),
        1 => state.timestamp = state.timestamp.saturating_add(random.between(1, 3) as u32),
        2 => state.last[random.below(CLIENTS)] = random.pick(&[0, 1, 2, 5, u32::MAX]),
        3 => {
            let taken = random.below(state.timestamp as usize + 2) as u32;
            let reader = random.below(state.readers.len());
            state.readers[reader] = random.pick(&[None, Some(taken), Some(state.timestamp)]);
        }
        4 => {
            let narrowest = narrowest(state, object);
            let Bounds { lower, upper } = random.pick(&[narrowest, state.bounds[object], Bounds::WIDEST]);
            state.bounds[object] = Bounds { lower: lower.min(new), upper: upper.max(new) };
        }
        _ if state.pending.is_empty() => {}
        _ => forge_run(random, state, object, new),
    }
}

fn forge_run(random: &mut Random, state: &mut State, object: usize, new: i64) {
    let place = random.below(state.pending.len());
    let pending = &mut state.pending[place];
    let m = usize::from(pending.body[0]);
    let run = &mut pending.run;
    let room = run.reads.len() + run.writes.len() < STANDARD.operations;
    match random.below(11) {
        0 => change_entry(random, &mut run.reads, Some(new)),
        1 => change_entry(random, &mut run.writes, Some(new)),
        2 => run.registers[random.below(REGISTERS)] = new,
        3 => change_entry(random, &mut run.reads, None),
        4 => change_entry(random, &mut run.writes, None),
        5 if room => run.reads.push((object, new)),
        6 if room => run.writes.push((object, new)),
        7 => {
            run.program_counter = random.between(1, m);
            run.outcome = Some(random.pick(&[1, 2, 3]));
            run.writes.clear();
        }
        8 => run.program_counter = random.between(0, m),
        9 => {
            run.program_counter = m;
            run.outcome = Some(0);
        }
        _ => {
            let taste = Taste { most: STANDARD.operations, hot: 3, wild: true };
            pending.body = valid(random, state.objects.len(), taste);
        }
    }
}

/// Versions and recorded stores that are outside their bounds go to the nearest value inside.
fn bring_inside(state: &mut State) {
    let State { objects, bounds, pending, .. } = state;
    let bring = |value: &mut i64, object: usize| *value = (*value).clamp(bounds[object].lower, bounds[object].upper);
    for (object, versions) in objects.iter_mut().enumerate() {
        versions.iter_mut().for_each(|version| bring(&mut version.value, object));
    }
    for (object, value) in pending.iter_mut().flat_map(|pending| &mut pending.run.writes) {
        bring(value, *object);
    }
}

/// One entry takes another value, or goes.
fn change_entry(random: &mut Random, entries: &mut Vec<(usize, i64)>, new: Option<i64>) {
    if entries.is_empty() {
        return;
    }
    let index = random.below(entries.len());
    match new {
        Some(value) => entries[index].1 = value,
        None => drop(entries.remove(index)),
    }
}

/// Every kind of call once, arguments as for the state before the damage.
fn every_call(random: &mut Random, mix: &Mix, state: &State) -> Vec<Call> {
    let (client, sequence) = state.pending.last().map_or((1, 1), |pending| (pending.client, pending.sequence));
    let fresh = state.last[client as usize].saturating_add(40);
    let taste = Taste { most: STANDARD.operations, hot: 3, wild: false };
    let mut calls = vec![
        Call::Read { reader: 0, object: 0 },
        Call::Find { client, sequence },
        Call::ShowBody { client, sequence },
        Call::DryRun { client, sequence },
        Call::Early { client, sequence: fresh, body: valid(random, state.objects.len(), taste) },
        Call::Work { count: 7 },
        Call::Final { client, sequence },
        Call::OpenReader { reader: random.below(7) as u32 },
        Call::CloseReader { reader: random.below(7) as u32 },
        Call::Open(Opening::plain(&[], 0)),
    ];
    random.shuffle(&mut calls);
    calls.push(Call::Open(mix.opening(random)));
    calls
}

/// One pair of damaged areas, drawn from its seed, and calls on it.
pub fn compare_damaged(seed: u64, coverage: &mut Coverage) -> Result<(), Difference> {
    let mut random = Random::new(seed);
    let mix = Mix::new(&mut random, STANDARD);
    let state = honest(&mut random, &mix);
    let (record, bodies) = print(STANDARD, &state);
    let mut areas = Library { record, bodies };
    let kind = damage(&mut random, &state, &mut areas);
    count_verdict(coverage, STANDARD, kind, &areas, &state);
    let mut comparison = Comparison::new(areas);
    let shaped = comparison.independent.state.is_some();
    let mut done = Vec::new();
    comparison.compare_ceiling().map_err(|difference| report(seed, kind, &difference, &done))?;
    for _ in 0..if shaped { 30 } else { 4 } {
        let known = comparison.independent.state.as_ref().unwrap_or(&state);
        done.push(mix.call(&mut random, Some(known)));
        comparison.apply(done.last().unwrap()).map_err(|difference| report(seed, kind, &difference, &done))?;
    }
    for call in every_call(&mut random, &mix, &state) {
        done.push(call);
        comparison.apply(done.last().unwrap()).map_err(|difference| report(seed, kind, &difference, &done))?;
    }
    coverage.join(&comparison.coverage);
    Ok(())
}

fn count_verdict(coverage: &mut Coverage, limits: Limits, kind: &str, areas: &Library, honest: &State) {
    match parse(limits, &areas.record, &areas.bodies) {
        Ok(state) if state == *honest => coverage.count(&format!("{kind}: nothing changed")),
        Ok(state) => {
            coverage.count(&format!("{kind}: passes"));
            let unfinished = state.finished() < state.pending.len();
            coverage.count_if(unfinished, &format!("{kind}: passes, with transactions unfinished"));
        }
        Err(sentence) => {
            coverage.count(&format!("{kind}: fails"));
            coverage.count(&format!("fails: {sentence}"));
        }
    }
}

fn report(seed: u64, kind: &str, difference: &str, done: &[Call]) -> Difference {
    let calls: String = done.iter().map(|call| format!("  {call:?}\n")).collect();
    format!("compare --damage --lists 1 --seed {seed}\n{kind}: {difference}\ncalls on the damaged areas:\n{calls}")
}

/// Damaged areas from this seed on, and what they came across.
pub fn compare_damages(seed: u64, lists: u64) -> Result<Coverage, Difference> {
    let mut coverage = Coverage::default();
    for list in 0..lists {
        compare_damaged(seed.wrapping_add(list), &mut coverage)?;
    }
    coverage.add("lists", lists);
    Ok(coverage)
}

/// All that damaged areas have to come across.
pub fn required() -> Vec<String> {
    let kinds = ["bit flipped", "bytes overwritten", "rows or bodies exchanged", "cell changed", "forged"];
    let damages = kinds.iter().flat_map(|kind| [format!("{kind}: passes"), format!("{kind}: fails")]);
    let sentences = layout::SENTENCES.iter().map(|sentence| format!("fails: {sentence}"));
    let calls = ["open", "early", "work", "final", "open reader", "read", "close", "find", "dry run"];
    let refused = calls.iter().map(|call| format!("{call} 1"));
    let unfinished = "forged: passes, with transactions unfinished";
    let others = ["other lengths: fails", "show body: empty", unfinished, FIRST_RUN_AGAIN];
    let damages = damages.chain(bounds_damage::required()).chain(sentences);
    let runs = verdicts("final").chain(verdicts("dry run"));
    damages.chain(refused).chain(others.map(str::to_string)).chain(runs).collect()
}
