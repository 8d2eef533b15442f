//! Damage to bounds, and to what the shape check asks beside them: each by as little as can be.

use crate::fields::narrowest;
use crate::independent::{Bounds, Run, State};
use crate::random::Random;

/// A kind of damage and what the shape check says to it. A state that has nothing to be damaged so stays as it is.
struct Kind {
    name: &'static str,
    verdict: &'static str,
    change: fn(&mut Random, &mut State),
}

const KINDS: [Kind; 6] = [
    Kind { name: "lower bound above its upper", verdict: "fails", change: turn_bounds },
    Kind { name: "version outside its bounds", verdict: "fails", change: move_version },
    Kind { name: "recorded store outside its bounds", verdict: "fails", change: move_store },
    Kind { name: "outcome 3 with stores", verdict: "fails", change: stop_with_stores },
    Kind { name: "outcome 4", verdict: "fails", change: stop_with_4 },
    Kind { name: "bounds as narrow as can be", verdict: "passes", change: narrow_bounds },
];

/// Damages the state and names the kind of damage.
pub fn damage_bounds(random: &mut Random, state: &mut State) -> &'static str {
    let kind = &KINDS[random.below(KINDS.len())];
    (kind.change)(random, state);
    kind.name
}

/// What has to be seen of each kind.
pub fn required() -> impl Iterator<Item = String> {
    KINDS.iter().map(|kind| format!("{}: {}", kind.name, kind.verdict))
}

fn turn_bounds(random: &mut Random, state: &mut State) {
    let object = random.below(state.objects.len());
    let Bounds { lower, upper } = state.bounds[object];
    let above = Bounds { lower: upper.saturating_add(1), upper };
    let below = Bounds { lower, upper: lower.saturating_sub(1) };
    let mut turned = vec![above, below, Bounds { lower: upper, upper: lower }];
    turned.retain(|bounds| !bounds.ordered());
    state.bounds[object] = random.pick(&turned);
}

/// A value just outside, if 64 bits have one.
fn just_outside(random: &mut Random, bounds: Bounds) -> Option<i64> {
    random.pick(&[bounds.lower.checked_sub(1), bounds.upper.checked_add(1)])
}

fn move_version(random: &mut Random, state: &mut State) {
    let object = random.below(state.objects.len());
    let version = random.below(state.objects[object].len());
    if let Some(value) = just_outside(random, state.bounds[object]) {
        state.objects[object][version].value = value;
    }
}

fn move_store(random: &mut Random, state: &mut State) {
    let bounds = state.bounds.clone();
    if let Some(run) = some_run(random, state, |run| !run.writes.is_empty()) {
        let write = random.below(run.writes.len());
        let (object, value) = &mut run.writes[write];
        *value = just_outside(random, bounds[*object]).unwrap_or(*value);
    }
}

/// One of the runs on record of which this holds.
fn some_run<'a>(random: &mut Random, state: &'a mut State, holds: impl Fn(&Run) -> bool) -> Option<&'a mut Run> {
    let mut runs: Vec<&mut Run> = state.pending.iter_mut().map(|pending| &mut pending.run).collect();
    runs.retain(|run| holds(run));
    let chosen = random.below(runs.len().max(1));
    runs.into_iter().nth(chosen)
}

fn stop_with_stores(random: &mut Random, state: &mut State) {
    if let Some(run) = some_run(random, state, |run| !run.writes.is_empty()) {
        run.outcome = Some(3);
    }
}

fn stop_with_4(random: &mut Random, state: &mut State) {
    if let Some(run) = some_run(random, state, |run| run.program_counter > 0) {
        run.outcome = Some(4);
        run.writes.clear();
    }
}

fn narrow_bounds(random: &mut Random, state: &mut State) {
    let all = random.percent(50);
    for object in 0..state.objects.len() {
        if all || random.percent(50) {
            state.bounds[object] = narrowest(state, object);
        }
    }
}
