//! What a call came across, by the independent states before and after it: the comparison's coverage.

use crate::body::{decode, Operation, FLAWS, LARGEST_DIVISOR};
use crate::calls::{Answer, Call, Opening};
use crate::coverage::Coverage;
use crate::independent::{overlay, Bounds, State, Transaction, Version};
use crate::limits::{Limits, LARGEST_BUDGET};
use jobstore::raw::{Committed, Executed, Preview};
use jobstore::PREVIEW_PLACES;

/// Only forged early results lead to it: the walk leaves no first transaction with reads that do not match.
pub const FIRST_RUN_AGAIN: &str = "final: run again, finished and first in the optimistic order";

pub fn observe(
    coverage: &mut Coverage,
    limits: Limits,
    start: Option<u32>,
    call: &Call,
    answer: &Answer,
    before: Option<&State>,
    after: Option<&State>,
) {
    match answer.number() {
        Some(number) => coverage.count(&format!("{} {number}", call.name())),
        None => coverage.count(if answer.refused() { "show body: empty" } else { "show body: bytes" }),
    }
    match (call, answer, before, after) {
        (Call::Open(given), Answer::Number(0), ..) => opened(coverage, limits, given, before.is_some()),
        (Call::Open(given), Answer::Number(2), ..) => miscounted(coverage, limits, given),
        (Call::Open(given), Answer::Number(15), ..) => misplaced(coverage, given),
        (Call::Early { body, .. }, Answer::Number(6), Some(before), _) => {
            let flaw = decode(body, limits.operations, before.objects.len()).unwrap_err();
            coverage.count(&format!("early 6: {flaw}"));
        }
        (Call::Early { body, .. }, Answer::Number(0), Some(before), Some(after)) => {
            accepted_body(coverage, limits, body, before.objects.len());
            coverage.count_if(after.pending.len() == limits.pending, "early: all places taken");
            let key = after.pending.last().map(|pending| pending.sequence);
            coverage.count_if(key == Some(u32::MAX), "early: the highest sequence number");
            coverage.count_if(key == Some(1), "early: the lowest sequence number");
        }
        (Call::Work { count }, Answer::Executed(executed), Some(before), Some(after)) if executed.number == 0 => {
            work(coverage, *count, executed, before, after);
        }
        (Call::Final { .. }, Answer::Committed(committed), Some(before), Some(after)) if committed.number == 0 => {
            let Call::Final { client, sequence } = call else { unreachable!() };
            commit(coverage, committed, before.place(*client, *sequence).unwrap(), before, after);
        }
        (Call::Read { reader, object }, Answer::Value(seen), Some(before), _) if seen.number == 0 => {
            let taken = before.readers[*reader as usize].unwrap();
            read(coverage, seen.stamp, taken, &before.objects[*object as usize], start);
        }
        (Call::DryRun { client, sequence }, Answer::Preview(preview), Some(before), _) if preview.number == 0 => {
            dry_run(coverage, preview, before.place(*client, *sequence).unwrap(), before);
        }
        _ => {}
    }
    let versions = |state: &State| state.objects.iter().any(|versions| versions.len() == limits.readers + 1);
    coverage.count_if(after.is_some_and(versions), "an object with every version that it can have");
}

fn opened(coverage: &mut Coverage, limits: Limits, opening: &Opening, again: bool) {
    coverage.count_if(again, "open: again");
    coverage.count_if(opening.n == 1, "open: one object");
    coverage.count_if(opening.n == limits.objects as u32, "open: as many objects as can be");
    coverage.count_if(opening.stamp == u32::MAX, "open: at the highest stamp");
    for (value, bounds) in bounded(opening) {
        coverage.count_if(bounds == Bounds::WIDEST, "open: the widest bounds");
        coverage.count_if(value == bounds.lower, "open: a start value at its lower bound");
        coverage.count_if(value == bounds.upper, "open: a start value at its upper bound");
    }
}

/// Start values with their bounds, as far as there are all three.
fn bounded(opening: &Opening) -> impl Iterator<Item = (i64, Bounds)> + '_ {
    let bounds = opening.lower.iter().zip(&opening.upper).map(|(&lower, &upper)| Bounds { lower, upper });
    opening.values.iter().copied().zip(bounds)
}

/// A cause counts where it is the only one for 2.
fn miscounted(coverage: &mut Coverage, limits: Limits, opening: &Opening) {
    let (n, most) = (opening.n as usize, limits.objects);
    let lengths = [opening.values.len(), opening.lower.len(), opening.upper.len()];
    let wrong: Vec<usize> = (0..3).filter(|&list| lengths[list] != n).collect();
    coverage.count_if(n == 0 && wrong.is_empty(), "open 2: n 0");
    coverage.count_if(n > most && wrong.is_empty(), "open 2: n above the limit");
    coverage.count_if(n == most + 1 && wrong.is_empty(), "open 2: n just above the limit");
    if let ([list], 1..) = (&wrong[..], n) {
        let number = if lengths[*list] < n { "few" } else { "many" };
        let kind = ["values", "lower bounds", "upper bounds"][*list];
        coverage.count_if(n <= most, &format!("open 2: too {number} {kind}"));
    }
    let outside = bounded(opening).any(|(value, bounds)| !bounds.contains(value));
    coverage.count_if(outside, "open 2: though a start value is outside its bounds");
}

fn misplaced(coverage: &mut Coverage, opening: &Opening) {
    let outside: Vec<usize> =
        bounded(opening).enumerate().filter(|(_, (value, bounds))| !bounds.contains(*value)).map(|at| at.0).collect();
    coverage.count_if(outside == [0], "open 15: the first object alone");
    coverage.count_if(outside == [opening.n as usize - 1], "open 15: the last object alone");
    for (value, bounds) in bounded(opening) {
        let ordered = bounds.ordered();
        coverage.count_if(!ordered, "open 15: a lower bound above its upper");
        coverage.count_if(ordered && value < bounds.lower, "open 15: a start value below its lower bound");
        coverage.count_if(ordered && bounds.upper < value, "open 15: a start value above its upper bound");
    }
}

fn accepted_body(coverage: &mut Coverage, limits: Limits, body: &[u8], n: usize) {
    let program = decode(body, limits.operations, n).unwrap();
    let m = program.len();
    coverage.count_if(m == 1, "body of one operation");
    coverage.count_if(m == limits.operations, "body of as many operations as can be");
    for (k, operation) in program.iter().enumerate() {
        match *operation {
            Operation::Load(_, object) | Operation::Store(_, object) => {
                coverage.count_if(object + 1 == n, "body with the last object");
            }
            Operation::Skip(_, count) => {
                coverage.count_if(k + 1 + count == m, "body with a skip that ends exactly past the last");
            }
            Operation::Divide(_, divisor) => {
                coverage.count_if(divisor == 1, "body with divisor 1");
                coverage.count_if(divisor == LARGEST_DIVISOR, "body with divisor 1,000,000");
            }
            Operation::Set(_, constant) => {
                coverage.count_if([i64::MIN, i64::MAX].contains(&constant), "body with a constant at an end");
            }
            _ => {}
        }
    }
}

fn work(coverage: &mut Coverage, count: u32, executed: &Executed, before: &State, after: &State) {
    let unfinished = after.pending.len() > executed.finished as usize;
    coverage.count_if(count == LARGEST_BUDGET, "work: the highest count");
    coverage.count_if(count == 0 && unfinished, "work: none, with transactions unfinished");
    coverage.count_if(count > 0 && unfinished, "work: stops after its count");
    coverage.count_if(executed.operations < count, "work: stops sooner, all finished");
    coverage.count_if(executed.operations == count && count > 0 && !unfinished, "work: exactly to the end of all");
    let partly = |state: &State| state.pending.iter().any(partly_run);
    coverage.count_if(partly(before) && executed.operations > 0, "work: goes on with a partly run one");
    coverage.count_if(partly(after), "work: leaves one partly run");
    let several = executed.finished as usize > before.finished() + 1;
    coverage.count_if(several, "work: finishes several");
    let counters = |state: &State| state.pending.iter().map(|pending| pending.run.program_counter).sum::<usize>();
    let passed_over = counters(after) - counters(before) > executed.operations as usize;
    coverage.count_if(passed_over, "work: passes operations over, not counted");
    for (place, pending) in after.pending.iter().enumerate() {
        let begun_now = before.pending[place].run.program_counter == 0 && pending.run.program_counter > 0;
        let earlier = &after.pending[..place];
        let stored = |object| earlier.iter().any(|earlier| earlier.run.writes.iter().any(|write| write.0 == object));
        let from_earlier = pending.run.reads.iter().any(|read| stored(read.0));
        coverage.count_if(begun_now && from_earlier, "work: reads an earlier transaction's store");
    }
}

/// Work for all pending transactions, begun in this state; `exhausted` is whether it carried out its whole count.
pub fn observe_ceiling(coverage: &mut Coverage, limits: Limits, state: &State, exhausted: bool) {
    let pending = state.pending.len();
    coverage.count_if(exhausted && pending > 0, "work for all pending: carries out its whole count");
    coverage.count_if(state.pending.iter().any(partly_run), "work for all pending: goes on with a partly run one");
    let unfinished = state.finished() < pending;
    coverage.count_if(unfinished && pending == limits.pending, "work for all pending: with every place taken");
}

fn partly_run(pending: &Transaction) -> bool {
    pending.run.outcome.is_none() && pending.run.program_counter > 0
}

fn verdict(call: &str, outcome: u32, kept: u32) -> String {
    format!("{call}: outcome {outcome}, {}", if kept == 1 { "kept" } else { "run again" })
}

/// Every verdict of a final delivery or a dry run.
pub fn verdicts(call: &str) -> impl Iterator<Item = String> + '_ {
    (0..4).flat_map(move |outcome| [0, 1].map(|kept| verdict(call, outcome, kept)))
}

fn commit(coverage: &mut Coverage, committed: &Committed, place: usize, before: &State, after: &State) {
    let Committed { outcome, kept, stored, stamp, .. } = *committed;
    let delivered = &before.pending[place];
    coverage.count(&verdict("final", outcome, kept));
    if kept == 1 {
        coverage.count_if(place > 0, "final: kept out of order");
        coverage.count_if(place == 0, "final: kept in order");
    } else if delivered.run.outcome.is_some() {
        coverage.count("final: run again, finished but a read changed");
        coverage.count_if(place == 0, FIRST_RUN_AGAIN);
        coverage.count_if(delivered.run.outcome != Some(outcome), "final: run again, with another outcome than early");
        let outside = (delivered.run.outcome == Some(3), outcome == 3);
        coverage.count_if(outside == (true, false), "final: run again, outside its bounds early alone");
        coverage.count_if(outside == (false, true), "final: run again, outside its bounds now alone");
    } else {
        coverage.count_if(partly_run(delivered), "final: run again, partly run");
        coverage.count_if(!partly_run(delivered), "final: run again, not begun");
    }
    coverage.count_if(outcome == 0 && stored == 0, "final: done without a store");
    coverage.count_if(stored > 1, "final: stores several");
    coverage.count_if(stamp == u32::MAX, "final: takes the highest stamp");
    coverage.count_if(delivered.sequence == u32::MAX, "final: the highest sequence number");
    let left = before.pending.len() - 1 - after.pending.len();
    coverage.count_if(left > 0, "final: lower numbers of the client leave");
    let same_value = after.objects.iter().any(|versions| match versions.as_slice() {
        [.., old, new] => new.timestamp == stamp && new.value == old.value,
        _ => false,
    });
    coverage.count_if(same_value, "final: a new version with the old value");
    let old_held = |versions: &Vec<_>| versions.len() > 1;
    coverage.count_if(stored > 0 && after.objects.iter().any(old_held), "final: an old version is held for a reader");
    walk(coverage, stored, before, after);
}

/// Which begun transactions the walk sent back, and which of them only for one before them.
fn walk(coverage: &mut Coverage, stored: u32, before: &State, after: &State) {
    let mut table = after.committed();
    let mut restarted = 0;
    let mut stayed = 0;
    for pending in &after.pending {
        let earlier = &before.pending[before.place(pending.client, pending.sequence).unwrap()];
        let begun = earlier.run.program_counter > 0;
        let back = begun && pending.run.program_counter == 0;
        restarted += usize::from(back);
        stayed += usize::from(begun && !back);
        if back {
            coverage.count_if(partly_run(earlier), "walk: a partly run one restarts");
            coverage.count_if(!partly_run(earlier), "walk: a finished one restarts");
            coverage.count_if(earlier.run.matches(&table), "walk: one restarts only for one before it");
        }
        overlay(&mut table, &earlier.run.writes);
    }
    coverage.count_if(restarted > 1, "walk: several restart");
    coverage.count_if(restarted > 0 && stayed > 0, "walk: some stay and the rest restart");
    let unharmed = stored > 0 && stayed > 0 && restarted == 0;
    coverage.count_if(unharmed, "walk: all begun ones stay though objects were stored");
}

/// Where what would be is told from what is, and from the early results on record.
fn dry_run(coverage: &mut Coverage, preview: &Preview, place: usize, before: &State) {
    let Preview { outcome, kept, stamp, ref values, .. } = *preview;
    coverage.count(&verdict("dry run", outcome, kept));
    let committed = before.committed();
    let changes = values[..committed.len()] != committed;
    coverage.count_if(changes && kept == 1, "dry run: kept, and a value changes");
    coverage.count_if(changes && kept == 0, "dry run: run again, and a value changes");
    let finished = before.pending[place].run.outcome.is_some();
    coverage.count_if(finished && kept == 0, "dry run: run again, finished but a read changed");
    coverage.count_if(stamp == u32::MAX, "dry run: would take the highest stamp");
    coverage.count_if(committed.len() < PREVIEW_PLACES, "dry run: fewer objects than places");
    coverage.count_if(committed.len() == PREVIEW_PLACES, "dry run: as many objects as places");
}

/// Where the stamp beside a value is told from the newest version's, from the next older one's, and from the reader's own, `taken`.
fn read(coverage: &mut Coverage, stamp: u32, taken: u32, versions: &[Version], start: Option<u32>) {
    let newest = versions.last().unwrap().timestamp;
    coverage.count_if(stamp < newest, "read: an older version than the newest");
    coverage.count_if(versions.iter().any(|older| older.timestamp < stamp), "read: a version with an older one");
    let untouched = start == Some(newest) && 0 < stamp && stamp < taken;
    coverage.count_if(untouched, "read: an untouched object, at a start stamp above 0 and below the reader's");
}

/// What each call may answer, refusal 1 of an opening aside: only damaged areas lead to it.
const NUMBERS: &[(&str, &[u32])] = &[
    ("open", &[0, 2, 15]),
    ("early", &[0, 1, 3, 4, 5, 6, 7]),
    ("work", &[0, 1, 14]),
    ("final", &[0, 1, 3, 4, 8, 9]),
    ("open reader", &[0, 1, 10, 11]),
    ("read", &[0, 1, 10, 12, 13]),
    ("close", &[0, 1, 10, 12]),
    ("find", &[0, 1, 3, 8]),
    ("dry run", &[0, 1, 3, 4, 8, 9]),
];

const EVENTS: &[&str] = &[
    "show body: bytes",
    "show body: empty",
    "open 2: n 0",
    "open 2: n above the limit",
    "open 2: n just above the limit",
    "open 2: though a start value is outside its bounds",
    "open 2: too few lower bounds",
    "open 2: too few upper bounds",
    "open 2: too few values",
    "open 2: too many lower bounds",
    "open 2: too many upper bounds",
    "open 2: too many values",
    "open 15: a lower bound above its upper",
    "open 15: a start value above its upper bound",
    "open 15: a start value below its lower bound",
    "open 15: the first object alone",
    "open 15: the last object alone",
    "open: a start value at its lower bound",
    "open: a start value at its upper bound",
    "open: again",
    "open: as many objects as can be",
    "open: at the highest stamp",
    "open: one object",
    "open: the widest bounds",
    "early: all places taken",
    "early: the highest sequence number",
    "early: the lowest sequence number",
    "body of one operation",
    "body of as many operations as can be",
    "body with a constant at an end",
    "body with a skip that ends exactly past the last",
    "body with divisor 1",
    "body with divisor 1,000,000",
    "body with the last object",
    "work: exactly to the end of all",
    "work: finishes several",
    "work: goes on with a partly run one",
    "work: leaves one partly run",
    "work: none, with transactions unfinished",
    "work: passes operations over, not counted",
    "work: reads an earlier transaction's store",
    "work: stops after its count",
    "work: stops sooner, all finished",
    "work: the highest count",
    "work for all pending: carries out its whole count",
    "work for all pending: goes on with a partly run one",
    "work for all pending: with every place taken",
    "add",
    "add that overflows",
    "divide",
    "divide a negative value",
    "divide a negative value that ends in a half, away from zero",
    "divide a negative value that ends in a half, toward zero",
    "divide that ends in a half, away from zero",
    "divide that ends in a half, toward zero",
    "fail",
    "load from the table",
    "load of a value read before",
    "load of its own store",
    "set",
    "skip not taken",
    "skip taken",
    "store",
    "store above its upper bound",
    "store above its upper bound, after other stores",
    "store at its lower bound",
    "store at its upper bound",
    "store below its lower bound",
    "store below its lower bound, after other stores",
    "store of an object stored before",
    "subtract",
    "subtract that overflows",
    "final: a new version with the old value",
    "final: an old version is held for a reader",
    "final: done without a store",
    "final: kept in order",
    "final: kept out of order",
    "final: lower numbers of the client leave",
    "final: run again, as many operations as can be",
    "final: run again, carries out every operation of its body",
    "final: run again, finished but a read changed",
    "final: run again, not begun",
    "final: run again, outside its bounds early alone",
    "final: run again, outside its bounds now alone",
    "final: run again, partly run",
    "final: run again, passes operations over",
    "final: run again, stops before its last operation",
    "final: run again, with another outcome than early",
    "final: stores several",
    "final: takes the highest stamp",
    "final: the highest sequence number",
    "walk: a finished one restarts",
    "walk: a partly run one restarts",
    "walk: all begun ones stay though objects were stored",
    "walk: one restarts only for one before it",
    "walk: several restart",
    "walk: some stay and the rest restart",
    "dry run: as many objects as places",
    "dry run: fewer objects than places",
    "dry run: kept, and a value changes",
    "dry run: run again, and a value changes",
    "dry run: run again, finished but a read changed",
    "dry run: would take the highest stamp",
    "read: an older version than the newest",
    "read: a version with an older one",
    "read: an untouched object, at a start stamp above 0 and below the reader's",
    "begun transactions that restarted",
    "versions that a commit let go",
    "versions that a close let go",
    "an object with every version that it can have",
];

/// All that lists of calls have to come across.
pub fn required() -> Vec<String> {
    let answers = |(call, numbers): &(&str, &[u32])| numbers.iter().map(|number| format!("{call} {number}")).collect();
    let numbers = NUMBERS.iter().flat_map::<Vec<String>, _>(answers);
    let flaws = FLAWS.iter().map(|flaw| format!("early 6: {flaw}"));
    let events = EVENTS.iter().map(|event| event.to_string());
    numbers.chain(events).chain(verdicts("final")).chain(verdicts("dry run")).chain(flaws).collect()
}
