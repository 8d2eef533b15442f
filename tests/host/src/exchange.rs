//! Neighbours that may change places: pending transactions delivered finally in two orders, on copies of a replica that
//! a list of calls led to. Those that are apart have to come to the same in both; of the others it is counted whether
//! they do.

use crate::body::{decode, Operation};
use crate::calls::{seen, Answer, Call, Calls};
use crate::comparison::{committed_objects, same, Difference};
use crate::coverage::Coverage;
use crate::independent::{Bounds, Independent, Run, State, Transaction};
use crate::layout::parse;
use crate::library::Library;
use crate::limits::STANDARD;
use crate::lists::Mix;
use crate::random::Random;
use crate::serial::{Object, Pending, Serial};
use jobstore::raw::Committed;
use std::collections::BTreeMap;

/// An opened replica between two calls.
pub struct Moment {
    library: Library,
    state: State,
    /// Of each pending transaction, by its place: its program, and the run of it if it were delivered finally now.
    programs: Vec<Vec<Operation>>,
    runs: Vec<Run>,
}

/// What final deliveries in some order led to. A transaction is named by its place before the first of them.
pub struct Delivered {
    pub answers: BTreeMap<usize, Committed>,
    pub objects: Vec<Object>,
}

/// What is claimed of an answer: its number, its outcome, and how many objects were stored.
type Claimed = [u32; 3];
/// Why two transactions are not to be exchanged. The first is the one delivered first.
pub type Obstacle = &'static str;

pub const FIRST_STORES: Obstacle = "the first stores what the second reads";
pub const SECOND_STORES: Obstacle = "the second stores what the first reads";
pub const EACH_STORES: Obstacle = "each stores what the other reads";
pub const BOTH_STORE: Obstacle = "both store one object";
pub const STORE_AND_READ: Obstacle = "both store one object, and one stores what the other reads";
pub const SAME_CLIENT: Obstacle = "the same client";
pub const LAST_STAMP: Obstacle = "no stamp left for the second";
const OBSTACLES: [Obstacle; 7] =
    [FIRST_STORES, SECOND_STORES, EACH_STORES, BOTH_STORE, STORE_AND_READ, SAME_CLIENT, LAST_STAMP];

/// The most transactions that are put into another order at once.
const LONGEST: usize = 6;

impl Moment {
    pub fn new(library: Library) -> Result<Moment, Difference> {
        let state = shaped(&library)?;
        let table = state.committed();
        let program = |pending: &Transaction| decode(&pending.body, STANDARD.operations, table.len()).unwrap();
        let programs: Vec<Vec<Operation>> = state.pending.iter().map(program).collect();
        let runs = programs.iter().map(|program| whole(program, &table, &state.bounds)).collect();
        Ok(Moment { library, state, programs, runs })
    }

    fn independent(&self) -> Independent {
        Independent { state: Some(self.state.clone()), ..Independent::new(STANDARD) }
    }

    fn serial(&self) -> Serial {
        let plain = |Transaction { client, sequence, body, .. }: &Transaction| Pending {
            client: *client,
            sequence: *sequence,
            body: body.clone(),
        };
        let State { timestamp, last, ref pending, .. } = self.state;
        let (objects, pending) = (committed_objects(&self.state), pending.iter().map(plain).collect());
        Serial { timestamp, last, objects, pending, ..Serial::new(STANDARD) }
    }

    fn key(&self, place: usize) -> (u32, u32) {
        (self.state.pending[place].client, self.state.pending[place].sequence)
    }

    fn stamps_left(&self) -> usize {
        (u32::MAX - self.state.timestamp) as usize
    }

    /// What stands against exchanging two, where something does.
    pub fn obstacle(&self, first: usize, second: usize) -> Option<Obstacle> {
        if self.key(first).0 == self.key(second).0 {
            Some(SAME_CLIENT)
        } else if self.stamps_left() < 2 {
            Some(LAST_STAMP)
        } else {
            conflict(&self.runs[first], &self.runs[second])
        }
    }

    /// The final deliveries on a replica of any kind that is in this state.
    fn answers(&self, replica: &mut impl Calls, order: &[usize]) -> BTreeMap<usize, Committed> {
        let mut deliver = |place| {
            let (client, sequence) = self.key(place);
            (place, replica.deliver_final(client, sequence))
        };
        order.iter().map(|&place| deliver(place)).collect()
    }

    /// What the library comes to in this order, if the independent implementation and the plain table come to the same.
    pub fn deliver(&self, order: &[usize]) -> Result<Delivered, Difference> {
        let (mut library, mut independent, mut serial) = (self.library.clone(), self.independent(), self.serial());
        let answers = self.answers(&mut library, order);
        let plain = answers.iter().map(|(&place, &answer)| (place, seen(answer))).collect();
        same("final deliveries", &answers, &self.answers(&mut independent, order))?;
        same("final deliveries and the plain table's", &plain, &self.answers(&mut serial, order))?;
        let objects = committed_objects(&shaped(&library)?);
        same("objects", &objects, &committed_objects(independent.state.as_ref().unwrap()))?;
        same("objects and the plain table's", &objects, &serial.objects)?;
        Ok(Delivered { answers, objects })
    }

    /// Two orders of transactions that are apart, each two of them: what they come to, if it is as claimed.
    pub fn exchange(&self, orders: [&[usize]; 2]) -> Result<[Delivered; 2], Difference> {
        let mut alone = BTreeMap::new();
        for &place in orders[0] {
            let (delivered, run) = (self.deliver(&[place])?.claimed(), &self.runs[place]);
            same("outcome, and its run's", delivered[&place], [0, run.outcome.unwrap(), run.writes.len() as u32])?;
            alone.extend(delivered);
        }
        let both = [self.deliver(orders[0])?, self.deliver(orders[1])?];
        for delivered in &both {
            same("all are accepted", delivered.answers.values().all(|answer| answer.number == 0), true)?;
            same("outcomes, and those of each delivered first", &delivered.claimed(), &alone)?;
        }
        same("newest values, and those of the other order", both[0].values(), both[1].values())?;
        Ok(both)
    }

    /// Calls after either of two orders: judged alike, later final deliveries come to the same, and so do the values.
    fn go_on(&self, mix: &Mix, random: &mut Random, orders: [&[usize]; 2]) -> Result<Vec<Answer>, Difference> {
        let [mut one, mut other] = [self.library.clone(), self.library.clone()];
        self.answers(&mut one, orders[0]);
        self.answers(&mut other, orders[1]);
        let mut answers = Vec::new();
        for _ in 0..random.between(1, 30) {
            let call = mix.call(random, Some(&shaped(&one)?));
            let answer = one.perform(&call);
            same("a later call, and after the other order", judged(&answer), judged(&other.perform(&call)))?;
            same("newest values later", shaped(&one)?.committed(), shaped(&other)?.committed())?;
            answers.push(answer);
        }
        Ok(answers)
    }

    fn report(&self, orders: [&[usize]; 2], difference: &str) -> Difference {
        let [order, other] = orders;
        let mut lines = format!("{difference}\nplaces {order:?} and {other:?} on {:?}\n", self.state.committed());
        for &place in order {
            let ((client, sequence), body) = (self.key(place), self.state.pending[place].body.clone());
            lines += &format!("  {place}: {:?}\n", Call::Early { client, sequence, body });
        }
        lines
    }
}

impl Delivered {
    fn claimed(&self) -> BTreeMap<usize, Claimed> {
        self.answers.iter().map(|(&place, answer)| (place, claimed(answer))).collect()
    }

    pub fn values(&self) -> Vec<i64> {
        self.objects.iter().map(|object| object.value).collect()
    }

    fn stamps(&self) -> Vec<u32> {
        self.objects.iter().map(|object| object.timestamp).collect()
    }

    fn kept(&self) -> Vec<u32> {
        self.answers.values().map(|answer| answer.kept).collect()
    }
}

fn claimed(answer: &Committed) -> Claimed {
    [answer.number, answer.outcome, answer.stored]
}

/// What is claimed of a later call: of a final delivery the same, of another its number alone.
fn judged(answer: &Answer) -> Claimed {
    match answer {
        Answer::Committed(committed) => claimed(committed),
        other => [other.number().unwrap_or(0), 0, 0],
    }
}

fn shaped(library: &Library) -> Result<State, Difference> {
    let state = parse(STANDARD, &library.record, &library.bodies);
    state.map_err(|sentence| format!("areas fail the shape check: {sentence}"))
}

/// The program run from its start to its end.
fn whole(program: &[Operation], table: &[i64], bounds: &[Bounds]) -> Run {
    let mut run = Run::default();
    while run.outcome.is_none() {
        run.step(program, table, bounds);
    }
    run
}

/// None where they are apart: "each run on the table before them, neither stores an object that the other reads or
/// stores".
fn conflict(first: &Run, second: &Run) -> Option<Obstacle> {
    let read = (meet(&first.writes, &second.reads), meet(&second.writes, &first.reads));
    match (read, meet(&first.writes, &second.writes)) {
        ((false, false), false) => None,
        ((true, false), false) => Some(FIRST_STORES),
        ((false, true), false) => Some(SECOND_STORES),
        ((true, true), false) => Some(EACH_STORES),
        ((false, false), true) => Some(BOTH_STORE),
        (_, true) => Some(STORE_AND_READ),
    }
}

/// Some object is in both.
fn meet(some: &[(usize, i64)], others: &[(usize, i64)]) -> bool {
    some.iter().any(|(object, _)| others.iter().any(|(other, _)| other == object))
}

/// The object that an operation stores.
fn stored(operation: &Operation) -> Option<usize> {
    match *operation {
        Operation::Store(_, object) => Some(object),
        _ => None,
    }
}

/// The object that it loads or stores.
fn named(operation: &Operation) -> Option<usize> {
    match *operation {
        Operation::Load(_, object) | Operation::Store(_, object) => Some(object),
        _ => None,
    }
}

/// Told without a run: no store of either is of an object that the other loads or stores, carried out or not.
fn programs_apart(one: &[Operation], other: &[Operation]) -> bool {
    let clear = |one: &[Operation], other: &[Operation]| {
        !one.iter().filter_map(stored).any(|object| other.iter().filter_map(named).any(|name| name == object))
    };
    clear(one, other) && clear(other, one)
}

/// Two in both orders: as claimed if they are apart, else as they happen to come out. Yields whether they are apart.
fn compare_pair(coverage: &mut Coverage, moment: &Moment, orders: [&[usize]; 2]) -> Result<bool, Difference> {
    let (first, second) = (orders[0][0], orders[0][1]);
    let told = programs_apart(&moment.programs[first], &moment.programs[second]);
    if told {
        same("apart by the bodies, and by the runs", conflict(&moment.runs[first], &moment.runs[second]), None)?;
    }
    let Some(obstacle) = moment.obstacle(first, second) else {
        let both = moment.exchange(orders)?;
        count_pair(coverage, [&moment.runs[first], &moment.runs[second]], &both);
        coverage.count(if told { "exchanged: told by the bodies" } else { "exchanged: told by the runs alone" });
        return Ok(true);
    };
    let (one, other) = (moment.deliver(orders[0])?, moment.deliver(orders[1])?);
    let differ = one.claimed() != other.claimed() || one.values() != other.values();
    coverage.count("pairs not to be exchanged");
    coverage.count(&stays(obstacle, false));
    coverage.count_if(differ, &stays(obstacle, true));
    Ok(false)
}

/// Some calls after an exchange, and what they were.
fn compare_later(
    coverage: &mut Coverage,
    random: &mut Random,
    mix: &Mix,
    moment: &Moment,
    orders: [&[usize]; 2],
) -> Result<(), Difference> {
    for answer in moment.go_on(mix, random, orders)? {
        coverage.count("after an exchange: calls");
        coverage.count_if(answer.refused(), "after an exchange: refusals");
        coverage.count_if(matches!(answer, Answer::Committed(_)), "after an exchange: final deliveries");
    }
    Ok(())
}

fn count_pair(coverage: &mut Coverage, [first, second]: [&Run; 2], both: &[Delivered; 2]) {
    coverage.count("pairs exchanged");
    coverage.count(&outcomes(first.outcome.unwrap(), second.outcome.unwrap()));
    let store = !first.writes.is_empty() && !second.writes.is_empty();
    coverage.count_if(store, "exchanged: both store");
    coverage.count_if(meet(&first.reads, &second.reads), "exchanged: both read one object");
    coverage.count_if(both[0].kept() != both[1].kept(), "exchanged: kept in one order and run again in the other");
    coverage.count_if(both[0].stamps() != both[1].stamps(), "exchanged: stamps of versions differ");
}

/// Places of transactions that are apart, each two of them.
fn draw_apart(random: &mut Random, moment: &Moment) -> Vec<usize> {
    let mut places: Vec<usize> = (0..moment.runs.len()).collect();
    random.shuffle(&mut places);
    let most = random.between(3, LONGEST).min(moment.stamps_left());
    let mut chosen: Vec<usize> = Vec::new();
    for place in places {
        let fits = chosen.iter().all(|&other| moment.obstacle(other, place).is_none());
        if fits && chosen.len() < most {
            chosen.push(place);
        }
    }
    chosen
}

/// Three or more that are apart.
fn compare_several(coverage: &mut Coverage, moment: &Moment, orders: [&[usize]; 2]) -> Result<(), Difference> {
    let both = moment.exchange(orders)?;
    coverage.count(&in_two_orders(orders[0].len()));
    let storing = orders[0].iter().filter(|&&place| !moment.runs[place].writes.is_empty()).count();
    coverage.count_if(storing > 2, "in two orders: three or more store");
    coverage.count_if(both[0].kept() != both[1].kept(), "in two orders: kept in one and run again in the other");
    Ok(())
}

/// A pair of pending transactions, and several where so many are apart.
fn compare_moment(coverage: &mut Coverage, random: &mut Random, mix: &Mix, moment: &Moment) -> Result<(), Difference> {
    let pending = moment.runs.len();
    let first = random.below(pending);
    let second = (first + random.between(1, pending - 1)) % pending;
    let pair: [&[usize]; 2] = [&[first, second], &[second, first]];
    let exchanged = compare_pair(coverage, moment, pair).map_err(|difference| moment.report(pair, &difference))?;
    if exchanged && random.percent(10) {
        let later = compare_later(coverage, random, mix, moment, pair);
        later.map_err(|difference| moment.report(pair, &difference))?;
    }
    let order = draw_apart(random, moment);
    if order.len() < 3 {
        return Ok(());
    }
    let mut other = order.clone();
    random.shuffle(&mut other);
    if other == order {
        other.reverse();
    }
    let orders = [&order[..], &other[..]];
    compare_several(coverage, moment, orders).map_err(|difference| moment.report(orders, &difference))
}

/// One list of calls, drawn from its seed. After each of them some pending transactions are delivered in two orders.
fn compare_list(seed: u64, coverage: &mut Coverage) -> Result<(), Difference> {
    let mut random = Random::new(seed);
    let mix = Mix::new(&mut random, STANDARD);
    let mut library = Library::new();
    let mut call = Call::Open(mix.opening(&mut random));
    for _ in 0..random.between(10, 220) {
        library.perform(&call);
        let moment = Moment::new(library)?;
        if moment.runs.len() >= 2 && moment.stamps_left() > 0 {
            compare_moment(coverage, &mut random, &mix, &moment)?;
        }
        call = mix.call(&mut random, Some(&moment.state));
        library = moment.library;
    }
    Ok(())
}

/// Lists from this seed on, and what they came across.
pub fn compare_exchanges(seed: u64, lists: u64) -> Result<Coverage, Difference> {
    let mut coverage = Coverage::default();
    for list in 0..lists {
        let seed = seed.wrapping_add(list);
        let again = |difference| format!("compare --exchange --lists 1 --seed {seed}\n{difference}");
        compare_list(seed, &mut coverage).map_err(again)?;
    }
    coverage.add("lists", lists);
    Ok(coverage)
}

fn outcomes(first: u32, second: u32) -> String {
    format!("exchanged: outcomes {first} and {second}")
}

fn stays(obstacle: Obstacle, differ: bool) -> String {
    format!("{}: {obstacle}", if differ { "not to be exchanged, and it would differ" } else { "not to be exchanged" })
}

fn in_two_orders(transactions: usize) -> String {
    format!("in two orders: {transactions} that are apart")
}

/// All that lists have to come across.
pub fn required() -> Vec<String> {
    let names = [
        "after an exchange: final deliveries",
        "after an exchange: refusals",
        "exchanged: both read one object",
        "exchanged: both store",
        "exchanged: kept in one order and run again in the other",
        "exchanged: stamps of versions differ",
        "exchanged: told by the bodies",
        "exchanged: told by the runs alone",
        "in two orders: kept in one and run again in the other",
        "in two orders: three or more store",
    ];
    let outcomes = (0..4).flat_map(|first| (0..4).map(move |second| outcomes(first, second)));
    let stays = OBSTACLES.into_iter().flat_map(|obstacle| [stays(obstacle, false), stays(obstacle, true)]);
    let orders = (3..=LONGEST).map(in_two_orders);
    names.into_iter().map(str::to_string).chain(outcomes).chain(stays).chain(orders).collect()
}
