//! Three replicas with early orders, work and readers' moments of their own, and equal final deliveries.

use crate::bodies::{valid, Taste};
use crate::calls::{seen, Calls, Opening};
use crate::comparison::{committed_objects, same, Difference};
use crate::coverage::Coverage;
use crate::face;
use crate::independent::State;
use crate::layout::parse;
use crate::limits::{CLIENTS, STANDARD};
use crate::openings::Objects;
use crate::random::Random;
use crate::serial::Serial;
use jobstore::{Bounds, Committed, Key, Reading, Refusal, Replica};

#[derive(Clone)]
struct Job {
    key: Key,
    body: Vec<u8>,
}

/// What all three replicas are given, in the final order.
struct Plan {
    opening: Opening,
    jobs: Vec<Job>,
    /// Jobs that arrive early at some replicas and are never delivered finally.
    lost: Vec<Job>,
    /// Before each final delivery: the reader that is opened, the one that is closed.
    opened: Vec<Option<u32>>,
    closed: Vec<Option<u32>>,
}

/// One replica and how far its early deliveries are.
struct Site {
    replica: Replica,
    early_order: Vec<usize>,
    operations: u32,
}

type Delivery = Result<Committed, Refusal>;
/// The answers of an opening and of a close of readers, where there is one.
type Readers = (Option<Result<(), Refusal>>, Option<Result<(), Refusal>>);

const SITES: usize = 3;
/// How far early deliveries run ahead of the final ones.
const WINDOW: usize = 20;

fn job(random: &mut Random, next: &mut [u32; CLIENTS], clients: usize, n: usize, taste: Taste) -> Job {
    let client = random.below(clients);
    next[client] += random.pick(&[1, 1, 1, 2, 7]);
    Job { key: Key { client: client as u32, sequence: next[client] }, body: valid(random, n, taste) }
}

fn plan(random: &mut Random) -> Plan {
    let n = random.pick(&[1, 2, 3, 8, 30, STANDARD.objects]);
    let hot = random.pick(&[1, 2, 3, 6]);
    let taste = Taste { most: STANDARD.operations, hot, wild: random.percent(30) };
    let clients = random.pick(&[1, 3, CLIENTS]);
    let mut next = [0; CLIENTS];
    let count = random.between(5, 70);
    let mut jobs: Vec<Job> = (0..count).map(|_| job(random, &mut next, clients, n, taste)).collect();
    // Mostly the order in which clients sent them, with neighbours exchanged here and there.
    for _ in 0..random.pick(&[0, 2, count / 2]) {
        let at = random.below(count - 1);
        jobs.swap(at, (at + random.between(1, 5)).min(count - 1));
    }
    let lost = if random.percent(50) { 0 } else { random.between(1, 6) };
    let reader = |random: &mut Random| random.percent(20).then(|| random.below(STANDARD.readers) as u32);
    let stamp = random.pick(&[0, 9, u32::MAX - 30, u32::MAX - 200]);
    let objects = Objects { n, wild: taste.wild, bounded: random.pick(&[0, 50, 100]) };
    Plan {
        opening: objects.opening(random, stamp),
        lost: (0..lost).map(|_| job(random, &mut next, clients, n, taste)).collect(),
        opened: (0..count).map(|_| reader(random)).collect(),
        closed: (0..count).map(|_| reader(random)).collect(),
        jobs,
    }
}

impl Site {
    fn new(plan: &Plan) -> Result<Site, Difference> {
        let Opening { values, lower, upper, stamp, .. } = &plan.opening;
        let replica = Replica::opened_with_bounds(values, Bounds { lower, upper }, *stamp);
        let replica = replica.map_err(|refusal| format!("opening: {refusal}"))?;
        Ok(Site { replica, early_order: Vec::new(), operations: 0 })
    }

    fn early(&mut self, plan: &Plan, index: usize) {
        self.early_order.push(index);
        self.take(&plan.jobs[index]);
    }

    /// A spent key is refused, as its final delivery will be.
    fn take(&mut self, job: &Job) {
        self.replica.deliver_early(job.key, &job.body).ok();
    }

    /// What this replica happens to do before final delivery `next`, which it has early by then.
    fn meanwhile(&mut self, random: &mut Random, plan: &Plan, next: usize) {
        let end = (next + WINDOW).min(plan.jobs.len());
        for _ in 0..random.below(8) {
            let index = random.between(next, end - 1);
            if random.percent(50) && !self.early_order.contains(&index) {
                self.early(plan, index);
            } else if !plan.lost.is_empty() && random.percent(10) {
                self.take(&plan.lost[random.below(plan.lost.len())]);
            } else {
                self.operations += self.replica.work(random.between(0, 40) as u32).map_or(0, |done| done.operations);
            }
        }
        if !self.early_order.contains(&next) {
            self.early(plan, next);
        }
    }

    /// The readers' calls before final delivery `next`: at every replica between the same two commits.
    fn readers(&mut self, plan: &Plan, next: usize) -> Readers {
        let opened = plan.opened[next].map(|reader| self.replica.open_reader(reader));
        let closed = plan.closed[next].map(|reader| self.replica.close_reader(reader));
        (opened, closed)
    }

    fn deliver(&mut self, random: &mut Random, plan: &Plan, next: usize) -> (Delivery, Readers) {
        let first = random.percent(50);
        let before = first.then(|| self.readers(plan, next));
        self.meanwhile(random, plan, next);
        let answers = before.unwrap_or_else(|| self.readers(plan, next));
        (self.replica.deliver_final(plan.jobs[next].key), answers)
    }

    fn state(&self) -> Result<State, Difference> {
        parse(STANDARD, self.replica.record(), self.replica.bodies()).map_err(|sentence| format!("fails: {sentence}"))
    }
}

/// One plan at three replicas and on the plain table.
pub fn compare_replicas(seed: u64, coverage: &mut Coverage) -> Result<(), Difference> {
    let mut random = Random::new(seed);
    let plan = plan(&mut random);
    let mut sites = [Site::new(&plan)?, Site::new(&plan)?, Site::new(&plan)?];
    let mut serial = Serial::new(STANDARD);
    serial.open(&plan.opening);
    for next in 0..plan.jobs.len() {
        let results = sites.iter_mut().map(|site| site.deliver(&mut random, &plan, next));
        let (committed, readers): (Vec<_>, Vec<_>) = results.unzip();
        let Job { key, body } = &plan.jobs[next];
        serial.early(key.client, key.sequence, body);
        let plain = serial.deliver_final(key.client, key.sequence);
        for site in 0..SITES {
            same("final delivery", seen(face::committed(committed[site])), plain)?;
            same("readers' answers", readers[site], readers[0])?;
        }
        compare_rework(&committed)?;
        count_delivery(coverage, &committed);
        compare_readings(coverage, &mut random, &sites, &serial)?;
        // No stamp is left: what is pending stays so, and from here on places may run out at one replica alone.
        if plain.number == 9 {
            break;
        }
    }
    compare_ends(coverage, &sites, &serial)
}

/// Those that run again start from equal tables, so they carry out the same operations, whatever was done early.
fn compare_rework(results: &[Delivery]) -> Result<(), Difference> {
    let rework: Vec<u32> = results.iter().flatten().filter(|done| !done.kept).map(|done| done.operations).collect();
    rework.windows(2).try_for_each(|pair| same("operations of those that run again", pair[0], pair[1]))
}

fn count_delivery(coverage: &mut Coverage, results: &[Delivery]) {
    match results[0] {
        Err(refusal) => return coverage.count(&format!("all refuse with {}", refusal.number())),
        Ok(committed) => coverage.count(&format!("all commit with outcome {}", committed.outcome.number())),
    }
    let kept = results.iter().flatten().filter(|committed| committed.kept).count();
    coverage.count(match kept {
        0 => "all run again",
        SITES => "all keep",
        _ => "some keep, others run again",
    });
}

/// Every reader's view of an object, value and stamp.
fn compare_readings(
    coverage: &mut Coverage,
    random: &mut Random,
    sites: &[Site; SITES],
    serial: &Serial,
) -> Result<(), Difference> {
    for reader in 0..STANDARD.readers as u32 {
        let object = random.below(serial.objects.len());
        let reading = sites[0].replica.read(reader, object as u32);
        for site in sites {
            same("reading", site.replica.read(reader, object as u32), reading)?;
        }
        coverage.count_if(reading.is_ok(), "readings agree");
        let older = |seen: Reading| seen.stamp < serial.objects[object].timestamp;
        coverage.count_if(reading.is_ok_and(older), "readings agree, on an older version than the newest");
    }
    Ok(())
}

fn compare_ends(coverage: &mut Coverage, sites: &[Site; SITES], serial: &Serial) -> Result<(), Difference> {
    let states = [sites[0].state()?, sites[1].state()?, sites[2].state()?];
    for state in &states {
        same("stamp", state.timestamp, serial.timestamp)?;
        same("last numbers", state.last, serial.last)?;
        // With their stamps, older versions too: the readers are the same.
        same("versions", &state.objects, &states[0].objects)?;
        same("committed table", &committed_objects(state), &serial.objects)?;
    }
    if states.iter().all(|state| state.pending.is_empty()) {
        same("areas byte for byte", sites.iter().all(|site| site.replica == sites[0].replica), true)?;
        coverage.count("nothing pending, all bytes equal");
    } else {
        coverage.count("something pending, equal committed tables");
    }
    coverage.count_if(sites[0].early_order != sites[1].early_order, "different early orders");
    coverage.count_if(sites[0].operations != sites[1].operations, "different work");
    Ok(())
}

/// Plans from this seed on, and what they came across.
pub fn compare_plans(seed: u64, lists: u64) -> Result<Coverage, Difference> {
    let mut coverage = Coverage::default();
    for list in 0..lists {
        let seed = seed.wrapping_add(list);
        let again = |difference| format!("compare --replicas --lists 1 --seed {seed}\n{difference}");
        compare_replicas(seed, &mut coverage).map_err(again)?;
    }
    coverage.add("lists", lists);
    Ok(coverage)
}

/// All that plans have to come across.
pub fn required() -> Vec<String> {
    let names = [
        "all commit with outcome 0",
        "all commit with outcome 1",
        "all commit with outcome 2",
        "all commit with outcome 3",
        "all keep",
        "all refuse with 4",
        "all refuse with 9",
        "all run again",
        "different early orders",
        "different work",
        "nothing pending, all bytes equal",
        "readings agree",
        "readings agree, on an older version than the newest",
        "some keep, others run again",
        "something pending, equal committed tables",
    ];
    names.map(str::to_string).to_vec()
}
