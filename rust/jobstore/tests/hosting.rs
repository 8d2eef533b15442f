//! The rules of docs/HOSTING.md, one test each.

use jobstore::{Body, Committed, Key, Outcome, Refusal, Replica};
use std::thread;

const OBJECTS: u32 = 3;

fn opened() -> Replica {
    Replica::opened(&[10, 20, 30], 0).unwrap()
}

/// The object gets so much more.
fn add(object: u8, amount: i64) -> Body {
    Body::new().load(0, object).set(1, amount).add(0, 1).store(0, object)
}

/// One object takes another's value.
fn copy(from: u8, to: u8) -> Body {
    Body::new().load(0, from).store(0, to)
}

/// The committed table, read on a copy.
fn table(replica: &Replica) -> Vec<i64> {
    let mut copy = replica.copy();
    copy.open_reader(6).unwrap();
    (0..OBJECTS).map(|object| copy.read(6, object).unwrap().value).collect()
}

/// A final message, by the guide: the body is made up for if it did not come early.
fn last(replica: &mut Replica, key: (u32, u32), body: &Body) -> Result<Committed, Refusal> {
    if replica.show_body(key).is_none() {
        replica.deliver_early(key, body)?;
    }
    assert_eq!(replica.show_body(key), Some(body.as_bytes()));
    replica.deliver_final(key)
}

#[test]
fn work_of_512_operations_finishes_all() -> Result<(), Refusal> {
    let mut replica = opened();
    let longest = (0..15).fold(Body::new().load(0, 0), |body, _| body.add(0, 0));
    for sequence in 1..=32 {
        replica.deliver_early((1, sequence), &longest)?;
    }
    let all = replica.copy().work(512)?;
    assert_eq!((all.operations, all.finished), (512, 32));
    let most = replica.work(511)?;
    assert_eq!((most.operations, most.finished), (511, 31));
    assert_eq!(replica.work(1)?.finished, 32);
    Ok(())
}

#[test]
fn calls_that_change_nothing_run_at_once() -> Result<(), Refusal> {
    let mut replica = opened();
    replica.deliver_early((1, 1), copy(0, 1))?;
    replica.open_reader(0)?;
    let shared = &replica;
    thread::scope(|threads| {
        for object in 0..OBJECTS {
            threads.spawn(move || {
                for _ in 0..1000 {
                    assert_eq!(shared.read(0, object).unwrap().value, 10 * i64::from(object + 1));
                    assert_eq!(shared.find((1, 1)).unwrap().place, 0);
                    assert_eq!(shared.show_body((1, 1)), Some(copy(0, 1).as_bytes()));
                    assert_eq!(shared.dry_run((1, 1)).unwrap().values[..3], [10, 10, 30]);
                }
            });
        }
    });
    Ok(())
}

#[test]
fn replicas_in_threads_of_their_own() {
    let commits = |object: u8| {
        let mut replica = opened();
        for sequence in 1..=1000 {
            last(&mut replica, (1, sequence), &add(object, 1)).unwrap();
        }
        table(&replica)
    };
    thread::scope(|threads| {
        let others = [0, 1].map(|object| threads.spawn(move || commits(object)));
        assert_eq!(commits(2), [10, 20, 1030]);
        assert_eq!(others.map(|other| other.join().unwrap()), [[1010, 20, 30], [10, 1020, 30]]);
    });
}

#[test]
fn a_copy_is_read_while_the_replica_goes_on() -> Result<(), Refusal> {
    let mut replica = opened();
    last(&mut replica, (1, 1), &add(0, 5))?;
    let mut analysts = replica.copy();
    for sequence in 2..100 {
        last(&mut replica, (1, sequence), &add(0, 5))?;
    }
    analysts.open_reader(0)?;
    assert_eq!(analysts.read(0, 0)?.value, 15);
    assert_eq!(table(&replica)[0], 10 + 99 * 5);
    Ok(())
}

/// A delivery between the two copies: one place too many or too few. With equal numbers pending the parts may fit, and
/// then nothing is refused.
#[test]
fn areas_of_two_moments() -> Result<(), Refusal> {
    let mut replica = opened();
    let early = replica.copy();
    replica.deliver_early((1, 1), add(0, 5))?;
    let torn = Replica::over(early.record(), replica.bodies());
    assert_eq!(torn.find((1, 1)), Err(Refusal::Area));

    let mut other = opened();
    other.deliver_early((1, 1), add(0, 6))?;
    let unseen = Replica::over(replica.record(), other.bodies());
    assert_eq!(unseen.show_body((1, 1)), Some(add(0, 6).as_bytes()));
    Ok(())
}

/// Thirty-two jobs that came early, and the final order begins with another one.
#[test]
fn with_every_place_taken_the_next_job_is_stuck() -> Result<(), Refusal> {
    let mut replica = opened();
    for sequence in 1..=32 {
        replica.deliver_early((1, sequence), add(0, 1))?;
    }
    assert_eq!(replica.deliver_early((2, 1), add(1, 1)), Err(Refusal::Full));
    assert_eq!(replica.deliver_final((2, 1)), Err(Refusal::NotPending));
    Ok(())
}

#[test]
fn one_free_place_is_enough() -> Result<(), Refusal> {
    let mut replica = opened();
    for sequence in 1..=31 {
        replica.deliver_early((1, sequence), add(0, 1))?;
    }
    for sequence in 1..=100 {
        last(&mut replica, (2, sequence), &add(1, 1))?;
    }
    assert_eq!(table(&replica), [10, 120, 30]);
    assert_eq!(replica.find((1, 31))?.place, 30);
    Ok(())
}

#[test]
fn a_lost_early_message_is_made_up_for() -> Result<(), Refusal> {
    let (mut lost, mut got) = (opened(), opened());
    got.deliver_early((1, 1), add(0, 5))?;
    got.work(512)?;
    let (there, here) = (last(&mut got, (1, 1), &add(0, 5))?, last(&mut lost, (1, 1), &add(0, 5))?);
    assert_eq!((there.kept, there.operations), (true, 0));
    assert_eq!((here.kept, here.operations), (false, 4));
    assert_eq!((there.outcome, there.stamp, there.stored), (here.outcome, here.stamp, here.stored));
    assert!(lost == got, "equal replicas have equal bytes");
    Ok(())
}

/// One bit on the way: 5 became 4. Nothing is refused, and the tables are no longer equal.
#[test]
fn an_altered_early_body_parts_the_replicas() -> Result<(), Refusal> {
    let (mut one, mut other) = (opened(), opened());
    let mut altered = Vec::from(add(0, 5));
    altered[1 + 3 * 4 + 8] ^= 1;
    one.deliver_early((1, 1), add(0, 5))?;
    other.deliver_early((1, 1), &altered)?;
    // What tells, before it is too late: the final message's body is not the one that is shown.
    assert_eq!(one.show_body((1, 1)), Some(add(0, 5).as_bytes()));
    assert_ne!(other.show_body((1, 1)), Some(add(0, 5).as_bytes()));
    one.deliver_final((1, 1))?;
    other.deliver_final((1, 1))?;
    assert_eq!((table(&one), table(&other)), (vec![15, 20, 30], vec![14, 20, 30]));
    Ok(())
}

/// The sound one's early jobs come with it; those that the replica had and the sound one has not are made up for.
#[test]
fn a_copy_of_a_sound_replica_takes_its_place() -> Result<(), Refusal> {
    let (mut sound, mut altered) = (opened(), opened());
    sound.deliver_early((1, 1), add(0, 5))?;
    altered.deliver_early((1, 1), add(0, 4))?;
    altered.deliver_early((2, 1), copy(0, 1))?;
    assert_ne!(altered.show_body((1, 1)), Some(add(0, 5).as_bytes()));
    altered = sound.copy();
    for replica in [&mut sound, &mut altered] {
        last(replica, (1, 1), &add(0, 5))?;
        last(replica, (2, 1), &copy(0, 1))?;
        assert_eq!(table(replica), [15, 15, 30]);
    }
    Ok(())
}

#[test]
fn retries_are_safe() -> Result<(), Refusal> {
    let mut replica = opened();
    replica.deliver_early((1, 1), add(0, 5))?;
    assert_eq!(replica.deliver_early((1, 1), add(0, 5)), Err(Refusal::Pending));
    replica.deliver_early((1, 2), add(0, 5))?;
    replica.deliver_final((1, 2))?;
    let done = replica.copy();
    for sequence in [1, 2] {
        assert_eq!(replica.deliver_early((1, sequence), add(0, 5)), Err(Refusal::Spent));
        assert_eq!(replica.deliver_final((1, sequence)), Err(Refusal::Spent));
    }
    assert!(replica == done, "no byte changed");
    assert_eq!(table(&replica), [15, 20, 30]);
    Ok(())
}

#[test]
fn early_orders_and_work_do_not_matter() -> Result<(), Refusal> {
    let jobs = [((1, 1), add(0, 5)), ((2, 1), copy(1, 2)), ((3, 1), copy(0, 1))];
    let orders = [[0, 1, 2], [2, 1, 0], [1, 2, 0]];
    let mut ends = Vec::new();
    for (early, count) in orders.iter().zip([0, 3, 512]) {
        let mut replica = opened();
        for &job in early {
            replica.deliver_early(jobs[job].0, &jobs[job].1)?;
            replica.work(count)?;
        }
        for (key, body) in [&jobs[2], &jobs[0], &jobs[1]] {
            last(&mut replica, *key, body)?;
        }
        ends.push(replica);
    }
    assert_eq!(table(&ends[0]), [15, 10, 10]);
    assert!(ends.iter().all(|end| *end == ends[0]), "equal replicas have equal bytes");
    Ok(())
}

#[test]
fn a_dry_run_holds_until_the_next_final_delivery() -> Result<(), Refusal> {
    let mut replica = opened();
    replica.deliver_early((1, 1), add(0, 5))?;
    replica.deliver_early((2, 1), copy(0, 1))?;
    let told = replica.dry_run((2, 1))?;
    replica.work(512)?;
    replica.deliver_early((3, 1), add(2, 1))?;
    assert_eq!(replica.dry_run((2, 1))?, told);

    // Another final delivery may change all of it, and early results that were worth nothing are kept now.
    replica.deliver_final((1, 1))?;
    let now = replica.dry_run((2, 1))?;
    assert_eq!((told.kept, now.kept), (false, true));
    assert_eq!((now.stamp, now.values[1]), (told.stamp + 1, told.values[1] + 5));
    assert_eq!(replica.deliver_final((2, 1))?.stamp, now.stamp);
    assert_eq!(table(&replica)[..], now.values[..table(&replica).len()]);
    Ok(())
}

#[test]
fn jobs_on_different_objects_change_places() -> Result<(), Refusal> {
    let mut replica = opened();
    replica.deliver_early((1, 1), add(0, 5))?;
    replica.deliver_early((2, 1), copy(1, 2))?;
    let mut exchanged = replica.copy();
    let [first, second] = [replica.deliver_final((1, 1))?, replica.deliver_final((2, 1))?];
    let [second_now, first_now] = [exchanged.deliver_final((2, 1))?, exchanged.deliver_final((1, 1))?];
    assert_eq!([first.outcome, second.outcome], [first_now.outcome, second_now.outcome]);
    assert_eq!((table(&replica), table(&exchanged)), (vec![15, 20, 20], vec![15, 20, 20]));
    assert_eq!(([first.stamp, second.stamp], [first_now.stamp, second_now.stamp]), ([1, 2], [2, 1]));

    // One that loads what the other stores may not pass it: it would take the old value.
    let mut replica = opened();
    replica.deliver_early((1, 1), add(0, 5))?;
    replica.deliver_early((2, 1), copy(0, 2))?;
    let mut exchanged = replica.copy();
    for client in [1, 2] {
        replica.deliver_final((client, 1))?;
        exchanged.deliver_final((3 - client, 1))?;
    }
    assert_eq!((table(&replica), table(&exchanged)), (vec![15, 20, 15], vec![15, 20, 10]));
    Ok(())
}

#[test]
fn a_job_that_never_comes_leaves_with_its_clients_next() -> Result<(), Refusal> {
    let mut replica = opened();
    let empty = Body::new().set(0, 0);
    replica.deliver_early((1, 1), add(0, 5))?;
    replica.deliver_early((2, 1), copy(0, 1))?;
    replica.work(512)?;
    // It read what the job that never comes stored: run again, on the committed table.
    let again = last(&mut replica, (2, 1), &copy(0, 1))?;
    assert_eq!((again.kept, again.operations), (false, 2));
    assert_eq!(table(&replica), [10, 10, 30]);
    assert_eq!(replica.find((1, 1))?.place, 0);

    let committed = last(&mut replica, (1, 2), &empty)?;
    assert_eq!((committed.outcome, committed.stored, committed.stamp), (Outcome::Done, 0, 2));
    assert_eq!(replica.find((1, 1)), Err(Refusal::NotPending));
    Ok(())
}

/// A link that is forty jobs ahead: some find no place early, and all commit in order.
#[test]
fn what_finds_no_place_early_runs_at_its_final_delivery() -> Result<(), Refusal> {
    const AHEAD: u32 = 40;
    const JOBS: u32 = 400;
    let key = |job: u32| (job % 16, 1 + job / 16);
    let mut replica = opened();
    let mut pending: Vec<Key> = Vec::new();
    let mut kept = 0;
    for job in 0..JOBS + AHEAD {
        if job < JOBS && pending.len() < 31 {
            replica.deliver_early(key(job), add(0, 1))?;
            pending.push(key(job).into());
        }
        replica.work(512)?;
        if let Some(ordered) = job.checked_sub(AHEAD) {
            kept += u32::from(last(&mut replica, key(ordered), &add(0, 1))?.kept);
            pending.retain(|other| *other != key(ordered).into());
        }
    }
    assert_eq!(table(&replica)[0], 10 + i64::from(JOBS));
    assert!(0 < kept && kept < JOBS, "{kept} kept");
    Ok(())
}

#[test]
fn opening_anew_with_the_values_of_the_end() -> Result<(), Refusal> {
    let mut replica = Replica::opened(&[10, 20, 30], u32::MAX - 1)?;
    assert_eq!(last(&mut replica, (1, 1), &add(0, 5))?.stamp, u32::MAX);
    assert_eq!(last(&mut replica, (1, 2), &add(0, 5)), Err(Refusal::LastStamp));
    replica.open(&table(&replica), 0)?;
    assert_eq!(last(&mut replica, (1, 1), &add(0, 5))?.stamp, 1);
    assert_eq!(table(&replica), [20, 20, 30]);
    Ok(())
}

#[test]
fn a_store_is_handed_over_by_values() -> Result<(), Refusal> {
    let mut before = opened();
    last(&mut before, (1, 1), &add(0, 5))?;
    let stamp = last(&mut before, (2, 1), &copy(0, 1))?.stamp;
    let mut after = Replica::opened(&table(&before), stamp)?;
    assert_eq!(table(&after), table(&before));
    after.open_reader(0)?;
    for object in 0..OBJECTS {
        assert_eq!(after.read(0, object)?.stamp, stamp);
    }
    assert_eq!(last(&mut after, (1, 2), &add(0, 5))?.stamp, stamp + 1);
    assert_eq!(before.deliver_early((2, 1), copy(0, 1)), Err(Refusal::Spent));
    assert_eq!(after.deliver_early((2, 1), copy(0, 1)), Ok(()));
    Ok(())
}

/// The store on record becomes the 3 that the base's rounding made of 5 / 2: the read still matches, so it is kept.
#[test]
fn early_results_of_another_rule_are_kept() -> Result<(), Refusal> {
    let mut here = Replica::opened(&[5, 0, 0], 0)?;
    here.deliver_early((1, 1), Body::new().load(0, 0).divide(0, 2).store(0, 1))?;
    let mut there = here.copy();
    assert_eq!(here.work(100)?.finished, 1);
    // docs/LAYOUT.md: row 0, the value of entry 1. Entry 0 is the read.
    let stored = 19_664 + 80 + 16;
    assert_eq!(here.record()[stored], 2);
    here.areas_mut().0[stored] = 3;
    let (forged, sound) = (here.deliver_final((1, 1))?, there.deliver_final((1, 1))?);
    assert_eq!((forged.kept, forged.operations), (true, 0));
    assert_eq!((sound.kept, sound.operations), (false, 3));
    assert_eq!((table(&here), table(&there)), (vec![5, 3, 0], vec![5, 2, 0]));
    Ok(())
}

/// And no other: what stands between backquotes and has two underscores is a test's name.
#[test]
fn the_guide_names_each_of_these_tests() {
    let guide = include_str!("../../../docs/HOSTING.md");
    let is_name = |word: &&str| word.matches('_').count() > 1 && !word.contains(char::is_whitespace);
    let mut named: Vec<&str> = guide.split('`').skip(1).step_by(2).filter(is_name).collect();
    let heads = include_str!("hosting.rs").split("#[test]\nfn ").skip(1);
    let mut tests: Vec<&str> = heads.map(|rest| rest.split_once('(').unwrap().0).collect();
    tests.retain(|test| *test != "the_guide_names_each_of_these_tests");
    named.sort_unstable();
    tests.sort_unstable();
    assert_eq!(named, tests);
}
