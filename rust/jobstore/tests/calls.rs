//! The ten cases of "A small depot", bounds, stamps beside values, operations carried out, dry runs, and each refusal.

use jobstore::{Body, Bounds, Committed, Executed, Found, Outcome, Preview, Refusal, Replica};
use jobstore::{BODIES_LENGTH, PREVIEW_PLACES, RECORD_LENGTH};

fn add_5() -> Body {
    Body::new().load(0, 0).set(1, 5).add(0, 1).store(0, 0)
}

/// Objects 10, 20, 30, and A, B and C in early order.
fn depot() -> Result<Replica, Refusal> {
    let mut replica = Replica::opened(&[10, 20, 30], 0)?;
    replica.deliver_early((1, 1), add_5())?;
    replica.deliver_early((2, 1), Body::new().load(0, 1).store(0, 2))?;
    replica.deliver_early((3, 1), Body::new().load(0, 0).store(0, 1))?;
    Ok(replica)
}

fn worked() -> Result<Replica, Refusal> {
    let mut replica = depot()?;
    replica.work(100)?;
    Ok(replica)
}

/// The committed table, by a reader that sees it.
fn table(replica: &Replica, n: u32) -> Result<Vec<i64>, Refusal> {
    let mut copy = replica.copy();
    copy.open_reader(6)?;
    (0..n).map(|object| Ok(copy.read(6, object)?.value)).collect()
}

/// An object as the reader sees it: its value and its stamp.
fn seen(replica: &Replica, reader: u32, object: u32) -> Result<(i64, u32), Refusal> {
    replica.read(reader, object).map(|reading| (reading.value, reading.stamp))
}

fn executed(yielded: Executed) -> (u32, u32) {
    (yielded.operations, yielded.finished)
}

/// Outcome, kept, stamp, objects stored, operations carried out.
fn committed(yielded: Committed) -> (Outcome, bool, u32, u32, u32) {
    (yielded.outcome, yielded.kept, yielded.stamp, yielded.stored, yielded.operations)
}

/// The refusal of a call, which changes no byte.
fn refused<T>(replica: &mut Replica, call: impl FnOnce(&mut Replica) -> Result<T, Refusal>) -> Option<Refusal> {
    let before = replica.clone();
    let refusal = call(replica).err();
    assert!(before == *replica, "a refusal changed a byte");
    refusal
}

#[test]
fn case_1_work_carries_out_8_operations() -> Result<(), Refusal> {
    let mut replica = depot()?;
    assert_eq!(executed(replica.work(100)?), (8, 3));
    assert_eq!(executed(replica.work(100)?), (0, 3));
    Ok(())
}

#[test]
fn case_2_all_kept_in_early_order() -> Result<(), Refusal> {
    let mut replica = worked()?;
    for client in [1, 2, 3] {
        assert_eq!(committed(replica.deliver_final((client, 1))?), (Outcome::Done, true, client, 1, 0));
    }
    assert_eq!(table(&replica, 3)?, [15, 15, 20]);
    Ok(())
}

#[test]
fn case_3_final_c_a_b_with_no_work_between() -> Result<(), Refusal> {
    let mut replica = worked()?;
    assert_eq!(committed(replica.deliver_final((3, 1))?), (Outcome::Done, false, 1, 1, 2));
    assert_eq!(committed(replica.deliver_final((1, 1))?), (Outcome::Done, true, 2, 1, 0));
    assert_eq!(committed(replica.deliver_final((2, 1))?), (Outcome::Done, false, 3, 1, 2));
    assert_eq!(table(&replica, 3)?, [15, 10, 10]);
    Ok(())
}

#[test]
fn case_4_final_b_first_is_kept() -> Result<(), Refusal> {
    let mut replica = worked()?;
    assert_eq!(committed(replica.deliver_final((2, 1))?), (Outcome::Done, true, 1, 1, 0));
    assert_eq!(executed(replica.work(0)?), (0, 2));
    Ok(())
}

#[test]
fn case_5_a_reader_sees_the_table_of_its_opening() -> Result<(), Refusal> {
    let mut replica = worked()?;
    replica.open_reader(0)?;
    replica.deliver_final((1, 1))?;
    assert_eq!(seen(&replica, 0, 0)?, (10, 0));
    replica.open_reader(1)?;
    assert_eq!(seen(&replica, 1, 0)?, (15, 1));
    replica.close_reader(0)?;
    assert_eq!(seen(&replica, 1, 0)?, (15, 1));
    Ok(())
}

#[test]
fn case_6_divide_rounds_a_half_to_the_even_neighbour() -> Result<(), Refusal> {
    for (value, quotient) in [(7, 4), (-7, -4), (5, 2), (-5, -2)] {
        let mut replica = Replica::opened(&[value], 0)?;
        replica.deliver_early((1, 1), Body::new().load(0, 0).divide(0, 2).store(0, 0))?;
        assert_eq!(committed(replica.deliver_final((1, 1))?), (Outcome::Done, false, 1, 1, 3));
        assert_eq!(table(&replica, 1)?, [quotient]);
    }
    Ok(())
}

#[test]
fn case_7_an_overflow_stores_nothing_and_takes_a_stamp() -> Result<(), Refusal> {
    let mut replica = Replica::opened(&[i64::MAX], 0)?;
    replica.deliver_early((1, 1), Body::new().load(0, 0).set(1, 1).add(0, 1).store(0, 0))?;
    assert_eq!(committed(replica.deliver_final((1, 1))?), (Outcome::Overflow, false, 1, 0, 3));
    assert_eq!(table(&replica, 1)?, [i64::MAX]);
    Ok(())
}

#[test]
fn case_8_lower_keys_of_the_client_leave() -> Result<(), Refusal> {
    let mut replica = Replica::opened(&[10], 0)?;
    replica.deliver_early((1, 1), add_5())?;
    replica.deliver_early((1, 2), add_5())?;
    assert_eq!(committed(replica.deliver_final((1, 2))?), (Outcome::Done, false, 1, 1, 4));
    assert_eq!(replica.find((1, 1)), Err(Refusal::NotPending));
    assert_eq!(refused(&mut replica, |r| r.deliver_final((1, 1))), Some(Refusal::Spent));
    Ok(())
}

#[test]
fn case_9_limits() -> Result<(), Refusal> {
    let mut replica = Replica::opened(&[10], 0)?;
    for sequence in 1..=32 {
        replica.deliver_early((1, sequence), add_5())?;
    }
    assert_eq!(refused(&mut replica, |r| r.deliver_early((1, 33), add_5())), Some(Refusal::Full));
    assert_eq!(executed(replica.work(4096)?), (128, 32));
    assert_eq!(refused(&mut replica, |r| r.work(4097)), Some(Refusal::Count));
    assert_eq!(refused(&mut replica, |r| r.open(&[1; 129], 0)), Some(Refusal::Objects));
    replica.open(&[1; 128], 0)
}

#[test]
fn case_10_skips_at_the_end() -> Result<(), Refusal> {
    let mut replica = Replica::opened(&[10], 0)?;
    let past_the_last = Body::new().load(0, 0).skip_if_negative(0, 1);
    assert_eq!(refused(&mut replica, |r| r.deliver_early((1, 1), past_the_last)), Some(Refusal::Body));
    replica.deliver_early((1, 1), Body::new().skip_if_negative(0, 1).load(0, 0))
}

#[test]
fn a_fail_stores_nothing_and_takes_a_stamp() -> Result<(), Refusal> {
    let mut replica = Replica::opened(&[10], 0)?;
    replica.deliver_early((1, 1), Body::new().store(0, 0).fail())?;
    assert_eq!(executed(replica.work(4096)?), (2, 1));
    assert_eq!(committed(replica.deliver_final((1, 1))?), (Outcome::Fail, true, 1, 0, 0));
    assert_eq!(table(&replica, 1)?, [10]);
    Ok(())
}

/// Two tanks, 20 litres in each: the first holds 0 to 50, the second 20 to 20.
fn tanks() -> Result<Replica, Refusal> {
    Replica::opened_with_bounds(&[20, 20], Bounds { lower: &[0, 20], upper: &[50, 20] }, 0)
}

/// Both tanks get so much more.
fn fill(litres: i64) -> Body {
    let fill = |body: Body, tank| body.load(0, tank).add(0, 1).store(0, tank);
    fill(fill(Body::new().set(1, litres), 1), 0)
}

#[test]
fn a_store_at_a_bound_is_inside() -> Result<(), Refusal> {
    for (amount, left) in [(-20, 0), (30, 50), (0, 20)] {
        let mut replica = tanks()?;
        replica.deliver_early((1, 1), Body::new().load(0, 0).set(1, amount).add(0, 1).store(0, 0))?;
        assert_eq!(committed(replica.deliver_final((1, 1))?), (Outcome::Done, false, 1, 1, 4));
        assert_eq!(table(&replica, 2)?, [left, 20]);
    }
    Ok(())
}

#[test]
fn a_store_outside_stores_nothing_and_takes_a_stamp() -> Result<(), Refusal> {
    for amount in [-24, -21, 31, i64::MAX - 20] {
        let mut replica = tanks()?;
        let body = Body::new().set(1, amount).load(0, 0).store(0, 1).add(0, 1).store(0, 0).fail();
        replica.deliver_early((1, 1), body)?;
        assert_eq!(committed(replica.deliver_final((1, 1))?), (Outcome::Outside, false, 1, 0, 5));
        assert_eq!(table(&replica, 2)?, [20, 20]);
    }
    Ok(())
}

/// The store that stops a run is carried out: it counts in work. Each object has bounds of its own.
#[test]
fn early_runs_stop_at_a_store_outside() -> Result<(), Refusal> {
    let mut replica = tanks()?;
    replica.deliver_early((1, 1), fill(1))?;
    replica.deliver_early((2, 1), fill(0))?;
    assert_eq!(executed(replica.work(3)?), (3, 0));
    assert_eq!(executed(replica.work(1)?), (1, 1));
    assert_eq!(executed(replica.work(100)?), (7, 2));
    assert_eq!(committed(replica.deliver_final((1, 1))?), (Outcome::Outside, true, 1, 0, 0));
    assert_eq!(committed(replica.deliver_final((2, 1))?), (Outcome::Done, true, 2, 2, 0));
    assert_eq!(table(&replica, 2)?, [20, 20]);
    Ok(())
}

/// Early the draw came behind the filling; finally it comes first, and is run again.
#[test]
fn what_was_inside_early_may_be_outside_in_the_end() -> Result<(), Refusal> {
    let mut replica = tanks()?;
    replica.deliver_early((1, 1), Body::new().load(0, 0).set(1, 30).add(0, 1).store(0, 0))?;
    replica.deliver_early((2, 1), Body::new().load(0, 0).set(1, 24).subtract(0, 1).store(0, 0))?;
    assert_eq!(executed(replica.work(100)?), (8, 2));
    assert_eq!(tried(&replica, (2, 1), 2)?, (Outcome::Outside, false, 1, vec![20, 20]));
    assert_eq!(committed(replica.deliver_final((2, 1))?), (Outcome::Outside, false, 1, 0, 4));
    assert_eq!(committed(replica.deliver_final((1, 1))?), (Outcome::Done, true, 2, 1, 0));
    assert_eq!(table(&replica, 2)?, [50, 20]);
    Ok(())
}

#[test]
fn no_bounds_are_the_widest() -> Result<(), Refusal> {
    let values = [i64::MIN, i64::MAX, 0];
    let widest = Bounds { lower: &[i64::MIN; 3], upper: &[i64::MAX; 3] };
    assert!(Replica::opened(&values, 7)? == Replica::opened_with_bounds(&values, widest, 7)?);
    Ok(())
}

#[test]
fn refused_bounds() -> Result<(), Refusal> {
    let mut replica = tanks()?;
    let mut open = |lower: &[i64], upper: &[i64]| {
        refused(&mut replica, |r| r.open_with_bounds(&[20, 20], Bounds { lower, upper }, 0))
    };
    // A number of bounds is wrong before a bound is: 30 would be outside.
    for wrong in [&[][..], &[20], &[30], &[20, 20, 20]] {
        assert_eq!(open(wrong, &[20, 20]), Some(Refusal::Objects));
        assert_eq!(open(&[20, 20], wrong), Some(Refusal::Objects));
    }
    assert_eq!(open(&[0, 21], &[50, 50]), Some(Refusal::Bounds));
    assert_eq!(open(&[0, 0], &[19, 50]), Some(Refusal::Bounds));
    assert_eq!(open(&[0, 30], &[50, 10]), Some(Refusal::Bounds));
    Ok(())
}

/// Delivered early and finally at once; the stamp that it took.
fn commit(replica: &mut Replica, key: (u32, u32), body: Body) -> Result<u32, Refusal> {
    replica.deliver_early(key, body)?;
    Ok(replica.deliver_final(key)?.stamp)
}

/// The reader's own stamp is 10, which no version has: the job that took it failed.
#[test]
fn a_value_has_the_stamp_of_its_commit_or_of_the_start() -> Result<(), Refusal> {
    let mut replica = Replica::opened(&[10, 20, 30], 7)?;
    assert_eq!(commit(&mut replica, (1, 1), add_5())?, 8);
    assert_eq!(commit(&mut replica, (3, 1), Body::new().load(0, 0).store(0, 1))?, 9);
    assert_eq!(commit(&mut replica, (4, 1), Body::new().store(0, 2).fail())?, 10);
    replica.open_reader(0)?;
    assert_eq!(seen(&replica, 0, 0)?, (15, 8));
    assert_eq!(seen(&replica, 0, 1)?, (15, 9));
    assert_eq!(seen(&replica, 0, 2)?, (30, 7));
    Ok(())
}

/// Of the last two commits, which store the same value, each gives a stamp of its own.
#[test]
fn a_reader_goes_on_with_the_stamps_of_its_opening() -> Result<(), Refusal> {
    let mut replica = Replica::opened(&[10, 20, 30], 7)?;
    replica.open_reader(0)?;
    assert_eq!(commit(&mut replica, (1, 1), add_5())?, 8);
    replica.open_reader(1)?;
    assert_eq!(commit(&mut replica, (1, 2), Body::new().load(0, 0).store(0, 0))?, 9);
    replica.open_reader(2)?;
    for (reader, due) in [(0, (10, 7)), (1, (15, 8)), (2, (15, 9))] {
        assert_eq!(seen(&replica, reader, 0)?, due);
        assert_eq!(seen(&replica, reader, 1)?, (20, 7));
    }
    replica.close_reader(1)?;
    assert_eq!((seen(&replica, 0, 0)?, seen(&replica, 2, 0)?), ((10, 7), (15, 9)));
    Ok(())
}

/// Objects 0 and 1 with this value in the first, which takes -100 to 100.
fn gauge(value: i64) -> Result<Replica, Refusal> {
    Replica::opened_with_bounds(&[value, 0], Bounds { lower: &[-100, i64::MIN], upper: &[100, i64::MAX] }, 0)
}

/// Five operations; below 0 the third and the fourth are passed over.
fn skipping() -> Body {
    Body::new().load(0, 0).skip_if_negative(0, 2).set(1, 1).store(1, 0).store(0, 1)
}

/// Sixteen, all carried out.
fn longest() -> Body {
    (0..14).fold(Body::new().load(0, 0), |body, _| body.add(1, 0)).store(1, 1)
}

/// Passed-over operations are not counted. The one that stops a run is, and none behind it.
#[test]
fn a_run_again_tells_the_operations_that_it_carried_out() -> Result<(), Refusal> {
    let past_the_end = Body::new().load(0, 0).skip_if_negative(0, 2).load(1, 1).fail();
    let fail = Body::new().load(0, 0).store(0, 1).fail().load(1, 1).load(2, 1);
    let fail_behind_a_skip =
        Body::new().load(0, 0).skip_if_negative(0, 3).set(1, 1).set(2, 2).set(3, 3).fail().set(1, 1);
    let overflow = Body::new().set(0, i64::MIN).load(1, 0).add(0, 1).store(0, 1).load(2, 1);
    let outside = Body::new().set(0, 101).store(0, 1).store(0, 0).fail();
    let runs = [
        (skipping(), -1, Outcome::Done, 3),
        (skipping(), 0, Outcome::Done, 5),
        (past_the_end.clone(), -1, Outcome::Done, 2),
        (past_the_end, 1, Outcome::Fail, 4),
        (fail, 1, Outcome::Fail, 3),
        (fail_behind_a_skip.clone(), -1, Outcome::Fail, 3),
        (fail_behind_a_skip, 1, Outcome::Fail, 6),
        (overflow.clone(), -1, Outcome::Overflow, 3),
        (overflow, 1, Outcome::Done, 5),
        (outside, 1, Outcome::Outside, 3),
        (Body::new().fail(), 1, Outcome::Fail, 1),
        (longest(), 1, Outcome::Done, 16),
    ];
    for (body, value, outcome, operations) in runs {
        let mut replica = gauge(value)?;
        replica.deliver_early((1, 1), &body)?;
        let again = replica.deliver_final((1, 1))?;
        assert_eq!((again.outcome, again.kept, again.operations), (outcome, false, operations), "{body:?} on {value}");
    }
    Ok(())
}

#[test]
fn what_is_kept_carries_out_none() -> Result<(), Refusal> {
    for (body, early) in [(longest(), 16), (skipping(), 3), (Body::new().fail(), 1)] {
        let mut replica = gauge(-1)?;
        replica.deliver_early((1, 1), body)?;
        assert_eq!(executed(replica.work(100)?), (early, 1));
        let committed = replica.deliver_final((1, 1))?;
        assert_eq!((committed.kept, committed.operations), (true, 0));
    }
    Ok(())
}

/// The run that commits counts, whole: not what work did before, nor what it left.
#[test]
fn a_run_again_counts_from_its_start() -> Result<(), Refusal> {
    for done in [0, 1, 15] {
        let mut replica = gauge(7)?;
        replica.deliver_early((1, 1), longest())?;
        assert_eq!(executed(replica.work(done)?), (done, 0));
        assert_eq!(committed(replica.deliver_final((1, 1))?), (Outcome::Done, false, 1, 1, 16));
    }
    // Early on -1 it passed two over; finally, on 1, all five are carried out.
    let mut replica = gauge(-1)?;
    replica.deliver_early((1, 1), skipping())?;
    replica.deliver_early((2, 1), Body::new().set(0, 1).store(0, 0))?;
    assert_eq!(executed(replica.work(100)?), (5, 2));
    assert_eq!(committed(replica.deliver_final((2, 1))?), (Outcome::Done, true, 1, 1, 0));
    assert_eq!(committed(replica.deliver_final((1, 1))?), (Outcome::Done, false, 2, 2, 5));
    Ok(())
}

/// One less leaves the last job unfinished.
#[test]
fn work_of_16_operations_for_each_pending_job_finishes_all() -> Result<(), Refusal> {
    let mut replica = gauge(0)?;
    for pending in 1..=32 {
        replica.deliver_early((pending % 16, pending), longest())?;
        let (mut enough, mut less) = (replica.copy(), replica.copy());
        assert_eq!(executed(enough.work(16 * pending)?), (16 * pending, pending));
        assert_eq!(executed(less.work(16 * pending - 1)?), (16 * pending - 1, pending - 1));
    }
    Ok(())
}

/// A dry run's outcome, kept, stamp, and values of this many objects; past them there are zeros. No byte changes, and on
/// a copy the final delivery does what was told.
fn tried(replica: &Replica, key: (u32, u32), n: u32) -> Result<(Outcome, bool, u32, Vec<i64>), Refusal> {
    let mut copy = replica.copy();
    let Preview { outcome, kept, stamp, values, .. } = replica.dry_run(key)?;
    assert!(copy == *replica, "a dry run changed a byte");
    let done = copy.deliver_final(key)?;
    assert_eq!((outcome, kept, stamp), (done.outcome, done.kept, done.stamp));
    let (values, past) = values.split_at(n as usize);
    assert_eq!(values, table(&copy, n)?);
    assert_eq!(past, vec![0; PREVIEW_PLACES - n as usize]);
    Ok((outcome, kept, stamp, values.to_vec()))
}

/// Whatever was done early, the values are the same. C read early what A stored.
#[test]
fn a_dry_run_tells_what_is_kept_and_what_is_run_again() -> Result<(), Refusal> {
    for (replica, kept) in [(worked()?, [true, true, false]), (depot()?, [false; 3])] {
        assert_eq!(tried(&replica, (1, 1), 3)?, (Outcome::Done, kept[0], 1, vec![15, 20, 30]));
        assert_eq!(tried(&replica, (2, 1), 3)?, (Outcome::Done, kept[1], 1, vec![10, 20, 20]));
        assert_eq!(tried(&replica, (3, 1), 3)?, (Outcome::Done, kept[2], 1, vec![10, 10, 30]));
    }
    Ok(())
}

/// The delivery itself then does what was told, and the next dry run starts from what it left.
#[test]
fn a_dry_run_before_each_final_delivery() -> Result<(), Refusal> {
    let mut replica = worked()?;
    let due = [(3, false, [10, 10, 30]), (1, true, [15, 10, 30]), (2, false, [15, 10, 10])];
    for (stamp, (client, kept, values)) in (1..).zip(due) {
        assert_eq!(tried(&replica, (client, 1), 3)?, (Outcome::Done, kept, stamp, values.to_vec()));
        let done = replica.deliver_final((client, 1))?;
        assert_eq!((done.outcome, done.kept, done.stamp), (Outcome::Done, kept, stamp));
        assert_eq!(table(&replica, 3)?, values);
    }
    Ok(())
}

/// Object 1 is stored before the end comes.
#[test]
fn a_dry_run_that_is_not_done_leaves_the_values() -> Result<(), Refusal> {
    let stored = || Body::new().load(0, 0).store(0, 1).set(1, i64::MIN).store(1, 1);
    let ends = [
        (stored().fail(), Outcome::Fail),
        (stored().add(0, 1).store(0, 1), Outcome::Overflow),
        (stored().store(1, 0), Outcome::Outside),
    ];
    for (body, outcome) in ends {
        let mut replica = gauge(-7)?;
        replica.deliver_early((1, 1), body)?;
        assert_eq!(tried(&replica, (1, 1), 2)?, (outcome, false, 1, vec![-7, 0]));
        replica.work(1)?;
        assert_eq!(tried(&replica, (1, 1), 2)?, (outcome, false, 1, vec![-7, 0]));
        replica.work(100)?;
        assert_eq!(tried(&replica, (1, 1), 2)?, (outcome, true, 1, vec![-7, 0]));
    }
    Ok(())
}

#[test]
fn a_dry_run_has_a_place_for_every_object() -> Result<(), Refusal> {
    for n in [1, 2, 127, 128] {
        let mut values: Vec<i64> = (1..=n).map(|object| -object).collect();
        let mut replica = Replica::opened(&values, u32::MAX - 1)?;
        let last = n as usize - 1;
        replica.deliver_early((15, u32::MAX), Body::new().set(0, i64::MIN).store(0, last as u8))?;
        values[last] = i64::MIN;
        assert_eq!(tried(&replica, (15, u32::MAX), n as u32)?, (Outcome::Done, false, u32::MAX, values));
    }
    Ok(())
}

/// A reader goes on with the old version; a dry run starts from the newest.
#[test]
fn a_dry_run_does_not_look_at_readers() -> Result<(), Refusal> {
    let mut replica = depot()?;
    replica.open_reader(0)?;
    replica.deliver_final((1, 1))?;
    assert_eq!(seen(&replica, 0, 0)?, (10, 0));
    assert_eq!(tried(&replica, (3, 1), 3)?, (Outcome::Done, false, 2, vec![15, 15, 30]));
    Ok(())
}

#[test]
fn find_and_show_body() -> Result<(), Refusal> {
    let replica = depot()?;
    let Found { place, length, .. } = replica.find((3, 1))?;
    assert_eq!((place, length), (2, 23));
    let shown = replica.show_body((3, 1)).unwrap();
    assert_eq!(shown, Body::new().load(0, 0).store(0, 1).as_bytes());
    assert_eq!(shown.as_ptr(), replica.bodies()[2 * 177..].as_ptr());
    assert_eq!(replica.show_body((4, 1)), None);
    Ok(())
}

/// Areas of the caller's, all calls; and lent to read, those that change nothing.
#[test]
fn areas_owned_and_lent() -> Result<(), Refusal> {
    let (mut record, mut bodies) = depot()?.into_areas();
    let mut lent = Replica::over(&mut record[..], &mut bodies[..]);
    assert_eq!(executed(lent.work(100)?), (8, 3));
    lent.open_reader(0)?;
    let shared = Replica::over(&record[..], &bodies[..]);
    assert_eq!((shared.read(0, 1)?.value, shared.find((2, 1))?.place), (20, 1));
    assert_eq!(shared.show_body((2, 1)).map(<[u8]>::len), Some(23));
    assert_eq!(shared.dry_run((2, 1))?.values[..3], [10, 20, 20]);
    let owned = shared.copy();
    assert_eq!((owned.record(), owned.bodies()), (&record[..], &bodies[..]));
    Ok(())
}

/// Refusal 1 of every call: a record byte too few, and a damaged one.
#[test]
fn refused_areas() -> Result<(), Refusal> {
    let (mut record, bodies) = depot()?.into_areas();
    record.pop();
    let mut short = Replica::over(record, bodies);
    let mut damaged = depot()?;
    damaged.areas_mut().0[200] = 9;
    for replica in [&mut short, &mut damaged] {
        assert_eq!(refused(replica, |r| r.deliver_early((1, 2), add_5())), Some(Refusal::Area));
        assert_eq!(refused(replica, |r| r.work(1)), Some(Refusal::Area));
        assert_eq!(refused(replica, |r| r.deliver_final((1, 1))), Some(Refusal::Area));
        assert_eq!(refused(replica, |r| r.open_reader(0)), Some(Refusal::Area));
        assert_eq!(refused(replica, |r| r.close_reader(0)), Some(Refusal::Area));
        assert_eq!(replica.read(0, 0), Err(Refusal::Area));
        assert_eq!(replica.find((1, 1)), Err(Refusal::Area));
        assert_eq!(replica.show_body((1, 1)), None);
        assert_eq!(replica.dry_run((1, 1)), Err(Refusal::Area));
    }
    assert_eq!(refused(&mut short, |r| r.open(&[1], 0)), Some(Refusal::Area));
    let mut no_bodies = Replica::over(vec![0; RECORD_LENGTH], Vec::new());
    assert_eq!(refused(&mut no_bodies, |r| r.open(&[1], 0)), Some(Refusal::Area));
    damaged.open(&[1], 0)
}

#[test]
fn refused_openings_and_deliveries() -> Result<(), Refusal> {
    let mut replica = depot()?;
    assert_eq!(refused(&mut replica, |r| r.open(&[], 0)), Some(Refusal::Objects));
    assert_eq!(refused(&mut replica, |r| r.deliver_early((16, 1), add_5())), Some(Refusal::Client));
    assert_eq!(refused(&mut replica, |r| r.deliver_early((4, 0), add_5())), Some(Refusal::Spent));
    assert_eq!(refused(&mut replica, |r| r.deliver_early((1, 1), add_5())), Some(Refusal::Pending));
    assert_eq!(refused(&mut replica, |r| r.deliver_early((4, 1), Body::new().load(0, 3))), Some(Refusal::Body));
    assert_eq!(refused(&mut replica, |r| r.deliver_early((4, 1), [])), Some(Refusal::Body));
    assert_eq!(refused(&mut replica, |r| r.deliver_final((16, 1))), Some(Refusal::Client));
    assert_eq!(refused(&mut replica, |r| r.deliver_final((1, 0))), Some(Refusal::Spent));
    assert_eq!(refused(&mut replica, |r| r.deliver_final((1, 2))), Some(Refusal::NotPending));
    let mut last = Replica::opened(&[10], u32::MAX)?;
    last.deliver_early((1, 1), add_5())?;
    assert_eq!(refused(&mut last, |r| r.deliver_final((1, 1))), Some(Refusal::LastStamp));
    Ok(())
}

/// Each cause where all that come after it in the order hold too; in the end all of them on areas that fail the check.
#[test]
fn refused_dry_runs() -> Result<(), Refusal> {
    let mut last = Replica::opened(&[10], u32::MAX)?;
    last.deliver_early((1, 1), add_5())?;
    let keys = [(16, 0), (1, 0), (1, 2), (1, 1)];
    let refusals = [Refusal::Client, Refusal::Spent, Refusal::NotPending, Refusal::LastStamp];
    for (key, refusal) in keys.into_iter().zip(refusals) {
        assert_eq!(refused(&mut last, |r| r.dry_run(key)), Some(refusal));
        assert_eq!(refused(&mut last, |r| r.deliver_final(key)), Some(refusal));
    }
    last.areas_mut().0[200] = 9;
    for key in keys {
        assert_eq!(refused(&mut last, |r| r.dry_run(key)), Some(Refusal::Area));
    }
    Ok(())
}

#[test]
fn refused_readers_and_finds() -> Result<(), Refusal> {
    let mut replica = depot()?;
    replica.open_reader(0)?;
    assert_eq!(refused(&mut replica, |r| r.open_reader(7)), Some(Refusal::Reader));
    assert_eq!(refused(&mut replica, |r| r.open_reader(0)), Some(Refusal::ReaderOpen));
    assert_eq!(refused(&mut replica, |r| r.close_reader(7)), Some(Refusal::Reader));
    assert_eq!(refused(&mut replica, |r| r.close_reader(1)), Some(Refusal::ReaderClosed));
    assert_eq!(replica.read(7, 0), Err(Refusal::Reader));
    assert_eq!(replica.read(1, 0), Err(Refusal::ReaderClosed));
    assert_eq!(replica.read(0, 3), Err(Refusal::Object));
    assert_eq!(replica.find((16, 1)), Err(Refusal::Client));
    assert_eq!(replica.find((4, 1)), Err(Refusal::NotPending));
    assert_eq!((replica.show_body((16, 1)), replica.show_body((4, 1))), (None, None));
    Ok(())
}

#[test]
fn lengths_as_the_library_has_them() {
    // SAFETY: neither takes an argument.
    let lengths = unsafe { (jobstore::raw::jobstore_record_length(), jobstore::raw::jobstore_bodies_length()) };
    assert_eq!(lengths, (RECORD_LENGTH as u32, BODIES_LENGTH as u32));
}
