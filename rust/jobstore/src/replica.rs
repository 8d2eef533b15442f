//! A replica in two areas, and its ten calls. The unsafe code of the package is here.

use crate::answers::{Committed, Executed, Found, Key, Outcome, Preview, Reading};
use crate::bounds::Bounds;
use crate::raw;
use crate::refusal::{judged, Refusal};
use std::fmt;

/// Bytes of the record area.
pub const RECORD_LENGTH: usize = 30_160;

/// Bytes of the body area.
pub const BODIES_LENGTH: usize = 5_664;

/// One replica ("unit"): a record area and a body area, its own or lent.
///
/// `Replica` alone owns its areas. Over areas that stand elsewhere there is `Replica<&mut [u8]>`, with all calls, and
/// `Replica<&[u8]>`, with those that change nothing:
///
/// ```
/// # use jobstore::{Refusal, Replica, BODIES_LENGTH, RECORD_LENGTH};
/// # fn main() -> Result<(), Refusal> {
/// let mut record = [0; RECORD_LENGTH];
/// let mut bodies = [0; BODIES_LENGTH];
/// let mut replica = Replica::over(&mut record[..], &mut bodies[..]);
/// replica.open(&[10, 20, 30], 0)?;
/// replica.open_reader(0)?;
///
/// let shared = Replica::over(&record[..], &bodies[..]);
/// assert_eq!(shared.read(0, 2)?.value, 30);
/// # Ok(())
/// # }
/// ```
///
/// What the areas hold is the library's. They may be stored, copied and compared byte by byte, and any bytes will do for
/// areas: every call but [`open`](Replica::open) looks at them first and refuses with [`Refusal::Area`] what no replica
/// holds.
#[derive(Clone, Copy, PartialEq, Eq, Hash)]
pub struct Replica<A = Vec<u8>> {
    record: A,
    bodies: A,
}

impl Replica {
    /// Areas of zeros: to be opened before anything else.
    #[must_use]
    pub fn new() -> Replica {
        Replica { record: vec![0; RECORD_LENGTH], bodies: vec![0; BODIES_LENGTH] }
    }

    /// A replica of these start values and this start stamp, as by [`open`](Replica::open).
    ///
    /// # Errors
    ///
    /// [`Refusal::Objects`].
    pub fn opened(values: &[i64], stamp: u32) -> Result<Replica, Refusal> {
        Replica::opened_with_bounds(values, Bounds::widest(values.len()), stamp)
    }

    /// The same with these bounds, as by [`open_with_bounds`](Replica::open_with_bounds).
    ///
    /// # Errors
    ///
    /// In this order: [`Refusal::Objects`], [`Refusal::Bounds`].
    pub fn opened_with_bounds(values: &[i64], bounds: Bounds, stamp: u32) -> Result<Replica, Refusal> {
        let mut replica = Replica::new();
        replica.open_with_bounds(values, bounds, stamp)?;
        Ok(replica)
    }
}

impl Default for Replica {
    fn default() -> Replica {
        Replica::new()
    }
}

/// The areas themselves.
impl<A> Replica<A> {
    /// A replica in these areas, whatever they hold.
    #[must_use]
    pub const fn over(record: A, bodies: A) -> Replica<A> {
        Replica { record, bodies }
    }

    /// The record area and the body area.
    #[must_use]
    pub fn into_areas(self) -> (A, A) {
        (self.record, self.bodies)
    }
}

/// What changes nothing.
impl<A: AsRef<[u8]>> Replica<A> {
    /// The record area.
    #[must_use]
    pub fn record(&self) -> &[u8] {
        self.record.as_ref()
    }

    /// The body area.
    #[must_use]
    pub fn bodies(&self) -> &[u8] {
        self.bodies.as_ref()
    }

    /// A replica of its own with the same bytes, which takes a microsecond or two: for whoever reads while this one
    /// goes on.
    #[must_use]
    pub fn copy(&self) -> Replica {
        Replica { record: self.record().to_vec(), bodies: self.bodies().to_vec() }
    }

    /// The object's newest version that is not above the reader's stamp: its value, and the stamp of its commit.
    ///
    /// # Errors
    ///
    /// In this order: [`Refusal::Area`], [`Refusal::Reader`], [`Refusal::ReaderClosed`], [`Refusal::Object`].
    pub fn read(&self, reader: u32, object: u32) -> Result<Reading, Refusal> {
        let (record, bodies) = (self.record(), self.bodies());
        // SAFETY: both slices are valid for their lengths, and the call writes nothing.
        let raw::Value { number, value, stamp } =
            unsafe { raw::jobstore_read(record.as_ptr(), record.len(), bodies.as_ptr(), bodies.len(), reader, object) };
        judged(number, Reading { value, stamp })
    }

    /// Where a pending key stands in the optimistic order, and how long its body is.
    ///
    /// # Errors
    ///
    /// In this order: [`Refusal::Area`], [`Refusal::Client`], [`Refusal::NotPending`].
    pub fn find(&self, key: impl Into<Key>) -> Result<Found, Refusal> {
        let Key { client, sequence } = key.into();
        let (record, bodies) = (self.record(), self.bodies());
        // SAFETY: both slices are valid for their lengths, and the call writes nothing.
        let raw::Found { number, place, length } = unsafe {
            raw::jobstore_find(record.as_ptr(), record.len(), bodies.as_ptr(), bodies.len(), client, sequence)
        };
        judged(number, Found { place: place as usize, length: length as usize })
    }

    /// The body of a pending key: the very bytes of the body area. None exactly when [`find`](Replica::find) refuses,
    /// which says why.
    ///
    /// ```
    /// # use jobstore::{Body, Refusal, Replica};
    /// # fn main() -> Result<(), Refusal> {
    /// # let mut replica = Replica::opened(&[10, 20, 30], 0)?;
    /// let body = Body::new().load(0, 1).store(0, 2);
    /// replica.deliver_early((2, 1), &body)?;
    /// assert_eq!(replica.show_body((2, 1)), Some(body.as_bytes()));
    /// assert_eq!(replica.show_body((2, 2)), None);
    /// # Ok(())
    /// # }
    /// ```
    ///
    /// A delivery changes the body area, so a body that is shown is copied before it is delivered once more:
    ///
    /// ```compile_fail,E0502
    /// # use jobstore::{Body, Refusal, Replica};
    /// # let mut replica = Replica::new();
    /// let shown = replica.show_body((2, 1)).unwrap();
    /// replica.deliver_early((2, 2), shown); // to be written: shown.to_vec()
    /// ```
    #[must_use]
    pub fn show_body(&self, key: impl Into<Key>) -> Option<&[u8]> {
        let Key { client, sequence } = key.into();
        let (record, bodies) = (self.record(), self.bodies());
        // SAFETY: both slices are valid for their lengths, and the call writes nothing.
        let raw::Part { start, length } = unsafe {
            raw::jobstore_show_body(record.as_ptr(), record.len(), bodies.as_ptr(), bodies.len(), client, sequence)
        };
        let shown = &bodies[start as usize..][..length as usize];
        Some(shown).filter(|body| !body.is_empty())
    }

    /// Dry run: what [`deliver_final`](Replica::deliver_final) of a pending key would do if it came now, and what each
    /// object would hold after it. It tells what the delivery on a [`copy`](Replica::copy) would, without the copy.
    ///
    /// ```
    /// # use jobstore::{Body, Bounds, Outcome, Refusal, Replica};
    /// # fn main() -> Result<(), Refusal> {
    /// // A tank of 20 litres that holds 0 to 50, and a route that draws 15 of them.
    /// let mut replica = Replica::opened_with_bounds(&[20], Bounds { lower: &[0], upper: &[50] }, 0)?;
    /// replica.deliver_early((1, 1), Body::new().load(0, 0).set(1, 15).subtract(0, 1).store(0, 0))?;
    ///
    /// let preview = replica.dry_run((1, 1))?;
    /// assert_eq!((preview.outcome, preview.kept, preview.stamp), (Outcome::Done, false, 1));
    /// assert_eq!(preview.values[..2], [5, 0]); // 1 is past the last object
    ///
    /// // Nothing has changed: the tank still has its 20 litres until the route is released.
    /// let committed = replica.deliver_final((1, 1))?;
    /// assert_eq!((committed.outcome, committed.kept, committed.stamp), (Outcome::Done, false, 1));
    /// # Ok(())
    /// # }
    /// ```
    ///
    /// # Errors
    ///
    /// Those of the final delivery. In this order: [`Refusal::Area`], [`Refusal::Client`], [`Refusal::Spent`],
    /// [`Refusal::NotPending`], [`Refusal::LastStamp`].
    pub fn dry_run(&self, key: impl Into<Key>) -> Result<Preview, Refusal> {
        let Key { client, sequence } = key.into();
        let (record, bodies) = (self.record(), self.bodies());
        // SAFETY: both slices are valid for their lengths, and the call writes nothing.
        let raw::Preview { number, outcome, kept, stamp, values } = unsafe {
            raw::jobstore_dry_run(record.as_ptr(), record.len(), bodies.as_ptr(), bodies.len(), client, sequence)
        };
        let outcome = Outcome::from_number(outcome);
        judged(number, Preview { outcome, kept: kept == 1, stamp, values })
    }
}

/// What changes the areas.
impl<A: AsRef<[u8]> + AsMut<[u8]>> Replica<A> {
    /// The record area and the body area, to be written: to take up what was stored elsewhere, or for tests.
    pub fn areas_mut(&mut self) -> (&mut [u8], &mut [u8]) {
        (self.record.as_mut(), self.bodies.as_mut())
    }

    /// Opens the replica with these start values, one for each object, the [widest](Bounds::widest) bounds and this start
    /// stamp: nothing pending, every reader closed, every client's last number 0. Both areas are filled, whatever they
    /// held.
    ///
    /// # Errors
    ///
    /// In this order: [`Refusal::Area`] (for the lengths alone), [`Refusal::Objects`].
    pub fn open(&mut self, values: &[i64], stamp: u32) -> Result<(), Refusal> {
        self.open_with_bounds(values, Bounds::widest(values.len()), stamp)
    }

    /// Opens the replica as [`open`](Replica::open) does, with a lower and an upper bound for each object.
    ///
    /// ```
    /// # use jobstore::{Bounds, Refusal, Replica};
    /// let tanks = Bounds { lower: &[0, 0], upper: &[50, 80] };
    /// let mut replica = Replica::new();
    /// assert_eq!(replica.open_with_bounds(&[20, 80], tanks, 0), Ok(()));
    /// assert_eq!(replica.open_with_bounds(&[20, -4], tanks, 0), Err(Refusal::Bounds));
    /// assert_eq!(replica.open_with_bounds(&[20], tanks, 0), Err(Refusal::Objects));
    /// ```
    ///
    /// # Errors
    ///
    /// In this order: [`Refusal::Area`] (for the lengths alone), [`Refusal::Objects`], [`Refusal::Bounds`].
    pub fn open_with_bounds(&mut self, values: &[i64], bounds: Bounds, stamp: u32) -> Result<(), Refusal> {
        let n = u32::try_from(values.len()).unwrap_or(u32::MAX);
        let Bounds { lower, upper } = bounds;
        let (record, bodies) = self.areas_mut();
        // SAFETY: the slices are valid for their lengths, and the areas, borrowed alone, overlap none of the others.
        let number = unsafe {
            raw::jobstore_open(
                record.as_mut_ptr(),
                record.len(),
                bodies.as_mut_ptr(),
                bodies.len(),
                n,
                values.as_ptr(),
                values.len(),
                lower.as_ptr(),
                lower.len(),
                upper.as_ptr(),
                upper.len(),
                stamp,
            )
        };
        judged(number, ())
    }

    /// Early delivery: the key and the body go to the end of the optimistic order.
    ///
    /// # Errors
    ///
    /// In this order: [`Refusal::Area`], [`Refusal::Client`], [`Refusal::Spent`], [`Refusal::Pending`],
    /// [`Refusal::Body`], [`Refusal::Full`].
    pub fn deliver_early(&mut self, key: impl Into<Key>, body: impl AsRef<[u8]>) -> Result<(), Refusal> {
        let Key { client, sequence } = key.into();
        let body = body.as_ref();
        let (record, bodies) = self.areas_mut();
        // SAFETY: the slices are valid for their lengths and, each a borrow, overlap one another nowhere.
        let number = unsafe {
            raw::jobstore_early(
                record.as_mut_ptr(),
                record.len(),
                bodies.as_mut_ptr(),
                bodies.len(),
                client,
                sequence,
                body.as_ptr(),
                body.len(),
            )
        };
        judged(number, ())
    }

    /// Carries out at most `count` operations (0 to 4,096) of the pending jobs, in optimistic order. It stops sooner only
    /// when all of them are finished. 16 for each pending job, so 512 at most, finish all of them.
    ///
    /// # Errors
    ///
    /// In this order: [`Refusal::Area`], [`Refusal::Count`].
    pub fn work(&mut self, count: u32) -> Result<Executed, Refusal> {
        let (record, bodies) = (self.record.as_mut(), self.bodies.as_ref());
        // SAFETY: both slices are valid for their lengths, and the call writes the record area alone.
        let raw::Executed { number, operations, finished } =
            unsafe { raw::jobstore_work(record.as_mut_ptr(), record.len(), bodies.as_ptr(), bodies.len(), count) };
        judged(number, Executed { operations, finished })
    }

    /// Final delivery: the pending job commits, and the stamp rises by 1 whatever its outcome. Its early results are kept
    /// where it is finished and every value that it read is still the committed one; else it is run again. The client's
    /// pending jobs with a lower sequence number leave; of the others the first whose reads no longer match, and all after
    /// it, go back to their start.
    ///
    /// # Errors
    ///
    /// In this order: [`Refusal::Area`], [`Refusal::Client`], [`Refusal::Spent`], [`Refusal::NotPending`],
    /// [`Refusal::LastStamp`].
    pub fn deliver_final(&mut self, key: impl Into<Key>) -> Result<Committed, Refusal> {
        let Key { client, sequence } = key.into();
        let (record, bodies) = self.areas_mut();
        // SAFETY: the slices are valid for their lengths and, each a borrow, overlap one another nowhere.
        let raw::Committed { number, outcome, kept, stamp, stored, operations } = unsafe {
            raw::jobstore_final(record.as_mut_ptr(), record.len(), bodies.as_mut_ptr(), bodies.len(), client, sequence)
        };
        let outcome = Outcome::from_number(outcome);
        judged(number, Committed { outcome, kept: kept == 1, stamp, stored, operations })
    }

    /// Opens a reader, 0 to 6: it takes the current stamp and sees the table as it is now until it is closed.
    ///
    /// # Errors
    ///
    /// In this order: [`Refusal::Area`], [`Refusal::Reader`], [`Refusal::ReaderOpen`].
    pub fn open_reader(&mut self, reader: u32) -> Result<(), Refusal> {
        let (record, bodies) = (self.record.as_mut(), self.bodies.as_ref());
        // SAFETY: both slices are valid for their lengths, and the call writes the record area alone.
        let number = unsafe {
            raw::jobstore_open_reader(record.as_mut_ptr(), record.len(), bodies.as_ptr(), bodies.len(), reader)
        };
        judged(number, ())
    }

    /// Closes a reader, and the versions that it alone held go.
    ///
    /// # Errors
    ///
    /// In this order: [`Refusal::Area`], [`Refusal::Reader`], [`Refusal::ReaderClosed`].
    pub fn close_reader(&mut self, reader: u32) -> Result<(), Refusal> {
        let (record, bodies) = (self.record.as_mut(), self.bodies.as_ref());
        // SAFETY: both slices are valid for their lengths, and the call writes the record area alone.
        let number = unsafe {
            raw::jobstore_close_reader(record.as_mut_ptr(), record.len(), bodies.as_ptr(), bodies.len(), reader)
        };
        judged(number, ())
    }
}

/// Lengths alone: the areas are long.
impl<A: AsRef<[u8]>> fmt::Debug for Replica<A> {
    fn fmt(&self, out: &mut fmt::Formatter) -> fmt::Result {
        write!(out, "Replica({} record bytes, {} body bytes)", self.record().len(), self.bodies().len())
    }
}
