//! What accepted calls yield. Fields may be added, so none of these is built outside this package.

/// A job's key: a client, 0 to 15, and a sequence number. A pair will do wherever a key is wanted.
///
/// ```
/// use jobstore::Key;
/// assert_eq!(Key::from((3, 7)), Key { client: 3, sequence: 7 });
/// ```
#[derive(Clone, Copy, PartialEq, Eq, PartialOrd, Ord, Hash, Debug)]
pub struct Key {
    /// Above 15 it is refused ([`Refusal::Client`](crate::Refusal::Client)).
    pub client: u32,
    /// Each committed one uses up all below it; 0 is always spent.
    pub sequence: u32,
}

impl From<(u32, u32)> for Key {
    fn from((client, sequence): (u32, u32)) -> Key {
        Key { client, sequence }
    }
}

/// How a job's run ended. Only with `Done` is anything stored; each takes a stamp.
#[derive(Clone, Copy, PartialEq, Eq, Hash, Debug)]
#[non_exhaustive]
#[repr(u32)]
pub enum Outcome {
    /// Past the last operation.
    Done = 0,
    /// At a fail.
    Fail = 1,
    /// At an add or subtract that leaves 64 bits.
    Overflow = 2,
    /// At a store of a value outside its object's [`Bounds`](crate::Bounds).
    Outside = 3,
}

impl Outcome {
    /// The papers' number.
    pub const fn number(self) -> u32 {
        self as u32
    }

    pub(crate) fn from_number(number: u32) -> Outcome {
        match number {
            0 => Outcome::Done,
            1 => Outcome::Fail,
            2 => Outcome::Overflow,
            3 => Outcome::Outside,
            _ => unreachable!("the library answered outcome {number}"),
        }
    }
}

/// What [`work`](crate::Replica::work) did.
#[derive(Clone, Copy, PartialEq, Eq, Debug)]
#[non_exhaustive]
pub struct Executed {
    /// Operations carried out by this call.
    pub operations: u32,
    /// Pending jobs that are now finished.
    pub finished: u32,
}

/// What [`deliver_final`](crate::Replica::deliver_final) committed.
#[derive(Clone, Copy, PartialEq, Eq, Debug)]
#[non_exhaustive]
pub struct Committed {
    /// How the job ended.
    pub outcome: Outcome,
    /// The early results were kept; else the job was run again.
    pub kept: bool,
    /// The new commit stamp.
    pub stamp: u32,
    /// Number of objects stored.
    pub stored: u32,
    /// Operations carried out by this call: none if the early results were kept, else those of the run, at most 16.
    /// Those passed over are not counted.
    pub operations: u32,
}

/// The version that [`read`](crate::Replica::read) sees.
#[derive(Clone, Copy, PartialEq, Eq, Debug)]
#[non_exhaustive]
pub struct Reading {
    /// The object's value at the reader's stamp.
    pub value: i64,
    /// The stamp of the commit that stored it; of an object untouched since the opening, the start stamp.
    pub stamp: u32,
}

/// The places for values in a [`Preview`], however many objects there are.
pub const PREVIEW_PLACES: usize = 128;

/// What a final delivery would do, as [`dry_run`](crate::Replica::dry_run) tells.
#[derive(Clone, Copy, PartialEq, Eq, Debug)]
#[non_exhaustive]
pub struct Preview {
    /// How the job would end.
    pub outcome: Outcome,
    /// The early results would be kept; else the job would be run again.
    pub kept: bool,
    /// The commit stamp that it would get.
    pub stamp: u32,
    /// The value that each object would hold, by the object's number. Past the last object it is 0.
    pub values: [i64; PREVIEW_PLACES],
}

/// Where [`find`](crate::Replica::find) found a pending job.
#[derive(Clone, Copy, PartialEq, Eq, Debug)]
#[non_exhaustive]
pub struct Found {
    /// Its place in the optimistic order, counted from 0.
    pub place: usize,
    /// The length of its body in bytes.
    pub length: usize,
}
