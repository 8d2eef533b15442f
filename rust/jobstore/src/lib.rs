//! One replica of the cabinet job store: a safe face to the proved library.
//!
//! A replica holds a table of objects, each with [`Bounds`] where it is given any. Jobs come to it early, in the order
//! in which they will probably commit, and are worked on; they commit, one by one, at their final delivery. What that
//! would do, a [dry run](Replica::dry_run) tells beforehand. Readers see the table as it was when they were opened.
//!
//! ```
//! use jobstore::{Body, Outcome, Refusal, Replica};
//!
//! # fn main() -> Result<(), Refusal> {
//! let mut replica = Replica::opened(&[10, 20, 30], 0)?;
//! let body = Body::new().load(0, 0).set(1, 5).add(0, 1).store(0, 0);
//! replica.deliver_early((1, 1), &body)?;
//! assert_eq!(replica.work(100)?.operations, 4);
//! replica.open_reader(0)?;
//!
//! let committed = replica.deliver_final((1, 1))?;
//! assert_eq!((committed.outcome, committed.kept, committed.stamp), (Outcome::Done, true, 1));
//! replica.open_reader(1)?;
//! let (before, after) = (replica.read(0, 0)?, replica.read(1, 0)?);
//! assert_eq!((before.value, before.stamp), (10, 0));
//! assert_eq!((after.value, after.stamp), (15, 1));
//!
//! let again = replica.deliver_final((1, 1)).unwrap_err();
//! assert_eq!((again, again.number()), (Refusal::Spent, 4));
//! # Ok(())
//! # }
//! ```
//!
//! Every call gives its result or exactly one [`Refusal`], which changes no byte, whatever the areas hold. The package
//! has no dependency but the library `libjobstore.a`, which `./build` makes in the repository; the environment variable
//! `JOBSTORE_LIB_DIR` names another folder that has it. docs/HOSTING.md is the guide for a program around a replica, and
//! its rules are tests of this package (`tests/hosting.rs`).
#![warn(missing_docs)]

mod answers;
mod body;
mod bounds;
pub mod raw;
mod refusal;
mod replica;

pub use answers::{Committed, Executed, Found, Key, Outcome, Preview, Reading, PREVIEW_PLACES};
pub use body::{Body, BODY_LENGTH};
pub use bounds::Bounds;
pub use refusal::Refusal;
pub use replica::{Replica, BODIES_LENGTH, RECORD_LENGTH};

/// The guide's code, run as this package's own.
#[cfg(doctest)]
#[doc = include_str!("../../../docs/HOSTING.md")]
pub struct Guide;
