//! Each object's lower and upper bound.

/// The most objects of a replica.
const MOST: usize = 128;

/// The bounds of the objects, given at the opening: object `i` takes the values `lower[i]` to `upper[i]`, both included.
/// A store of any other ends the job as [`Outside`](crate::Outcome::Outside), and nothing of the job is stored.
///
/// ```
/// use jobstore::{Body, Bounds, Outcome, Refusal, Replica};
///
/// # fn main() -> Result<(), Refusal> {
/// // A tank of 20 litres that holds 0 to 50.
/// let mut replica = Replica::opened_with_bounds(&[20], Bounds { lower: &[0], upper: &[50] }, 0)?;
/// let draw = |litres| Body::new().load(0, 0).set(1, litres).subtract(0, 1).store(0, 0);
///
/// // It would hold -4.
/// replica.deliver_early((1, 1), draw(24))?;
/// let committed = replica.deliver_final((1, 1))?;
/// assert_eq!((committed.outcome, committed.stored, committed.stamp), (Outcome::Outside, 0, 1));
///
/// // Empty is inside.
/// replica.deliver_early((1, 2), draw(20))?;
/// assert_eq!(replica.deliver_final((1, 2))?.outcome, Outcome::Done);
/// replica.open_reader(0)?;
/// assert_eq!(replica.read(0, 0)?.value, 0);
/// # Ok(())
/// # }
/// ```
#[derive(Clone, Copy, PartialEq, Eq, Hash, Debug)]
pub struct Bounds<'a> {
    /// The least value of each object.
    pub lower: &'a [i64],
    /// The greatest value of each object.
    pub upper: &'a [i64],
}

impl Bounds<'static> {
    /// All of 64 bits for each of so many objects: no store is outside. More than 128, which no replica has, get 128.
    ///
    /// ```
    /// # use jobstore::Bounds;
    /// assert_eq!(Bounds::widest(2), Bounds { lower: &[i64::MIN; 2], upper: &[i64::MAX; 2] });
    /// ```
    #[must_use]
    pub fn widest(objects: usize) -> Bounds<'static> {
        const LOWER: &[i64] = &[i64::MIN; MOST];
        const UPPER: &[i64] = &[i64::MAX; MOST];
        let objects = objects.min(MOST);
        Bounds { lower: &LOWER[..objects], upper: &UPPER[..objects] }
    }
}
