//! A job's body, operation by operation.

/// The longest body: 16 operations.
pub const BODY_LENGTH: usize = 177;

/// A job's body: up to 16 operations on four registers (0 to 3, each 0 at the start) and the objects.
///
/// ```
/// use jobstore::Body;
/// // Object 0 gets 5 more.
/// let body = Body::new().load(0, 0).set(1, 5).add(0, 1).store(0, 0);
/// assert_eq!(body.as_bytes()[..13], [4, 0, 0, 0, 2, 1, 0, 3, 0, 1, 1, 0, 0]);
/// assert_eq!(body.as_bytes().len(), 1 + 11 * 4);
/// ```
///
/// The builder writes down what it is told. That a body keeps the rules is for the store to say: it refuses any other
/// with [`Refusal::Body`](crate::Refusal::Body), no operation at all and a seventeenth included.
///
/// ```
/// # use jobstore::{Body, Refusal, Replica};
/// # fn main() -> Result<(), Refusal> {
/// let mut replica = Replica::opened(&[10], 0)?;
/// let past_the_end = Body::new().load(0, 0).skip_if_negative(0, 1);
/// assert_eq!(replica.deliver_early((1, 1), &past_the_end), Err(Refusal::Body));
/// assert_eq!(replica.deliver_early((1, 1), &Body::new()), Err(Refusal::Body));
/// # Ok(())
/// # }
/// ```
#[derive(Clone, PartialEq, Eq, Hash, Debug)]
#[must_use = "a body does nothing until it is delivered"]
pub struct Body {
    /// The number of operations, the operations of 3 bytes, their constants of 8.
    bytes: Vec<u8>,
}

/// The papers' numbers of the kinds of operations.
enum Kind {
    Load,
    Store,
    Set,
    Add,
    Subtract,
    Skip,
    Fail,
    Divide,
}

impl Body {
    /// No operation yet.
    pub fn new() -> Body {
        Body { bytes: vec![0] }
    }

    /// The register takes the object's value: the job's own latest store of it, else what it read before, else the
    /// table's.
    pub fn load(self, register: u8, object: u8) -> Body {
        self.operation(Kind::Load, register, object, 0)
    }

    /// The object takes the register's value, if the job ends as [`Done`](crate::Outcome::Done); a value outside the
    /// object's [`Bounds`](crate::Bounds) ends the job.
    pub fn store(self, register: u8, object: u8) -> Body {
        self.operation(Kind::Store, register, object, 0)
    }

    /// The register takes the constant.
    pub fn set(self, register: u8, constant: i64) -> Body {
        self.operation(Kind::Set, register, 0, constant)
    }

    /// The register takes its sum with the other; one that leaves 64 bits ends the job.
    pub fn add(self, register: u8, other: u8) -> Body {
        self.operation(Kind::Add, register, other, 0)
    }

    /// The register takes its difference to the other; one that leaves 64 bits ends the job.
    pub fn subtract(self, register: u8, other: u8) -> Body {
        self.operation(Kind::Subtract, register, other, 0)
    }

    /// If the register is below 0, so many of the next operations are passed over: at least one, and not past the end.
    pub fn skip_if_negative(self, register: u8, operations: u8) -> Body {
        self.operation(Kind::Skip, register, operations, 0)
    }

    /// Ends the job: nothing is stored.
    pub fn fail(self) -> Body {
        self.operation(Kind::Fail, 0, 0, 0)
    }

    /// The register is divided by the constant, 1 to 1,000,000, and rounded to the nearest whole number, an exact half
    /// to the even neighbour.
    ///
    /// ```
    /// # use jobstore::{Body, Refusal, Replica};
    /// # fn main() -> Result<(), Refusal> {
    /// let mut replica = Replica::opened(&[5, 7, -5], 0)?;
    /// let halves = (0..3).fold(Body::new(), |body, object| body.load(0, object).divide(0, 2).store(0, object));
    /// replica.deliver_early((1, 1), &halves)?;
    /// replica.deliver_final((1, 1))?;
    /// replica.open_reader(0)?;
    /// let values = [replica.read(0, 0)?.value, replica.read(0, 1)?.value, replica.read(0, 2)?.value];
    /// assert_eq!(values, [2, 4, -2]);
    /// # Ok(())
    /// # }
    /// ```
    pub fn divide(self, register: u8, constant: i64) -> Body {
        self.operation(Kind::Divide, register, 0, constant)
    }

    /// The bytes that are delivered.
    pub fn as_bytes(&self) -> &[u8] {
        &self.bytes
    }

    /// The operation goes in front of the constants, its constant behind them. At 255 operations the number stays,
    /// and the body is too long for it.
    fn operation(mut self, kind: Kind, first: u8, second: u8, constant: i64) -> Body {
        let at = 1 + 3 * usize::from(self.bytes[0]);
        self.bytes.splice(at..at, [kind as u8, first, second]);
        self.bytes.extend(constant.to_le_bytes());
        self.bytes[0] = self.bytes[0].saturating_add(1);
        self
    }
}

impl Default for Body {
    fn default() -> Body {
        Body::new()
    }
}

impl AsRef<[u8]> for Body {
    fn as_ref(&self) -> &[u8] {
        &self.bytes
    }
}

impl From<Body> for Vec<u8> {
    fn from(body: Body) -> Vec<u8> {
        body.bytes
    }
}

#[cfg(test)]
mod tests {
    use super::*;

    #[test]
    fn every_kind_and_its_constant() {
        let body = Body::new().load(0, 1).store(1, 2).set(2, -3).add(3, 0).subtract(0, 1);
        let body = body.skip_if_negative(1, 2).fail().divide(2, 1_000_000);
        let operations = [8, 0, 0, 1, 1, 1, 2, 2, 2, 0, 3, 3, 0, 4, 0, 1, 5, 1, 2, 6, 0, 0, 7, 2, 0];
        assert_eq!(body.as_bytes()[..25], operations);
        let constants = [0, 0, -3, 0, 0, 0, 0, 1_000_000i64].map(i64::to_le_bytes).concat();
        assert_eq!(body.as_bytes()[25..], constants);
        assert_eq!(Vec::from(body).len(), 1 + 11 * 8);
    }

    #[test]
    fn more_operations_than_a_byte_counts() {
        let body = (0..300).fold(Body::new(), |body, _| body.fail());
        assert_eq!((body.as_bytes()[0], body.as_bytes().len()), (255, 1 + 11 * 300));
    }
}
