//! What the store turns back.

use std::error::Error;
use std::fmt;

/// Why a call was turned back. It then changed no byte of either area.
///
/// Each refusal has one cause and the papers' number for it. Where several causes hold, the first in the order that
/// stands at the call wins.
#[derive(Clone, Copy, PartialEq, Eq, Hash, Debug)]
#[non_exhaustive]
#[repr(u32)]
pub enum Refusal {
    /// An area of wrong length, or (except at opening) whose contents fail the shape check.
    Area = 1,
    /// Opening: not 1 to 128 objects, or not one lower and one upper bound for each.
    Objects = 2,
    /// Client above 15.
    Client = 3,
    /// Key spent: its sequence number is not above the client's last committed one. A retry meets it.
    Spent = 4,
    /// Key already pending.
    Pending = 5,
    /// Body breaks a rule, an object number of n or more included.
    Body = 6,
    /// 32 pending.
    Full = 7,
    /// Key not pending.
    NotPending = 8,
    /// No stamp is left: it is 4,294,967,295.
    LastStamp = 9,
    /// Reader above 6.
    Reader = 10,
    /// Reader open already.
    ReaderOpen = 11,
    /// Reader not open.
    ReaderClosed = 12,
    /// Read: object n or more.
    Object = 13,
    /// Work count above 4,096.
    Count = 14,
    /// Opening: a lower bound above its upper, or a start value outside its bounds.
    Bounds = 15,
}

impl Refusal {
    /// Every refusal, by its number from 1 on.
    pub const ALL: &'static [Refusal] = &[
        Refusal::Area,
        Refusal::Objects,
        Refusal::Client,
        Refusal::Spent,
        Refusal::Pending,
        Refusal::Body,
        Refusal::Full,
        Refusal::NotPending,
        Refusal::LastStamp,
        Refusal::Reader,
        Refusal::ReaderOpen,
        Refusal::ReaderClosed,
        Refusal::Object,
        Refusal::Count,
        Refusal::Bounds,
    ];

    /// The papers' number.
    ///
    /// ```
    /// assert_eq!(jobstore::Refusal::Spent.number(), 4);
    /// ```
    pub const fn number(self) -> u32 {
        self as u32
    }

    /// The refusal of a number; none for 0 and for what is no refusal's.
    ///
    /// ```
    /// use jobstore::Refusal;
    /// assert_eq!(Refusal::from_number(4), Some(Refusal::Spent));
    /// assert_eq!(Refusal::from_number(0), None);
    /// ```
    pub fn from_number(number: u32) -> Option<Refusal> {
        let index = number.checked_sub(1)?;
        Self::ALL.get(index as usize).copied()
    }

    /// The cause in words, as `jobstore_refusal_text` of the C header gives it.
    pub const fn message(self) -> &'static str {
        match self {
            Refusal::Area => "an area has the wrong length, or its contents fail the shape check",
            Refusal::Objects => "the number of objects is not 1 to 128, or not that of the values or bounds",
            Refusal::Client => "the client is above 15",
            Refusal::Spent => "the key is spent: its sequence number is not above the client's last committed one",
            Refusal::Pending => "the key is pending already",
            Refusal::Body => "the body breaks a rule",
            Refusal::Full => "32 jobs are pending already",
            Refusal::NotPending => "the key is not pending",
            Refusal::LastStamp => "the stamp is 4,294,967,295, so none is left",
            Refusal::Reader => "the reader is above 6",
            Refusal::ReaderOpen => "the reader is open already",
            Refusal::ReaderClosed => "the reader is not open",
            Refusal::Object => "the object's number is not below the number of objects",
            Refusal::Count => "the work count is above 4,096",
            Refusal::Bounds => "a lower bound is above its upper, or a start value is outside its bounds",
        }
    }
}

impl fmt::Display for Refusal {
    fn fmt(&self, out: &mut fmt::Formatter) -> fmt::Result {
        write!(out, "{} (refusal {})", self.message(), self.number())
    }
}

impl Error for Refusal {}

/// What a call yields whose answer is 0 or a refusal's number.
pub(crate) fn judged<T>(number: u32, yielded: T) -> Result<T, Refusal> {
    match Refusal::from_number(number) {
        None if number == 0 => Ok(yielded),
        None => unreachable!("the library answered {number}, which is no refusal's number"),
        Some(refusal) => Err(refusal),
    }
}
