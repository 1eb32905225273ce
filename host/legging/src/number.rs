//! The number that a call ends with.

use std::error::Error;
use std::fmt::{self, Display};

/// What a call returned: 0 to 14, 15 and 16 of a set, 17 and 18 of an arrival, 19 to 21 of a
/// feed.
///
/// As an error it is why a call did not do what it was asked for:
///
/// ```
/// use legging::{Number, Set};
///
/// fn venue_of(bytes: &[u8]) -> Result<legging::Venue, Box<dyn std::error::Error>> {
///     Ok(Set::from_bytes(bytes).read()?)
/// }
/// let error = venue_of(&[]).unwrap_err();
/// assert_eq!(error.to_string(), "16: the records are no set");
/// assert_eq!(error.downcast_ref(), Some(&Number::BAD_SET));
/// ```
///
/// A number that is not looked at is warned of:
///
/// ```compile_fail
/// #![deny(unused_must_use)]
/// legging::run(&[], &mut []);
/// ```
#[must_use = "a call that did not do what it was asked for tells it by its number alone"]
#[derive(Clone, Copy, Debug, PartialEq, Eq, PartialOrd, Ord, Hash)]
pub struct Number(u8);

impl Number {
    /// Accepted; of a run: the whole list was done.
    pub const DONE: Number = Number(0);
    /// 1 to 3 bytes left (of one message: 0 to 3), or a length below 4 or above
    /// what is left.
    pub const TORN: Number = Number(1);
    /// The kind is not 1 to 11.
    pub const UNKNOWN_KIND: Number = Number(2);
    /// The length is not its kind's.
    pub const WRONG_LENGTH: Number = Number(3);
    /// A field is outside its range.
    pub const OUT_OF_RANGE: Number = Number(4);
    /// The id is not above the last accepted.
    pub const ID_NOT_ABOVE: Number = Number(5);
    /// A series of the order is closed.
    pub const CLOSED: Number = Number(6);
    /// 128 regular or 32 complex orders rest already.
    pub const BOOK_FULL: Number = Number(7);
    /// No resting order has the id.
    pub const NO_SUCH_ORDER: Number = Number(8);
    /// The venue or the layer given or the venue of a set is not sound, or the message's
    /// number is not above that of every edition and generation kept.
    pub const UNSOUND: Number = Number(9);
    /// The next message's records do not fit, or its number would pass
    /// 4,294,967,295.
    pub const NO_ROOM: Number = Number(10);
    /// The edition is not above the last, of either kind.
    pub const EDITION_NOT_ABOVE: Number = Number(11);
    /// An increment of a series that is not closed, or has a resting order or leg.
    pub const SERIES_IN_USE: Number = Number(12);
    /// 32 editions are held already.
    pub const EDITIONS_FULL: Number = Number(13);
    /// The two ratios are equal.
    pub const EQUAL_RATIOS: Number = Number(14);
    /// The memory lent for a set is shorter than it.
    pub const SHORT_MEMORY: Number = Number(15);
    /// A record of a set is torn, missing, out of order, one too many, or of a kind or
    /// length that the set has not.
    pub const BAD_SET: Number = Number(16);
    /// The venue's wait holds 8 messages, or the message is over 32 bytes.
    pub const NO_PLACE: Number = Number(17);
    /// The venue's number is above 3.
    pub const NO_VENUE: Number = Number(18);
    /// Both lines have the number that comes next, but their bytes differ.
    pub const DIFFERS: Number = Number(19);
    /// Neither line has the number that comes next, though a later one stands on
    /// either.
    pub const LOST: Number = Number(20);
    /// A line is torn, does not rise, or has a length below 4 or number 0.
    pub const BAD_LINE: Number = Number(21);

    pub(crate) fn new(number: u8) -> Self {
        Number(number)
    }

    /// The number itself.
    pub fn get(self) -> u8 {
        self.0
    }

    /// Nothing where it is [`Number::DONE`], else the number as an error.
    pub fn ok(self) -> Result<(), Number> {
        match self {
            Number::DONE => Ok(()),
            other => Err(other),
        }
    }

    /// Whether a message was done, refused or not: of a one-message call the
    /// messages done are then 1, else 0.
    pub fn is_done(self) -> bool {
        let later = Number::EDITION_NOT_ABOVE..=Number::EQUAL_RATIOS;
        self <= Number::NO_SUCH_ORDER || later.contains(&self)
    }

    /// The number in words.
    pub fn meaning(self) -> &'static str {
        match self.0 {
            0 => "done",
            1 => "a torn message",
            2 => "kind not known",
            3 => "length not its kind's",
            4 => "a field out of range",
            5 => "id not above the last accepted",
            6 => "a series is closed",
            7 => "the book is full",
            8 => "no resting order has the id",
            9 => "the venue or the layer is unsound",
            10 => "the report memory is full, or the message numbers are used up",
            11 => "edition not above the last",
            12 => "the series is not closed, or is in use",
            13 => "32 editions are held",
            14 => "the two ratios are equal",
            15 => "the memory is shorter than the set",
            16 => "the records are no set",
            17 => "the wait is full, or the message is too long to wait",
            18 => "there is no such venue",
            19 => "the lines differ in a message",
            20 => "a message is lost from both lines",
            21 => "a line is torn, does not rise, or has a length below 4 or number 0",
            _ => "not a number of the engine",
        }
    }
}

impl Error for Number {}

/// The number and its meaning.
impl Display for Number {
    fn fmt(&self, f: &mut fmt::Formatter) -> fmt::Result {
        write!(f, "{}: {}", self.0, self.meaning())
    }
}
