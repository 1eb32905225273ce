//! Request (h): a venue and its message number as a set of records, to be written into
//! lent memory and read back. Request (m) adds generations and the id reached.

mod read;
mod write;

use crate::sound::lay_out;
use crate::types::{Venue, CEILING, COMPLEX_PLACES, EDITION_PLACES, LEGGING_PLACES};
use crate::types::{REGULAR_PLACES, SERIES};

pub use read::read_set;
pub use write::write_set;

const UNSOUND: u8 = 9;
const SHORT_MEMORY: u8 = 15;
const NO_SET: u8 = 16;

/// No set has more bytes.
pub const MOST_SET: usize = 12
    + (6 + 13) * SERIES
    + 14 * EDITION_PLACES
    + 22 * REGULAR_PLACES
    + 23 * COMPLEX_PLACES
    + 18 * LEGGING_PLACES
    + 9 * CEILING * SERIES
    + 8;

/// What writing a set returned: with 0 the bytes of the set.
#[derive(Clone, Copy, Debug, PartialEq, Eq)]
pub struct SetWritten {
    pub number: u8,
    pub written: usize,
}

/// What reading a set returned: unless its number is 0, a fresh venue and message 0.
#[derive(Clone, Debug, PartialEq, Eq)]
pub struct SetRead {
    pub number: u8,
    pub venue: Venue,
    /// The number of the last message done.
    pub message: u32,
}

/// Whether a venue is sound and has no message number above this one.
fn is_carried(venue: &Venue, number: u32) -> bool {
    lay_out(venue).is_some_and(|books| books.highest_kept() <= number)
}
