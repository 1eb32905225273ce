//! Sets: a venue and its message number carried over an upgrade.

use crate::archive::{read_set_in, write_set_in};
use crate::number::Number;
use crate::venue::{Venue, VenueBytes};
use std::fmt;

/// No set has more bytes.
pub const SET_BYTES: usize = 5_900;

/// Writes the set of a venue upon which `number` messages were done, then zeros to the end
/// of the memory, and tells its length. Otherwise the memory is all zeros:
/// [`Number::UNSOUND`] where the venue is unsound or has a message number above `number`,
/// [`Number::SHORT_MEMORY`] where the set is longer; [`SET_BYTES`] are always enough.
///
/// ```
/// use legging::{read_set, write_set, VenueBytes, SET_BYTES};
///
/// // A venue upon which 7 messages were done, carried over: the next one has `before` 7.
/// let venue = VenueBytes::fresh();
/// let mut set = [0xFF; SET_BYTES];
/// let length = write_set(&venue, 7, &mut set)?;
/// assert_eq!(read_set(&set[..length])?, (venue, 7));
/// # Ok::<(), legging::Number>(())
/// ```
pub fn write_set(venue: &VenueBytes, number: u32, set: &mut [u8]) -> Result<usize, Number> {
    let mut written = [0; 4];
    match write_set_in(venue.as_bytes(), number, set, &mut written) {
        Number::DONE => Ok(u32::from_le_bytes(written) as usize),
        refused => Err(refused),
    }
}

/// The venue of a set, whole or short, and how many messages were done upon it. It is
/// refused with [`Number::BAD_SET`] where its records are no set, and else with
/// [`Number::UNSOUND`] where its venue is unsound or has a message number above its own.
///
/// ```
/// use legging::{read_set, Number};
///
/// assert_eq!(read_set(&[12, 0, 80]), Err(Number::BAD_SET));
/// ```
pub fn read_set(set: &[u8]) -> Result<(VenueBytes, u32), Number> {
    let mut venue = VenueBytes::fresh();
    let mut number = [0; 4];
    match read_set_in(set, venue.as_mut_bytes(), &mut number) {
        Number::DONE => Ok((venue, u32::from_le_bytes(number))),
        refused => Err(refused),
    }
}

/// A set held by a host: the records that carry a venue and the number of its last message
/// over an upgrade.
///
/// ```
/// use legging::{Message, Set, Venue, MOST_BYTES};
///
/// let mut venue = Venue::fresh();
/// venue.take(&Message::Sweep, &mut [0; MOST_BYTES]).ok()?;
/// let noon = Set::of(&venue)?;
/// let kept: Vec<u8> = noon.as_bytes().to_vec();
/// assert_eq!(Set::from_bytes(&kept).read()?, venue);
/// # Ok::<(), legging::Number>(())
/// ```
#[derive(Clone, PartialEq, Eq)]
pub struct Set(Vec<u8>);

impl Set {
    /// The set of a venue; [`Number::UNSOUND`] where the venue is unsound or has a message
    /// number above those done.
    ///
    /// ```
    /// use legging::{Number, Set, Venue, VenueBytes, VENUE_BYTES};
    ///
    /// assert!(Set::of(&Venue::fresh()).is_ok());
    /// let junk = VenueBytes::from_bytes([0xFF; VENUE_BYTES]);
    /// assert_eq!(Set::of(&Venue::new(junk, 0)), Err(Number::UNSOUND));
    /// ```
    pub fn of(venue: &Venue) -> Result<Set, Number> {
        let mut bytes = vec![0; SET_BYTES];
        let length = write_set(venue.bytes(), venue.done(), &mut bytes)?;
        bytes.truncate(length);
        Ok(Set(bytes))
    }

    /// A set kept as bytes. Whether it is one is tested by [`Set::read`].
    pub fn from_bytes(bytes: &[u8]) -> Set {
        Set(bytes.to_vec())
    }

    /// The bytes, to keep.
    pub fn as_bytes(&self) -> &[u8] {
        &self.0
    }

    /// The venue of the set, whole or short, with the messages done upon it; refused as by
    /// [`read_set`].
    ///
    /// ```
    /// use legging::{Number, Set};
    ///
    /// assert_eq!(Set::from_bytes(&[]).read(), Err(Number::BAD_SET));
    /// ```
    pub fn read(&self) -> Result<Venue, Number> {
        let (bytes, done) = read_set(&self.0)?;
        Ok(Venue::new(bytes, done))
    }
}

impl fmt::Debug for Set {
    fn fmt(&self, f: &mut fmt::Formatter) -> fmt::Result {
        f.debug_struct("Set")
            .field("bytes", &self.0.len())
            .finish_non_exhaustive()
    }
}
