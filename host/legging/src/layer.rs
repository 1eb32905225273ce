//! Four venues held by a host behind one line.

use crate::archive::{arrive, layer_fresh_in, turn};
use crate::number::Number;
use crate::venue::{VenueBytes, VENUE_BYTES};
use std::fmt;
use wire::Message;

/// Venues behind one line.
pub const VENUES: usize = 4;

/// The most messages that wait for a venue.
pub const MOST_WAITING: usize = 8;

/// The most bytes of a message that waits.
pub const MOST_MESSAGE: usize = 32;

const COUNT_AT: usize = VENUE_BYTES + 4;
const LANE_BYTES: usize = COUNT_AT + 1 + MOST_WAITING * (1 + MOST_MESSAGE);

/// The length of a layer.
pub const LAYER_BYTES: usize = VENUES * LANE_BYTES + 1;

/// A layer held as bytes: four venues, each with the messages that wait for it.
///
/// Without padding, numbers little-endian, four lanes: the venue as [`VenueBytes`] has
/// it, messages done u32, messages waiting u8, and eight places (length u8, 32 bytes),
/// those in use first, the head in front. Then the venue served last u8.
#[derive(Clone, PartialEq, Eq)]
pub struct LayerBytes([u8; LAYER_BYTES]);

impl LayerBytes {
    /// Four fresh venues with nothing waiting; the first turn looks at venue 0 first.
    pub fn fresh() -> Self {
        let mut bytes = [0; LAYER_BYTES];
        let number = layer_fresh_in(&mut bytes);
        debug_assert_eq!(number, Number::DONE);
        LayerBytes(bytes)
    }

    /// A layer kept as bytes. Whether it is sound is tested by the calls.
    pub const fn from_bytes(bytes: [u8; LAYER_BYTES]) -> Self {
        LayerBytes(bytes)
    }

    /// The bytes, to keep or to compare.
    pub const fn as_bytes(&self) -> &[u8; LAYER_BYTES] {
        &self.0
    }

    pub(crate) fn as_mut_bytes(&mut self) -> &mut [u8] {
        &mut self.0
    }

    fn lanes(&self) -> [&[u8]; VENUES] {
        std::array::from_fn(|venue| &self.0[venue * LANE_BYTES..][..LANE_BYTES])
    }

    /// The four venues.
    pub fn venues(&self) -> [VenueBytes; VENUES] {
        self.lanes().map(|lane| {
            let mut bytes = [0; VENUE_BYTES];
            bytes.copy_from_slice(&lane[..VENUE_BYTES]);
            VenueBytes::from_bytes(bytes)
        })
    }

    /// How many messages of each venue were done.
    pub fn done(&self) -> [u32; VENUES] {
        self.lanes().map(|lane| {
            let mut bytes = [0; 4];
            bytes.copy_from_slice(&lane[VENUE_BYTES..COUNT_AT]);
            u32::from_le_bytes(bytes)
        })
    }

    /// How many messages wait for each venue.
    pub fn waiting(&self) -> [u8; VENUES] {
        self.lanes().map(|lane| lane[COUNT_AT])
    }
}

impl Default for LayerBytes {
    fn default() -> Self {
        LayerBytes::fresh()
    }
}

impl fmt::Debug for LayerBytes {
    fn fmt(&self, f: &mut fmt::Formatter) -> fmt::Result {
        f.debug_struct("LayerBytes")
            .field("done", &self.done())
            .field("waiting", &self.waiting())
            .finish_non_exhaustive()
    }
}

/// What a turn returned: its number, and 256 times the venue served.
#[must_use = "a turn that did nothing tells it by its number alone"]
#[derive(Clone, Copy, Debug, PartialEq, Eq)]
pub struct Turned(u32);

impl Turned {
    pub(crate) fn new(turned: u32) -> Self {
        Turned(turned)
    }

    /// Both as one number.
    pub fn get(self) -> u32 {
        self.0
    }

    /// The number: that of the message done, or of a turn that served no venue.
    pub fn number(self) -> Number {
        Number::new(self.0 as u8)
    }

    /// The venue served; none where nothing waits or the turn was ended by 9 or 10.
    pub fn venue(self) -> Option<usize> {
        let venue = (self.0 >> 8) as usize;
        (venue < VENUES).then_some(venue)
    }
}

/// Four venues behind one line that a host holds.
///
/// ```
/// use legging::{records, Layer, Message, Number, MOST_BYTES};
///
/// let mut layer = Layer::fresh();
/// layer.arrive(2, &Message::Sweep).ok()?;
/// let mut report = [0; MOST_BYTES];
/// assert_eq!(layer.turn(&mut report).venue(), Some(2));
/// assert_eq!(records(&report).count(), 1);
/// assert_eq!(layer.turn(&mut report).venue(), None);
/// # Ok::<(), Number>(())
/// ```
#[derive(Clone, Debug, Default, PartialEq, Eq)]
pub struct Layer(LayerBytes);

impl Layer {
    /// Four fresh venues with nothing waiting.
    ///
    /// ```
    /// use legging::{Layer, VenueBytes};
    ///
    /// assert_eq!(Layer::fresh().bytes().venues()[3], VenueBytes::fresh());
    /// ```
    pub fn fresh() -> Self {
        Layer(LayerBytes::fresh())
    }

    /// A layer kept as bytes. Whether it is sound is tested by the calls.
    pub const fn new(bytes: LayerBytes) -> Self {
        Layer(bytes)
    }

    /// The bytes, to keep or to look into.
    pub const fn bytes(&self) -> &LayerBytes {
        &self.0
    }

    /// Puts a message at the end of a venue's wait, as [`arrive`].
    ///
    /// ```
    /// use legging::{Layer, Message, Number};
    ///
    /// let mut layer = Layer::fresh();
    /// assert_eq!(layer.arrive(3, &Message::Sweep), Number::DONE);
    /// assert_eq!(layer.arrive(4, &Message::Sweep), Number::NO_VENUE);
    /// assert_eq!(layer.bytes().waiting(), [0, 0, 0, 1]);
    /// ```
    pub fn arrive(&mut self, venue: u32, message: &Message) -> Number {
        arrive(&mut self.0, venue, &message.encode())
    }

    /// Does the message at the head of the next venue's wait, as [`turn`].
    ///
    /// ```
    /// use legging::{Layer, Number};
    ///
    /// let turned = Layer::fresh().turn(&mut [0; 100]);
    /// assert_eq!((turned.number(), turned.venue()), (Number::DONE, None));
    /// ```
    pub fn turn(&mut self, report: &mut [u8]) -> Turned {
        turn(&mut self.0, report)
    }
}
