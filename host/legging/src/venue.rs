//! A venue held by a host between one-message calls.

use crate::archive::{fresh_in, one_message};
use crate::number::Number;
use crate::set::Set;
use crate::settings::{settings, Settings};
use std::fmt;
use wire::Message;

/// The length of a venue.
pub const VENUE_BYTES: usize = 4_656;

/// Where the legging orders begin: after the complex ones.
const LEGGING_AT: usize = 2_336;

/// Where the series begin: after the legging orders.
const SERIES_AT: usize = 2_528;

/// Where the last id stands: after the orders and the series.
const LAST_ID_AT: usize = 2_600;

/// Where the editions begin: after the last id.
const EDITIONS_AT: usize = 2_604;

/// Where the regular orders' reserve and display begin: after the editions.
const SHOWN_AT: usize = 2_924;

/// Where the complex orders begin: after the regular ones.
const COMPLEX_AT: usize = 1_792;

/// Where the complex orders' ratios begin: after reserve and display.
const RATIOS_AT: usize = 3_948;

/// Where the generations of the series begin: after the ratios.
const GENERATIONS_AT: usize = 4_012;

/// Where the last id stands that a limited sweep looked at.
const REACHED_AT: usize = 4_652;

const REGULAR_PLACES: usize = 128;
const REGULAR_BYTES: usize = 14;
const SHOWN_BYTES: usize = 8;
const COMPLEX_PLACES: usize = 32;
const COMPLEX_BYTES: usize = 17;
const RATIO_BYTES: usize = 2;
const LEGGING_PLACES: usize = 16;
const LEGGING_BYTES: usize = 12;
const SERIES: usize = 8;
const SERIES_BYTES: usize = 9;
const EDITIONS: usize = 32;
const EDITION_BYTES: usize = 10;
const GENERATIONS_KEPT: usize = 20;

/// A regular order that rests.
#[derive(Clone, Copy, Debug, PartialEq, Eq)]
pub struct RegularOrder {
    /// The id that it was entered with.
    pub id: u32,
    /// The series, 0 to 7.
    pub series: u8,
    /// 0 to buy, 1 to sell.
    pub side: u8,
    /// The limit price.
    pub price: u32,
    /// What is left of it.
    pub quantity: u32,
    /// The part of that which is shown; the rest is reserve.
    pub shown: u32,
}

/// A complex order that rests. Each leg is its series, its side (0 to buy, 1 to sell) and
/// its ratio: the contracts that one unit has of it.
#[derive(Clone, Copy, Debug, PartialEq, Eq)]
pub struct ComplexOrder {
    /// The id that it was entered with.
    pub id: u32,
    /// The series of each leg, 0 to 7.
    pub series: [u8; 2],
    /// Of each leg 0 to buy, 1 to sell.
    pub sides: [u8; 2],
    /// 1 and 1 for an order of kind 2.
    pub ratios: [u8; 2],
    /// 0 customer, 1 other.
    pub class: u8,
    /// The highest net of a unit that it accepts.
    pub limit: i32,
    /// What is open of it, in units.
    pub quantity: u32,
}

/// A legging order that stands.
#[derive(Clone, Copy, Debug, PartialEq, Eq)]
pub struct LeggingOrder {
    /// The id of its complex order.
    pub parent: u32,
    /// The series, 0 to 7.
    pub series: u8,
    /// 0 to buy, 1 to sell.
    pub side: u8,
    /// Its price, which is shown rounded to the increment.
    pub price: u32,
    /// Its contracts.
    pub quantity: u32,
}

/// A series, with its away prices.
#[derive(Clone, Copy, Debug, PartialEq, Eq)]
pub struct Series {
    /// 0 closed, 1 open, 2 in auction.
    pub status: u8,
    /// The away bid; 0 where there is none.
    pub bid: u32,
    /// The away offer; 0 where there is none.
    pub offer: u32,
}

/// A setting that a message has entered.
#[derive(Clone, Copy, Debug, PartialEq, Eq)]
pub struct Edition {
    /// Its edition; they rise over all figures.
    pub edition: u32,
    /// The number of its message, from which on it holds.
    pub message: u32,
    /// 0 to 7 for the increment of that series, 8 for the percentage of the band.
    pub figure: u8,
    /// The increment or the percentage.
    pub value: u8,
}

/// A venue held as bytes: one value for one state.
///
/// Without padding, numbers little-endian: 128 regular orders (id u32, series u8,
/// side u8, price u32, quantity u32), 32 complex orders (id u32, series u8, side
/// u8, series u8, side u8, class u8, limit i32, quantity u32), 16 legging orders at
/// place 2 × series + side (parent u32, price u32, quantity u32), 8 series (status
/// u8, bid u32, offer u32), the last id u32, 32 editions (edition u32, message
/// number u32, figure u8, value u8; figure 0 to 7 is the increment of that series, 8
/// the percentage of the band), of the 128 regular orders once more reserve u32 and
/// display u32, the part of the quantity that is not shown and the part that is, of the
/// 32 complex orders once more two ratios u8, 1 and 1 of kind 2, of the 8 series once more
/// the message numbers u32 of the last 20 legging orders generated, oldest first, and the
/// last id u32 that a limited sweep looked at. Held places come first, in rising id or
/// edition; free places are zero, and so are generations before the first.
#[derive(Clone, PartialEq, Eq)]
pub struct VenueBytes([u8; VENUE_BYTES]);

impl VenueBytes {
    /// No orders, all series open, no away prices, last id 0, no edition, none generated.
    ///
    /// Bytes that are all zero are a sound venue too, with all series closed.
    pub fn fresh() -> Self {
        let mut bytes = [0; VENUE_BYTES];
        let number = fresh_in(&mut bytes);
        debug_assert_eq!(number, Number::DONE);
        VenueBytes(bytes)
    }

    /// A venue kept as bytes. Whether it is sound is tested by the call.
    pub const fn from_bytes(bytes: [u8; VENUE_BYTES]) -> Self {
        VenueBytes(bytes)
    }

    /// The bytes, to keep or to compare.
    pub const fn as_bytes(&self) -> &[u8; VENUE_BYTES] {
        &self.0
    }

    pub(crate) fn as_mut_bytes(&mut self) -> &mut [u8] {
        &mut self.0
    }

    fn u32_at(&self, at: usize) -> u32 {
        let byte = |offset| self.0[at + offset];
        u32::from_le_bytes([byte(0), byte(1), byte(2), byte(3)])
    }

    /// The id of the last order accepted; the next must be above it.
    pub fn last_id(&self) -> u32 {
        self.u32_at(LAST_ID_AT)
    }

    /// The regular orders that rest, in rising id, with what each shows.
    pub fn regular_orders(&self) -> impl Iterator<Item = RegularOrder> + '_ {
        let orders = (0..REGULAR_PLACES).map(|place| {
            let (at, shown) = (place * REGULAR_BYTES, SHOWN_AT + place * SHOWN_BYTES);
            RegularOrder {
                id: self.u32_at(at),
                series: self.0[at + 4],
                side: self.0[at + 5],
                price: self.u32_at(at + 6),
                quantity: self.u32_at(at + 10),
                shown: self.u32_at(shown + 4),
            }
        });
        orders.take_while(|order| order.quantity > 0)
    }

    /// The complex orders that rest, in rising id, with their ratios.
    pub fn complex_orders(&self) -> impl Iterator<Item = ComplexOrder> + '_ {
        let orders = (0..COMPLEX_PLACES).map(|place| {
            let at = COMPLEX_AT + place * COMPLEX_BYTES;
            let ratios = RATIOS_AT + place * RATIO_BYTES;
            ComplexOrder {
                id: self.u32_at(at),
                series: [self.0[at + 4], self.0[at + 6]],
                sides: [self.0[at + 5], self.0[at + 7]],
                ratios: [self.0[ratios], self.0[ratios + 1]],
                class: self.0[at + 8],
                limit: self.u32_at(at + 9) as i32,
                quantity: self.u32_at(at + 13),
            }
        });
        orders.take_while(|order| order.quantity > 0)
    }

    /// The legging orders that stand, by place: 2 × series + side.
    pub fn legging_orders(&self) -> impl Iterator<Item = LeggingOrder> + '_ {
        let orders = (0..LEGGING_PLACES).map(|place| {
            let at = LEGGING_AT + place * LEGGING_BYTES;
            LeggingOrder {
                parent: self.u32_at(at),
                series: (place / 2) as u8,
                side: (place % 2) as u8,
                price: self.u32_at(at + 4),
                quantity: self.u32_at(at + 8),
            }
        });
        orders.filter(|order| order.quantity > 0)
    }

    /// The eight series, with their away prices.
    pub fn series(&self) -> [Series; SERIES] {
        std::array::from_fn(|series| {
            let at = SERIES_AT + series * SERIES_BYTES;
            Series {
                status: self.0[at],
                bid: self.u32_at(at + 1),
                offer: self.u32_at(at + 5),
            }
        })
    }

    /// The editions kept, rising.
    pub fn editions(&self) -> impl Iterator<Item = Edition> + '_ {
        let editions = (0..EDITIONS).map(|place| {
            let at = EDITIONS_AT + place * EDITION_BYTES;
            Edition {
                edition: self.u32_at(at),
                message: self.u32_at(at + 4),
                figure: self.0[at + 8],
                value: self.0[at + 9],
            }
        });
        editions.take_while(|entry| entry.edition > 0)
    }

    /// The numbers of the messages that generated the last legging orders of each series,
    /// at most 20 of them, oldest first.
    pub fn generations(&self) -> [Vec<u32>; SERIES] {
        std::array::from_fn(|series| {
            let row = GENERATIONS_AT + series * GENERATIONS_KEPT * 4;
            let numbers = (0..GENERATIONS_KEPT).map(|place| self.u32_at(row + place * 4));
            numbers.filter(|number| *number > 0).collect()
        })
    }

    /// The last id that a limited sweep looked at; 0 where none did.
    pub fn reached(&self) -> u32 {
        self.u32_at(REACHED_AT)
    }
}

impl Default for VenueBytes {
    fn default() -> Self {
        VenueBytes::fresh()
    }
}

impl fmt::Debug for VenueBytes {
    fn fmt(&self, f: &mut fmt::Formatter) -> fmt::Result {
        f.debug_struct("VenueBytes")
            .field("last_id", &self.last_id())
            .finish_non_exhaustive()
    }
}

/// A venue that a host holds, with how many messages were done upon it.
///
/// ```
/// use legging::{records, Leg, Message, NewOrder, Number, Record, Venue, MOST_BYTES};
///
/// let mut venue = Venue::fresh();
/// let mut report = [0; MOST_BYTES];
/// let order = Message::Order(NewOrder {
///     id: 1,
///     leg: Leg { series: 0, side: 1 },
///     price: 130,
///     quantity: 15,
///     shows: None,
/// });
/// venue.take(&order, &mut report).ok()?;
/// let answer = records(&report).next().unwrap().unwrap();
/// assert!(matches!(answer, Record::Answer(answer) if answer.refusal == 0));
/// assert_eq!(venue.bytes().regular_orders().next().unwrap().price, 130);
/// assert_eq!(venue.take(&order, &mut report), Number::ID_NOT_ABOVE);
/// assert_eq!(venue.done(), 2);
/// # Ok::<(), Number>(())
/// ```
#[derive(Clone, Debug, Default, PartialEq, Eq)]
pub struct Venue {
    bytes: VenueBytes,
    done: u32,
}

impl Venue {
    /// A fresh venue, upon which no message was done.
    ///
    /// ```
    /// let venue = legging::Venue::fresh();
    /// assert_eq!((venue.done(), venue.bytes().series()[7].status), (0, 1));
    /// ```
    pub fn fresh() -> Self {
        Venue::default()
    }

    /// A venue kept as bytes, upon which so many messages were done. Whether it is sound
    /// is tested by the calls.
    pub const fn new(bytes: VenueBytes, done: u32) -> Self {
        Venue { bytes, done }
    }

    /// The bytes, to keep or to look into.
    pub const fn bytes(&self) -> &VenueBytes {
        &self.bytes
    }

    /// How many messages were done, refused ones counted; the next one's number is one
    /// more.
    pub const fn done(&self) -> u32 {
        self.done
    }

    /// Takes a message, as [`one_message`]: it is counted unless the number is
    /// [`Number::UNSOUND`] or [`Number::NO_ROOM`].
    ///
    /// ```
    /// use legging::{Cancel, Message, Number, Venue, MOST_BYTES};
    ///
    /// let mut venue = Venue::fresh();
    /// let cancel = Message::Cancel(Cancel { id: 1 });
    /// assert_eq!(venue.take(&cancel, &mut [0; 3]), Number::NO_ROOM);
    /// assert_eq!(venue.take(&cancel, &mut [0; MOST_BYTES]), Number::NO_SUCH_ORDER);
    /// assert_eq!(venue.done(), 1);
    /// ```
    pub fn take(&mut self, message: &Message, report: &mut [u8]) -> Number {
        self.take_bytes(&message.encode(), report)
    }

    /// As [`Venue::take`], the first message of some bytes.
    ///
    /// ```
    /// use legging::{Number, Venue, MOST_BYTES};
    ///
    /// let number = Venue::fresh().take_bytes(&[9, 0, 6], &mut [0; MOST_BYTES]);
    /// assert_eq!(number, Number::TORN);
    /// ```
    pub fn take_bytes(&mut self, message: &[u8], report: &mut [u8]) -> Number {
        let number = one_message(&mut self.bytes, self.done, message, report);
        // The last message number is followed by none: the call ends with NO_ROOM.
        self.done += u32::from(number.is_done());
        number
    }

    /// What held at a message number, as [`settings`].
    ///
    /// ```
    /// use legging::{Message, Percent, Venue, MOST_BYTES};
    ///
    /// let mut venue = Venue::fresh();
    /// let set = Message::Percent(Percent { percent: 7, edition: 1 });
    /// venue.take(&set, &mut [0; MOST_BYTES]).ok()?;
    /// let percents = [0, 1].map(|number| venue.settings(number).unwrap().percent);
    /// assert_eq!(percents, [5, 7]);
    /// # Ok::<(), legging::Number>(())
    /// ```
    pub fn settings(&self, number: u32) -> Option<Settings> {
        settings(&self.bytes, number)
    }

    /// The set that carries the venue over an upgrade, as [`Set::of`].
    ///
    /// ```
    /// use legging::Venue;
    ///
    /// let venue = Venue::fresh();
    /// assert_eq!(venue.write_set()?.read()?, venue);
    /// # Ok::<(), legging::Number>(())
    /// ```
    pub fn write_set(&self) -> Result<Set, Number> {
        Set::of(self)
    }
}
