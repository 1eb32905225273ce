//! The venue as callers hold it: one value for one state.
//!
//! Held places come first, in rising id; a free place is all zero. A legging
//! place is `2 * series + side`. Editions too are held first, and rise. Of the
//! generations of a series the last are held, with zeros before them.

pub const SERIES: usize = 8;
pub const REGULAR_PLACES: usize = 128;
pub const COMPLEX_PLACES: usize = 32;
pub const LEGGING_PLACES: usize = 2 * SERIES;
pub const EDITION_PLACES: usize = 32;

/// The most legging orders of a series that are generated in any so many consecutive
/// messages.
pub const CEILING: usize = 20;
pub const CEILING_MESSAGES: u32 = 256;

pub const BUY: u8 = 0;
pub const SELL: u8 = 1;

pub const CLOSED: u8 = 0;
pub const OPEN: u8 = 1;
pub const AUCTION: u8 = 2;

pub const CUSTOMER: u8 = 0;
pub const OTHER: u8 = 1;

/// The figure of an edition that sets the percentage of the band; a lower one
/// sets the increment of that series.
pub const PERCENT: u8 = SERIES as u8;

/// A regular order at rest.
#[derive(Clone, Copy, Debug, Default, PartialEq, Eq)]
pub struct Regular {
    pub id: u32,
    pub series: u8,
    pub side: u8,
    pub price: u32,
    pub quantity: u32,
    /// The part of the quantity that is not shown.
    pub reserve: u32,
    /// The shown quantity, or what is left where that is less.
    pub display: u32,
}

/// A two-leg complex order at rest.
#[derive(Clone, Copy, Debug, Default, PartialEq, Eq)]
pub struct Complex {
    pub id: u32,
    pub series1: u8,
    pub side1: u8,
    pub series2: u8,
    pub side2: u8,
    pub class: u8,
    pub limit: i32,
    /// In units: so many contracts of each leg as its ratio.
    pub quantity: u32,
    /// 1 and 1 for an order of kind 2.
    pub ratio1: u8,
    pub ratio2: u8,
}

/// A legging order; its series and side are those of its place.
#[derive(Clone, Copy, Debug, Default, PartialEq, Eq)]
pub struct Legging {
    pub parent: u32,
    pub price: u32,
    pub quantity: u32,
}

/// Status and away prices of a series; a price of 0 means none.
#[derive(Clone, Copy, Debug, Default, PartialEq, Eq)]
pub struct Listed {
    pub status: u8,
    pub bid: u32,
    pub offer: u32,
}

/// A setting, with the number of the message that entered it.
#[derive(Clone, Copy, Debug, Default, PartialEq, Eq)]
pub struct Edition {
    pub edition: u32,
    pub number: u32,
    pub figure: u8,
    pub value: u8,
}

/// The figures that the rules read.
#[derive(Clone, Copy, Debug, PartialEq, Eq)]
pub struct Settings {
    pub increments: [u8; SERIES],
    /// Percent of the market net by which a net may exceed it.
    pub percent: u8,
}

#[derive(Clone, Debug, PartialEq, Eq)]
pub struct Venue {
    pub regular: [Regular; REGULAR_PLACES],
    pub complex: [Complex; COMPLEX_PLACES],
    pub legging: [Legging; LEGGING_PLACES],
    pub series: [Listed; SERIES],
    pub last: u32,
    pub editions: [Edition; EDITION_PLACES],
    /// Of each series the numbers of the messages that generated last, oldest first.
    pub generations: [[u32; CEILING]; SERIES],
    /// The last id that a limited sweep looked at.
    pub reached: u32,
}

impl Listed {
    /// Open, with no away prices.
    pub const FRESH: Listed = Listed {
        status: OPEN,
        bid: 0,
        offer: 0,
    };
}

impl Settings {
    /// Edition 0: the figures of document 01.
    pub const FIRST: Settings = Settings {
        increments: [5, 5, 5, 5, 5, 5, 10, 10],
        percent: 5,
    };
}

impl Venue {
    /// No orders, all series open, no away prices, last id 0, no edition, none
    /// generated and no id looked at.
    pub fn fresh() -> Self {
        Venue {
            regular: [Regular::default(); REGULAR_PLACES],
            complex: [Complex::default(); COMPLEX_PLACES],
            legging: [Legging::default(); LEGGING_PLACES],
            series: [Listed::FRESH; SERIES],
            last: 0,
            editions: [Edition::default(); EDITION_PLACES],
            generations: [[0; CEILING]; SERIES],
            reached: 0,
        }
    }
}

impl Default for Venue {
    fn default() -> Self {
        Venue::fresh()
    }
}

/// What both calls return.
#[derive(Clone, Debug, PartialEq, Eq)]
pub struct Returned {
    pub number: u8,
    pub done: u32,
    pub written: usize,
    pub venue: Venue,
}
