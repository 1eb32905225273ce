//! Message bytes read, record bytes written. All numbers are little-endian.

use crate::price::{
    place, series_of, side_of, valid_increment, valid_limit, valid_percent, valid_price,
    valid_quantity, valid_ratio, valid_regular_price, valid_shown, valid_unequal_limit, Legs,
    Place,
};
use crate::types::{AUCTION, COMPLEX_PLACES, OTHER, PERCENT, SELL, SERIES};

/// Why a message was refused, by the numbers of the document.
#[derive(Clone, Copy, Debug, PartialEq, Eq)]
pub enum Refusal {
    Torn,
    UnknownKind,
    WrongLength,
    OutOfRange,
    IdNotAbove,
    SeriesClosed,
    BookFull,
    NoSuchOrder,
    EditionNotAbove,
    SeriesInUse,
    EditionsFull,
    EqualRatios,
}

impl Refusal {
    pub fn number(self) -> u8 {
        match self {
            Refusal::Torn => 1,
            Refusal::UnknownKind => 2,
            Refusal::WrongLength => 3,
            Refusal::OutOfRange => 4,
            Refusal::IdNotAbove => 5,
            Refusal::SeriesClosed => 6,
            Refusal::BookFull => 7,
            Refusal::NoSuchOrder => 8,
            Refusal::EditionNotAbove => 11,
            Refusal::SeriesInUse => 12,
            Refusal::EditionsFull => 13,
            Refusal::EqualRatios => 14,
        }
    }
}

#[derive(Clone, Copy, Debug)]
pub struct NewOrder {
    pub id: u32,
    pub place: Place,
    pub price: u32,
    pub quantity: u32,
    /// The shown quantity: of kind 1 all of it.
    pub shown: u32,
}

#[derive(Clone, Copy, Debug)]
pub struct NewComplex {
    pub id: u32,
    pub legs: Legs,
    pub class: u8,
    pub limit: i32,
    pub quantity: u32,
}

/// A setting as it is entered: an increment of a series, or the percentage.
#[derive(Clone, Copy, Debug)]
pub struct NewSetting {
    pub figure: u8,
    pub value: u8,
    pub edition: u32,
}

/// A message whose fields are all in range.
#[derive(Clone, Copy, Debug)]
pub enum Message {
    Order(NewOrder),
    Complex(NewComplex),
    Cancel { id: u32 },
    Away { series: usize, bid: u32, offer: u32 },
    Status { series: usize, status: u8 },
    Sweep,
    LimitedSweep { most: usize },
    Setting(NewSetting),
}

/// The bytes of the first message, by its length field.
pub fn first_message(bytes: &[u8]) -> Result<&[u8], Refusal> {
    if bytes.len() < 4 {
        return Err(Refusal::Torn);
    }
    let length = usize::from(u16_at(bytes, 0));
    if length < 4 || length > bytes.len() {
        return Err(Refusal::Torn);
    }
    Ok(&bytes[..length])
}

/// Reads one whole message: its kind, its length, then its fields, prices by the
/// increments in force.
pub fn decode(bytes: &[u8], increments: &[u8; SERIES]) -> Result<Message, Refusal> {
    let kind = u16_at(bytes, 2);
    let length = length_of(kind).ok_or(Refusal::UnknownKind)?;
    if bytes.len() != length {
        return Err(Refusal::WrongLength);
    }
    let message = match kind {
        1 => decode_order(bytes, u32_at(bytes, QUANTITY_AT), increments),
        2 => decode_complex(bytes, None),
        3 => decode_cancel(bytes),
        4 => decode_away(bytes),
        5 => decode_status(bytes),
        6 => Some(Message::Sweep),
        7 => decode_increment(bytes),
        8 => decode_percent(bytes),
        9 => decode_order(bytes, u32_at(bytes, SHOWN_AT), increments),
        10 => decode_complex(bytes, Some(ratio_bytes(bytes))),
        _ => decode_limited_sweep(bytes),
    };
    let message = message.ok_or(Refusal::OutOfRange)?;
    if kind == 10 && has_equal(ratio_bytes(bytes)) {
        return Err(Refusal::EqualRatios);
    }
    Ok(message)
}

fn ratio_bytes(bytes: &[u8]) -> [u8; 2] {
    [bytes[RATIOS_AT], bytes[RATIOS_AT + 1]]
}

fn has_equal([first, second]: [u8; 2]) -> bool {
    first == second
}

fn length_of(kind: u16) -> Option<usize> {
    match kind {
        1 => Some(18),
        2 => Some(21),
        3 => Some(8),
        4 => Some(13),
        5 => Some(6),
        6 => Some(4),
        7 => Some(10),
        8 => Some(9),
        9 => Some(22),
        10 => Some(23),
        11 => Some(5),
        _ => None,
    }
}

/// Where an order's quantity stands, and after it the shown quantity of kind 9.
const QUANTITY_AT: usize = 14;
const SHOWN_AT: usize = 18;

/// Where the two ratios of kind 10 stand, after the fields of kind 2.
const RATIOS_AT: usize = 21;

/// An order of kind 1 or 9, with its shown quantity.
fn decode_order(bytes: &[u8], shown: u32, increments: &[u8; SERIES]) -> Option<Message> {
    let (id, series, side) = (u32_at(bytes, 4), bytes[8], bytes[9]);
    let (price, quantity) = (u32_at(bytes, 10), u32_at(bytes, QUANTITY_AT));
    let valid = id > 0
        && valid_leg(series, side)
        && valid_regular_price(price, increments[usize::from(series)])
        && valid_quantity(quantity)
        && valid_shown(shown, quantity);
    valid.then(|| {
        Message::Order(NewOrder {
            id,
            place: place(series, side),
            price,
            quantity,
            shown,
        })
    })
}

/// A complex order of kind 2, or of kind 10 with its ratios.
fn decode_complex(bytes: &[u8], named: Option<[u8; 2]>) -> Option<Message> {
    let (id, class) = (u32_at(bytes, 4), bytes[12]);
    let (series1, side1, series2, side2) = (bytes[8], bytes[9], bytes[10], bytes[11]);
    let (limit, quantity) = (u32_at(bytes, 13) as i32, u32_at(bytes, 17));
    let valid = id > 0
        && valid_leg(series1, side1)
        && valid_leg(series2, side2)
        && series1 != series2
        && class <= OTHER
        && valid_ratios(named, limit)
        && valid_quantity(quantity);
    valid.then(|| {
        Message::Complex(NewComplex {
            id,
            legs: Legs {
                places: [place(series1, side1), place(series2, side2)],
                ratios: named.unwrap_or([1, 1]),
            },
            class,
            limit,
            quantity,
        })
    })
}

/// Whether ratios, where named, are in range, and the limit in that of its kind.
fn valid_ratios(named: Option<[u8; 2]>, limit: i32) -> bool {
    match named {
        None => valid_limit(limit),
        Some(ratios) => ratios.into_iter().all(valid_ratio) && valid_unequal_limit(limit),
    }
}

fn decode_cancel(bytes: &[u8]) -> Option<Message> {
    let id = u32_at(bytes, 4);
    (id > 0).then_some(Message::Cancel { id })
}

fn decode_away(bytes: &[u8]) -> Option<Message> {
    let (series, bid, offer) = (bytes[4], u32_at(bytes, 5), u32_at(bytes, 9));
    let valid = valid_series(series) && valid_away(bid) && valid_away(offer);
    valid.then_some(Message::Away {
        series: usize::from(series),
        bid,
        offer,
    })
}

fn decode_status(bytes: &[u8]) -> Option<Message> {
    let (series, status) = (bytes[4], bytes[5]);
    let valid = valid_series(series) && valid_status(status);
    valid.then_some(Message::Status {
        series: usize::from(series),
        status,
    })
}

fn decode_limited_sweep(bytes: &[u8]) -> Option<Message> {
    let most = usize::from(bytes[4]);
    (1..=COMPLEX_PLACES)
        .contains(&most)
        .then_some(Message::LimitedSweep { most })
}

fn decode_increment(bytes: &[u8]) -> Option<Message> {
    let (series, increment) = (bytes[4], bytes[5]);
    let valid = valid_series(series) && valid_increment(increment);
    valid.then(|| setting(series, increment, u32_at(bytes, 6)))
}

fn decode_percent(bytes: &[u8]) -> Option<Message> {
    let percent = bytes[4];
    valid_percent(percent).then(|| setting(PERCENT, percent, u32_at(bytes, 5)))
}

fn setting(figure: u8, value: u8, edition: u32) -> Message {
    Message::Setting(NewSetting {
        figure,
        value,
        edition,
    })
}

/// Whether a figure is one, and its value in range.
pub fn valid_setting(figure: u8, value: u8) -> bool {
    match figure {
        PERCENT => valid_percent(value),
        series => valid_series(series) && valid_increment(value),
    }
}

pub fn valid_series(series: u8) -> bool {
    usize::from(series) < SERIES
}

pub fn valid_leg(series: u8, side: u8) -> bool {
    valid_series(series) && side <= SELL
}

pub fn valid_away(price: u32) -> bool {
    price == 0 || valid_price(price)
}

pub fn valid_status(status: u8) -> bool {
    status <= AUCTION
}

fn u16_at(bytes: &[u8], at: usize) -> u16 {
    u16::from_le_bytes([bytes[at], bytes[at + 1]])
}

fn u32_at(bytes: &[u8], at: usize) -> u32 {
    u32::from_le_bytes([bytes[at], bytes[at + 1], bytes[at + 2], bytes[at + 3]])
}

pub const ANSWER_BYTES: usize = 12;
pub const LOOKED_BYTES: usize = 5;

/// The lent report memory, with the position of the next record.
///
/// A record that does not fit marks the report as overflowed; nothing of the
/// message counts then, and `rewind` goes back to where it began.
pub struct Report<'a> {
    memory: &'a mut [u8],
    at: usize,
    overflowed: bool,
}

impl<'a> Report<'a> {
    pub fn new(memory: &'a mut [u8]) -> Self {
        Report {
            memory,
            at: 0,
            overflowed: false,
        }
    }

    pub fn left(&self) -> usize {
        self.memory.len() - self.at
    }

    pub fn overflowed(&self) -> bool {
        self.overflowed
    }

    /// Leaves room for an answer, to be filled in once its mask is known.
    #[inline]
    pub fn reserve_answer(&mut self) -> usize {
        let start = self.at;
        self.put(&[0; ANSWER_BYTES]);
        start
    }

    #[inline]
    pub fn fill_answer(&mut self, start: usize, number: u32, refusal: u8, mask: u16) {
        let record = Record::<ANSWER_BYTES>::new(64)
            .u32(number)
            .u8(refusal)
            .u16(mask)
            .u8(mask.count_ones() as u8);
        self.memory[start..start + ANSWER_BYTES].copy_from_slice(&record.bytes);
    }

    pub fn rewind(&mut self, start: usize) {
        self.at = start;
        self.overflowed = false;
    }

    /// Zeros from the last record to the end of the memory.
    pub fn finish(self) -> usize {
        self.memory[self.at..].fill(0);
        self.at
    }

    #[inline]
    pub fn trade(&mut self, leg: Place, price: u32, quantity: u32, taker: u32, maker: u32) {
        let record = Record::<22>::new(65)
            .place(leg)
            .u32(price)
            .u32(quantity)
            .u32(taker)
            .u32(maker);
        self.put(&record.bytes);
    }

    #[inline]
    pub fn pair(&mut self, id: u32, net: i32, quantity: u32) {
        let record = Record::<16>::new(66).u32(id).u32(net as u32).u32(quantity);
        self.put(&record.bytes);
    }

    #[inline]
    pub fn generated(&mut self, id: u32, leg: Place, price: u32, displayed: u32, quantity: u32) {
        let record = Record::<22>::new(67)
            .u32(id)
            .place(leg)
            .u32(price)
            .u32(displayed)
            .u32(quantity);
        self.put(&record.bytes);
    }

    pub fn removed(&mut self, id: u32, leg: Place, cause: u8) {
        let record = Record::<11>::new(68).u32(id).place(leg).u8(cause);
        self.put(&record.bytes);
    }

    #[inline]
    pub fn cross(&mut self, taker: u32, maker: u32, net: i32, quantity: u32) {
        let record = Record::<20>::new(70)
            .u32(taker)
            .u32(maker)
            .u32(net as u32)
            .u32(quantity);
        self.put(&record.bytes);
    }

    #[inline]
    pub fn cancelled(&mut self, id: u32, quantity: u32) {
        let record = Record::<12>::new(71).u32(id).u32(quantity);
        self.put(&record.bytes);
    }

    /// The number of orders that a limited sweep looks at.
    pub fn looked(&mut self, count: u8) {
        let record = Record::<LOOKED_BYTES>::new(72).u8(count);
        self.put(&record.bytes);
    }

    fn put(&mut self, record: &[u8]) {
        if self.overflowed || record.len() > self.left() {
            self.overflowed = true;
            return;
        }
        let end = self.at + record.len();
        self.memory[self.at..end].copy_from_slice(record);
        self.at = end;
    }
}

/// The bytes of one record, filled field by field.
struct Record<const N: usize> {
    bytes: [u8; N],
    at: usize,
}

impl<const N: usize> Record<N> {
    fn new(kind: u16) -> Self {
        let empty = Record {
            bytes: [0; N],
            at: 0,
        };
        empty.u16(N as u16).u16(kind)
    }

    fn u8(mut self, value: u8) -> Self {
        self.bytes[self.at] = value;
        self.at += 1;
        self
    }

    fn u16(mut self, value: u16) -> Self {
        self.bytes[self.at..self.at + 2].copy_from_slice(&value.to_le_bytes());
        self.at += 2;
        self
    }

    fn u32(mut self, value: u32) -> Self {
        self.bytes[self.at..self.at + 4].copy_from_slice(&value.to_le_bytes());
        self.at += 4;
        self
    }

    fn place(self, place: Place) -> Self {
        self.u8(series_of(place) as u8).u8(side_of(place))
    }
}
