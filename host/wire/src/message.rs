//! Messages as typed values, to and from bytes. Fields keep any value that fits their
//! width, so that refused messages can be written too.

use crate::fields::{frame, Field};
use std::fmt::{self, Display};

fields! {
    /// A side of a series.
    Leg {
        /// The series, 0 to 7.
        series: u8,
        /// 0 to buy, 1 to sell.
        side: u8,
    }

    /// Kinds 1 and 9: a regular order.
    NewOrder {
        /// The order's id, above that of every order before it.
        id: u32,
        /// The series, and whether the order buys or sells.
        leg: Leg,
        /// The limit price.
        price: u32,
        /// The contracts.
        quantity: u32,
        /// The shown quantity of kind 9; kind 1 has none and shows all of it.
        shows: Option<u32>,
    }

    /// Kinds 2 and 10: a complex order.
    NewComplex {
        /// The order's id, above that of every order before it.
        id: u32,
        /// The two legs.
        legs: [Leg; 2],
        /// 0 or 1; at an equal price class 0 takes a place that class 1 holds.
        class: u8,
        /// The highest net of a unit.
        limit: i32,
        /// How many units.
        quantity: u32,
        /// The ratios of kind 10; kind 2 has none and is of one against one.
        ratios: Option<[u8; 2]>,
    }

    /// Kind 3: a cancel of a resting order.
    Cancel {
        /// The order's id.
        id: u32,
    }

    /// Kind 4: the away prices of a series.
    Away {
        /// The series.
        series: u8,
        /// The best bid elsewhere; 0 for none.
        bid: u32,
        /// The best offer elsewhere; 0 for none.
        offer: u32,
    }

    /// Kind 5: the status of a series.
    Status {
        /// The series.
        series: u8,
        /// 0 closed, 1 open, 2 in auction.
        status: u8,
    }

    /// Kind 7: the increment of a series' prices.
    Increment {
        /// The series.
        series: u8,
        /// The increment.
        increment: u8,
        /// The edition of the setting.
        edition: u32,
    }

    /// Kind 8: the percentage of the band.
    Percent {
        /// The percentage.
        percent: u8,
        /// The edition of the setting.
        edition: u32,
    }

    /// Kind 11: a sweep of so many resting orders at most.
    LimitedSweep {
        /// How many orders are looked at, at most.
        most: u8,
    }
}

/// A message of kind 1 to 11, or bytes that are none.
#[derive(Clone, Debug, PartialEq, Eq)]
pub enum Message {
    /// A regular order.
    Order(NewOrder),
    /// A complex order.
    Complex(NewComplex),
    /// A cancel.
    Cancel(Cancel),
    /// Away prices.
    Away(Away),
    /// A status.
    Status(Status),
    /// Kind 6: a sweep of all resting complex orders.
    Sweep,
    /// An increment.
    Increment(Increment),
    /// The percentage.
    Percent(Percent),
    /// A sweep limited to so many resting orders.
    LimitedSweep(LimitedSweep),
    /// Bytes that are no message of kinds 1 to 11 at its length.
    Raw(Vec<u8>),
}

/// A kind that has no fields.
struct Nothing;

impl Field for Nothing {
    fn write(&self, _bytes: &mut Vec<u8>) {}

    fn read(_bytes: &mut &[u8]) -> Option<Self> {
        Some(Nothing)
    }
}

impl Message {
    /// The kind; raw bytes have none.
    pub fn kind(&self) -> Option<u16> {
        let kind = match self {
            Message::Order(order) => 1 + 8 * u16::from(order.shows.is_some()),
            Message::Complex(order) => 2 + 8 * u16::from(order.ratios.is_some()),
            Message::Cancel(_) => 3,
            Message::Away(_) => 4,
            Message::Status(_) => 5,
            Message::Sweep => 6,
            Message::Increment(_) => 7,
            Message::Percent(_) => 8,
            Message::LimitedSweep(_) => 11,
            Message::Raw(_) => return None,
        };
        Some(kind)
    }

    /// Its bytes: length, kind, fields.
    pub fn encode(&self) -> Vec<u8> {
        let mut bytes = Vec::new();
        self.encode_into(&mut bytes);
        bytes
    }

    /// Adds its bytes to a list.
    pub fn encode_into(&self, bytes: &mut Vec<u8>) {
        let kind = self.kind().unwrap_or_default();
        match self {
            Message::Order(order) => frame(kind, order, bytes),
            Message::Complex(order) => frame(kind, order, bytes),
            Message::Cancel(cancel) => frame(kind, cancel, bytes),
            Message::Away(away) => frame(kind, away, bytes),
            Message::Status(status) => frame(kind, status, bytes),
            Message::Sweep => frame(kind, &Nothing, bytes),
            Message::Increment(increment) => frame(kind, increment, bytes),
            Message::Percent(percent) => frame(kind, percent, bytes),
            Message::LimitedSweep(sweep) => frame(kind, sweep, bytes),
            Message::Raw(raw) => bytes.extend_from_slice(raw),
        }
    }

    /// Reads one message cut from a list; what is none of kinds 1 to 11 at its
    /// length stays raw.
    pub fn decode(bytes: &[u8]) -> Message {
        Message::read(bytes).unwrap_or_else(|| Message::Raw(bytes.to_vec()))
    }

    fn read(bytes: &[u8]) -> Option<Message> {
        let mut rest = bytes;
        let (length, kind) = (u16::read(&mut rest)?, u16::read(&mut rest)?);
        let message = match kind {
            1 | 9 => Message::Order(Field::read(&mut rest)?),
            2 | 10 => Message::Complex(Field::read(&mut rest)?),
            3 => Message::Cancel(Field::read(&mut rest)?),
            4 => Message::Away(Field::read(&mut rest)?),
            5 => Message::Status(Field::read(&mut rest)?),
            6 => Message::Sweep,
            7 => Message::Increment(Field::read(&mut rest)?),
            8 => Message::Percent(Field::read(&mut rest)?),
            11 => Message::LimitedSweep(Field::read(&mut rest)?),
            _ => return None,
        };
        let whole = usize::from(length) == bytes.len() && rest.is_empty();
        (whole && message.kind() == Some(kind)).then_some(message)
    }

    /// Whether it works resting orders: all of them, or so many.
    pub fn is_sweep(&self) -> bool {
        matches!(self, Message::Sweep | Message::LimitedSweep(_))
    }
}

impl Leg {
    /// The series and the side.
    pub fn bytes(self) -> [u8; 2] {
        [self.series, self.side]
    }
}

impl NewOrder {
    /// What it shows of its quantity.
    pub fn shown(&self) -> u32 {
        self.shows.unwrap_or(self.quantity)
    }
}

impl NewComplex {
    /// The contracts of each leg in a unit.
    pub fn unit(&self) -> [u8; 2] {
        self.ratios.unwrap_or([1, 1])
    }
}

/// The bytes of a message list.
pub fn encode_all<'a>(messages: impl IntoIterator<Item = &'a Message>) -> Vec<u8> {
    let mut bytes = Vec::new();
    for message in messages {
        message.encode_into(&mut bytes);
    }
    bytes
}

/// Cuts a list into its messages; a torn rest is the last piece.
pub fn split(list: &[u8]) -> Vec<&[u8]> {
    let mut pieces = Vec::new();
    let mut rest = list;
    while !rest.is_empty() {
        let piece = first_whole(rest).unwrap_or(rest);
        pieces.push(piece);
        rest = &rest[piece.len()..];
    }
    pieces
}

/// The first message of the bytes, if it is whole.
pub fn first_whole(bytes: &[u8]) -> Option<&[u8]> {
    let [low, high, _, _, ..] = *bytes else {
        return None;
    };
    match usize::from(u16::from_le_bytes([low, high])) {
        ..4 => None,
        length => bytes.get(..length),
    }
}

/// The bytes of a message or record: its length, its kind, its fields.
pub fn framed(kind: u16, fields: &[&[u8]]) -> Vec<u8> {
    let fields = fields.concat();
    let length = 4 + fields.len() as u16;
    let head = [length.to_le_bytes(), kind.to_le_bytes()].concat();
    [head, fields].concat()
}

/// A side as text: `buy`, `sell` or `side=NUMBER`.
pub struct Side(pub u8);

impl Display for Side {
    fn fmt(&self, f: &mut fmt::Formatter) -> fmt::Result {
        match self.0 {
            0 => write!(f, "buy"),
            1 => write!(f, "sell"),
            other => write!(f, "side={other}"),
        }
    }
}

impl Display for NewOrder {
    fn fmt(&self, f: &mut fmt::Formatter) -> fmt::Result {
        let (id, side, quantity) = (self.id, Side(self.leg.side), self.quantity);
        let (series, price) = (self.leg.series, self.price);
        write!(f, "order {id} {side} {quantity} series {series} at {price}")?;
        self.shows
            .map_or(Ok(()), |shows| write!(f, " shows {shows}"))
    }
}

impl Display for NewComplex {
    fn fmt(&self, f: &mut fmt::Formatter) -> fmt::Result {
        write!(f, "complex {} ", self.id)?;
        for leg in self.legs {
            write!(f, "{} {} ", Side(leg.side), leg.series)?;
        }
        let (class, limit, quantity) = (self.class, self.limit, self.quantity);
        write!(f, "class {class} net {limit} quantity {quantity}")?;
        self.ratios.map_or(Ok(()), |[first, second]| {
            write!(f, " ratio {first} {second}")
        })
    }
}

impl Display for Status {
    fn fmt(&self, f: &mut fmt::Formatter) -> fmt::Result {
        let series = self.series;
        match self.status {
            0 => write!(f, "status {series} closed"),
            1 => write!(f, "status {series} open"),
            2 => write!(f, "status {series} auction"),
            other => write!(f, "status {series} status={other}"),
        }
    }
}

/// A message as a line of a session's text.
impl Display for Message {
    fn fmt(&self, f: &mut fmt::Formatter) -> fmt::Result {
        match self {
            Message::Order(order) => order.fmt(f),
            Message::Complex(order) => order.fmt(f),
            Message::Cancel(Cancel { id }) => write!(f, "cancel {id}"),
            Message::Away(Away { series, bid, offer }) => {
                write!(f, "away {series} bid {bid} offer {offer}")
            }
            Message::Status(status) => status.fmt(f),
            Message::Sweep => write!(f, "sweep"),
            Message::LimitedSweep(LimitedSweep { most }) => write!(f, "limited {most}"),
            Message::Increment(set) => {
                write!(
                    f,
                    "increment {} {} {}",
                    set.series, set.increment, set.edition
                )
            }
            Message::Percent(set) => write!(f, "percent {} {}", set.percent, set.edition),
            Message::Raw(bytes) => {
                write!(f, "raw")?;
                bytes.iter().try_for_each(|byte| write!(f, " {byte:02x}"))
            }
        }
    }
}
