//! The range of every field of a message, and the first field that is outside of it, for
//! which a message is refused with 4.

use crate::message::{Away, Increment, Leg, Message, NewComplex, NewOrder, Status};
use crate::settings::{Figure, InForce};
use std::fmt::{self, Display};

/// What a field may be.
#[derive(Clone, Copy, Debug, PartialEq, Eq)]
pub enum Range {
    /// The lowest value and the highest.
    From(i64, i64),
    /// An increment: 1, 5 or 10.
    Increment,
    /// The second leg's series: not that of the first leg.
    OtherSeries,
    /// A price: a multiple of the increment in force.
    MultipleOf(Figure),
}

impl Range {
    /// Whether a value is one of these; of a second leg's series, one that is not this.
    fn has(self, value: i64) -> bool {
        match self {
            Range::From(low, high) => (low..=high).contains(&value),
            Range::Increment => [1, 5, 10].contains(&value),
            Range::OtherSeries => false,
            Range::MultipleOf(increment) => value % i64::from(increment.value) == 0,
        }
    }
}

impl Display for Range {
    fn fmt(&self, f: &mut fmt::Formatter) -> fmt::Result {
        match self {
            Range::From(low, high) => write!(f, "from {low} to {high}"),
            Range::Increment => write!(f, "1, 5 or 10"),
            Range::OtherSeries => write!(f, "another series than that of the first leg"),
            Range::MultipleOf(increment) => write!(f, "a multiple of increment {increment}"),
        }
    }
}

/// A field that is outside its range.
#[derive(Clone, Copy, Debug, PartialEq, Eq)]
pub struct OutOfRange {
    /// Its name in the tables of documents 01 and 02.
    pub field: &'static str,
    pub value: i64,
    pub range: Range,
}

impl Display for OutOfRange {
    fn fmt(&self, f: &mut fmt::Formatter) -> fmt::Result {
        let field = self.field.replace('_', " ");
        write!(f, "{field} is {}, not {}", self.value, self.range)
    }
}

const ID: Range = Range::From(1, u32::MAX as i64);
const SERIES: Range = Range::From(0, 7);
const SIDE: Range = Range::From(0, 1);
const PRICE: Range = Range::From(1, 100_000);
const AWAY: Range = Range::From(0, 100_000);
const QUANTITY: Range = Range::From(1, 10_000);
const RATIO: Range = Range::From(1, 3);

/// A field with its value and its range.
type Field = (&'static str, i64, Range);

/// The first field of a message, in its kind's order, that is outside its range, the
/// increment in force included.
pub fn refused_field(message: &Message, in_force: &InForce) -> Option<OutOfRange> {
    out_of_range(message).or_else(|| off_increment(message, in_force))
}

/// The first field of a message that is outside a range that no setting moves.
pub fn out_of_range(message: &Message) -> Option<OutOfRange> {
    let fields = ranges(message);
    let (field, value, range) = fields
        .into_iter()
        .find(|(_, value, range)| !range.has(*value))?;
    Some(OutOfRange {
        field,
        value,
        range,
    })
}

/// The price of an order that is off the increment; its fields are in range.
fn off_increment(message: &Message, in_force: &InForce) -> Option<OutOfRange> {
    let Message::Order(NewOrder { leg, price, .. }) = message else {
        return None;
    };
    let (value, range) = (
        i64::from(*price),
        Range::MultipleOf(in_force.increment(leg.series)),
    );
    (!range.has(value)).then_some(OutOfRange {
        field: "price",
        value,
        range,
    })
}

/// The fields of a message that have a range, in their order.
fn ranges(message: &Message) -> Vec<Field> {
    match message {
        Message::Order(order) => order_ranges(order),
        Message::Complex(order) => complex_ranges(order),
        Message::Cancel(cancel) => vec![("id", cancel.id.into(), ID)],
        Message::Away(Away { series, bid, offer }) => vec![
            ("series", (*series).into(), SERIES),
            ("bid", (*bid).into(), AWAY),
            ("offer", (*offer).into(), AWAY),
        ],
        Message::Status(Status { series, status }) => vec![
            ("series", (*series).into(), SERIES),
            ("status", (*status).into(), Range::From(0, 2)),
        ],
        Message::Increment(Increment {
            series, increment, ..
        }) => vec![
            ("series", (*series).into(), SERIES),
            ("increment", (*increment).into(), Range::Increment),
        ],
        Message::Percent(setting) => {
            vec![("percent", setting.percent.into(), Range::From(0, 50))]
        }
        Message::LimitedSweep(sweep) => vec![("n", sweep.most.into(), Range::From(1, 32))],
        Message::Sweep | Message::Raw(_) => Vec::new(),
    }
}

fn order_ranges(order: &NewOrder) -> Vec<Field> {
    let NewOrder {
        id,
        leg: Leg { series, side },
        price,
        quantity,
        shows,
    } = *order;
    let mut fields = vec![
        ("id", id.into(), ID),
        ("series", series.into(), SERIES),
        ("side", side.into(), SIDE),
        ("price", price.into(), PRICE),
        ("quantity", quantity.into(), QUANTITY),
    ];
    let shown = Range::From(1, quantity.into());
    fields.extend(shows.map(|shows| ("shown_quantity", shows.into(), shown)));
    fields
}

/// Kind 10 has ratios, and its limit may be thrice that of kind 2.
fn complex_ranges(order: &NewComplex) -> Vec<Field> {
    let NewComplex {
        id,
        legs: [first, second],
        class,
        limit,
        quantity,
        ratios,
    } = *order;
    let most = if ratios.is_some() { 600_000 } else { 200_000 };
    let mut fields = vec![
        ("id", id.into(), ID),
        ("series1", first.series.into(), SERIES),
        ("side1", first.side.into(), SIDE),
        ("series2", second.series.into(), SERIES),
        ("side2", second.side.into(), SIDE),
        ("class", class.into(), Range::From(0, 1)),
        ("N", limit.into(), Range::From(-most, most)),
        ("quantity", quantity.into(), QUANTITY),
    ];
    if first.series == second.series {
        fields.insert(4, ("series2", second.series.into(), Range::OtherSeries));
    }
    if let Some([ratio1, ratio2]) = ratios {
        fields.push(("ratio1", ratio1.into(), RATIO));
        fields.push(("ratio2", ratio2.into(), RATIO));
    }
    fields
}
