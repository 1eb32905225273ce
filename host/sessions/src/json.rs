//! JSON, one object a line: the fields of messages and records by the names of the tables
//! of documents 01 and 02. The names and what they stand for do not change; fields may be
//! added.

use crate::causes::{BandTest, BookTest, OtherLegTest, Standing};
use crate::message::{Away, Cancel, Increment, Message, NewComplex, NewOrder, Percent, Status};
use crate::ranges::{OutOfRange, Range};
use crate::record::Record;
use std::fmt::Write;

/// An object that is being written, its fields in the order in which they are added.
#[derive(Clone, Debug, Default, PartialEq, Eq)]
pub struct Object {
    fields: String,
}

/// What a field of an object can be.
pub trait Value {
    fn write(&self, text: &mut String);
}

impl Object {
    pub fn new() -> Self {
        Object::default()
    }

    pub fn add(&mut self, name: &str, value: impl Value) -> &mut Self {
        if !self.fields.is_empty() {
            self.fields.push(',');
        }
        name.write(&mut self.fields);
        self.fields.push(':');
        value.write(&mut self.fields);
        self
    }

    /// Adds a field that not every object has.
    pub fn add_some(&mut self, name: &str, value: Option<impl Value>) -> &mut Self {
        if let Some(value) = value {
            self.add(name, value);
        }
        self
    }

    /// The object on a line of its own.
    pub fn line(&self) -> String {
        format!("{{{}}}\n", self.fields)
    }
}

impl Value for Object {
    fn write(&self, text: &mut String) {
        text.push('{');
        text.push_str(&self.fields);
        text.push('}');
    }
}

impl Value for &Object {
    fn write(&self, text: &mut String) {
        (*self).write(text);
    }
}

macro_rules! numbers {
    ($($number:ident)+) => {$(
        impl Value for $number {
            fn write(&self, text: &mut String) {
                // Writing to a string does not fail.
                let _ = write!(text, "{self}");
            }
        }
    )+};
}

numbers! { u8 u16 u32 u64 usize i32 i64 bool }

impl Value for str {
    fn write(&self, text: &mut String) {
        text.push('"');
        for letter in self.chars() {
            match letter {
                '"' => text.push_str("\\\""),
                '\\' => text.push_str("\\\\"),
                '\n' => text.push_str("\\n"),
                letter if letter < ' ' => {
                    let _ = write!(text, "\\u{:04x}", u32::from(letter));
                }
                letter => text.push(letter),
            }
        }
        text.push('"');
    }
}

impl Value for &str {
    fn write(&self, text: &mut String) {
        (*self).write(text);
    }
}

impl Value for String {
    fn write(&self, text: &mut String) {
        self.as_str().write(text);
    }
}

impl<V: Value> Value for Vec<V> {
    fn write(&self, text: &mut String) {
        text.push('[');
        for (at, value) in self.iter().enumerate() {
            if at > 0 {
                text.push(',');
            }
            value.write(text);
        }
        text.push(']');
    }
}

/// Null where there is none.
impl<V: Value> Value for Option<V> {
    fn write(&self, text: &mut String) {
        match self {
            Some(value) => value.write(text),
            None => text.push_str("null"),
        }
    }
}

/// A record's name, and the names of its fields in the order of its line.
fn names(record: &Record) -> (&'static str, &'static [&'static str]) {
    match record {
        Record::Answer(_) => (
            "answer",
            &["message_number", "refusal", "place_mask", "count"],
        ),
        Record::Trade(_) => (
            "trade",
            &[
                "series",
                "taker_side",
                "price",
                "quantity",
                "taker_id",
                "maker_id",
            ],
        ),
        Record::Pair(_) => ("pair", &["complex_id", "net", "quantity"]),
        Record::Generated(_) => (
            "generated",
            &[
                "complex_id",
                "series",
                "side",
                "price",
                "displayed",
                "quantity",
            ],
        ),
        Record::Removed(_) => ("removed", &["complex_id", "series", "side", "cause"]),
        Record::Cross(_) => ("cross", &["taker_id", "maker_id", "taker_net", "quantity"]),
        Record::Cancelled(_) => ("cancelled", &["id", "quantity"]),
        Record::Looked(_) => ("looked", &["looked_at"]),
    }
}

/// A number as a line of the sheet prints it.
struct Printed<'a>(&'a str);

impl Value for Printed<'_> {
    fn write(&self, text: &mut String) {
        text.push_str(self.0);
    }
}

/// Adds a record: its kind, its name, its fields.
pub fn add_record<'a>(object: &'a mut Object, record: &Record) -> &'a mut Object {
    let (name, names) = names(record);
    let line = record.to_string();
    let fields = line.split(' ').skip(1);
    object.add("kind", record.kind()).add("name", name);
    for (name, number) in names.iter().zip(fields) {
        object.add(name, Printed(number));
    }
    object
}

/// A record by itself.
pub fn record_object(record: &Record) -> Object {
    let mut object = Object::new();
    add_record(&mut object, record);
    object
}

/// A line of a sheet: the record, and the message whose record it is.
pub fn sheet_line(message: u32, record: &Record) -> String {
    let mut object = Object::new();
    object.add("message", message);
    add_record(&mut object, record).line()
}

/// The columns of a sheet as values between commas.
const COLUMNS: [&str; 21] = [
    "message",
    "kind",
    "name",
    "message_number",
    "refusal",
    "place_mask",
    "count",
    "complex_id",
    "taker_id",
    "maker_id",
    "id",
    "series",
    "taker_side",
    "side",
    "price",
    "displayed",
    "net",
    "taker_net",
    "quantity",
    "cause",
    "looked_at",
];

/// The first line of a sheet as values between commas: the columns' names.
pub fn csv_head() -> String {
    COLUMNS.join(",") + "\n"
}

/// A record as values between commas, nothing in the columns that its kind has not.
pub fn csv_line(message: u32, record: &Record) -> String {
    let (name, names) = names(record);
    let (line, message) = (record.to_string(), message.to_string());
    let mut words = line.split(' ');
    let kind = words.next().unwrap_or_default();
    let mut values = [""; COLUMNS.len()];
    values[..3].copy_from_slice(&[&message, kind, name]);
    for (field, number) in names.iter().zip(words) {
        if let Some(column) = COLUMNS.iter().position(|column| column == field) {
            values[column] = number;
        }
    }
    values.join(",") + "\n"
}

/// Adds a message: its kind, its name, its fields. Bytes that are no message of kinds 1 to
/// 11 at its length have the name raw, and each byte as two hexadecimal digits.
pub fn add_message<'a>(object: &'a mut Object, message: &Message) -> &'a mut Object {
    object.add_some("kind", message.kind());
    match message {
        Message::Order(order) => add_order(object, order),
        Message::Complex(order) => add_complex(object, order),
        Message::Cancel(Cancel { id }) => object.add("name", "cancel").add("id", *id),
        Message::Away(Away { series, bid, offer }) => object
            .add("name", "away")
            .add("series", *series)
            .add("bid", *bid)
            .add("offer", *offer),
        Message::Status(Status { series, status }) => object
            .add("name", "status")
            .add("series", *series)
            .add("status", *status),
        Message::Sweep => object.add("name", "sweep"),
        Message::Increment(Increment {
            series,
            increment,
            edition,
        }) => object
            .add("name", "increment")
            .add("series", *series)
            .add("increment", *increment)
            .add("edition", *edition),
        Message::Percent(Percent { percent, edition }) => object
            .add("name", "percent")
            .add("percent", *percent)
            .add("edition", *edition),
        Message::LimitedSweep(sweep) => object.add("name", "limited").add("n", sweep.most),
        Message::Raw(bytes) => {
            let bytes: String = bytes.iter().map(|byte| format!("{byte:02x}")).collect();
            object.add("name", "raw").add("bytes", bytes)
        }
    }
}

fn add_order<'a>(object: &'a mut Object, order: &NewOrder) -> &'a mut Object {
    object
        .add("name", "order")
        .add("id", order.id)
        .add("series", order.leg.series)
        .add("side", order.leg.side)
        .add("price", order.price)
        .add("quantity", order.quantity)
        .add_some("shown_quantity", order.shows)
}

fn add_complex<'a>(object: &'a mut Object, order: &NewComplex) -> &'a mut Object {
    let [first, second] = order.legs;
    object
        .add("name", "complex")
        .add("id", order.id)
        .add("series1", first.series)
        .add("side1", first.side)
        .add("series2", second.series)
        .add("side2", second.side)
        .add("class", order.class)
        .add("N", order.limit)
        .add("quantity", order.quantity)
        .add_some("ratio1", order.ratios.map(|[first, _]| first))
        .add_some("ratio2", order.ratios.map(|[_, second]| second))
}

/// The figures of a cause of the standing test; none of any other cause.
pub fn figures_of_cause(test: &Standing, cause: u8) -> Option<Object> {
    let mut object = Object::new();
    match cause {
        1 => add_book(&mut object, &test.book),
        5 => add_band(&mut object, &test.band),
        2 => add_other_leg(&mut object, &test.other),
        6 => {
            let series: Vec<u8> = test.open.not_open().map(|(series, _)| series).collect();
            object.add("not_open", series)
        }
        _ => return None,
    };
    Some(object)
}

fn add_book<'a>(object: &'a mut Object, test: &BookTest) -> &'a mut Object {
    object
        .add("price", test.price)
        .add("displayed", test.displayed)
        .add("increment", test.increment.value)
        .add("best", test.best)
}

fn add_band<'a>(object: &'a mut Object, test: &BandTest) -> &'a mut Object {
    object
        .add("N", test.limit)
        .add("O", test.market)
        .add("highest", test.highest())
        .add("percent", test.percent.value)
}

fn add_other_leg<'a>(object: &'a mut Object, test: &OtherLegTest) -> &'a mut Object {
    let failed: Vec<&str> = test.failing().iter().map(|fails| fails.name()).collect();
    object
        .add("failed", failed)
        .add("series", test.taken.series)
        .add("side", test.taken.side)
        .add("best", test.best.map(|best| best.price))
        .add("size", test.best.map(|best| best.size))
        .add("hider_id", test.hider.map(|hider| hider.parent))
        .add("hider_price", test.hider.map(|hider| hider.price))
        .add("net", test.net)
        .add("N", test.limit)
        .add("quantity", test.quantity)
}

/// The field for which a message is refused with 4.
pub fn figures_of_field(out: &OutOfRange) -> Object {
    let mut object = Object::new();
    object.add("field", out.field).add("value", out.value);
    object.add("range", out.range.to_string());
    if let Range::From(low, high) = out.range {
        object.add("low", low).add("high", high);
    }
    object
}
