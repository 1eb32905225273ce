//! Records as typed values: to and from report bytes, to and from the lines of a sheet.

use crate::fields::{frame, Field, Number, Width};
use crate::message::Leg;
use std::error::Error;
use std::fmt::{self, Display};

/// The kinds of records, each with its fields in the order of the table.
macro_rules! records {
    ($(
        $(#[$doc:meta])*
        $kind:literal $name:ident { $($(#[$field_doc:meta])* $field:ident: $type:ident,)+ }
    )+) => {
        fields! {
            $($(#[$doc])* $name { $($(#[$field_doc])* $field: $type,)+ })+
        }

        /// A record of a report.
        #[derive(Clone, Copy, Debug, PartialEq, Eq)]
        pub enum Record {
            $($(#[$doc])* $name($name),)+
        }

        impl Record {
            /// The kind.
            pub fn kind(&self) -> u16 {
                match self {
                    $(Record::$name(_) => $kind,)+
                }
            }

            /// Adds its bytes: length, kind, fields.
            pub fn encode_into(&self, bytes: &mut Vec<u8>) {
                match self {
                    $(Record::$name(fields) => frame($kind, fields, bytes),)+
                }
            }

            fn read(kind: u16, fields: &mut &[u8]) -> Option<Record> {
                match kind {
                    $($kind => $name::read(fields).map(Record::$name),)+
                    _ => None,
                }
            }
        }

        /// A line of the sheet: the kind, then the fields in table order.
        impl Display for Record {
            fn fmt(&self, f: &mut fmt::Formatter) -> fmt::Result {
                match self {
                    $(Record::$name(fields) => {
                        write!(f, "{}", $kind)?;
                        $(write!(f, " {}", fields.$field)?;)+
                        Ok(())
                    })+
                }
            }
        }

        fn widths(kind: u16) -> Option<&'static [Width]> {
            match kind {
                $($kind => Some(&[$(<$type as Number>::WIDTH),+]),)+
                _ => None,
            }
        }
    };
}

records! {
    /// Kind 64: the answer to a message, before its other records.
    64 Answer {
        /// The message's number.
        number: u32,
        /// 0 where the message is accepted, or why it is refused.
        refusal: u8,
        /// The places filled by legging orders after the message; bit n is place n.
        mask: u16,
        /// How many places are filled.
        count: u8,
    }

    /// Kind 65: a trade.
    65 Trade {
        /// The series traded.
        series: u8,
        /// The taker's side.
        side: u8,
        /// The price.
        price: u32,
        /// The contracts.
        quantity: u32,
        /// The id of the order that takes.
        taker: u32,
        /// The id of the order that is taken.
        maker: u32,
    }

    /// Kind 66: a complex order's two legs traded together.
    66 Pair {
        /// The complex order's id.
        id: u32,
        /// The net price.
        net: i32,
        /// The units.
        quantity: u32,
    }

    /// Kind 67: a legging order generated.
    67 Generated {
        /// The id of its complex order.
        id: u32,
        /// The series.
        series: u8,
        /// The side.
        side: u8,
        /// The price.
        price: u32,
        /// The price displayed.
        displayed: u32,
        /// The contracts.
        quantity: u32,
    }

    /// Kind 68: a legging order removed.
    68 Removed {
        /// The id of its complex order.
        id: u32,
        /// The series.
        series: u8,
        /// The side.
        side: u8,
        /// Why it is removed.
        cause: u8,
    }

    /// Kind 70: a complex order crossed with another.
    70 Cross {
        /// The id of the order that takes.
        taker: u32,
        /// The id of the order that is taken.
        maker: u32,
        /// The taker's net price.
        net: i32,
        /// The units.
        quantity: u32,
    }

    /// Kind 71: an order cancelled.
    71 Cancelled {
        /// The order's id.
        id: u32,
        /// What was left of it.
        quantity: u32,
    }

    /// Kind 72: what a limited sweep looked at.
    72 Looked {
        /// How many orders.
        count: u8,
    }
}

impl Record {
    /// How many bytes it takes.
    pub fn length(&self) -> usize {
        length_of(widths(self.kind()).unwrap_or_default())
    }

    /// Its bytes: length, kind, fields.
    pub fn encode(&self) -> Vec<u8> {
        let mut bytes = Vec::with_capacity(self.length());
        self.encode_into(&mut bytes);
        bytes
    }
}

macro_rules! legs {
    ($($name:ident)+) => {$(
        impl $name {
            /// The series and the side.
            pub fn leg(&self) -> Leg {
                Leg {
                    series: self.series,
                    side: self.side,
                }
            }
        }
    )+};
}

legs! { Trade Generated Removed }

fn length_of(widths: &[Width]) -> usize {
    4 + widths.iter().map(|width| width.bytes).sum::<usize>()
}

/// Report memory that has no record where one is expected.
#[derive(Clone, Debug, PartialEq, Eq)]
pub struct BadRecord {
    /// The byte where the record was expected.
    pub byte: usize,
    /// What was expected and what was found.
    pub what: String,
}

impl Display for BadRecord {
    fn fmt(&self, f: &mut fmt::Formatter) -> fmt::Result {
        write!(f, "byte {}: {}", self.byte, self.what)
    }
}

impl Error for BadRecord {}

/// The records in report memory, up to the first zero length or its end.
#[derive(Clone, Debug)]
pub struct Records<'a> {
    report: &'a [u8],
    at: usize,
}

/// The records in report memory, one by one: up to the first zero length or its end.
/// After an error, which names the byte, there are no more.
pub fn records(report: &[u8]) -> Records<'_> {
    Records { report, at: 0 }
}

impl Iterator for Records<'_> {
    type Item = Result<Record, BadRecord>;

    fn next(&mut self) -> Option<Self::Item> {
        let byte = self.at;
        let rest = self.report.get(byte..)?;
        if matches!(rest, [] | [0] | [0, 0, ..]) {
            return None;
        }
        let read = read_record(rest);
        self.at = read
            .as_ref()
            .map_or(usize::MAX, |(_, length)| byte + length);
        let record = read.map(|(record, _)| record);
        Some(record.map_err(|what| BadRecord { byte, what }))
    }
}

/// The records in report memory: up to the first zero length or its end.
/// An error names the byte where the next record was expected.
pub fn read_report(report: &[u8]) -> Result<Vec<Record>, String> {
    let mut records = Vec::new();
    read_report_into(report, &mut records)?;
    Ok(records)
}

/// As [`read_report`], into a list that is emptied first.
pub fn read_report_into(report: &[u8], list: &mut Vec<Record>) -> Result<(), String> {
    list.clear();
    for record in records(report) {
        list.push(record.map_err(|bad| bad.to_string())?);
    }
    Ok(())
}

fn read_record(bytes: &[u8]) -> Result<(Record, usize), String> {
    let mut rest = bytes;
    let (Some(length), Some(kind)) = (u16::read(&mut rest), u16::read(&mut rest)) else {
        return Err(format!(
            "expected a record's length and kind, found {} bytes",
            bytes.len()
        ));
    };
    let Some(widths) = widths(kind) else {
        return Err(format!(
            "expected a record kind 64 to 68 or 70 to 72, found {kind}"
        ));
    };
    let (length, expected) = (usize::from(length), length_of(widths));
    if length != expected || bytes.len() < length {
        let found = length.min(bytes.len());
        return Err(format!(
            "expected {expected} bytes of record {kind}, found {found}"
        ));
    }
    let record = Record::read(kind, &mut rest);
    record
        .map(|record| (record, length))
        .ok_or_else(|| format!("record kind {kind} is not known"))
}

/// Reads the lines of a printed sheet; an error names the line.
pub fn parse_sheet(text: &str) -> Result<Vec<Record>, String> {
    let numbered = text.lines().enumerate();
    numbered
        .map(|(index, line)| {
            parse_sheet_line(line).map_err(|what| format!("line {}: {what}", index + 1))
        })
        .collect()
}

/// Reads one line of a printed sheet.
pub fn parse_sheet_line(line: &str) -> Result<Record, String> {
    let mut words = line.split_whitespace();
    let first = words.next().unwrap_or("");
    let kind: u16 = first.parse().unwrap_or(0);
    let Some(widths) = widths(kind) else {
        return Err(format!(
            "expected a record kind 64 to 68 or 70 to 72, found {first:?}"
        ));
    };
    let words: Vec<&str> = words.collect();
    if words.len() != widths.len() {
        return Err(format!(
            "expected {} fields of record {kind}, found {}",
            widths.len(),
            words.len()
        ));
    }
    let mut fields = Vec::new();
    for (index, (word, width)) in words.iter().zip(widths).enumerate() {
        let (low, high) = (width.low, width.high);
        let value: Option<i64> = word.parse().ok();
        let Some(value) = value.filter(|value| (low..=high).contains(value)) else {
            return Err(format!(
                "expected field {} of record {kind}, a number from {low} to {high}, found {word:?}",
                index + 1
            ));
        };
        fields.extend_from_slice(&value.to_le_bytes()[..width.bytes]);
    }
    Record::read(kind, &mut fields.as_slice()).ok_or_else(|| format!("record kind {kind}"))
}

/// The sheet: a line for each record.
pub fn print_sheet(records: &[Record]) -> String {
    records.iter().map(|record| format!("{record}\n")).collect()
}
