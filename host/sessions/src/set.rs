//! The records of a set: a venue and the number of its last message, carried over an
//! upgrade. Any values of the fields are kept, so that refused sets can be written too.
//!
//! As text a record is a line:
//!
//! ```text
//! set MESSAGE last ID           (short MESSAGE last ID begins a short set)
//! status SERIES STATUS          then away SERIES bid PRICE offer PRICE, for each series
//! increment SERIES INCREMENT EDITION message NUMBER
//! percent PERCENT EDITION message NUMBER
//! order ...                     (with `shows`; without it in a short set)
//! complex ...
//! legging ID SIDE QUANTITY series SERIES at PRICE
//! generated SERIES message NUMBER
//! reached ID
//! raw HEX HEX ...
//! ```
//! What an order has in a message stands in its line here too.

use crate::message::{first_whole, framed, Leg, Message, Side};
use crate::text::{bodies, parse_message, LineError, Words};
use std::fmt::{self, Display};

#[derive(Clone, Debug, PartialEq, Eq)]
pub enum Entry {
    /// Kind 80, or 81 of a short set.
    First {
        short: bool,
        message: u32,
        last: u32,
    },
    /// Status, away prices or a resting order, as in a message of kind 1, 2, 4, 5, 9 or 10.
    Told(Message),
    /// A setting of kind 7 or 8, with the number of the message that entered it.
    Setting {
        setting: Message,
        number: u32,
    },
    Legging {
        id: u32,
        leg: Leg,
        price: u32,
        quantity: u32,
    },
    Generated {
        series: u8,
        number: u32,
    },
    Reached {
        id: u32,
    },
    /// Bytes that are no record of a set.
    Raw(Vec<u8>),
}

impl Entry {
    pub fn encode(&self) -> Vec<u8> {
        match self {
            Entry::First {
                short,
                message,
                last,
            } => framed(
                80 + u16::from(*short),
                &[&message.to_le_bytes(), &last.to_le_bytes()],
            ),
            Entry::Told(message) => message.encode(),
            Entry::Setting { setting, number } => {
                let bytes = setting.encode();
                let kind = u16::from(bytes[2]);
                framed(kind, &[&bytes[4..], &number.to_le_bytes()])
            }
            Entry::Legging {
                id,
                leg,
                price,
                quantity,
            } => {
                let (price, quantity) = (price.to_le_bytes(), quantity.to_le_bytes());
                framed(82, &[&id.to_le_bytes(), &leg.bytes(), &price, &quantity])
            }
            Entry::Generated { series, number } => framed(83, &[&[*series], &number.to_le_bytes()]),
            Entry::Reached { id } => framed(84, &[&id.to_le_bytes()]),
            Entry::Raw(bytes) => bytes.clone(),
        }
    }

    /// Reads one record; what is none of a set at its length stays raw.
    pub fn decode(bytes: &[u8]) -> Entry {
        let raw = || Entry::Raw(bytes.to_vec());
        if first_whole(bytes).map(<[u8]>::len) != Some(bytes.len()) {
            return raw();
        }
        let u32_at = |at: usize| {
            let four: [u8; 4] = std::array::from_fn(|offset| bytes[at + offset]);
            u32::from_le_bytes(four)
        };
        match (u16::from_le_bytes([bytes[2], bytes[3]]), bytes.len()) {
            (kind @ (80 | 81), 12) => Entry::First {
                short: kind == 81,
                message: u32_at(4),
                last: u32_at(8),
            },
            (1, 18) | (2, 21) | (4, 13) | (5, 6) | (9, 22) | (10, 23) => {
                Entry::Told(Message::decode(bytes))
            }
            (kind @ (7 | 8), length @ (13 | 14)) if length == 21 - usize::from(kind) => {
                let fields = &bytes[4..length - 4];
                Entry::Setting {
                    setting: Message::decode(&framed(kind, &[fields])),
                    number: u32_at(length - 4),
                }
            }
            (82, 18) => Entry::Legging {
                id: u32_at(4),
                leg: Leg {
                    series: bytes[8],
                    side: bytes[9],
                },
                price: u32_at(10),
                quantity: u32_at(14),
            },
            (83, 9) => Entry::Generated {
                series: bytes[4],
                number: u32_at(5),
            },
            (84, 8) => Entry::Reached { id: u32_at(4) },
            _ => raw(),
        }
    }
}

/// The records in memory: up to a zero length, one last zero byte or its end. What is no
/// whole record is the last one, raw, with all that follows it.
pub fn split_set(memory: &[u8]) -> Vec<&[u8]> {
    let mut records = Vec::new();
    let mut rest = memory;
    while !matches!(rest, [] | [0] | [0, 0, ..]) {
        let record = first_whole(rest).unwrap_or(rest);
        records.push(record);
        rest = &rest[record.len()..];
    }
    records
}

/// The bytes of a set's text, without zeros after them.
pub fn encode_set(text: &str) -> Result<Vec<u8>, LineError> {
    let mut bytes = Vec::new();
    for mut words in bodies(text) {
        let entry = parse_entry(&mut words)?;
        words.end()?;
        bytes.extend(entry.encode());
    }
    Ok(bytes)
}

/// The line of a set's text that has a byte of it; the last one where the set has ended.
pub fn line_at(text: &str, byte: usize) -> Option<usize> {
    let mut end = 0;
    let mut last = None;
    for mut words in bodies(text) {
        last = Some(words.line);
        end += parse_entry(&mut words).ok()?.encode().len();
        if byte < end {
            break;
        }
    }
    last
}

/// A set's text from its bytes, one record a line.
pub fn decode_set(memory: &[u8]) -> String {
    let records = split_set(memory);
    let entries = records.iter().map(|record| Entry::decode(record));
    entries.map(|entry| format!("{entry}\n")).collect()
}

const KINDS: &str = "a record of a set (set, short, status, open, close, auction, away, \
    increment, percent, order, complex, legging, generated, reached or raw)";

fn parse_entry(words: &mut Words) -> Result<Entry, LineError> {
    match words.first() {
        Some("set" | "short") => {
            let short = words.next() == Some("short");
            let message = words.number("a message number")?;
            words.literal("last")?;
            let last = words.number("the last id")?;
            Ok(Entry::First {
                short,
                message,
                last,
            })
        }
        Some("order" | "complex" | "away" | "status" | "open" | "close" | "auction") => {
            parse_message(words).map(Entry::Told)
        }
        Some("increment" | "percent") => {
            let setting = parse_message(words)?;
            words.literal("message")?;
            let number = words.number("a message number")?;
            Ok(Entry::Setting { setting, number })
        }
        Some("legging") => parse_legging(words),
        Some("generated") => {
            words.next();
            let series = words.number("a series")?;
            words.literal("message")?;
            let number = words.number("a message number")?;
            Ok(Entry::Generated { series, number })
        }
        Some("reached") => {
            words.next();
            let id = words.number("an id")?;
            Ok(Entry::Reached { id })
        }
        Some("raw") => parse_message(words).map(|message| Entry::Raw(message.encode())),
        found => Err(words.error(KINDS, found)),
    }
}

fn parse_legging(words: &mut Words) -> Result<Entry, LineError> {
    words.next();
    let id = words.number("an id")?;
    let side = words.side()?;
    let quantity = words.number("a quantity")?;
    words.literal("series")?;
    let series = words.number("a series")?;
    words.literal("at")?;
    let price = words.number("a price")?;
    Ok(Entry::Legging {
        id,
        leg: Leg { series, side },
        price,
        quantity,
    })
}

impl Display for Entry {
    fn fmt(&self, f: &mut fmt::Formatter) -> fmt::Result {
        match self {
            Entry::First {
                short,
                message,
                last,
            } => {
                let word = if *short { "short" } else { "set" };
                write!(f, "{word} {message} last {last}")
            }
            Entry::Told(message) => write!(f, "{message}"),
            Entry::Setting { setting, number } => write!(f, "{setting} message {number}"),
            Entry::Legging {
                id,
                leg,
                price,
                quantity,
            } => {
                let (side, series) = (Side(leg.side), leg.series);
                write!(
                    f,
                    "legging {id} {side} {quantity} series {series} at {price}"
                )
            }
            Entry::Generated { series, number } => {
                write!(f, "generated {series} message {number}")
            }
            Entry::Reached { id } => write!(f, "reached {id}"),
            Entry::Raw(bytes) => write!(f, "{}", Message::Raw(bytes.clone())),
        }
    }
}

#[cfg(test)]
mod tests {
    use super::*;

    const TEXT: &str = "set 7 last 9\nshort 4294967295 last 0\nstatus 0 open\n\
        status 9 status=3\naway 0 bid 1 offer 4294967295\nincrement 7 10 3 message 4\n\
        percent 255 4 message 0\norder 1 buy 8 series 0 at 115 shows 3\n\
        order 2 side=9 8 series 255 at 115\ncomplex 3 buy 0 sell 1 class 1 net -205 quantity 8\n\
        complex 4 buy 0 sell 1 class 1 net -205 quantity 8 ratio 2 1\n\
        legging 3 buy 8 series 0 at 115\nlegging 0 side=4 0 series 255 at 4294967295\n\
        generated 0 message 3\nreached 5\nraw 09 00 53\n";

    #[test]
    fn every_kind_of_line_reads_back_as_written() {
        let bytes = encode_set(TEXT).unwrap();
        assert_eq!(decode_set(&bytes), TEXT);
        assert_eq!(
            decode_set(&encode_set("open 3\n").unwrap()),
            "status 3 open\n"
        );
    }

    #[test]
    fn records_have_the_lengths_of_the_document() {
        let bytes = encode_set(TEXT).unwrap();
        let lengths: Vec<usize> = split_set(&bytes)
            .iter()
            .map(|record| record.len())
            .collect();
        let expected = [12, 12, 6, 6, 13, 14, 13, 22, 18, 21, 23, 18, 18, 9, 8, 3];
        assert_eq!(lengths, expected);
    }

    #[test]
    fn nothing_is_told_after_the_end() {
        for end in [&[][..], &[0], &[0, 0], &[0, 0, 12, 0, 80, 0]] {
            let bytes = [&encode_set("reached 5\n").unwrap(), end].concat();
            assert_eq!(decode_set(&bytes), "reached 5\n", "{end:?}");
        }
        assert_eq!(decode_set(&[0, 1]), "raw 00 01\n");
        assert_eq!(decode_set(&[7]), "raw 07\n");
    }

    #[test]
    fn each_byte_of_a_set_has_its_line() {
        let text = "# a set\nset 7 last 9\n\nreached 5 # an id\nraw 09\n# its end\n";
        let lines = [0, 11, 12, 19, 20, 21, 99].map(|byte| line_at(text, byte));
        assert_eq!(lines, [2, 2, 4, 4, 5, 5, 5].map(Some));
        assert_eq!(line_at("# none\n", 0), None);
    }

    #[test]
    fn messages_that_no_set_has_stay_raw() {
        let sweep = Message::Sweep.encode();
        assert_eq!(decode_set(&sweep), "raw 04 00 06 00\n");
        let increment = crate::text::encode_session("increment 0 5 1\n").unwrap();
        assert_eq!(
            decode_set(&increment),
            "raw 0a 00 07 00 00 05 01 00 00 00\n"
        );
    }

    #[test]
    fn errors_name_the_line_and_what_was_expected() {
        let cases = [
            ("sweep", "line 1: expected a record of a set (set, short, status, open, close, auction, away, increment, percent, order, complex, legging, generated, reached or raw), found \"sweep\""),
            ("\nset 5", "line 2: expected \"last\", found the end of the line"),
            ("increment 0 5 1", "line 1: expected \"message\", found the end of the line"),
            ("legging 1 buy 3 series 0 at", "line 1: expected a price, a number from 0 to 4294967295, found the end of the line"),
            ("generated 256 message 1", "line 1: expected a series, a number from 0 to 255, found \"256\""),
            ("reached 1 2", "line 1: expected the end of the line, found \"2\""),
        ];
        for (text, expected) in cases {
            assert_eq!(encode_set(text).unwrap_err().to_string(), expected);
        }
    }
}
