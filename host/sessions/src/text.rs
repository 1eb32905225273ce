//! Messages as text, one a line.
//!
//! ```text
//! order ID SIDE QUANTITY series SERIES at PRICE          (also: ... shows SHOWN)
//! complex ID SIDE SERIES SIDE SERIES class CLASS net LIMIT quantity QUANTITY
//!                               (also: ... ratio RATIO RATIO)
//! cancel ID
//! away SERIES bid PRICE offer PRICE
//! status SERIES STATUS          (also: open SERIES, close SERIES, auction SERIES)
//! sweep
//! limited MOST
//! increment SERIES INCREMENT EDITION
//! percent PERCENT EDITION
//! raw HEX HEX ...
//! ```
//! An order with `shows` is of kind 9, one without it of kind 1 and shows all. A
//! complex order with `ratio` is of kind 10, one without it of kind 2.
//! SIDE is `buy`, `sell` or `side=NUMBER`; STATUS is `open`, `closed`, `auction`
//! or `status=NUMBER`. Any number that fits its field's width may be written.
//! `#` begins a comment; blank lines are passed over.
//!
//! In a line of a feed each message stands after its number, and `raw` without a
//! number is bytes that no number goes before.

use crate::line::NUMBER_BYTES;
use crate::message::{
    first_whole, split, Away, Cancel, Increment, Leg, LimitedSweep, Message, NewComplex, NewOrder,
    Percent, Status,
};
use std::fmt::{self, Display};
use std::str::FromStr;

/// What was wrong with a line of text.
#[derive(Clone, Debug, PartialEq, Eq)]
pub struct LineError {
    pub line: usize,
    pub expected: String,
    pub found: String,
}

impl Display for LineError {
    fn fmt(&self, f: &mut fmt::Formatter) -> fmt::Result {
        let LineError {
            line,
            expected,
            found,
        } = self;
        write!(f, "line {line}: expected {expected}, found {found}")
    }
}

/// Reads a session's text into its messages.
pub fn parse_session(text: &str) -> Result<Vec<Message>, LineError> {
    bodies(text).map(parse_line).collect()
}

/// The lines that say something, without their comments.
pub(crate) fn bodies(text: &str) -> impl Iterator<Item = Words<'_>> {
    let lines = text.lines().enumerate();
    lines.filter_map(|(index, line)| body(line, index + 1))
}

/// The words of a line without its comment; nothing where it says nothing.
fn body(line: &str, number: usize) -> Option<Words<'_>> {
    let words = Words {
        words: line.split('#').next().unwrap_or("").split_whitespace(),
        line: number,
    };
    words.first().is_some().then_some(words)
}

/// The bytes of one line of a session's text, which has this number.
pub fn encode_text_line(line: &str, number: usize) -> Result<Vec<u8>, LineError> {
    match body(line, number) {
        Some(words) => Ok(parse_line(words)?.encode()),
        None => Ok(Vec::new()),
    }
}

/// The bytes of a session's text.
pub fn encode_session(text: &str) -> Result<Vec<u8>, LineError> {
    let messages = parse_session(text)?;
    Ok(messages.iter().flat_map(Message::encode).collect())
}

/// A session's text from its bytes, one message a line.
pub fn decode_session(bytes: &[u8]) -> String {
    let pieces = split(bytes);
    let lines = pieces.iter().map(|piece| Message::decode(piece));
    lines.map(|message| format!("{message}\n")).collect()
}

/// The bytes of the text of a feed's line.
pub fn encode_line(text: &str) -> Result<Vec<u8>, LineError> {
    let mut bytes = Vec::new();
    for mut words in bodies(text) {
        if words.first() != Some("raw") {
            let number: u32 = words.number("the message's number")?;
            bytes.extend(number.to_le_bytes());
        }
        bytes.extend(parse_line(words)?.encode());
    }
    Ok(bytes)
}

/// The text of a feed's line from its bytes: what is no message after a number is
/// raw, with all that follows it.
pub fn decode_line(bytes: &[u8]) -> String {
    let mut text = String::new();
    let mut rest = bytes;
    while let Some((number, after)) = rest.split_first_chunk::<NUMBER_BYTES>() {
        let Some(message) = first_whole(after) else {
            break;
        };
        let number = u32::from_le_bytes(*number);
        text += &format!("{number} {}\n", Message::decode(message));
        rest = &after[message.len()..];
    }
    if !rest.is_empty() {
        text += &format!("{}\n", Message::Raw(rest.to_vec()));
    }
    text
}

pub(crate) fn parse_line(mut words: Words) -> Result<Message, LineError> {
    let message = parse_message(&mut words)?;
    words.end()?;
    Ok(message)
}

const KINDS: &str = "a message (order, complex, cancel, away, status, open, close, auction, \
    sweep, limited, increment, percent or raw)";

pub(crate) fn parse_message(words: &mut Words) -> Result<Message, LineError> {
    match words.next() {
        Some("order") => parse_order(words),
        Some("complex") => parse_complex(words),
        Some("cancel") => Ok(Message::Cancel(Cancel {
            id: words.number("an id")?,
        })),
        Some("away") => parse_away(words),
        Some("status") => Ok(Message::Status(Status {
            series: words.number("a series")?,
            status: words.status()?,
        })),
        Some("open") => words.status_of_series(1),
        Some("close") => words.status_of_series(0),
        Some("auction") => words.status_of_series(2),
        Some("sweep") => Ok(Message::Sweep),
        Some("limited") => Ok(Message::LimitedSweep(LimitedSweep {
            most: words.number("a number of orders")?,
        })),
        Some("increment") => Ok(Message::Increment(Increment {
            series: words.number("a series")?,
            increment: words.number("an increment")?,
            edition: words.number("an edition")?,
        })),
        Some("percent") => Ok(Message::Percent(Percent {
            percent: words.number("a percentage")?,
            edition: words.number("an edition")?,
        })),
        Some("raw") => words.bytes().map(Message::Raw),
        found => Err(words.error(KINDS, found)),
    }
}

fn parse_order(words: &mut Words) -> Result<Message, LineError> {
    let id = words.number("an id")?;
    let side = words.side()?;
    let quantity = words.number("a quantity")?;
    words.literal("series")?;
    let series = words.number("a series")?;
    words.literal("at")?;
    let price = words.number("a price")?;
    let shows = match words.first() {
        Some("shows") => {
            words.next();
            Some(words.number("a shown quantity")?)
        }
        _ => None,
    };
    Ok(Message::Order(NewOrder {
        id,
        leg: Leg { series, side },
        price,
        quantity,
        shows,
    }))
}

fn parse_complex(words: &mut Words) -> Result<Message, LineError> {
    let id = words.number("an id")?;
    let legs = [words.leg()?, words.leg()?];
    words.literal("class")?;
    let class = words.number("a class")?;
    words.literal("net")?;
    let limit = words.number("a net limit")?;
    words.literal("quantity")?;
    let quantity = words.number("a quantity")?;
    let ratios = match words.first() {
        Some("ratio") => {
            words.next();
            Some([words.number("a ratio")?, words.number("a ratio")?])
        }
        _ => None,
    };
    Ok(Message::Complex(NewComplex {
        id,
        legs,
        class,
        limit,
        quantity,
        ratios,
    }))
}

fn parse_away(words: &mut Words) -> Result<Message, LineError> {
    let series = words.number("a series")?;
    words.literal("bid")?;
    let bid = words.number("a bid")?;
    words.literal("offer")?;
    let offer = words.number("an offer")?;
    Ok(Message::Away(Away { series, bid, offer }))
}

/// The words of one line, read from left to right.
pub(crate) struct Words<'a> {
    words: std::str::SplitWhitespace<'a>,
    pub line: usize,
}

/// Number fields, with the range that their width allows.
pub(crate) trait Width: FromStr {
    const RANGE: &'static str;
}

impl Width for u8 {
    const RANGE: &'static str = "0 to 255";
}

impl Width for u32 {
    const RANGE: &'static str = "0 to 4294967295";
}

impl Width for i32 {
    const RANGE: &'static str = "-2147483648 to 2147483647";
}

impl<'a> Words<'a> {
    pub fn next(&mut self) -> Option<&'a str> {
        self.words.next()
    }

    /// The word to come.
    pub fn first(&self) -> Option<&'a str> {
        self.words.clone().next()
    }

    pub fn error(&self, expected: &str, found: Option<&str>) -> LineError {
        LineError {
            line: self.line,
            expected: expected.to_string(),
            found: match found {
                Some(word) => format!("{word:?}"),
                None => "the end of the line".to_string(),
            },
        }
    }

    pub fn literal(&mut self, word: &str) -> Result<(), LineError> {
        match self.next() {
            Some(found) if found == word => Ok(()),
            found => Err(self.error(&format!("{word:?}"), found)),
        }
    }

    pub fn number<T: Width>(&mut self, name: &str) -> Result<T, LineError> {
        let found = self.next();
        let digits = found.filter(|word| !word.starts_with('+'));
        match digits.and_then(|word| word.parse().ok()) {
            Some(value) => Ok(value),
            None => Err(self.error(&format!("{name}, a number from {}", T::RANGE), found)),
        }
    }

    pub fn side(&mut self) -> Result<u8, LineError> {
        let found = self.next();
        match found {
            Some("buy") => return Ok(0),
            Some("sell") => return Ok(1),
            _ => {}
        }
        numbered(found, "side=")
            .ok_or_else(|| self.error("a side (buy, sell or side=0 to side=255)", found))
    }

    fn status(&mut self) -> Result<u8, LineError> {
        let found = self.next();
        match found {
            Some("closed") => return Ok(0),
            Some("open") => return Ok(1),
            Some("auction") => return Ok(2),
            _ => {}
        }
        let expected = "a status (open, closed, auction or status=0 to status=255)";
        numbered(found, "status=").ok_or_else(|| self.error(expected, found))
    }

    fn leg(&mut self) -> Result<Leg, LineError> {
        let side = self.side()?;
        let series = self.number("a series")?;
        Ok(Leg { series, side })
    }

    fn status_of_series(&mut self, status: u8) -> Result<Message, LineError> {
        let series = self.number("a series")?;
        Ok(Message::Status(Status { series, status }))
    }

    fn bytes(&mut self) -> Result<Vec<u8>, LineError> {
        const EXPECTED: &str = "bytes of two hexadecimal digits";
        let mut bytes = Vec::new();
        while let Some(word) = self.next() {
            let hex = word.len() == 2 && word.bytes().all(|digit| digit.is_ascii_hexdigit());
            let value = u8::from_str_radix(word, 16).ok().filter(|_| hex);
            bytes.push(value.ok_or_else(|| self.error(EXPECTED, Some(word)))?);
        }
        if bytes.is_empty() {
            return Err(self.error(EXPECTED, None));
        }
        Ok(bytes)
    }

    pub fn end(&mut self) -> Result<(), LineError> {
        match self.next() {
            None => Ok(()),
            found => Err(self.error("the end of the line", found)),
        }
    }
}

fn numbered(word: Option<&str>, prefix: &str) -> Option<u8> {
    let digits = word?.strip_prefix(prefix)?;
    digits.parse().ok().filter(|_| !digits.starts_with('+'))
}

#[cfg(test)]
mod tests {
    use super::*;

    #[test]
    fn every_kind_of_line_reads_back_as_written() {
        let text = "order 4 sell 5 series 0 at 115\n\
            order 0 side=7 4294967295 series 255 at 0\n\
            order 5 buy 8 series 0 at 115 shows 3\n\
            order 6 side=9 0 series 9 at 4294967295 shows 4294967295\n\
            complex 3 buy 0 sell 1 class 1 net -205 quantity 8\n\
            complex 3 side=2 9 buy 1 class 255 net -2147483648 quantity 0\n\
            complex 4 buy 0 sell 1 class 1 net -600000 quantity 8 ratio 2 1\n\
            complex 5 buy 9 side=3 1 class 1 net 2147483647 quantity 8 ratio 0 255\n\
            cancel 3\naway 0 bid 0 offer 60\nstatus 0 open\nstatus 1 closed\n\
            status 2 auction\nstatus 9 status=3\nsweep\nincrement 7 10 4294967295\n\
            increment 255 0 0\npercent 50 2\npercent 255 0\nlimited 32\nlimited 0\nlimited 255\n\
            raw 09 00 06\n";
        let bytes = encode_session(text).unwrap();
        assert_eq!(decode_session(&bytes), text);
    }

    #[test]
    fn short_status_forms_comments_and_blank_lines_are_taken() {
        let text = "# a session\n\nopen 0 # first\nclose 1\n  auction 2\n";
        let plain = "status 0 open\nstatus 1 closed\nstatus 2 auction\n";
        assert_eq!(encode_session(text), encode_session(plain));
    }

    #[test]
    fn a_feeds_line_reads_back_as_written() {
        let text = "1 sweep\n3 cancel 7\n0 raw 04 00 63 00\n3 status 0 open\nraw 05 00 00\n";
        let bytes = encode_line(text).unwrap();
        assert_eq!(bytes[..8], [1, 0, 0, 0, 4, 0, 6, 0]);
        assert_eq!(bytes[8..12], [3, 0, 0, 0]);
        assert_eq!(bytes[bytes.len() - 3..], [5, 0, 0]);
        assert_eq!(decode_line(&bytes), text);
        assert_eq!(decode_line(&[]), "");
    }

    #[test]
    fn any_bytes_read_back_as_a_feeds_line() {
        let mut random = crate::random::Random::new(3);
        for length in 0..200 {
            let bytes: Vec<u8> = (0..length).map(|_| random.below(9) as u8).collect();
            assert_eq!(encode_line(&decode_line(&bytes)), Ok(bytes));
        }
    }

    #[test]
    fn errors_of_a_feeds_line_name_what_was_expected() {
        let cases = [
            ("sweep", "line 1: expected the message's number, a number from 0 to 4294967295, found \"sweep\""),
            ("1 sweep\n2", "line 2: expected a message (order, complex, cancel, away, status, open, close, auction, sweep, limited, increment, percent or raw), found the end of the line"),
            ("1 sweep now", "line 1: expected the end of the line, found \"now\""),
        ];
        for (text, expected) in cases {
            let error = encode_line(text).unwrap_err();
            assert_eq!(error.to_string(), expected);
        }
    }

    #[test]
    fn errors_name_the_line_and_what_was_expected() {
        let cases = [
            ("sweep\nordr 1", "line 2: expected a message (order, complex, cancel, away, status, open, close, auction, sweep, limited, increment, percent or raw), found \"ordr\""),
            ("order 4 bye 5 series 0 at 115", "line 1: expected a side (buy, sell or side=0 to side=255), found \"bye\""),
            ("order 4 buy 5 series 0 at", "line 1: expected a price, a number from 0 to 4294967295, found the end of the line"),
            ("order 4 buy 5 serie 0 at 5", "line 1: expected \"series\", found \"serie\""),
            ("order 4 buy 5 series 0 at 5 shows", "line 1: expected a shown quantity, a number from 0 to 4294967295, found the end of the line"),
            ("order 4 buy 5 series 0 at 5 shows -1", "line 1: expected a shown quantity, a number from 0 to 4294967295, found \"-1\""),
            ("order 4 buy 5 series 0 at 5 show 1", "line 1: expected the end of the line, found \"show\""),
            ("complex 4 buy 0 buy 1 class 0 net 5 quantity 5 ratio 2", "line 1: expected a ratio, a number from 0 to 255, found the end of the line"),
            ("complex 4 buy 0 buy 1 class 0 net 5 quantity 5 ratio 2 256", "line 1: expected a ratio, a number from 0 to 255, found \"256\""),
            ("complex 4 buy 0 buy 1 class 0 net 5 quantity 5 ratio 2:1", "line 1: expected a ratio, a number from 0 to 255, found \"2:1\""),
            ("complex 4 buy 0 buy 1 class 0 net 5 quantity 5 ratio 2 1 1", "line 1: expected the end of the line, found \"1\""),
            ("complex 4 buy 0 buy 1 class 0 net 5 quantity 5 ratios 2 1", "line 1: expected the end of the line, found \"ratios\""),
            ("cancel 4294967296", "line 1: expected an id, a number from 0 to 4294967295, found \"4294967296\""),
            ("\n\ncancel +4", "line 3: expected an id, a number from 0 to 4294967295, found \"+4\""),
            ("open 256", "line 1: expected a series, a number from 0 to 255, found \"256\""),
            ("increment 0 5", "line 1: expected an edition, a number from 0 to 4294967295, found the end of the line"),
            ("increment 0 256 1", "line 1: expected an increment, a number from 0 to 255, found \"256\""),
            ("percent half 1", "line 1: expected a percentage, a number from 0 to 255, found \"half\""),
            ("sweep now", "line 1: expected the end of the line, found \"now\""),
            ("limited", "line 1: expected a number of orders, a number from 0 to 255, found the end of the line"),
            ("limited 256", "line 1: expected a number of orders, a number from 0 to 255, found \"256\""),
            ("raw", "line 1: expected bytes of two hexadecimal digits, found the end of the line"),
            ("raw 9", "line 1: expected bytes of two hexadecimal digits, found \"9\""),
            ("raw +9", "line 1: expected bytes of two hexadecimal digits, found \"+9\""),
            ("status 1 shut", "line 1: expected a status (open, closed, auction or status=0 to status=255), found \"shut\""),
        ];
        for (text, expected) in cases {
            let error = encode_session(text).unwrap_err();
            assert_eq!(error.to_string(), expected);
        }
    }
}
