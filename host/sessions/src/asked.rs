//! Calls of the layer, and scripts of them as text, one call a line.
//!
//! ```text
//! arrive VENUE MESSAGE      (MESSAGE as in a session's text; nothing: no bytes)
//! turn                      (also: turn BYTES, the length of its report memory)
//! turns COUNT
//! ```

use crate::message::Message;
use crate::text::{bodies, parse_line, LineError, Words};
use std::fmt::{self, Display};

/// Report memory that holds the records of any message.
pub const ENOUGH: u32 = 10_433;

#[derive(Clone, Debug, PartialEq, Eq)]
pub enum Asked {
    Arrive {
        venue: u32,
        message: Vec<u8>,
    },
    /// With report memory of this length.
    Turn {
        room: u32,
    },
}

impl Display for Asked {
    fn fmt(&self, f: &mut fmt::Formatter) -> fmt::Result {
        match self {
            Asked::Arrive { venue, message } if message.is_empty() => {
                write!(f, "arrive {venue} nothing")
            }
            Asked::Arrive { venue, message } => {
                write!(f, "arrive {venue} {}", Message::decode(message))
            }
            Asked::Turn { room: ENOUGH } => write!(f, "turn"),
            Asked::Turn { room } => write!(f, "turn {room}"),
        }
    }
}

/// Reads a script: each call with the number of its line.
pub fn parse_script(text: &str) -> Result<Vec<(usize, Asked)>, LineError> {
    let mut script = Vec::new();
    for mut words in bodies(text) {
        let line = words.line;
        match words.next() {
            Some("arrive") => script.push((line, parse_arrival(words)?)),
            Some("turn") => script.push((line, parse_turn(words)?)),
            Some("turns") => {
                let count: u8 = words.number("a count of turns")?;
                words.end()?;
                script.extend((0..count).map(|_| (line, Asked::Turn { room: ENOUGH })));
            }
            found => return Err(words.error("a call (arrive, turn or turns)", found)),
        }
    }
    Ok(script)
}

fn parse_arrival(mut words: Words) -> Result<Asked, LineError> {
    let venue = words.number("a venue")?;
    let message = match words.first() {
        Some("nothing") => {
            words.next();
            words.end()?;
            Vec::new()
        }
        _ => parse_line(words)?.encode(),
    };
    Ok(Asked::Arrive { venue, message })
}

fn parse_turn(mut words: Words) -> Result<Asked, LineError> {
    let room = match words.first() {
        None => ENOUGH,
        Some(_) => words.number("a length of report memory")?,
    };
    words.end()?;
    Ok(Asked::Turn { room })
}

#[cfg(test)]
mod tests {
    use super::*;

    #[test]
    fn every_call_reads_back_as_written() {
        let text = "arrive 0 order 4 sell 5 series 0 at 115\narrive 4294967295 sweep\n\
            arrive 3 raw 09 00 06\narrive 2 nothing\nturn\nturn 0\nturn 4294967295\n";
        let script = parse_script(text).unwrap();
        let told: String = script.iter().map(|(_, call)| format!("{call}\n")).collect();
        assert_eq!(told, text);
    }

    #[test]
    fn turns_are_so_many_and_lines_are_counted() {
        let script = parse_script("# a script\nturns 2\n\nturn 10433 # enough\n").unwrap();
        let turn = Asked::Turn { room: ENOUGH };
        assert_eq!(script, [(2, turn.clone()), (2, turn.clone()), (4, turn)]);
        assert_eq!(parse_script("turns 0"), Ok(Vec::new()));
    }

    #[test]
    fn errors_name_the_line_and_what_was_expected() {
        let cases = [
            ("turn\nserve", "line 2: expected a call (arrive, turn or turns), found \"serve\""),
            ("arrive x sweep", "line 1: expected a venue, a number from 0 to 4294967295, found \"x\""),
            ("arrive 1 nothing more", "line 1: expected the end of the line, found \"more\""),
            ("arrive 1 sweep now", "line 1: expected the end of the line, found \"now\""),
            ("arrive 1", "line 1: expected a message (order, complex, cancel, away, status, open, close, auction, sweep, limited, increment, percent or raw), found the end of the line"),
            ("turn x", "line 1: expected a length of report memory, a number from 0 to 4294967295, found \"x\""),
            ("turn 1 2", "line 1: expected the end of the line, found \"2\""),
            ("turns", "line 1: expected a count of turns, a number from 0 to 255, found the end of the line"),
        ];
        for (text, expected) in cases {
            assert_eq!(parse_script(text).unwrap_err().to_string(), expected);
        }
    }
}
