//! What two lines of a feed hand out, written apart from the reference: the messages,
//! the line that served each, and what stopped them.

use crate::line::{read_line, FaultAt, Numbered};
use std::collections::BTreeMap;
use std::fmt::{self, Display};
use std::ops::Bound::{Excluded, Unbounded};

#[derive(Clone, Copy, Debug, PartialEq, Eq)]
pub enum Line {
    Main,
    Spare,
}

impl Line {
    pub const BOTH: [Line; 2] = [Line::Main, Line::Spare];

    pub fn name(self) -> &'static str {
        match self {
            Line::Main => "main",
            Line::Spare => "spare",
        }
    }
}

/// What stopped the messages. Pairs are of main and the spare.
#[derive(Clone, Copy, Debug, PartialEq, Eq)]
pub enum Stop {
    /// Neither line has more.
    End,
    Differs {
        number: u32,
        lengths: [usize; 2],
    },
    /// Neither line has the number; the next later one of each.
    Lost {
        number: u32,
        later: [Option<u32>; 2],
    },
    BadLine([Option<FaultAt>; 2]),
}

impl Stop {
    pub fn number(&self) -> u8 {
        match self {
            Stop::End => 0,
            Stop::Differs { .. } => 19,
            Stop::Lost { .. } => 20,
            Stop::BadLine(_) => 21,
        }
    }
}

impl Display for Stop {
    fn fmt(&self, f: &mut fmt::Formatter) -> fmt::Result {
        match self {
            Stop::End => write!(f, "neither line has more"),
            Stop::Differs { number, .. } => {
                write!(f, "both lines have number {number}, but their bytes differ")
            }
            Stop::Lost { number, later } => {
                let has = |(line, later): (Line, &Option<u32>)| {
                    later.map(|later| format!("{} has {later}", line.name()))
                };
                let later: Vec<String> =
                    Line::BOTH.into_iter().zip(later).filter_map(has).collect();
                let later = later.join(" and ");
                write!(f, "neither line has number {number}, though {later}")
            }
            Stop::BadLine(faults) => {
                let told = |(line, at): (Line, &Option<FaultAt>)| {
                    at.map(|at| format!("{} line, byte {}: {}", line.name(), at.byte, at.fault))
                };
                let told: Vec<String> = Line::BOTH
                    .into_iter()
                    .zip(faults)
                    .filter_map(told)
                    .collect();
                write!(f, "{}", told.join("; "))
            }
        }
    }
}

/// The messages handed out, each with the line that served it.
#[derive(Clone, Debug, PartialEq, Eq)]
pub struct HandedOut {
    pub messages: Vec<(Line, Vec<u8>)>,
    pub stop: Stop,
}

impl HandedOut {
    /// The list of the messages.
    pub fn list(&self) -> Vec<u8> {
        let messages = self.messages.iter();
        messages.flat_map(|(_, message)| message.clone()).collect()
    }

    /// How many messages a line served.
    pub fn served(&self, line: Line) -> usize {
        let messages = self.messages.iter();
        messages.filter(|(server, _)| *server == line).count()
    }
}

/// What two lines hand out: the message of each number from 1 on, main first.
pub fn hand_out(main: &[u8], spare: &[u8]) -> HandedOut {
    let mut messages = Vec::new();
    let stop = match [read_line(main), read_line(spare)] {
        [Ok(main), Ok(spare)] => {
            let by_number = |line: Vec<Numbered>| {
                let parts = line.into_iter();
                parts.map(|part| (part.number, part.message)).collect()
            };
            served(&[by_number(main), by_number(spare)], &mut messages)
        }
        lines => Stop::BadLine(lines.map(Result::err)),
    };
    HandedOut { messages, stop }
}

fn served(lines: &[BTreeMap<u32, Vec<u8>>; 2], messages: &mut Vec<(Line, Vec<u8>)>) -> Stop {
    let mut number = 1;
    loop {
        match lines.each_ref().map(|line| line.get(&number)) {
            [Some(one), Some(other)] if one != other => {
                let lengths = [one.len(), other.len()];
                return Stop::Differs { number, lengths };
            }
            [Some(message), _] => messages.push((Line::Main, message.clone())),
            [None, Some(message)] => messages.push((Line::Spare, message.clone())),
            [None, None] => return without(lines, number),
        }
        number = match number.checked_add(1) {
            Some(next) => next,
            None => return Stop::End,
        };
    }
}

/// What stops at a number that neither line has.
fn without(lines: &[BTreeMap<u32, Vec<u8>>; 2], number: u32) -> Stop {
    let later = lines.each_ref().map(|line| {
        let mut later = line.range((Excluded(number), Unbounded));
        later.next().map(|(later, _)| *later)
    });
    match later {
        [None, None] => Stop::End,
        _ => Stop::Lost { number, later },
    }
}
