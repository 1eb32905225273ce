//! A line of a feed: each message after its number, a u32. Written apart from the
//! reference's own reading of it.

use std::fmt::{self, Display};

/// The bytes of a message's number.
pub const NUMBER_BYTES: usize = 4;

/// The bytes of a message's length and kind.
const HEAD_BYTES: usize = 4;

/// A message of a line, and the number before it.
#[derive(Clone, Debug, PartialEq, Eq)]
pub struct Numbered {
    pub number: u32,
    pub message: Vec<u8>,
}

impl Numbered {
    pub fn bytes(&self) -> Vec<u8> {
        [&self.number.to_le_bytes()[..], &self.message].concat()
    }
}

/// What is wrong with a line, of what comes first at its place.
#[derive(Clone, Copy, Debug, PartialEq, Eq)]
pub enum Fault {
    TornNumber { left: usize },
    NumberZero,
    NotRising { number: u32, last: u32 },
    TornHead { left: usize },
    LengthBelow4 { length: usize },
    LengthBeyond { length: usize, left: usize },
}

impl Display for Fault {
    fn fmt(&self, f: &mut fmt::Formatter) -> fmt::Result {
        match self {
            Fault::TornNumber { left } => write!(f, "expected a number of 4 bytes, found {left}"),
            Fault::NumberZero => write!(f, "expected a number from 1 on, found 0"),
            Fault::NotRising { number, last } => {
                write!(f, "expected a number above {last}, found {number}")
            }
            Fault::TornHead { left } => {
                write!(f, "expected a message after the number, found {left} bytes")
            }
            Fault::LengthBelow4 { length } => {
                write!(f, "expected a length from 4 on, found {length}")
            }
            Fault::LengthBeyond { length, left } => {
                write!(f, "expected a message of {length} bytes, found {left}")
            }
        }
    }
}

/// A fault and the byte where its message's number begins.
#[derive(Clone, Copy, Debug, PartialEq, Eq)]
pub struct FaultAt {
    pub byte: usize,
    pub fault: Fault,
}

/// The messages of a line, or its first fault.
pub fn read_line(line: &[u8]) -> Result<Vec<Numbered>, FaultAt> {
    let mut parts = Vec::new();
    let mut byte = 0;
    let mut last = 0;
    while byte < line.len() {
        let part = first_part(&line[byte..], last).map_err(|fault| FaultAt { byte, fault })?;
        last = part.number;
        byte += NUMBER_BYTES + part.message.len();
        parts.push(part);
    }
    Ok(parts)
}

/// The first message of the bytes, with a number above the last one.
fn first_part(bytes: &[u8], last: u32) -> Result<Numbered, Fault> {
    let [a, b, c, d, message @ ..] = bytes else {
        return Err(Fault::TornNumber { left: bytes.len() });
    };
    let number = u32::from_le_bytes([*a, *b, *c, *d]);
    if number == 0 {
        return Err(Fault::NumberZero);
    }
    if number <= last {
        return Err(Fault::NotRising { number, last });
    }
    let left = message.len();
    if left < HEAD_BYTES {
        return Err(Fault::TornHead { left });
    }
    let length = usize::from(u16::from_le_bytes([message[0], message[1]]));
    match message.get(..length) {
        _ if length < HEAD_BYTES => Err(Fault::LengthBelow4 { length }),
        None => Err(Fault::LengthBeyond { length, left }),
        Some(message) => Ok(Numbered {
            number,
            message: message.to_vec(),
        }),
    }
}

/// The messages of a list with their numbers.
pub fn numbered(list: &[Vec<u8>]) -> Vec<Numbered> {
    let numbered = list.iter().zip(1..).map(|(message, number)| Numbered {
        number,
        message: message.clone(),
    });
    numbered.collect()
}

/// The bytes of a line.
pub fn line_bytes(parts: &[Numbered]) -> Vec<u8> {
    parts.iter().flat_map(Numbered::bytes).collect()
}
