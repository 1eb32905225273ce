//! Request (k): the messages arrive over a main and a spare line.

use crate::calls::run;
use crate::types::Returned;
use crate::wire::first_message;
use std::iter::Peekable;
use std::slice::Iter;

const NO_ROOM: u8 = 10;
const DIFFERS: u8 = 19;
const LOST: u8 = 20;
const BAD_LINE: u8 = 21;

/// A message of a line, and the number before it.
#[derive(Clone, Copy)]
struct Numbered<'a> {
    number: u32,
    message: &'a [u8],
}

/// Runs what the two lines hand out. The number is 19, 20 or 21 where one of them
/// stopped it before the report memory did.
pub fn feed(main: &[u8], spare: &[u8], report: &mut [u8]) -> Returned {
    let (list, stop) = match (numbered(main), numbered(spare)) {
        (Some(main), Some(spare)) => handed_out(&main, &spare),
        _ => (Vec::new(), BAD_LINE),
    };
    let returned = run(&list.concat(), report);
    let number = match returned.number {
        NO_ROOM => NO_ROOM,
        _ => stop,
    };
    Returned { number, ..returned }
}

/// The messages of a line with their numbers; nothing where the line is torn, does
/// not rise, or has a length below 4 or number 0.
fn numbered(line: &[u8]) -> Option<Vec<Numbered<'_>>> {
    let mut all = Vec::new();
    let mut rest = line;
    let mut last = 0;
    while !rest.is_empty() {
        let (number, after) = rest.split_first_chunk()?;
        let number = u32::from_le_bytes(*number);
        let message = first_message(after).ok()?;
        if number <= last {
            return None;
        }
        all.push(Numbered { number, message });
        last = number;
        rest = &after[message.len()..];
    }
    Some(all)
}

/// The messages of the numbers from 1 on, main first, and what stopped them: 0 where
/// no line has more.
fn handed_out<'a>(main: &[Numbered<'a>], spare: &[Numbered<'a>]) -> (Vec<&'a [u8]>, u8) {
    let (mut main, mut spare) = (main.iter().peekable(), spare.iter().peekable());
    let mut list = Vec::new();
    for number in 1..=u32::MAX {
        let message = match (taken(&mut main, number), taken(&mut spare, number)) {
            (Some(one), Some(other)) if one != other => return (list, DIFFERS),
            (Some(message), _) | (None, Some(message)) => message,
            (None, None) if main.peek().is_some() || spare.peek().is_some() => return (list, LOST),
            (None, None) => break,
        };
        list.push(message);
    }
    (list, 0)
}

/// The message of this number, if it is the next of the line.
fn taken<'a>(line: &mut Peekable<Iter<Numbered<'a>>>, number: u32) -> Option<&'a [u8]> {
    let next = line.next_if(|next| next.number == number)?;
    Some(next.message)
}
