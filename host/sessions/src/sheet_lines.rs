//! A sheet read line by line and cut at its answers, and the answers brought to the
//! messages whose they are: one that is missing, doubled, moved or has a false number
//! hides none of the others. What is kept of a sheet does not grow with its length.

use crate::record::{parse_sheet_line, Record};
use crate::stream::without_mark;
use std::collections::VecDeque;
use std::io::{self, BufRead, Read};

/// The most bytes of a line that are looked at, far more than any record's.
const MOST_OF_LINE: u64 = 4_096;

/// The most lines of one answer that are kept, more than any message writes.
const MOST_LINES: usize = 2_048;

/// How many answers are looked at to tell whose the first of them is.
const AHEAD: usize = 8;

/// A line that is no record.
#[derive(Clone, Debug, PartialEq, Eq)]
pub struct BadLine {
    pub text: String,
    pub what: String,
}

/// A line of a sheet.
#[derive(Clone, Debug, PartialEq, Eq)]
pub struct SheetLine {
    /// Counted from 1.
    pub line: u64,
    pub read: Result<Record, BadLine>,
    /// Whether the line ends; the last line of a sheet that is cut does not.
    pub has_end: bool,
}

impl SheetLine {
    /// The line as it stands in the sheet.
    pub fn text(&self) -> String {
        match &self.read {
            Ok(record) => record.to_string(),
            Err(bad) => bad.text.clone(),
        }
    }

    /// Whether an answer begins here, readable or not.
    fn is_answer(&self) -> bool {
        match &self.read {
            Ok(record) => record.kind() == 64,
            Err(bad) => bad.text.split_whitespace().next() == Some("64"),
        }
    }
}

/// The lines from one answer to the next; the first of a sheet may lack its answer.
#[derive(Clone, Debug, Default, PartialEq, Eq)]
pub struct Group {
    pub lines: Vec<SheetLine>,
    /// How many lines more there are, which are not kept.
    pub beyond: u64,
}

impl Group {
    /// The message that its answer names.
    pub fn number(&self) -> Option<u32> {
        match self.lines.first()?.read {
            Ok(Record::Answer(answer)) => Some(answer.number),
            _ => None,
        }
    }

    /// The number of its first line.
    pub fn line(&self) -> u64 {
        self.lines.first().map_or(0, |first| first.line)
    }

    /// The number of the line after its last.
    pub fn end(&self) -> u64 {
        self.line() + self.lines.len() as u64 + self.beyond
    }

    fn push(&mut self, line: SheetLine) {
        match self.lines.len() {
            ..MOST_LINES => self.lines.push(line),
            _ => self.beyond += 1,
        }
    }
}

/// A sheet that is being read.
pub struct Sheet<R> {
    reader: R,
    /// The lines that were read.
    pub lines: u64,
    /// The line that begins the next answer.
    next: Option<SheetLine>,
    /// The answers that were looked at and not yet taken.
    ahead: VecDeque<Group>,
    ended: bool,
    /// Whether the last line has no end.
    pub is_cut: bool,
}

/// What a sheet has for a message.
#[derive(Clone, Debug, PartialEq, Eq)]
pub enum Found {
    /// Its answer, perhaps with a false number, and the lines after it.
    Answer(Group),
    /// No answer to it.
    Nothing,
    /// An answer that is no message's, before what the sheet has for it.
    Extra(Group),
    /// Nothing more at all.
    End,
}

impl<R: BufRead> Sheet<R> {
    pub fn new(reader: R) -> Self {
        Sheet {
            reader,
            lines: 0,
            next: None,
            ahead: VecDeque::new(),
            ended: false,
            is_cut: false,
        }
    }

    fn read_line(&mut self) -> io::Result<Option<SheetLine>> {
        if self.ended {
            return Ok(None);
        }
        let mut bytes = Vec::new();
        let mut reader = self.reader.by_ref().take(MOST_OF_LINE);
        if reader.read_until(b'\n', &mut bytes)? == 0 {
            self.ended = true;
            return Ok(None);
        }
        self.lines += 1;
        let has_end = bytes.pop_if(|last| *last == b'\n').is_some();
        self.is_cut = !has_end;
        let read = match bytes.len() as u64 {
            MOST_OF_LINE => {
                self.ended = true;
                Err(too_long(&bytes))
            }
            _ => read_record(self.lines, &bytes),
        };
        Ok(Some(SheetLine {
            line: self.lines,
            read,
            has_end,
        }))
    }

    /// The lines up to the next answer.
    fn read_group(&mut self) -> io::Result<Option<Group>> {
        let mut group = Group::default();
        if let Some(first) = self.next.take() {
            group.push(first);
        }
        while let Some(line) = self.read_line()? {
            if line.is_answer() && !group.lines.is_empty() {
                self.next = Some(line);
                break;
            }
            group.push(line);
        }
        Ok((!group.lines.is_empty()).then_some(group))
    }

    /// What the sheet has for the message of a number, which may be the session's last.
    pub fn find(&mut self, number: u32, is_last: bool) -> io::Result<Found> {
        while self.ahead.len() < AHEAD {
            let Some(group) = self.read_group()? else {
                break;
            };
            self.ahead.push_back(group);
        }
        let numbers: Vec<Option<u64>> = self
            .ahead
            .iter()
            .map(|group| group.number().map(u64::from))
            .collect();
        let found = match whose(&numbers, u64::from(number), is_last) {
            Some(Whose::Message) => self.ahead.pop_front().map(Found::Answer),
            Some(Whose::Nobody) => self.ahead.pop_front().map(Found::Extra),
            Some(Whose::Later) => Some(Found::Nothing),
            None => None,
        };
        Ok(found.unwrap_or(Found::End))
    }

    /// An answer after those to all messages.
    pub fn rest(&mut self) -> io::Result<Option<Group>> {
        match self.ahead.pop_front() {
            Some(group) => Ok(Some(group)),
            None => self.read_group(),
        }
    }
}

/// The record of a line; a byte order mark before the first is passed over.
fn read_record(line: u64, bytes: &[u8]) -> Result<Record, BadLine> {
    let text = String::from_utf8_lossy(bytes);
    let read = match std::str::from_utf8(bytes) {
        Ok(text) if line == 1 => parse_sheet_line(without_mark(text)),
        Ok(text) => parse_sheet_line(text),
        Err(_) => Err("expected text, found other bytes".to_string()),
    };
    read.map_err(|what| BadLine {
        text: text.trim_end().to_string(),
        what,
    })
}

fn too_long(bytes: &[u8]) -> BadLine {
    let text: String = String::from_utf8_lossy(bytes).chars().take(80).collect();
    BadLine {
        text: format!("{text}..."),
        what: format!("expected a record, found a line of {MOST_OF_LINE} bytes or more"),
    }
}

/// Whose the first of some answers is.
#[derive(Clone, Copy, Debug, PartialEq, Eq)]
enum Whose {
    /// The message's that is looked for.
    Message,
    /// That of a message after it.
    Later,
    /// No message's: it is one too many.
    Nobody,
}

/// Whose the first of some answers is, by their numbers, none of an unreadable one, where
/// that of message `wanted` is looked for. None where there are no answers.
///
/// A number that is not the one wanted is false where the answers after it go on as if it
/// were right. It is one too many where the one wanted comes after it, or where it goes
/// on from an earlier number. Otherwise the answers up to it are missing.
fn whose(numbers: &[Option<u64>], wanted: u64, is_last: bool) -> Option<Whose> {
    let (first, later) = numbers.split_first()?;
    if *first == Some(wanted) {
        return Some(Whose::Message);
    }
    let goes_on = (wanted + 1..)
        .zip(later)
        .position(|(number, later)| *later == Some(number));
    let comes = later.iter().position(|later| *later == Some(wanted));
    if goes_on.is_some() || comes.is_some() {
        let is_false = goes_on.is_some_and(|at| comes.is_none_or(|comes| at <= comes));
        let whose = if is_false {
            Whose::Message
        } else {
            Whose::Nobody
        };
        return Some(whose);
    }
    let next = later.first().copied().flatten();
    let whose = match *first {
        Some(number) if number > wanted => match next {
            None if later.is_empty() && is_last => Whose::Message,
            Some(next) if next <= number && next > wanted => Whose::Message,
            Some(next) if next <= number => Whose::Nobody,
            _ => Whose::Later,
        },
        Some(number) if next == Some(number + 1) => Whose::Nobody,
        _ if next.is_none_or(|next| next > wanted) => Whose::Message,
        _ => Whose::Nobody,
    };
    Some(whose)
}

#[cfg(test)]
mod tests {
    use super::*;

    fn found(numbers: &[u64], wanted: u64, is_last: bool) -> Whose {
        let numbers: Vec<Option<u64>> = numbers
            .iter()
            .map(|number| (*number > 0).then_some(*number))
            .collect();
        whose(&numbers, wanted, is_last).unwrap()
    }

    /// Answers by their numbers, 0 for one that cannot be read.
    #[test]
    fn answers_are_brought_to_their_messages() {
        use Whose::{Later, Message, Nobody};
        let cases: [(&[u64], Whose); 19] = [
            (&[6, 7, 8], Message),
            // A false number, or two of them, or one that cannot be read.
            (&[700, 7, 8], Message),
            (&[3, 7, 8], Message),
            (&[700, 800, 8], Message),
            (&[700, 701, 8], Message),
            (&[0, 7, 8], Message),
            (&[99, 8, 9], Message),
            (&[99], Later),
            (&[0], Message),
            (&[5], Message),
            // Doubled, or put in, or moved.
            (&[5, 6, 7], Nobody),
            (&[5, 5, 6], Nobody),
            (&[0, 6, 7], Nobody),
            (&[7, 6, 8], Nobody),
            (&[2, 3, 4, 5], Nobody),
            (&[2, 3, 4, 5, 6], Nobody),
            // Missing.
            (&[7, 8, 9], Later),
            (&[9, 10, 11], Later),
            (&[9], Later),
        ];
        for (numbers, expected) in cases {
            assert_eq!(found(numbers, 6, false), expected, "{numbers:?}");
        }
        assert_eq!(found(&[60], 6, true), Message);
        assert_eq!(whose(&[], 6, false), None);
    }

    #[test]
    fn lines_are_cut_at_answers() {
        let text = "66 3 205 5\n64 1 0 0 0\n64 2 0 0\n65 x\n64 3 0 0 0";
        let mut sheet = Sheet::new(text.as_bytes());
        let mut groups = Vec::new();
        while let Some(group) = sheet.rest().unwrap() {
            groups.push((group.line(), group.number(), group.lines.len()));
        }
        let expected = [(1, None, 1), (2, Some(1), 1), (3, None, 2), (5, Some(3), 1)];
        assert_eq!(groups, expected);
        assert!(sheet.is_cut);
        assert_eq!(sheet.lines, 5);
    }

    #[test]
    fn a_line_and_an_answer_without_an_end_are_kept_in_part() {
        let mut sheet = Sheet::new(io::BufReader::new(io::repeat(0)));
        let group = sheet.rest().unwrap().unwrap();
        let what = "expected a record, found a line of 4096 bytes or more";
        assert_eq!(group.lines[0].read.as_ref().unwrap_err().what, what);
        assert_eq!(sheet.rest().unwrap(), None);
        let text = "64 1 0 0 0\n".to_string() + &"72 1\n".repeat(5_000);
        let group = Sheet::new(text.as_bytes()).rest().unwrap().unwrap();
        assert_eq!((group.lines.len(), group.beyond), (2_048, 2_953));
        assert_eq!(group.end(), 5_002);
    }
}
