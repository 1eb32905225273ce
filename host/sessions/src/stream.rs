//! Sessions read bit by bit, however long they are: bytes from bytes or from text, and
//! messages cut from them.

use crate::message::first_whole;
use crate::text::encode_text_line;
use std::io::{ErrorKind, Read};

/// How a session is given.
#[derive(Clone, Copy, Debug, PartialEq, Eq)]
pub enum Form {
    /// As bytes, which do not look like text.
    Bytes,
    /// As bytes, even where they look like text.
    AnyBytes,
    Text,
}

/// The most bytes that a message's length can tell.
const MOST_MESSAGE: usize = 65_535;

/// How much is read at a time.
const CHUNK: usize = 65_536;

/// The most bytes of a line of text: more than a message as `raw` takes.
const MOST_LINE: usize = 1 << 20;

/// What is told of bytes that look like text.
pub const LOOKS_LIKE_TEXT: &str =
    "this looks like text: use --text, or --bytes to take it as bytes";

/// The byte order mark that some editors put before a text.
const MARK: &str = "\u{feff}";

/// Text without the byte order mark before it.
pub fn without_mark(text: &str) -> &str {
    text.strip_prefix(MARK).unwrap_or(text)
}

/// Whether the first bytes of a file are those of a text: no message of a kind that is
/// known is made of printable bytes alone.
pub fn looks_like_text(bytes: &[u8]) -> bool {
    let text = match std::str::from_utf8(bytes) {
        Ok(text) => text,
        // A character may be cut where the bytes end.
        Err(error) if error.error_len().is_none() => {
            std::str::from_utf8(&bytes[..error.valid_up_to()]).unwrap_or_default()
        }
        Err(_) => return false,
    };
    let is_printable = |c: char| !c.is_control() || matches!(c, '\t' | '\r' | '\n');
    !text.is_empty() && text.chars().all(is_printable)
}

/// The bytes of a session, read bit by bit. Errors tell the line, not the file.
pub struct Bytes<R> {
    input: R,
    form: Form,
    /// The text of a line whose end was not read yet.
    line: Vec<u8>,
    /// How many lines were taken.
    lines: usize,
    /// Whether something was read.
    begun: bool,
    ended: bool,
    /// How many more bytes are asked for.
    left: u64,
    /// Whether there are more bytes than were asked for.
    cut: bool,
}

impl<R: Read> Bytes<R> {
    pub fn new(input: R, form: Form) -> Self {
        Bytes {
            input,
            form,
            line: Vec::new(),
            lines: 0,
            begun: false,
            ended: false,
            left: u64::MAX,
            cut: false,
        }
    }

    /// Only the first so many bytes of the messages.
    pub fn first(self, left: u64) -> Self {
        Bytes { left, ..self }
    }

    /// Whether there are more bytes than were asked for.
    pub fn is_cut(&self) -> bool {
        self.cut
    }

    /// Puts more bytes after those held; false where there are none.
    pub fn more(&mut self, held: &mut Vec<u8>) -> Result<bool, String> {
        let before = held.len();
        while held.len() == before {
            if self.ended {
                return Ok(false);
            }
            match self.form {
                Form::Text => self.more_text(held)?,
                _ => self.more_bytes(held)?,
            }
        }
        let read = (held.len() - before) as u64;
        if read > self.left {
            held.truncate(before + self.left as usize);
            (self.cut, self.ended) = (true, true);
        }
        self.left -= read.min(self.left);
        Ok(held.len() > before)
    }

    fn more_bytes(&mut self, held: &mut Vec<u8>) -> Result<(), String> {
        let before = held.len();
        self.ended = !self.read(held)?;
        while !self.begun && !self.ended && held.len() < before + 4 {
            self.ended = !self.read(held)?;
        }
        let first = !std::mem::replace(&mut self.begun, true);
        if first && self.form == Form::Bytes && looks_like_text(&held[before..]) {
            return Err(LOOKS_LIKE_TEXT.to_string());
        }
        Ok(())
    }

    /// Takes the lines that end in what is read next.
    fn more_text(&mut self, held: &mut Vec<u8>) -> Result<(), String> {
        let mut text = std::mem::take(&mut self.line);
        self.ended = !self.read(&mut text)?;
        let whole = match text.iter().rposition(|byte| *byte == b'\n') {
            _ if self.ended => text.len(),
            Some(end) => end + 1,
            None => 0,
        };
        for line in text[..whole].split_inclusive(|byte| *byte == b'\n') {
            self.lines += 1;
            held.extend(line_bytes(line, self.lines)?);
        }
        text.drain(..whole);
        if text.len() > MOST_LINE {
            let line = self.lines + 1;
            return Err(format!("line {line}: it has more than {MOST_LINE} bytes"));
        }
        self.line = text;
        Ok(())
    }

    /// Reads once; false at the end.
    fn read(&mut self, held: &mut Vec<u8>) -> Result<bool, String> {
        let before = held.len();
        held.resize(before + CHUNK, 0);
        let read = loop {
            match self.input.read(&mut held[before..]) {
                Err(error) if error.kind() == ErrorKind::Interrupted => {}
                read => break read,
            }
        };
        held.truncate(before + read.as_ref().map_or(0, |read| *read));
        match read {
            Ok(read) => Ok(read > 0),
            Err(error) => Err(error.to_string()),
        }
    }
}

/// The bytes of a line of a session's text.
fn line_bytes(line: &[u8], number: usize) -> Result<Vec<u8>, String> {
    let text = std::str::from_utf8(line)
        .map_err(|_| format!("line {number}: expected text, found other bytes"))?;
    let text = if number == 1 {
        without_mark(text)
    } else {
        text
    };
    encode_text_line(text, number).map_err(|error| error.to_string())
}

/// The messages of a session, read bit by bit. Errors tell the line or the message, not
/// the file.
pub struct Messages<R> {
    bytes: Bytes<R>,
    held: Vec<u8>,
    /// Where the next message begins in what is held.
    at: usize,
    /// How many messages were taken, and their bytes.
    taken: u64,
    taken_bytes: u64,
}

impl<R: Read> Messages<R> {
    pub fn new(bytes: Bytes<R>) -> Self {
        Messages {
            bytes,
            held: Vec::new(),
            at: 0,
            taken: 0,
            taken_bytes: 0,
        }
    }

    /// The next message; a torn rest is the last one. A rest that is torn whatever
    /// follows is an error where it is longer than any message.
    pub fn next(&mut self) -> Result<Option<&[u8]>, String> {
        let length = loop {
            let rest = &self.held[self.at..];
            if let Some(message) = first_whole(rest) {
                break message.len();
            }
            if rest.len() > MOST_MESSAGE {
                return Err(self.torn());
            }
            self.held.drain(..self.at);
            self.at = 0;
            if !self.bytes.more(&mut self.held)? {
                break self.held.len();
            }
        };
        if length == 0 {
            return Ok(None);
        }
        let from = self.at;
        self.at += length;
        self.taken += 1;
        self.taken_bytes += length as u64;
        Ok(Some(&self.held[from..self.at]))
    }

    /// How many messages were taken.
    pub fn taken(&self) -> u64 {
        self.taken
    }

    /// Whether there are more bytes than were asked for.
    pub fn is_cut(&self) -> bool {
        self.bytes.is_cut()
    }

    /// All messages that are left, one after another.
    pub fn rest(&mut self) -> Result<Vec<u8>, String> {
        let mut list = Vec::new();
        while let Some(message) = self.next()? {
            list.extend_from_slice(message);
        }
        Ok(list)
    }

    fn torn(&self) -> String {
        let length = u16::from_le_bytes([self.held[self.at], self.held[self.at + 1]]);
        format!(
            "message {} at byte {} is torn: its length is {length}, below 4, and more than \
             {MOST_MESSAGE} bytes follow",
            self.taken + 1,
            self.taken_bytes
        )
    }
}

#[cfg(test)]
mod tests {
    use super::*;
    use crate::message::split;
    use crate::random::Random;
    use crate::text::encode_session;

    /// Gives so many bytes at a time.
    struct Drops<'a>(&'a [u8], usize);

    impl Read for Drops<'_> {
        fn read(&mut self, buffer: &mut [u8]) -> std::io::Result<usize> {
            let count = self.1.min(self.0.len()).min(buffer.len());
            let (first, rest) = self.0.split_at(count);
            buffer[..count].copy_from_slice(first);
            self.0 = rest;
            Ok(count)
        }
    }

    fn pieces(input: &[u8], form: Form, at_a_time: usize) -> Result<Vec<Vec<u8>>, String> {
        let mut messages = Messages::new(Bytes::new(Drops(input, at_a_time), form));
        let mut pieces = Vec::new();
        while let Some(message) = messages.next()? {
            pieces.push(message.to_vec());
        }
        assert_eq!(messages.taken(), pieces.len() as u64);
        Ok(pieces)
    }

    #[test]
    fn messages_are_cut_as_from_the_whole_list() {
        let mut random = Random::new(7);
        for length in 0..300 {
            let list: Vec<u8> = (0..length).map(|_| random.below(9) as u8).collect();
            for at_a_time in [1, 2, 3, 7, 1000] {
                let cut = pieces(&list, Form::AnyBytes, at_a_time);
                assert_eq!(cut, Ok(split(&list).iter().map(|p| p.to_vec()).collect()));
            }
        }
    }

    #[test]
    fn text_gives_the_messages_of_its_bytes() {
        let text = "\u{feff}# café\r\nopen 0\r\nraw 05 00\n\nsweep # now\nlimited 4\nraw 09 00 06";
        let list = encode_session(without_mark(text)).unwrap();
        let expected: Vec<Vec<u8>> = split(&list).iter().map(|p| p.to_vec()).collect();
        for at_a_time in [1, 2, 5, 1000] {
            let cut = pieces(text.as_bytes(), Form::Text, at_a_time);
            assert_eq!(cut, Ok(expected.clone()));
        }
    }

    #[test]
    fn wrong_text_is_told_with_its_line() {
        let cases: [(&[u8], &str); 3] = [
            (b"open 0\n\nopen x\n", "line 3: expected a series,"),
            (
                b"open 0\n\xff\n",
                "line 2: expected text, found other bytes",
            ),
            (b"open 0\nopn 1", "line 2: expected a message ("),
        ];
        for (text, expected) in cases {
            let told = pieces(text, Form::Text, 3).unwrap_err();
            assert!(told.starts_with(expected), "{told}");
        }
        let endless = pieces(&vec![0; 3 << 20], Form::Text, CHUNK).unwrap_err();
        assert_eq!(endless, "line 1: it has more than 1048576 bytes");
    }

    #[test]
    fn text_is_not_taken_for_bytes() {
        for text in ["open 0\n", "# café\n", "é", "\u{feff}sweep\n", "x"] {
            for at_a_time in [1, 2, 1000] {
                let told = pieces(text.as_bytes(), Form::Bytes, at_a_time);
                let told = told.expect_err(text);
                assert!(
                    told.starts_with("this looks like text: use --text"),
                    "{told}"
                );
            }
            let taken = pieces(text.as_bytes(), Form::AnyBytes, 1).unwrap();
            assert_eq!(taken, [text.as_bytes()]);
        }
        let long = "order 1 sell 15 series 0 at 130\n".repeat(5000);
        assert!(pieces(long.as_bytes(), Form::Bytes, CHUNK).is_err());
        assert_eq!(pieces(b"", Form::Bytes, 1), Ok(vec![]));
        let sweep = pieces(&[4, 0, 6, 0], Form::Bytes, 1);
        assert_eq!(sweep, Ok(vec![vec![4, 0, 6, 0]]));
    }

    #[test]
    fn a_torn_message_with_much_after_it_ends_the_reading() {
        let list = [&[4, 0, 6, 0][..], &vec![0; 70_000]].concat();
        let told = pieces(&list, Form::Bytes, CHUNK).unwrap_err();
        assert_eq!(
            told,
            "message 2 at byte 4 is torn: its length is 0, below 4, and more than 65535 bytes \
             follow"
        );
        let short = pieces(&list[..65_539], Form::Bytes, CHUNK).unwrap();
        assert_eq!(short[1].len(), 65_535);
        let longest = [&[255, 255, 6, 0][..], &vec![0; 65_531]].concat();
        assert_eq!(pieces(&longest, Form::Bytes, 999), Ok(vec![longest]));
    }

    #[test]
    fn the_first_bytes_are_those_asked_for() {
        let list = [4, 0, 6, 0].repeat(100_000);
        for (first, count) in [(0, 0), (3, 1), (65_536, 16_384), (399_999, 100_000)] {
            let mut messages = Messages::new(Bytes::new(&list[..], Form::Bytes).first(first));
            let rest = messages.rest().unwrap();
            assert_eq!(rest.len() as u64, first);
            assert_eq!((messages.taken(), messages.is_cut()), (count, true));
        }
        let mut messages = Messages::new(Bytes::new(&list[..], Form::Bytes).first(400_000));
        assert_eq!(messages.rest().unwrap().len(), list.len());
        assert!(!messages.is_cut());
    }
}
