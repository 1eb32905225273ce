//! Files that are read, each named in what is told of it.

use crate::Failure;
use sessions::stream::{looks_like_text, without_mark};
use sessions::stream::{Bytes, Form, Messages, LOOKS_LIKE_TEXT};
use sessions::text::LineError;
use std::ffi::OsStr;
use std::fmt::Display;
use std::fs::File;
use std::io::Read;
use std::path::Path;

/// The most bytes of a file that is not read bit by bit.
const MOST_WHOLE: u64 = 1 << 29;

/// A file, or standard input, named `-`.
#[derive(Clone, Copy)]
pub struct Input<'a> {
    file: &'a OsStr,
}

/// From a text to its bytes.
pub type Encode = fn(&str) -> Result<Vec<u8>, LineError>;

/// What is read of it.
pub type Reader = Box<dyn Read>;

impl<'a> Input<'a> {
    pub fn new(file: &'a OsStr) -> Self {
        Input { file }
    }

    pub fn is_standard(self) -> bool {
        self.file == "-"
    }

    /// Where it is, if it is no standard input.
    pub fn path(self) -> Option<&'a Path> {
        (!self.is_standard()).then_some(Path::new(self.file))
    }

    /// Its name, as errors tell it.
    pub fn name(self) -> String {
        match self.is_standard() {
            true => "standard input".to_string(),
            false => Path::new(self.file).display().to_string(),
        }
    }

    /// Something that is wrong with it.
    pub fn fault(self, what: impl Display) -> Failure {
        Failure::Input(format!("{}: {what}", self.name()))
    }

    pub fn open(self) -> Result<Reader, Failure> {
        if self.is_standard() {
            return Ok(Box::new(std::io::stdin()));
        }
        match File::open(self.file) {
            Ok(file) => Ok(Box::new(file)),
            Err(error) => Err(self.fault(error)),
        }
    }

    /// All of its bytes, which are held in memory.
    pub fn whole(self) -> Result<Vec<u8>, Failure> {
        let mut bytes = Vec::new();
        let mut reader = self.open()?.take(MOST_WHOLE + 1);
        let read = reader.read_to_end(&mut bytes);
        read.map_err(|error| self.fault(error))?;
        match bytes.len() as u64 > MOST_WHOLE {
            true => Err(self.fault(format!("it has more than {MOST_WHOLE} bytes"))),
            false => Ok(bytes),
        }
    }

    /// All of its text, which must be UTF-8: the line of the first other byte is named.
    pub fn text(self) -> Result<String, Failure> {
        self.text_of(self.whole()?)
    }

    /// The text that its bytes are.
    pub fn text_of(self, bytes: Vec<u8>) -> Result<String, Failure> {
        match std::str::from_utf8(&bytes) {
            Ok(text) => Ok(without_mark(text).to_string()),
            Err(error) => {
                let before = &bytes[..error.valid_up_to()];
                let line = before.iter().filter(|byte| **byte == b'\n').count() + 1;
                Err(self.fault(format!("line {line}: expected text, found other bytes")))
            }
        }
    }

    /// All of its bytes, or those of its text.
    pub fn given(self, form: Form, encode: Encode) -> Result<Vec<u8>, Failure> {
        self.given_of(self.whole()?, form, encode)
    }

    /// Its bytes, or those that its text stands for.
    pub fn given_of(self, bytes: Vec<u8>, form: Form, encode: Encode) -> Result<Vec<u8>, Failure> {
        if form == Form::Text {
            return encode(&self.text_of(bytes)?).map_err(|error| self.fault(error));
        }
        match form == Form::Bytes && looks_like_text(&bytes) {
            true => Err(self.fault(LOOKS_LIKE_TEXT)),
            false => Ok(bytes),
        }
    }

    /// The bytes of a session, read bit by bit.
    pub fn bytes(self, form: Form) -> Result<Bytes<Reader>, Failure> {
        Ok(Bytes::new(self.open()?, form))
    }

    /// The messages of a session, read bit by bit.
    pub fn messages(self, form: Form) -> Result<Messages<Reader>, Failure> {
        Ok(Messages::new(self.bytes(form)?))
    }

    /// The bytes of a whole session.
    pub fn session(self, form: Form) -> Result<Vec<u8>, Failure> {
        let mut messages = self.messages(form)?;
        messages.rest().map_err(|what| self.fault(what))
    }
}
