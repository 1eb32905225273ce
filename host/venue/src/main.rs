//! `venue`: session tools for the legging order engine.

#![forbid(unsafe_code)]

mod arguments;
mod commands;
mod help;
mod input;
mod json_form;
mod output;
mod printed;

use output::{tell, Out};
use std::ffi::OsString;
use std::io::ErrorKind;
use std::process::ExitCode;

/// The status of a program whose reader left, as a shell tells it.
const READER_LEFT: u8 = 141;

/// Why a command did not succeed.
pub enum Failure {
    /// The command line was wrong.
    Usage(String),
    /// The input was wrong.
    Input(String),
    /// The output is good and tells of something that does not agree.
    Disagreement(String),
    /// The output was not written.
    Output(std::io::Error),
}

impl From<std::io::Error> for Failure {
    /// Of writing; what goes wrong in reading is told with the file's name.
    fn from(error: std::io::Error) -> Self {
        Failure::Output(error)
    }
}

/// What a command came to.
pub type Outcome = Result<(), Failure>;

fn main() -> ExitCode {
    let words: Vec<OsString> = std::env::args_os().skip(1).collect();
    let (name, hint) = commands::told_name(&words);
    let mut out = Out::new();
    let outcome = commands::perform(&words, &mut out);
    match end(outcome, out, &name) {
        Ok(status) => status,
        Err(Failure::Usage(what)) => {
            tell(&name, &format!("{what}\ntry: {hint}"));
            ExitCode::from(2)
        }
        Err(Failure::Output(error)) if error.kind() == ErrorKind::BrokenPipe => {
            ExitCode::from(READER_LEFT)
        }
        Err(Failure::Output(error)) => {
            tell(&name, &format!("the output was not written: {error}"));
            ExitCode::FAILURE
        }
        Err(Failure::Input(what) | Failure::Disagreement(what)) => {
            tell(&name, &what);
            ExitCode::FAILURE
        }
    }
}

/// Writes out what is still held, unless the input was wrong.
fn end(outcome: Outcome, out: Out, name: &str) -> Result<ExitCode, Failure> {
    match outcome {
        Ok(()) => {
            out.finish()?;
            Ok(ExitCode::SUCCESS)
        }
        Err(Failure::Disagreement(what)) => {
            tell(name, &what);
            out.finish()?;
            Ok(ExitCode::FAILURE)
        }
        Err(failure) => {
            out.discard();
            Err(failure)
        }
    }
}
