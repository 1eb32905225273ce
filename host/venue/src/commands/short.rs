//! `venue short`: every session of at most three messages from a list.

use super::Command;
use crate::arguments::Arguments;
use crate::output::Out;
use crate::{Failure, Outcome};
use sessions::short::{parse_list, print_short, FIXED};
use std::io::Write;

pub static COMMAND: Command = Command {
    name: "short",
    form: "[LIST]",
    about: "every session of 0 to 3 messages from a list",
    flags: &[],
    valued: &[],
    words: 1,
    help: || HELP.to_string(),
    perform: short,
};

const HELP: &str = "\
Prints every session of 0 to 3 messages from a list of up to 12, shorter first, then by
the messages' places in the list, repeats allowed: the places of its messages, from 1,
blank between, on one line, then the lines of its run. The empty session is an empty
line. LIST is text, one message a line; - reads standard input. Left out, it is the fixed
list of document 02 (n): the printed session's six messages, cancel 3, sweep, kind 11 with
n 1, away 0 0 115, close 0, close 1. bin/short prints the same by the proved program.
";

/// Every short session from a list, which is the fixed one where none is named.
fn short(arguments: &Arguments, out: &mut Out) -> Outcome {
    let list = match arguments.word(0) {
        None => parse_list(FIXED).map_err(Failure::Input)?,
        Some(_) => {
            let input = arguments.input(0);
            parse_list(&input.text()?).map_err(|what| input.fault(what))?
        }
    };
    let printed = print_short(&list).map_err(Failure::Input)?;
    Ok(write!(out, "{printed}")?)
}
