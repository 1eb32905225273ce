//! `venue print`: report bytes as the lines of a sheet.

use super::Command;
use crate::arguments::Arguments;
use crate::output::Out;
use crate::Outcome;
use sessions::record::{print_sheet, read_report};
use std::io::Write;

pub static COMMAND: Command = Command {
    name: "print",
    form: "[FILE]",
    about: "report bytes to sheet lines",
    flags: &[],
    valued: &[],
    words: 1,
    help: || HELP.to_string(),
    perform: print,
};

const HELP: &str = "\
Prints report memory as sheet lines, up to the first zero length or its end.
";

fn print(arguments: &Arguments, out: &mut Out) -> Outcome {
    let input = arguments.input(0);
    let records = read_report(&input.whole()?).map_err(|what| input.fault(what))?;
    Ok(write!(out, "{}", print_sheet(&records))?)
}
