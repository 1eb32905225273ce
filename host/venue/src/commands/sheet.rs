//! `venue sheet`: the sheet of a session.

use super::Command;
use crate::arguments::Arguments;
use crate::input::{Input, Reader};
use crate::output::{tell, Out};
use crate::printed::Printed;
use crate::{Failure, Outcome};
use sessions::sheet::Running;
use sessions::stream::Messages;

pub static COMMAND: Command = Command {
    name: "sheet",
    form: "[--text] [--first BYTES] [--json | --csv] [FILE]",
    about: "print the sheet of a run",
    flags: &["--text", "--bytes", "--json", "--csv"],
    valued: &["--first"],
    words: 1,
    help: || HELP.to_string(),
    perform: sheet,
};

const HELP: &str = "\
Runs the session from a fresh venue, with report memory that never fills, and prints a
line for each record: its kind, then its fields in table order, blank between. The
session may be of any length: it is read as the lines are printed.

With --first only so many bytes of its messages are run. The proved program reads 65,536
of them, so --first 65536 gives what bin/sheet prints: a message that is cut there is torn,
and its answer is the last.

With --json each record is an object on a line, with --csv a line of values between commas;
with both the number of its message is told: venue help json.

Bytes are never taken for text: text needs --text. Bytes that are all printable, as those
of a text are, are an error; --bytes takes them as bytes.
";

fn sheet(arguments: &Arguments, out: &mut Out) -> Outcome {
    let input = arguments.input(0);
    let first = arguments.number("--first", Some(u64::MAX))?;
    let bytes = input.bytes(arguments.form()?)?;
    let mut messages = Messages::new(bytes.first(first));
    let printed = Printed::begin(arguments, out)?;
    print_run(Running::fresh(), &mut messages, input, printed, out)?;
    if messages.is_cut() {
        let what = format!("{}: only the first {first} bytes are run", input.name());
        tell(&arguments.name(), &what);
    }
    Ok(())
}

/// Prints the records of a run's messages as they are read.
pub fn print_run(
    mut running: Running,
    messages: &mut Messages<Reader>,
    input: Input,
    mut printed: Printed,
    out: &mut Out,
) -> Outcome {
    while let Some(message) = messages.next().map_err(|what| input.fault(what))? {
        let Some(records) = running.take(message).map_err(|what| input.fault(what))? else {
            let what = format!("{}: the message numbers are used up", input.name());
            return Err(Failure::Disagreement(what));
        };
        for record in records {
            printed.print(record, out)?;
        }
    }
    Ok(())
}
