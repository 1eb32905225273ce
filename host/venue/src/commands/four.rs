//! `venue four`: four venues behind one line.

use super::Command;
use crate::arguments::Arguments;
use crate::output::{tell, Out};
use crate::Outcome;
use sessions::asked::{parse_script, ENOUGH};
use sessions::play::play;
use sessions::record::print_sheet;
use std::io::Write;

pub static COMMAND: Command = Command {
    name: "four",
    form: "[SCRIPT]",
    about: "print the sheets of four venues behind one line",
    flags: &[],
    valued: &[],
    words: 1,
    help,
    perform: four,
};

fn help() -> String {
    format!(
        "\
Plays arrivals and turns upon four fresh venues behind one line, and prints the sheet
of each venue under its number. The script is text, one call a line:

  arrive VENUE MESSAGE      MESSAGE as in a session's text, or nothing: no bytes
  turn                      also: turn BYTES, the length of its report memory
  turns COUNT               so many turns, up to 255

A venue's wait holds up to 8 messages of up to 32 bytes. A turn does the message at the
head of the next venue's wait, going round from venue 0. Report memory is {ENOUGH} bytes
where no other length is said: enough for any message. Standard error tells the
arrivals that were refused (17 or 18), the turns that served no venue (0 or 10), and
what still waits at the end.
"
    )
}

/// The sheets of four venues behind one line; calls that did nothing and messages that
/// still wait are told beside them.
fn four(arguments: &Arguments, out: &mut Out) -> Outcome {
    let input = arguments.input(0);
    let script = parse_script(&input.text()?).map_err(|error| input.fault(error))?;
    let played = play(&script).map_err(|what| input.fault(what))?;
    for note in &played.notes {
        tell(&arguments.name(), &format!("{}: {note}", input.name()));
    }
    for (venue, sheet) in played.sheets.iter().enumerate() {
        write!(out, "# venue {venue}\n{}", print_sheet(sheet))?;
        let waiting = played.waiting[venue];
        if waiting > 0 {
            let what = format!("{waiting} still waiting for venue {venue}");
            tell(&arguments.name(), &what);
        }
    }
    Ok(())
}
