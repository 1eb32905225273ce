//! `venue settings`: what held at a message number.

use super::Command;
use crate::arguments::{usage, Arguments};
use crate::output::{tell, Out};
use crate::Outcome;
use sessions::counted::counted;
use sessions::settings::InForce;
use sessions::sheet::run_whole;
use std::io::Write;

pub static COMMAND: Command = Command {
    name: "settings",
    form: "[--text] SESSION NUMBER",
    about: "increments and percent at a message number",
    flags: &["--text", "--bytes"],
    valued: &[],
    words: 2,
    help: || HELP.to_string(),
    perform: settings,
};

const HELP: &str = "\
Tells what held at message NUMBER of the session: the increment of each series and
the percentage of the band, each with its edition and the message that entered it.
A setting holds from its own message on; before the first, edition 0 holds.
Bytes that look like text are an error; --bytes takes them as bytes.
";

fn settings(arguments: &Arguments, out: &mut Out) -> Outcome {
    let (Some(_), Some(number)) = (arguments.word(0), arguments.word(1)) else {
        return Err(usage("expected a session and a message number".to_string()));
    };
    let number = number.to_string_lossy();
    let asked: u32 = number.parse().map_err(|_| {
        let what = "expected a message number from 0 to 4294967295";
        usage(format!("{what}, found {number:?}"))
    })?;
    let input = arguments.input(0);
    let (returned, _) = run_whole(&input.session(arguments.form()?)?);
    if asked > returned.done {
        let done = counted(returned.done.into(), "message");
        let what = format!("{}: the session has {done}", input.name());
        tell(
            &arguments.name(),
            &format!("{what}; told is what it leaves"),
        );
    }
    let in_force = InForce::at(&returned.venue, asked);
    Ok(write!(out, "message {asked}\n{in_force}")?)
}
