//! `venue set` and `venue resume`: a session carried over an upgrade.

use super::sheet::print_run;
use super::Command;
use crate::arguments::{usage, Arguments};
use crate::help::SET_FORM;
use crate::input::Input;
use crate::output::{tell, Out};
use crate::printed::Printed;
use crate::{Failure, Outcome};
use reference::Venue;
use sessions::checked_file::{verify, write_checked};
use sessions::counted::counted;
use sessions::message::split;
use sessions::set::{decode_set, encode_set, line_at};
use sessions::set_generator::set_of;
use sessions::set_reader::{first_unsound, look_at, Refused};
use sessions::sheet::{run_whole, Running};
use sessions::stream::Form;
use std::io::Write;
use std::path::Path;

pub static SET: Command = Command {
    name: "set",
    form: "[--text] [--after N] [--output FILE] [SESSION]",
    about: "the set that carries a session over an upgrade",
    flags: &["--text", "--bytes"],
    valued: &["--after", "--output"],
    words: 1,
    help: || format!("{SET_HELP}\n{SET_FORM}"),
    perform: set,
};

pub static RESUME: Command = Command {
    name: "resume",
    form: "[--text] [--unchecked] SET SESSION",
    about: "print the sheet of a session that goes on there",
    flags: &["--text", "--bytes", "--unchecked"],
    valued: &[],
    words: 2,
    help: || format!("{RESUME_HELP}\n{SET_FORM}"),
    perform: resume,
};

const SET_HELP: &str = "\
Runs the session from a fresh venue, or its first N messages, and writes the set of the
venue left and of the number of its last message: the records that legging_write_set
writes. SESSION is message bytes and the set is bytes; with --text both are text.
Bytes that look like text are an error; --bytes takes them as bytes.

With --output FILE the set goes to FILE, whole or not at all: it is written to FILE.new,
which is synced and renamed, and its length and SHA-256 to FILE.sha256. A crash leaves the
old FILE or the new one. Without it the set goes to standard output.

At the upgrade the host stops between two messages, writes its set to a file, and the
new engine reads it. To see what it carries, that it is whole, and that it is what the
morning came to:

  venue decode --set noon.set
  sha256sum -c noon.set.sha256
  venue set morning.bin | cmp - noon.set
";

const RESUME_HELP: &str = "\
Goes on with the session's messages upon the venue of a set, and prints the sheet: the
records that a session not cut would have from there on, its message numbers too. SET
and SESSION are bytes, or text with --text; one of them may be -. Bytes that look like
text are an error; --bytes takes them as bytes. The set may be a short
one. With an empty session it says whether the set is read.

SET.sha256, which `venue set --output` and the hosts write, is asked for the length and
the checksum of SET: a set that differs, or has no such file beside it, is an error. With
--unchecked it is taken as it is. It is refused with

  16  where a record is torn, missing, out of order, one too many, or of a kind or
      length that the set has not
  9   where its venue is unsound, or a message number in it is above its own

and it is told which record is no set's and where it stands (with --text its line), or
what is unsound. Then the exit status is 1.
";

/// The set of the venue that a session leaves, or its first messages.
fn set(arguments: &Arguments, out: &mut Out) -> Outcome {
    let input = arguments.input(0);
    let form = arguments.form()?;
    let output = output_file(arguments)?;
    let mut list = input.session(form)?;
    let pieces = split(&list);
    let after = arguments.number("--after", Some(pieces.len() as u64))?;
    let Some(first) = usize::try_from(after).ok().and_then(|n| pieces.get(..n)) else {
        let has = counted(pieces.len() as u64, "message");
        return Err(input.fault(format!("the session has {has}, not {after}")));
    };
    list.truncate(first.iter().map(|piece| piece.len()).sum());
    let (returned, _) = run_whole(&list);
    let Some(set) = set_of(&returned.venue, returned.done) else {
        return Err(input.fault("the venue that the session leaves was not written"));
    };
    if returned.number == 1 {
        let done = returned.done;
        let what = format!("{}: message {done} is torn, and the last", input.name());
        tell(&arguments.name(), &what);
    }
    let written = match form {
        Form::Text => decode_set(&set).into_bytes(),
        _ => set,
    };
    match output {
        Some(file) => write_checked(file, &written).map_err(Failure::Input),
        None => Ok(out.write_all(&written)?),
    }
}

/// The file that a set is to be written to; standard output where none is named.
fn output_file(arguments: &Arguments) -> Result<Option<&Path>, Failure> {
    match arguments.option("--output") {
        Some(file) if file == "-" => Err(usage(
            "expected a file after --output, found -; left out, the set goes to standard output"
                .to_string(),
        )),
        file => Ok(file.map(Path::new)),
    }
}

/// The venue of a set and the number of its last message; the reference must read the same.
fn carried_by(set: &[u8]) -> Result<(Venue, u32), Refused> {
    let read = reference::read_set(set);
    let looked = look_at(set);
    let agrees = match &looked {
        Ok((venue, number)) => (read.number, &read.venue, read.message) == (0, venue, *number),
        Err(refused) => read.number == refused.number,
    };
    match agrees {
        true => looked,
        false => Err(Refused {
            number: read.number,
            byte: None,
            what: "the reference and the reading of its records do not agree".to_string(),
        }),
    }
}

/// Asks the file beside a set's whether these are the bytes that were written.
fn ask_checksum(input: Input, bytes: &[u8]) -> Outcome {
    let asked = match input.path() {
        Some(file) => verify(file, bytes),
        None => Err("there is no checksum beside it".to_string()),
    };
    asked.map_err(|what| input.fault(format!("{what}; --unchecked takes it as it is")))
}

/// Reads a set. What is wrong with a text of one is told with its line.
fn read_set(input: Input, form: Form, unchecked: bool) -> Result<(Venue, u32), Failure> {
    let bytes = input.whole()?;
    if !unchecked {
        ask_checksum(input, &bytes)?;
    }
    if form != Form::Text {
        let set = input.given_of(bytes, form, encode_set)?;
        return carried_by(&set).map_err(|refused| input.fault(refused));
    }
    let text = input.text_of(bytes)?;
    let set = encode_set(&text).map_err(|error| input.fault(error))?;
    carried_by(&set).map_err(|refused| {
        let byte = refused.byte.or_else(|| first_unsound(&set));
        match byte.and_then(|byte| line_at(&text, byte)) {
            Some(line) => input.fault(format!("line {line}: {refused}")),
            None => input.fault(refused),
        }
    })
}

/// The sheet of a session that goes on where a set was written.
fn resume(arguments: &Arguments, out: &mut Out) -> Outcome {
    let [set, session] = arguments.two_inputs("SET and SESSION")?;
    let form = arguments.form()?;
    let (venue, number) = read_set(set, form, arguments.has("--unchecked"))?;
    let mut messages = session.messages(form)?;
    let running = Running::upon(venue, number);
    print_run(running, &mut messages, session, Printed::Lines, out)
}
