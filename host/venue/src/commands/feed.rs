//! `venue feed`: the sheet of two lines of one feed.

use super::Command;
use crate::arguments::Arguments;
use crate::output::{tell, Out};
use crate::{Failure, Outcome};
use sessions::feed::{hand_out, Line, Stop};
use sessions::record::{print_sheet, read_report};
use sessions::sheet::feed_whole;
use sessions::text::encode_line;
use std::io::Write;

pub static COMMAND: Command = Command {
    name: "feed",
    form: "[--text] MAIN SPARE",
    about: "print the sheet of two lines of one feed",
    flags: &["--text", "--bytes"],
    valued: &[],
    words: 2,
    help: || HELP.to_string(),
    perform: feed,
};

const HELP: &str = "\
Runs the messages that come over a main and a spare line, from a fresh venue, with
report memory that never fills, and prints the sheet. MAIN and SPARE are lines of
bytes, or of text with --text; one of them may be -. Bytes that look like text are an
error; --bytes takes them as bytes. Standard error tells how many messages each line
served and what stopped them:

  0   neither line has more
  19  both lines have the number, but their bytes differ
  20  neither line has the number, though a later one stands on either
  21  a line is torn, does not rise or has a length below 4 or number 0: nothing
      is done, and the byte of each line's first fault is told

With 19 to 21 the exit status is 1.
";

/// The sheet of what two lines hand out; who served it and what stopped it is told
/// beside it.
fn feed(arguments: &Arguments, out: &mut Out) -> Outcome {
    let form = arguments.form()?;
    let lines = arguments.two_inputs("MAIN and SPARE")?;
    let [main, spare] = lines.map(|line| line.given(form, encode_line));
    let (main, spare) = (main?, spare?);
    let (returned, report) = feed_whole(&main, &spare);
    let handed = hand_out(&main, &spare);
    if (returned.number, returned.done as usize) != (handed.stop.number(), handed.messages.len()) {
        let what = "the reference and the reading of its lines do not agree";
        return Err(Failure::Input(what.to_string()));
    }
    let records = read_report(&report).map_err(Failure::Input)?;
    write!(out, "{}", print_sheet(&records))?;
    let [main, spare] = Line::BOTH.map(|line| handed.served(line));
    let told = format!(
        "messages served: main {main}, spare {spare}; number {}: {}",
        returned.number, handed.stop
    );
    match handed.stop {
        Stop::End => {
            tell(&arguments.name(), &told);
            Ok(())
        }
        _ => Err(Failure::Disagreement(told)),
    }
}
