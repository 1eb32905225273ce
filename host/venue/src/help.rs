//! The help texts that are of no command alone, and how those of the commands are told.

use crate::commands::{Command, COMMANDS};
use crate::json_form::JSON_FORM;
use std::ffi::OsStr;

/// Where the overview tells what a command does.
const COLUMN: usize = 40;

// Without a line break first: that would take the blanks of the line after it away.
const END: &str =
    "  venue help [COMMAND | TOPIC]          this text, or more of one command or topic
  venue --version                       the version

Where FILE is left out or is -, standard input is read. A session is message bytes;
with --text it is text, one message a line. Bytes that look like text are an error;
--bytes takes them as bytes. An option's value may follow it or a =, as --seed=7; what
follows -- is a file's name. Every command tells more with --help or -h.

Where the input is wrong, up to 64 KiB of output are not written, and of more there is
the first part. The exit status is 0 for success, 1 for bad input or something that does
not agree, 2 for a wrong command line, 141 where nobody reads the output any more.
";

pub const TEXT_FORM: &str = "\
The text form, one message a line:

  order ID SIDE QUANTITY series SERIES at PRICE
                            also: ... at PRICE shows QUANTITY, an order with reserve
  complex ID SIDE SERIES SIDE SERIES class CLASS net LIMIT quantity QUANTITY
                            also: ... ratio RATIO RATIO, of unequal ratios
  cancel ID
  away SERIES bid PRICE offer PRICE
  status SERIES STATUS      also: open SERIES, close SERIES, auction SERIES
  sweep
  limited MOST              a sweep of so many resting orders
  increment SERIES INCREMENT EDITION
  percent PERCENT EDITION
  raw HEX HEX ...           any bytes, two hexadecimal digits each

SIDE is buy, sell or side=NUMBER. STATUS is open, closed, auction or
status=NUMBER. Any number that fits its field's width may be written, so that
refused messages can be too. # begins a comment; blank lines are passed over.

A line of a feed has each message after its number, in bytes a u32:

  NUMBER MESSAGE            as: 3 order 1 sell 15 series 0 at 130
  raw HEX HEX ...           bytes that no number goes before
";

pub const SET_FORM: &str = "\
A set in text, one record a line, in this order:

  set MESSAGE last ID       the number of the last message, the last id accepted;
                            also: short MESSAGE last ID, which begins a short set
  status SERIES STATUS      and then
  away SERIES bid PRICE offer PRICE, for each series in turn
  increment SERIES INCREMENT EDITION message NUMBER
  percent PERCENT EDITION message NUMBER
                            editions, rising; NUMBER is of the message that entered it
  order ...                 resting orders of both books by rising id, as in a session,
  complex ...               with what is left of them; an order shows QUANTITY
  legging ID SIDE QUANTITY series SERIES at PRICE
                            by rising place, 2 x SERIES and 1 more to sell
  generated SERIES message NUMBER
                            the last 20 of each series, oldest first
  reached ID                the last id that a limited sweep looked at

A short set has no editions, no generated and no reached, and its orders show all.
";

/// Help that is asked for by a word which is no command.
const TOPICS: [(&str, fn() -> String); 2] = [
    ("text", || format!("{TEXT_FORM}\n{SET_FORM}")),
    ("json", || JSON_FORM.to_string()),
];

/// All commands, and the text form.
pub fn overview() -> String {
    let commands: String = COMMANDS.iter().map(|command| line_of(command)).collect();
    let title = "venue: session tools for the legging order engine";
    format!("{title}\n\n{commands}{END}\n{TEXT_FORM}")
}

/// A command in the overview.
fn line_of(command: &Command) -> String {
    let mut told = format!("  {}", form_of(command));
    for about in command.about.lines() {
        if told.len() >= COLUMN {
            told.push('\n');
        }
        let line = told.rfind('\n').map_or(0, |end| end + 1);
        let blanks = COLUMN - (told.len() - line);
        told += &format!("{}{about}", " ".repeat(blanks));
    }
    told + "\n"
}

fn form_of(command: &Command) -> String {
    format!("venue {} {}", command.name, command.form)
}

/// The help of one command.
pub fn of(command: &Command) -> String {
    format!("{}\n\n{}", form_of(command), (command.help)())
}

/// The help of a topic.
pub fn topic(name: &OsStr) -> Option<String> {
    let found = TOPICS.iter().find(|(topic, _)| name == *topic);
    found.map(|(_, told)| told())
}

#[cfg(test)]
mod tests {
    use super::*;

    #[test]
    fn the_overview_is_told_in_two_columns() {
        let told = overview();
        let lines: Vec<&str> = told.lines().skip(2).collect();
        assert!(lines.iter().all(|line| line.len() <= 90), "{told}");
        for command in COMMANDS {
            let about = command.about.lines().next().unwrap_or_default();
            let found = lines.iter().any(|line| line.find(about) == Some(COLUMN));
            assert!(found, "{}: {told}", command.name);
        }
    }
}
