//! The commands: one table, with the options of each and what performs it.

mod audit;
mod check;
mod compare;
mod explain;
mod feed;
mod four;
mod generate;
mod page;
mod print;
mod sets;
mod settings;
mod sheet;
mod short;
mod texts;

use crate::arguments::{usage, Arguments};
use crate::help;
use crate::output::Out;
use crate::Outcome;
use std::ffi::{OsStr, OsString};
use std::io::Write;

/// One command of the tool.
pub struct Command {
    pub name: &'static str,
    /// What stands after the name on the command line.
    pub form: &'static str,
    /// What it does, for the overview.
    pub about: &'static str,
    /// The options without a value.
    pub flags: &'static [&'static str],
    /// The options with a value.
    pub valued: &'static [&'static str],
    /// The most words beside the options.
    pub words: usize,
    /// What `venue help NAME` tells after the form.
    pub help: fn() -> String,
    pub perform: fn(&Arguments, &mut Out) -> Outcome,
}

/// Every command, in the order of the overview.
pub static COMMANDS: [&Command; 16] = [
    &sheet::COMMAND,
    &texts::ENCODE,
    &texts::DECODE,
    &print::COMMAND,
    &feed::COMMAND,
    &four::COMMAND,
    &short::COMMAND,
    &audit::COMMAND,
    &explain::COMMAND,
    &page::COMMAND,
    &settings::COMMAND,
    &sets::SET,
    &sets::RESUME,
    &compare::COMMAND,
    &generate::COMMAND,
    &check::COMMAND,
];

/// The options that every command has.
const HELP: [&str; 2] = ["--help", "-h"];
const VERSION: &str = "--version";

/// The command of a name.
pub fn find(name: &OsStr) -> Option<&'static Command> {
    COMMANDS
        .iter()
        .copied()
        .find(|command| name == command.name)
}

/// The name that errors of a command line tell, and where to read more.
pub fn told_name(words: &[OsString]) -> (String, String) {
    match words.first().and_then(|name| find(name)) {
        Some(Command { name, .. }) => (format!("venue {name}"), format!("venue help {name}")),
        None => ("venue".to_string(), "venue help".to_string()),
    }
}

/// Does what a command line asks for.
pub fn perform(words: &[OsString], out: &mut Out) -> Outcome {
    let Some((name, rest)) = words.split_first() else {
        return Err(usage("expected a command".to_string()));
    };
    if name == "help" || HELP.iter().any(|help| name == help) {
        return print_help(rest, out);
    }
    if name == VERSION {
        return print_version(out);
    }
    let Some(command) = find(name) else {
        return Err(usage(format!("command {name:?} is not known")));
    };
    if HELP.iter().any(|option| asks(rest, option)) {
        return Ok(write!(out, "{}", help::of(command))?);
    }
    if asks(rest, VERSION) {
        return print_version(out);
    }
    (command.perform)(&Arguments::parse(command, rest)?, out)
}

/// Whether an option stands among words, before a `--`.
fn asks(words: &[OsString], option: &str) -> bool {
    let options = words.iter().take_while(|word| *word != "--");
    options.into_iter().any(|word| word == option)
}

fn print_help(rest: &[OsString], out: &mut Out) -> Outcome {
    if let Some(extra) = rest.get(1) {
        return Err(usage(format!("argument {extra:?} is one too many")));
    }
    let Some(asked) = rest.first() else {
        return Ok(write!(out, "{}", help::overview())?);
    };
    let told = find(asked).map(help::of);
    match told.or_else(|| help::topic(asked)) {
        Some(told) => Ok(write!(out, "{told}")?),
        None => Err(usage(format!("command {asked:?} is not known"))),
    }
}

fn print_version(out: &mut Out) -> Outcome {
    Ok(writeln!(out, "venue {}", env!("CARGO_PKG_VERSION"))?)
}

#[cfg(test)]
mod tests {
    use super::*;

    #[test]
    fn every_option_is_told_in_the_help_of_its_command() {
        for command in COMMANDS {
            let told = help::of(command);
            for option in command.flags.iter().chain(command.valued) {
                assert!(told.contains(option), "{option} of {}", command.name);
                let form = command.form.contains(option) || *option == "--bytes";
                assert!(form, "{option} in the form of {}", command.name);
            }
        }
    }

    #[test]
    fn names_are_all_different() {
        for (index, command) in COMMANDS.iter().enumerate() {
            let same = COMMANDS.iter().position(|other| other.name == command.name);
            assert_eq!(same, Some(index), "{}", command.name);
        }
    }
}
