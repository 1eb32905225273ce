//! `venue generate`: a random session.

use super::Command;
use crate::arguments::{usage, Arguments};
use crate::output::Out;
use crate::{Failure, Outcome};
use sessions::message::Message;
use sessions::profile::Profile;
use sessions::soak::{Drawn, MOST_MESSAGES};
use std::ffi::OsStr;
use std::io::Write;

pub static COMMAND: Command = Command {
    name: "generate",
    form: "--profile P --seed N --messages M [--text]",
    about: "a random session",
    flags: &["--text"],
    valued: &["--profile", "--seed", "--messages"],
    words: 0,
    help,
    perform: generate,
};

fn help() -> String {
    let names: Vec<&str> = Profile::ALL.map(Profile::name).into();
    let lines: Vec<String> = names
        .chunks(9)
        .map(|some| format!("  {}\n", some.join(" ")))
        .collect();
    format!(
        "\
Writes a random session: bytes, or text with --text, of up to {MOST_MESSAGES} messages. Equal
arguments give equal sessions. The profiles:

{}",
        lines.concat()
    )
}

/// The profile that a word names.
pub fn profile(name: &OsStr) -> Result<Profile, Failure> {
    name.to_str().and_then(Profile::from_name).ok_or_else(|| {
        let names = Profile::ALL.map(Profile::name).join(", ");
        usage(format!("expected a profile ({names}), found {name:?}"))
    })
}

fn generate(arguments: &Arguments, out: &mut Out) -> Outcome {
    let Some(name) = arguments.option("--profile") else {
        return Err(usage("expected --profile P".to_string()));
    };
    let profile = profile(name)?;
    let seed = arguments.number("--seed", None)?;
    let messages = arguments.number("--messages", None)?;
    if messages > MOST_MESSAGES {
        let what = format!("expected at most {MOST_MESSAGES} messages, found {messages}");
        return Err(usage(what));
    }
    let is_text = arguments.has("--text");
    for message in Drawn::new(profile, seed, messages) {
        match is_text {
            true => writeln!(out, "{}", Message::decode(&message))?,
            false => out.write_all(&message)?,
        }
    }
    Ok(())
}
