//! `venue check`: random sessions with every check.

use super::generate::profile;
use super::Command;
use crate::arguments::Arguments;
use crate::output::Out;
use crate::{Failure, Outcome};
use sessions::coverage::Coverage;
use sessions::profile::Profile;
use sessions::progress::Progress;
use sessions::soak::check_session;
use std::io::Write;

pub static COMMAND: Command = Command {
    name: "check",
    form: "[--seed N] [--messages M] [--profile P] [--sessions K] [--complete]",
    about: "random sessions with every check",
    flags: &["--complete"],
    valued: &["--profile", "--seed", "--messages", "--sessions"],
    words: 0,
    help: || HELP.to_string(),
    perform: check,
};

const HELP: &str = "\
Random sessions over all profiles, or one, with every check after every message,
from seed N (default 0) on, until M messages (default 100000) or K sessions were
done: the reference and the plain model are driven side by side. How far it is
stands in one line on standard error, where that is a terminal; the coverage is
printed at the end. A violation is named with the profile and seed that repeat it:

  venue check --profile P --seed N --sessions 1

With --complete it is an error if some record, cause, refusal or rare case was
not shown.
";

fn check(arguments: &Arguments, out: &mut Out) -> Outcome {
    let profiles = match arguments.option("--profile") {
        Some(name) => vec![profile(name)?],
        None => Profile::ALL.to_vec(),
    };
    let seed = arguments.number("--seed", Some(0))?;
    let messages = arguments.number("--messages", Some(100_000))?;
    let sessions = arguments.number("--sessions", Some(u64::MAX))?;
    let mut coverage = Coverage::default();
    let mut progress = Progress::on_standard_error();
    while coverage.messages < messages && coverage.sessions < sessions {
        let count = profiles.len() as u64;
        let profile = profiles[(coverage.sessions % count) as usize];
        let session_seed = seed.wrapping_add(coverage.sessions / count);
        check_session(profile, session_seed, &mut coverage)
            .map_err(|failure| Failure::Input(failure.to_string()))?;
        progress.show(|| {
            let (done, sessions) = (coverage.messages, coverage.sessions);
            format!("{done} of {messages} messages, {sessions} sessions, no violation")
        });
    }
    drop(progress);
    write!(out, "{coverage}")?;
    let missing = coverage.missing();
    if arguments.has("--complete") && !missing.is_empty() {
        let what = format!("not shown: {}", missing.join("; "));
        return Err(Failure::Disagreement(what));
    }
    Ok(())
}
