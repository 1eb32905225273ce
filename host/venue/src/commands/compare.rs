//! `venue compare`: the engine against the reference on a session of the user's own.

use super::Command;
use crate::arguments::{usage, Arguments};
use crate::output::Out;
use crate::{Failure, Outcome};
use std::os::unix::process::CommandExt;
use std::process::Command as Program;

pub static COMMAND: Command = Command {
    name: "compare",
    form: "[--text] SESSION",
    about: "the engine against the reference on a session",
    flags: &["--text", "--bytes"],
    valued: &[],
    words: 1,
    help: || HELP.to_string(),
    perform: compare,
};

const HELP: &str = "\
Takes the session by the engine's archive and by the reference, and compares them: the run
of all of it, with report memory that just fits and with more; each message by a one-message
call upon the venue that the last one left; and the sheets of both. Compared are the
numbers, every byte of the reports and of the venues, and the bytes around them. The first
difference is told, and the exit status is 1. Bytes that look like text are an error;
--bytes takes them as bytes.

This tool links no archive: the program compare does it, which is started from the folder
that this tool stands in. bin/venue compare builds it, and proves the engine before that
where it is not proved yet.
";

/// How the program is built, from the top of the repository.
const BUILT_BY: &str = "\
build it from the top of the repository with
  bin/venue compare SESSION
or by hand with
  (cd crates/c_api_c && rt lib) && (cd crates/dispatch_c && rt lib)
  mkdir -p target/staticlib
  cp crates/c_api_c/out/libc_api_c.a target/staticlib/libc_api.a
  cp crates/dispatch_c/out/libdispatch_c.a target/staticlib/libdispatch.a
  cargo build --release --offline --manifest-path host/Cargo.toml -p venue -p compare";

/// Becomes the program compare; what comes back is a failure to.
fn compare(arguments: &Arguments, _: &mut Out) -> Outcome {
    let Some(session) = arguments.word(0) else {
        return Err(usage("expected a session to compare".to_string()));
    };
    let (is_text, any_bytes) = arguments.either("--text", "--bytes")?;
    let own = std::env::current_exe().map_err(|error| Failure::Input(error.to_string()))?;
    let beside = own.with_file_name("compare");
    if !beside.is_file() {
        let what = format!("the program is not there: {}\n{BUILT_BY}", beside.display());
        return Err(Failure::Input(what));
    }
    let mut program = Program::new(&beside);
    program.arg("session");
    program.args(is_text.then_some("--text"));
    program.args(any_bytes.then_some("--bytes"));
    let error = program.arg("--").arg(session).exec();
    let what = format!("{} was not started: {error}", beside.display());
    Err(Failure::Input(what))
}
