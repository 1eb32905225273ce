//! The desk's commands as a user meets them: audit, explain, and what is written as JSON
//! and as values between commas.

mod audit;
mod explain;
mod json;
#[path = "../common/run.rs"]
mod run;

pub use run::venue;
use std::path::PathBuf;

pub const PRINTED_TEXT: &str = include_str!("../sessions/printed.txt");

pub fn text(bytes: Vec<u8>) -> String {
    String::from_utf8(bytes).unwrap()
}

/// The output of a command that succeeds.
pub fn good(arguments: &[&str], input: &[u8]) -> String {
    let output = venue(arguments, input);
    let errors = String::from_utf8_lossy(&output.stderr);
    assert_eq!(output.status.code(), Some(0), "{arguments:?}: {errors}");
    text(output.stdout)
}

/// The output and the errors of a command that ends with a status.
pub fn ended(arguments: &[&str], input: &[u8], status: i32) -> (String, String) {
    let output = venue(arguments, input);
    let (told, errors) = (text(output.stdout), text(output.stderr));
    assert_eq!(
        output.status.code(),
        Some(status),
        "{arguments:?}: {told}{errors}"
    );
    (told, errors)
}

/// A file that is gone when the test ends.
pub struct Kept(PathBuf);

impl Kept {
    pub fn new(name: &str, contents: impl AsRef<[u8]>) -> Self {
        let file = format!("desk-{}-{name}", std::process::id());
        let path = std::env::temp_dir().join(file);
        std::fs::write(&path, contents).unwrap();
        Kept(path)
    }

    pub fn path(&self) -> &str {
        self.0.to_str().unwrap()
    }
}

impl Drop for Kept {
    fn drop(&mut self) {
        let _ = std::fs::remove_file(&self.0);
    }
}

/// A drawn session as text, and its sheet.
pub fn drawn(profile: &str, seed: &str, messages: &str) -> (String, String) {
    let arguments = ["generate", "--text", "--profile", profile, "--seed", seed];
    let session = good(&[&arguments[..], &["--messages", messages]].concat(), b"");
    let sheet = good(&["sheet", "--text"], session.as_bytes());
    (session, sheet)
}
