//! The program: its output, its errors, its exit status.

use sessions::progress::run_on_terminal;
use std::process::Command;

fn compare(arguments: &[&str]) -> (i32, String, String) {
    let output = Command::new(env!("CARGO_BIN_EXE_compare"))
        .args(arguments)
        .output()
        .expect("the program starts");
    let text = |bytes: Vec<u8>| String::from_utf8(bytes).expect("text");
    let status = output.status.code().expect("a status");
    (status, text(output.stdout), text(output.stderr))
}

#[test]
fn one_session_without_a_difference() {
    let (status, told, _) = compare(&["session", "--profile", "hits", "--seed", "2"]);
    assert_eq!(status, 0);
    assert!(told.starts_with("no difference\n"), "{told}");
    assert!(told.contains("             1  sessions\n"), "{told}");
}

#[test]
fn a_soak_ends_with_the_messages_asked_for() {
    let (status, told, error) = compare(&["soak", "--messages", "100", "--seed", "4"]);
    assert_eq!((status, error.as_str()), (0, ""));
    assert!(told.starts_with("no difference\n"), "{told}");
}

#[test]
fn a_soak_shows_on_a_terminal_how_far_it_is() {
    let soak = ["soak", "--messages", "100", "--seed", "4"];
    let output = run_on_terminal(env!("CARGO_BIN_EXE_compare"), &soak).expect("python3 starts");
    let said = String::from_utf8_lossy(&output.stdout);
    assert!(output.status.success(), "{said}");
    assert!(said.contains(" of 100 messages, no difference"), "{said}");
    assert!(
        said.starts_with('\r') && said.ends_with("\r\x1b[K"),
        "{said}"
    );
}

#[test]
fn a_difference_names_what_repeats_it() {
    let arguments = ["gate", "--fault", "run-torn:after-report"];
    let (status, told, error) = compare(&arguments);
    assert_eq!((status, told.as_str()), (1, ""));
    let line = "compare: profile mixed seed 0: a run of a list cut off\n";
    assert!(error.starts_with(line), "{error}");
    assert!(error.contains("outside the report memory"), "{error}");
    assert!(
        error.ends_with("session --profile mixed --seed 0\n"),
        "{error}"
    );
}

/// A session in a file that is gone when the test ends.
struct Kept(std::path::PathBuf);

impl Kept {
    fn new(name: &str, contents: &[u8]) -> Self {
        let file = format!("compare-{}-{name}", std::process::id());
        let path = std::env::temp_dir().join(file);
        std::fs::write(&path, contents).expect("the file is written");
        Kept(path)
    }

    fn path(&self) -> &str {
        self.0.to_str().expect("a name that is text")
    }
}

impl Drop for Kept {
    fn drop(&mut self) {
        let _ = std::fs::remove_file(&self.0);
    }
}

const PRINTED: &str = include_str!("../../venue/tests/sessions/printed.txt");

#[test]
fn a_session_of_ones_own_without_a_difference() {
    let text = Kept::new("printed.txt", PRINTED.as_bytes());
    let told =
        "no difference: 6 messages, 13 records, by a run, by one-message calls and on the sheet\n";
    let (status, found, error) = compare(&["session", "--text", text.path()]);
    assert_eq!((status, found.as_str()), (0, told), "{error}");
    let list = sessions::text::encode_session(PRINTED).expect("good text");
    let bytes = Kept::new("printed.bytes", &list);
    let (status, found, _) = compare(&["session", "--", bytes.path()]);
    assert_eq!((status, found.as_str()), (0, told));
    let torn = Kept::new("torn.bytes", &[4, 0, 6, 0, 9, 0, 6]);
    let (status, found, _) = compare(&["session", torn.path()]);
    assert!(
        found.starts_with("no difference: 2 messages, 2 records,"),
        "{found}"
    );
    assert_eq!(status, 0);
    let (status, found, _) = compare(&["session", "/dev/null"]);
    assert!(
        found.starts_with("no difference: 0 messages, 0 records,"),
        "{found}"
    );
    assert_eq!(status, 0);
}

#[test]
fn a_difference_on_ones_own_session_is_told_with_its_file() {
    let text = Kept::new("fault.txt", PRINTED.as_bytes());
    for (fault, told) in [
        ("fresh:venue", "a fresh venue"),
        ("call:number", "a one-message call: 0 messages before"),
        ("call:report", "a one-message call: 0 messages before"),
        ("call:venue", "a one-message call: 0 messages before"),
        (
            "replay:report",
            "the records of a one-message call, replayed",
        ),
        (
            "run-whole:report",
            "a run with room for all: report memory of",
        ),
    ] {
        let (status, found, error) = compare(&["session", "--text", text.path(), "--fault", fault]);
        let start = format!("compare: {}: {told}", text.path());
        assert!(error.starts_with(&start), "{fault}: {error}");
        assert_eq!((status, found.as_str()), (1, ""));
    }
}

#[test]
fn a_session_that_is_not_read_is_told_with_its_file() {
    let text = Kept::new("wrong.txt", b"sweep\nswep\n");
    for (arguments, told) in [
        (
            &["session", "--text", text.path()][..],
            "line 2: expected a message",
        ),
        (
            &["session", text.path()],
            "this looks like text: use --text",
        ),
    ] {
        let (status, _, error) = compare(arguments);
        let start = format!("compare: {}: {told}", text.path());
        assert!(error.starts_with(&start), "{error}");
        assert_eq!(status, 1);
    }
    let (status, _, error) = compare(&["session", "no-such-file"]);
    assert!(error.starts_with("compare: no-such-file: "), "{error}");
    assert_eq!(status, 1);
}

#[test]
fn a_wrong_command_line_is_told() {
    for (arguments, word) in [
        (&[][..], "expected a command"),
        (&["go"], "\"go\""),
        (&["gate", "--seed", "1"], "--seed"),
        (&["soak", "--minutes"], "value after --minutes"),
        (&["soak", "--minutes", "x"], "\"x\""),
        (&["session", "--seed", "1"], "--profile P"),
        (&["session"], "--profile P and --seed S, or FILE"),
        (&["session", "a", "b"], "\"b\" is one too many"),
        (&["session", "--txt", "a"], "option --txt"),
        (&["session", "a", "--fault"], "CHECK:PART"),
        (&["session", "--profile", "none"], "mixed, few-series"),
        (&["gate", "--fault", "run:what"], "CHECK:PART"),
    ] {
        let (status, told, error) = compare(arguments);
        assert_eq!((status, told.as_str()), (2, ""), "{error}");
        assert!(error.contains(word), "{error}");
    }
}

#[test]
fn help_is_printed() {
    let (status, told, _) = compare(&["help"]);
    assert_eq!(status, 0);
    assert!(told.starts_with("compare: "));
}
