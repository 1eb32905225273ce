//! The file that the proved program, crates/short_sheets, is compared with in the gate: what it holds is
//! the reference's.
//!
//! With STORE set it is written anew: `STORE=1 cargo test -p venue --test short`.

use sessions::short::{parse_list, print_short, FIXED};
use std::fs;
use std::path::{Path, PathBuf};
use std::process::{Command, Output};

const SESSIONS: usize = 1_885;
const LINES: usize = 7_860;

fn stored() -> PathBuf {
    Path::new(env!("CARGO_MANIFEST_DIR")).join("../../crates/short_sheets/stdout")
}

/// A line of places: a record's line begins with its kind, which is no place.
fn is_session(line: &str) -> bool {
    line.split_whitespace()
        .all(|word| word.parse::<usize>().is_ok_and(|place| place <= 12))
}

#[test]
fn stored_sessions_are_the_references() {
    let printed = print_short(&parse_list(FIXED).unwrap()).unwrap();
    if std::env::var_os("STORE").is_some() {
        fs::write(stored(), &printed).unwrap();
    }
    assert!(fs::read_to_string(stored()).unwrap() == printed);
    assert_eq!(
        printed.lines().filter(|line| is_session(line)).count(),
        SESSIONS
    );
    assert_eq!(printed.lines().count(), LINES);
}

fn venue(arguments: &[&str]) -> Output {
    let program = env!("CARGO_BIN_EXE_venue");
    Command::new(program).args(arguments).output().unwrap()
}

/// A list in a file of its own, and what is said of it.
fn short(name: &str, list: &str) -> Output {
    let file = std::env::temp_dir().join(format!("venue-short-{name}-{}", std::process::id()));
    fs::write(&file, list).unwrap();
    let output = venue(&["short", file.to_str().unwrap()]);
    fs::remove_file(&file).unwrap();
    output
}

#[test]
fn without_a_list_the_fixed_one_is_printed() {
    let output = venue(&["short"]);
    assert!(output.status.success() && output.stderr.is_empty());
    assert!(output.stdout == fs::read(stored()).unwrap());
}

#[test]
fn another_list_is_printed_in_the_same_order() {
    let output = short("two", "open 0\nsweep # and no more\n");
    let text = String::from_utf8(output.stdout).unwrap();
    let places: Vec<&str> = text.lines().filter(|line| is_session(line)).collect();
    let expected = [
        "", "1", "2", "1 1", "1 2", "2 1", "2 2", "1 1 1", "1 1 2", "1 2 1", "1 2 2", "2 1 1",
        "2 1 2", "2 2 1", "2 2 2",
    ];
    assert_eq!(places, expected);
    assert_eq!(short("none", "").stdout, b"\n");
}

#[test]
fn bad_lists_are_told_and_nothing_is_printed() {
    let thirteen = "sweep\n".repeat(13);
    let lists = [
        (
            "many",
            thirteen.as_str(),
            "line 13: expected at most 12 messages, found another",
        ),
        (
            "torn",
            "sweep\nraw 05 00 06 00\n",
            "line 2: its length field does not tell its bytes",
        ),
        ("word", "sweep\nswep\n", "line 2: expected"),
    ];
    for (name, list, told) in lists {
        let output = short(name, list);
        let errors = String::from_utf8(output.stderr).unwrap();
        assert_eq!(output.status.code(), Some(1), "{name}");
        assert!(output.stdout.is_empty(), "{name}");
        let start = format!("-{}: {told}", std::process::id());
        assert!(errors.contains(&start), "{errors}");
    }
}
