//! One version: the file VERSION, and all that tell it. What bin/install fills in from that
//! file is tested with it, in host/legging.

use std::process::Command;

const VERSION: &str = include_str!("../../../VERSION");
const HEADER: &str = include_str!("../../../include/legging.h");
const CHANGES: &str = include_str!("../../../CHANGELOG.md");

fn version() -> &'static str {
    VERSION.strip_suffix('\n').expect("one line")
}

/// What a macro of the header stands for.
fn in_header(name: &str) -> &'static str {
    let defined = HEADER
        .lines()
        .filter_map(|line| line.strip_prefix("#define "));
    let mut pairs = defined.filter_map(|rest| rest.split_once(' '));
    let found = pairs.find(|(defined, _)| *defined == name);
    found.expect("the header has it").1.trim()
}

#[test]
fn the_header_has_the_version() {
    assert_eq!(in_header("LEGGING_VERSION"), format!("{:?}", version()));
    let parts =
        ["MAJOR", "MINOR", "PATCH"].map(|part| in_header(&format!("LEGGING_VERSION_{part}")));
    assert_eq!(parts.join("."), version());
}

#[test]
fn the_list_of_changes_begins_with_the_version() {
    let first = CHANGES.lines().find_map(|line| line.strip_prefix("## "));
    assert_eq!(first, Some(version()));
}

#[test]
fn the_tool_tells_the_version() {
    let output = Command::new(env!("CARGO_BIN_EXE_venue"))
        .arg("--version")
        .output()
        .expect("venue starts");
    let told = String::from_utf8(output.stdout).expect("text");
    assert_eq!(told, format!("venue {}\n", version()));
}
