//! Long work shows how far it is on a terminal, and nothing elsewhere.

use sessions::progress::run_on_terminal;
use std::process::Command;

const CHECK: [&str; 5] = ["check", "--profile", "mixed", "--sessions", "1"];

#[test]
fn a_check_shows_on_a_terminal_how_far_it_is() {
    let output = run_on_terminal(env!("CARGO_BIN_EXE_venue"), &CHECK).expect("python3 starts");
    let said = String::from_utf8_lossy(&output.stdout);
    assert!(output.status.success(), "{said}");
    assert!(
        said.contains(" of 100000 messages, 1 sessions, no violation"),
        "{said}"
    );
    assert!(
        said.starts_with('\r') && said.ends_with("\r\x1b[K"),
        "{said}"
    );
}

#[test]
fn a_check_writes_nothing_else_where_there_is_no_terminal() {
    let output = Command::new(env!("CARGO_BIN_EXE_venue"))
        .args(CHECK)
        .output();
    let output = output.expect("the program starts");
    assert!(output.status.success());
    assert_eq!(String::from_utf8_lossy(&output.stderr), "");
}

#[test]
fn audit_and_explain_show_on_a_terminal_how_far_they_are() {
    let session = concat!(env!("CARGO_MANIFEST_DIR"), "/tests/sessions/printed.txt");
    for command in ["audit", "explain"] {
        let arguments = [command, "--text", session];
        let output = run_on_terminal(env!("CARGO_BIN_EXE_venue"), &arguments);
        let output = output.expect("python3 starts");
        let said = String::from_utf8_lossy(&output.stdout);
        assert!(output.status.success(), "{said}");
        let line = format!("\rvenue {command}: 1 message\x1b[K");
        assert!(said.contains(&line), "{said:?}");
        assert!(said.ends_with("\r\x1b[K"), "{said:?}");
    }
}

/// The lines that a tally of wrong definitions writes to standard error.
const TALLY: &str = "import sys\n\
    sys.path.insert(0, sys.argv[1])\n\
    sys.dont_write_bytecode = True\n\
    from wrong_definitions import Tally\n\
    tally = Tally(2, '', {})\n\
    tally.told(False, 'compiles-not', 'A.a', '')\n\
    tally.told(False, 'refused', 'A.b', '')\n\
    tally.progress('')\n";

#[test]
fn wrong_definitions_show_on_a_terminal_how_far_they_are() {
    let tests = concat!(env!("CARGO_MANIFEST_DIR"), "/../../tests");
    let output = run_on_terminal("python3", &["-c", TALLY, tests]).expect("python3 starts");
    let said = String::from_utf8_lossy(&output.stdout);
    assert!(output.status.success(), "{said}");
    assert!(said.contains("\r\x1b[K1 of 3 tried"), "{said}");
    assert!(said.contains("\r\x1b[K2 of 3 tried"), "{said}");
    assert!(said.ends_with("\r\x1b[K"), "{said}");
    let output = Command::new("python3").args(["-c", TALLY, tests]).output();
    let output = output.expect("python3 starts");
    assert_eq!(String::from_utf8_lossy(&output.stderr), "");
    let said = String::from_utf8_lossy(&output.stdout);
    assert_eq!(said, "compiles-not: A.a | \nrefused: A.b | \n");
}
