//! The program: its tables, its errors, its exit status.

use sessions::progress::run_on_terminal;
use std::process::Command;

fn bench(arguments: &[&str]) -> (bool, String, String) {
    let output = Command::new(env!("CARGO_BIN_EXE_bench"))
        .args(arguments)
        .output()
        .expect("the program starts");
    let text = |bytes: Vec<u8>| String::from_utf8(bytes).expect("text");
    (
        output.status.success(),
        text(output.stdout),
        text(output.stderr),
    )
}

#[test]
fn every_table_has_its_rows() {
    let sizes = ["--rounds", "1", "--seeds", "1", "--sessions", "2"];
    for (table, rows) in [
        ("profiles", 17),
        ("blocks", 17),
        ("growing", 4),
        ("books", 8),
        ("layers", 42),
        ("feeds", 17),
        ("calls", 17),
        ("call-layers", 42),
        ("turns", 17),
        ("sets", 5),
    ] {
        let (succeeded, told, error) = bench(&[&[table], &sizes[..]].concat());
        assert!(succeeded, "{error}");
        let lines = told.lines().filter(|line| line.starts_with("| "));
        assert_eq!(lines.count(), rows + 1, "{told}");
        assert!(!told.contains("NaN") && !told.contains("inf"), "{told}");
    }
}

#[test]
fn the_row_that_is_timed_is_shown_on_a_terminal_alone() {
    let table = [
        "books", "profiles", "--rounds", "1", "--seeds", "1", "--only", "hits",
    ];
    let (succeeded, _, error) = bench(&table);
    assert_eq!((succeeded, error.as_str()), (true, ""));
    let output = run_on_terminal(env!("CARGO_BIN_EXE_bench"), &table).expect("python3 starts");
    let said = String::from_utf8_lossy(&output.stdout);
    assert!(output.status.success(), "{said}");
    for line in ["\rprofiles: ", "\rbooks: begins"] {
        assert!(said.contains(line), "{said}");
    }
    assert!(said.ends_with("\r\x1b[K"), "{said}");
}

#[test]
fn sessions_may_be_those_of_an_earlier_engine() {
    let sizes = ["--rounds", "1", "--seeds", "1", "--only", "ceiling"];
    for kinds in ["9", "10"] {
        let profiles = ["profiles", "--kinds", kinds];
        let (succeeded, told, error) = bench(&[&profiles, &sizes[..]].concat());
        assert!(succeeded && told.contains("| ceiling |"), "{error}");
    }
}

#[test]
fn one_contender_alone() {
    let (succeeded, told, _) = bench(&["spin", "hit", "--times", "1", "--who", "reference"]);
    assert!(
        succeeded && told.starts_with("hit: 1 runs by the reference"),
        "{told}"
    );
}

#[test]
fn a_wrong_command_line_is_told() {
    for (arguments, word) in [
        (&["what"][..], "\"what\""),
        (&["--rounds"], "number after --rounds"),
        (&["--kinds", "nine"], "number after --kinds"),
        (&["--rounds", "0"], "1 or more"),
        (&["--only", "what"], "no profile and no layer"),
        (&["spin"], "to spin"),
        (&["spin", "hit", "--who", "me"], "\"me\""),
    ] {
        let (succeeded, told, error) = bench(arguments);
        assert!(!succeeded && told.is_empty());
        assert!(error.contains(word), "{error}");
    }
}
