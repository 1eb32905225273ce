//! The venue program as a user meets it: output, errors and exit status.

#[path = "common/kept.rs"]
mod kept;
#[path = "common/run.rs"]
mod run;

use kept::Kept;
use run::venue;
use std::process::{Command, Stdio};

const PRINTED_TEXT: &str = include_str!("sessions/printed.txt");
const MAIN_TEXT: &str = include_str!("sessions/printed-main.txt");
const SPARE_TEXT: &str = include_str!("sessions/printed-spare.txt");

const PRINTED_SHEET: &str = "64 1 0 0 0\n64 2 0 0 0\n64 3 0 0 0\n64 4 0 0 0\n64 5 0 5 2\n\
    67 3 0 0 115 115 8\n67 3 1 0 75 75 8\n64 6 0 0 0\n65 0 1 115 5 4 3\n65 1 0 90 5 3 2\n\
    66 3 205 5\n68 3 0 0 3\n68 3 1 0 3\n";

/// The output of a command that succeeds.
fn good(arguments: &[&str], input: &[u8]) -> Vec<u8> {
    let output = venue(arguments, input);
    let errors = String::from_utf8_lossy(&output.stderr);
    assert_eq!(output.status.code(), Some(0), "{arguments:?}: {errors}");
    output.stdout
}

/// The error text of a command that fails and writes nothing.
fn bad(arguments: &[&str], input: &[u8], status: i32) -> String {
    let output = venue(arguments, input);
    assert_eq!(output.status.code(), Some(status), "{arguments:?}");
    assert!(output.stdout.is_empty(), "{arguments:?} wrote output");
    String::from_utf8(output.stderr).unwrap()
}

#[test]
fn printed_session_comes_out_to_the_letter_from_text_and_from_bytes() {
    let from_text = good(&["sheet", "--text"], PRINTED_TEXT.as_bytes());
    assert_eq!(String::from_utf8(from_text).unwrap(), PRINTED_SHEET);
    let bytes = good(&["encode"], PRINTED_TEXT.as_bytes());
    let from_bytes = good(&["sheet"], &bytes);
    assert_eq!(String::from_utf8(from_bytes).unwrap(), PRINTED_SHEET);
}

#[test]
fn decode_gives_text_that_encodes_to_the_same_bytes() {
    let bytes = good(&["encode"], PRINTED_TEXT.as_bytes());
    let text = good(&["decode"], &bytes);
    assert!(text.starts_with(b"status 0 open\nstatus 1 open\norder 1 sell 15 series 0 at 130\n"));
    assert_eq!(good(&["encode"], &text), bytes);
}

#[test]
fn bad_text_is_told_with_its_line_and_nothing_is_written() {
    for command in [
        &["encode"][..],
        &["sheet", "--text"],
        &["explain", "--text"],
        &["audit", "--text", "-"],
        &["settings", "--text", "-", "1"],
    ] {
        let errors = bad(command, b"open 0\norder 1 sell x series 0 at 130\n", 1);
        let expected = "line 2: expected a quantity, a number from 0 to 4294967295, found \"x\"";
        assert!(errors.contains(expected), "{errors}");
    }
}

#[test]
fn bytes_that_are_no_text_are_told_with_their_line() {
    let errors = bad(&["encode"], b"open 0\nopen 1\n\xff\xfe\n", 1);
    assert_eq!(
        errors,
        "venue encode: standard input: line 3: expected text, found other bytes\n"
    );
}

#[test]
fn wrong_command_lines_are_told_with_status_2() {
    let cases: [(&[&str], &str); 14] = [
        (&["feed"], "expected MAIN and SPARE"),
        (&["feed", "-"], "expected MAIN and SPARE"),
        (&["feed", "-", "-"], "only one of both can be -"),
        (&[], "expected a command"),
        (
            &["settings", "-"],
            "expected a session and a message number",
        ),
        (
            &["settings", "-", "4294967296"],
            "expected a message number from 0 to 4294967295, found \"4294967296\"",
        ),
        (&["shet"], "command \"shet\" is not known"),
        (&["sheet", "--txt"], "option --txt is not known here"),
        (
            &["sheet", "--text", "--text"],
            "option --text was given twice",
        ),
        (&["sheet", "a", "b"], "argument \"b\" is one too many"),
        (
            &[
                "generate",
                "--profile",
                "mix",
                "--seed",
                "1",
                "--messages",
                "1",
            ],
            "expected a profile (mixed,",
        ),
        (
            &["generate", "--profile", "mixed", "--messages", "1"],
            "expected --seed NUMBER",
        ),
        (
            &["check", "--seed", "one"],
            "expected a number after --seed, found \"one\"",
        ),
        (&["check", "--seed"], "expected a value after --seed"),
    ];
    for (arguments, expected) in cases {
        let errors = bad(arguments, b"", 2);
        assert!(errors.contains(expected), "{arguments:?}: {errors}");
    }
}

#[test]
fn missing_file_is_told_by_name() {
    let errors = bad(&["sheet", "no-such-file"], b"", 1);
    assert!(
        errors.starts_with("venue sheet: no-such-file: "),
        "{errors}"
    );
}

#[test]
fn help_names_every_command() {
    let text = String::from_utf8(good(&["help"], b"")).unwrap();
    for command in [
        "sheet", "encode", "decode", "print", "feed", "four", "short", "audit", "explain",
        "settings", "set", "resume", "compare", "generate", "check",
    ] {
        assert!(text.contains(&format!("venue {command}")), "{command}");
        let more = String::from_utf8(good(&["help", command], b"")).unwrap();
        assert!(more.starts_with(&format!("venue {command}")), "{command}");
        assert_eq!(good(&[command, "--help"], b""), more.into_bytes());
    }
}

#[test]
fn sheet_runs_a_session_of_any_length() {
    let sweeps = [4, 0, 6, 0].repeat(100_000);
    let lines = String::from_utf8(good(&["sheet"], &sweeps)).unwrap();
    assert_eq!(lines.lines().count(), 100_000);
    assert!(lines.ends_with("64 100000 0 0 0\n"));
    let text = good(&["sheet", "--text"], "sweep\n".repeat(100_000).as_bytes());
    assert_eq!(text, lines.into_bytes());
}

#[test]
fn sheet_runs_the_first_bytes_that_are_asked_for() {
    let sweeps = [4, 0, 6, 0].repeat(16_384 + 5);
    let output = venue(&["sheet", "--first", "65536"], &sweeps);
    let lines = String::from_utf8(output.stdout).unwrap();
    assert_eq!(lines.lines().count(), 16_384);
    assert!(lines.ends_with("64 16384 0 0 0\n"));
    let told = "venue sheet: standard input: only the first 65536 bytes are run\n";
    assert_eq!(String::from_utf8(output.stderr).unwrap(), told);
    let mut cut = vec![6, 0, 5, 0, 0, 1];
    cut.extend([4, 0, 6, 0].repeat(16_384));
    let output = venue(&["sheet", "--first=65536"], &cut);
    let lines = String::from_utf8(output.stdout).unwrap();
    assert!(lines.ends_with("64 16383 0 0 0\n64 16384 1 0 0\n"));
    let output = venue(&["sheet", "--first=65542"], &cut);
    assert!(output.stdout.ends_with(b"64 16385 0 0 0\n"));
    assert!(output.stderr.is_empty());
}

#[test]
fn sessions_without_an_end_are_told_at_once() {
    for command in [
        &["sheet", "/dev/zero"][..],
        &["explain", "/dev/zero"],
        &["audit", "/dev/zero"],
        &["settings", "/dev/zero", "1"],
        &["set", "/dev/zero"],
        &["decode", "/dev/zero"],
    ] {
        let expected = format!(
            "venue {}: /dev/zero: message 1 at byte 0 is torn: its length is 0, below 4, and \
             more than 65535 bytes follow\n",
            command[0]
        );
        assert_eq!(bad(command, b"", 1), expected);
    }
    let errors = bad(&["sheet", "--text", "/dev/zero"], b"", 1);
    let expected = "venue sheet: /dev/zero: line 1: it has more than 1048576 bytes\n";
    assert_eq!(errors, expected);
}

#[test]
fn print_reads_report_bytes_up_to_the_first_zero_length() {
    let mut report = vec![12, 0, 64, 0, 1, 0, 0, 0, 0, 5, 0, 2];
    report.extend([16, 0, 66, 0, 3, 0, 0, 0, 255, 255, 255, 255, 5, 0, 0, 0]);
    let lines = b"64 1 0 5 2\n66 3 -1 5\n";
    assert_eq!(good(&["print"], &report), lines);
    report.extend([0, 0, 9, 9, 9]);
    assert_eq!(good(&["print"], &report), lines);
}

#[test]
fn print_tells_where_report_bytes_are_no_record() {
    let cases: [(&[u8], &str); 3] = [
        (
            &[12, 0, 64, 0, 1],
            "byte 0: expected 12 bytes of record 64, found 5",
        ),
        (
            &[4, 0, 69, 0],
            "byte 0: expected a record kind 64 to 68 or 70 to 72, found 69",
        ),
        (
            &[12, 0],
            "byte 0: expected a record's length and kind, found 2 bytes",
        ),
    ];
    for (report, expected) in cases {
        let errors = bad(&["print"], report, 1);
        assert!(errors.contains(expected), "{errors}");
    }
}

/// What `venue feed --text` prints, tells and ends with.
fn feed(name: &str, main: &str, spare: &str) -> (String, String, i32) {
    let file = Kept::new(name, main.as_bytes());
    let output = venue(&["feed", "--text", file.path(), "-"], spare.as_bytes());
    let text = |bytes: Vec<u8>| String::from_utf8(bytes).unwrap();
    let status = output.status.code().unwrap();
    (text(output.stdout), text(output.stderr), status)
}

#[test]
fn feed_prints_the_sheet_and_tells_who_served_it() {
    let told = "venue feed: messages served: main 4, spare 2; number 0: neither line has more\n";
    let expected = (PRINTED_SHEET.to_string(), told.to_string(), 0);
    assert_eq!(feed("whole.main", MAIN_TEXT, SPARE_TEXT), expected);
    let lines = [MAIN_TEXT, SPARE_TEXT].map(|text| good(&["encode", "--line"], text.as_bytes()));
    let main = Kept::new("line.main", &lines[0]);
    let spare = Kept::new("line.spare", &lines[1]);
    let sheet = good(&["feed", main.path(), spare.path()], b"");
    assert_eq!(sheet, PRINTED_SHEET.as_bytes());
}

#[test]
fn feed_tells_what_stopped_it_and_prints_what_went_before() {
    let two = "64 1 0 0 0\n64 2 0 0 0\n";
    let cases = [
        (
            "1 open 0\n2 open 1\n3 sweep\n",
            "3 cancel 1\n",
            two,
            "messages served: main 2, spare 0; number 19: both lines have number 3, but their bytes differ",
        ),
        (
            "1 open 0\n4 sweep\n",
            "2 open 1\n",
            two,
            "messages served: main 1, spare 1; number 20: neither line has number 3, though main has 4",
        ),
        (
            "1 open 0\n4 sweep\n",
            "2 open 1\n6 sweep\n",
            two,
            "messages served: main 1, spare 1; number 20: neither line has number 3, though main has 4 and spare has 6",
        ),
        (
            "1 open 0\n2 open 1\n",
            "1 open 0\n1 open 0\n",
            "",
            "messages served: main 0, spare 0; number 21: spare line, byte 10: expected a number above 1, found 1",
        ),
        (
            "1 open 0\n2 raw 03 00 06 00\n",
            "raw 01 00\n",
            "",
            "messages served: main 0, spare 0; number 21: main line, byte 10: expected a length from 4 on, found 3; spare line, byte 0: expected a number of 4 bytes, found 2",
        ),
    ];
    for (main, spare, sheet, told) in cases {
        let expected = (sheet.to_string(), format!("venue feed: {told}\n"), 1);
        assert_eq!(feed("stopped.main", main, spare), expected);
    }
}

#[test]
fn lines_of_a_feed_are_encoded_and_decoded() {
    let bytes = good(&["encode", "--line"], MAIN_TEXT.as_bytes());
    assert!(bytes.starts_with(&[1, 0, 0, 0, 6, 0, 5, 0, 0, 1, 2, 0, 0, 0]));
    let text = good(&["decode", "--line"], &bytes);
    assert!(text.starts_with(b"1 status 0 open\n2 status 1 open\n4 order 2 "));
    assert_eq!(good(&["encode", "--line"], &text), bytes);
    let errors = bad(&["encode", "--line"], b"1 sweep\nsweep\n", 1);
    let expected = "venue encode: standard input: line 2: expected the message's number";
    assert!(errors.starts_with(expected), "{errors}");
}

#[test]
fn feed_names_the_file_that_is_wrong() {
    let main = Kept::new("wrong.main", b"1 sweep\n");
    let bytes = Kept::new("wrong.spare", b"1 sweep\n\xff");
    let path = bytes.path().to_string();
    let errors = bad(&["feed", "--text", main.path(), &path], b"", 1);
    assert_eq!(
        errors,
        format!("venue feed: {path}: line 2: expected text, found other bytes\n")
    );
    let errors = bad(&["feed", "--text", main.path(), "-"], b"1 sweeps\n", 1);
    assert!(
        errors.starts_with("venue feed: standard input: line 1: expected a message ("),
        "{errors}"
    );
    let errors = bad(&["feed", "no-such-file", main.path()], b"", 1);
    assert!(errors.starts_with("venue feed: no-such-file: "), "{errors}");
}

const FOUR_SCRIPT: &str = include_str!("sessions/four.txt");

#[test]
fn four_prints_the_sheet_of_each_venue() {
    let output = venue(&["four"], FOUR_SCRIPT.as_bytes());
    assert_eq!(output.status.code(), Some(0));
    let sheets = "# venue 0\n64 1 0 0 0\n64 2 0 0 0\n64 3 0 5 2\n67 3 0 0 115 115 8\n\
        67 3 1 0 75 75 8\n64 4 0 0 0\n65 0 1 115 5 4 3\n65 1 0 90 5 3 2\n66 3 205 5\n\
        68 3 0 0 3\n68 3 1 0 3\n# venue 1\n64 1 0 0 0\n64 2 5 0 0\n# venue 2\n# venue 3\n64 1 1 0 0\n";
    assert_eq!(String::from_utf8(output.stdout).unwrap(), sheets);
    let told = "\
        venue four: standard input: line 11: turn ended by 10: the records do not fit, or the message numbers are used up\n\
        venue four: standard input: line 13: arrival for venue 2 refused with 17: its wait holds 8, or the message is over 32 bytes\n\
        venue four: standard input: line 14: arrival for venue 4 refused with 18: there is no such venue\n\
        venue four: standard input: line 15: turn with number 0: nothing waits\n\
        venue four: 1 still waiting for venue 2\n";
    assert_eq!(String::from_utf8(output.stderr).unwrap(), told);
}

#[test]
fn four_names_the_line_that_is_wrong() {
    let errors = bad(&["four"], b"turn\nserve\n", 1);
    let expected = "venue four: standard input: line 2: expected a call (arrive, turn or turns), \
        found \"serve\"\n";
    assert_eq!(errors, expected);
    let errors = bad(&["four", "no-such-file"], b"", 1);
    assert!(errors.starts_with("venue four: no-such-file: "), "{errors}");
}

#[test]
fn audit_tells_the_sums_of_every_complex_order() {
    let session = Kept::new("audit.txt", PRINTED_TEXT.as_bytes());
    let sheet = Kept::new("audit.sheet", PRINTED_SHEET.as_bytes());
    let given = good(&["audit", "--text", session.path(), sheet.path()], b"");
    let own = good(&["audit", "--text", "-"], PRINTED_TEXT.as_bytes());
    assert_eq!(given, own);
    let table = String::from_utf8(given).unwrap();
    let row: Vec<&str> = table.lines().nth(1).unwrap().split_whitespace().collect();
    assert_eq!(
        row,
        ["3", "8", "5", "0", "0", "3", "0:", "5,", "1:", "5", "agree"]
    );
}

#[test]
fn audit_names_the_order_whose_sums_do_not_agree() {
    let session = Kept::new("wrong.txt", PRINTED_TEXT.as_bytes());
    let cases = [
        (
            "66 3 205 5",
            "66 3 205 4",
            "order 3: entered 8 but traded 4, cancelled 0 and open 3",
        ),
        (
            "65 1 0 90 5 3 2",
            "65 1 0 90 4 3 2",
            "order 3: 4 contracts in series 1, expected 5",
        ),
        (
            "65 0 1 115 5 4 3",
            "65 2 1 115 5 4 3",
            "order 3: 0 contracts in series 0, expected 5",
        ),
        (
            "64 5 0 5 2",
            "64 5 4 5 2",
            "order 3: rests, but the sheet did not accept it",
        ),
        (
            "66 3 205 5",
            "66 9 205 5",
            "record \"66 9 205 5\" names 9, which was not accepted",
        ),
    ];
    for (right, wrong, expected) in cases {
        let sheet = Kept::new(
            "wrong.sheet",
            PRINTED_SHEET.replace(right, wrong).as_bytes(),
        );
        let output = venue(&["audit", "--text", session.path(), sheet.path()], b"");
        assert_eq!(output.status.code(), Some(1), "{wrong}");
        let table = String::from_utf8(output.stdout).unwrap();
        assert!(table.contains(expected), "{wrong}: {table}");
    }
}

#[test]
fn audit_compares_a_sheet_line_by_line() {
    let settling = "open 0\nopen 1\norder 1 sell 15 series 0 at 130\n\
        order 2 sell 12 series 1 at 90\n\
        complex 3 buy 0 buy 1 class 1 net 205 quantity 8\nclose 0\n";
    let session = Kept::new("lines.txt", settling.as_bytes());
    let sheet = String::from_utf8(good(&["sheet", "--text", "-"], settling.as_bytes())).unwrap();
    let by_place = "68 3 0 0 6\n68 3 1 0 6\n";
    assert!(sheet.ends_with(by_place), "{sheet}");
    let cases = [
        (
            sheet.replace(by_place, "68 3 1 0 6\n68 3 0 0 6\n"),
            "line 9 (message 6): expected \"68 3 0 0 6\", found \"68 3 1 0 6\"; by the rules: ",
        ),
        (
            sheet.replace(by_place, "68 3 0 0 6\n"),
            "line 10 (message 6): expected \"68 3 1 0 6\", found no line; by the rules: ",
        ),
        (
            format!("{sheet}68 3 1 0 6\n"),
            "line 11 (message 6): expected no line, found \"68 3 1 0 6\"\n",
        ),
    ];
    for (lines, expected) in cases {
        let changed = Kept::new("lines.sheet", lines.as_bytes());
        let output = venue(&["audit", "--text", session.path(), changed.path()], b"");
        assert_eq!(output.status.code(), Some(1), "{lines}");
        let table = String::from_utf8(output.stdout).unwrap();
        assert!(
            table.contains(&format!("disagreement: {expected}")),
            "{table}"
        );
    }
}

/// An order that takes what is shown, reserve and a legging order at one price, and then
/// a worse one.
const TURNS_TEXT: &str = include_str!("sessions/turns.txt");

/// The trades of its last message, in turn, the hit with all that follows from it.
const TURNS: [&str; 5] = [
    "65 0 1 115 2 7 4\n",
    "65 0 1 115 1 7 5\n",
    "65 0 1 115 3 7 4\n",
    "65 0 1 115 8 7 3\n65 1 0 90 8 3 2\n66 3 205 8\n68 3 0 0 3\n68 3 1 0 3\n",
    "65 0 1 110 1 7 6\n",
];

/// What an audit of a sheet of it says of records, with its exit status.
fn audit_turns(name: &str, sheet: &str) -> (Option<i32>, Vec<String>) {
    let session = Kept::new(&format!("{name}.txt"), TURNS_TEXT.as_bytes());
    let sheet = Kept::new(&format!("{name}.sheet"), sheet.as_bytes());
    let output = venue(&["audit", "--text", session.path(), sheet.path()], b"");
    let told = String::from_utf8(output.stdout).unwrap();
    let named = told.lines().filter(|line| line.contains("(message "));
    (output.status.code(), named.map(str::to_string).collect())
}

/// Its sheet with the last message's trades in this order.
fn turned(trades: &[&str]) -> String {
    let sheet = String::from_utf8(good(&["sheet", "--text"], TURNS_TEXT.as_bytes())).unwrap();
    let first = sheet.strip_suffix(&TURNS.concat()).unwrap();
    format!("{first}{}", trades.concat())
}

#[test]
fn audit_tells_what_was_looked_at() {
    let told = good(&["audit", "--text", "-"], TURNS_TEXT.as_bytes());
    let told = String::from_utf8(told).unwrap();
    let line = "by replay: 4 trades of two regular orders, 1 trade of a regular with a legging \
        order, 1 trade of a complex with a regular order, 0 crosses\n";
    assert!(told.contains(line), "{told}");
    assert_eq!(audit_turns("turns", &turned(&TURNS)), (Some(0), vec![]));
}

#[test]
fn audit_names_the_record_that_passed_a_better_price_over() {
    let [four, five, reserve, hit, worse] = TURNS;
    let cheap = "65 0 1 110 1 7 5\n";
    let cases = [
        (
            [worse, four, five, reserve, hit],
            "line 10 (message 7): record \"65 0 1 110 1 7 6\" passes over 2 that order 4 shows at 115",
        ),
        (
            [four, five, worse, reserve, hit],
            "line 12 (message 7): record \"65 0 1 110 1 7 6\" passes over 3 in reserve of order 4 at 115",
        ),
        (
            [four, five, reserve, worse, hit],
            "line 13 (message 7): record \"65 0 1 110 1 7 6\" passes over the legging order of 3 at 115",
        ),
        (
            [four, hit, five, reserve, worse],
            "line 11 (message 7): record \"65 0 1 115 8 7 3\" takes the legging order of 3 before 3 in reserve of order 4 at 115",
        ),
        (
            [four, cheap, reserve, hit, worse],
            "line 11 (message 7): record \"65 0 1 110 1 7 5\" passes over 3 in reserve of order 4 at 115",
        ),
        (
            [four, "", reserve, hit, worse],
            "line 12 (message 7): record \"65 0 1 115 8 7 3\" takes the legging order of 3 before 1 that order 5 shows at 115",
        ),
    ];
    for (trades, expected) in cases {
        let (status, told) = audit_turns("turned", &turned(&trades));
        let expected = format!("disagreement: {expected}");
        assert_eq!(status, Some(1), "{told:?}");
        assert!(told.contains(&expected), "{expected}\n{told:?}");
    }
}

#[test]
fn explain_tells_why_a_legging_order_was_not_made() {
    let base = "open 0\nopen 1\norder 1 sell 15 series 0 at 130\norder 2 sell 12 series 1 at 90\n";
    let cases = [
        ("complex 3 buy 0 buy 1 class 1 net 205 quantity 8\nclose 0\nsweep\n", "no legging order of 3, buy series 0: series 0 is not open"),
        ("away 0 bid 0 offer 60\ncomplex 3 buy 0 buy 1 class 1 net 205 quantity 8\n", "no legging order of 3, buy series 0: limit 205 is not in band of market net 150 by percent 5 (edition 0)"),
        ("cancel 2\naway 1 bid 0 offer 90\ncomplex 3 buy 0 buy 1 class 1 net 205 quantity 8\n", "no legging order of 3, buy series 0: the sell side of series 1 has no clear price"),
        ("complex 3 buy 0 buy 1 class 1 net 94 quantity 8\n", "no legging order of 3, buy series 0: displayed price 0 is not from increment 5 (edition 0) to 100000"),
        ("order 3 buy 1 series 0 at 120\ncomplex 4 buy 0 buy 1 class 1 net 205 quantity 8\n", "no legging order of 4, buy series 0: displayed price 115 by increment 5 (edition 0) is worse than the best regular price 120 of its side"),
        ("away 0 bid 0 offer 110\ncomplex 3 buy 0 buy 1 class 1 net 205 quantity 8\n", "no legging order of 3, buy series 0: price 115 reaches the away price 110 opposite"),
        ("complex 3 buy 0 buy 1 class 1 net 205 quantity 8\ncomplex 4 buy 0 buy 1 class 1 net 204 quantity 8\n", "no legging order of 4, buy series 1: the place is held by order 3 at 75, not to be replaced at 74"),
    ];
    for (rest, expected) in cases {
        let text = format!("{base}{rest}");
        let told = good(&["explain", "--text"], text.as_bytes());
        let told = String::from_utf8(told).unwrap();
        assert!(told.contains(expected), "{told}");
    }
}

#[test]
fn explain_tells_whose_legs_forbid_a_cross() {
    let base = "open 0\nopen 1\naway 0 bid 95 offer 105\naway 1 bid 95 offer 105\n\
        complex 1 buy 0 buy 1 class 1 net 195 quantity 5\n";
    let offers = "order 2 sell 5 series 0 at 100\norder 3 sell 5 series 1 at 90\n";
    let bids = "order 2 buy 5 series 0 at 100\norder 3 buy 5 series 1 at 100\n";
    let sell = "complex 4 sell 0 sell 1 class 1 net -195 quantity 5\n";
    let cases = [
        (offers, "no cross of 4 with 1: net 195 of order 1 is above the 190 of its best regular prices"),
        (bids, "no cross of 4 with 1: net -195 of order 4 is above the -200 of its best regular prices"),
    ];
    for (orders, expected) in cases {
        let text = format!("{base}{orders}{sell}");
        let told = good(&["explain", "--text"], text.as_bytes());
        let told = String::from_utf8(told).unwrap();
        assert!(told.contains(expected), "{told}");
    }
}

/// A session with settings, as the desk reads it.
const DATED: &str = include_str!("sessions/editions.txt");

#[test]
fn explain_tells_the_edition_that_held() {
    let told = String::from_utf8(good(&["explain", "--text"], DATED.as_bytes())).unwrap();
    for expected in [
        "1: increment 0 1 1\n    refused with 12: the series is not closed, or has a resting order or leg\n",
        "    increment of series 0: 1 (edition 1, message 3), before it 5 (edition 0)\n",
        "    refused with 11: the edition is not above the last\n",
        "    accepted on increment 1 (edition 1, message 3); legging orders",
        "8: order 3 sell 5 series 1 at 91\n    refused with 4: a field is outside its range: price is 91, not a multiple of increment 5 (edition 0)\n",
        "legging order of 4, buy series 0: 8 at 113, shown at 113 by increment 1 (edition 1, message 3), in band by percent 5 (edition 0)\n",
        "legging order of 6, buy series 1: 8 at 64, shown at 60 by increment 5 (edition 0), in band by percent 5 (edition 0)\n",
        "cause 5, its parent's limit is out of band: N 195 is above 193, the highest net in band of O 190 by percent 2 (edition 2, message 13)\n",
        "    percent: 2 (edition 2, message 13), before it 5 (edition 0)\n",
        "14: percent 51 3\n    refused with 4: a field is outside its range: percent is 51, not from 0 to 50\n",
        "not a multiple of increment 5 (edition 3, message 19)\n",
    ] {
        assert!(told.contains(expected), "{expected}: {told}");
    }
}

#[test]
fn explain_tells_the_edition_of_crosses_and_pairs() {
    let offers = "away 0 bid 0 offer 100\norder 1 sell 15 series 0 at 130\n\
        order 2 sell 12 series 1 at 90\n";
    let quotes = "away 0 bid 100 offer 100\naway 1 bid 100 offer 100\n\
        complex 1 buy 0 buy 1 class 0 net 150 quantity 5\n";
    let pair = "complex 3 buy 0 buy 1 class 1 net 220 quantity 8\n";
    let cross = "complex 2 sell 0 sell 1 class 0 net -150 quantity 5\n";
    let cases = [
        (15, offers, pair, "no pair of 3: net 220 of order 3 is not in band of market net 190 by percent 15 (edition 7, message 1)\n"),
        (16, offers, pair, "pair: 3, 8 at net 220, in band by percent 16 (edition 7, message 1)\n"),
        (24, quotes, cross, "no cross of 2 with 1: net -150 of order 2 is not in band of market net -200 by percent 24 (edition 7, message 1)\n"),
        (25, quotes, cross, "cross: 2 with 1, 5 at the taker's net -150, in band by percent 25 (edition 7, message 1)\n"),
    ];
    for (percent, first, last, expected) in cases {
        let text = format!("percent {percent} 7\n{first}{last}");
        let told = String::from_utf8(good(&["explain", "--text"], text.as_bytes())).unwrap();
        assert!(told.contains(expected), "{told}");
    }
    // A hit's pair asks no band, and a missing market best no percentage.
    let told = good(&["explain", "--text"], PRINTED_TEXT.as_bytes());
    let told = String::from_utf8(told).unwrap();
    assert!(told.contains("    pair: 3, 5 at net 205\n"), "{told}");
    let gone = "order 1 sell 15 series 0 at 130\norder 2 sell 12 series 1 at 90\n\
        complex 3 buy 0 buy 1 class 1 net 205 quantity 8\ncancel 2\n";
    let told = String::from_utf8(good(&["explain", "--text"], gone.as_bytes())).unwrap();
    assert!(
        told.contains("limit is out of band: N is 205, and a market best is missing: the sell side of series 1\n"),
        "{told}"
    );
}

#[test]
fn settings_tells_what_held_at_a_message() {
    let told = |number: &str| {
        let told = good(&["settings", "--text", "-", number], DATED.as_bytes());
        let told = String::from_utf8(told).unwrap();
        let lines: Vec<String> = told.lines().map(str::to_string).collect();
        assert_eq!((lines.len(), &lines[0]), (10, &format!("message {number}")));
        assert_eq!(lines[8], "increment of series 7: 10 (edition 0)");
        (lines[1].clone(), lines[9].clone())
    };
    let first = "increment of series 0: 5 (edition 0)";
    let one = "increment of series 0: 1 (edition 1, message 3)";
    let five = "increment of series 0: 5 (edition 3, message 19)";
    let (wide, narrow) = (
        "percent: 5 (edition 0)",
        "percent: 2 (edition 2, message 13)",
    );
    for (number, increment, percent) in [
        ("0", first, wide),
        ("2", first, wide),
        ("3", one, wide),
        ("12", one, wide),
        ("13", one, narrow),
        ("18", one, narrow),
        ("19", five, narrow),
        ("22", five, narrow),
        ("4294967295", five, narrow),
    ] {
        assert_eq!(told(number), (increment.to_string(), percent.to_string()));
    }
    let beyond = venue(&["settings", "--text", "-", "4711"], DATED.as_bytes());
    let note = "venue settings: standard input: the session has 22 messages; told is what it \
        leaves\n";
    assert_eq!(String::from_utf8(beyond.stderr).unwrap(), note);
}

#[test]
fn audit_reads_a_sheet_by_the_settings_of_its_day() {
    let session = Kept::new("dated.txt", DATED.as_bytes());
    let sheet = String::from_utf8(good(&["sheet", "--text", session.path()], b"")).unwrap();
    let kept = Kept::new("dated.sheet", sheet.as_bytes());
    let table = good(&["audit", "--text", session.path(), kept.path()], b"");
    let table = String::from_utf8(table).unwrap();
    let editions = "22 messages, 2 complex orders\n\
        from message 3: increment of series 0 is 1 (edition 1)\n\
        from message 13: percent is 2 (edition 2)\n\
        from message 19: increment of series 0 is 5 (edition 3)\n\
        series 0: 1 legging order made, ";
    assert!(table.contains(editions), "{table}");
    // Shown by the increment of edition 0 it would be another sheet.
    let other = sheet.replace("67 4 0 0 113 113 8", "67 4 0 0 113 110 8");
    let kept = Kept::new("other-day.sheet", other.as_bytes());
    let output = venue(&["audit", "--text", session.path(), kept.path()], b"");
    assert_eq!(output.status.code(), Some(1));
    let table = String::from_utf8(output.stdout).unwrap();
    let expected = "expected \"67 4 0 0 113 113 8\", found \"67 4 0 0 113 110 8\"; by the rules: ";
    assert!(table.contains(expected), "{table}");
}

const SHOWN_TEXT: &str = include_str!("sessions/shown.txt");

#[test]
fn explain_tells_shown_size_and_reserve_apart() {
    let told = good(&["explain", "--text"], SHOWN_TEXT.as_bytes());
    let told = String::from_utf8(told).unwrap();
    for expected in [
        "\n    trade: 3 sell series 0, 2 at 115, maker 1, of what it shows\n\
         \x20   trade: 3 sell series 0, 3 at 115, maker 2\n\
         \x20   trade: 3 sell series 0, 2 at 115, maker 1, of its reserve\n\
         \x20   order 1 shows 1 of 1 left\n",
        "\n    refused with 4: a field is outside its range: shown quantity is 7, not from 1 to 6\n",
        "\n    order 4 shows 1 of 6 left\n",
        "\n    trade: 10 sell series 0, 4 at 115, maker 9, of its reserve\n\
         \x20   trade: 10 sell series 0, 3 at 115, maker 8\n\
         \x20   trade: 8 buy series 1, 3 at 90, maker 7, of what it shows\n",
        "\n    cancelled: 6, 7 were open, 3 of them in reserve\n",
        "\n    cancelled: 5, 1 were open\n",
    ] {
        assert!(told.contains(expected), "{expected}\n{told}");
    }
}

#[test]
fn audit_lists_the_orders_with_reserve() {
    let lines = SHOWN_TEXT.lines().take(14);
    let text: String = lines.map(|line| format!("{line}\n")).collect();
    let told = good(&["audit", "--text", "-"], text.as_bytes());
    let told = String::from_utf8(told).unwrap();
    let listed: Vec<&str> = told
        .lines()
        .filter(|line| line.starts_with("order "))
        .collect();
    assert_eq!(
        listed,
        [
            "order 1 was to show 2 of 5: traded 5, cancelled 0, open 0, of these 0 shown",
            "order 4 was to show 1 of 6: traded 6, cancelled 0, open 0, of these 0 shown",
            "order 9 was to show 2 of 6: traded 6, cancelled 0, open 0, of these 0 shown",
            "order 10 was to show 1 of 9: traded 9, cancelled 0, open 0, of these 0 shown",
            "order 6 was to show 4 of 15: traded 0, cancelled 0, open 15, of these 4 shown",
            "order 7 was to show 5 of 12: traded 3, cancelled 0, open 9, of these 5 shown",
        ]
    );
}

const RATIOS_TEXT: &str = include_str!("sessions/units.txt");

#[test]
fn explain_tells_units_and_why_there_are_no_more() {
    let told = good(&["explain", "--text"], RATIOS_TEXT.as_bytes());
    let told = String::from_utf8(told).unwrap();
    for expected in [
        "\n    refused with 14: the two ratios are equal\n",
        "\n    refused with 4: a field is outside its range: ratio1 is 4, not from 1 to 3\n",
        "\n    pair: 4, 1 units (2 and 1 contracts) at net 350, in band by percent 5 (edition 0)\n\
         \x20   no further unit of 4: buy series 0 takes 2, 1 shown at 130\n\
         \x20   no legging order of 4, buy series 0: an order of ratios 2 and 1 has none\n",
        "\n    cross: 7 with 6, 3 units (3 and 6 contracts) at the taker's net -340,",
        "\n    removed the legging order of 9, buy series 1: cause 10, touched by a complex \
         order of which the sizes there cannot fill a unit\n",
        "\n    removed the legging order of 9, buy series 0: cause 8, touched by a complex order\n",
        "\n    cancelled: 4, 14 units (28 and 14 contracts) were open\n",
    ] {
        assert!(told.contains(expected), "{expected}\n{told}");
    }
}

#[test]
fn audit_tells_units_and_contracts() {
    let told = good(&["audit", "--text", "-"], RATIOS_TEXT.as_bytes());
    let told = String::from_utf8(told).unwrap();
    let row = "         4       20        6        0        14        0  0: 12, 1: 6              agree\n";
    assert!(told.contains(row), "{told}");
    let line =
        "order 4 of ratios 2 and 1: 6 units paired, contracts 12 in series 0, 6 in series 1\n";
    assert!(told.contains(line), "{told}");
    assert!(!told.contains("order 9 of ratios"), "{told}");
}

#[test]
fn audit_names_an_order_whose_contracts_are_not_ratio_times_units() {
    let sheet = String::from_utf8(good(&["sheet", "--text"], RATIOS_TEXT.as_bytes())).unwrap();
    let wrong = sheet.replace("65 0 0 130 2 4 1\n", "65 0 0 130 1 4 1\n");
    assert_ne!(sheet, wrong);
    let session = Kept::new("ratios.txt", RATIOS_TEXT.as_bytes());
    let sheet = Kept::new("ratios.sheet", wrong.as_bytes());
    let output = venue(&["audit", "--text", session.path(), sheet.path()], b"");
    let told = String::from_utf8(output.stdout).unwrap();
    let line = "disagreement: order 4: 11 contracts in series 0, expected 12\n";
    assert!(told.contains(line), "{told}");
    assert_eq!(output.status.code(), Some(1));
}

const LIMITED_TEXT: &str = include_str!("sessions/limited.txt");

#[test]
fn explain_tells_the_orders_that_a_limited_sweep_looks_at() {
    let told = good(&["explain", "--text"], LIMITED_TEXT.as_bytes());
    let told = String::from_utf8(told).unwrap();
    for expected in [
        "\n13: limited 2\n    accepted; legging orders standing after it: 2 (places 0, 2)\n    \
         looks at 2: 3, 1\n",
        "\n    looks at 4: 6, 7, 2, 3\n    cross: 6 with 7, 5 at the taker's net 150,",
        "\n30: limited 32\n    accepted; legging orders standing after it: 0\n    looks at 0\n",
    ] {
        assert!(told.contains(expected), "{expected}\n{told}");
    }
}

/// An order that generates in series 0 and 1 and is cancelled, so often, and one more.
fn traffic_text(times: usize) -> String {
    let complex = |id| format!("complex {id} buy 0 buy 1 class 1 net 205 quantity 8\n");
    let offers = "order 1 sell 15 series 0 at 130\norder 2 sell 12 series 1 at 90\n";
    let made = (3..3 + times).map(|id| format!("{}cancel {id}\n", complex(id)));
    format!("{offers}{}{}", made.collect::<String>(), complex(3 + times))
}

#[test]
fn explain_tells_the_ceiling() {
    let told = good(&["explain", "--text"], traffic_text(20).as_bytes());
    let told = String::from_utf8(told).unwrap();
    let last = "43: complex 23 buy 0 buy 1 class 1 net 205 quantity 8\n    \
        accepted; legging orders standing after it: 0\n    \
        no legging order of 23, buy series 0: the ceiling: 20 were generated in series 0 since \
        message 3\n    \
        no legging order of 23, buy series 1: the ceiling: 20 were generated in series 1 since \
        message 3\n";
    assert!(told.ends_with(last), "{told}");
}

#[test]
fn audit_counts_legging_orders_and_names_those_above_the_ceiling() {
    let text = traffic_text(20);
    let told = good(&["audit", "--text", "-"], text.as_bytes());
    let told = String::from_utf8(told).unwrap();
    let line = "series 1: 20 legging orders made, at most 20 in 256 messages\n";
    assert!(told.contains(line), "{told}");
    let sheet = String::from_utf8(good(&["sheet", "--text"], text.as_bytes())).unwrap();
    let wrong = sheet.replace("64 43 0 0 0\n", "64 43 0 4 1\n67 23 1 0 75 75 8\n");
    assert_ne!(sheet, wrong);
    let session = Kept::new("traffic.txt", text.as_bytes());
    let sheet = Kept::new("traffic.sheet", wrong.as_bytes());
    let output = venue(&["audit", "--text", session.path(), sheet.path()], b"");
    let told = String::from_utf8(output.stdout).unwrap();
    let line = format!(
        "disagreement: line {} (message 43): number 21 of series 1 in 256 messages\n",
        wrong.lines().count()
    );
    assert!(told.contains(&line), "{told}");
    assert_eq!(output.status.code(), Some(1));
}

#[test]
fn audit_names_a_72_that_is_not_the_books() {
    let sheet = String::from_utf8(good(&["sheet", "--text"], LIMITED_TEXT.as_bytes())).unwrap();
    let session = Kept::new("limited.txt", LIMITED_TEXT.as_bytes());
    for (from, to, expected) in [
        (
            "64 13 0 5 2\n72 2\n",
            "64 13 0 5 2\n72 4\n",
            "record \"72 4\": 3 complex orders rest",
        ),
        (
            "64 13 0 5 2\n72 2\n",
            "64 13 0 5 2\n72 1\n",
            "\"last id looked at 3\"",
        ),
        (
            "64 13 0 5 2\n72 2\n",
            "64 13 0 5 2\n",
            "\"last id looked at 2\"",
        ),
        (
            "64 9 0 0 0\n",
            "64 9 0 0 0\n72 1\n",
            "record \"72 1\": no limited sweep is to tell it",
        ),
    ] {
        let wrong = sheet.replace(from, to);
        assert_ne!(sheet, wrong);
        let kept = Kept::new("limited.sheet", wrong.as_bytes());
        let output = venue(&["audit", "--text", session.path(), kept.path()], b"");
        let told = String::from_utf8(output.stdout).unwrap();
        assert!(told.contains(expected), "{expected}\n{told}");
        assert_eq!(output.status.code(), Some(1));
    }
}

#[test]
fn explain_tells_refusals_in_words() {
    let told = good(&["explain", "--text"], b"cancel 9\nraw 09 00 06\n");
    let told = String::from_utf8(told).unwrap();
    assert!(
        told.contains("refused with 8: no resting order has the id"),
        "{told}"
    );
    assert!(
        told.contains("2: raw 09 00 06\n    refused with 1: the message is torn"),
        "{told}"
    );
}

#[test]
fn generate_repeats_by_seed_in_bytes_and_in_text() {
    let arguments = [
        "generate",
        "--profile",
        "hits",
        "--seed",
        "9",
        "--messages",
        "200",
    ];
    let bytes = good(&arguments, b"");
    assert_eq!(good(&arguments, b""), bytes);
    let text = good(&[&arguments[..], &["--text"]].concat(), b"");
    assert_eq!(text.iter().filter(|byte| **byte == b'\n').count(), 200);
    assert_eq!(good(&["encode"], &text), bytes);
    let sheet = good(&["sheet"], &bytes);
    assert!(String::from_utf8(sheet).unwrap().contains("64 200 "));
}

#[test]
fn check_prints_the_coverage() {
    let output = good(&["check", "--seed", "1000", "--sessions", "13"], b"");
    let report = String::from_utf8(output).unwrap();
    assert!(report.starts_with("        13  sessions\n"), "{report}");
    let few = venue(
        &[
            "check",
            "--profile",
            "mixed",
            "--sessions",
            "1",
            "--complete",
        ],
        b"",
    );
    assert_eq!(few.status.code(), Some(1));
    assert!(String::from_utf8(few.stderr)
        .unwrap()
        .contains("not shown: "));
}

#[test]
fn a_reader_that_leaves_ends_it_silently() {
    let mut child = Command::new(env!("CARGO_BIN_EXE_venue"))
        .args([
            "generate",
            "--profile",
            "mixed",
            "--seed",
            "1",
            "--messages",
            "20000",
        ])
        .stdout(Stdio::piped())
        .stderr(Stdio::piped())
        .spawn()
        .unwrap();
    drop(child.stdout.take());
    let output = child.wait_with_output().unwrap();
    assert_eq!(output.status.code(), Some(141));
    assert!(output.stderr.is_empty());
}

const LIMITED: &str = include_str!("sessions/limited.txt");

/// The messages of a session's text, a line each.
fn plain_lines(text: &str) -> Vec<String> {
    let bytes = good(&["encode"], text.as_bytes());
    let plain = String::from_utf8(good(&["decode"], &bytes)).unwrap();
    plain.lines().map(|line| format!("{line}\n")).collect()
}

#[test]
fn a_session_cut_by_a_set_goes_on_with_the_same_lines() {
    let lines = plain_lines(LIMITED);
    let whole = String::from_utf8(good(&["sheet", "--text"], LIMITED.as_bytes())).unwrap();
    for cut in [0, 1, 12, 13, lines.len()] {
        let after = cut.to_string();
        let set = good(&["set", "--text", "--after", &after], LIMITED.as_bytes());
        let morning = lines[..cut].concat();
        assert_eq!(set, good(&["set", "--text", "-"], morning.as_bytes()));
        let first = String::from_utf8(good(&["sheet", "--text"], morning.as_bytes())).unwrap();
        let set = Kept::new(&format!("cut-{cut}"), &set);
        let rest = lines[cut..].concat();
        let rest = good(
            &["resume", "--unchecked", "--text", set.path(), "-"],
            rest.as_bytes(),
        );
        let told = format!("{first}{}", String::from_utf8(rest).unwrap());
        assert_eq!(told, whole, "{cut}");
    }
}

#[test]
fn sets_go_to_text_and_back() {
    let session = good(&["encode"], LIMITED.as_bytes());
    let set = good(&["set"], &session);
    let text = good(&["decode", "--set"], &set);
    assert_eq!(text, good(&["set", "--text"], LIMITED.as_bytes()));
    assert_eq!(good(&["encode", "--set"], &text), set);
    let with_zeros = [&set[..], &[0; 9]].concat();
    assert_eq!(good(&["decode", "--set"], &with_zeros), text);
    let kept = Kept::new("set", &with_zeros);
    let sweep = good(&["resume", "--unchecked", kept.path(), "-"], &[4, 0, 6, 0]);
    let sweep = String::from_utf8(sweep).unwrap();
    assert!(sweep.starts_with("64 31 0 "), "{sweep}");
    assert_eq!(good(&["resume", "--unchecked", kept.path(), "-"], b""), b"");
}

#[test]
fn a_refused_set_is_told_with_its_line() {
    let set = good(&["set", "--text"], LIMITED.as_bytes());
    let set = String::from_utf8(set).unwrap();
    let cases = [
        (
            "reached 2",
            "reached 0",
            None,
            "refused with 9: record 32 at byte 316: id 0 reached",
        ),
        ("reached 2", "reached 9", None, "refused with 9: "),
        (
            "set 30",
            "set 26",
            Some("message 27"),
            "message 27 is above the set's own, 26",
        ),
        (
            "status 3",
            "status 4",
            None,
            "refused with 16: record 8 at byte 69: expected status of series 3",
        ),
        ("set 30", "short 30", Some("shows"), "a short set has no "),
        (
            "order 5",
            "order 4",
            None,
            "expected an id above 4, found 4",
        ),
        ("order 5", "cancel 5 #", None, "expected a record of a set"),
    ];
    for (from, to, line, told) in cases {
        let line = line.unwrap_or(from);
        let before = set.lines().position(|found| found.contains(line));
        let text = format!("# noon\n\n{}", set.replacen(from, to, 1));
        let changed = Kept::new("refused", text.as_bytes());
        let error = bad(
            &["resume", "--unchecked", "--text", changed.path(), "-"],
            b"",
            1,
        );
        let number = before.unwrap() + 3;
        let start = format!("venue resume: {}: line {number}: ", changed.path());
        assert!(
            error.starts_with(&start) && error.contains(told),
            "{start}\n{error}"
        );
    }
    let cut: String = set
        .lines()
        .take(9)
        .map(|line| format!("{line}\n"))
        .collect();
    let cut = Kept::new("cut.set", cut.as_bytes());
    let error = bad(
        &["resume", "--unchecked", "--text", cut.path(), "-"],
        b"",
        1,
    );
    let told = "line 9: the set is refused with 16: expected status of series 4, found the end";
    assert!(error.contains(told), "{error}");
    let text = Kept::new("text", set.as_bytes());
    let error = bad(&["resume", "--unchecked", text.path(), "-"], b"", 1);
    let told = format!("{}: this looks like text: use --text", text.path());
    assert!(error.contains(&told), "{error}");
    let torn = Kept::new("torn", &[12, 0, 80]);
    let error = bad(&["resume", "--unchecked", torn.path(), "-"], b"", 1);
    let told = "refused with 16: record 1 at byte 0: expected a record's length and kind, found 3";
    assert!(error.contains(told), "{error}");
}

#[test]
fn sets_used_wrongly_are_told() {
    for (arguments, status, told) in [
        (
            &["resume", "--text", "x"][..],
            2,
            "expected SET and SESSION",
        ),
        (&["resume", "-", "-"], 2, "only one of both can be -"),
        (
            &["encode", "--set", "--line"],
            2,
            "only one of --line and --set",
        ),
        (
            &["set", "--after", "x"],
            2,
            "expected a number after --after",
        ),
        (
            &["set", "--after", "1"],
            1,
            "the session has 0 messages, not 1",
        ),
        (&["set", "no-such-file"], 1, "venue set: no-such-file: "),
        (
            &["resume", "no-such-file", "-"],
            1,
            "venue resume: no-such-file: ",
        ),
    ] {
        let error = bad(arguments, b"", status);
        assert!(error.contains(told), "{arguments:?}: {error}");
    }
    let torn = venue(&["set"], &[9, 0, 6]);
    let told = String::from_utf8(torn.stderr).unwrap();
    assert_eq!((torn.status.code(), torn.stdout[4]), (Some(0), 1));
    assert_eq!(
        told,
        "venue set: standard input: message 1 is torn, and the last\n"
    );
}

#[test]
fn message_numbers_that_are_used_up_end_a_session_that_goes_on() {
    let fresh = String::from_utf8(good(&["set", "--text"], b"")).unwrap();
    let last = fresh.replace("set 0 ", "set 4294967294 ");
    let set = Kept::new("last", last.as_bytes());
    let output = venue(
        &["resume", "--unchecked", "--text", set.path(), "-"],
        b"sweep\nsweep\n",
    );
    assert_eq!(output.status.code(), Some(1));
    assert_eq!(output.stdout, b"64 4294967295 0 0 0\n");
    let told = String::from_utf8(output.stderr).unwrap();
    let expected = "venue resume: standard input: the message numbers are used up\n";
    assert_eq!(told, expected);
}

/// The commands that read a session from standard input.
const READ_A_SESSION: [&[&str]; 6] = [
    &["sheet"],
    &["explain"],
    &["audit", "-"],
    &["settings", "-", "1"],
    &["set"],
    &["decode"],
];

#[test]
fn text_is_not_read_as_bytes() {
    let long = PRINTED_TEXT.repeat(1000);
    for command in READ_A_SESSION {
        for text in [PRINTED_TEXT, &long, "\u{feff}sweep\n", "# café\n", "x"] {
            let errors = bad(command, text.as_bytes(), 1);
            let expected = format!(
                "venue {}: standard input: this looks like text: use --text, or --bytes to take \
                 it as bytes\n",
                command[0]
            );
            assert_eq!(errors, expected);
        }
        let insisted = [command, &["--bytes"]].concat();
        good(&insisted, b"open 0\n");
    }
    let sheet = good(&["sheet", "--bytes"], b"open 0\n");
    assert_eq!(sheet, b"64 1 1 0 0\n");
    let errors = bad(&["sheet", "--bytes", "--text"], b"", 2);
    let expected = "venue sheet: only one of --text and --bytes can be asked for\n";
    assert!(errors.starts_with(expected), "{errors}");
}

#[test]
fn text_lines_of_a_feed_and_sets_are_not_read_as_bytes() {
    let bytes = Kept::new(
        "feed.bytes",
        &good(&["encode", "--line"], MAIN_TEXT.as_bytes()),
    );
    let errors = bad(&["feed", bytes.path(), "-"], SPARE_TEXT.as_bytes(), 1);
    let expected = "venue feed: standard input: this looks like text: use --text";
    assert!(errors.starts_with(expected), "{errors}");
    let set = Kept::new("bytes.set", &good(&["set"], &[4, 0, 6, 0]));
    let errors = bad(&["resume", "--unchecked", set.path(), "-"], b"sweep\n", 1);
    let expected = "venue resume: standard input: this looks like text: use --text";
    assert!(errors.starts_with(expected), "{errors}");
    for kind in ["--line", "--set"] {
        let errors = bad(&["decode", kind], b"reached 5\n", 1);
        assert!(errors.contains("this looks like text"), "{errors}");
        assert_eq!(good(&["decode", kind, "--bytes"], b"r"), b"raw 72\n");
    }
}

#[test]
fn a_byte_order_mark_goes_before_any_text() {
    let marked = |text: &str| format!("\u{feff}{text}").into_bytes();
    let sheet = good(&["sheet", "--text"], &marked(PRINTED_TEXT));
    assert_eq!(sheet, PRINTED_SHEET.as_bytes());
    let line = good(&["encode", "--line"], &marked(MAIN_TEXT));
    assert_eq!(line, good(&["encode", "--line"], MAIN_TEXT.as_bytes()));
    let set = good(&["set", "--text"], LIMITED.as_bytes());
    let set = marked(&String::from_utf8(set).unwrap());
    let set = Kept::new("marked.set", &set);
    good(
        &["resume", "--unchecked", "--text", set.path(), "-"],
        &marked("sweep\n"),
    );
    let printed = Kept::new("marked.sheet", &marked(PRINTED_SHEET));
    let told = ["audit", "--text", "-", printed.path()];
    good(&told, &marked(PRINTED_TEXT));
    let four = venue(&["four"], &marked(FOUR_SCRIPT));
    assert_eq!(four.status.code(), Some(0));
    assert_eq!(good(&["short", "-"], &marked("")), b"\n");
}

#[test]
fn every_error_of_text_names_its_file_and_line() {
    let file = Kept::new("named.txt", b"sweep\n\nswep\n");
    for command in [
        &["sheet", "--text"][..],
        &["explain", "--text"],
        &["audit", "--text"],
        &["set", "--text"],
        &["encode"],
        &["encode", "--line"],
        &["encode", "--set"],
        &["four"],
        &["short"],
    ] {
        let line = if command.len() == 2 && command[0] == "encode" || command[0] == "four" {
            1
        } else {
            3
        };
        let errors = bad(&[command, &[file.path()]].concat(), b"", 1);
        let start = format!("venue {}: {}: line {line}: ", command[0], file.path());
        assert!(errors.starts_with(&start), "{errors}");
    }
    let errors = bad(&["settings", "--text", file.path(), "1"], b"", 1);
    let start = format!("venue settings: {}: line 3: ", file.path());
    assert!(errors.starts_with(&start), "{errors}");
    let errors = bad(&["print", file.path()], b"", 1);
    let start = format!("venue print: {}: byte 0: ", file.path());
    assert!(errors.starts_with(&start), "{errors}");
}

#[test]
fn help_and_version_are_told_by_every_command() {
    let version = format!("venue {}\n", env!("CARGO_PKG_VERSION"));
    assert_eq!(good(&["--version"], b""), version.as_bytes());
    let overview = good(&["help"], b"");
    assert_eq!(good(&["--help"], b""), overview);
    assert_eq!(good(&["-h"], b""), overview);
    let overview = String::from_utf8(overview).unwrap();
    let lines = overview
        .lines()
        .filter_map(|line| line.strip_prefix("  venue "));
    let names: Vec<&str> = lines.filter_map(|line| line.split(' ').next()).collect();
    assert!(names.len() > 15, "{names:?}");
    assert!(names.contains(&"help"), "{names:?}");
    for name in names {
        if name == "help" || name.starts_with('-') {
            continue;
        }
        let more = good(&["help", name], b"");
        assert!(
            more.starts_with(format!("venue {name} ").as_bytes()),
            "{name}"
        );
        assert_eq!(good(&[name, "-h"], b""), more);
        assert_eq!(good(&[name, "x", "--help", "--nothing"], b""), more);
        assert_eq!(good(&[name, "--version"], b""), version.as_bytes());
        let errors = bad(&[name, "--nothing"], b"", 2);
        let expected =
            format!("venue {name}: option --nothing is not known here\ntry: venue help {name}\n");
        assert_eq!(errors, expected);
        let errors = bad(&[name, "-x"], b"", 2);
        assert!(errors.contains("option -x is not known here"), "{errors}");
        let errors = bad(&[name, "--", "-h", "-h", "-h"], b"", 2);
        assert!(
            errors.contains("argument \"-h\" is one too many"),
            "{errors}"
        );
    }
    let text = good(&["help", "text"], b"");
    assert!(text.starts_with(b"The text form"));
    let errors = bad(&["help", "shet"], b"", 2);
    assert_eq!(
        errors,
        "venue: command \"shet\" is not known\ntry: venue help\n"
    );
    let errors = bad(&["help", "sheet", "x"], b"", 2);
    assert!(
        errors.contains("argument \"x\" is one too many"),
        "{errors}"
    );
}

#[test]
fn values_may_follow_an_equals_sign() {
    let apart = good(
        &[
            "generate",
            "--profile",
            "hits",
            "--seed",
            "9",
            "--messages",
            "20",
        ],
        b"",
    );
    let joined = good(
        &["generate", "--profile=hits", "--seed=9", "--messages=20"],
        b"",
    );
    assert_eq!(apart, joined);
    let errors = bad(&["sheet", "--text=yes"], b"", 2);
    assert!(errors.contains("option --text takes no value"), "{errors}");
    let errors = bad(&["set", "--after="], b"", 2);
    assert!(
        errors.contains("expected a number after --after, found \"\""),
        "{errors}"
    );
}

#[test]
fn what_follows_two_dashes_is_a_file() {
    let folder = std::env::temp_dir().join(format!("venue-dashes-{}", std::process::id()));
    std::fs::create_dir_all(&folder).unwrap();
    std::fs::write(folder.join("--text"), PRINTED_TEXT).unwrap();
    let output = Command::new(env!("CARGO_BIN_EXE_venue"))
        .args(["sheet", "--text", "--", "--text"])
        .current_dir(&folder)
        .output()
        .unwrap();
    std::fs::remove_dir_all(&folder).unwrap();
    assert_eq!(output.stdout, PRINTED_SHEET.as_bytes());
}

#[test]
fn a_file_name_that_is_no_text_is_opened_and_told() {
    use std::ffi::OsStr;
    use std::os::unix::ffi::OsStrExt;
    let folder = std::env::temp_dir().join(format!("venue-name-{}", std::process::id()));
    std::fs::create_dir_all(&folder).unwrap();
    let name = folder.join(OsStr::from_bytes(b"a\xffb"));
    std::fs::write(&name, PRINTED_TEXT).unwrap();
    let run = |command: &str, file: &OsStr| {
        Command::new(env!("CARGO_BIN_EXE_venue"))
            .args([command, "--text"])
            .arg(file)
            .output()
            .unwrap()
    };
    let sheet = run("sheet", name.as_os_str());
    assert_eq!(sheet.stdout, PRINTED_SHEET.as_bytes());
    std::fs::write(&name, "swep\n").unwrap();
    for command in ["sheet", "explain", "set", "audit"] {
        let output = run(command, name.as_os_str());
        let told = String::from_utf8(output.stderr).unwrap();
        assert_eq!(output.status.code(), Some(1));
        assert!(
            told.contains("a\u{fffd}b: line 1: expected a message"),
            "{told}"
        );
    }
    std::fs::remove_dir_all(&folder).unwrap();
    let output = run("sheet", OsStr::from_bytes(b"--\xff"));
    let told = String::from_utf8(output.stderr).unwrap();
    assert_eq!(output.status.code(), Some(2));
    assert!(
        told.contains("option --\u{fffd} is not known here"),
        "{told}"
    );
}

#[test]
fn output_that_is_not_written_is_told() {
    let full = std::fs::OpenOptions::new().write(true).open("/dev/full");
    let output = Command::new(env!("CARGO_BIN_EXE_venue"))
        .arg("help")
        .stdout(full.unwrap())
        .output()
        .unwrap();
    let told = String::from_utf8(output.stderr).unwrap();
    assert_eq!(output.status.code(), Some(1));
    assert!(
        told.starts_with("venue: the output was not written: "),
        "{told}"
    );
}

#[test]
fn one_is_told_as_one() {
    let errors = bad(&["set", "--after", "2"], &[4, 0, 6, 0], 1);
    assert!(
        errors.contains("the session has 1 message, not 2"),
        "{errors}"
    );
    let beyond = venue(&["settings", "-", "5"], &[4, 0, 6, 0]);
    let told = String::from_utf8(beyond.stderr).unwrap();
    assert!(told.contains("the session has 1 message; told"), "{told}");
}
