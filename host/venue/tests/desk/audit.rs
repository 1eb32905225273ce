//! `venue audit`.

use crate::{drawn, ended, good, text, Kept, PRINTED_TEXT};
use std::io::Write;
use std::process::{Command, Stdio};

fn printed_sheet() -> String {
    good(&["sheet", "--text"], PRINTED_TEXT.as_bytes())
}

/// Audits a sheet of the printed session that does not agree.
fn printed_wrong(name: &str, sheet: &str) -> String {
    let kept = Kept::new(name, sheet);
    let arguments = ["audit", "--text", "-", kept.path()];
    let (told, errors) = ended(&arguments, PRINTED_TEXT.as_bytes(), 1);
    let verdict = told.lines().last().unwrap_or_default();
    assert_eq!(errors, format!("venue audit: {verdict}\n"));
    told
}

#[test]
fn the_last_line_is_the_verdict() {
    let kept = Kept::new("verdict.sheet", printed_sheet());
    let told = good(
        &["audit", "--text", "-", kept.path()],
        PRINTED_TEXT.as_bytes(),
    );
    assert!(
        told.ends_with("\nagrees: 6 messages, 13 records\n"),
        "{told}"
    );
    assert_eq!(
        good(&["audit", "--text", "-"], PRINTED_TEXT.as_bytes()),
        told
    );
    let empty = printed_wrong("empty.sheet", "");
    let verdict = "does not agree: the sheet has no records, the session has 6 messages\n";
    assert!(empty.ends_with(verdict), "{empty}");
    let sheet = printed_sheet();
    let four = sheet.split_inclusive('\n').take(4).collect::<String>();
    let cut = printed_wrong("cut.sheet", &four);
    let verdict = "\ndoes not agree: the sheet ends after message 4 of 6\n";
    assert!(cut.ends_with(verdict), "{cut}");
    let torn = printed_wrong("torn.sheet", &sheet[..sheet.len() - 4]);
    let verdict =
        "\ndoes not agree: 1 of 6 messages differs; the sheet ends within message 6 of 6\n";
    assert!(torn.ends_with(verdict), "{torn}");
}

#[test]
fn every_false_line_of_a_long_sheet_is_told() {
    let (session, sheet) = drawn("hits", "3", "4000");
    let session = Kept::new("long.txt", session);
    let mut lines: Vec<String> = sheet.lines().map(str::to_string).collect();
    let pairs: Vec<usize> = (0..lines.len())
        .filter(|at| lines[*at].starts_with("66 "))
        .collect();
    let wrong = [pairs[3], pairs[pairs.len() / 2], pairs[pairs.len() - 1]];
    for at in wrong {
        let mut words: Vec<String> = lines[at].split(' ').map(str::to_string).collect();
        let net: i64 = words[2].parse().unwrap();
        words[2] = (net - 5).to_string();
        lines[at] = words.join(" ");
    }
    let kept = Kept::new("long.sheet", lines.join("\n") + "\n");
    let (told, _) = ended(&["audit", "--text", session.path(), kept.path()], b"", 1);
    let told: Vec<&str> = told.lines().collect();
    for at in wrong {
        let line = format!("disagreement: line {} (message ", at + 1);
        let of: Vec<&&str> = told.iter().filter(|told| told.starts_with(&line)).collect();
        assert!(of[0].contains(": expected \"66 "), "{of:?}");
        assert!(of[1].contains("its trades come to "), "{of:?}");
        assert_eq!(of.len(), 2);
    }
    let verdict = "does not agree: 3 of 4000 messages differ";
    assert_eq!(told.last(), Some(&verdict));
}

#[test]
fn no_more_messages_are_told_than_asked_for() {
    let (session, sheet) = drawn("mixed", "1", "300");
    let session = Kept::new("most.txt", session);
    let wrong = Kept::new("most.sheet", sheet.replace(" 0 0 0\n", " 0 0 1\n"));
    let count = |most: &[&str]| {
        let arguments = [&["audit", "--text"], most, &[session.path(), wrong.path()]].concat();
        let (told, _) = ended(&arguments, b"", 1);
        let told = told
            .lines()
            .filter(|line| line.contains(": expected \"64 "));
        told.count()
    };
    assert_eq!(count(&[]), 20);
    assert_eq!(count(&["--most", "7"]), 7);
    assert_eq!(count(&["--most=0"]), 0);
    assert!(count(&["--most", "100000"]) > 40);
}

#[test]
fn a_false_line_is_told_with_what_the_rules_say_there() {
    let sheet = printed_sheet();
    let told = printed_wrong(
        "rules.sheet",
        &sheet.replace("67 3 1 0 75 75 8", "67 3 1 0 75 80 8"),
    );
    let line = "disagreement: line 7 (message 5): expected \"67 3 1 0 75 75 8\", found \
        \"67 3 1 0 75 80 8\"; by the rules: legging order of 3, buy series 1: 8 at 75, shown at \
        75 by increment 5 (edition 0), in band by percent 5 (edition 0)\n";
    assert!(told.contains(line), "{told}");
}

#[test]
fn lines_that_are_no_records_are_told_and_the_audit_goes_on() {
    let sheet = printed_sheet();
    let cases = [
        ("64 3 0 0 0", "64 3 0 0", "line 3 (message 3): expected \"64 3 0 0 0\", found \"64 3 0 0\", which is no record: expected 4 fields of record 64, found 3"),
        ("64 2 0 0 0\n", "64 2 0 0 0\n\n", "line 3 (message 2): expected no line, found \"\", which is no record: expected a record kind"),
        ("64 4 0 0 0", "64 4 256 0 0", "which is no record: expected field 2 of record 64, a number from 0 to 255, found \"256\""),
        ("64 1 0 0 0", "64 1 0 0 \u{fffd}0", "line 1 (message 1): expected"),
    ];
    for (right, wrong, expected) in cases {
        let wrong = sheet
            .replace(right, wrong)
            .replace("66 3 205 5", "66 3 204 5");
        let told = printed_wrong("records.sheet", &wrong);
        assert!(told.contains(expected), "{expected}\n{told}");
        assert!(
            told.contains(": expected \"66 3 205 5\", found \"66 3 204 5\""),
            "{told}"
        );
        assert!(
            told.contains("\ndoes not agree: 2 of 6 messages differ"),
            "{told}"
        );
    }
    let mut bytes = sheet.clone().into_bytes();
    bytes[2] = 0xff;
    let kept = Kept::new("bytes.sheet", bytes);
    let (told, _) = ended(
        &["audit", "--text", "-", kept.path()],
        PRINTED_TEXT.as_bytes(),
        1,
    );
    assert!(
        told.contains("which is no record: expected text, found other bytes"),
        "{told}"
    );
}

#[test]
fn line_ends_of_two_bytes_and_a_byte_order_mark_are_no_faults() {
    let sheet = format!("\u{feff}{}", printed_sheet().replace('\n', "\r\n"));
    let kept = Kept::new("windows.sheet", sheet);
    let told = good(
        &["audit", "--text", "-", kept.path()],
        PRINTED_TEXT.as_bytes(),
    );
    assert!(
        told.ends_with("\nagrees: 6 messages, 13 records\n"),
        "{told}"
    );
}

#[test]
fn a_sheet_without_an_end_of_line_ends_the_audit() {
    let (told, _) = ended(
        &["audit", "--text", "-", "/dev/zero"],
        PRINTED_TEXT.as_bytes(),
        1,
    );
    assert!(
        told.contains("found a line of 4096 bytes or more"),
        "{told}"
    );
    let (told, errors) = ended(&["audit", "--text", "-", "no-such-file"], b"", 1);
    assert_eq!(told, "");
    assert!(
        errors.starts_with("venue audit: no-such-file: "),
        "{errors}"
    );
}

/// The most memory that a process has had, in KiB.
fn most_memory(process: u32) -> u64 {
    let status = std::fs::read_to_string(format!("/proc/{process}/status")).unwrap();
    let line = status.lines().find(|line| line.starts_with("VmHWM:"));
    let words = line.unwrap().split_whitespace().nth(1);
    words.unwrap().parse().unwrap()
}

#[test]
fn memory_does_not_grow_with_the_session_or_the_sheet() {
    const MESSAGES: usize = 400_000;
    let sheet: String = (1..=MESSAGES).map(|n| format!("64 {n} 0 0 0\n")).collect();
    let kept = Kept::new("memory.sheet", sheet);
    let mut child = Command::new(env!("CARGO_BIN_EXE_venue"))
        .args(["audit", "-", kept.path()])
        .stdin(Stdio::piped())
        .stdout(Stdio::piped())
        .spawn()
        .unwrap();
    let mut stdin = child.stdin.take().unwrap();
    stdin.write_all(&[4, 0, 6, 0].repeat(MESSAGES)).unwrap();
    // Nearly all was read: a pipe holds 64 KiB.
    let memory = most_memory(child.id());
    drop(stdin);
    let told = text(child.wait_with_output().unwrap().stdout);
    assert!(
        told.ends_with("agrees: 400000 messages, 400000 records\n"),
        "{told}"
    );
    assert!(memory < 16 * 1024, "{memory} KiB");
}

#[test]
fn a_sheet_of_another_session_is_told_as_it_is() {
    let cases = [
        (
            "64 2 0 0 0\n",
            "message 1: expected \"64 1 0 0 0\", found no answer to it",
            "1 of 6 messages differs; the sheet ends after message 2 of 6",
        ),
        (
            "66 3 205 5\n64 1 0 0 0\n",
            "line 1: expected message 1, found \"66 3 205 5\", one answer too many",
            "1 answer is one too many; the sheet ends after message 1 of 6",
        ),
    ];
    for (sheet, expected, verdict) in cases {
        let told = printed_wrong("another.sheet", sheet);
        assert!(
            told.contains(&format!("disagreement: {expected}\n")),
            "{told}"
        );
        assert!(
            told.ends_with(&format!("does not agree: {verdict}\n")),
            "{told}"
        );
    }
    let told = printed_wrong("longer.sheet", &(printed_sheet() + "64 7 0 0 0\n"));
    let expected = "line 14: expected no more answers, the session has 6 messages, found \
        \"64 7 0 0 0\", one answer too many\n";
    assert!(told.contains(expected), "{told}");
}
