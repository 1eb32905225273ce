//! Audits of sheets: whole ones agree, and of doctored ones every false line is told.

use crate::common::{bytes, sheet};
use sessions::audit::{Auditor, Counts, Disagreement, Row, Source, Told};
use sessions::message::split;
use sessions::profile::Profile;
use sessions::random::Random;
use sessions::record::{print_sheet, read_report};
use sessions::sheet::run_whole;
use sessions::sheet_lines::Sheet;
use sessions::soak::generate;
use std::collections::BTreeSet;

/// What an audit told.
struct Audited {
    rows: Vec<Row>,
    told: Vec<Disagreement>,
    counts: Counts,
}

impl Audited {
    /// The messages that are told.
    fn messages(&self) -> BTreeSet<u32> {
        self.told.iter().filter_map(|told| told.message).collect()
    }

    fn words(&self) -> Vec<String> {
        self.told.iter().map(Disagreement::to_string).collect()
    }
}

fn audit_most(list: &[u8], sheet: Option<&str>, most: u64) -> Audited {
    let source = match sheet {
        Some(sheet) => Source::Given(Sheet::new(sheet.as_bytes())),
        None => Source::Own,
    };
    let mut auditor = Auditor::new(source, most);
    let pieces = split(list);
    for (at, piece) in pieces.iter().enumerate() {
        auditor.message(piece, at + 1 == pieces.len()).unwrap();
    }
    auditor.finish().unwrap();
    let mut audited = Audited {
        rows: Vec::new(),
        told: Vec::new(),
        counts: auditor.counts().clone(),
    };
    for told in auditor.told() {
        match told {
            Told::Order(row) => audited.rows.push(row),
            Told::Reserve(_) => {}
            Told::Disagreement(disagreement) => audited.told.push(disagreement),
        }
    }
    audited
}

/// All that an audit of a sheet tells.
fn audit(list: &[u8], sheet: &str) -> Audited {
    audit_most(list, Some(sheet), u64::MAX)
}

/// A session of a profile with its sheet.
fn drawn(profile: Profile, seed: u64, messages: usize) -> (Vec<u8>, String) {
    let list = generate(profile, seed, messages).concat();
    let records = read_report(&run_whole(&list).1).unwrap();
    (list, print_sheet(&records))
}

/// The lines of a sheet, cut at its answers.
fn groups(sheet: &str) -> Vec<Vec<String>> {
    let mut groups: Vec<Vec<String>> = Vec::new();
    for line in sheet.lines() {
        if line.starts_with("64 ") {
            groups.push(Vec::new());
        }
        groups.last_mut().unwrap().push(line.to_string());
    }
    groups
}

fn joined(groups: &[Vec<String>]) -> String {
    groups
        .iter()
        .flatten()
        .map(|line| format!("{line}\n"))
        .collect()
}

#[test]
fn whole_sheets_agree_given_or_not() {
    for profile in Profile::ALL {
        let (list, sheet) = drawn(profile, 4, 300);
        let expected = format!("agrees: 300 messages, {} records", sheet.lines().count());
        for given in [Some(sheet.as_str()), None] {
            let audited = audit_most(&list, given, 20);
            assert_eq!(audited.words(), [""; 0], "{}", profile.name());
            assert_eq!(audited.counts.to_string(), expected);
            assert!(audited.rows.iter().all(|row| row.agrees));
        }
    }
    assert_eq!(
        audit(&[], "").counts.to_string(),
        "agrees: 0 messages, 0 records"
    );
}

/// Changes a number of a line to another that its field can have, or none at all; of an
/// answer not the message's number.
fn falsify(line: &str, random: &mut Random) -> String {
    let mut words: Vec<String> = line.split(' ').map(str::to_string).collect();
    let first = if line.starts_with("64 ") { 2 } else { 1 };
    let at = first + random.below((words.len() - first) as u64) as usize;
    let number: i64 = words[at].parse().unwrap_or(0);
    words[at] = match random.below(4) {
        0 => (number + 1).to_string(),
        1 if number > 0 => (number - 1).to_string(),
        2 => "x".to_string(),
        _ => (number + 7).to_string(),
    };
    words.join(" ")
}

/// False lines in a message's lines, drawn: changed, left out, doubled, put in, swapped.
fn doctor(lines: &mut Vec<String>, random: &mut Random) {
    let at = random.below(lines.len() as u64) as usize;
    match random.below(5) {
        0 if at > 0 => drop(lines.remove(at)),
        1 if at > 0 => lines.insert(at, lines[at].clone()),
        2 => lines.insert(at + 1, "65 0 1 115 1 4 3".to_string()),
        3 if at > 1 && lines[at] != lines[at - 1] => lines.swap(at, at - 1),
        _ => lines[at] = falsify(&lines[at], random),
    }
}

#[test]
fn every_message_with_a_false_line_is_told_and_no_other() {
    let mut random = Random::new(35);
    for profile in Profile::ALL {
        let (list, sheet) = drawn(profile, 9, 120);
        let whole = groups(&sheet);
        for count in [1, 2, 3, 8, 40] {
            let mut doctored = whole.clone();
            for _ in 0..count {
                let at = random.below(whole.len() as u64) as usize;
                doctor(&mut doctored[at], &mut random);
            }
            let numbered = (1..).zip(whole.iter().zip(&doctored));
            let wrong = numbered.filter(|(_, (whole, found))| whole != found);
            let wrong: BTreeSet<u32> = wrong.map(|(number, _)| number).collect();
            let audited = audit(&list, &joined(&doctored));
            assert_eq!(audited.messages(), wrong, "{}", profile.name());
            assert_eq!(audited.counts.differing, wrong.len() as u64);
            assert_eq!(audited.counts.agrees(), wrong.is_empty());
        }
    }
}

#[test]
fn the_first_false_line_of_each_message_is_told_with_what_the_rules_say() {
    let mut random = Random::new(7);
    for profile in Profile::ALL {
        let (list, sheet) = drawn(profile, 11, 100);
        let mut lines: Vec<String> = sheet.lines().map(str::to_string).collect();
        let mut wrong = Vec::new();
        for at in (0..lines.len())
            .filter(|_| random.below(9) == 0)
            .collect::<Vec<_>>()
        {
            let false_line = falsify(&lines[at], &mut random);
            wrong.push((at as u64 + 1, std::mem::replace(&mut lines[at], false_line)));
        }
        let audited = audit(&list, &joined(&[lines.clone()]));
        let mut told = audited.told.iter().filter(|told| told.expected.is_some());
        let mut messages = BTreeSet::new();
        for (line, expected) in wrong {
            let before = sheet.lines().take(line as usize);
            let message = before.filter(|line| line.starts_with("64 ")).count();
            if !messages.insert(message) {
                continue;
            }
            let told = told.next().unwrap();
            assert_eq!(told.line, Some(line));
            assert_eq!(told.expected.unwrap().to_string(), expected);
            assert_eq!(told.found, Some(lines[line as usize - 1].clone()));
        }
        assert_eq!(told.next(), None);
    }
}

/// Falsifies answers: left out, doubled, moved, with a false number; tells how.
fn doctor_answers(groups: &mut Vec<Vec<String>>, at: usize, random: &mut Random) -> &'static str {
    let with_number = |line: &str, number: u64| {
        let rest = line.splitn(3, ' ').nth(2).unwrap();
        format!("64 {number} {rest}")
    };
    match random.below(6) {
        0 => {
            groups.remove(at);
            "left out"
        }
        1 => {
            groups.insert(at, groups[at].clone());
            "doubled"
        }
        2 => {
            groups.swap(at, at + 1);
            "moved"
        }
        3 => {
            groups[at][0] = with_number(&groups[at][0], random.below(4_000_000));
            "with a false number"
        }
        4 => {
            groups[at][0] = "64 x".to_string();
            "unreadable"
        }
        _ => {
            groups[at].remove(0);
            "without its line"
        }
    }
}

#[test]
fn false_answers_hide_nothing_and_are_told_where_they_are() {
    let mut random = Random::new(64);
    for profile in Profile::ALL {
        let (list, sheet) = drawn(profile, 21, 100);
        let whole = groups(&sheet);
        for _ in 0..12 {
            let mut doctored = whole.clone();
            // From the last to the first, so that the places before stay as they are.
            let places = [90, 70, 50, 30, 10];
            let how = places.map(|at| (at + 1, doctor_answers(&mut doctored, at, &mut random)));
            let audited = audit(&list, &joined(&doctored));
            let told = audited.messages();
            let words = audited.words();
            for (number, how) in how {
                let near = number as u32 - 1..=number as u32 + 2;
                let by_line = |words: &String| words.contains("one answer too many");
                let is_told =
                    near.clone().any(|number| told.contains(&number)) || words.iter().any(by_line);
                assert!(is_told, "{number} {how}: {words:?}");
            }
            let near = |told: u32| {
                places
                    .iter()
                    .any(|at| (told as usize).abs_diff(at + 1) <= 2)
            };
            let far: Vec<&u32> = told.iter().filter(|told| !near(**told)).collect();
            assert_eq!(far, Vec::<&u32>::new(), "{how:?} {words:?}");
            assert!(!audited.counts.agrees());
        }
    }
}

#[test]
fn answers_in_blocks_that_are_missing_or_doubled_are_told_each() {
    let (list, sheet) = drawn(Profile::Mixed, 2, 200);
    let whole = groups(&sheet);
    let missing = [&whole[..50], &whole[90..]].concat();
    let audited = audit(&list, &joined(&missing));
    assert_eq!(audited.messages(), (51..=90).collect());
    assert_eq!(audited.counts.extra, 0);
    let doubled = [&whole[..90], &whole[50..]].concat();
    let audited = audit(&list, &joined(&doubled));
    assert_eq!((audited.messages().len(), audited.counts.extra), (0, 40));
    assert_eq!(
        audited.told[0].line,
        Some(joined(&whole[..90]).lines().count() as u64 + 1)
    );
    let more = format!("{sheet}64 201 0 0 0\n72 1\n");
    let expected = format!(
        "line {}: expected no more answers, the session has 200 messages, found \"64 201 0 0 0\" \
         and 1 line after it, one answer too many",
        sheet.lines().count() + 1
    );
    assert_eq!(audit(&list, &more).words(), [expected]);
}

/// The printed session, six messages and thirteen lines.
const PRINTED: &str = "open 0\nopen 1\norder 1 sell 15 series 0 at 130\n\
    order 2 sell 12 series 1 at 90\ncomplex 3 buy 0 buy 1 class 1 net 205 quantity 8\n\
    order 4 sell 5 series 0 at 115\n";

#[test]
fn sheets_that_end_early_do_not_agree() {
    let (list, sheet) = (bytes(PRINTED), sheet(PRINTED));
    let lines: Vec<&str> = sheet.lines().collect();
    let first = |count: usize| lines[..count].join("\n") + "\n";
    let cases = [
        (
            String::new(),
            "the sheet has no records, the session has 6 messages",
        ),
        (first(4), "the sheet ends after message 4 of 6"),
        (first(7), "the sheet ends after message 5 of 6"),
        (
            first(6),
            "1 of 6 messages differs; the sheet ends within message 5 of 6",
        ),
        (
            first(12),
            "1 of 6 messages differs; the sheet ends within message 6 of 6",
        ),
    ];
    for (sheet, expected) in cases {
        let counts = audit(&list, &sheet).counts;
        assert_eq!(counts.to_string(), format!("does not agree: {expected}"));
        assert!(!counts.agrees());
    }
}

#[test]
fn a_sheet_cut_at_any_byte_does_not_agree() {
    let (list, sheet) = (bytes(PRINTED), sheet(PRINTED));
    for end in 0..sheet.len() - 1 {
        let audited = audit(&list, &sheet[..end]);
        assert!(!audited.counts.agrees(), "{:?}", &sheet[..end]);
        let verdict = audited.counts.to_string();
        let told = verdict.contains("the sheet ends ") || verdict.contains("has no records");
        assert!(told, "{end}: {verdict}");
    }
    // A last line without an end that is whole is no fault.
    assert!(audit(&list, sheet.trim_end()).counts.agrees());
    let cut = audit(&list, &sheet[..sheet.len() - 3]);
    let expected = "line 13 (message 6): expected \"68 3 1 0 3\", found \"68 3 1 0\", which is no \
        record: expected 4 fields of record 68, found 3, where the sheet is cut: its last line \
        has no end; by the rules: removed the legging order of 3, buy series 1: cause 3, its \
        parent crossed or paired";
    assert_eq!(cut.words()[0], expected);
}

#[test]
fn a_66_is_held_to_the_65s_before_it_and_to_n() {
    let (list, sheet) = (bytes(PRINTED), sheet(PRINTED));
    let cases = [
        ("66 3 206 5", "its trades come to 1025 in all, 5 at net 206 to 1030, and net 206 is above N 205 of the order"),
        ("66 3 205 4", "the 65s before it have 5 contracts in series 0, not 4"),
    ];
    for (pair, expected) in cases {
        let words = audit(&list, &sheet.replace("66 3 205 5", pair)).words();
        let start = format!("line 11 (message 6): record \"{pair}\": {expected}");
        assert!(
            words.iter().any(|words| words.starts_with(&start)),
            "{words:?}"
        );
    }
    let without = audit(&list, &sheet.replace("66 3 205 5\n", ""));
    let expected = "line 12 (message 6): complex order 3 trades 10 contracts that no 66 pairs";
    assert!(without.words().contains(&expected.to_string()));
}

#[test]
fn no_more_are_told_than_asked_for_and_the_rest_is_counted() {
    let (list, sheet) = drawn(Profile::Mixed, 3, 100);
    let lines = sheet.lines().map(|line| match line.strip_prefix("64 ") {
        Some(rest) => format!("64 {}\n", rest.replacen(" 0 ", " 9 ", 1)),
        None => format!("{line}\n"),
    });
    let doctored: String = lines.collect();
    let all = audit(&list, &doctored);
    let differing = all.counts.differing;
    assert!(differing > 40, "{differing}");
    let few = audit_most(&list, Some(&doctored), 3);
    assert_eq!(few.messages().len(), 3);
    assert_eq!(few.counts.differing, differing);
    let untold = format!(
        "{} more messages not told, each that does not agree",
        differing - 3
    );
    assert!(few.words().contains(&untold), "{:?}", few.words());
    let verdict = format!("does not agree: {differing} of 100 messages differ");
    assert!(few.counts.to_string().starts_with(&verdict));
}

#[test]
fn orders_are_told_as_they_go_and_those_that_rest_at_the_end() {
    let (list, _) = drawn(Profile::Hits, 8, 400);
    let audited = audit_most(&list, None, 20);
    let ids: BTreeSet<u32> = audited.rows.iter().map(|row| row.account.id).collect();
    assert_eq!(ids.len(), audited.rows.len());
    assert_eq!(audited.counts.complex, ids.len() as u64);
    let open = audited.rows.iter().skip_while(|row| row.open == 0);
    assert!(open.clone().count() > 0);
    assert!(open.clone().all(|row| row.open > 0));
}
