//! The hosts in C: built without a warning, their output and their exit status; and what
//! hosts are installed with.

mod books;
mod cplusplus;
mod header;
mod install;
mod programs;
mod python;
mod upgrade;
mod upgrade_layer;

use programs::{built, file, run};
use sessions::profile::Profile;
use sessions::record::{print_sheet, read_report};
use sessions::sheet::run_whole;
use sessions::soak::generate;
use sessions::text::{encode_line, encode_session};
use std::path::PathBuf;
use std::sync::OnceLock;

const SESSION: &str = include_str!("../../../venue/tests/sessions/printed.txt");
const MAIN: &str = include_str!("../../../venue/tests/sessions/printed-main.txt");
const SPARE: &str = include_str!("../../../venue/tests/sessions/printed-spare.txt");

fn host(arguments: &[&str], input: &[u8]) -> (i32, String, String) {
    static PROGRAM: OnceLock<PathBuf> = OnceLock::new();
    run(PROGRAM.get_or_init(|| built("host")), arguments, input)
}

fn four(arguments: &[&str], input: &[u8]) -> (i32, String, String) {
    static PROGRAM: OnceLock<PathBuf> = OnceLock::new();
    run(PROGRAM.get_or_init(|| built("four")), arguments, input)
}

/// The list by one run and message by message: the same output.
fn both_ways(arguments: &[&str], input: &[u8]) -> (i32, String) {
    let (status, told, _) = host(arguments, input);
    let each = host(&[&["--each"], arguments].concat(), input);
    assert_eq!((each.0, &each.1), (status, &told));
    (status, told)
}

#[test]
fn the_printed_session() {
    let messages = encode_session(SESSION).expect("the stored session is good");
    let (status, told) = both_ways(&[], &messages);
    assert_eq!(status, 0);
    assert!(told.starts_with("64 1 0 0 0\n64 2 0 0 0\n"), "{told}");
    let end = "66 3 205 5\n68 3 0 0 3\n68 3 1 0 3\nnumber 0: the whole list was done\n";
    assert!(told.ends_with(end), "{told}");
    assert_eq!(told.lines().count(), 14);
}

/// The host given the spare line as a file of this name and the main line as its input.
fn host_of_lines(name: &str, main: &str, spare: &str, rest: &[&str]) -> (i32, String) {
    let [main, spare] = [main, spare].map(|text| encode_line(text).expect("a good line"));
    let spare = file(name, &spare);
    let (status, told, _) = host(&[&["--spare", &spare], rest].concat(), &main);
    (status, told)
}

#[test]
fn the_printed_session_over_two_lines() {
    let messages = encode_session(SESSION).expect("the stored session is good");
    let (status, told, _) = host(&[], &messages);
    assert_eq!(host_of_lines("whole", MAIN, SPARE, &[]), (status, told));
    let (status, told, _) = host(&["--room", "30", "--hex"], &messages);
    let short = host_of_lines("short", MAIN, SPARE, &["--room", "30", "--hex", "-"]);
    assert_eq!(short, (status, told));
}

#[test]
fn lines_that_stop() {
    let main = "1 sweep\n2 sweep\n";
    for (spare, answers, ending) in [
        ("2 cancel 1\n", 1, "number 19: the lines differ in "),
        ("4 sweep\n", 2, "number 20: the next message is lost "),
        ("1 sweep\nraw 02\n", 0, "number 21: a line is torn, "),
    ] {
        let (status, told) = host_of_lines("stopped", main, spare, &[]);
        assert_eq!((status, told.lines().count()), (3, answers + 1), "{told}");
        let last = told.lines().last().expect("a line");
        assert!(last.starts_with(ending), "{told}");
    }
}

#[test]
fn four_lists_are_done_each_at_its_own_venue() {
    let printed = encode_session(SESSION).expect("the stored session is good");
    let generated = |profile, messages| {
        let mut list = generate(profile, 3, messages);
        list.retain(|message| message.len() <= 32);
        list.concat()
    };
    let torn = [&generated(Profile::Hits, 30)[..], &[9, 0, 6]].concat();
    let names = ["list-0", "list-1", "list-2"].into_iter();
    let lists = [printed, generated(Profile::Mixed, 200), torn];
    let files: Vec<String> = names
        .zip(&lists)
        .map(|(name, list)| file(name, list))
        .collect();
    let arguments = [files[0].as_str(), &files[1], "-", &files[2]];
    let (status, told, errors) = four(&arguments, &[]);
    assert_eq!((status, errors.as_str()), (0, ""));
    for (venue, list) in [(0, &lists[0]), (1, &lists[1]), (3, &lists[2])] {
        let prefix = format!("{venue}: ");
        let own = told.lines().filter_map(|line| line.strip_prefix(&prefix));
        let own: String = own.map(|line| format!("{line}\n")).collect();
        let (_, report) = run_whole(list);
        let sheet = print_sheet(&read_report(&report).expect("whole records"));
        assert_eq!(own, sheet, "venue {venue}");
    }
    assert!(!told.contains("2: "), "{told}");
    let starts: Vec<&str> = told.lines().take(4).collect();
    assert_eq!(
        starts,
        [
            "0: 64 1 0 0 0",
            "1: 64 1 0 0 0",
            "3: 64 1 0 0 0",
            "0: 64 2 0 0 0"
        ]
    );
}

#[test]
fn a_message_that_is_too_long_to_wait_is_told_and_passed_over() {
    let mut list = vec![33, 0, 99, 0];
    list.resize(33, 0);
    list.extend([4, 0, 6, 0]);
    let none = file("list-none", &[]);
    let (status, told, errors) = four(&["--hex", &none, &none, &none, "-"], &list);
    let sweep = "3: 0c 00 40 00 01 00 00 00 00 00 00 00\n";
    assert_eq!((status, told.as_str()), (0, sweep));
    let long = "four: venue 3: a message of 33 bytes is passed over: number 17\n";
    assert_eq!(errors, long);
}

#[test]
fn errors_of_four_name_what_was_wrong() {
    for (arguments, status, word) in [
        (&[][..], 2, "expected four lists: too few"),
        (&["a", "b", "c"], 2, "too few were given"),
        (&["a", "b", "c", "d", "e"], 2, "too many: e"),
        (&["-", "a", "-", "b"], 2, "one list only: -"),
        (&["--what"], 2, "--what"),
        (&["no-such-file", "a", "b", "c"], 1, "no-such-file"),
    ] {
        let (found, told, error) = four(arguments, &[]);
        assert_eq!((found, told.as_str()), (status, ""), "{error}");
        assert!(error.contains(word), "{error}");
    }
    assert!(four(&["--help"], &[]).1.starts_with("usage: four "));
}

#[test]
fn series_are_open_at_the_start_until_they_are_closed() {
    let text = "order 1 sell 5 series 3 at 100\nclose 3\norder 2 sell 5 series 3 at 100\n";
    let messages = encode_session(text).expect("a good session");
    let (status, told) = both_ways(&[], &messages);
    assert_eq!(status, 0);
    assert!(
        told.starts_with("64 1 0 0 0\n64 2 0 0 0\n64 3 6 0 0\n"),
        "{told}"
    );
}

#[test]
fn settings_are_passed_over_where_refused_and_told_at_a_message() {
    let text = "percent 9 0\nincrement 0 1 1\nclose 0\nincrement 0 1 1\npercent 0 2\nsweep\n";
    let messages = encode_session(text).expect("a good session");
    let (status, told) = both_ways(&[], &messages);
    assert_eq!(status, 0);
    let first = "64 1 11 0 0\n64 2 12 0 0\n64 3 0 0 0\n64 4 0 0 0\n";
    assert!(told.starts_with(first), "{told}");
    for (number, line) in [
        ("3", "increments 5 5 5 5 5 5 10 10, percent 5\n"),
        ("4", "increments 1 5 5 5 5 5 10 10, percent 5\n"),
        ("4294967295", "increments 1 5 5 5 5 5 10 10, percent 0\n"),
    ] {
        let (status, more, _) = host(&["--settings", number], &messages);
        let line = format!("settings at message {number}: {line}number 0: ");
        assert!(status == 0 && more.contains(&line), "{more}");
    }
}

#[test]
fn orders_that_rest_are_listed_with_what_they_show() {
    let text = "order 1 buy 9 series 0 at 115 shows 4\norder 2 buy 3 series 0 at 115\n\
        order 3 sell 5 series 0 at 115\norder 4 sell 2 series 6 at 200 shows 3\n\
        order 5 sell 8 series 6 at 200 shows 3\n";
    let messages = encode_session(text).expect("a good session");
    let (status, told) = both_ways(&[], &messages);
    assert_eq!(status, 0);
    let trades = "64 3 0 0 0\n65 0 1 115 4 3 1\n65 0 1 115 1 3 2\n64 4 4 0 0\n";
    assert!(told.contains(trades), "{told}");
    let (status, more, _) = host(&["--resting"], &messages);
    let lines =
        "order 1: buy 5 series 0 at 115, shows 4\norder 2: buy 2 series 0 at 115, shows 2\n\
        order 5: sell 8 series 6 at 200, shows 3\nnumber 0: ";
    assert!(status == 0 && more.contains(lines), "{more}");
}

#[test]
fn complex_orders_that_rest_are_listed_with_their_ratios() {
    let text = "order 1 sell 3 series 0 at 130\norder 2 sell 12 series 1 at 90\n\
        complex 3 buy 0 buy 1 class 1 net 350 quantity 9 ratio 2 2\n\
        complex 3 buy 0 buy 1 class 1 net 350 quantity 9 ratio 2 1\n\
        complex 4 sell 7 buy 1 class 0 net -5 quantity 2\n";
    let messages = encode_session(text).expect("a good session");
    let (status, told) = both_ways(&[], &messages);
    assert_eq!(status, 0);
    let unit = "64 3 14 0 0\n64 4 0 0 0\n65 0 0 130 2 3 1\n65 1 0 90 1 3 2\n66 3 350 1\n";
    assert!(told.contains(unit), "{told}");
    let (status, more, _) = host(&["--resting"], &messages);
    let lines = "order 2: sell 11 series 1 at 90, shows 11\n\
        complex 3: buy 2 series 0, buy 1 series 1, net 350, 8 units\n\
        complex 4: sell 1 series 7, buy 1 series 1, net -5, 2 units\nnumber 0: ";
    assert!(status == 0 && more.contains(lines), "{more}");
}

#[test]
fn generations_and_the_id_reached_are_listed() {
    let text = "complex 1 buy 0 buy 1 class 1 net 205 quantity 8\n\
        complex 2 buy 0 buy 1 class 1 net 206 quantity 8\norder 3 sell 15 series 0 at 130\n\
        order 4 sell 12 series 1 at 90\nlimited 1\nlimited 33\nlimited 1\n";
    let messages = encode_session(text).expect("a good session");
    let (status, told) = both_ways(&[], &messages);
    assert_eq!(status, 0);
    let looked = "64 5 0 5 2\n72 1\n67 1 0 0 115 115 8\n67 1 1 0 75 75 8\n64 6 4 5 2\n";
    assert!(told.contains(looked), "{told}");
    let (status, more, _) = host(&["--resting"], &messages);
    let lines = "series 0: generated by messages 5 7\nseries 1: generated by messages 5 7\n\
        limited sweeps went up to id 2\nnumber 0: ";
    assert!(status == 0 && more.contains(lines), "{more}");
}

#[test]
fn short_memory_and_hexadecimal() {
    let messages = encode_session(SESSION).expect("the stored session is good");
    let (status, told, _) = host(&["--room", "30", "--hex", "-"], &messages);
    assert_eq!(status, 3);
    let lines: Vec<&str> = told.lines().collect();
    assert_eq!(lines[0], "0c 00 40 00 01 00 00 00 00 00 00 00");
    assert!(lines[2].starts_with("number 10: "), "{told}");
    assert_eq!(lines.len(), 3);
    let (status, told, _) = host(&["--each", "--room", "55"], &messages);
    assert_eq!((status, told.lines().count()), (3, 5), "{told}");
}

#[test]
fn a_list_whose_report_is_longer_than_the_first_memory() {
    let (status, told) = both_ways(&[], &[4, 0, 6, 0].repeat(10_000));
    assert_eq!(status, 0);
    assert!(told.contains("\n64 10000 0 0 0\nnumber 0: "));
}

#[test]
fn refused_messages_a_negative_net_and_a_torn_end() {
    let text = "open 0\nopen 1\norder 1 buy 5 series 0 at 100\norder 2 buy 5 series 1 at 50\n\
                cancel 9\ncomplex 3 sell 0 sell 1 class 0 net -150 quantity 2\n";
    let mut messages = encode_session(text).expect("a good session");
    messages.extend([9, 0, 6]);
    let (status, told) = both_ways(&[], &messages);
    assert_eq!(status, 3);
    assert!(told.contains("\n64 5 8 0 0\n"), "{told}");
    assert!(told.contains("\n66 3 -150 2\n"), "{told}");
    assert!(told.contains("\nnumber 1: "), "{told}");
}

#[test]
fn no_input_and_no_memory() {
    let (status, told, _) = host(&["--room", "0"], &[]);
    assert_eq!((status, told.lines().count()), (0, 1));
}

#[test]
fn errors_name_what_was_wrong() {
    for (arguments, status, word) in [
        (&["--room", "x"][..], 2, "found: x"),
        (&["--room"], 2, "after: --room"),
        (&["--settings", "4294967296"], 2, "found: 4294967296"),
        (&["--settings"], 2, "after: --settings"),
        (&["--what"], 2, "--what"),
        (&["a", "b"], 2, "too many: b"),
        (&["--spare"], 2, "after: --spare"),
        (&["--spare", "-"], 2, "both lines: --spare -"),
        (&["--each", "--spare", "a"], 2, "--settings: --spare"),
        (&["--settings", "1", "--spare", "a"], 2, "not with --each"),
        (&["--resting", "--spare", "a"], 2, "not with --each"),
        (&["--spare", "no-such-file"], 1, "no-such-file"),
        (&["no-such-file"], 1, "no-such-file"),
    ] {
        let (found, told, error) = host(arguments, &[]);
        assert_eq!((found, told.as_str()), (status, ""), "{error}");
        assert!(error.contains(word), "{error}");
    }
}

#[test]
fn help_is_printed() {
    let (status, told, _) = host(&["--help"], &[]);
    assert_eq!(status, 0);
    assert!(told.starts_with("usage: host "));
}
