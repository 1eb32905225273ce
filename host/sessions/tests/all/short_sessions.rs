//! Every short session from a small list, with every check after every
//! message, and the run of each whole session against its calls.

use crate::common::{bytes, venue_after};
use reference::{is_sound, one_message, run, Venue};
use sessions::check::{Checker, Step};
use sessions::lent::Lent;
use sessions::message::{split, Message};
use sessions::record::{read_report_into, Record};

struct Search<'a> {
    choices: &'a [Vec<u8>],
    depth: usize,
    lent: Lent,
    list: Vec<u8>,
    report: Vec<u8>,
    sessions: u64,
    runs: u64,
}

impl Search<'_> {
    /// All sessions that go on from here.
    fn go_on(&mut self, checker: &Checker, venue: &Venue, length: usize) {
        self.sessions += 1;
        if length == self.depth {
            self.compare_run(venue);
            return;
        }
        for choice in self.choices {
            let (list, report) = (self.list.len(), self.report.len());
            self.take(checker, venue, choice, length);
            self.list.truncate(list);
            self.report.truncate(report);
        }
    }

    fn take(&mut self, checker: &Checker, venue: &Venue, choice: &[u8], length: usize) {
        let returned = one_message(venue, checker.done, choice, self.lent.lend(2048));
        let written = self.lent.written(returned.written).unwrap();
        let mut records: Vec<Record> = Vec::new();
        read_report_into(written, &mut records).unwrap();
        let step = Step {
            message: &Message::decode(choice),
            bytes: choice,
            before: venue,
            returned: &returned,
            records: &records,
        };
        let mut checker = checker.clone();
        self.list.extend_from_slice(choice);
        self.report.extend_from_slice(written);
        let checked = checker.check(&step).map(|_| ());
        assert_eq!(checked, Ok(()), "list {:02x?}", self.list);
        assert!(is_sound(&returned.venue), "list {:02x?}", self.list);
        self.go_on(&checker, &returned.venue, length + 1);
    }

    fn compare_run(&mut self, venue: &Venue) {
        let returned = run(&self.list, self.lent.lend(self.report.len()));
        assert_eq!(returned.number, 0, "list {:02x?}", self.list);
        assert_eq!(returned.venue, *venue, "list {:02x?}", self.list);
        assert_eq!(self.lent.written(self.report.len()).unwrap(), self.report);
        self.runs += 1;
    }
}

/// Sessions of up to `depth` messages after a first part; how many there are.
fn search(first: &str, choices: &str, depth: usize) -> u64 {
    let list = bytes(first);
    let choices = bytes(choices);
    let choices: Vec<Vec<u8>> = split(&choices).into_iter().map(<[u8]>::to_vec).collect();
    let mut checker = Checker::default();
    let mut search = Search {
        choices: &choices,
        depth,
        lent: Lent::new(),
        list: Vec::new(),
        report: Vec::new(),
        sessions: 0,
        runs: 0,
    };
    let mut venue = Venue::fresh();
    for piece in split(&list) {
        let returned = one_message(&venue, checker.done, piece, search.lent.lend(2048));
        let written = search.lent.written(returned.written).unwrap();
        let mut records = Vec::new();
        read_report_into(written, &mut records).unwrap();
        let step = Step {
            message: &Message::decode(piece),
            bytes: piece,
            before: &venue,
            returned: &returned,
            records: &records,
        };
        checker.check(&step).map(|_| ()).unwrap();
        search.list.extend_from_slice(piece);
        search.report.extend_from_slice(written);
        venue = returned.venue;
    }
    assert_eq!(venue, venue_after(first));
    search.go_on(&checker, &venue, 0);
    assert_eq!(search.runs, (choices.len() as u64).pow(depth as u32));
    search.sessions
}

/// How many sessions of 0 to `depth` messages there are from `count` messages.
fn sessions_of(count: u64, depth: u32) -> u64 {
    (0..=depth).map(|length| count.pow(length)).sum()
}

#[test]
fn every_session_of_up_to_6_messages_from_8_upon_closed_and_upon_open_series() {
    let choices = "open 0\nopen 1\norder 1 sell 15 series 0 at 130\n\
        order 2 sell 12 series 1 at 90\ncomplex 3 buy 0 buy 1 class 1 net 205 quantity 8\n\
        order 4 sell 5 series 0 at 115\ncancel 3\nsweep\n";
    assert_eq!(search("close 0\nclose 1\n", choices, 6), sessions_of(8, 6));
    let closing = choices.replace("open", "close");
    assert_eq!(search("", &closing, 6), sessions_of(8, 6));
}

#[test]
fn every_session_of_up_to_5_messages_from_12_upon_quoted_series() {
    let first = "open 0\nopen 1\naway 0 bid 100 offer 0\naway 1 bid 80 offer 0\n\
        order 1 sell 15 series 0 at 130\norder 2 sell 12 series 1 at 90\n";
    let choices = "complex 3 buy 0 buy 1 class 1 net 205 quantity 8\n\
        complex 4 sell 1 sell 0 class 0 net -204 quantity 5\n\
        complex 5 buy 0 buy 1 class 0 net 205 quantity 20\norder 6 sell 5 series 0 at 115\n\
        order 7 sell 9 series 1 at 85\norder 8 buy 2 series 0 at 110\n\
        order 9 buy 12 series 1 at 90\nsweep\ncancel 2\ncancel 3\nauction 1\n\
        away 0 bid 100 offer 110\n";
    assert_eq!(search(first, choices, 5), sessions_of(12, 5));
}

#[test]
fn every_session_of_up_to_5_messages_from_10_with_reserve() {
    let first = "order 1 sell 15 series 0 at 130 shows 4\norder 2 sell 12 series 1 at 90 shows 5\n";
    let choices = "order 3 sell 6 series 0 at 130\norder 4 sell 9 series 0 at 135 shows 2\n\
        complex 5 buy 0 buy 1 class 1 net 205 quantity 8\n\
        complex 6 buy 1 buy 0 class 0 net 225 quantity 7\n\
        order 7 buy 12 series 0 at 130 shows 3\norder 8 sell 5 series 0 at 115 shows 1\n\
        order 9 buy 9 series 1 at 90\ncancel 1\ncancel 2\nsweep\n";
    assert_eq!(search(first, choices, 5), sessions_of(10, 5));
}

#[test]
fn every_session_of_up_to_5_messages_from_10_with_ratios() {
    let first = "order 1 sell 3 series 0 at 130\norder 2 sell 4 series 1 at 90\n\
        away 0 bid 100 offer 0\naway 1 bid 80 offer 0\n";
    let choices = "complex 3 buy 0 buy 1 class 1 net 205 quantity 1\n\
        complex 4 buy 0 buy 1 class 0 net 360 quantity 3 ratio 2 1\n\
        complex 5 sell 1 sell 0 class 0 net -250 quantity 2 ratio 1 2\n\
        complex 6 sell 0 sell 1 class 1 net -190 quantity 2 ratio 1 2\n\
        order 7 sell 1 series 0 at 130\norder 8 buy 1 series 0 at 115\n\
        order 9 buy 5 series 1 at 70 shows 1\ncancel 4\ncancel 2\nsweep\n";
    assert_eq!(search(first, choices, 5), sessions_of(10, 5));
}

#[test]
fn every_session_of_up_to_5_messages_from_10_with_limited_sweeps() {
    let first = "order 1 sell 15 series 0 at 130\norder 2 sell 12 series 1 at 90\n\
        away 0 bid 100 offer 0\naway 1 bid 80 offer 0\n";
    let choices = "complex 3 buy 0 buy 1 class 1 net 205 quantity 8\n\
        complex 4 sell 1 sell 0 class 0 net -204 quantity 5\n\
        complex 5 buy 0 buy 1 class 0 net 206 quantity 20\norder 6 sell 9 series 1 at 85\n\
        limited 1\nlimited 2\nlimited 32\ncancel 3\naway 0 bid 100 offer 110\nsweep\n";
    assert_eq!(search(first, choices, 5), sessions_of(10, 5));
}

#[test]
fn every_session_of_up_to_5_messages_from_10_with_settings() {
    let first = "away 0 bid 0 offer 100\norder 1 sell 15 series 0 at 130\n\
        order 2 sell 12 series 1 at 90\nclose 7\n";
    let choices = "complex 3 buy 0 buy 1 class 1 net 197 quantity 8\n\
        complex 4 sell 7 buy 1 class 0 net -25 quantity 5\norder 5 buy 2 series 7 at 114\n\
        percent 3 1\npercent 16 2\nincrement 7 1 3\nincrement 7 5 4\nopen 7\ncancel 5\nsweep\n";
    assert_eq!(search(first, choices, 5), sessions_of(10, 5));
}
