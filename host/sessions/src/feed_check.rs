//! The ways in which two lines come and their numbers come of them, over random sessions.

use crate::feed::{hand_out, HandedOut, Line, Stop};
use crate::feed_generator::Feed;
use crate::line::{read_line, Fault, FaultAt};
use std::collections::BTreeMap;

/// Bytes of an answer: no message writes less.
const ANSWER_BYTES: usize = 12;

/// The ways that random lines must show, and for each line those of 21.
const WAYS: [&str; 21] = [
    "0: both lines whole",
    "0: main lacks messages that the spare has",
    "0: the spare lacks messages that main has",
    "0: main is empty",
    "0: the spare is empty",
    "0: both lines are empty",
    "0: the last messages lost from both lines",
    "10: nothing else would stop it",
    "10: before the number that would get 19",
    "10: before the number that would get 20",
    "19: number 1",
    "19: a later number, of one length",
    "19: a later number, of two lengths",
    "19: where not even an answer fits",
    "20: number 1",
    "20: a later number",
    "20: a later one stands on main alone",
    "20: a later one stands on the spare alone",
    "20: a later one stands on both lines",
    "20: where not even an answer fits",
    "21: both lines",
];

const BAD_LINES: [&str; 19] = [
    "1 byte of a number",
    "2 bytes of a number",
    "3 bytes of a number",
    "number 0",
    "an equal number",
    "a falling number",
    "a number alone",
    "a number and 1 byte",
    "a number and 2 bytes",
    "a number and 3 bytes",
    "length 0",
    "length 1",
    "length 2",
    "length 3",
    "a length beyond the end",
    "1 to 3 zeros at the end",
    "4 to 7 zeros at the end",
    "8 zeros or more at the end",
    "after good messages",
];

/// How often each way came.
#[derive(Clone, Debug, Default)]
pub struct FeedCoverage {
    ways: BTreeMap<String, u64>,
}

impl FeedCoverage {
    /// Every way with how often it came.
    pub fn counts(&self) -> impl Iterator<Item = (String, u64)> + '_ {
        let bad_lines = Line::BOTH
            .into_iter()
            .flat_map(|line| BAD_LINES.map(|way| bad_line(line, way)));
        let all = WAYS.map(str::to_string).into_iter().chain(bad_lines);
        all.map(|way| {
            let count = self.ways.get(&way).copied().unwrap_or(0);
            (way, count)
        })
    }

    fn add(&mut self, way: &str) {
        *self.ways.entry(way.to_string()).or_default() += 1;
    }

    /// Takes note of a feed that was the same by both engines. Two lines of one list, of
    /// which each lacks what the other has, hand that list out.
    pub fn observe(
        &mut self,
        feed: &Feed,
        room: usize,
        number: u8,
        written: usize,
    ) -> Result<(), String> {
        let handed = hand_out(&feed.main, &feed.spare);
        let is_list = handed.stop == Stop::End && handed.list() == feed.list.concat();
        if feed.is_whole && !is_list {
            let stop = handed.stop;
            return Err(format!("two lines of one list do not hand it out: {stop}"));
        }
        self.count(feed, &handed, room - written, number);
        Ok(())
    }

    fn count(&mut self, feed: &Feed, handed: &HandedOut, left: usize, number: u8) {
        let is_full = left < ANSWER_BYTES;
        match (number, &handed.stop) {
            (10, Stop::Differs { .. }) => self.add("10: before the number that would get 19"),
            (10, Stop::Lost { .. }) => self.add("10: before the number that would get 20"),
            (10, _) => self.add("10: nothing else would stop it"),
            (_, Stop::End) => self.observe_end(feed, handed),
            (_, Stop::Differs { number, lengths }) => {
                self.add(match (number, lengths) {
                    (1, _) => "19: number 1",
                    (_, [one, other]) if one == other => "19: a later number, of one length",
                    _ => "19: a later number, of two lengths",
                });
                if is_full {
                    self.add("19: where not even an answer fits");
                }
            }
            (_, Stop::Lost { number, later }) => {
                self.observe_lost(*number, later);
                if is_full {
                    self.add("20: where not even an answer fits");
                }
            }
            (_, Stop::BadLine(faults)) => self.observe_bad_lines(feed, faults),
        }
    }

    fn observe_end(&mut self, feed: &Feed, handed: &HandedOut) {
        let count = |line: &[u8]| read_line(line).unwrap_or_default().len();
        let all = handed.messages.len();
        if feed.list.len() > all {
            self.add("0: the last messages lost from both lines");
        }
        match [count(&feed.main), count(&feed.spare)] {
            [0, 0] => self.add("0: both lines are empty"),
            [0, _] => self.add("0: main is empty"),
            [_, 0] => self.add("0: the spare is empty"),
            [main, spare] => {
                if main == all && spare == all {
                    self.add("0: both lines whole");
                }
                if main < all {
                    self.add("0: main lacks messages that the spare has");
                }
                if spare < all {
                    self.add("0: the spare lacks messages that main has");
                }
            }
        }
    }

    fn observe_lost(&mut self, number: u32, later: &[Option<u32>; 2]) {
        self.add(match number {
            1 => "20: number 1",
            _ => "20: a later number",
        });
        self.add(match later {
            [_, None] => "20: a later one stands on main alone",
            [None, _] => "20: a later one stands on the spare alone",
            _ => "20: a later one stands on both lines",
        });
    }

    fn observe_bad_lines(&mut self, feed: &Feed, faults: &[Option<FaultAt>; 2]) {
        if let [Some(_), Some(_)] = faults {
            self.add("21: both lines");
        }
        let lines = [&feed.main, &feed.spare];
        for ((line, bytes), at) in Line::BOTH.into_iter().zip(lines).zip(faults) {
            for way in at.iter().flat_map(|at| ways_of(&bytes[at.byte..], at)) {
                self.add(&bad_line(line, way));
            }
        }
    }
}

fn bad_line(line: Line, way: &str) -> String {
    format!("21: {}: {way}", line.name())
}

/// The ways of a fault, given the bytes from it on.
fn ways_of(rest: &[u8], at: &FaultAt) -> Vec<&'static str> {
    let mut ways = vec![match at.fault {
        Fault::TornNumber { left: 1 } => "1 byte of a number",
        Fault::TornNumber { left: 2 } => "2 bytes of a number",
        Fault::TornNumber { .. } => "3 bytes of a number",
        Fault::NumberZero => "number 0",
        Fault::NotRising { number, last } if number == last => "an equal number",
        Fault::NotRising { .. } => "a falling number",
        Fault::TornHead { left: 0 } => "a number alone",
        Fault::TornHead { left: 1 } => "a number and 1 byte",
        Fault::TornHead { left: 2 } => "a number and 2 bytes",
        Fault::TornHead { .. } => "a number and 3 bytes",
        Fault::LengthBelow4 { length: 0 } => "length 0",
        Fault::LengthBelow4 { length: 1 } => "length 1",
        Fault::LengthBelow4 { length: 2 } => "length 2",
        Fault::LengthBelow4 { .. } => "length 3",
        Fault::LengthBeyond { .. } => "a length beyond the end",
    }];
    if rest.iter().all(|byte| *byte == 0) {
        ways.push(match rest.len() {
            ..4 => "1 to 3 zeros at the end",
            4..8 => "4 to 7 zeros at the end",
            _ => "8 zeros or more at the end",
        });
    }
    if at.byte > 0 {
        ways.push("after good messages");
    }
    ways
}
