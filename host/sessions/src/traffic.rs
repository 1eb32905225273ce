//! Request (m) from what a caller sees: the ceiling on records 67, what a 72 tells, and the
//! round that limited sweeps go.

use crate::check::Step;
use crate::message::Message;
use crate::record::{Looked, Record};
use crate::view::held_complex;
use reference::Venue;
use std::collections::VecDeque;
use std::iter::{repeat, repeat_n};

/// The most records 67 of a series in any 256 consecutive messages.
pub const CEILING: usize = 20;

/// What the records of a list told of its legging orders.
#[derive(Clone, Default)]
pub struct Traffic {
    /// Of each series the messages with a record 67 and how many they have: those of the
    /// last 256 messages, and of the last 20 generations.
    made: [VecDeque<(u32, usize)>; 8],
    counts: [usize; 8],
}

impl Traffic {
    /// After the generations that a venue keeps.
    pub fn of(venue: &Venue) -> Self {
        let mut traffic = Traffic::default();
        for (series, last) in venue.generations.iter().enumerate() {
            let held = last.iter().filter(|number| **number > 0);
            held.for_each(|number| traffic.count(series, *number));
        }
        traffic
    }

    /// Goes on after the generations that a venue keeps, with the counts so far.
    pub fn go_on_from(&mut self, venue: &Venue) {
        self.made = Traffic::of(venue).made;
    }

    /// One record of the message of a number; of a 67 it tells how many of its series there
    /// are in the 256 messages that end with this one.
    pub fn note(&mut self, number: u32, record: &Record) -> Option<usize> {
        let Record::Generated(told) = record else {
            return None;
        };
        let series = usize::from(told.series);
        if series >= self.made.len() {
            return None;
        }
        self.count(series, number);
        let made = &mut self.made[series];
        let is_recent = |(by, _): &(u32, usize)| u64::from(*by) + 256 > u64::from(number);
        while made.len() > CEILING && !made.front().is_some_and(is_recent) {
            made.pop_front();
        }
        let recent = made.iter().filter(|of| is_recent(of));
        Some(recent.map(|(_, count)| count).sum())
    }

    fn count(&mut self, series: usize, number: u32) {
        self.counts[series] += 1;
        match self.made[series].back_mut() {
            Some((last, count)) if *last == number => *count += 1,
            _ => self.made[series].push_back((number, 1)),
        }
    }

    /// How many legging orders of each series there were.
    pub fn counts(&self) -> [usize; 8] {
        self.counts
    }

    /// Checks the message of a number, done or refused.
    pub fn check(&mut self, number: u32, step: &Step) -> Result<(), String> {
        for record in step.records {
            let recent = self.note(number, record);
            if let Some(recent) = recent.filter(|recent| *recent > CEILING) {
                return Err(format!(
                    "record \"{record}\" is number {recent} of its series in 256 messages"
                ));
            }
        }
        self.check_kept(&step.returned.venue)?;
        check_looked(step)
    }

    /// The venue keeps the last 20 of each series, with zeros before the first.
    fn check_kept(&self, venue: &Venue) -> Result<(), String> {
        for (series, made) in self.made.iter().enumerate() {
            let last = made.iter().rev();
            let numbers = last.flat_map(|(number, count)| repeat_n(*number, *count));
            let last = numbers.chain(repeat(0)).take(CEILING);
            if !last.eq(venue.generations[series].iter().rev().copied()) {
                return Err(format!("the venue keeps other generations of {series}"));
            }
        }
        Ok(())
    }
}

/// A limited sweep that was accepted has a 72 right after its 64, and nothing else has one.
fn check_looked(step: &Step) -> Result<(), String> {
    let looked: Vec<usize> = (0..step.records.len())
        .filter(|at| step.records[*at].kind() == 72)
        .collect();
    let (before, after) = (step.before, &step.returned.venue);
    let most = match step.message {
        Message::LimitedSweep(sweep) if step.returned.number == 0 => usize::from(sweep.most),
        _ if !looked.is_empty() => return Err("a 72 was written".to_string()),
        _ if before.reached != after.reached => return Err("the id reached moved".to_string()),
        _ => return Ok(()),
    };
    let count = held_complex(before).count().min(most);
    let expected = Record::Looked(Looked { count: count as u8 });
    if looked != [1] || step.records[1] != expected {
        return Err(format!("no \"{expected}\" right after the 64, or another"));
    }
    check_round(before, after.reached, count)
}

/// So many resting orders come after the id reached before, round by id, up to the one
/// reached now.
fn check_round(before: &Venue, to: u32, count: usize) -> Result<(), String> {
    let from = before.reached;
    let passed = |id: u32| match from < to {
        true => from < id && id <= to,
        false => from < id || id <= to,
    };
    let ids = || held_complex(before).map(|order| order.id);
    let goes = match count {
        0 => from == to,
        _ => ids().any(|id| id == to) && ids().filter(|id| passed(*id)).count() == count,
    };
    match goes {
        true => Ok(()),
        false => Err(format!("{count} orders after id {from} do not reach {to}")),
    }
}

#[cfg(test)]
mod tests {
    use super::*;
    use crate::message::LimitedSweep;
    use crate::record::parse_sheet;
    use crate::text::encode_session;
    use reference::{run, Returned};

    const RESTING: &str = "complex 3 buy 0 buy 1 class 1 net 5 quantity 1\n\
        complex 5 buy 0 buy 1 class 1 net 5 quantity 1\n\
        complex 9 buy 0 buy 1 class 1 net 5 quantity 1\n";

    /// Checks a message of number 4 upon three orders at rest, by its sheet and the id that
    /// it reaches.
    fn checked(from: u32, message: &Message, sheet: &str, to: u32) -> Result<(), String> {
        let list = encode_session(RESTING).unwrap();
        let mut before = run(&list, &mut [0; 4096]).venue;
        before.reached = from;
        let venue = Venue {
            reached: to,
            ..before.clone()
        };
        let step = Step {
            message,
            bytes: &message.encode(),
            before: &before,
            returned: &Returned {
                number: 0,
                done: 1,
                written: 0,
                venue,
            },
            records: &parse_sheet(sheet).unwrap(),
        };
        Traffic::default().check(4, &step)
    }

    #[test]
    fn limited_sweeps_go_round_by_id() {
        for (from, most, count, to) in [
            (0, 1, 1, 3),
            (3, 1, 1, 5),
            (4, 2, 2, 9),
            (9, 1, 1, 3),
            (7, 2, 2, 3),
            (7, 3, 3, 5),
            (5, 32, 3, 5),
        ] {
            let message = Message::LimitedSweep(LimitedSweep { most });
            let sheet = |count| format!("64 4 0 0 0\n72 {count}\n");
            let found = checked(from, &message, &sheet(count), to);
            assert_eq!(found, Ok(()), "{most} after {from}");
            for other in [0, 3, 5, 7, 9].into_iter().filter(|other| *other != to) {
                let found = checked(from, &message, &sheet(count), other);
                assert!(found.is_err(), "{most} after {from} to {other}");
            }
            assert!(checked(from, &message, &sheet(count + 1), to).is_err());
        }
    }

    #[test]
    fn a_72_stands_right_after_the_64_of_a_limited_sweep_alone() {
        let limited = Message::LimitedSweep(LimitedSweep { most: 1 });
        for sheet in [
            "64 4 0 0 0\n",
            "64 4 0 0 0\n68 3 0 0 3\n72 1\n",
            "64 4 0 0 0\n72 1\n72 1\n",
        ] {
            assert!(checked(0, &limited, sheet, 3).is_err(), "{sheet}");
        }
        assert!(checked(0, &Message::Sweep, "64 4 0 0 0\n72 3\n", 0).is_err());
        assert!(checked(0, &Message::Sweep, "64 4 0 0 0\n", 3).is_err());
        assert_eq!(checked(3, &Message::Sweep, "64 4 0 0 0\n", 3), Ok(()));
    }

    #[test]
    fn the_21st_of_a_series_in_256_messages_is_found() {
        let mut traffic = Traffic::default();
        let made = parse_sheet("67 3 6 0 115 115 8").unwrap()[0];
        let other = parse_sheet("67 3 5 0 115 115 8").unwrap()[0];
        for number in 1..=20 {
            assert_eq!(traffic.note(number, &made), Some(number as usize));
            assert_eq!(
                traffic.note(number, &Record::Looked(Looked { count: 1 })),
                None
            );
        }
        assert_eq!(traffic.clone().note(257, &made), Some(20));
        assert_eq!(traffic.note(256, &other), Some(1));
        assert_eq!(traffic.note(256, &made), Some(21));
        assert_eq!(traffic.note(257, &made), Some(21));
        assert_eq!(traffic.note(u32::MAX, &made), Some(1));
        assert_eq!(traffic.counts(), [0, 0, 0, 0, 0, 1, 23, 0]);
    }
}
