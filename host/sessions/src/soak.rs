//! Random sessions with every check after every message: the reference and the plain model
//! driven side by side, and what the reference did looked at.

use crate::asked::ENOUGH;
use crate::check::{Checker, Step};
use crate::coverage::{Coverage, Rare};
use crate::driver::check::{Check, Fault};
use crate::driver::{drive_session, AskedOf, Call, Difference, Driver, Effort, Observer};
use crate::engine::{held, Reference, UNSOUND};
use crate::feed_generator::Feed;
use crate::generator::Generator;
use crate::lent::Lent;
use crate::message::{split, Message};
use crate::plain::Plain;
use crate::profile::Profile;
use crate::sound::{edition_number_fault, fault, generation_number_fault};
use reference::{is_sound, one_message, Returned, Venue};

/// More than the records of any one message take.
const ROOM: usize = 16_384;

/// The plain model is slow.
const EFFORT: Effort = Effort {
    one_in: 300,
    few: true,
};

/// How many messages a session of this profile and seed has.
pub fn session_length(profile: Profile, seed: u64) -> usize {
    let spread = (seed.wrapping_mul(0x9E37_79B9_7F4A_7C15) >> 32) as usize;
    match profile {
        Profile::FullBooks | Profile::Ceiling => 400 + spread % 500,
        _ => 60 + spread % 500,
    }
}

/// The most messages of a session that is generated.
pub const MOST_MESSAGES: u64 = 10_000_000;

/// Longer than any session of the checks: from here on a session's ids must last.
const LONG: u64 = 1_000;

/// The messages of a session, as the checks send them.
pub fn generate(profile: Profile, seed: u64, messages: usize) -> Vec<Vec<u8>> {
    Drawn::new(profile, seed, messages as u64).collect()
}

/// The messages that a generator draws.
pub fn drawn(generator: Generator, messages: usize) -> Vec<Vec<u8>> {
    Drawn::by(generator, messages as u64).collect()
}

/// Messages that a generator draws one by one, each upon the venue that those before it
/// left.
pub struct Drawn {
    generator: Generator,
    venue: Venue,
    lent: Lent,
    before: u32,
    left: u64,
}

impl Drawn {
    /// The messages of a session. Where it is longer than those of the checks, its ids
    /// last for as many messages as can be asked for.
    pub fn new(profile: Profile, seed: u64, messages: u64) -> Self {
        let generator = Generator::new(profile, seed);
        match messages > LONG {
            true => Drawn::by(generator.lasting(), messages),
            false => Drawn::by(generator, messages),
        }
    }

    fn by(generator: Generator, messages: u64) -> Self {
        Drawn {
            generator,
            venue: Venue::fresh(),
            lent: Lent::new(),
            before: 0,
            left: messages,
        }
    }
}

impl Iterator for Drawn {
    type Item = Vec<u8>;

    fn next(&mut self) -> Option<Vec<u8>> {
        self.left = self.left.checked_sub(1)?;
        let message = self.generator.next(&self.venue);
        let report = self.lent.lend(ROOM);
        self.venue = one_message(&self.venue, self.before, &message, report).venue;
        self.before += 1;
        Some(message)
    }
}

/// Runs one session with all checks, adding to the coverage.
pub fn check_session(
    profile: Profile,
    seed: u64,
    coverage: &mut Coverage,
) -> Result<(), Difference> {
    check_spoiled(profile, seed, coverage, None)
}

/// As [`check_session`], with a part of the reference's answers spoiled, to see that it is
/// found.
pub fn check_spoiled(
    profile: Profile,
    seed: u64,
    coverage: &mut Coverage,
    fault: Option<Fault>,
) -> Result<(), Difference> {
    let mut watch = Watch {
        checker: Checker::default(),
        coverage,
    };
    let mut driver = Driver::new(&Reference, &Plain, &mut watch, fault);
    drive_session(&mut driver, profile, seed, EFFORT)?;
    coverage.sessions += 1;
    Ok(())
}

/// Looks at what the reference does: every check of a message, and which cases came.
struct Watch<'a> {
    checker: Checker,
    coverage: &'a mut Coverage,
}

impl Watch<'_> {
    /// A message of the list: every check, and what it shows.
    fn of_list(&mut self, step: &Step, written: usize) -> Result<u64, String> {
        if written > ENOUGH as usize {
            return Err(format!("{written} bytes were written"));
        }
        let seen = self.checker.check(step)?;
        if step.returned.done != 1 || !is_sound(&step.returned.venue) {
            return Err("done is not 1, or the venue is unsound to the reference".to_string());
        }
        self.checker.check_settings(step)?;
        self.coverage.observe(step, seen.as_ref());
        Ok(seen.map_or(0, |seen| seen.moments.len() as u64))
    }

    /// A call that got 9: whether for the message's number alone.
    fn observe_unsound(&mut self, venue: &Venue, before: u32) {
        let sound = fault(venue).is_none();
        let edition = edition_number_fault(venue, before).is_some();
        let made = generation_number_fault(venue, before).is_some();
        self.coverage.add(Rare::NumberNotAbove, sound && edition);
        self.coverage.add(Rare::NumberNotAboveMade, sound && made);
    }
}

impl Observer for Watch<'_> {
    fn begin(&mut self) {
        self.checker = Checker::default();
        self.coverage.layers.begin();
    }

    fn called(&mut self, call: &Call) -> Result<u64, String> {
        let (Some(before), Some(left)) = (held(call.given), held(call.left)) else {
            return Ok(0);
        };
        let first = split(call.message).first().copied().unwrap_or_default();
        let step = Step {
            message: &Message::decode(first),
            bytes: call.message,
            before: &before,
            returned: &Returned {
                number: call.number,
                done: call.done,
                written: call.written,
                venue: left,
            },
            records: call.records,
        };
        if call.check == Check::Call {
            return self.of_list(&step, call.written);
        }
        self.coverage.answer(call.number);
        match call.check {
            _ if call.number == UNSOUND => self.observe_unsound(&before, call.before),
            _ if call.done == 0 => {}
            Check::CallBytes => drop(self.checker.clone().check(&step)?),
            Check::CallGenerations => {
                drop(self.checker.upon(&before, call.before).check(&step)?);
            }
            _ => {}
        }
        Ok(0)
    }

    fn ran(&mut self, number: u8) {
        if number == 10 {
            self.coverage.answer(number);
        }
    }

    fn fed(&mut self, feed: &Feed, room: usize, number: u8, written: usize) -> Result<(), String> {
        self.coverage.feeds.observe(feed, room, number, written)
    }

    fn set(&mut self, check: Check, number: u8) {
        self.coverage.sets.observe(check, number);
    }

    fn asked(&mut self, asked: &AskedOf) -> Result<(), String> {
        self.coverage.layers.observe(asked)
    }
}

#[cfg(test)]
mod tests {
    use super::*;
    use crate::record::Record;
    use crate::sheet::Running;

    /// How many orders of the last messages of a session are accepted.
    fn accepted_at_last(profile: Profile, seed: u64, messages: u64, last: u64) -> usize {
        let mut running = Running::fresh();
        let mut accepted = 0;
        for (message, number) in Drawn::new(profile, seed, messages).zip(1..) {
            let is_order = matches!(message.get(2), Some(1 | 2 | 9 | 10));
            let records = running.take(&message).unwrap().unwrap();
            let done = matches!(&records[0], Record::Answer(answer) if answer.refusal == 0);
            accepted += usize::from(is_order && done && number > messages - last);
        }
        accepted
    }

    #[test]
    fn ids_last_for_long_sessions() {
        for profile in [Profile::Mixed, Profile::Refusals, Profile::Hits] {
            let accepted = accepted_at_last(profile, 3, 40_000, 1_000);
            assert!(accepted > 100, "{}: {accepted}", profile.name());
        }
    }

    #[test]
    fn a_long_session_begins_as_a_short_one_does() {
        for profile in Profile::ALL {
            let short = generate(profile, 5, 300);
            let long: Vec<Vec<u8>> = Drawn::new(profile, 5, MOST_MESSAGES).take(300).collect();
            assert!(short == long, "{}", profile.name());
        }
    }
}
