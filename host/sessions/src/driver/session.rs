//! Everything that is compared on one session of the generator.

use super::check::Check;
use super::layers::drive_layer;
use super::sets::{Lengths, Sets};
use super::{Both, Driver, Failed};
use crate::broken::{broken_generations, broken_orders, broken_ratios, broken_rows};
use crate::broken::{with_editions, with_generations, with_ratios, with_reserve};
use crate::corrupt::corrupt;
use crate::engine::{held, SETTINGS_BYTES, UNSOUND};
use crate::feed_generator::{draw_feed, Feed};
use crate::generator::Generator;
use crate::held::{to_bytes, VENUE_BYTES};
use crate::message::{LimitedSweep, Message};
use crate::profile::Profile;
use crate::random::Random;
use crate::settings::{held_editions, last_edition};
use crate::soak::{generate, session_length};
use reference::Venue;
use std::fmt::{self, Display};

/// More than the records of any one message take.
const ROOM: usize = 16_384;

/// Before the last message number: above all that is kept.
const LATE: u32 = u32::MAX - 1;

/// How much of a session is tried.
#[derive(Clone, Copy, Debug)]
pub struct Effort {
    /// Short report memory is tried at one in so many messages: such a run does again all
    /// that went before, so they take most of the time.
    pub one_in: u64,
    /// Of what is tried many times only a few, for an engine that is slow.
    pub few: bool,
}

impl Effort {
    fn times(self, many: usize) -> usize {
        match self.few {
            true => many.div_ceil(16),
            false => many,
        }
    }
}

/// A difference or a violation, with what repeats it.
#[derive(Clone, Debug)]
pub struct Difference {
    pub profile: Profile,
    pub seed: u64,
    pub check: Check,
    pub what: String,
}

impl Display for Difference {
    fn fmt(&self, f: &mut fmt::Formatter) -> fmt::Result {
        let (name, seed) = (self.profile.name(), self.seed);
        writeln!(f, "profile {name} seed {seed}: {}", self.check.words())?;
        write!(f, "  {}", self.what)
    }
}

/// A session and the numbers that are drawn for it.
struct Session<'a, 'b> {
    driver: &'a mut Driver<'b>,
    effort: Effort,
    pieces: Vec<Vec<u8>>,
    list: Vec<u8>,
    /// Report bytes after each message.
    ends: Vec<usize>,
    /// Draws messages and bytes of its own.
    generator: Generator,
    /// Draws the messages whose ends are tried; apart from the other draws, so
    /// that they are the same however many ends are tried.
    chosen: Random,
    /// Draws the lines over which the list comes; apart from the other draws too.
    fed: Random,
    /// Draws the sets that are spoiled; apart from the other draws too.
    sets: Random,
}

type Checked = Result<(), Failed>;

/// Drives both engines through a session: message by message, as runs, over two lines, as
/// sets, and behind one line with three others.
pub fn drive_session(
    driver: &mut Driver,
    profile: Profile,
    seed: u64,
    effort: Effort,
) -> Result<(), Difference> {
    let pieces = generate(profile, seed, session_length(profile, seed));
    let messages = pieces.len() as u64;
    driver.observer.begin();
    let mut session = Session {
        driver,
        effort,
        list: pieces.concat(),
        ends: Vec::new(),
        generator: Generator::new(profile, !seed),
        chosen: Random::new(seed),
        fed: Random::new(seed ^ (profile as u64 + 1).rotate_left(32)),
        sets: Random::new(!seed ^ (profile as u64 + 1).rotate_left(48)),
        pieces,
    };
    let checked = session.drive_all();
    let checked = checked.and_then(|()| drive_layer(session.driver, profile, seed, effort));
    session.driver.counts.sessions += 1;
    session.driver.counts.messages += messages;
    checked.map_err(|(check, what)| Difference {
        profile,
        seed,
        check,
        what,
    })
}

impl Session<'_, '_> {
    fn drive_all(&mut self) -> Checked {
        let kept = self.list.clone();
        self.calls()?;
        self.whole_runs()?;
        self.short_runs()?;
        self.every_length()?;
        self.torn_runs()?;
        self.changed_runs()?;
        self.noisy_runs()?;
        self.feeds()?;
        if self.list != kept {
            return Err((Check::RunWhole, "the messages were written".to_string()));
        }
        Ok(())
    }

    fn random(&mut self) -> &mut Random {
        self.generator.random()
    }

    /// The whole list, with just enough memory and with more.
    fn whole_runs(&mut self) -> Checked {
        let whole = self.ends.last().copied().unwrap_or(0);
        let more = [0, 500, 1, 2, 11, 12, ROOM];
        for more in &more[..if self.effort.few { 2 } else { more.len() }] {
            self.driver.run(Check::RunWhole, &self.list, whole + more)?;
        }
        Ok(())
    }

    /// Report memory that ends at, just before and just after the records of a
    /// message.
    fn short_runs(&mut self) -> Checked {
        for end in std::mem::take(&mut self.ends) {
            if self.chosen.below(self.effort.one_in) > 0 {
                continue;
            }
            for length in [end - 1, end, end + 1] {
                self.driver.run(Check::RunShort, &self.list, length)?;
            }
        }
        Ok(())
    }

    /// The first messages with memory of every length from none to enough.
    fn every_length(&mut self) -> Checked {
        let messages = self.effort.times(40).min(self.pieces.len());
        let list = self.pieces[..messages].concat();
        let check = Check::RunEveryLength;
        let whole = self.driver.run(check, &list, messages * ROOM)?.written;
        for length in 0..=whole.min(1_500) + 13 {
            self.driver.run(check, &list, length)?;
        }
        Ok(())
    }

    /// The list, or the first messages of it where few are tried, with room for it.
    fn part(&self) -> (Vec<u8>, usize) {
        let list = match self.effort.few {
            true => self.pieces[..self.pieces.len().min(60)].concat(),
            false => self.list.clone(),
        };
        let room = 2 * list.len() + ROOM;
        (list, room)
    }

    /// The list cut off at each of its last bytes, and anywhere.
    fn torn_runs(&mut self) -> Checked {
        let (list, room) = self.part();
        let last = list.len().saturating_sub(self.effort.times(48));
        for cut in last..list.len() {
            self.driver.run(Check::RunTorn, &list[..cut], room)?;
        }
        for _ in 0..self.effort.times(12) {
            let cut = self.random().below(list.len() as u64) as usize;
            self.driver.run(Check::RunTorn, &list[..cut], room)?;
        }
        Ok(())
    }

    /// The list with one to three bytes changed.
    fn changed_runs(&mut self) -> Checked {
        for _ in 0..self.effort.times(16) {
            let (mut list, room) = self.part();
            for _ in 0..self.random().between(1, 3) {
                let at = self.random().below(list.len() as u64) as usize;
                list[at] = changed(list[at], self.random());
            }
            self.driver.run(Check::RunChanged, &list, room)?;
        }
        Ok(())
    }

    /// The list and then bytes that may look like messages.
    fn noisy_runs(&mut self) -> Checked {
        for _ in 0..self.effort.times(8) {
            let (mut list, room) = self.part();
            list.extend(self.generator.noise());
            self.driver.run(Check::RunNoise, &list, room + ROOM)?;
        }
        Ok(())
    }

    /// The list over two lines with losses that the other line makes good, then parts
    /// of it over lines that befell more.
    fn feeds(&mut self) -> Checked {
        let (feeds, first, most) = match self.effort.few {
            true => (8, 40, 20),
            false => (12, self.pieces.len(), 60),
        };
        for count in 0..feeds {
            let most = if count == 0 { first } else { most };
            let messages = self.fed.below(self.pieces.len().min(most) as u64 + 1) as usize;
            let feed = draw_feed(&self.pieces[..messages], &mut self.fed);
            self.feed(&feed)?;
        }
        Ok(())
    }

    /// Two lines with room for all, and with report memory that ends where that of all
    /// ends, near it, at the end of another message's records, near that, and anywhere.
    fn feed(&mut self, feed: &Feed) -> Checked {
        let check = match feed.is_whole {
            true => Check::FeedWhole,
            false => Check::FeedSpoiled,
        };
        let room = 2 * (feed.main.len() + feed.spare.len()) + ROOM;
        let written = self.driver.feed(check, feed, room)?;
        let any = self.fed.below(written as u64 + 1) as usize;
        let end = self.driver.feed(Check::FeedShort, feed, any)?;
        let about = [0, 1, 2, 12, 13];
        for end in [written, end] {
            for more in &about[..if self.effort.few { 2 } else { about.len() }] {
                let length = (end + more).saturating_sub(1);
                self.driver.feed(Check::FeedShort, feed, length)?;
            }
        }
        self.driver.feed(Check::FeedShort, feed, 0)?;
        Ok(())
    }

    /// The first venue; memory of another length holds none.
    fn first_venue(&mut self) -> Result<Vec<u8>, Failed> {
        let odd = self.random().below(VENUE_BYTES as u64) as usize;
        for length in [0, 1, odd, VENUE_BYTES - 1, VENUE_BYTES + 1] {
            self.driver.fresh(length)?;
        }
        self.driver.fresh(VENUE_BYTES)
    }

    /// The messages one by one, the first upon a fresh venue and each other upon
    /// the venue that the last one left, with calls beside them.
    fn calls(&mut self) -> Checked {
        let mut venue = self.first_venue()?;
        let pieces = std::mem::take(&mut self.pieces);
        let mut end = 0;
        let beside = if self.effort.few { 6 } else { 12 };
        for (message, before) in pieces.iter().zip(0..) {
            if self.random().chance(beside) {
                self.beside(&venue, before, message)?;
            }
            let (both, left) = self.call(Check::Call, &venue, before, message)?;
            end += both.written;
            self.ends.push(end);
            venue = left;
            if matches!(message.get(2), Some(7 | 8)) {
                self.settings_about(&venue, before)?;
            }
            let is_last = before as usize + 1 == pieces.len();
            if is_last || self.sets.chance(1) && !self.effort.few {
                self.carried(&venue, before + 1, is_last)?;
            }
        }
        self.pieces = pieces;
        Ok(())
    }

    /// A one-message call with room for its records.
    fn call(
        &mut self,
        check: Check,
        venue: &[u8],
        before: u32,
        message: &[u8],
    ) -> Result<(Both, Vec<u8>), Failed> {
        self.driver.call(check, venue, before, message, ROOM)
    }

    /// Sets of a venue upon which so many messages were done.
    fn carried(&mut self, venue: &[u8], number: u32, is_last: bool) -> Checked {
        let lengths = match (self.effort.few, is_last && self.sets.chance(30)) {
            (true, _) => Lengths::AboutTheEnd,
            (false, true) => Lengths::Every,
            (false, false) => Lengths::AboutEachRecord,
        };
        let mut sets = Sets {
            driver: self.driver,
            random: &mut self.sets,
            lengths,
            spoiled: self.effort.times(200),
        };
        sets.drive(venue, number)
    }

    /// Calls that leave the session as it is.
    fn beside(&mut self, venue: &[u8], before: u32, message: &[u8]) -> Checked {
        match self.random().below(10) {
            0 => self.short_calls(venue, before, message),
            1 => self.last_numbers(venue, message),
            2 => self.odd_bytes(venue, before, message),
            3 => self.venue_lengths(venue, before, message),
            4 => self.editions(venue, message),
            5 => self.settings_about(venue, before),
            6 => self.reserve(venue, before, message),
            7 => self.ratios(venue, before, message),
            8 => self.generations(venue, before, message),
            _ => self.changed_venues(venue, before, message),
        }
    }

    /// Report memory of every short length.
    fn short_calls(&mut self, venue: &[u8], before: u32, message: &[u8]) -> Checked {
        let (whole, _) = self.call(Check::CallShort, venue, before, message)?;
        for length in 0..=whole.written + 2 {
            self.driver
                .call(Check::CallShort, venue, before, message, length)?;
        }
        Ok(())
    }

    fn last_numbers(&mut self, venue: &[u8], message: &[u8]) -> Checked {
        for before in [u32::MAX, u32::MAX - 1, u32::MAX - 2, 1 << 31] {
            for (message, length) in [(message, ROOM), (message, 11), (&[], ROOM)] {
                self.driver
                    .call(Check::CallNumber, venue, before, message, length)?;
            }
        }
        Ok(())
    }

    /// Torn and random bytes, and a message with others after it.
    fn odd_bytes(&mut self, venue: &[u8], before: u32, message: &[u8]) -> Checked {
        let mut followed = message.to_vec();
        followed.extend(self.generator.noise());
        let mut lists = vec![followed, self.generator.noise(), self.generator.noise()];
        lists.extend(held(venue).map(|held| self.generator.torn(&held)));
        lists.extend((0..message.len()).map(|cut| message[..cut].to_vec()));
        for bytes in lists {
            self.call(Check::CallBytes, venue, before, &bytes)?;
        }
        Ok(())
    }

    /// Venue memory that is too short or too long.
    fn venue_lengths(&mut self, venue: &[u8], before: u32, message: &[u8]) -> Checked {
        let doubled = [venue, venue].concat();
        let odd = self.random().below(VENUE_BYTES as u64) as usize;
        for length in [0, 1, odd, VENUE_BYTES - 1, VENUE_BYTES + 1, doubled.len()] {
            let venue = &doubled[..length];
            self.driver
                .call(Check::CallVenueLength, venue, before, message, 64)?;
        }
        Ok(())
    }

    /// Calls upon venues that are broken in a way that has a name: each is unsound.
    fn broken(
        &mut self,
        check: Check,
        broken: Vec<(&'static str, Venue)>,
        before: u32,
        message: &[u8],
    ) -> Checked {
        for (name, venue) in broken {
            let venue = to_bytes(&venue);
            let named = |(check, what)| (check, format!("{name}: {what}"));
            let (both, _) = self.call(check, &venue, before, message).map_err(named)?;
            if both.number != u32::from(UNSOUND) {
                return Err((check, format!("{name} is not found")));
            }
            let told = self.driver.settings(&venue, before, SETTINGS_BYTES);
            told.map_err(named)?;
        }
        Ok(())
    }

    /// Every kind of broken row of editions, and numbers about that of the last one.
    fn editions(&mut self, venue: &[u8], message: &[u8]) -> Checked {
        let Some(held) = held(venue) else {
            return Ok(());
        };
        let (check, at) = (Check::CallEditions, self.random().below(33) as usize);
        self.broken(check, broken_rows(&held, at), LATE, message)?;
        let longer = with_editions(&held, at);
        let (_, last) = last_edition(&longer);
        let longer = to_bytes(&longer);
        let numbers = last.saturating_sub(2)..=last.saturating_add(2);
        let before = numbers.map(|number| number.saturating_sub(1));
        for before in before.chain([u32::MAX]) {
            self.call(check, &longer, before, message)?;
        }
        Ok(())
    }

    /// The message upon other orders of the same venue, and then a sweep.
    fn other_orders(
        &mut self,
        check: Check,
        others: impl Iterator<Item = Venue>,
        before: u32,
        message: &[u8],
    ) -> Checked {
        let sweep = Message::Sweep.encode();
        for venue in others {
            let (both, left) = self.call(check, &to_bytes(&venue), before, message)?;
            let next = before.saturating_add(both.done);
            self.call(check, &left, next, &sweep)?;
        }
        Ok(())
    }

    /// Orders of which every field of what they show is broken; and the same orders
    /// with other parts of them shown.
    fn reserve(&mut self, venue: &[u8], before: u32, message: &[u8]) -> Checked {
        let Some(held) = held(venue) else {
            return Ok(());
        };
        let (check, at) = (Check::CallReserve, self.random().below(128) as usize);
        self.broken(check, broken_orders(&held, at), before, message)?;
        let others = (at..at + 4).map(|at| with_reserve(&held, at));
        self.other_orders(check, others, before, message)
    }

    /// Complex orders of which the ratios are broken in every way, a legging order of
    /// unequal ratios among them; and the same orders with other ratios.
    fn ratios(&mut self, venue: &[u8], before: u32, message: &[u8]) -> Checked {
        let Some(held) = held(venue) else {
            return Ok(());
        };
        let (check, at) = (Check::CallRatios, self.random().below(32 * 7) as usize);
        self.broken(check, broken_ratios(&held, at), before, message)?;
        let others = (at..at + 4).map(|at| with_ratios(&held, at));
        self.other_orders(check, others, before, message)
    }

    /// Every kind of broken row of generations; numbers about that of the last one; and
    /// the message, a sweep and a limited one where a ceiling holds and has ended.
    fn generations(&mut self, venue: &[u8], before: u32, message: &[u8]) -> Checked {
        let Some(held) = held(venue) else {
            return Ok(());
        };
        let (check, at) = (Check::CallGenerations, self.random().below(8 * 17) as usize);
        self.broken(check, broken_generations(&held, at), LATE, message)?;
        let last = before + 300;
        let busy = to_bytes(&with_generations(&held, at, last));
        let most = 1 + at as u8 % 32;
        let limited = Message::LimitedSweep(LimitedSweep { most }).encode();
        let sweep = Message::Sweep.encode();
        let at_ceiling = last + 245..=last + 255;
        for before in (last - 3..=last + 1).chain(at_ceiling).chain([u32::MAX]) {
            for message in [message, &sweep, &limited] {
                self.call(check, &busy, before, message)?;
            }
        }
        Ok(())
    }

    /// The settings about the number of each edition and of the messages done, in memory
    /// of several lengths, and of venue memory of other lengths.
    fn settings_about(&mut self, venue: &[u8], before: u32) -> Checked {
        let mut numbers = vec![0, before, before.saturating_add(1), u32::MAX];
        if let Some(held) = held(venue) {
            let about = held_editions(&held).flat_map(|entry| {
                let next = entry.number.saturating_add(1);
                [entry.number.saturating_sub(1), entry.number, next]
            });
            numbers.extend(about);
        }
        for number in numbers {
            self.driver.settings(venue, number, SETTINGS_BYTES)?;
        }
        for length in [0, 1, SETTINGS_BYTES - 1, SETTINGS_BYTES + 1, 64] {
            self.driver.settings(venue, before, length)?;
        }
        let longer = [venue, &[0]].concat();
        for venue in [&[], &venue[..venue.len().saturating_sub(1)], &longer] {
            self.driver.settings(venue, before, SETTINGS_BYTES)?;
        }
        Ok(())
    }

    /// Venues with a field changed, and with any byte changed; many are unsound.
    fn changed_venues(&mut self, venue: &[u8], before: u32, message: &[u8]) -> Checked {
        let Some(held) = held(venue) else {
            return Ok(());
        };
        for _ in 0..8 {
            let unsound = to_bytes(&corrupt(&held, self.random()));
            self.call(Check::CallVenue, &unsound, before, message)?;
            self.driver.settings(&unsound, before, SETTINGS_BYTES)?;
        }
        for _ in 0..8 {
            let mut bytes = venue.to_vec();
            let at = self.random().below(bytes.len() as u64) as usize;
            bytes[at] = changed(bytes[at], self.random());
            self.call(Check::CallVenue, &bytes, before, message)?;
        }
        Ok(())
    }
}

/// Another value for a byte: near it, or any.
fn changed(byte: u8, random: &mut Random) -> u8 {
    match random.below(4) {
        0 => byte.wrapping_add(1),
        1 => byte.wrapping_sub(1),
        2 => byte ^ (1 << random.below(8)),
        _ => random.below(256) as u8,
    }
}
