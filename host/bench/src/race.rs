//! Engine and reference timed in turn, upon the same bytes.

use crate::clock::Clock;
use std::hint::black_box;

/// Times of one contender, in ns, one for each round.
#[derive(Clone, Debug, Default)]
pub struct Times(Vec<f64>);

impl Times {
    pub fn least(&self) -> f64 {
        self.0.iter().copied().fold(f64::INFINITY, f64::min)
    }

    pub fn median(&self) -> f64 {
        quantile(&self.0, 0.5)
    }

    /// One round more.
    pub fn add(&mut self, time: f64) {
        self.0.push(time);
    }

    /// Each time less another, by a number of units.
    pub fn each(&self, less: f64, units: usize) -> Times {
        let times = self.0.iter().map(|time| (time - less) / units as f64);
        Times(times.collect())
    }
}

/// The value below which a part of the values lies; the highest for 1.
pub fn quantile(values: &[f64], part: f64) -> f64 {
    let mut sorted = values.to_vec();
    sorted.sort_unstable_by(f64::total_cmp);
    let last = sorted.len().saturating_sub(1);
    let at = (last as f64 * part).ceil() as usize;
    sorted.get(at).copied().unwrap_or(f64::NAN)
}

/// One value for each contender.
#[derive(Clone, Debug, Default)]
pub struct Both<T> {
    pub engine: T,
    pub reference: T,
}

impl Both<Times> {
    pub fn least(&self) -> Both<f64> {
        Both {
            engine: self.engine.least(),
            reference: self.reference.least(),
        }
    }

    pub fn median(&self) -> Both<f64> {
        Both {
            engine: self.engine.median(),
            reference: self.reference.median(),
        }
    }

    /// Each time less another, by a number of units.
    pub fn each(&self, less: &Both<f64>, units: usize) -> Both<Times> {
        Both {
            engine: self.engine.each(less.engine, units),
            reference: self.reference.each(less.reference, units),
        }
    }

    /// One round more.
    pub fn add(&mut self, round: Both<f64>) {
        self.engine.add(round.engine);
        self.reference.add(round.reference);
    }
}

impl Both<f64> {
    /// How many times as fast as the reference the engine is.
    pub fn ratio(&self) -> f64 {
        self.reference / self.engine
    }

    pub fn plus(&self, other: &Both<f64>) -> Both<f64> {
        Both {
            engine: self.engine + other.engine,
            reference: self.reference + other.reference,
        }
    }

    /// Less another, by a number of units.
    pub fn less(&self, other: &Both<f64>, units: usize) -> Both<f64> {
        Both {
            engine: (self.engine - other.engine) / units as f64,
            reference: (self.reference - other.reference) / units as f64,
        }
    }
}

/// Room beyond the records: more than any one message writes, so that neither
/// contender has to keep its state before a message.
const SPARE: usize = 16_384;

/// The length of report memory that a list's runs get: its records and that room.
pub fn room_of(messages: &[u8]) -> usize {
    let mut room = 2 * messages.len() + SPARE;
    loop {
        let returned = reference::run(messages, &mut vec![0; room]);
        if returned.number != 10 {
            return returned.written + SPARE;
        }
        room *= 2;
    }
}

/// A message list, and how long a report memory its runs get.
pub struct List {
    messages: Vec<u8>,
    room: usize,
}

/// What all lists share: the clock, and one report memory.
pub struct Track {
    clock: Clock,
    memory: Vec<u8>,
}

impl Track {
    pub fn new() -> Self {
        Track {
            clock: Clock::new(),
            memory: Vec::new(),
        }
    }

    /// A list to be timed; both contenders must make the same report of it.
    pub fn list(&mut self, messages: Vec<u8>) -> Result<List, String> {
        let room = room_of(&messages);
        let list = List { messages, room };
        self.agree(&list)?;
        Ok(list)
    }

    pub fn lists(&mut self, all: impl Iterator<Item = Vec<u8>>) -> Result<Vec<List>, String> {
        all.map(|messages| self.list(messages)).collect()
    }

    fn agree(&mut self, list: &List) -> Result<(), String> {
        let report = self.report(list.room);
        report.fill(0xC3);
        let number = reference::run(&list.messages, report).number;
        let expected = report.to_vec();
        report.fill(0xC3);
        if legging::run(&list.messages, report).get() != number || *report != expected {
            return Err("engine and reference do not agree on a list to be timed".to_string());
        }
        Ok(())
    }

    fn report(&mut self, room: usize) -> &mut [u8] {
        if self.memory.len() < room {
            self.memory.resize(room, 0);
        }
        &mut self.memory[..room]
    }

    /// The report memory as the last run left it.
    #[cfg(test)]
    pub fn memory(&self) -> &[u8] {
        &self.memory
    }

    pub fn engine(&mut self, list: &List) -> f64 {
        let (messages, report) = (&list.messages[..], &mut self.memory[..list.room]);
        self.clock.time(|| {
            let _ = black_box(legging::run(black_box(messages), report));
        })
    }

    pub fn reference(&mut self, list: &List) -> f64 {
        let (messages, report) = (&list.messages[..], &mut self.memory[..list.room]);
        self.clock.time(|| {
            black_box(reference::run(black_box(messages), report));
        })
    }

    /// Both; who is first changes from round to round.
    pub fn race(&mut self, list: &List, round: usize) -> Both<f64> {
        if round.is_multiple_of(2) {
            let engine = self.engine(list);
            let reference = self.reference(list);
            return Both { engine, reference };
        }
        let reference = self.reference(list);
        let engine = self.engine(list);
        Both { engine, reference }
    }
    /// The times of groups of lists, each group's lists one after another. A round
    /// goes over all groups, so that what disturbs the machine for a while does
    /// not fall upon one of them.
    pub fn race_groups(&mut self, groups: &[Vec<List>], rounds: usize) -> Vec<Both<Times>> {
        let mut times = vec![Both::<Times>::default(); groups.len()];
        for round in 0..rounds {
            for (lists, times) in groups.iter().zip(&mut times) {
                let each = lists.iter().map(|list| self.race(list, round));
                times.add(each.fold(Both::default(), |sum, both| both.plus(&sum)));
            }
        }
        times
    }
}
