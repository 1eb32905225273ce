//! The one-message call: each message of a session upon the venue before it.

use crate::clock::Clock;
use crate::layers::{Case, Layer};
use crate::race::{Both, Times};
use crate::runs::{cells, spread, CONTENDERS};
use crate::table::{header, number, row};
use crate::Options;
use legging::{VenueBytes, MOST_BYTES};
use reference::Venue;
use sessions::held::to_bytes;
use sessions::message::split;
use std::hint::black_box;

pub const ROOM: usize = MOST_BYTES;

/// Calls timed together; the engine's are each upon a copy of the venue, made
/// beforehand.
const CALLS: usize = 8;

/// One message, with the venue before it in both forms.
pub struct Call {
    pub message: Vec<u8>,
    pub before: u32,
    pub venue: Venue,
    held: VenueBytes,
}

impl Call {
    fn new(message: &[u8], before: u32, venue: &Venue) -> Self {
        Call {
            message: message.to_vec(),
            before,
            held: VenueBytes::from_bytes(to_bytes(venue)),
            venue: venue.clone(),
        }
    }

    /// Both must leave the same report and venue; tells the venue.
    fn agreed(&self) -> Result<Venue, String> {
        let mut expected = vec![0xC3; ROOM];
        let returned =
            reference::one_message(&self.venue, self.before, &self.message, &mut expected);
        let mut report = vec![0xC3; ROOM];
        let mut held = self.held.clone();
        let number = legging::one_message(&mut held, self.before, &self.message, &mut report);
        let same = number.get() == returned.number
            && report == expected
            && *held.as_bytes() == to_bytes(&returned.venue);
        match same {
            true => Ok(returned.venue),
            false => Err("engine and reference do not agree on a message to be timed".to_string()),
        }
    }
}

/// What all calls share: the clock, the report memory, copies of a venue.
pub struct Track {
    clock: Clock,
    report: Vec<u8>,
    copies: Vec<VenueBytes>,
}

impl Track {
    pub fn new() -> Self {
        Track {
            clock: Clock::new(),
            report: vec![0; ROOM],
            copies: vec![VenueBytes::fresh(); CALLS],
        }
    }

    pub fn engine(&mut self, call: &Call) -> f64 {
        self.copies.fill(call.held.clone());
        let (copies, report) = (&mut self.copies, &mut self.report);
        let time = self.clock.time(|| {
            for venue in copies {
                let message = black_box(&call.message[..]);
                let _ = black_box(legging::one_message(venue, call.before, message, report));
            }
        });
        time / CALLS as f64
    }

    fn reference(&mut self, call: &Call) -> f64 {
        let report = &mut self.report;
        let time = self.clock.time(|| {
            for _ in 0..CALLS {
                let (venue, message) = (black_box(&call.venue), black_box(&call.message[..]));
                black_box(reference::one_message(venue, call.before, message, report));
            }
        });
        time / CALLS as f64
    }

    /// Both; who is first changes from round to round.
    fn race(&mut self, call: &Call, round: usize) -> Both<f64> {
        if round.is_multiple_of(2) {
            let engine = self.engine(call);
            let reference = self.reference(call);
            return Both { engine, reference };
        }
        let reference = self.reference(call);
        let engine = self.engine(call);
        Both { engine, reference }
    }

    /// The least of the rounds, for each call.
    fn least(&mut self, calls: &[Call], rounds: usize) -> Vec<Both<f64>> {
        let mut times = vec![Both::<Times>::default(); calls.len()];
        for round in 0..rounds {
            for (call, times) in calls.iter().zip(&mut times) {
                times.add(self.race(call, round));
            }
        }
        times.iter().map(Both::least).collect()
    }
}

/// The messages of a session as calls.
pub fn calls_of(pieces: &[Vec<u8>]) -> Result<Vec<Call>, String> {
    let mut venue = Venue::fresh();
    let mut calls = Vec::new();
    for (message, before) in pieces.iter().zip(0..) {
        let call = Call::new(message, before, &venue);
        venue = call.agreed()?;
        calls.push(call);
    }
    Ok(calls)
}

/// How the time of a call is spread over the messages of every profile.
pub fn profiles(options: &Options) -> Result<String, String> {
    let mut table = header(&[
        "profile",
        "calls",
        "engine: mean",
        "median",
        "99 %",
        "worst",
        "reference: mean",
        "median",
        "99 %",
        "worst",
        "ratio of medians",
    ]);
    let mut track = Track::new();
    for profile in options.profiles() {
        let mut all = Both::<Vec<f64>>::default();
        for pieces in options.sessions_of(profile) {
            for both in track.least(&calls_of(&pieces)?, options.rounds) {
                all.engine.push(both.engine);
                all.reference.push(both.reference);
            }
        }
        let mut line = spread(&all);
        line.insert(0, number(mean(&all.engine)));
        line.insert(4, number(mean(&all.reference)));
        line.insert(0, number(all.engine.len() as f64));
        line.insert(0, profile.name().to_string());
        table += &row(&line);
    }
    Ok(table)
}

pub fn mean(values: &[f64]) -> f64 {
    values.iter().sum::<f64>() / values.len() as f64
}

/// The calls of a layer's first unit.
fn unit_of(layer: Layer, book: usize) -> Result<Vec<Call>, String> {
    let case = Case::new(layer, book, 1);
    let mut report = vec![0; 1 << 20];
    let mut venue = reference::run(&case.prefix, &mut report).venue;
    let before = split(&case.prefix).len() as u32;
    let mut calls = Vec::new();
    for (message, before) in split(&case.list[case.prefix.len()..]).iter().zip(before..) {
        let call = Call::new(message, before, &venue);
        venue = call.agreed()?;
        calls.push(call);
    }
    Ok(calls)
}

/// Every layer by one-message calls, on books of 8, 32 and 128 orders.
pub fn layers(options: &Options) -> Result<String, String> {
    let columns = ["unit", "calls", "book"];
    let mut table = header(&[&columns[..], &CONTENDERS[..]].concat());
    let mut track = Track::new();
    for layer in options.layers() {
        for book in [8, 32, 128] {
            let calls = unit_of(layer, book)?;
            let mut times = Both::<Times>::default();
            for round in 0..4 * options.rounds {
                let each = calls.iter().map(|call| track.race(call, round));
                times.add(each.fold(Both::default(), |sum, both| both.plus(&sum)));
            }
            let mut line = vec![layer.name().to_string()];
            line.extend([calls.len().to_string(), book.to_string()]);
            line.extend(cells(&times));
            table += &row(&line);
        }
    }
    Ok(table)
}
