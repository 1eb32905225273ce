//! The ways in which arrivals and turns come over random sessions, and that no message waits
//! at a head for more than four turns.

use crate::asked::{Asked, ENOUGH};
use crate::driver::AskedOf;
use crate::engine::held_layer;
use crate::sound::{edition_number_fault, fault, generation_number_fault};
use reference::{Layer, VENUES};
use std::collections::BTreeMap;

/// The ways that random calls must show.
const WAYS: [&str; 39] = [
    "arrival 0: the first of a wait",
    "arrival 0: the eighth of a wait",
    "arrival 0: a message of 32 bytes",
    "arrival 0: a message of no bytes",
    "arrival 9: before 17 and 18",
    "arrival 9: nothing waits",
    "arrival 17: the wait holds 8",
    "arrival 17: a message of 33 bytes",
    "arrival 17: a longer message",
    "arrival 18: a message that would fit",
    "arrival 18: a message over 32 bytes",
    "turn 0: nothing waits",
    "turn 0: accepted",
    "turn 1: a message of no bytes",
    "turn 1: a torn message",
    "turn 2",
    "turn 3",
    "turn 4",
    "turn 5",
    "turn 6",
    "turn 8",
    "turn 9: nothing waits",
    "turn 9: a message waits",
    "turn 10: the report memory is short",
    "turn 10: the count is at its end",
    "turn 10: tried again and done",
    "turn 11",
    "turn 12",
    "turn 14",
    "turn: the same venue again, none else waiting",
    "turn: the fourth since a message came to the head",
    "turn: past venues with nothing waiting",
    "9: the venue served last",
    "9: a count above 8",
    "9: a length above 32",
    "9: a venue",
    "9: a number not above an edition's",
    "9: a number not above a generation's",
    "no 9: a free place is changed",
];

/// How often each way came; and what has to be known of the session's calls before.
#[derive(Clone, Debug, Default)]
pub struct LayerCoverage {
    ways: BTreeMap<&'static str, u64>,
    /// Turns since the message at each head came there.
    turns: [u64; VENUES],
    /// Whether the last turn was ended by 10.
    ended: bool,
}

impl LayerCoverage {
    /// Every way with how often it came.
    pub fn counts(&self) -> impl Iterator<Item = (&'static str, u64)> + '_ {
        WAYS.into_iter().map(|way| {
            let count = self.ways.get(way).copied().unwrap_or(0);
            (way, count)
        })
    }

    fn add(&mut self, way: &'static str) {
        *self.ways.entry(way).or_default() += 1;
    }

    /// Another session begins.
    pub fn begin(&mut self) {
        (self.turns, self.ended) = ([0; VENUES], false);
    }

    /// Takes note of a call that was the same by both engines. An error where a message
    /// has been at the head for too long.
    pub fn observe(&mut self, of: &AskedOf) -> Result<(), String> {
        let Some(given) = held_layer(of.given) else {
            return Ok(());
        };
        if of.number == 9 {
            self.observe_unsound(of.asked, &given);
            return Ok(());
        }
        if of.given != of.own && held_layer(of.own).as_ref() == Some(&given) {
            self.add("no 9: a free place is changed");
        }
        match of.asked {
            Asked::Arrive { venue, message } => {
                self.observe_arrival(of.number, &given, *venue, message);
                Ok(())
            }
            Asked::Turn { room } => self.observe_turn(of, &given, *room),
        }
    }

    fn observe_unsound(&mut self, asked: &Asked, layer: &Layer) {
        let waits = layer.lanes.iter().any(|lane| !lane.wait.is_empty());
        match asked {
            Asked::Arrive { venue, message } => {
                if *venue as usize >= VENUES && message.len() > 32 {
                    self.add("arrival 9: before 17 and 18");
                }
                if !waits {
                    self.add("arrival 9: nothing waits");
                }
            }
            Asked::Turn { .. } => {
                faults_of(layer).iter().for_each(|way| self.add(way));
                self.add(match waits {
                    true => "turn 9: a message waits",
                    false => "turn 9: nothing waits",
                });
            }
        }
    }

    fn observe_arrival(&mut self, number: u8, given: &Layer, venue: u32, message: &[u8]) {
        let long = message.len() > 32;
        match number {
            0 => {
                match given.lanes[venue as usize].wait.len() {
                    0 => self.add("arrival 0: the first of a wait"),
                    7 => self.add("arrival 0: the eighth of a wait"),
                    _ => {}
                }
                match message.len() {
                    0 => self.add("arrival 0: a message of no bytes"),
                    32 => self.add("arrival 0: a message of 32 bytes"),
                    _ => {}
                }
            }
            17 => self.add(match message.len() {
                ..=32 => "arrival 17: the wait holds 8",
                33 => "arrival 17: a message of 33 bytes",
                _ => "arrival 17: a longer message",
            }),
            _ if long => self.add("arrival 18: a message over 32 bytes"),
            _ => self.add("arrival 18: a message that would fit"),
        }
    }

    fn observe_turn(&mut self, of: &AskedOf, given: &Layer, room: u32) -> Result<(), String> {
        let served = usize::from(of.served);
        let Some(lane) = given.lanes.get(served) else {
            self.add(match of.number {
                0 => "turn 0: nothing waits",
                _ if room < ENOUGH => "turn 10: the report memory is short",
                _ => "turn 10: the count is at its end",
            });
            self.ended = of.number == 10 && (of.goes_on || self.ended);
            return Ok(());
        };
        self.add(match of.number {
            0 => "turn 0: accepted",
            1 if lane.wait[0].is_empty() => "turn 1: a message of no bytes",
            1 => "turn 1: a torn message",
            refusal => refused_turn(refusal),
        });
        let last = usize::from(given.last);
        if served == last {
            self.add("turn: the same venue again, none else waiting");
        }
        if served != (last + 1) % VENUES {
            self.add("turn: past venues with nothing waiting");
        }
        match of.goes_on {
            true => self.go_on(given, served),
            false => Ok(()),
        }
    }

    /// A turn of the session itself: no other head waits for a fourth turn.
    fn go_on(&mut self, given: &Layer, served: usize) -> Result<(), String> {
        if std::mem::take(&mut self.ended) {
            self.add("turn 10: tried again and done");
        }
        if self.turns[served] == 3 {
            self.add("turn: the fourth since a message came to the head");
        }
        for (venue, lane) in given.lanes.iter().enumerate() {
            self.turns[venue] = match venue == served || lane.wait.is_empty() {
                true => 0,
                false => self.turns[venue] + 1,
            };
        }
        match self.turns.iter().position(|turns| *turns >= 4) {
            Some(venue) => Err(format!(
                "the head of venue {venue} is not done by the fourth turn"
            )),
            None => Ok(()),
        }
    }
}

/// Why a layer gets 9: by figures and by the other test of soundness.
pub fn faults_of(layer: &Layer) -> Vec<&'static str> {
    let mut faults = Vec::new();
    if layer.last > 3 {
        faults.push("9: the venue served last");
    }
    for lane in &layer.lanes {
        if lane.wait.len() > 8 {
            faults.push("9: a count above 8");
        }
        if lane.wait.iter().any(|message| message.len() > 32) {
            faults.push("9: a length above 32");
        }
        if fault(&lane.venue).is_some() {
            faults.push("9: a venue");
            continue;
        }
        if edition_number_fault(&lane.venue, lane.done).is_some() {
            faults.push("9: a number not above an edition's");
        }
        if generation_number_fault(&lane.venue, lane.done).is_some() {
            faults.push("9: a number not above a generation's");
        }
    }
    faults
}

/// A turn whose message was refused, and whole.
fn refused_turn(refusal: u8) -> &'static str {
    match refusal {
        2 => "turn 2",
        3 => "turn 3",
        4 => "turn 4",
        5 => "turn 5",
        6 => "turn 6",
        7 => "turn 7",
        8 => "turn 8",
        11 => "turn 11",
        12 => "turn 12",
        13 => "turn 13",
        _ => "turn 14",
    }
}
