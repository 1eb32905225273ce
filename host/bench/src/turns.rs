//! The turn and the arrival beside the one-message call: each message of a session upon
//! a layer whose four venues are all the one before it.

use crate::calls::{calls_of, mean, Call, Track, ROOM};
use crate::clock::Clock;
use crate::table::{header, number, row};
use crate::Options;
use legging::{LayerBytes, Number};
use reference::{Lane, Layer, MOST_MESSAGE};
use sessions::held_layer::{from_bytes, to_bytes};
use std::hint::black_box;

/// Turns timed together, each upon a copy of the layer made beforehand.
const TURNS: usize = 2;

/// A message's call, and the layer before it: with nothing waiting, and with the message
/// waiting for venue 0.
struct Turn {
    call: Call,
    empty: LayerBytes,
    waiting: LayerBytes,
}

impl Turn {
    fn new(call: Call) -> Self {
        let lane = Lane {
            venue: call.venue.clone(),
            done: call.before,
            wait: Vec::new(),
        };
        let mut layer = Layer {
            lanes: std::array::from_fn(|_| lane.clone()),
            ..Layer::fresh()
        };
        let empty = LayerBytes::from_bytes(*to_bytes(&layer));
        layer.lanes[0].wait.push(call.message.clone());
        Turn {
            call,
            empty,
            waiting: LayerBytes::from_bytes(*to_bytes(&layer)),
        }
    }

    /// The arrival and the turn must be the reference's.
    fn agrees(&self) -> Result<(), String> {
        let mut expected = vec![0xC3; ROOM];
        let mut after = from_bytes(self.waiting.as_bytes());
        let turned = reference::turn(&mut after, &mut expected);
        let mut report = vec![0xC3; ROOM];
        let mut layer = self.empty.clone();
        let arrived = legging::arrive(&mut layer, 0, &self.call.message);
        let is_waiting = layer == self.waiting;
        let told = legging::turn(&mut layer, &mut report);
        let same = arrived == Number::DONE
            && is_waiting
            && (told.number().get(), told.venue()) == (turned.number, Some(0))
            && report == expected
            && layer.as_bytes() == &*to_bytes(&after);
        match same {
            true => Ok(()),
            false => Err("engine and reference do not agree on a turn to be timed".to_string()),
        }
    }
}

/// What all turns share: the calls' own, the clock, the report memory, copies of a layer.
struct Layers {
    calls: Track,
    clock: Clock,
    report: Vec<u8>,
    copies: Vec<LayerBytes>,
}

impl Layers {
    fn arrival(&mut self, turn: &Turn) -> f64 {
        self.copies.fill(turn.empty.clone());
        let copies = &mut self.copies;
        let time = self.clock.time(|| {
            for layer in copies {
                let message = black_box(&turn.call.message[..]);
                let _ = black_box(legging::arrive(layer, 0, message));
            }
        });
        time / TURNS as f64
    }

    fn turn(&mut self, turn: &Turn) -> f64 {
        self.copies.fill(turn.waiting.clone());
        let (copies, report) = (&mut self.copies, &mut self.report);
        let time = self.clock.time(|| {
            for layer in copies {
                let _ = black_box(legging::turn(black_box(layer), report));
            }
        });
        time / TURNS as f64
    }

    /// The least of the rounds for each message: its call, its arrival and its turn.
    fn least(&mut self, turns: &[Turn], rounds: usize) -> Vec<[f64; 3]> {
        let mut least = vec![[f64::INFINITY; 3]; turns.len()];
        for _ in 0..rounds {
            for (turn, least) in turns.iter().zip(&mut least) {
                let times = [
                    self.calls.engine(&turn.call),
                    self.arrival(turn),
                    self.turn(turn),
                ];
                *least = std::array::from_fn(|which| least[which].min(times[which]));
            }
        }
        least
    }
}

/// The messages of a session that can wait.
fn turns_of(pieces: &[Vec<u8>]) -> Result<Vec<Turn>, String> {
    let mut calls = calls_of(pieces)?;
    calls.retain(|call| call.message.len() <= MOST_MESSAGE);
    let turns: Vec<Turn> = calls.into_iter().map(Turn::new).collect();
    turns.iter().try_for_each(Turn::agrees)?;
    Ok(turns)
}

/// The call, the arrival and the turn of every message of the sessions.
pub fn profiles(options: &Options) -> Result<String, String> {
    let mut table = header(&[
        "profile",
        "messages",
        "call",
        "arrival",
        "turn",
        "arrival / call",
        "turn / call",
    ]);
    let mut layers = Layers {
        calls: Track::new(),
        clock: Clock::new(),
        report: vec![0; ROOM],
        copies: vec![LayerBytes::fresh(); TURNS],
    };
    for profile in options.profiles() {
        let mut all = Vec::new();
        for pieces in options.sessions_of(profile) {
            all.extend(layers.least(&turns_of(&pieces)?, options.rounds));
        }
        let [call, arrival, turn] = [0, 1, 2].map(|which| {
            let times: Vec<f64> = all.iter().map(|times| times[which]).collect();
            mean(&times)
        });
        table += &row(&[
            profile.name().to_string(),
            number(all.len() as f64),
            number(call),
            number(arrival),
            number(turn),
            format!("{:.2}", arrival / call),
            format!("{:.2}", turn / call),
        ]);
    }
    Ok(table)
}
