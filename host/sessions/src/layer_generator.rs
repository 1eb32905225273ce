//! Random arrivals and turns: waits that fill and empty, one venue flooded, messages that
//! do not fit, torn and empty ones, short report memory; and layers with bytes changed.

use crate::asked::{Asked, ENOUGH};
use crate::corrupt::corrupt;
use crate::held;
use crate::held_layer::{from_bytes, COUNT_AT, DONE_AT, LANE_BYTES, LAST_AT, LAYER_BYTES};
use crate::held_layer::{PLACES_AT, PLACE_BYTES};
use crate::profile::Profile;
use crate::random::Random;
use crate::soak::generate;
use reference::{Layer, MOST_MESSAGE, MOST_WAITING, VENUES};

/// Messages of each venue's own session.
const MESSAGES: usize = 60;

pub struct LayerGenerator {
    random: Random,
    /// Each venue's session, and how much of it was sent.
    lists: [Vec<Vec<u8>>; VENUES],
    sent: [usize; VENUES],
    flooded: Option<usize>,
    /// Percent of calls that are arrivals; it changes from time to time.
    arrivals: u64,
}

impl LayerGenerator {
    /// Each venue gets a session of its own, of this profile.
    pub fn new(profile: Profile, seed: u64) -> Self {
        let mut random = Random::new(seed ^ (profile as u64 + 1).rotate_left(40));
        let lists = std::array::from_fn(|venue| {
            let own = seed.wrapping_mul(VENUES as u64).wrapping_add(venue as u64);
            generate(profile, own, MESSAGES)
        });
        let flooded = random
            .chance(50)
            .then(|| random.below(VENUES as u64) as usize);
        LayerGenerator {
            random,
            lists,
            sent: [0; VENUES],
            flooded,
            arrivals: 80,
        }
    }

    pub fn random(&mut self) -> &mut Random {
        &mut self.random
    }

    /// The next call upon a layer.
    pub fn next(&mut self, layer: &Layer) -> Asked {
        if self.random.chance(8) {
            self.arrivals = self.random.pick(&[10, 50, 80, 95]);
        }
        if !self.random.chance(self.arrivals) {
            return self.turn();
        }
        let asked = self.arrival();
        if let Asked::Arrive { venue, message } = &asked {
            self.count(layer, *venue as usize, message);
        }
        asked
    }

    /// Counts a message of a venue's own session that has room to wait.
    fn count(&mut self, layer: &Layer, venue: usize, message: &[u8]) {
        let Some(lane) = layer.lanes.get(venue) else {
            return;
        };
        let next = self.lists[venue].get(self.sent[venue]);
        if next.is_some_and(|next| next == message) && lane.wait.len() < MOST_WAITING {
            self.sent[venue] += 1;
        }
    }

    pub fn turn(&mut self) -> Asked {
        let room = match self.random.below(20) {
            0 => 0,
            1 => self.random.pick(&[11, 12, 13]),
            2 => self.random.below(80) as u32,
            _ => ENOUGH,
        };
        Asked::Turn { room }
    }

    /// Mostly the next message of a venue's own session.
    pub fn arrival(&mut self) -> Asked {
        let venue = match self.flooded {
            Some(flooded) if self.random.chance(70) => flooded,
            _ => self.random.below(VENUES as u64) as usize,
        };
        match self.random.below(100) {
            ..20 => return self.odd_arrival(venue),
            20..25 if self.sent[venue] > 0 => return self.old_arrival(venue),
            _ => {}
        }
        let at = self.sent[venue];
        let Some(message) = self.lists[venue].get(at).cloned() else {
            return self.odd_arrival(venue);
        };
        let venue = venue as u32;
        Asked::Arrive { venue, message }
    }

    /// A message that was sent before.
    fn old_arrival(&mut self, venue: usize) -> Asked {
        let at = self.random.below(self.sent[venue] as u64) as usize;
        let message = self.lists[venue][at].clone();
        let venue = venue as u32;
        Asked::Arrive { venue, message }
    }

    /// Any bytes, torn, none or too many, some for a venue that is not there.
    fn odd_arrival(&mut self, venue: usize) -> Asked {
        let venue = match self.random.below(6) {
            0 => self.random.pick(&[4, 5, 255, 256, 1 << 16, u32::MAX]),
            _ => venue as u32,
        };
        let most = MOST_MESSAGE as u64;
        let length = match self.random.below(8) {
            0 | 1 => 0,
            2 => most,
            3 => most + 1,
            4 => most + self.random.below(500),
            5 => self.random.below(4),
            _ => self.random.below(most + 1),
        };
        let mut message: Vec<u8> = (0..length).map(|_| self.random.below(256) as u8).collect();
        if message.len() >= 4 && self.random.chance(60) {
            let length = message.len() as u16;
            message[..2].copy_from_slice(&length.to_le_bytes());
            message[2..4].copy_from_slice(&[self.random.below(12) as u8, 0]);
        }
        Asked::Arrive { venue, message }
    }
}

/// Layer bytes with something changed at random; most are unsound then.
pub fn corrupt_layer(bytes: &[u8; LAYER_BYTES], random: &mut Random) -> [u8; LAYER_BYTES] {
    let mut bytes = *bytes;
    let lane = random.below(VENUES as u64) as usize * LANE_BYTES;
    match random.below(8) {
        0 => bytes[LAST_AT] = random.pick(&[0, 1, 2, 3, 4, 5, 255]),
        1 => bytes[lane + COUNT_AT] = random.pick(&[0, 1, 7, 8, 9, 10, 255]),
        2 | 3 => {
            let place = random.below(MOST_WAITING as u64) as usize * PLACE_BYTES;
            bytes[lane + PLACES_AT + place] = random.pick(&[0, 3, 31, 32, 33, 34, 255]);
        }
        4 => {
            let venue = lane / LANE_BYTES;
            let changed = corrupt(&from_bytes(&bytes).lanes[venue].venue, random);
            let changed = held::to_bytes(&changed);
            bytes[lane..lane + DONE_AT].copy_from_slice(&changed);
        }
        5 => {
            // At the count's end, or below the number of an edition's or a generation's
            // message.
            let done = random.pick(&[u32::MAX, u32::MAX - 1, 0, 1]);
            bytes[lane + DONE_AT..lane + COUNT_AT].copy_from_slice(&done.to_le_bytes());
        }
        6 => {
            // What stands in places, used or not: no figure but the lengths of those in use.
            let at = lane + PLACES_AT + random.below((LANE_BYTES - PLACES_AT) as u64) as usize;
            bytes[at] = random.below(256) as u8;
        }
        _ => {
            let at = random.below(LAYER_BYTES as u64) as usize;
            bytes[at] ^= 1 << random.below(8);
        }
    }
    bytes
}
