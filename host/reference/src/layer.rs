//! Request (j): four venues behind one line.

use crate::calls::one_message;
use crate::types::Venue;

pub const VENUES: usize = 4;

/// The most messages that wait for a venue.
pub const MOST_WAITING: usize = 8;

/// The most bytes of a message that waits.
pub const MOST_MESSAGE: usize = 32;

/// The venue served by a turn that served none.
pub const NONE_SERVED: u8 = 4;

const UNSOUND: u8 = 9;
const NO_PLACE: u8 = 17;
const NO_VENUE: u8 = 18;

/// A venue, how many of its messages were done, and those that wait for it.
#[derive(Clone, Debug, Default, PartialEq, Eq)]
pub struct Lane {
    pub venue: Venue,
    pub done: u32,
    pub wait: Vec<Vec<u8>>,
}

#[derive(Clone, Debug, PartialEq, Eq)]
pub struct Layer {
    pub lanes: [Lane; VENUES],
    /// The venue served last.
    pub last: u8,
}

/// What a turn returned.
#[derive(Clone, Copy, Debug, PartialEq, Eq)]
pub struct Turned {
    pub number: u8,
    pub done: u32,
    pub written: usize,
    /// The venue served, or [`NONE_SERVED`].
    pub served: u8,
}

impl Layer {
    /// Four fresh venues, nothing waiting; the first turn begins with venue 0.
    pub fn fresh() -> Self {
        Layer {
            lanes: Default::default(),
            last: VENUES as u8 - 1,
        }
    }

    /// Whether all figures are in range and no venue gets 9.
    fn is_sound(&self) -> bool {
        usize::from(self.last) < VENUES && self.lanes.iter().all(Lane::is_sound)
    }

    /// The next venue after the last one served, going round, that has a message waiting.
    fn next(&self) -> Option<usize> {
        let last = usize::from(self.last);
        let mut round = (1..=VENUES).map(|step| (last + step) % VENUES);
        round.find(|venue| !self.lanes[*venue].wait.is_empty())
    }
}

impl Default for Layer {
    fn default() -> Self {
        Layer::fresh()
    }
}

impl Lane {
    fn is_sound(&self) -> bool {
        let short = |message: &Vec<u8>| message.len() <= MOST_MESSAGE;
        self.wait.len() <= MOST_WAITING && self.wait.iter().all(short) && !self.gets_nine()
    }

    /// Whether a one-message call upon the venue gets 9, whatever its message.
    fn gets_nine(&self) -> bool {
        one_message(&self.venue, self.done, &[], &mut []).number == UNSOUND
    }
}

/// Takes up a message for a venue: 0, or the number that it was refused with.
pub fn arrive(layer: &mut Layer, venue: u32, message: &[u8]) -> u8 {
    if !layer.is_sound() {
        return UNSOUND;
    }
    let Some(lane) = layer.lanes.get_mut(venue as usize) else {
        return NO_VENUE;
    };
    if lane.wait.len() == MOST_WAITING || message.len() > MOST_MESSAGE {
        return NO_PLACE;
    }
    lane.wait.push(message.to_vec());
    0
}

/// Does the message at the head of the next venue's wait.
pub fn turn(layer: &mut Layer, report: &mut [u8]) -> Turned {
    if !layer.is_sound() {
        return without(UNSOUND, report);
    }
    let Some(next) = layer.next() else {
        return without(0, report);
    };
    let lane = &mut layer.lanes[next];
    let returned = one_message(&lane.venue, lane.done, &lane.wait[0], report);
    if returned.done == 0 {
        return without(returned.number, report);
    }
    lane.venue = returned.venue;
    lane.done += returned.done;
    lane.wait.remove(0);
    layer.last = next as u8;
    Turned {
        number: returned.number,
        done: returned.done,
        written: returned.written,
        served: layer.last,
    }
}

/// A turn that served none.
fn without(number: u8, report: &mut [u8]) -> Turned {
    report.fill(0);
    Turned {
        number,
        done: 0,
        written: 0,
        served: NONE_SERVED,
    }
}
