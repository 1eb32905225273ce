//! The layer as hosts hold it: four lanes and then the venue served last, a u8. A lane
//! is its venue as hosts hold one, the messages done u32, how many wait u8, and eight
//! places of a length u8 and 32 bytes, the head in front.

use crate::held;
use crate::held::VENUE_BYTES;
use reference::{Lane, Layer, Turned, Venue, MOST_MESSAGE, MOST_WAITING, VENUES};

pub const PLACE_BYTES: usize = 1 + MOST_MESSAGE;

/// Where a lane's count of messages done stands in it, its count of those that wait, its
/// places and its end.
pub const DONE_AT: usize = VENUE_BYTES;
pub const COUNT_AT: usize = DONE_AT + 4;
pub const PLACES_AT: usize = COUNT_AT + 1;
pub const LANE_BYTES: usize = PLACES_AT + MOST_WAITING * PLACE_BYTES;

/// Where the venue served last stands in the layer.
pub const LAST_AT: usize = VENUES * LANE_BYTES;
pub const LAYER_BYTES: usize = LAST_AT + 1;

/// The bytes of a layer whose figures are in range.
pub fn to_bytes(layer: &Layer) -> Box<[u8; LAYER_BYTES]> {
    let mut bytes = Box::new([0; LAYER_BYTES]);
    for (lane, bytes) in layer.lanes.iter().zip(bytes.chunks_mut(LANE_BYTES)) {
        bytes[..VENUE_BYTES].copy_from_slice(&held::to_bytes(&lane.venue));
        bytes[DONE_AT..COUNT_AT].copy_from_slice(&lane.done.to_le_bytes());
        bytes[COUNT_AT] = lane.wait.len() as u8;
        for (message, bytes) in lane
            .wait
            .iter()
            .zip(bytes[PLACES_AT..].chunks_mut(PLACE_BYTES))
        {
            bytes.copy_from_slice(&place(message));
        }
    }
    bytes[LAST_AT] = layer.last;
    bytes
}

/// A place with a message of at most 32 bytes; zeros after it.
fn place(message: &[u8]) -> [u8; PLACE_BYTES] {
    let mut place = [0; PLACE_BYTES];
    place[0] = message.len() as u8;
    place[1..=message.len()].copy_from_slice(message);
    place
}

/// The layer that bytes stand for. A wait is as long as its count says and a message as
/// its length says, also where the bytes hold no more.
pub fn from_bytes(bytes: &[u8; LAYER_BYTES]) -> Layer {
    Layer {
        lanes: std::array::from_fn(|venue| lane_from(&bytes[venue * LANE_BYTES..][..LANE_BYTES])),
        last: bytes[LAST_AT],
    }
}

fn lane_from(bytes: &[u8]) -> Lane {
    let (venue, rest) = bytes.split_at(VENUE_BYTES);
    let [a, b, c, d, count, places @ ..] = rest else {
        unreachable!("a lane has its counts and places");
    };
    let mut wait: Vec<Vec<u8>> = places.chunks(PLACE_BYTES).map(message_at).collect();
    wait.resize(usize::from(*count), Vec::new());
    Lane {
        venue: venue_from(venue),
        done: u32::from_le_bytes([*a, *b, *c, *d]),
        wait,
    }
}

fn venue_from(bytes: &[u8]) -> Venue {
    let bytes = bytes.try_into().expect("a venue's length");
    held::from_bytes(bytes)
}

fn message_at(place: &[u8]) -> Vec<u8> {
    let mut message = place[1..].to_vec();
    message.resize(usize::from(place[0]), 0);
    message
}

/// What a message taken up writes: the first free place, and the count.
pub fn write_arrival(bytes: &mut [u8; LAYER_BYTES], venue: usize, message: &[u8]) {
    let lane = &mut bytes[venue * LANE_BYTES..][..LANE_BYTES];
    let count = usize::from(lane[COUNT_AT]);
    lane[PLACES_AT + count * PLACE_BYTES..][..PLACE_BYTES].copy_from_slice(&place(message));
    lane[COUNT_AT] += 1;
}

/// What a turn that served a venue writes: the venue where the message was accepted, both
/// counts, each place one place down and zeros in the last, the venue served last.
pub fn write_turn(bytes: &mut [u8; LAYER_BYTES], turned: &Turned, after: &Layer) {
    let served = usize::from(turned.served);
    let lane = &mut bytes[served * LANE_BYTES..][..LANE_BYTES];
    let Lane { venue, done, wait } = &after.lanes[served];
    if turned.number == 0 {
        lane[..VENUE_BYTES].copy_from_slice(&held::to_bytes(venue));
    }
    lane[DONE_AT..COUNT_AT].copy_from_slice(&done.to_le_bytes());
    lane[COUNT_AT] = wait.len() as u8;
    lane.copy_within(PLACES_AT + PLACE_BYTES.., PLACES_AT);
    lane[LANE_BYTES - PLACE_BYTES..].fill(0);
    bytes[LAST_AT] = turned.served;
}
