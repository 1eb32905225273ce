//! Lists to be timed: sessions of the generator, alone and one after another.

use reference::Venue;
use sessions::generator::Generator;
use sessions::message::{Away, Cancel, Message, NewComplex, NewOrder, Status};
use sessions::profile::Profile;
use sessions::soak::{drawn, session_length};
use sessions::view::{held_complex, held_regular};

/// The last kind of message that there is.
pub const LAST_KIND: u16 = 11;

/// The messages of the generator's own session, of kinds up to `kinds`.
pub fn session(profile: Profile, seed: u64, kinds: u16) -> Vec<Vec<u8>> {
    let generator = Generator::new(profile, seed).up_to(kinds);
    drawn(generator, session_length(profile, seed))
}

/// A session that takes back what it leaves, so that another can follow.
pub struct Closed(Vec<Message>);

/// No id of a closed session is above this.
const HIGHEST: u32 = 4_000;

/// The first sessions whose ids stay low, closed.
pub fn closed_sessions(profile: Profile, kinds: u16, count: usize) -> Vec<Closed> {
    (0..)
        .filter_map(|seed| closed(session(profile, seed, kinds)))
        .take(count)
        .collect()
}

fn closed(pieces: Vec<Vec<u8>>) -> Option<Closed> {
    let left = reference::run(&pieces.concat(), &mut vec![0; 1 << 18]);
    if left.number != 0 || left.venue.last > HIGHEST {
        return None;
    }
    let messages = pieces.iter().map(|piece| Message::decode(piece));
    Some(Closed(messages.chain(taken_back(&left.venue)).collect()))
}

/// Cancels every order, takes back the away prices and closes the series; then refused
/// messages, after which no ceiling has to do with what was generated.
fn taken_back(venue: &Venue) -> Vec<Message> {
    let complex = held_complex(venue).map(|order| order.id);
    let regular = held_regular(venue).map(|order| order.id);
    let cancels = complex
        .chain(regular)
        .map(|id| Message::Cancel(Cancel { id }));
    let series = (0..8).flat_map(|series| {
        let (bid, offer, status) = (0, 0, 0);
        [
            Message::Away(Away { series, bid, offer }),
            Message::Status(Status { series, status }),
        ]
    });
    let refused = std::iter::repeat_n(Message::Raw(vec![4, 0, 99, 0]), 256);
    cancels.chain(series).chain(refused).collect()
}

/// One list of closed sessions, the ids of each above those before.
pub fn joined(sessions: &[Closed]) -> Vec<u8> {
    let mut list = Vec::new();
    for (session, base) in sessions.iter().zip((0..).step_by(HIGHEST as usize)) {
        for message in &session.0 {
            list.extend(moved(message, base).encode());
        }
    }
    list
}

pub fn messages_in(sessions: &[Closed]) -> usize {
    sessions.iter().map(|session| session.0.len()).sum()
}

/// The message with its id moved up; an id of 0 is refused and stays.
fn moved(message: &Message, base: u32) -> Message {
    let mut message = message.clone();
    match &mut message {
        Message::Order(NewOrder { id, .. })
        | Message::Complex(NewComplex { id, .. })
        | Message::Cancel(Cancel { id })
            if *id > 0 =>
        {
            *id = id.saturating_add(base);
        }
        _ => {}
    }
    message
}
