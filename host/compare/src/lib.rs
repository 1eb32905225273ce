//! The engine's archive driven beside the reference.

#![forbid(unsafe_code)]

use sessions::driver::check::Check;
use sessions::driver::{Call, Difference, Observer};
use sessions::engine::{held, Came, Engine};
use sessions::message::Message;
use sessions::moments::check_moments;

/// The engine's archive.
pub struct Archive;

impl Engine for Archive {
    fn run(&self, messages: &[u8], report: &mut [u8]) -> Came {
        legging::run(messages, report).get().into()
    }

    fn feed(&self, main: &[u8], spare: &[u8], report: &mut [u8]) -> Came {
        legging::feed(main, spare, report).get().into()
    }

    fn fresh(&self, venue: &mut [u8]) -> Came {
        legging::fresh_in(venue).get().into()
    }

    fn message(&self, venue: &mut [u8], before: u32, message: &[u8], report: &mut [u8]) -> Came {
        let number = legging::one_message_in(venue, before, message, report);
        number.get().into()
    }

    fn settings(&self, venue: &[u8], number: u32, settings: &mut [u8]) -> Came {
        legging::settings_in(venue, number, settings).get().into()
    }

    fn write_set(&self, venue: &[u8], number: u32, set: &mut [u8], written: &mut [u8]) -> Came {
        let number = legging::write_set_in(venue, number, set, written);
        number.get().into()
    }

    fn read_set(&self, set: &[u8], venue: &mut [u8], number: &mut [u8]) -> Came {
        legging::read_set_in(set, venue, number).get().into()
    }

    fn layer_fresh(&self, layer: &mut [u8]) -> Came {
        legging::layer_fresh_in(layer).get().into()
    }

    fn arrive(&self, layer: &mut [u8], venue: u32, message: &[u8]) -> Came {
        legging::arrive_in(layer, venue, message).get().into()
    }

    fn turn(&self, layer: &mut [u8], report: &mut [u8]) -> Came {
        Came {
            number: legging::turn_in(layer, report).get(),
            told: None,
        }
    }
}

/// Replays the engine's records of each message of a session upon the venue before it: no
/// trade or cross passes a better price over, and they lead to the venue left.
pub struct Replay;

impl Observer for Replay {
    fn called(&mut self, call: &Call) -> Result<u64, String> {
        let (Some(given), Some(left)) = (held(call.given), held(call.left)) else {
            return Ok(0);
        };
        if call.check != Check::Call || call.number != 0 {
            return Ok(0);
        }
        let (number, message) = (call.before.wrapping_add(1), Message::decode(call.message));
        let effects = call.records.get(1..).unwrap_or_default();
        let moments = check_moments(&given, number, &message, effects, &left)?;
        Ok(moments.len() as u64)
    }
}

/// A difference in words, with what repeats it.
pub fn in_words(difference: &Difference) -> String {
    let (name, seed) = (difference.profile.name(), difference.seed);
    format!(
        "{difference}\nrepeat it in host/ with\n  cargo run --release --offline -q -p compare -- session --profile {name} --seed {seed}"
    )
}
