//! The calls as hosts in C see them, upon memory of any length: what every engine answers,
//! so that any two can be driven side by side.

use crate::held::{from_bytes, to_bytes, VENUE_BYTES};
use crate::held_layer::{self, write_arrival, write_turn, LAYER_BYTES};
use reference::{Layer, Returned, Turned, Venue, NONE_SERVED};

/// The venue or the layer is unsound, or its memory of another length.
pub const UNSOUND: u8 = 9;

/// The bytes of a number that a call upon a set tells.
pub const NUMBER_BYTES: usize = 4;

/// Eight increments and the percentage.
pub const SETTINGS_BYTES: usize = 9;

/// What a call came to.
#[derive(Clone, Debug, Default, PartialEq, Eq)]
pub struct Came {
    /// The number; of a turn with 256 times the venue served.
    pub number: u32,
    /// What an engine tells beside it; hosts in C are told the number alone.
    pub told: Option<Told>,
}

/// Messages done, bytes written, and the venue that a run left.
#[derive(Clone, Debug, PartialEq, Eq)]
pub struct Told {
    pub done: u32,
    pub written: usize,
    pub venue: Option<Box<Venue>>,
}

impl From<u8> for Came {
    fn from(number: u8) -> Self {
        Came {
            number: number.into(),
            told: None,
        }
    }
}

impl From<Returned> for Came {
    fn from(returned: Returned) -> Self {
        Came {
            number: returned.number.into(),
            told: Some(Told {
                done: returned.done,
                written: returned.written,
                venue: Some(Box::new(returned.venue)),
            }),
        }
    }
}

impl From<Turned> for Came {
    fn from(turned: Turned) -> Self {
        Came {
            number: u32::from(turned.number) + 256 * u32::from(turned.served),
            told: Some(Told {
                done: turned.done,
                written: turned.written,
                venue: None,
            }),
        }
    }
}

/// The calls. Memory that is lent may have any length, and what it holds is junk where the
/// call only writes it.
pub trait Engine {
    fn run(&self, messages: &[u8], report: &mut [u8]) -> Came;

    /// A run of what two lines hand out.
    fn feed(&self, main: &[u8], spare: &[u8], report: &mut [u8]) -> Came;

    fn fresh(&self, venue: &mut [u8]) -> Came;

    fn message(&self, venue: &mut [u8], before: u32, message: &[u8], report: &mut [u8]) -> Came;

    fn settings(&self, venue: &[u8], number: u32, settings: &mut [u8]) -> Came;

    fn write_set(&self, venue: &[u8], number: u32, set: &mut [u8], written: &mut [u8]) -> Came;

    fn read_set(&self, set: &[u8], venue: &mut [u8], number: &mut [u8]) -> Came;

    fn layer_fresh(&self, layer: &mut [u8]) -> Came;

    fn arrive(&self, layer: &mut [u8], venue: u32, message: &[u8]) -> Came;

    fn turn(&self, layer: &mut [u8], report: &mut [u8]) -> Came;
}

/// The calls upon values, which an engine in Rust answers; memory of another length than a
/// venue's or a layer's is unsound, and not looked into.
pub trait Calls {
    fn run(&self, messages: &[u8], report: &mut [u8]) -> Returned;

    fn feed(&self, main: &[u8], spare: &[u8], report: &mut [u8]) -> Returned;

    fn message(&self, venue: &Venue, before: u32, message: &[u8], report: &mut [u8]) -> Returned;

    /// Eight increments and the percentage; nothing where the venue is unsound.
    fn settings(&self, venue: &Venue, number: u32) -> Option<[u8; SETTINGS_BYTES]>;

    /// The number and the bytes written; the rest of the memory is zeros.
    fn write_set(&self, venue: &Venue, number: u32, set: &mut [u8]) -> (u8, usize);

    /// The number, the venue and its message number.
    fn read_set(&self, set: &[u8]) -> (u8, Venue, u32);

    fn arrive(&self, layer: &mut Layer, venue: u32, message: &[u8]) -> u8;

    fn turn(&self, layer: &mut Layer, report: &mut [u8]) -> Turned;
}

/// The venue that memory holds, where it has the length of one.
pub fn held(memory: &[u8]) -> Option<Venue> {
    <&[u8; VENUE_BYTES]>::try_from(memory).ok().map(from_bytes)
}

/// The layer that memory holds, where it has the length of one.
pub fn held_layer(memory: &[u8]) -> Option<Layer> {
    let bytes = <&[u8; LAYER_BYTES]>::try_from(memory).ok()?;
    Some(held_layer::from_bytes(bytes))
}

impl<C: Calls> Engine for C {
    fn run(&self, messages: &[u8], report: &mut [u8]) -> Came {
        Calls::run(self, messages, report).into()
    }

    fn feed(&self, main: &[u8], spare: &[u8], report: &mut [u8]) -> Came {
        Calls::feed(self, main, spare, report).into()
    }

    fn fresh(&self, venue: &mut [u8]) -> Came {
        if venue.len() != VENUE_BYTES {
            return UNSOUND.into();
        }
        venue.copy_from_slice(&to_bytes(&Venue::fresh()));
        0.into()
    }

    /// Unless the message was accepted, the venue's bytes stay as they are.
    fn message(&self, venue: &mut [u8], before: u32, message: &[u8], report: &mut [u8]) -> Came {
        let Some(given) = held(venue) else {
            report.fill(0);
            return UNSOUND.into();
        };
        let returned = Calls::message(self, &given, before, message, report);
        if returned.number == 0 {
            venue.copy_from_slice(&to_bytes(&returned.venue));
        }
        returned.into()
    }

    /// Nothing is half told.
    fn settings(&self, venue: &[u8], number: u32, settings: &mut [u8]) -> Came {
        settings.fill(0);
        let told = held(venue).and_then(|venue| Calls::settings(self, &venue, number));
        let (Some(told), Some(room)) = (told, settings.get_mut(..SETTINGS_BYTES)) else {
            return UNSOUND.into();
        };
        room.copy_from_slice(&told);
        0.into()
    }

    fn write_set(&self, venue: &[u8], number: u32, set: &mut [u8], written: &mut [u8]) -> Came {
        set.fill(0);
        written.fill(0);
        let (Some(venue), NUMBER_BYTES) = (held(venue), written.len()) else {
            return UNSOUND.into();
        };
        let (number, bytes) = Calls::write_set(self, &venue, number, set);
        written.copy_from_slice(&(bytes as u32).to_le_bytes());
        number.into()
    }

    fn read_set(&self, set: &[u8], venue: &mut [u8], number: &mut [u8]) -> Came {
        number.fill(0);
        if Engine::fresh(self, venue).number != 0 || number.len() != NUMBER_BYTES {
            return UNSOUND.into();
        }
        let (answer, read, message) = Calls::read_set(self, set);
        venue.copy_from_slice(&to_bytes(&read));
        number.copy_from_slice(&message.to_le_bytes());
        answer.into()
    }

    fn layer_fresh(&self, layer: &mut [u8]) -> Came {
        if layer.len() != LAYER_BYTES {
            return UNSOUND.into();
        }
        layer.copy_from_slice(&held_layer::to_bytes(&Layer::fresh())[..]);
        0.into()
    }

    fn arrive(&self, layer: &mut [u8], venue: u32, message: &[u8]) -> Came {
        let Ok(bytes) = <&mut [u8; LAYER_BYTES]>::try_from(layer) else {
            return UNSOUND.into();
        };
        let mut held = held_layer::from_bytes(bytes);
        let number = Calls::arrive(self, &mut held, venue, message);
        if number == 0 {
            write_arrival(bytes, venue as usize, message);
        }
        assert_holds(bytes, &held);
        number.into()
    }

    fn turn(&self, layer: &mut [u8], report: &mut [u8]) -> Came {
        let Ok(bytes) = <&mut [u8; LAYER_BYTES]>::try_from(layer) else {
            report.fill(0);
            return served_none(UNSOUND).into();
        };
        let mut held = held_layer::from_bytes(bytes);
        let turned = Calls::turn(self, &mut held, report);
        if turned.served != NONE_SERVED {
            write_turn(bytes, &turned, &held);
        }
        assert_holds(bytes, &held);
        turned.into()
    }
}

/// What a call writes into the memory of a layer leads to the layer that it left.
fn assert_holds(bytes: &[u8; LAYER_BYTES], left: &Layer) {
    let held = held_layer::from_bytes(bytes);
    assert!(held == *left, "the memory holds another layer");
}

/// A turn that served none.
pub fn served_none(number: u8) -> Turned {
    Turned {
        number,
        done: 0,
        written: 0,
        served: NONE_SERVED,
    }
}

/// The reference.
pub struct Reference;

impl Calls for Reference {
    fn run(&self, messages: &[u8], report: &mut [u8]) -> Returned {
        reference::run(messages, report)
    }

    fn feed(&self, main: &[u8], spare: &[u8], report: &mut [u8]) -> Returned {
        reference::feed(main, spare, report)
    }

    fn message(&self, venue: &Venue, before: u32, message: &[u8], report: &mut [u8]) -> Returned {
        reference::one_message(venue, before, message, report)
    }

    fn settings(&self, venue: &Venue, number: u32) -> Option<[u8; SETTINGS_BYTES]> {
        let told = reference::settings(venue, number)?;
        let [a, b, c, d, e, f, g, h] = told.increments;
        Some([a, b, c, d, e, f, g, h, told.percent])
    }

    fn write_set(&self, venue: &Venue, number: u32, set: &mut [u8]) -> (u8, usize) {
        let wrote = reference::write_set(venue, number, set);
        (wrote.number, wrote.written)
    }

    fn read_set(&self, set: &[u8]) -> (u8, Venue, u32) {
        let read = reference::read_set(set);
        (read.number, read.venue, read.message)
    }

    fn arrive(&self, layer: &mut Layer, venue: u32, message: &[u8]) -> u8 {
        reference::arrive(layer, venue, message)
    }

    fn turn(&self, layer: &mut Layer, report: &mut [u8]) -> Turned {
        reference::turn(layer, report)
    }
}
