//! The legging order engine, written from documents 01 and 02 alone.
//!
//! It shares nothing with the proved engine: it is what that engine is compared
//! with, and the baseline for its speed. [`run`] takes a whole message list from
//! a fresh venue; [`one_message`] takes one message upon a venue held by value;
//! [`feed`] runs the messages that come over two lines; [`arrive`] and [`turn`] are the
//! calls of four venues behind one line. After each call the report memory is the
//! records, then zeros to its end. [`settings`] tells what held at a message number.
//! [`write_set`] and [`read_set`] carry a venue and its message number over an upgrade.

#![forbid(unsafe_code)]

mod book;
mod books;
mod calls;
mod feed;
mod layer;
mod legging;
mod matching;
mod price;
mod set;
mod settings;
mod sound;
mod types;
mod wire;

pub use calls::{one_message, run, settings};
pub use feed::feed;
pub use layer::{arrive, turn, Lane, Layer, Turned};
pub use layer::{MOST_MESSAGE, MOST_WAITING, NONE_SERVED, VENUES};
pub use set::{read_set, write_set, SetRead, SetWritten, MOST_SET};
pub use sound::is_sound;
pub use types::*;
