//! Sessions of the legging order engine: messages as text and bytes, records and
//! sheets, random sessions, and checks written apart from the reference.

#![forbid(unsafe_code)]

pub mod asked;
pub mod audit;
pub mod audit_lines;
pub mod broken;
pub mod causes;
pub mod check;
pub mod checked_file;
pub mod conditions;
pub mod corrupt;
pub mod counted;
pub mod coverage;
pub mod driver;
pub mod engine;
pub mod explain;
pub mod feed;
pub mod feed_check;
pub mod feed_generator;
pub mod follow;
pub mod generator;
pub mod held;
pub mod held_layer;
pub mod json;
pub mod layer_check;
pub mod layer_generator;
pub mod ledger;
pub mod lent;
pub mod line;
pub mod model;
pub mod moments;
pub mod page;
pub mod pairs;
pub mod phases;
pub mod plain;
pub mod play;
pub mod profile;
pub mod progress;
pub mod random;
pub mod ranges;
pub mod replay;
pub mod scripts;
pub mod set;
pub mod set_check;
pub mod set_generator;
pub mod set_reader;
pub mod settings;
pub mod sha256;
pub mod sheet;
pub mod sheet_lines;
pub mod short;
pub mod soak;
pub mod sound;
pub mod stream;
pub mod takings;
pub mod text;
pub mod traffic;
pub mod view;

pub use wire::{message, record};
