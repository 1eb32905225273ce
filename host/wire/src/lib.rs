//! Messages and records of the legging order engine as typed values, to and from their
//! bytes. A host encodes [`Message`]s for a call, and reads the [`Record`]s of its report
//! memory with [`records`].

#![forbid(unsafe_code)]
#![deny(missing_docs)]

#[macro_use]
mod fields;
pub mod message;
pub mod record;

pub use message::{Away, Cancel, Increment, Leg, LimitedSweep, Message, NewComplex, NewOrder};
pub use message::{Percent, Status};
pub use record::{records, Answer, BadRecord, Cancelled, Cross, Generated, Looked, Pair, Record};
pub use record::{Records, Removed, Trade};
