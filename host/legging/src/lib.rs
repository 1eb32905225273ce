//! The legging order engine for Rust hosts: a safe wrapper over the archives that `rt lib`
//! writes for the crate c_api_c and, for four venues behind one line, for dispatch_c.
//!
//! A host holds a [`Venue`] and hands it one [`Message`] after another; a [`Set`] carries
//! it over an upgrade, and a [`Layer`] is four venues behind one line. After a call
//! [`records`] reads the report memory record by record. [`run`] takes a whole message
//! list from a fresh venue, and [`feed`] one that comes over two lines. The other
//! functions are the same calls upon bytes that the host holds itself.
//!
//! After a call the report memory is the records done, then zeros to its end; what it held
//! before is not read. A call keeps nothing, allocates nothing and shares no state with
//! another, so calls may run on any number of threads at once. The methods of [`Venue`] and
//! [`Layer`] allocate the message's bytes, and those of [`Set`] the set's.
//!
//! The bytes of messages and records are told in `include/legging.h`.
//!
//! ```
//! use legging::{records, Leg, Message, NewComplex, NewOrder, Number, Record, Venue, MOST_BYTES};
//!
//! let sell = |id, series, price, quantity| {
//!     let (leg, shows) = (Leg { series, side: 1 }, None);
//!     Message::Order(NewOrder { id, leg, price, quantity, shows })
//! };
//! let buy_both = Message::Complex(NewComplex {
//!     id: 3,
//!     legs: [Leg { series: 0, side: 0 }, Leg { series: 1, side: 0 }],
//!     class: 1,
//!     limit: 205,
//!     quantity: 8,
//!     ratios: None,
//! });
//! let mut venue = Venue::fresh();
//! let mut report = [0; MOST_BYTES];
//! for message in [sell(1, 0, 130, 15), sell(2, 1, 90, 12), buy_both] {
//!     venue.take(&message, &mut report).ok()?;
//! }
//! // The complex order is shown in both books.
//! assert_eq!(venue.bytes().legging_orders().count(), 2);
//! venue.take(&sell(4, 0, 115, 5), &mut report).ok()?;
//! let traded = records(&report).filter_map(|record| match record {
//!     Ok(Record::Trade(trade)) => Some((trade.series, trade.price, trade.quantity)),
//!     _ => None,
//! });
//! assert!(traded.eq([(0, 115, 5), (1, 90, 5)]));
//! # Ok::<(), Number>(())
//! ```

#![deny(missing_docs)]

mod archive;
pub mod c;
mod layer;
mod number;
mod set;
mod settings;
mod venue;

pub use archive::{arrive, arrive_in, layer_fresh_in, turn, turn_in};
pub use archive::{feed, fresh_in, one_message, one_message_in, run, settings_in};
pub use archive::{read_set_in, write_set_in};
pub use layer::{Layer, LayerBytes, Turned, LAYER_BYTES, MOST_MESSAGE, MOST_WAITING, VENUES};
pub use number::Number;
pub use set::{read_set, write_set, Set, SET_BYTES};
pub use settings::{settings, Settings, SETTINGS_BYTES};
pub use venue::{ComplexOrder, Edition, LeggingOrder, RegularOrder, Series};
pub use venue::{Venue, VenueBytes, VENUE_BYTES};
pub use wire::message::{encode_all, Away, Cancel, Increment, Leg, LimitedSweep, Message};
pub use wire::message::{NewComplex, NewOrder, Percent, Status};
pub use wire::record::{records, Answer, BadRecord, Cancelled, Cross, Generated, Looked};
pub use wire::record::{Pair, Record, Records, Removed, Trade};

/// No message upon a sound venue writes more bytes.
pub const MOST_BYTES: usize = 10_433;
