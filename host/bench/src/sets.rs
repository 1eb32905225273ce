//! Sets: a venue and its message number written as records and read back, upon venues
//! from fresh to full.

use crate::clock::Clock;
use crate::layers::{Case, Layer};
use crate::race::{Both, Times};
use crate::runs::cells;
use crate::table::{header, number, row};
use crate::Options;
use legging::{VenueBytes, SET_BYTES, VENUE_BYTES};
use reference::Venue;
use sessions::held::to_bytes;
use sessions::sheet::run_whole;
use sessions::text::encode_session;
use std::hint::black_box;

/// Calls timed together.
const CALLS: usize = 8;

/// A venue in both forms, how many messages were done upon it, and its set.
struct Carried {
    name: String,
    venue: Venue,
    held: VenueBytes,
    done: u32,
    set: Vec<u8>,
}

impl Carried {
    /// The venue that a message list leaves; both must write and read the same of it.
    fn new(name: String, messages: &[u8]) -> Result<Self, String> {
        let (left, _) = run_whole(messages);
        let mut set = vec![0; SET_BYTES];
        let written = reference::write_set(&left.venue, left.done, &mut set).written;
        set.truncate(written);
        let carried = Carried {
            name,
            held: VenueBytes::from_bytes(to_bytes(&left.venue)),
            venue: left.venue,
            done: left.done,
            set,
        };
        match carried.is_written() && carried.is_read() {
            true => Ok(carried),
            false => Err("engine and reference do not agree on a set to be timed".to_string()),
        }
    }

    /// Both write the set, and zeros after it.
    fn is_written(&self) -> bool {
        let mut expected = vec![0xC3; SET_BYTES];
        let wrote = reference::write_set(&self.venue, self.done, &mut expected);
        let mut memory = vec![0xC3; SET_BYTES];
        let told = legging::write_set(&self.held, self.done, &mut memory);
        wrote.number == 0 && told == Ok(wrote.written) && memory == expected
    }

    /// Both read the venue and its number from the set.
    fn is_read(&self) -> bool {
        let read = reference::read_set(&self.set);
        let told = legging::read_set(&self.set);
        (read.number, &read.venue, read.message) == (0, &self.venue, self.done)
            && told == Ok((self.held.clone(), self.done))
    }
}

/// What all calls share: the clock, and the memory that they are lent.
struct Track {
    clock: Clock,
    set: Vec<u8>,
    venue: [u8; VENUE_BYTES],
}

/// The time of a call by one contender.
type Timed = fn(&mut Track, &Carried) -> f64;

const WRITE: Both<Timed> = Both {
    engine: Track::engine_writes,
    reference: Track::reference_writes,
};

const READ: Both<Timed> = Both {
    engine: Track::engine_reads,
    reference: Track::reference_reads,
};

impl Track {
    fn new() -> Self {
        Track {
            clock: Clock::new(),
            set: vec![0; SET_BYTES],
            venue: [0; VENUE_BYTES],
        }
    }

    fn engine_writes(&mut self, carried: &Carried) -> f64 {
        let (set, mut written) = (&mut self.set, [0; 4]);
        let time = self.clock.time(|| {
            for _ in 0..CALLS {
                let venue = black_box(carried.held.as_bytes());
                let _ = black_box(legging::write_set_in(
                    venue,
                    carried.done,
                    set,
                    &mut written,
                ));
            }
        });
        time / CALLS as f64
    }

    fn reference_writes(&mut self, carried: &Carried) -> f64 {
        let set = &mut self.set;
        let time = self.clock.time(|| {
            for _ in 0..CALLS {
                let venue = black_box(&carried.venue);
                black_box(reference::write_set(venue, carried.done, set));
            }
        });
        time / CALLS as f64
    }

    fn engine_reads(&mut self, carried: &Carried) -> f64 {
        let (venue, mut done) = (&mut self.venue, [0; 4]);
        let time = self.clock.time(|| {
            for _ in 0..CALLS {
                let set = black_box(&carried.set[..]);
                let _ = black_box(legging::read_set_in(set, venue, &mut done));
            }
        });
        time / CALLS as f64
    }

    fn reference_reads(&mut self, carried: &Carried) -> f64 {
        let time = self.clock.time(|| {
            for _ in 0..CALLS {
                black_box(reference::read_set(black_box(&carried.set)));
            }
        });
        time / CALLS as f64
    }

    /// Both; who is first changes from round to round.
    fn race(&mut self, call: &Both<Timed>, carried: &Carried, round: usize) -> Both<f64> {
        if round.is_multiple_of(2) {
            let engine = (call.engine)(self, carried);
            let reference = (call.reference)(self, carried);
            return Both { engine, reference };
        }
        let reference = (call.reference)(self, carried);
        let engine = (call.engine)(self, carried);
        Both { engine, reference }
    }

    /// The times of writing and of reading each set.
    fn times(&mut self, all: &[Carried], rounds: usize) -> Vec<[Both<Times>; 2]> {
        let mut times = vec![<[Both<Times>; 2]>::default(); all.len()];
        for round in 0..rounds {
            for (carried, [write, read]) in all.iter().zip(&mut times) {
                write.add(self.race(&WRITE, carried, round));
                read.add(self.race(&READ, carried, round));
            }
        }
        times
    }
}

/// A complex order of two legs on one side, in text.
fn complex(id: u32, side: &str, first: u32, second: u32) -> String {
    let net = if side == "buy" { 200 } else { -200 };
    let legs = format!("{side} {first} {side} {}", second % 8);
    format!("complex {id} {legs} class 1 net {net} quantity 10\n")
}

/// The messages of a venue with no place free: 32 editions, 128 regular and 32 complex
/// orders, a legging order on both sides of all series, 20 generations of each, and an id
/// reached. Offers are at 130 and bids at 70, so that complex orders of net 200 generate
/// at the best prices, beside which both sides stay clear.
fn full() -> Result<Vec<u8>, String> {
    let editions = (1..=32).map(|edition| format!("percent 5 {edition}\n"));
    let quotes = (0..128).map(|index| {
        let (id, series) = (index + 1, index / 2 % 8);
        let (side, price) = [("buy", 70), ("sell", 130)][index % 2];
        format!("order {id} {side} 100 series {series} at {price}\n")
    });
    let generations = (0..80).map(|index| {
        let (id, first) = (129 + index, index % 4 * 2);
        format!("{}cancel {id}\n", complex(id, "buy", first, first + 1))
    });
    // After so many messages what was generated counts towards no ceiling.
    let refused = "raw 04 00 63 00\n".repeat(256);
    let orders = (0..32).map(|index| {
        let side = if index < 16 { "buy" } else { "sell" };
        complex(209 + index, side, index % 8, index % 8 + index / 8 + 1)
    });
    let before = editions.chain(quotes).chain(generations);
    let after = orders.chain(["limited 1\n".to_string()]);
    let text: String = before.chain([refused]).chain(after).collect();
    encode_session(&text).map_err(|error| error.to_string())
}

/// A fresh venue, books of 8, 32 and 128 regular orders, and a full venue.
fn all_carried() -> Result<Vec<Carried>, String> {
    let mut all = vec![Carried::new("fresh".to_string(), &[])?];
    for book in [8, 32, 128] {
        let case = Case::new(Layer::Generates, book, 1);
        all.push(Carried::new(format!("{book} orders"), &case.prefix)?);
    }
    all.push(Carried::new("full".to_string(), &full()?)?);
    Ok(all)
}

/// Writing and reading the set of each venue. The last column leaves out what the fresh
/// venue's takes too: where it stays the same, the time is linear.
pub fn venues(options: &Options) -> Result<String, String> {
    let mut table = header(&[
        "venue",
        "bytes",
        "write: engine",
        "reference",
        "ratio",
        "read: engine",
        "reference",
        "ratio",
        "engine, for a byte",
        "for one more than fresh",
    ]);
    let all = all_carried()?;
    let times = Track::new().times(&all, 4 * options.rounds);
    let mut fresh = None;
    for (carried, [write, read]) in all.iter().zip(times) {
        let (bytes, least) = (carried.set.len() as f64, read.least().engine);
        let mut line = vec![carried.name.clone(), number(bytes)];
        line.extend(cells(&write));
        line.extend(cells(&read));
        line.push(format!("{:.2}", least / bytes));
        line.push(match fresh {
            Some((fewest, first)) => format!("{:.2}", (least - first) / (bytes - fewest)),
            None => "-".to_string(),
        });
        table += &row(&line);
        fresh = fresh.or(Some((bytes, least)));
    }
    Ok(table)
}

#[cfg(test)]
mod tests {
    use super::*;

    #[test]
    fn the_sets_are_as_long_as_their_venues_say() {
        let all = all_carried().expect("both agree");
        let lengths: Vec<usize> = all.iter().map(|carried| carried.set.len()).collect();
        let (fresh, generations) = (12 + 8 * 19, 8 * 20 * 9);
        let full = fresh + 32 * 13 + 128 * 22 + 32 * 21 + 16 * 18 + generations + 8;
        let books = [8, 32, 128].map(|book| fresh + book * 22);
        assert_eq!(lengths, [&[fresh][..], &books, &[full]].concat());
    }
}
