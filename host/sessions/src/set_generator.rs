//! Sets to be read: as they are written, short ones, and spoiled in every way.

use crate::message::{Leg, Message, NewComplex, NewOrder, Percent};
use crate::random::Random;
use crate::set::{split_set, Entry};
use reference::{write_set, Venue, MOST_SET};

/// The set of a venue; nothing where writing refuses it.
pub fn set_of(venue: &Venue, number: u32) -> Option<Vec<u8>> {
    let mut memory = vec![0; MOST_SET];
    let wrote = write_set(venue, number, &mut memory);
    memory.truncate(wrote.written);
    (wrote.number == 0).then_some(memory)
}

/// The records of a set.
pub fn entries(set: &[u8]) -> Vec<Entry> {
    let records = split_set(set);
    records.iter().map(|record| Entry::decode(record)).collect()
}

pub fn bytes_of(entries: &[Entry]) -> Vec<u8> {
    entries.iter().flat_map(Entry::encode).collect()
}

/// The short set of what a set tells: edition 0, all size shown, none generated. Its
/// venue may be unsound then.
pub fn short_of(set: &[u8]) -> Vec<u8> {
    let shortened = entries(set).into_iter().filter_map(|entry| match entry {
        Entry::First { message, last, .. } => Some(Entry::First {
            short: true,
            message,
            last,
        }),
        Entry::Setting { .. } | Entry::Generated { .. } | Entry::Reached { .. } => None,
        Entry::Told(Message::Order(order)) => Some(Entry::Told(Message::Order(NewOrder {
            shows: None,
            ..order
        }))),
        other => Some(other),
    });
    bytes_of(&shortened.collect::<Vec<_>>())
}

/// The parts of a set whose number is limited.
#[derive(Clone, Copy, Debug, PartialEq, Eq)]
pub enum Many {
    Editions,
    Regular,
    Complex,
    Legging,
    /// Of this series, in range or not.
    Generations(u8),
    Reached,
}

impl Many {
    pub const ALL: [Many; 8] = [
        Many::Editions,
        Many::Regular,
        Many::Complex,
        Many::Legging,
        Many::Generations(0),
        Many::Generations(7),
        Many::Generations(9),
        Many::Reached,
    ];

    /// As many as a set may have.
    pub fn most(self) -> usize {
        match self {
            Many::Editions | Many::Complex => 32,
            Many::Regular => 128,
            Many::Legging => 16,
            Many::Generations(_) => 20,
            Many::Reached => 1,
        }
    }

    fn has(self, entry: &Entry) -> bool {
        match (self, entry) {
            (Many::Editions, Entry::Setting { .. }) => true,
            (Many::Regular, Entry::Told(Message::Order(_))) => true,
            (Many::Complex, Entry::Told(Message::Complex(_))) => true,
            (Many::Legging, Entry::Legging { .. }) => true,
            (Many::Generations(of), Entry::Generated { series, .. }) => of == *series,
            (Many::Reached, Entry::Reached { .. }) => true,
            _ => false,
        }
    }

    /// One of so many, with fields that rise.
    fn one(self, at: u32) -> Entry {
        let leg = |place: u32| Leg {
            series: (place / 2) as u8,
            side: (place % 2) as u8,
        };
        match self {
            Many::Editions => Entry::Setting {
                setting: Message::Percent(Percent {
                    percent: 5,
                    edition: at + 1,
                }),
                number: at + 1,
            },
            Many::Regular => Entry::Told(Message::Order(NewOrder {
                id: 3 * at + 1,
                leg: leg(0),
                price: 5,
                quantity: 1,
                shows: Some(1),
            })),
            Many::Complex => Entry::Told(Message::Complex(NewComplex {
                id: 3 * at + 2,
                legs: [leg(0), leg(2)],
                class: 1,
                limit: 0,
                quantity: 1,
                ratios: None,
            })),
            Many::Legging => Entry::Legging {
                id: 1,
                leg: leg(at),
                price: 5,
                quantity: 1,
            },
            Many::Generations(series) => Entry::Generated { series, number: 7 },
            Many::Reached => Entry::Reached { id: 1 },
        }
    }
}

/// A set with so many records of a part instead of its own; orders are of that book alone,
/// by rising id.
pub fn with_many(set: &[u8], part: Many, count: usize) -> Vec<u8> {
    let orders = |many| matches!(many, Many::Regular | Many::Complex);
    let is_of = |entry: &Entry| {
        part.has(entry) || orders(part) && (Many::Regular.has(entry) || Many::Complex.has(entry))
    };
    let mut kept: Vec<Entry> = entries(set);
    kept.retain(|entry| !is_of(entry));
    let at = kept.iter().position(|entry| comes_after(part, entry));
    let at = at.unwrap_or(kept.len());
    let many = (0..count as u32).map(|index| part.one(index));
    kept.splice(at..at, many);
    bytes_of(&kept)
}

/// Whether a record of a set comes after a part.
fn comes_after(part: Many, entry: &Entry) -> bool {
    let rank = |entry: &Entry| match entry {
        Entry::First { .. } => 0,
        Entry::Setting { .. } => 2,
        Entry::Told(Message::Order(_) | Message::Complex(_)) => 3,
        Entry::Told(_) => 1,
        Entry::Legging { .. } => 4,
        Entry::Generated { .. } => 5,
        Entry::Reached { .. } => 6,
        Entry::Raw(_) => 7,
    };
    match (part, entry) {
        (Many::Generations(of), Entry::Generated { series, .. }) => *series > of,
        _ => rank(entry) > rank(&part.one(0)),
    }
}

/// A set spoiled in one way, with its name.
pub fn spoiled(set: &[u8], random: &mut Random) -> (&'static str, Vec<u8>) {
    let records: Vec<Vec<u8>> = split_set(set).into_iter().map(<[u8]>::to_vec).collect();
    match random.below(12) {
        0 => ("cut", set[..below(random, set.len())].to_vec()),
        1 => {
            let mut cut = set[..below(random, set.len())].to_vec();
            cut.resize(set.len() + below(random, 9), 0);
            ("cut, with zeros after", cut)
        }
        2 => ("a byte changed", with_byte(set, random)),
        3 => ("a field changed", with_field(records, random)),
        4 | 5 => ("records moved", moved(records, random)),
        6 => ("one of many", {
            let part = random.pick(&Many::ALL);
            let more = random.between(-1, 1) as isize;
            with_many(set, part, part.most().saturating_add_signed(more))
        }),
        7 => ("another kind", with_kind(records, random)),
        8 => ("another first record", with_first(records, random)),
        9 => ("bytes after it", [set, &ending(random)].concat()),
        10 => ("a short set of it", spoiled_short(set, random)),
        _ => ("a record of another set", with_entry(records, random)),
    }
}

fn below(random: &mut Random, bound: usize) -> usize {
    random.below(bound.max(1) as u64) as usize
}

fn with_byte(set: &[u8], random: &mut Random) -> Vec<u8> {
    let mut changed = set.to_vec();
    let at = below(random, changed.len());
    if let Some(byte) = changed.get_mut(at) {
        *byte = random.pick(&[0, 1, byte.wrapping_add(1), byte.wrapping_sub(1), 255]);
    }
    changed
}

/// A number of four bytes in a record changed, near it or odd.
fn with_field(mut records: Vec<Vec<u8>>, random: &mut Random) -> Vec<u8> {
    let at = below(random, records.len());
    if let Some(record) = records.get_mut(at).filter(|record| record.len() >= 8) {
        let field = 4 + below(random, record.len() - 7);
        let four: [u8; 4] = std::array::from_fn(|offset| record[field + offset]);
        let value = u32::from_le_bytes(four);
        let near = value.wrapping_add(random.between(-2, 2) as u32);
        let odd = random.pick(&[0, 1, 5, 10_001, 100_001, near, near, u32::MAX]);
        record[field..field + 4].copy_from_slice(&odd.to_le_bytes());
    }
    records.concat()
}

/// A record doubled, missing, moved elsewhere, or exchanged with another.
fn moved(mut records: Vec<Vec<u8>>, random: &mut Random) -> Vec<u8> {
    // The records after the series are moved more often than those.
    let from = match records.len() {
        18.. if random.chance(70) => 17,
        _ => 0,
    };
    let drawn = |random: &mut Random| from + below(random, records.len() - from);
    let (at, to) = (drawn(random), drawn(random));
    match random.below(5) {
        0 => records.insert(at, records[at].clone()),
        1 => drop(records.remove(at)),
        2 => {
            let record = records.remove(at);
            records.insert(to.min(records.len()), record);
        }
        3 => records.swap(at, to),
        _ => {
            let next = (at + 1).min(records.len() - 1);
            records.swap(at, next);
        }
    }
    records.concat()
}

/// A record of another kind or length: its own length, or that of the kind.
fn with_kind(mut records: Vec<Vec<u8>>, random: &mut Random) -> Vec<u8> {
    let at = below(random, records.len());
    let kind = random.pick(&[
        0, 1, 2, 3, 4, 5, 6, 7, 8, 9, 10, 11, 64, 79, 80, 81, 82, 83, 84, 85,
    ]);
    let record = &mut records[at];
    match random.below(3) {
        0 => record[2] = kind,
        1 => {
            let other = [18, 21, 13, 6, 14, 22, 23, 12, 9, 8, 4, 5];
            record.resize(random.pick(&other), 1);
            (record[0], record[2]) = (record.len() as u8, kind);
        }
        _ => record[0] = record[0].wrapping_add(random.between(-8, 8) as u8),
    }
    records.concat()
}

/// Another message number or last id, or the first record of the other set.
fn with_first(mut records: Vec<Vec<u8>>, random: &mut Random) -> Vec<u8> {
    let Entry::First {
        short,
        message,
        last,
    } = Entry::decode(&records[0])
    else {
        return records.concat();
    };
    let near = |number: u32, random: &mut Random| {
        number.saturating_sub(random.below(1 + u64::from(number.min(300))) as u32)
    };
    let (short, message, last) = match random.below(4) {
        0 => (!short, message, last),
        1 => (short, near(message, random), last),
        2 => (short, message, near(last, random)),
        _ => (short, message.saturating_add(1), last.saturating_add(1)),
    };
    let first = Entry::First {
        short,
        message,
        last,
    };
    records[0] = first.encode();
    records.concat()
}

/// What may stand after a set: an end, or no end.
fn ending(random: &mut Random) -> Vec<u8> {
    let length = below(random, 30);
    let junk: Vec<u8> = (0..length).map(|_| random.below(9) as u8).collect();
    match random.below(4) {
        0 => vec![0; length],
        1 => [&[0, 0][..], &junk].concat(),
        2 => vec![random.below(3) as u8],
        _ => junk,
    }
}

/// The short set of it, or that with one of the records that it lacks.
fn spoiled_short(set: &[u8], random: &mut Random) -> Vec<u8> {
    let short = short_of(set);
    if random.chance(40) {
        return short;
    }
    let whole = entries(set);
    let mut told = entries(&short);
    let from = below(random, whole.len());
    let to = below(random, told.len() + 1);
    told.insert(to, whole[from].clone());
    bytes_of(&told)
}

/// A record of a part more, anywhere among its own or elsewhere.
fn with_entry(mut records: Vec<Vec<u8>>, random: &mut Random) -> Vec<u8> {
    let part = random.pick(&Many::ALL);
    let entry = part.one(random.below(40) as u32).encode();
    let at = below(random, records.len() + 1);
    records.insert(at, entry);
    records.concat()
}
