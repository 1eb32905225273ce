//! A set, taken apart: first into records, then into its parts, then into a venue.

use super::{is_carried, SetRead, NO_SET, UNSOUND};
use crate::types::{Complex, Edition, Legging, Listed, Regular, Venue, PERCENT};
use crate::types::{CEILING, COMPLEX_PLACES, EDITION_PLACES, LEGGING_PLACES};
use crate::types::{REGULAR_PLACES, SERIES};
use crate::wire::{valid_leg, valid_series};

/// Reads a set, whole or short; what is no set comes before what is wrong in its venue.
pub fn read_set(memory: &[u8]) -> SetRead {
    let records = records_in(memory);
    let Some(parts) = records.as_deref().and_then(Parts::of) else {
        return refused(NO_SET);
    };
    let message = parts.first.u32(4);
    match parts.venue() {
        Some(venue) if is_carried(&venue, message) => SetRead {
            number: 0,
            venue,
            message,
        },
        _ => refused(UNSOUND),
    }
}

fn refused(number: u8) -> SetRead {
    SetRead {
        number,
        venue: Venue::fresh(),
        message: 0,
    }
}

/// The bytes of a record whose length is its kind's.
#[derive(Clone, Copy)]
struct Record<'a>(&'a [u8]);

impl Record<'_> {
    fn kind(self) -> u16 {
        u16::from_le_bytes([self.0[2], self.0[3]])
    }

    fn u8(self, at: usize) -> u8 {
        self.0[at]
    }

    fn u32(self, at: usize) -> u32 {
        u32::from_le_bytes([self.0[at], self.0[at + 1], self.0[at + 2], self.0[at + 3]])
    }

    fn i32(self, at: usize) -> i32 {
        self.u32(at) as i32
    }

    /// The place of a legging order, of any series and side.
    fn place(self) -> usize {
        2 * usize::from(self.u8(8)) + usize::from(self.u8(9))
    }
}

fn length_of(kind: u16) -> Option<usize> {
    match kind {
        1 | 82 => Some(18),
        2 => Some(21),
        4 | 8 => Some(13),
        5 => Some(6),
        7 => Some(14),
        9 => Some(22),
        10 => Some(23),
        80 | 81 => Some(12),
        83 => Some(9),
        84 => Some(8),
        _ => None,
    }
}

/// The records up to a zero length, one last zero byte or the memory's end; nothing where
/// one is torn, or of a kind or length that no set has.
fn records_in(memory: &[u8]) -> Option<Vec<Record<'_>>> {
    let mut records = Vec::new();
    let mut rest = memory;
    loop {
        match rest {
            [] | [0] | [0, 0, ..] => return Some(records),
            _ => {}
        }
        let head = rest.first_chunk::<4>()?;
        let length = usize::from(u16::from_le_bytes([head[0], head[1]]));
        let kind = u16::from_le_bytes([head[2], head[3]]);
        if length_of(kind) != Some(length) {
            return None;
        }
        let (record, after) = rest.split_at_checked(length)?;
        records.push(Record(record));
        rest = after;
    }
}

/// The records of a set by its parts.
struct Parts<'a> {
    first: Record<'a>,
    /// Two of each series.
    series: &'a [Record<'a>],
    editions: &'a [Record<'a>],
    orders: &'a [Record<'a>],
    legging: &'a [Record<'a>],
    generations: &'a [Record<'a>],
    reached: &'a [Record<'a>],
}

impl<'a> Parts<'a> {
    /// The parts of a row of records that is a set; nothing where one is missing, out of
    /// order, one too many or of a kind that this set has not.
    fn of(records: &'a [Record<'a>]) -> Option<Self> {
        let (first, rest) = records.split_first()?;
        let whole = match first.kind() {
            80 => true,
            81 => false,
            _ => return None,
        };
        let (series, mut rest) = rest.split_at_checked(2 * SERIES)?;
        let mut take = |kinds: &[u16]| {
            let count = rest
                .iter()
                .take_while(|record| kinds.contains(&record.kind()));
            let (part, after) = rest.split_at(count.count());
            rest = after;
            part
        };
        let only_whole = |kinds: &'static [u16]| if whole { kinds } else { &[] };
        let parts = Parts {
            first: *first,
            series,
            editions: take(only_whole(&[7, 8])),
            orders: take(if whole { &[9, 2, 10] } else { &[1, 2, 10] }),
            legging: take(&[82]),
            generations: take(only_whole(&[83])),
            reached: take(only_whole(&[84])),
        };
        let is_set = rest.is_empty() && parts.are_in_order() && parts.are_few_enough();
        is_set.then_some(parts)
    }

    fn are_in_order(&self) -> bool {
        let in_turn = (0..).zip(self.series.chunks(2)).all(|(series, pair)| {
            let kinds = pair.iter().map(|record| record.kind());
            kinds.eq([5, 4]) && pair.iter().all(|record| record.u8(4) == series)
        });
        let oldest_first = |record: &Record| (record.u8(4), record.u32(5));
        in_turn
            && rises(self.editions, |record| edition_of(*record))
            && rises(self.orders, |record| record.u32(4))
            && rises(self.legging, |record| record.place())
            && self.generations.is_sorted_by_key(oldest_first)
    }

    fn are_few_enough(&self) -> bool {
        let regular = self.orders.iter().filter(|record| is_regular(record));
        let regular = regular.count();
        let by_series = self.generations.chunk_by(|a, b| a.u8(4) == b.u8(4));
        self.editions.len() <= EDITION_PLACES
            && regular <= REGULAR_PLACES
            && self.orders.len() - regular <= COMPLEX_PLACES
            && self.legging.len() <= LEGGING_PLACES
            && by_series.into_iter().all(|told| told.len() <= CEILING)
            && self.reached.len() <= 1
    }

    /// The venue that the set tells, sound or not; nothing where a record tells what no
    /// venue has a place for.
    fn venue(&self) -> Option<Venue> {
        let mut venue = Venue {
            last: self.first.u32(8),
            ..Venue::fresh()
        };
        for (listed, pair) in venue.series.iter_mut().zip(self.series.chunks(2)) {
            *listed = Listed {
                status: pair[0].u8(5),
                bid: pair[1].u32(5),
                offer: pair[1].u32(9),
            };
        }
        for (place, record) in venue.editions.iter_mut().zip(self.editions) {
            *place = edition_in(*record)?;
        }
        let of_kinds = |regular| {
            let orders = self.orders.iter();
            orders.filter(move |record| is_regular(record) == regular)
        };
        for (place, record) in venue.regular.iter_mut().zip(of_kinds(true)) {
            *place = regular_in(*record)?;
        }
        for (place, record) in venue.complex.iter_mut().zip(of_kinds(false)) {
            *place = complex_in(*record)?;
        }
        for record in self.legging {
            venue.legging[leg_of(*record)?] = legging_in(*record)?;
        }
        for told in self.generations.chunk_by(|a, b| a.u8(4) == b.u8(4)) {
            let row = venue.generations.get_mut(usize::from(told[0].u8(4)))?;
            for (place, record) in row[CEILING - told.len()..].iter_mut().zip(told) {
                *place = above_0(record.u32(5))?;
            }
        }
        if let [record] = self.reached {
            venue.reached = above_0(record.u32(4))?;
        }
        Some(venue)
    }
}

fn rises<Mark: PartialOrd>(records: &[Record], mark: impl Fn(&Record) -> Mark) -> bool {
    records.is_sorted_by(|a, b| mark(a) < mark(b))
}

fn is_regular(record: &Record) -> bool {
    matches!(record.kind(), 1 | 9)
}

fn above_0(number: u32) -> Option<u32> {
    (number > 0).then_some(number)
}

/// The edition of a kind 7 or 8, and after it the message that entered it.
fn edition_of(record: Record) -> u32 {
    record.u32(edition_at(record))
}

fn edition_at(record: Record) -> usize {
    if record.kind() == 7 {
        6
    } else {
        5
    }
}

fn edition_in(record: Record) -> Option<Edition> {
    let (figure, value) = match record.kind() {
        7 => (record.u8(4), record.u8(5)),
        _ => (PERCENT, record.u8(4)),
    };
    let has_place = record.kind() == 8 || valid_series(figure);
    has_place.then_some(Edition {
        edition: above_0(edition_of(record))?,
        number: record.u32(edition_at(record) + 4),
        figure,
        value,
    })
}

/// An order of kind 9 with what it shows; one of kind 1 shows all.
fn regular_in(record: Record) -> Option<Regular> {
    let quantity = above_0(record.u32(14))?;
    let display = match record.kind() {
        9 => record.u32(18),
        _ => quantity,
    };
    Some(Regular {
        id: record.u32(4),
        series: record.u8(8),
        side: record.u8(9),
        price: record.u32(10),
        quantity,
        reserve: quantity.saturating_sub(display),
        display,
    })
}

/// An order of kind 2, or of kind 10 with unequal ratios.
fn complex_in(record: Record) -> Option<Complex> {
    let (ratio1, ratio2) = match record.kind() {
        10 => (record.u8(21), record.u8(22)),
        _ => (1, 1),
    };
    if record.kind() == 10 && ratio1 == ratio2 {
        return None;
    }
    Some(Complex {
        id: record.u32(4),
        series1: record.u8(8),
        side1: record.u8(9),
        series2: record.u8(10),
        side2: record.u8(11),
        class: record.u8(12),
        limit: record.i32(13),
        quantity: above_0(record.u32(17))?,
        ratio1,
        ratio2,
    })
}

/// The place of a legging order whose series and side are in range.
fn leg_of(record: Record) -> Option<usize> {
    valid_leg(record.u8(8), record.u8(9)).then(|| record.place())
}

fn legging_in(record: Record) -> Option<Legging> {
    Some(Legging {
        parent: record.u32(4),
        price: record.u32(10),
        quantity: above_0(record.u32(14))?,
    })
}
