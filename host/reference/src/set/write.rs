//! The records of a set, in their order.

use super::{is_carried, SetWritten, SHORT_MEMORY, UNSOUND};
use crate::types::{Complex, Edition, Regular, Venue, PERCENT};

/// Writes a venue and the number of its last message; zeros follow the set. Refused, the
/// memory is all zero.
pub fn write_set(venue: &Venue, number: u32, memory: &mut [u8]) -> SetWritten {
    memory.fill(0);
    if !is_carried(venue, number) {
        return refused(UNSOUND);
    }
    let set = set_of(venue, number);
    let Some(room) = memory.get_mut(..set.len()) else {
        return refused(SHORT_MEMORY);
    };
    room.copy_from_slice(&set);
    SetWritten {
        number: 0,
        written: set.len(),
    }
}

fn refused(number: u8) -> SetWritten {
    SetWritten { number, written: 0 }
}

fn set_of(venue: &Venue, number: u32) -> Vec<u8> {
    let mut set = record(80, &[&le(number), &le(venue.last)]);
    for (series, listed) in (0..).zip(&venue.series) {
        set.extend(record(5, &[&[series, listed.status]]));
        set.extend(record(4, &[&[series], &le(listed.bid), &le(listed.offer)]));
    }
    let editions = venue.editions.iter().take_while(|entry| entry.edition > 0);
    set.extend(editions.flat_map(edition_record));
    set.extend(order_records(venue));
    for (place, order) in (0..).zip(&venue.legging) {
        if order.quantity > 0 {
            let leg: [u8; 2] = [place / 2, place % 2];
            let (price, quantity) = (le(order.price), le(order.quantity));
            set.extend(record(82, &[&le(order.parent), &leg, &price, &quantity]));
        }
    }
    for (series, numbers) in (0..).zip(&venue.generations) {
        let told = numbers.iter().filter(|number| **number > 0);
        set.extend(told.flat_map(|number| record(83, &[&[series], &le(*number)])));
    }
    if venue.reached > 0 {
        set.extend(record(84, &[&le(venue.reached)]));
    }
    set
}

fn edition_record(entry: &Edition) -> Vec<u8> {
    let (edition, number) = (le(entry.edition), le(entry.number));
    match entry.figure {
        PERCENT => record(8, &[&[entry.value], &edition, &number]),
        series => record(7, &[&[series, entry.value], &edition, &number]),
    }
}

/// The resting orders of both books by rising id.
fn order_records(venue: &Venue) -> Vec<u8> {
    let regular = venue.regular.iter().take_while(|order| order.quantity > 0);
    let complex = venue.complex.iter().take_while(|order| order.quantity > 0);
    let mut records: Vec<(u32, Vec<u8>)> = regular
        .map(|order| (order.id, regular_record(order)))
        .chain(complex.map(|order| (order.id, complex_record(order))))
        .collect();
    records.sort_by_key(|(id, _)| *id);
    records.into_iter().flat_map(|(_, record)| record).collect()
}

fn regular_record(order: &Regular) -> Vec<u8> {
    let leg = [order.series, order.side];
    let (price, quantity, shown) = (le(order.price), le(order.quantity), le(order.display));
    record(9, &[&le(order.id), &leg, &price, &quantity, &shown])
}

fn complex_record(order: &Complex) -> Vec<u8> {
    let legs = [order.series1, order.side1, order.series2, order.side2];
    let (limit, quantity) = (order.limit.to_le_bytes(), le(order.quantity));
    let (id, class, ratios) = (le(order.id), [order.class], [order.ratio1, order.ratio2]);
    match ratios {
        [1, 1] => record(2, &[&id, &legs, &class, &limit, &quantity]),
        _ => record(10, &[&id, &legs, &class, &limit, &quantity, &ratios]),
    }
}

fn le(number: u32) -> [u8; 4] {
    number.to_le_bytes()
}

/// A record: its length, its kind, its fields.
fn record(kind: u16, fields: &[&[u8]]) -> Vec<u8> {
    let fields = fields.concat();
    let length = 4 + fields.len() as u16;
    [&length.to_le_bytes()[..], &kind.to_le_bytes(), &fields].concat()
}
