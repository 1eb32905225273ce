//! Changes to a sound venue, most of which make it unsound.

use crate::random::Random;
use crate::settings::held_editions;
use reference::{Complex, Legging, Regular, Venue};

/// A copy of a venue with one thing changed at random.
pub fn corrupt(venue: &Venue, random: &mut Random) -> Venue {
    let mut changed = venue.clone();
    match random.below(7) {
        0 => corrupt_regular(&mut changed, random),
        1 => corrupt_complex(&mut changed, random),
        2 => corrupt_legging(&mut changed, random),
        3 => corrupt_series(&mut changed, random),
        4 => corrupt_editions(&mut changed, random),
        5 => corrupt_generations(&mut changed, random),
        _ => corrupt_order(&mut changed, random),
    }
    changed
}

fn odd_number(random: &mut Random) -> u32 {
    random.pick(&[
        0,
        1,
        2,
        3,
        5,
        8,
        10,
        113,
        10_001,
        100_000,
        100_001,
        u32::MAX,
    ])
}

fn corrupt_regular(venue: &mut Venue, random: &mut Random) {
    let held = venue.regular.iter().filter(|order| order.id > 0).count();
    let at = random.below(held as u64 + 1).min(127) as usize;
    let order = &mut venue.regular[at];
    match random.below(10) {
        0 => order.id = odd_number(random),
        1 => order.series = random.below(10) as u8,
        2 => order.side = random.below(4) as u8,
        3 => order.price = odd_number(random),
        4 => order.quantity = odd_number(random),
        5 => order.reserve = odd_number(random),
        6 => order.display = odd_number(random),
        7 => order.reserve = order.reserve.wrapping_add(random.between(-1, 1) as u32),
        8 => {
            order.quantity = odd_number(random);
            order.display = order.quantity.wrapping_sub(order.reserve);
        }
        _ => {
            order.display = random.below(u64::from(order.quantity) + 2) as u32;
            order.reserve = order.quantity.wrapping_sub(order.display);
        }
    }
}

fn corrupt_complex(venue: &mut Venue, random: &mut Random) {
    let held = venue.complex.iter().filter(|order| order.id > 0).count();
    let at = random.below(held as u64 + 1).min(31) as usize;
    let order = &mut venue.complex[at];
    match random.below(11) {
        0 => order.id = odd_number(random),
        1 => order.series1 = random.below(10) as u8,
        2 => order.side1 = random.below(4) as u8,
        3 => order.series2 = random.below(10) as u8,
        4 => order.side2 = random.below(4) as u8,
        5 => order.class = random.below(4) as u8,
        6 => order.limit = random.pick(&[-200_001, -200_000, 0, 200_000, 200_001, i32::MIN]),
        7 => order.ratio1 = random.below(6) as u8,
        8 => order.ratio2 = random.below(6) as u8,
        9 => {
            (order.ratio1, order.ratio2) = (random.between(0, 4) as u8, random.between(0, 4) as u8);
            order.limit = random.pick(&[-600_001, -600_000, 0, 200_001, 600_000, 600_001]);
        }
        _ => order.quantity = odd_number(random),
    }
}

fn corrupt_legging(venue: &mut Venue, random: &mut Random) {
    let filled: Vec<usize> = (0..16)
        .filter(|place| venue.legging[*place].quantity > 0)
        .collect();
    let any = random.below(16) as usize;
    let at = if filled.is_empty() || random.chance(20) {
        any
    } else {
        random.pick(&filled)
    };
    let order = &mut venue.legging[at];
    match random.below(7) {
        0 => order.parent = odd_number(random),
        1 => order.price = odd_number(random),
        2 => order.quantity = odd_number(random),
        3 => order.price = order.price.wrapping_add(random.between(-6, 6) as u32),
        4 => order.quantity = order.quantity.wrapping_add(random.between(-1, 2) as u32),
        5 => *order = Legging::default(),
        _ => venue.legging.swap(at, any),
    }
}

fn corrupt_series(venue: &mut Venue, random: &mut Random) {
    let series = &mut venue.series[random.below(8) as usize];
    match random.below(3) {
        0 => series.status = random.below(5) as u8,
        1 => series.bid = odd_number(random),
        _ => series.offer = odd_number(random),
    }
}

/// Another field in a held edition or the first free place: the row may be broken,
/// or sound with other settings in force.
fn corrupt_editions(venue: &mut Venue, random: &mut Random) {
    let held = held_editions(venue).count();
    let at = random.below(held as u64 + 1).min(31) as usize;
    let entry = &mut venue.editions[at];
    match random.below(6) {
        0 => entry.edition = odd_number(random),
        1 => entry.number = odd_number(random),
        2 => entry.figure = random.below(11) as u8,
        3 => entry.value = random.pick(&[0, 1, 2, 5, 10, 11, 50, 51, 255]),
        4 => entry.edition = entry.edition.wrapping_add(random.between(-1, 2) as u32),
        _ => entry.number = entry.number.wrapping_add(random.between(-1, 2) as u32),
    }
}

/// Another number in a row of generations, near those there, or another id reached.
fn corrupt_generations(venue: &mut Venue, random: &mut Random) {
    let row = &mut venue.generations[random.below(8) as usize];
    let at = random.pick(&[0, 1, 10, 17, 18, 19]);
    match random.below(6) {
        0 => row[at] = odd_number(random),
        1 | 2 => row[at] = row[at].wrapping_add(random.between(-1, 2) as u32),
        3 => row.swap(18, at),
        4 => venue.reached = odd_number(random),
        _ => venue.reached = venue.last.wrapping_add(random.between(-1, 1) as u32),
    }
}

/// Changes that touch several orders: places, ids and sizes.
fn corrupt_order(venue: &mut Venue, random: &mut Random) {
    match random.below(6) {
        0 => venue.last = venue.last.saturating_sub(random.below(20) as u32),
        1 => venue.regular.swap(0, 1),
        2 => venue.complex.swap(0, 1),
        3 => venue.regular[0] = Regular::default(),
        4 => venue.complex[0] = Complex::default(),
        _ => venue.complex[0].id = venue.regular[0].id,
    }
}
