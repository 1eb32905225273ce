//! Rows of editions and generations, orders and ratios that are not sound, one of each
//! kind, and some that are.

use crate::settings::{held_editions, InForce, PERCENT};
use crate::sound::fault;
use crate::view::{has_ratios, held_complex, held_regular, legs_of, place_of};
use reference::{Complex, Edition, Legging, Regular, Venue};

/// Editions that leave every setting as it is, until a venue holds so many.
pub fn with_editions(venue: &Venue, least: usize) -> Venue {
    let mut longer = venue.clone();
    let percent = InForce::of(venue).percent().value;
    while held_editions(&longer).count() < least && append(&mut longer, PERCENT, percent) {}
    longer
}

/// One edition more, just above the last; false where there is no room for it.
fn append(venue: &mut Venue, figure: u8, value: u8) -> bool {
    let held = held_editions(venue).count();
    let last = held.checked_sub(1).map(|at| venue.editions[at]);
    let last = last.unwrap_or_default();
    let next = last.edition.checked_add(1).zip(last.number.checked_add(1));
    let (Some(place), Some((edition, number))) = (venue.editions.get_mut(held), next) else {
        return false;
    };
    *place = Edition {
        edition,
        number,
        figure,
        value,
    };
    true
}

type Change = (&'static str, fn(&mut [Edition], usize));

/// Changes to the edition at a place that is held and has one before it.
const CHANGES: [Change; 18] = [
    ("the first edition 0", |row, _| row[0].edition = 0),
    ("the first number 0", |row, _| row[0].number = 0),
    ("a gap", |row, at| row[at - 1] = Edition::default()),
    ("edition 0", |row, at| row[at].edition = 0),
    ("edition equal", |row, at| {
        row[at].edition = row[at - 1].edition
    }),
    ("edition falls", |row, at| {
        row[at].edition = row[at - 1].edition - 1
    }),
    ("number 0", |row, at| row[at].number = 0),
    ("number equal", |row, at| {
        row[at].number = row[at - 1].number
    }),
    ("number falls", |row, at| {
        row[at].number = row[at - 1].number - 1
    }),
    ("two exchanged", |row, at| row.swap(at - 1, at)),
    ("figure 9", |row, at| row[at].figure = 9),
    ("figure 255", |row, at| row[at].figure = 255),
    ("increment 0", |row, at| set(row, at, 0, 0)),
    ("increment 2", |row, at| set(row, at, 7, 2)),
    ("increment 11", |row, at| set(row, at, 3, 11)),
    ("increment 255", |row, at| set(row, at, 5, 255)),
    ("percentage 51", |row, at| set(row, at, PERCENT, 51)),
    ("percentage 255", |row, at| set(row, at, PERCENT, 255)),
];

fn set(row: &mut [Edition], at: usize, figure: u8, value: u8) {
    (row[at].figure, row[at].value) = (figure, value);
}

type FreeChange = (&'static str, fn(&mut Edition));

/// Changes to a free place.
const FREE: [FreeChange; 4] = [
    ("a free place with an edition", |entry| {
        entry.edition = u32::MAX
    }),
    ("a free place with a number", |entry| entry.number = 1),
    ("a free place with a figure", |entry| entry.figure = PERCENT),
    ("a free place with a value", |entry| entry.value = 5),
];

/// The venue with its row broken in every way that its editions leave room for,
/// each by its name. The place that is changed is drawn by `at`.
pub fn broken_rows(venue: &Venue, at: usize) -> Vec<(&'static str, Venue)> {
    let venue = with_editions(venue, 3);
    let held = held_editions(&venue).count();
    let mut broken = Vec::new();
    let mut add = |name, change: &dyn Fn(&mut Venue)| {
        let mut changed = venue.clone();
        change(&mut changed);
        broken.push((name, changed));
    };
    if held > 1 {
        let place = 1 + at % (held - 1);
        for (name, change) in CHANGES {
            add(name, &|venue| change(&mut venue.editions, place));
        }
    }
    if held < venue.editions.len() {
        let place = held + at % (venue.editions.len() - held);
        for (name, change) in FREE {
            add(name, &|venue| change(&mut venue.editions[place]));
        }
    }
    broken.extend(off_increment(&venue));
    broken
}

/// An increment that a resting price is off, where there is one and room for it.
fn off_increment(venue: &Venue) -> Option<(&'static str, Venue)> {
    let mut resting = venue.regular.iter().filter(|order| order.quantity > 0);
    let (series, increment) = resting.find_map(|order| match order.price % 10 {
        0 => None,
        5 => Some((order.series, 10)),
        _ => Some((order.series, 5)),
    })?;
    let mut changed = venue.clone();
    append(&mut changed, series, increment).then_some(("a price off the increment", changed))
}

/// The venue with shown quantities drawn by `at`; without its legging orders where they
/// would not stand upon what is shown then.
pub fn with_reserve(venue: &Venue, at: usize) -> Venue {
    let mut changed = venue.clone();
    for (place, order) in changed.regular.iter_mut().enumerate() {
        if order.quantity == 0 {
            break;
        }
        let drawn = (at + 1) * (place + 7) % order.quantity as usize;
        order.display = 1 + drawn as u32;
        order.reserve = order.quantity - order.display;
    }
    if fault(&changed).is_some() {
        changed.legging = Default::default();
    }
    changed
}

type OrderChange = (&'static str, fn(&mut Regular));

/// Changes to an order that rests, whatever it shows.
const SHOWN: [OrderChange; 14] = [
    ("display 0", |order| order.display = 0),
    ("all in reserve", |order| {
        (order.reserve, order.display) = (order.quantity, 0)
    }),
    ("display above what is left", |order| {
        order.display = order.quantity + 1
    }),
    ("display above what is left, and reserve below 0", |order| {
        (order.reserve, order.display) = (u32::MAX, order.quantity + 1)
    }),
    ("display at the end of its width", |order| {
        order.display = u32::MAX
    }),
    ("display one more", |order| order.display += 1),
    ("display one less", |order| order.display -= 1),
    ("reserve one more", |order| order.reserve += 1),
    ("reserve one less", |order| {
        order.reserve = order.reserve.wrapping_sub(1)
    }),
    ("all that is left in reserve beside a display", |order| {
        order.reserve = order.quantity
    }),
    ("reserve above what is left", |order| {
        order.reserve = order.quantity + 1
    }),
    ("reserve at the end of its width", |order| {
        order.reserve = u32::MAX
    }),
    ("quantity one more", |order| order.quantity += 1),
    ("quantity one less", |order| order.quantity -= 1),
];

/// Changes to a free place.
const FREE_ORDER: [OrderChange; 4] = [
    ("a free place with reserve", |order| order.reserve = 1),
    ("a free place with display", |order| order.display = 1),
    ("a free place with reserve and display", |order| {
        (order.reserve, order.display) = (u32::MAX, 1)
    }),
    ("a free place that shows", |order| {
        (order.reserve, order.display) = (5, 3)
    }),
];

/// The venue with what an order shows broken in every way, each by its name. The place
/// that is changed, and what the orders show before it, is drawn by `at`.
pub fn broken_orders(venue: &Venue, at: usize) -> Vec<(&'static str, Venue)> {
    let venue = with_reserve(venue, at);
    let held = held_regular(&venue).count();
    let free = venue.regular.len() - held;
    let mut broken = Vec::new();
    let mut add = |place: usize, (name, change): OrderChange| {
        let mut changed = venue.clone();
        change(&mut changed.regular[place]);
        broken.push((name, changed));
    };
    if held > 0 {
        SHOWN.into_iter().for_each(|change| add(at % held, change));
    }
    if free > 0 {
        let place = held + at % free;
        FREE_ORDER.into_iter().for_each(|change| add(place, change));
    }
    broken
}

/// The venue with ratios drawn by `at` for its complex orders without legging orders.
pub fn with_ratios(venue: &Venue, at: usize) -> Venue {
    const RATIOS: [[u8; 2]; 7] = [[1, 2], [3, 2], [1, 1], [2, 1], [1, 3], [2, 3], [3, 1]];
    let mut changed = venue.clone();
    for (place, order) in changed.complex.iter_mut().enumerate() {
        let stands = |made: &Legging| made.parent == order.id;
        let beyond = order.limit.abs_diff(0) > 200_000;
        if order.quantity > 0 && !beyond && !venue.legging.iter().any(stands) {
            [order.ratio1, order.ratio2] = RATIOS[(at + place) % RATIOS.len()];
        }
    }
    changed
}

type ComplexChange = (&'static str, fn(&mut Complex));

fn set_ratios(order: &mut Complex, ratio1: u8, ratio2: u8) {
    (order.ratio1, order.ratio2) = (ratio1, ratio2);
}

/// Changes to a complex order that rests, whatever its ratios.
const RATIO: [ComplexChange; 16] = [
    ("ratios 2 and 2", |order| set_ratios(order, 2, 2)),
    ("ratios 3 and 3", |order| set_ratios(order, 3, 3)),
    ("no ratios", |order| set_ratios(order, 0, 0)),
    ("first ratio 0", |order| order.ratio1 = 0),
    ("second ratio 0", |order| order.ratio2 = 0),
    ("first ratio 4", |order| order.ratio1 = 4),
    ("second ratio 4", |order| order.ratio2 = 4),
    ("ratios 4 and 4", |order| set_ratios(order, 4, 4)),
    ("first ratio at the end of its width", |order| {
        order.ratio1 = 255
    }),
    ("second ratio at the end of its width", |order| {
        order.ratio2 = 255
    }),
    ("limit above that of one against one", |order| {
        set_ratios(order, 1, 1);
        order.limit = 200_001;
    }),
    ("limit below that of one against one", |order| {
        set_ratios(order, 1, 1);
        order.limit = -200_001;
    }),
    ("limit above that of unequal ratios", |order| {
        set_ratios(order, 3, 2);
        order.limit = 600_001;
    }),
    ("limit below that of unequal ratios", |order| {
        set_ratios(order, 1, 3);
        order.limit = -600_001;
    }),
    ("limit at the end of its width", |order| {
        set_ratios(order, 2, 1);
        order.limit = i32::MIN;
    }),
    ("quantity above 10,000 units", |order| {
        set_ratios(order, 2, 3);
        order.quantity = 10_001;
    }),
];

/// Changes to a free place.
const FREE_RATIO: [ComplexChange; 3] = [
    ("a free place of ratios 1 and 1", |order| {
        set_ratios(order, 1, 1)
    }),
    ("a free place with a first ratio", |order| order.ratio1 = 2),
    ("a free place with a second ratio", |order| order.ratio2 = 1),
];

/// The venue with the ratios of a complex order broken in every way, each by its name.
/// The place that is changed, and the ratios before it, are drawn by `at`.
pub fn broken_ratios(venue: &Venue, at: usize) -> Vec<(&'static str, Venue)> {
    let venue = with_ratios(venue, at);
    let held = held_complex(&venue).count();
    let free = venue.complex.len() - held;
    let mut broken = Vec::new();
    let mut add = |place: usize, (name, change): ComplexChange| {
        let mut changed = venue.clone();
        change(&mut changed.complex[place]);
        broken.push((name, changed));
    };
    if held > 0 {
        RATIO.into_iter().for_each(|change| add(at % held, change));
    }
    if free > 0 {
        let place = held + at % free;
        FREE_RATIO.into_iter().for_each(|change| add(place, change));
    }
    broken.extend(made_of_ratios(&venue, at));
    broken.extend(parent_of_ratios(&venue, at));
    broken
}

/// A legging order put in the place of a leg of an order of unequal ratios.
fn made_of_ratios(venue: &Venue, at: usize) -> Option<(&'static str, Venue)> {
    let unequal: Vec<&Complex> = held_complex(venue)
        .filter(|order| has_ratios(order))
        .collect();
    let order = unequal.get(at % unequal.len().max(1))?;
    let mut changed = venue.clone();
    changed.legging[place_of(legs_of(order)[at % 2])] = Legging {
        parent: order.id,
        price: 100,
        quantity: 1,
    };
    Some(("a legging order of unequal ratios", changed))
}

/// Unequal ratios given to the parent of a legging order that stands.
fn parent_of_ratios(venue: &Venue, at: usize) -> Option<(&'static str, Venue)> {
    let parents: Vec<u32> = venue.legging.iter().map(|made| made.parent).collect();
    let mut changed = venue.clone();
    let mut held = changed.complex.iter_mut();
    let parent = held.find(|order| order.id > 0 && parents.contains(&order.id))?;
    [parent.ratio1, parent.ratio2] = if at.is_multiple_of(2) { [2, 1] } else { [1, 3] };
    Some(("unequal ratios above a legging order", changed))
}

/// The venue with generations drawn by `at` in each series, up to a message number: from 4
/// to 20 of them, two of each message.
pub fn with_generations(venue: &Venue, at: usize, last: u32) -> Venue {
    let mut changed = venue.clone();
    for (series, row) in changed.generations.iter_mut().enumerate() {
        let held = 20 - (at + 3 * series) % 17;
        *row = std::array::from_fn(|place| match (19 - place) as u32 {
            age if age < held as u32 => last - age / 2,
            _ => 0,
        });
    }
    changed
}

type RowChange = (&'static str, fn(&mut [u32; 20]));

/// Changes to a row of at least 4 generations, none of messages 0 to 9.
const ROW: [RowChange; 9] = [
    ("the last generation 0", |row| row[19] = 0),
    ("the last falls by one", |row| row[19] = row[18] - 1),
    ("the last 1", |row| row[19] = 1),
    ("two of different messages exchanged", |row| {
        row.swap(17, 18)
    }),
    ("a gap", |row| row[18] = 0),
    ("the first of all but the last 0", |row| {
        row[..19].fill(0);
        (row[18], row[19]) = (7, 0);
    }),
    ("one at the end of its width", |row| row[18] = u32::MAX),
    ("zeros after the first", |row| row[0] = row[19] + 1),
    ("the last alone, oldest", |row| {
        row[1..].fill(0);
        row[0] = 1;
    }),
];

/// The venue with a row of generations broken in every way, and with an id reached above
/// the last, each by its name. The series that is changed is drawn by `at`.
pub fn broken_generations(venue: &Venue, at: usize) -> Vec<(&'static str, Venue)> {
    let venue = with_generations(venue, at, 1_000_000);
    let mut broken = Vec::new();
    for (name, change) in ROW {
        let mut changed = venue.clone();
        change(&mut changed.generations[at % 8]);
        broken.push((name, changed));
    }
    let above = [venue.last.checked_add(1), Some(u32::MAX)];
    for reached in above.into_iter().flatten().filter(|id| *id > venue.last) {
        let mut changed = venue.clone();
        changed.reached = reached;
        broken.push(("an id reached above the last", changed));
    }
    broken
}

#[cfg(test)]
mod tests {
    use super::*;
    use crate::text::encode_session;
    use reference::{is_sound, run};

    fn venue_after(text: &str) -> Venue {
        run(&encode_session(text).unwrap(), &mut [0; 4096]).venue
    }

    #[test]
    fn each_broken_row_is_unsound_by_both_tests() {
        let text = "percent 5 3\npercent 50 9\norder 1 sell 5 series 0 at 115\n\
            close 6\nincrement 6 1 10\nopen 6\norder 2 buy 5 series 6 at 51\n";
        for venue in [Venue::fresh(), venue_after("sweep\n"), venue_after(text)] {
            assert!(is_sound(&venue));
            for at in 0..40 {
                for (name, broken) in broken_rows(&venue, at) {
                    assert!(fault(&broken).is_some(), "{name} at {at}");
                    assert!(!is_sound(&broken), "{name} at {at}");
                }
            }
        }
        let names = |text| broken_rows(&venue_after(text), 0).len();
        assert_eq!((names("sweep\n"), names(text)), (22, 23));
    }

    #[test]
    fn each_broken_order_is_unsound_by_both_tests() {
        let text = "order 1 sell 5 series 0 at 115\norder 2 sell 9 series 0 at 115 shows 4\n\
            order 3 sell 1 series 1 at 100\ncomplex 4 buy 0 buy 1 class 0 net 205 quantity 9\n";
        for venue in [Venue::fresh(), venue_after(text)] {
            assert!(is_sound(&venue));
            for at in 0..140 {
                let shown = with_reserve(&venue, at);
                assert!(is_sound(&shown) && fault(&shown).is_none(), "{at}");
                for (name, broken) in broken_orders(&venue, at) {
                    assert!(fault(&broken).is_some(), "{name} at {at}");
                    assert!(!is_sound(&broken), "{name} at {at}");
                }
            }
        }
        let names = |text| broken_orders(&venue_after(text), 0).len();
        assert_eq!((names("sweep\n"), names(text)), (4, 18));
    }

    #[test]
    fn each_broken_ratio_is_unsound_by_both_tests() {
        let text = "order 1 sell 15 series 0 at 130\norder 2 sell 12 series 1 at 90\n\
            complex 3 buy 0 buy 1 class 1 net 205 quantity 8\n\
            complex 4 buy 2 sell 3 class 0 net 9 quantity 9 ratio 3 2\n\
            complex 5 buy 2 sell 4 class 0 net 9 quantity 9\n\
            complex 6 buy 2 sell 4 class 0 net 500000 quantity 9 ratio 1 3\n";
        for venue in [Venue::fresh(), venue_after(text)] {
            assert!(is_sound(&venue));
            for at in 0..80 {
                let drawn = with_ratios(&venue, at);
                assert!(is_sound(&drawn) && fault(&drawn).is_none(), "{at}");
                for (name, broken) in broken_ratios(&venue, at) {
                    assert!(fault(&broken).is_some(), "{name} at {at}");
                    assert!(!is_sound(&broken), "{name} at {at}");
                }
            }
        }
        let names = |text| broken_ratios(&venue_after(text), 0).len();
        assert_eq!((names("sweep\n"), names(text)), (3, 21));
    }

    #[test]
    fn each_broken_row_of_generations_is_unsound_by_both_tests() {
        let text = "order 1 sell 15 series 0 at 130\norder 2 sell 12 series 1 at 90\n\
            complex 3 buy 0 buy 1 class 1 net 205 quantity 8\nlimited 1\n";
        for venue in [Venue::fresh(), venue_after(text)] {
            for at in 0..40 {
                for last in [10, 1_000, u32::MAX] {
                    let drawn = with_generations(&venue, at, last);
                    assert!(is_sound(&drawn) && fault(&drawn).is_none(), "{at}");
                }
                for (name, broken) in broken_generations(&venue, at) {
                    assert!(fault(&broken).is_some(), "{name} at {at}");
                    assert!(!is_sound(&broken), "{name} at {at}");
                }
            }
        }
        assert_eq!(broken_generations(&venue_after(text), 0).len(), 11);
    }

    #[test]
    fn editions_that_change_nothing_leave_a_venue_sound() {
        let venue = venue_after("percent 7 4294967200\n");
        for least in 0..40 {
            let longer = with_editions(&venue, least);
            assert_eq!(held_editions(&longer).count(), least.clamp(1, 32));
            assert!(is_sound(&longer) && fault(&longer).is_none());
            assert_eq!(InForce::of(&longer).values(), InForce::of(&venue).values());
        }
    }
}
