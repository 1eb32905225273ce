//! Soundness of a venue, tested while it is laid out for a call.

use crate::books::{Books, Standing};
use crate::legging::Verdict;
use crate::price::{
    better, facing, place, places, valid_limit, valid_price, valid_quantity, valid_ratio,
    valid_regular_price, valid_shown, valid_unequal_limit, Place,
};
use crate::settings::held_editions;
use crate::types::{Complex, Legging, Listed, Regular, Settings, Venue};
use crate::types::{BUY, LEGGING_PLACES, OTHER, SERIES};
use crate::wire::{valid_away, valid_leg, valid_status};

/// Whether a one-message call takes this venue.
pub fn is_sound(venue: &Venue) -> bool {
    lay_out(venue).is_some()
}

/// The state of a sound venue; nothing if the venue is unsound.
pub fn lay_out(venue: &Venue) -> Option<Books> {
    let mut books = Books::fresh();
    books.last = venue.last;
    books.editions = held_editions(&venue.editions)?.to_vec();
    books.settings = Settings::at(&books.editions, u32::MAX);
    books.generations = venue.generations;
    books.reached = venue.reached;
    let settings = &books.settings;
    let regular = held(&venue.regular, venue.last, settings)?;
    let complex = held(&venue.complex, venue.last, settings)?;
    books.add_regular(regular);
    complex.iter().for_each(|order| books.add_complex(order));
    lay_out_series(&mut books, &venue.series)?;
    lay_out_legging(&mut books, &venue.legging)?;
    let sound = venue.reached <= venue.last
        && venue.generations.iter().all(|last| last.is_sorted())
        && ids_are_distinct(venue)
        && !is_locked_or_crossed(&books)
        && places(books.filled).all(|place| books.verdict(place) == Verdict::Stands);
    sound.then_some(books)
}

/// An order as it rests: the two books are read alike.
trait Rests: Copy + Default + PartialEq {
    fn id(&self) -> u32;
    fn quantity(&self) -> u32;
    /// Whether its fields are in range, by the settings in force.
    fn is_valid(&self, settings: &Settings) -> bool;
}

impl Rests for Regular {
    fn id(&self) -> u32 {
        self.id
    }

    fn quantity(&self) -> u32 {
        self.quantity
    }

    fn is_valid(&self, settings: &Settings) -> bool {
        valid_leg(self.series, self.side)
            && valid_regular_price(self.price, settings.increments[usize::from(self.series)])
            && valid_quantity(self.quantity)
            && valid_shown(self.display, self.quantity)
            && self.reserve == self.quantity - self.display
    }
}

impl Rests for Complex {
    fn id(&self) -> u32 {
        self.id
    }

    fn quantity(&self) -> u32 {
        self.quantity
    }

    fn is_valid(&self, _: &Settings) -> bool {
        valid_leg(self.series1, self.side1)
            && valid_leg(self.series2, self.side2)
            && self.series1 != self.series2
            && self.class <= OTHER
            && valid_ratios_at_rest(self)
            && valid_quantity(self.quantity)
    }
}

/// 1 and 1 with the limit of kind 2, or unequal ratios with that of kind 10.
fn valid_ratios_at_rest(order: &Complex) -> bool {
    match (order.ratio1, order.ratio2) {
        (1, 1) => valid_limit(order.limit),
        (first, second) => {
            first != second
                && valid_ratio(first)
                && valid_ratio(second)
                && valid_unequal_limit(order.limit)
        }
    }
}

/// The orders held in a book: first, valid, in rising id up to the last; the
/// free places after them all zero.
fn held<'a, Order: Rests>(
    orders: &'a [Order],
    last: u32,
    settings: &Settings,
) -> Option<&'a [Order]> {
    let count = orders.iter().position(|order| order.quantity() == 0);
    let (held, free) = orders.split_at(count.unwrap_or(orders.len()));
    let mut before = 0;
    let valid = held.iter().all(|order| {
        let rises = order.id() > before;
        before = order.id();
        rises && order.is_valid(settings)
    });
    let sound = valid && before <= last && free.iter().all(|order| *order == Order::default());
    sound.then_some(held)
}

fn lay_out_series(books: &mut Books, series: &[Listed; SERIES]) -> Option<()> {
    books.series = *series;
    series
        .iter()
        .all(|listed| {
            valid_status(listed.status) && valid_away(listed.bid) && valid_away(listed.offer)
        })
        .then_some(())
}

fn lay_out_legging(books: &mut Books, orders: &[Legging; LEGGING_PLACES]) -> Option<()> {
    for (place, order) in orders.iter().enumerate() {
        if *order == Legging::default() {
            continue;
        }
        books.standing[place] = standing_of(books, place, order)?;
        books.filled |= 1 << place;
    }
    Some(())
}

/// The legging order with its parent's leg, if it matches one; an order of unequal
/// ratios has no legging order.
fn standing_of(books: &Books, place: Place, order: &Legging) -> Option<Standing> {
    let parent = &books.complex[books.complex_index(order.parent)?];
    if !parent.legs.is_even() {
        return None;
    }
    let other = match parent.legs.places {
        [leg, other] if leg == place => other,
        [other, leg] if leg == place => other,
        _ => return None,
    };
    let valid = valid_price(order.price) && order.quantity > 0 && order.quantity <= parent.quantity;
    valid.then_some(Standing {
        parent: order.parent,
        price: order.price,
        quantity: order.quantity,
        other,
        limit: parent.limit,
        class: parent.class,
    })
}

/// Both lists rise, so one pass over them finds an id held by both.
fn ids_are_distinct(venue: &Venue) -> bool {
    let mut regular = venue.regular.iter().map(|order| order.id).peekable();
    let complex = venue.complex.iter().map(|order| order.id);
    for id in complex.take_while(|id| *id > 0) {
        while regular.next_if(|other| *other > 0 && *other < id).is_some() {}
        if regular.peek() == Some(&id) {
            return false;
        }
    }
    true
}

/// Whether in some series the best own prices of both sides meet.
fn is_locked_or_crossed(books: &Books) -> bool {
    (0..SERIES as u8).any(|series| {
        let bids = place(series, BUY);
        match (books.best_own(bids), books.best_own(facing(bids))) {
            (Some(bid), Some(offer)) => !better(bids, offer, bid),
            _ => false,
        }
    })
}
