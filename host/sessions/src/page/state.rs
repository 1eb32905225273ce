//! The books of a venue as a page shows them, with every figure that a page tells of them.

use super::json::Json;
use crate::causes::{hider, BandTest, Standing};
use crate::conditions::Conditions;
use crate::message::Leg;
use crate::settings::Figure;
use crate::view::{find_complex, held_complex, held_regular, leg_at, legs_of, shown, View};
use reference::{Complex, Legging, Regular, Venue};

/// The books after a message; the conditions of generation are those that the message with
/// this number, the next one, would be asked with.
pub fn state(venue: &Venue, next: u32) -> Json {
    let books = Books {
        venue,
        view: View::of(venue),
        next,
    };
    let series = (0..8).map(|series| books.series(series));
    let sides = (0..16).map(|place| books.side(leg_at(place)));
    let complex = held_complex(venue).map(|order| books.complex(order));
    let legs = held_complex(venue).map(|order| books.legs(order));
    let legging = (0..16).filter_map(|place| books.legging(place));
    Json::keyed([
        ("series", Json::list(series)),
        ("sides", Json::list(sides)),
        ("percent", figure(books.view.in_force.percent())),
        ("orders", Json::keyed(held_regular(venue).map(order))),
        ("complex", Json::keyed(complex)),
        ("legs", Json::keyed(legs)),
        ("legging", Json::keyed(legging)),
        ("last", Json::number(venue.last)),
        ("reached", Json::number(venue.reached)),
    ])
}

/// The value, the edition that set it and the message that entered the edition.
fn figure(figure: Figure) -> Json {
    Json::numbers([u32::from(figure.value), figure.edition, figure.number])
}

/// Its series, side and price, what it shows and its reserve.
fn order(order: &Regular) -> (u32, Json) {
    let Regular {
        series,
        side,
        price,
        reserve,
        ..
    } = *order;
    let fields = [
        u32::from(series),
        u32::from(side),
        price,
        shown(order),
        reserve,
    ];
    (order.id, Json::numbers(fields))
}

struct Books<'a> {
    venue: &'a Venue,
    view: View,
    next: u32,
}

impl Books<'_> {
    /// Status, away bid and offer; the increment with its edition and message; how many
    /// generations count for the ceiling, and the message of the first of them.
    fn series(&self, series: u8) -> Json {
        let listed = self.venue.series[usize::from(series)];
        let increment = self.view.in_force.increment(series);
        let mut recent = self.view.recent(self.next, series);
        let first = recent.next();
        let count = recent.count() as u32 + u32::from(first.is_some());
        Json::numbers([
            u32::from(listed.status),
            listed.bid,
            listed.offer,
            u32::from(increment.value),
            increment.edition,
            increment.number,
            count,
            first.unwrap_or(0),
        ])
    }

    /// The best regular price and its size; the best own price; whose legging order hides
    /// the best regular price, so that it is not clear.
    fn side(&self, side: Leg) -> Json {
        let best = self.view.best(side);
        Json::list([
            Json::maybe(best.map(|level| level.price)),
            Json::maybe(best.map(|level| level.size)),
            Json::maybe(self.view.best_own(side)),
            Json::maybe(hider(&self.view, side).map(|order| order.parent)),
        ])
    }

    /// Series and side of each leg, class, N, what is open, the ratios; O, the highest net
    /// in band, and the market bests that the legs would take.
    fn complex(&self, order: &Complex) -> (u32, Json) {
        let band = BandTest::of(&self.view, order);
        let legs = legs_of(order).into_iter();
        let legs = legs.flat_map(|leg| [leg.series, leg.side].map(Json::number));
        let order_fields = [
            Json::number(order.class),
            Json::number(order.limit),
            Json::number(order.quantity),
            Json::number(order.ratio1),
            Json::number(order.ratio2),
            Json::maybe(band.market),
            Json::maybe(band.highest()),
        ];
        let bests = band.bests.map(|(_, best)| Json::maybe(best));
        let fields = legs.chain(order_fields).chain(bests);
        (order.id, Json::list(fields))
    }

    fn legs(&self, order: &Complex) -> (u32, Json) {
        let leg = |which| leg(&self.view.conditions(self.next, self.venue, order, which));
        (order.id, Json::list([leg(0), leg(1)]))
    }

    /// Its parent, price, displayed price and quantity; a letter for each condition of the
    /// standing test, in the rank of its causes (1, 5, 2, 6), 1 where it holds; the net with
    /// the other leg's clear price.
    fn legging(&self, place: usize) -> Option<(usize, Json)> {
        let leg = leg_at(place);
        let Legging { parent, .. } = self.view.standing(leg)?;
        let test = Standing::of(&self.view, leg, find_complex(self.venue, parent)?)?;
        let failing = test.failing();
        let letter = |cause: &u8| if failing.contains(cause) { '0' } else { '1' };
        let fields = [
            Json::number(parent),
            Json::number(test.order.price),
            Json::number(test.book.displayed),
            Json::number(test.order.quantity),
            Json::Text([1, 5, 2, 6].iter().map(letter).collect()),
            Json::maybe(test.other.net),
        ];
        Some((place, Json::list(fields)))
    }
}

/// A letter for each condition (1 holds, 0 fails, - not asked); price, displayed price and
/// quantity; the legging order that would fail its test.
fn leg(conditions: &Conditions) -> Json {
    let answers = conditions.answers.iter().map(|answer| match answer {
        Some(Ok(())) => '1',
        Some(Err(_)) => '0',
        None => '-',
    });
    let offered = conditions.offered;
    Json::list([
        Json::Text(answers.collect()),
        Json::maybe(offered.map(|offered| offered.price)),
        Json::maybe(offered.map(|offered| offered.displayed)),
        Json::maybe(offered.map(|offered| offered.quantity)),
        Json::maybe(conditions.made_to_fail()),
    ])
}
