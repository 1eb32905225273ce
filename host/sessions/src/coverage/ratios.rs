//! Orders of unequal ratios: what they are refused for, cross, touch and leg in for.

use super::{Coverage, Rare};
use crate::check::{Seen, Step};
use crate::message::Message;
use crate::model::{only_ratios_are_out, ShortOfUnit};
use crate::record::{Cross, Record};
use crate::view::{find_complex, has_ratios, held_complex, held_regular, legs_of, opposite};
use crate::view::{ratios_of, side_of};
use reference::{Complex, Venue};

impl Coverage {
    /// Orders of kind 10 as they come and are cancelled.
    pub(super) fn observe_ratios(&mut self, step: &Step) {
        let number = step.returned.number;
        match step.message {
            Message::Complex(order) if order.ratios.is_some() => {
                let out = only_ratios_are_out(step.message);
                self.add(Rare::RatiosRefused, number == 4 && out);
                let closed = |series: u8| step.before.series[usize::from(series)].status == 0;
                let mut legs = order.legs.iter();
                let others = order.id <= step.before.last
                    || legs.any(|leg| leg.series <= 7 && closed(leg.series))
                    || held_complex(step.before).count() == 32;
                self.add(Rare::EqualBeforeOthers, number == 14 && others);
                let beyond = order.limit.abs_diff(0) > 200_000;
                self.add(Rare::LimitOfRatios, number == 0 && beyond);
            }
            Message::Cancel(cancel) => {
                let order = find_complex(step.before, cancel.id);
                self.add(Rare::UnitsCancelled, order.is_some_and(has_ratios));
            }
            _ => {}
        }
    }

    /// What an accepted message did with orders of unequal ratios.
    pub(super) fn observe_units(&mut self, step: &Step, seen: &Seen) {
        let swept = step.message.is_sweep();
        for record in step.records {
            match *record {
                Record::Pair(pair) if of_ratios(step, pair.id) => {
                    self.add(Rare::PairOfUnits, true);
                    self.add(Rare::UnitsInSweep, swept);
                }
                Record::Cross(Cross { taker, maker, .. }) if of_ratios(step, maker) => {
                    let named = (first_series(step, taker), first_series(step, maker));
                    self.add(Rare::CrossOfUnits, true);
                    self.add(Rare::CrossNamedOtherwise, named.0 != named.1);
                }
                _ => {}
            }
        }
        for short in &seen.short {
            let pairs = pairs_of(step, short.id);
            self.add(Rare::ShortAtOnce, pairs == 0);
            self.add(Rare::ShortAfterPair, pairs > 0);
            let reserve = reserve_would_do(&step.returned.venue, short);
            self.add(Rare::ShortOfShown, reserve);
        }
        for passed in &seen.above {
            self.add(Rare::UnitsAboveLegs, of_ratios(step, passed.maker));
        }
        self.observe_arrived(step);
    }

    /// The touch, the rounds and the crosses not made of an arriving order.
    fn observe_arrived(&mut self, step: &Step) {
        let Message::Complex(order) = step.message else {
            return;
        };
        self.add(Rare::OtherRatios, meets_other_ratios(step, order.id));
        if order.ratios.is_none() {
            return;
        }
        let removed = |by: u8| {
            let at = |record: &Record| matches!(record, Record::Removed(gone) if gone.cause == by);
            step.records.iter().any(at)
        };
        let pairs = pairs_of(step, order.id);
        self.add(Rare::TouchOfUnits, removed(8));
        self.add(Rare::TouchShortThenPair, removed(10) && pairs > 0);
        self.add(Rare::RoundsOfUnits, pairs > 1);
    }
}

/// The order with an id, as it rested or came.
fn order_of(step: &Step, id: u32) -> Option<([u8; 2], u8)> {
    if let Some(order) = find_complex(step.before, id) {
        return Some((ratios_of(order), order.series1));
    }
    match step.message {
        Message::Complex(came) if came.id == id => Some((came.unit(), came.legs[0].series)),
        _ => None,
    }
}

fn of_ratios(step: &Step, id: u32) -> bool {
    order_of(step, id).is_some_and(|(ratios, _)| ratios != [1, 1])
}

fn first_series(step: &Step, id: u32) -> Option<u8> {
    order_of(step, id).map(|(_, series)| series)
}

fn pairs_of(step: &Step, order: u32) -> usize {
    let of = |record: &&Record| matches!(record, Record::Pair(pair) if pair.id == order);
    step.records.iter().filter(of).count()
}

/// Whether reserve at a price makes up for what is not shown of a unit.
fn reserve_would_do(after: &Venue, short: &ShortOfUnit) -> bool {
    let taken = opposite(short.leg);
    let at_price = held_regular(after)
        .filter(|order| side_of(order) == taken && i64::from(order.price) == short.level.price);
    let left: i64 = at_price.map(|order| i64::from(order.quantity)).sum();
    left >= short.ratio
}

/// Whether an arriving order that rests meets one with each side reversed, whose limit
/// meets its own, but with other ratios.
fn meets_other_ratios(step: &Step, id: u32) -> bool {
    let after = &step.returned.venue;
    let Some(taker) = find_complex(after, id) else {
        return false;
    };
    let [first, second] = legs_of(taker).map(opposite);
    let other = |maker: &Complex| {
        let legs = legs_of(maker);
        let [ratio1, ratio2] = ratios_of(taker);
        let same = (legs == [first, second] && ratios_of(maker) == [ratio1, ratio2])
            || (legs == [second, first] && ratios_of(maker) == [ratio2, ratio1]);
        let reversed = legs == [first, second] || legs == [second, first];
        reversed && !same && taker.limit + maker.limit >= 0
    };
    held_complex(after).any(other)
}
