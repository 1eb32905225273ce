//! Orders with reserve: what they show, and what trades take of it.

use super::{Coverage, Rare};
use crate::check::Step;
use crate::message::{Leg, Message};
use crate::model::{only_shown_is_out, Turn};
use crate::phases::Phases;
use crate::record::{Generated, Record, Trade};
use crate::settings::InForce;
use crate::takings::{Maker, Takings};
use crate::view::{beats, find_complex, find_regular, held_regular, leg_at, legs_of, opposite};
use crate::view::{side_of, sign, Level};
use reference::Venue;

/// All that is left at a price of a side, shown and reserve.
fn left_at(venue: &Venue, side: Leg, price: i64) -> i64 {
    held_regular(venue)
        .filter(|order| side_of(order) == side && i64::from(order.price) == price)
        .map(|order| i64::from(order.quantity))
        .sum()
}

/// The side that the other leg would take.
fn taken_by_other(legs: [Leg; 2], leg: Leg) -> Leg {
    opposite(if legs[0] == leg { legs[1] } else { legs[0] })
}

impl Coverage {
    /// Orders of kind 9 as they come, are cancelled and run out of reserve.
    pub(super) fn observe_shown(&mut self, step: &Step) {
        let (number, after) = (step.returned.number, &step.returned.venue);
        match step.message {
            Message::Order(order) if order.shows.is_some() => {
                let quantity = order.quantity;
                let out = only_shown_is_out(step.message, &InForce::of(step.before));
                self.add(Rare::ShownRefused, number == 4 && out);
                self.add(Rare::ShowsAll, number == 0 && order.shown() == quantity);
                let rest = find_regular(after, order.id);
                let less = rest.is_some_and(|rest| rest.quantity < quantity && rest.reserve > 0);
                self.add(Rare::RestHasReserve, number == 0 && less);
            }
            Message::Cancel(cancel) => {
                let order = find_regular(step.before, cancel.id);
                let had = order.is_some_and(|order| order.reserve > 0);
                self.add(Rare::ReserveCancelled, had);
            }
            _ => {}
        }
        for order in held_regular(step.before).filter(|order| order.reserve > 0) {
            let left = find_regular(after, order.id);
            self.add(
                Rare::LastIsShown,
                left.is_some_and(|left| left.reserve == 0),
            );
        }
    }

    /// What the trades of an accepted message took of their makers.
    pub(super) fn observe_takings(&mut self, step: &Step) {
        let mut takings = Takings::before(step.before);
        let mut earlier: Vec<(Turn, Trade)> = Vec::new();
        for record in step.records {
            let Ok(Some(turn)) = takings.take(record) else {
                continue;
            };
            let Record::Trade(trade) = *record else {
                continue;
            };
            match step.message {
                Message::Order(order) if order.id == trade.taker => {
                    self.observe_met(&earlier, turn, &trade);
                }
                _ => self.observe_taken(step, &earlier, &takings, &trade),
            }
            earlier.push((turn, trade));
        }
    }

    /// A trade of an arriving order, after those before it.
    fn observe_met(&mut self, earlier: &[(Turn, Trade)], turn: Turn, trade: &Trade) {
        self.add(Rare::ReserveTaken, turn == Turn::Reserve);
        let mut own = earlier.iter().filter(|(_, held)| held.taker == trade.taker);
        let Some((Turn::Reserve, last)) = own.next_back() else {
            return;
        };
        let equal = last.price == trade.price;
        self.add(Rare::ReserveById, turn == Turn::Reserve && equal);
        self.add(Rare::ReserveBeforeWorse, turn == Turn::Shown && !equal);
        self.add(Rare::ReserveBeforeLegging, turn == Turn::Legging && equal);
    }

    /// A trade of a complex order: of the last that its maker shows, past reserve at a
    /// better price, or of what another order of the same sweep left shown.
    fn observe_taken(
        &mut self,
        step: &Step,
        earlier: &[(Turn, Trade)],
        takings: &Takings,
        trade: &Trade,
    ) {
        let (taken, maker) = (opposite(trade.leg()), trade.maker);
        let spent = |order: &Maker| order.shown == 0 && order.reserve > 0;
        self.add(Rare::UsedUp, takings.maker(maker).is_some_and(spent));
        let better = |order: &Maker| beats(taken, i64::from(order.price), i64::from(trade.price));
        let mut sides = takings.makers().iter().filter(|order| order.side == taken);
        self.add(
            Rare::BehindReserve,
            sides.any(|order| spent(order) && better(order)),
        );
        let by_another = |held: &Trade| held.taker != trade.taker && held.maker == maker;
        let shared = earlier.iter().any(|(_, held)| by_another(held));
        let reserve = find_regular(step.before, maker).is_some_and(|order| order.reserve > 0);
        let swept = step.message.is_sweep();
        self.add(Rare::SharedInSweep, swept && shared && reserve);
    }

    /// Legging orders made or removed by the size shown, with reserve behind it.
    pub(super) fn observe_sizes(&mut self, step: &Step, phases: &Phases) {
        let after = &step.returned.venue;
        for record in phases.generation {
            if let Record::Generated(made) = record {
                let limited = generated_by_shown(after, phases, made);
                self.add(Rare::GeneratedByShown, limited);
            }
        }
        for (place, _) in phases.settled.iter().filter(|(_, cause)| *cause == 2) {
            self.add(
                Rare::RemovedByShown,
                removed_by_shown(after, phases, *place),
            );
        }
    }
}

/// What is in reserve at a level.
fn behind(venue: &Venue, side: Leg, level: Level) -> i64 {
    left_at(venue, side, level.price) - level.size
}

fn generated_by_shown(after: &Venue, phases: &Phases, made: &Generated) -> bool {
    let Some(parent) = find_complex(after, made.id) else {
        return false;
    };
    let taken = taken_by_other(legs_of(parent), made.leg());
    let level = phases.settled_view.best(taken);
    level.is_some_and(|level| made.quantity < parent.quantity && behind(after, taken, level) > 0)
}

fn removed_by_shown(after: &Venue, phases: &Phases, place: usize) -> bool {
    let (view, leg) = (&phases.at_settling, leg_at(place));
    let order = view.legging[place];
    let Some(parent) = find_complex(after, order.parent) else {
        return false;
    };
    let taken = taken_by_other(legs_of(parent), leg);
    let Some(level) = view.clear(taken) else {
        return false;
    };
    let net = sign(leg) * i64::from(order.price) - sign(taken) * level.price;
    let enough = level.size + behind(after, taken, level) >= i64::from(order.quantity);
    net <= i64::from(parent.limit) && enough
}
