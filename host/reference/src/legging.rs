//! Legging orders: the standing test, settling, removal and generation.

use crate::books::{Books, ComplexOrder, Standing};
use crate::price::{
    better, bit, facing, places, reaches, series_of, sign, signed, Legs, Place, HIGHEST_PRICE,
};
use crate::types::{CEILING_MESSAGES, CUSTOMER, LEGGING_PLACES, OTHER};
use crate::wire::Report;

/// Why a legging order was removed.
#[derive(Clone, Copy, Debug, PartialEq, Eq)]
pub enum Cause {
    WorseThanBook,
    OtherLeg,
    Executed,
    ParentCancelled,
    OutOfBand,
    NotOpen,
    Replaced,
    Touched,
    /// Touched by an order of which the sizes there cannot fill a unit.
    TouchedShort,
}

impl Cause {
    pub fn number(self) -> u8 {
        match self {
            Cause::WorseThanBook => 1,
            Cause::OtherLeg => 2,
            Cause::Executed => 3,
            Cause::ParentCancelled => 4,
            Cause::OutOfBand => 5,
            Cause::NotOpen => 6,
            Cause::Replaced => 7,
            Cause::Touched => 8,
            Cause::TouchedShort => 10,
        }
    }
}

#[derive(Clone, Copy, Debug, PartialEq, Eq)]
pub enum Verdict {
    Stands,
    Fails(Cause),
}

impl Books {
    /// The standing test of the order at a filled place; of the causes that
    /// apply, the first of 1, 5, 2, 6.
    pub fn verdict(&self, place: Place) -> Verdict {
        let order = &self.standing[place];
        if self.is_worse_than_book(place, self.displayed(place, order.price as i32) as u32) {
            return Verdict::Fails(Cause::WorseThanBook);
        }
        // An order of unequal ratios has no legging order.
        if !self.is_in_band(order.limit, &Legs::even([place, order.other])) {
            return Verdict::Fails(Cause::OutOfBand);
        }
        if !self.other_leg_holds(place, order) {
            return Verdict::Fails(Cause::OtherLeg);
        }
        if !self.is_series_open(place) || !self.is_series_open(order.other) {
            return Verdict::Fails(Cause::NotOpen);
        }
        Verdict::Stands
    }

    /// Whether the best regular order of its side is better than a displayed price.
    fn is_worse_than_book(&self, place: Place, shown: u32) -> bool {
        let best = self.regular.best(place);
        best.is_some_and(|best| better(place, best, shown))
    }

    fn other_leg_holds(&self, place: Place, order: &Standing) -> bool {
        match self.clear(facing(order.other)) {
            Some(level) => {
                let net = signed(place, order.price) + signed(order.other, level.price);
                net <= order.limit && level.size >= order.quantity
            }
            None => false,
        }
    }

    /// Regular orders show again; then all legging orders are tested against one
    /// state, and the failing go together.
    pub fn settle(&mut self, report: &mut Report) {
        self.regular.show_again();
        let mut failing = 0;
        let mut causes = [Cause::WorseThanBook; LEGGING_PLACES];
        for place in places(self.filled) {
            if let Verdict::Fails(cause) = self.verdict(place) {
                failing |= bit(place);
                causes[place] = cause;
            }
        }
        for place in places(failing) {
            self.remove(place, causes[place], report);
        }
    }

    pub fn remove(&mut self, place: Place, cause: Cause, report: &mut Report) {
        report.removed(self.standing[place].parent, place, cause.number());
        self.filled &= !bit(place);
    }

    /// Removes the legging orders of one complex order, by place.
    pub fn remove_all_of(&mut self, order: &ComplexOrder, cause: Cause, report: &mut Report) {
        for place in order.places() {
            if self.is_filled(place) && self.standing[place].parent == order.id {
                self.remove(place, cause, report);
            }
        }
    }

    /// Makes legging orders for the first leg, then the second; none of an order of
    /// unequal ratios. Neither leg changes what both need: open series and a limit
    /// in band.
    pub fn generate(&mut self, number: u32, order: ComplexOrder, report: &mut Report) {
        if !order.legs.is_even() {
            return;
        }
        let [first, second] = order.legs.places;
        let both_open = self.is_series_open(first) && self.is_series_open(second);
        if both_open && self.is_in_band(order.limit, &order.legs) {
            self.generate_leg(number, &order, [first, second], report);
            self.generate_leg(number, &order, [second, first], report);
        }
    }

    fn generate_leg(
        &mut self,
        number: u32,
        order: &ComplexOrder,
        [leg, other]: [Place; 2],
        report: &mut Report,
    ) {
        let Some(made) = self.legging_for(order, leg, other) else {
            return;
        };
        if self.is_at_ceiling(number, leg) {
            return;
        }
        if self.is_filled(leg) {
            self.remove(leg, Cause::Replaced, report);
        }
        let shown = self.displayed(leg, made.price as i32) as u32;
        report.generated(order.id, leg, made.price, shown, made.quantity);
        self.standing[leg] = made;
        self.filled |= bit(leg);
        self.count_generation(number, leg);
    }

    /// Whether so many of the series are generated already in the messages that end with
    /// this one: the oldest of the last is one of theirs.
    fn is_at_ceiling(&self, number: u32, leg: Place) -> bool {
        let [oldest, ..] = self.generations[series_of(leg)];
        oldest > 0 && number - oldest < CEILING_MESSAGES
    }

    /// The oldest of the last generations gives way to this one.
    fn count_generation(&mut self, number: u32, leg: Place) {
        let last = &mut self.generations[series_of(leg)];
        last.rotate_left(1);
        last[last.len() - 1] = number;
    }

    /// The legging order to make for a leg, if every other condition holds.
    fn legging_for(&self, order: &ComplexOrder, leg: Place, other: Place) -> Option<Standing> {
        let clear = self.clear(facing(other))?;
        let price = sign(leg) * (order.limit - signed(other, clear.price));
        let shown = self.displayed(leg, price);
        if shown < i32::from(self.increment(leg)) || shown > HIGHEST_PRICE as i32 {
            return None;
        }
        if self.is_worse_than_book(leg, shown as u32) || self.reaches_opposite(leg, price) {
            return None;
        }
        // From here the price is in 1 to 100,000: a buy above it would reach
        // the market best that the band asks for.
        let price = price as u32;
        if !self.may_hold(leg, price, order.class) || self.would_hide(leg, price) {
            return None;
        }
        Some(Standing {
            parent: order.id,
            price,
            quantity: order.quantity.min(clear.size),
            other,
            limit: order.limit,
            class: order.class,
        })
    }

    /// Whether a price reaches an own or away price opposite in its series.
    fn reaches_opposite(&self, leg: Place, price: i32) -> bool {
        let opposite = facing(leg);
        let own = self.best_own(opposite);
        let reached = |limit: Option<u32>| limit.is_some_and(|best| reaches(leg, price, best));
        reached(own) || reached(self.away(opposite))
    }

    fn may_hold(&self, leg: Place, price: u32, class: u8) -> bool {
        if !self.is_filled(leg) {
            return true;
        }
        let holder = &self.standing[leg];
        let by_class = class == CUSTOMER && holder.class == OTHER;
        better(leg, price, holder.price) || (price == holder.price && by_class)
    }

    /// Whether an order made here would make another standing order fail.
    ///
    /// All others stand before it is made. A legging order enters their tests
    /// only by hiding the clear price of its side, so those at risk are the
    /// orders whose other leg takes this side.
    fn would_hide(&self, leg: Place, price: u32) -> bool {
        let hides = match self.regular.best(leg) {
            Some(best) => better(leg, price, best),
            None => false,
        };
        let others = self.filled & !bit(leg);
        hides && places(others).any(|place| facing(self.standing[place].other) == leg)
    }
}
