//! What each kind of message does once it is accepted.

use crate::book::Resting;
use crate::books::{Books, ComplexOrder};
use crate::legging::Cause;
use crate::price::{
    better, bit, by_place, facing, in_band, place, places, reaches, series_of, signed, Legs, Place,
    HIGHEST_RATIO,
};
use crate::types::{Edition, BUY, CLOSED, COMPLEX_PLACES, EDITION_PLACES, PERCENT};
use crate::wire::{Message, NewComplex, NewOrder, NewSetting, Refusal, Report};

/// Whom an arriving order meets next.
enum Met {
    Regular,
    Legging,
}

/// One round of legging in: the net of a unit at both best prices, and the units.
struct Round {
    net: i32,
    units: u32,
}

impl Books {
    /// Refusals that depend on the venue, in their order.
    pub fn admit(&self, message: &Message) -> Result<(), Refusal> {
        match message {
            Message::Order(order) => {
                self.admit_new(order.id, &[order.place], self.regular.is_full())
            }
            Message::Complex(order) => {
                let full = self.complex.len() >= COMPLEX_PLACES;
                self.admit_new(order.id, &order.legs.places, full)
            }
            Message::Cancel { id } if !self.rests(*id) => Err(Refusal::NoSuchOrder),
            Message::Setting(setting) => self.admit_setting(setting),
            _ => Ok(()),
        }
    }

    fn admit_new(&self, id: u32, legs: &[Place], full: bool) -> Result<(), Refusal> {
        if id <= self.last {
            return Err(Refusal::IdNotAbove);
        }
        if legs.iter().any(|leg| self.is_closed(*leg)) {
            return Err(Refusal::SeriesClosed);
        }
        if full {
            return Err(Refusal::BookFull);
        }
        Ok(())
    }

    fn admit_setting(&self, setting: &NewSetting) -> Result<(), Refusal> {
        let last = self.editions.last().map_or(0, |entry| entry.edition);
        if setting.edition <= last {
            return Err(Refusal::EditionNotAbove);
        }
        if setting.figure != PERCENT && self.is_in_use(place(setting.figure, BUY)) {
            return Err(Refusal::SeriesInUse);
        }
        if self.editions.len() >= EDITION_PLACES {
            return Err(Refusal::EditionsFull);
        }
        Ok(())
    }

    /// Whether the series of a side is not closed, or has a resting order or leg.
    fn is_in_use(&self, bids: Place) -> bool {
        let sides = [bids, facing(bids)];
        let both = by_place(sides, [HIGHEST_RATIO; 2]);
        !self.is_closed(bids)
            || sides.iter().any(|side| !self.regular.is_empty(*side))
            || self.complex.iter().any(|order| order.by_place & both != 0)
    }

    fn is_closed(&self, place: Place) -> bool {
        self.series[series_of(place)].status == CLOSED
    }

    fn rests(&self, id: u32) -> bool {
        self.complex_index(id).is_some() || self.regular.holds(id)
    }

    /// Carries out an accepted message, which has this number.
    pub fn perform(&mut self, number: u32, message: Message, report: &mut Report) {
        match message {
            Message::Order(order) => self.order(order, report),
            Message::Complex(order) => self.complex(number, order, report),
            Message::Cancel { id } => self.cancel(id, report),
            Message::Away { series, bid, offer } => {
                self.series[series].bid = bid;
                self.series[series].offer = offer;
                self.settle(report);
            }
            Message::Status { series, status } => {
                self.series[series].status = status;
                self.settle(report);
            }
            Message::Sweep => self.sweep(number, report),
            Message::LimitedSweep { most } => self.limited_sweep(number, most, report),
            Message::Setting(setting) => self.set(number, setting, report),
        }
    }

    /// A setting holds from its own message on: the settling reads it.
    fn set(&mut self, number: u32, setting: NewSetting, report: &mut Report) {
        let NewSetting {
            figure,
            value,
            edition,
        } = setting;
        self.editions.push(Edition {
            edition,
            number,
            figure,
            value,
        });
        self.settings.set(figure, value);
        self.settle(report);
    }

    fn order(&mut self, order: NewOrder, report: &mut Report) {
        self.last = order.id;
        let mut open = order.quantity;
        while open > 0 {
            let Some(met) = self.met_by(order.place, order.price) else {
                break;
            };
            open -= match met {
                Met::Regular => self.trade_met(order.place, open, order.id, report),
                Met::Legging => self.hit(order.place, open, order.id, report),
            };
        }
        if open > 0 {
            let resting = Resting::showing(order.id, order.price, open, order.shown);
            self.regular.insert(order.place, resting);
        }
        self.settle(report);
    }

    /// Who is first opposite an order: best own price, regular orders with all that
    /// is left of them before a legging order at the same price.
    fn met_by(&self, place: Place, price: u32) -> Option<Met> {
        let opposite = facing(place);
        let regular = self.regular.first_price(opposite);
        let legging = self.legging_price(opposite);
        let (met, best) = match (regular, legging) {
            (Some(best), Some(own)) if better(opposite, own, best) => (Met::Legging, own),
            (Some(best), _) => (Met::Regular, best),
            (None, Some(own)) => (Met::Legging, own),
            (None, None) => return None,
        };
        reaches(place, price as i32, best).then_some(met)
    }

    /// One trade of an arriving order with the first regular order it meets: of its
    /// shown size, or of its reserve.
    fn trade_met(&mut self, side: Place, most: u32, taker: u32, report: &mut Report) -> u32 {
        let Some(fill) = self.regular.take_met(facing(side), most) else {
            return 0;
        };
        report.trade(side, fill.price, fill.quantity, taker, fill.id);
        fill.quantity
    }

    /// Trades `quantity` contracts shown at the best price of the side a leg takes.
    fn trade_leg(&mut self, leg: Place, mut quantity: u32, taker: u32, report: &mut Report) {
        while quantity > 0 {
            let Some(fill) = self.regular.take_shown(facing(leg), quantity) else {
                unreachable!("the size at the best price was counted");
            };
            report.trade(leg, fill.price, fill.quantity, taker, fill.id);
            quantity -= fill.quantity;
        }
    }

    /// A legging order is hit: its trade, the other leg, the pair, removals.
    fn hit(&mut self, taker: Place, most: u32, id: u32, report: &mut Report) -> u32 {
        let place = facing(taker);
        let order = self.standing[place];
        let quantity = order.quantity.min(most);
        report.trade(taker, order.price, quantity, id, order.parent);
        let Some(clear) = self.clear(facing(order.other)) else {
            unreachable!("a standing order's other leg has a clear price");
        };
        self.trade_leg(order.other, quantity, order.parent, report);
        let net = signed(place, order.price) + signed(order.other, clear.price);
        report.pair(order.parent, net, quantity);
        let Some(index) = self.complex_index(order.parent) else {
            unreachable!("a legging order's parent rests");
        };
        self.complex[index].quantity -= quantity;
        let parent = self.complex[index];
        self.remove_all_of(&parent, Cause::Executed, report);
        if parent.quantity == 0 {
            self.complex.remove(index);
        }
        quantity
    }

    fn complex(&mut self, number: u32, order: NewComplex, report: &mut Report) {
        self.last = order.id;
        let NewComplex {
            id,
            legs,
            class,
            limit,
            quantity,
        } = order;
        self.complex
            .push(ComplexOrder::new(id, legs, class, limit, quantity));
        let index = self.complex.len() - 1;
        self.work(index, report);
        let worked = self.complex[index];
        self.drop_filled();
        self.settle(report);
        if worked.quantity > 0 {
            self.generate(number, worked, report);
        }
    }

    fn sweep(&mut self, number: u32, report: &mut Report) {
        self.work_all(number, 0..self.complex.len(), report);
    }

    /// Looks at the resting orders after the id reached, going round, and tells at how
    /// many.
    fn limited_sweep(&mut self, number: u32, most: usize, report: &mut Report) {
        let resting = self.complex.len();
        let looked = most.min(resting);
        report.looked(looked as u8);
        let reached = self.reached;
        let first = self.complex.partition_point(|order| order.id <= reached);
        let round = (first..first + looked).map(|at| at % resting);
        if let Some(last) = round.clone().next_back() {
            self.reached = self.complex[last].id;
        }
        self.work_all(number, round, report);
    }

    /// Works the orders at these places that are not gone by their turn, settles once, and
    /// generates for those that still rest.
    fn work_all(
        &mut self,
        number: u32,
        all: impl Iterator<Item = usize> + Clone,
        report: &mut Report,
    ) {
        for index in all.clone() {
            let order = &self.complex[index];
            let closed = order.legs.places.iter().any(|leg| self.is_closed(*leg));
            if order.quantity > 0 && !closed {
                self.work(index, report);
            }
        }
        self.settle(report);
        for index in all {
            let order = self.complex[index];
            if order.quantity > 0 {
                self.generate(number, order, report);
            }
        }
        self.drop_filled();
    }

    fn drop_filled(&mut self) {
        self.complex.retain(|order| order.quantity > 0);
    }

    /// Cross, then touch, then leg in, each while something is open.
    fn work(&mut self, index: usize, report: &mut Report) {
        self.cross(index, report);
        if self.complex[index].quantity == 0 {
            return;
        }
        self.touch(index, report);
        self.leg_in(index, report);
    }

    fn cross(&mut self, index: usize, report: &mut Report) {
        // Crosses move no price, so the best maker only changes by being filled.
        while self.complex[index].quantity > 0 {
            let Some(maker) = self.best_maker(index) else {
                return;
            };
            self.cross_with(index, maker, report);
        }
    }

    /// Among the orders that the taker may cross with, the highest limit, then
    /// the earliest.
    fn best_maker(&self, index: usize) -> Option<usize> {
        let taker = &self.complex[index];
        let reversed = taker.reversed();
        let candidates = self.complex.iter().enumerate().filter(|(_, maker)| {
            maker.by_place == reversed && maker.quantity > 0 && taker.limit + maker.limit >= 0
        });
        let mut best: Option<(usize, i32)> = None;
        for (at, maker) in candidates {
            if best.is_some_and(|(_, limit)| maker.limit <= limit) {
                continue;
            }
            if self.cross_in_band(taker, maker) && self.cross_respects_legs(taker, maker) {
                best = Some((at, maker.limit));
            }
        }
        best.map(|(at, _)| at)
    }

    /// Both nets dealt at, each against the market net of its own order.
    fn cross_in_band(&self, taker: &ComplexOrder, maker: &ComplexOrder) -> bool {
        let nets = (self.market_net(&taker.legs), self.market_net(&maker.legs));
        let (Some(taken), Some(made)) = nets else {
            return false;
        };
        let percent = self.settings.percent;
        in_band(-maker.limit, taken, percent) && in_band(maker.limit, made, percent)
    }

    /// Neither net dealt at is above what the best regular prices of both legs
    /// would give that order, where both legs have one.
    fn cross_respects_legs(&self, taker: &ComplexOrder, maker: &ComplexOrder) -> bool {
        let not_above = |net: i32, order: &ComplexOrder| {
            self.regular_net(&order.legs).is_none_or(|best| net <= best)
        };
        not_above(-maker.limit, taker) && not_above(maker.limit, maker)
    }

    fn cross_with(&mut self, index: usize, at: usize, report: &mut Report) {
        let quantity = self.complex[index].quantity.min(self.complex[at].quantity);
        self.complex[index].quantity -= quantity;
        self.complex[at].quantity -= quantity;
        let (taker, maker) = (self.complex[index], self.complex[at]);
        report.cross(taker.id, maker.id, -maker.limit, quantity);
        self.remove_all_of(&taker, Cause::Executed, report);
        self.remove_all_of(&maker, Cause::Executed, report);
    }

    /// Where the best own prices net within an order's limit, the legging orders on
    /// the sides it would take give way.
    fn touch(&mut self, index: usize, report: &mut Report) {
        let order = self.complex[index];
        let [first, second] = order.legs.taken();
        let touched = self.filled & (bit(first) | bit(second));
        if touched == 0 {
            return;
        }
        let (Some(a), Some(b)) = (self.own_level(first), self.own_level(second)) else {
            return;
        };
        if order.legs.net([a.price, b.price]) > order.limit {
            return;
        }
        let cause = match order.legs.units([a.size, b.size]) {
            0 => Cause::TouchedShort,
            _ => Cause::Touched,
        };
        for place in places(touched) {
            self.remove(place, cause, report);
        }
    }

    fn leg_in(&mut self, index: usize, report: &mut Report) {
        while let Some(round) = self.next_round(&self.complex[index]) {
            let order = self.complex[index];
            let Legs { places, ratios } = order.legs;
            for (leg, ratio) in places.into_iter().zip(ratios) {
                self.trade_leg(leg, u32::from(ratio) * round.units, order.id, report);
            }
            report.pair(order.id, round.net, round.units);
            self.complex[index].quantity -= round.units;
            self.remove_all_of(&order, Cause::Executed, report);
        }
    }

    /// The next round, if something is open, the best regular prices net within the
    /// limit and the band, and the sizes at them fill a unit.
    fn next_round(&self, order: &ComplexOrder) -> Option<Round> {
        let [first, second] = order.legs.taken();
        let a = self.regular.level(first)?;
        let b = self.regular.level(second)?;
        let net = order.legs.net([a.price, b.price]);
        let units = order.quantity.min(order.legs.units([a.size, b.size]));
        let goes = units > 0 && net <= order.limit && self.is_in_band(net, &order.legs);
        goes.then_some(Round { net, units })
    }

    fn cancel(&mut self, id: u32, report: &mut Report) {
        if let Some(index) = self.complex_index(id) {
            let order = self.complex.remove(index);
            report.cancelled(id, order.quantity);
            self.remove_all_of(&order, Cause::ParentCancelled, report);
        } else if let Some(order) = self.regular.cancel(id) {
            report.cancelled(id, order.quantity);
        }
        self.settle(report);
    }
}
