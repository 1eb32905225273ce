//! What a message is answered and what its work does, by the plainest reading
//! of documents 01 and 02: every choice looks at all orders, every price is worked
//! out anew. It is slow, and shares nothing with the reference but its types.

use crate::message::{first_whole, Leg, Message, NewComplex, NewOrder};
use crate::ranges::{out_of_range, refused_field};
use crate::record::{Cancelled, Cross, Looked, Pair, Record, Removed, Trade};
use crate::settings::{entered_by, held_editions, last_edition, InForce};
use crate::view::{held_complex, held_regular, legs_of, opposite, place_of, side_of, sign};
use crate::view::{parts, parts_of, ratios_of, shown, to_rest, Level, Part, View};
use reference::{Complex, Legging, Regular, Venue};

/// The refusal that a message meets, or 0. `left` is all that is left to read.
pub fn refusal(venue: &Venue, left: &[u8]) -> u8 {
    let Some(message) = first_whole(left) else {
        return 1;
    };
    let kind = u16::from_le_bytes([message[2], message[3]]);
    if !(1..=11).contains(&kind) {
        return 2;
    }
    match Message::decode(message) {
        Message::Raw(_) => 3,
        decoded if !in_range(&decoded, &InForce::of(venue)) => 4,
        decoded if has_equal_ratios(&decoded) => 14,
        decoded => venue_refusal(venue, &decoded),
    }
}

fn in_range(message: &Message, in_force: &InForce) -> bool {
    refused_field(message, in_force).is_none()
}

/// Whether ratios are named, and are the same.
pub fn has_equal_ratios(message: &Message) -> bool {
    match message {
        Message::Complex(order) => order.ratios.is_some_and(|[first, second]| first == second),
        _ => false,
    }
}

/// Whether it is a message, every field of it in a range that no setting moves.
pub fn fields_in_range(message: &Message) -> bool {
    message.kind().is_some() && out_of_range(message).is_none()
}

/// Whether nothing of an order is out of range but its shown quantity.
pub fn only_shown_is_out(message: &Message, in_force: &InForce) -> bool {
    let mut whole = message.clone();
    if let Message::Order(order) = &mut whole {
        order.shows = None;
    }
    in_range(&whole, in_force) && !in_range(message, in_force)
}

/// Whether nothing of a complex order is out of range but its ratios.
pub fn only_ratios_are_out(message: &Message) -> bool {
    let mut even = message.clone();
    if let Message::Complex(order) = &mut even {
        order.ratios = order.ratios.map(|_| [1, 1]);
    }
    fields_in_range(&even) && !fields_in_range(message)
}

fn venue_refusal(venue: &Venue, message: &Message) -> u8 {
    let (id, legs, full) = match message {
        Message::Order(order) => {
            let full = venue.regular[127].quantity > 0;
            (order.id, vec![order.leg], full)
        }
        Message::Complex(order) => {
            let full = venue.complex[31].quantity > 0;
            (order.id, order.legs.to_vec(), full)
        }
        Message::Cancel(cancel) => return if rests(venue, cancel.id) { 0 } else { 8 },
        Message::Increment(set) => return setting_refusal(venue, set.edition, Some(set.series)),
        Message::Percent(set) => return setting_refusal(venue, set.edition, None),
        _ => return 0,
    };
    if id <= venue.last {
        return 5;
    }
    if legs.iter().any(|leg| is_closed(venue, *leg)) {
        return 6;
    }
    if full {
        7
    } else {
        0
    }
}

/// The first of 11, 12 and 13 that a setting meets; `series` is that of an increment.
fn setting_refusal(venue: &Venue, edition: u32, series: Option<u8>) -> u8 {
    let (last, _) = last_edition(venue);
    if edition <= last {
        return 11;
    }
    if series.is_some_and(|series| in_use(venue, series)) {
        return 12;
    }
    if held_editions(venue).count() == 32 {
        13
    } else {
        0
    }
}

/// Whether a series is not closed, or has a resting order or a leg of one.
pub fn in_use(venue: &Venue, series: u8) -> bool {
    let leg_of = |order: &Complex| legs_of(order).iter().any(|leg| leg.series == series);
    venue.series[usize::from(series)].status != 0
        || held_regular(venue).any(|order| order.series == series)
        || held_complex(venue).any(leg_of)
}

fn rests(venue: &Venue, id: u32) -> bool {
    held_regular(venue).any(|order| order.id == id)
        || held_complex(venue).any(|order| order.id == id)
}

fn is_closed(venue: &Venue, leg: Leg) -> bool {
    venue.series[usize::from(leg.series)].status == 0
}

/// A party that kept two orders from crossing: its net would have been above
/// what the best regular prices of its legs give it.
#[derive(Clone, Copy, Debug, PartialEq, Eq)]
pub struct AboveLegs {
    pub taker: u32,
    pub maker: u32,
    /// The party, the net it would have dealt at, and that of its legs.
    pub party: u32,
    pub net: i64,
    pub legs: i64,
}

/// A net that the percentage of the band kept from a cross or from legging in.
#[derive(Clone, Copy, Debug, PartialEq, Eq)]
pub struct OutOfBand {
    /// The order that was worked, and the other of a cross.
    pub id: u32,
    pub maker: Option<u32>,
    /// Whose net it is, and the market net that it is out of band of.
    pub party: u32,
    pub net: i64,
    pub market: i64,
}

/// A side at whose best regular price less is shown than a unit takes, where nothing
/// else would have kept an order from legging in.
#[derive(Clone, Copy, Debug, PartialEq, Eq)]
pub struct ShortOfUnit {
    pub id: u32,
    /// The leg, and the contracts that a unit has of it.
    pub leg: Leg,
    pub ratio: i64,
    pub level: Level,
}

/// An accepted message's work: the venue at its settling, when its regular orders have
/// shown again, and the records.
pub struct Work {
    pub venue: Venue,
    pub records: Vec<Record>,
    /// Who was passed over in crossing for the prices of a party's legs alone.
    pub above: Vec<AboveLegs>,
    /// What else was not made for the band, no market best missing.
    pub out_of_band: Vec<OutOfBand>,
    /// Where legging in ended for less than a unit.
    pub short: Vec<ShortOfUnit>,
}

/// The work of the message with this number.
pub fn work(before: &Venue, message: &Message, number: u32) -> Work {
    let mut work = Work {
        venue: before.clone(),
        records: Vec::new(),
        above: Vec::new(),
        out_of_band: Vec::new(),
        short: Vec::new(),
    };
    match message {
        Message::Order(order) => work.order(order),
        Message::Complex(order) => {
            work.rest(order);
            work.complex(order.id);
        }
        Message::Cancel(cancel) => work.cancel(cancel.id),
        Message::Away(away) => {
            let listed = &mut work.venue.series[usize::from(away.series)];
            (listed.bid, listed.offer) = (away.bid, away.offer);
        }
        Message::Status(set) => {
            work.venue.series[usize::from(set.series)].status = set.status;
        }
        Message::Sweep => {
            let ids: Vec<u32> = held_complex(before).map(|order| order.id).collect();
            ids.into_iter().for_each(|id| work.complex(id));
        }
        Message::LimitedSweep(sweep) => work.limited_sweep(before, sweep.most),
        Message::Increment(_) | Message::Percent(_) => work.set(message, number),
        Message::Raw(_) => {}
    }
    work.show_again();
    work
}

/// The ids that a limited sweep looks at when it starts upon a venue: those above the id
/// reached, rising, then round to the others.
pub fn looked_at(venue: &Venue, most: u8) -> Vec<u32> {
    let ids = || held_complex(venue).map(|order| order.id);
    let above = ids().filter(|id| *id > venue.reached);
    let others = ids().filter(|id| *id <= venue.reached);
    above.chain(others).take(usize::from(most)).collect()
}

/// The most units, one after another, that what is open and what is shown allow.
fn whole_units(order: &Complex, parts: [Part; 2], levels: [Level; 2]) -> u32 {
    let allowed = |units: u32| {
        let mut sides = parts.iter().zip(&levels);
        units <= order.quantity
            && sides.all(|(part, level)| i64::from(units) * part.ratio <= level.size)
    };
    (0..)
        .take_while(|units| allowed(*units))
        .last()
        .unwrap_or(0)
}

/// What comes first at one price.
#[derive(Clone, Copy, Debug, PartialEq, Eq, PartialOrd, Ord)]
pub enum Turn {
    Shown,
    Reserve,
    Legging,
}

impl Work {
    /// Puts a setting in the first free place of the row.
    fn set(&mut self, setting: &Message, number: u32) {
        let place = held_editions(&self.venue).count();
        self.venue.editions[place] = entered_by(setting, number).unwrap_or_default();
    }

    /// The list is fixed when it starts: who is gone by his turn was looked at too.
    fn limited_sweep(&mut self, before: &Venue, most: u8) {
        let ids = looked_at(before, most);
        let count = ids.len() as u8;
        self.records.push(Record::Looked(Looked { count }));
        self.venue.reached = ids.last().copied().unwrap_or(before.reached);
        ids.into_iter().for_each(|id| self.complex(id));
    }

    /// Puts an arriving complex order in the first free place.
    fn rest(&mut self, order: &NewComplex) {
        let place = held_complex(&self.venue).count();
        self.venue.last = order.id;
        self.venue.complex[place] = to_rest(order);
    }

    fn find(&self, id: u32) -> Option<Complex> {
        held_complex(&self.venue)
            .find(|order| order.id == id)
            .copied()
    }

    /// Takes contracts from the regular order in a place: shown ones while it has any.
    fn fill_regular(&mut self, place: usize, quantity: u32) {
        let order = &mut self.venue.regular[place];
        order.quantity -= quantity;
        order.reserve = order.reserve.min(order.quantity);
        if order.quantity == 0 {
            self.venue.regular[place..].rotate_left(1);
            self.venue.regular[127] = Regular::default();
        }
    }

    /// Before settling, each order shows again the lesser of its shown quantity and
    /// what is left of it.
    fn show_again(&mut self) {
        for order in &mut self.venue.regular {
            order.display = order.display.min(order.quantity);
            order.reserve = order.quantity - order.display;
        }
    }

    /// Takes from what a complex order has open.
    fn fill_complex(&mut self, id: u32, quantity: u32) {
        let held = held_complex(&self.venue).position(|order| order.id == id);
        let Some(place) = held else {
            return;
        };
        self.venue.complex[place].quantity -= quantity;
        if self.venue.complex[place].quantity == 0 {
            self.venue.complex[place..].rotate_left(1);
            self.venue.complex[31] = Complex::default();
        }
    }

    /// Removes the legging orders for which `goes` holds, by place.
    fn remove(&mut self, cause: u8, goes: impl Fn(usize, &Legging) -> bool) {
        for place in 0..16 {
            let order = self.venue.legging[place];
            if order.quantity == 0 || !goes(place, &order) {
                continue;
            }
            self.records.push(Record::Removed(Removed {
                id: order.parent,
                series: (place / 2) as u8,
                side: (place % 2) as u8,
                cause,
            }));
            self.venue.legging[place] = Legging::default();
        }
    }

    fn remove_of(&mut self, id: u32, cause: u8) {
        self.remove(cause, |_, order| order.parent == id);
    }

    fn trade(&mut self, leg: Leg, price: u32, quantity: u32, taker: u32, maker: u32) {
        self.records.push(Record::Trade(Trade {
            series: leg.series,
            side: leg.side,
            price,
            quantity,
            taker,
            maker,
        }));
    }

    /// An arriving order, which meets with all of its quantity.
    fn order(&mut self, entered: &NewOrder) {
        self.venue.last = entered.id;
        let mut order = Regular {
            id: entered.id,
            series: entered.leg.series,
            side: entered.leg.side,
            price: entered.price,
            quantity: entered.quantity,
            reserve: 0,
            display: entered.shown(),
        };
        while order.quantity > 0 {
            let Some(traded) = self.meet(&order) else {
                break;
            };
            order.quantity -= traded;
        }
        if order.quantity > 0 {
            let place = held_regular(&self.venue).count();
            self.venue.regular[place] = order;
        }
    }

    /// One trade of an arriving order with whoever it meets first: at one price all
    /// shown size by id, then all reserve by id, then the legging order.
    fn meet(&mut self, arriving: &Regular) -> Option<u32> {
        let (id, leg, open) = (arriving.id, side_of(arriving), arriving.quantity);
        let facing = opposite(leg);
        let rank = |price: u32| sign(leg) * i64::from(price);
        let regular = held_regular(&self.venue)
            .enumerate()
            .filter(|(_, order)| side_of(order) == facing)
            .map(|(place, order)| {
                let turn = if shown(order) > 0 {
                    Turn::Shown
                } else {
                    Turn::Reserve
                };
                (rank(order.price), turn, order.id, place)
            });
        let standing = self.venue.legging[place_of(facing)];
        let legging =
            (standing.quantity > 0).then_some((rank(standing.price), Turn::Legging, 0, 0));
        let (best, turn, _, place) = regular.chain(legging).min()?;
        if best > rank(arriving.price) {
            return None;
        }
        let maker = self.venue.regular[place];
        let at_hand = match turn {
            Turn::Shown => shown(&maker),
            Turn::Reserve => maker.reserve,
            Turn::Legging => return Some(self.hit(id, leg, standing, open)),
        };
        let traded = at_hand.min(open);
        self.trade(leg, maker.price, traded, id, maker.id);
        self.fill_regular(place, traded);
        Some(traded)
    }

    fn hit(&mut self, id: u32, leg: Leg, standing: Legging, open: u32) -> u32 {
        let traded = standing.quantity.min(open);
        self.trade(leg, standing.price, traded, id, standing.parent);
        let Some(parent) = self.find(standing.parent) else {
            return traded;
        };
        let own = opposite(leg);
        let legs = legs_of(&parent);
        let other = if legs[0] == own { legs[1] } else { legs[0] };
        let clear = View::of(&self.venue).clear(opposite(other));
        self.take_best(other, traded, parent.id);
        let paid = clear.map_or(0, |level| level.price);
        let net = sign(own) * i64::from(standing.price) + sign(other) * paid;
        self.pair(parent.id, net, traded);
        traded
    }

    fn pair(&mut self, id: u32, net: i64, quantity: u32) {
        self.records.push(Record::Pair(Pair {
            id,
            net: net as i32,
            quantity,
        }));
        self.remove_of(id, 3);
        self.fill_complex(id, quantity);
    }

    /// Trades of a leg at the best price shown opposite, by id and of shown size only.
    fn take_best(&mut self, leg: Leg, mut quantity: u32, taker: u32) {
        let taken = opposite(leg);
        let Some(best) = View::of(&self.venue).best(taken) else {
            return;
        };
        while quantity > 0 {
            let at_best = held_regular(&self.venue).position(|order| {
                side_of(order) == taken && i64::from(order.price) == best.price && shown(order) > 0
            });
            let Some(place) = at_best else {
                return;
            };
            let maker = self.venue.regular[place];
            let traded = shown(&maker).min(quantity);
            self.trade(leg, maker.price, traded, taker, maker.id);
            self.fill_regular(place, traded);
            quantity -= traded;
        }
    }

    /// Cross, touch and leg in of an order that still rests.
    fn complex(&mut self, id: u32) {
        let Some(order) = self.find(id) else {
            return;
        };
        if legs_of(&order)
            .iter()
            .any(|leg| is_closed(&self.venue, *leg))
        {
            return;
        }
        while self.cross(id) {}
        self.touch(id);
        while self.leg_in(id) {}
    }

    /// Whether a net of a party is in band; tells where the percentage forbids it.
    fn in_band(&mut self, id: u32, maker: Option<u32>, party: &Complex, net: i64) -> bool {
        let view = View::of(&self.venue);
        let parts = parts_of(party);
        if view.in_band(net, parts) {
            return true;
        }
        let out = view.market_net(parts).map(|market| OutOfBand {
            id,
            maker,
            party: party.id,
            net,
            market,
        });
        if let Some(out) = out.filter(|out| !self.out_of_band.contains(out)) {
            self.out_of_band.push(out);
        }
        false
    }

    /// The resting orders reversed to this one, of the same ratio in each series, whose
    /// limits meet its own.
    fn reversed(&self, taker: &Complex) -> Vec<Complex> {
        let wanted = parts(legs_of(taker).map(opposite), ratios_of(taker));
        held_complex(&self.venue)
            .filter(|maker| {
                let found = parts_of(maker);
                found == wanted || found == [wanted[1], wanted[0]]
            })
            .filter(|maker| taker.limit + maker.limit >= 0)
            .copied()
            .collect()
    }

    /// The party, the taker first, whose net at the maker's limit is above what
    /// the best regular prices of both its legs give it, where both have one.
    fn above_legs(&self, taker: &Complex, maker: &Complex) -> Option<AboveLegs> {
        let view = View::of(&self.venue);
        let limit = i64::from(maker.limit);
        let parties = [(taker, -limit), (maker, limit)];
        parties.into_iter().find_map(|(party, net)| {
            let legs = view.regular_net(parts_of(party))?;
            (net > legs).then_some(AboveLegs {
                taker: taker.id,
                maker: maker.id,
                party: party.id,
                net,
                legs,
            })
        })
    }

    /// The orders that this one may cross with, both nets in band; tells who else
    /// would be one but for the prices of a party's legs.
    fn candidates(&mut self, taker: &Complex) -> Vec<Complex> {
        let mut candidates = self.reversed(taker);
        candidates.retain(|maker| {
            let limit = i64::from(maker.limit);
            self.in_band(taker.id, Some(maker.id), taker, -limit)
                && self.in_band(taker.id, Some(maker.id), maker, limit)
        });
        candidates.retain(|maker| {
            let above = self.above_legs(taker, maker);
            if let Some(passed) = above.filter(|passed| !self.above.contains(passed)) {
                self.above.push(passed);
            }
            above.is_none()
        });
        candidates
    }

    fn cross(&mut self, id: u32) -> bool {
        let Some(taker) = self.find(id) else {
            return false;
        };
        let candidates = self.candidates(&taker).into_iter();
        let best = candidates.min_by_key(|maker| (-maker.limit, maker.id));
        let Some(maker) = best else {
            return false;
        };
        let quantity = taker.quantity.min(maker.quantity);
        self.records.push(Record::Cross(Cross {
            taker: taker.id,
            maker: maker.id,
            net: -maker.limit,
            quantity,
        }));
        self.remove_of(taker.id, 3);
        self.remove_of(maker.id, 3);
        self.fill_complex(taker.id, quantity);
        self.fill_complex(maker.id, quantity);
        true
    }

    fn touch(&mut self, id: u32) {
        let Some(order) = self.find(id) else {
            return;
        };
        let view = View::of(&self.venue);
        let parts = parts_of(&order);
        let levels = parts.map(|part| view.own_level(opposite(part.leg)));
        let [Some(first), Some(second)] = levels else {
            return;
        };
        let net = parts[0].of_net(first.price) + parts[1].of_net(second.price);
        if net <= i64::from(order.limit) {
            let fills = first.size >= parts[0].ratio && second.size >= parts[1].ratio;
            let touched = parts.map(|part| place_of(opposite(part.leg)));
            let cause = if fills { 8 } else { 10 };
            self.remove(cause, |place, _| touched.contains(&place));
        }
    }

    fn leg_in(&mut self, id: u32) -> bool {
        let Some(order) = self.find(id) else {
            return false;
        };
        let view = View::of(&self.venue);
        let parts = parts_of(&order);
        let [Some(first), Some(second)] = parts.map(|part| view.best(opposite(part.leg))) else {
            return false;
        };
        let net = parts[0].of_net(first.price) + parts[1].of_net(second.price);
        if net > i64::from(order.limit) || !self.in_band(id, None, &order, net) {
            return false;
        }
        let levels = [first, second];
        let units = whole_units(&order, parts, levels);
        if units == 0 {
            self.tell_short(id, parts, levels);
            return false;
        }
        for part in parts {
            self.take_best(part.leg, units * part.ratio as u32, id);
        }
        self.pair(id, net, units);
        true
    }

    /// Takes note of the sides that cannot fill a unit.
    fn tell_short(&mut self, id: u32, parts: [Part; 2], levels: [Level; 2]) {
        let sides = parts.into_iter().zip(levels);
        let short = sides.filter(|(part, level)| level.size < part.ratio);
        self.short
            .extend(short.map(|(Part { leg, ratio }, level)| ShortOfUnit {
                id,
                leg,
                ratio,
                level,
            }));
    }

    fn cancel(&mut self, id: u32) {
        let place = held_regular(&self.venue).position(|order| order.id == id);
        let open = match place {
            Some(place) => self.venue.regular[place].quantity,
            None => self.find(id).map_or(0, |order| order.quantity),
        };
        self.records
            .push(Record::Cancelled(Cancelled { id, quantity: open }));
        self.remove_of(id, 4);
        match place {
            Some(place) => self.fill_regular(place, open),
            None => self.fill_complex(id, open),
        }
    }
}
