//! Random sessions that follow the state of the venue, from a profile and a seed.

mod limited;
mod ratios;
mod reserve;
mod settings;

use crate::message::{
    Away, Cancel, Increment, Leg, Message, NewComplex, NewOrder, Percent, Status,
};
use crate::profile::{Profile, Shape};
use crate::random::Random;
use crate::scripts;
use crate::view::View;
use crate::view::{beats, held_complex, held_regular, leg_at, legs_of, opposite, side_of, sign};
use crate::view::{parts, Part};
use ratios::is_even;
use reference::{Complex, Venue};
use std::collections::VecDeque;

/// Ids are drawn one or a few above the last; a jump leads no higher than this, so that
/// they last for ten million messages.
const HIGHEST_JUMP: u32 = u32::MAX - 10_000_000 * MOST_STEP;

/// The most by which an id is above the last one without a jump.
const MOST_STEP: u32 = 7;

pub struct Generator {
    random: Random,
    profile: Profile,
    shape: Shape,
    queue: VecDeque<Message>,
    since_script: usize,
    /// Whether the ids are to last for a long session.
    lasting: bool,
    /// Draws the settings, apart from all else.
    apart: Random,
    /// Draws what orders show, apart from all else too.
    shown: Random,
    /// Draws ratios, apart from all else too.
    ratios: Random,
    /// Draws limited sweeps, apart from all else too.
    limited: Random,
}

impl Generator {
    pub fn new(profile: Profile, seed: u64) -> Self {
        let mixed = seed ^ (profile as u64 + 1).wrapping_mul(0xD6E8_FEB8_6659_FD93);
        let mut generator = Generator {
            random: Random::new(mixed),
            profile,
            shape: profile.shape(),
            queue: VecDeque::new(),
            since_script: usize::MAX - 1,
            lasting: false,
            apart: Random::new(!mixed),
            shown: Random::new(mixed.rotate_left(32)),
            ratios: Random::new(mixed.rotate_left(16)),
            limited: Random::new(mixed.rotate_left(48)),
        };
        if generator.shape.script_every == 0 {
            generator.plan_opening();
        }
        generator
    }

    /// Keeps to the kinds 1 to `last`, and to numbers that are no kind. Each later kind is
    /// drawn apart from all else, so the session is the one drawn before that kind came.
    pub fn up_to(self, last: u16) -> Self {
        Generator {
            shape: self.shape.up_to(last),
            ..self
        }
    }

    /// Keeps ids for a long session. It is the same session up to the first id that would
    /// leave too few.
    pub fn lasting(self) -> Self {
        Generator {
            lasting: true,
            ..self
        }
    }

    /// Opens the series in use and quotes most of them away. Some sessions begin
    /// as a host that counts on refusal 6 before the opening: with all series closed.
    fn plan_opening(&mut self) {
        let closes = self.random.chance(self.shape.closed_first);
        if closes {
            let close = |series| Message::Status(Status { series, status: 0 });
            self.queue.extend((0..8).map(close));
        }
        let opens = if closes { 97 } else { 50 };
        for &series in self.shape.series {
            if self.random.chance(opens) {
                self.queue
                    .push_back(Message::Status(Status { series, status: 1 }));
            }
            if self.random.chance(70) {
                let message = self.away_of(series);
                self.queue.push_back(message);
            }
        }
        if self.profile == Profile::Refusals && self.random.chance(40) {
            self.queue.extend(scripts::full_book(&mut self.random));
        }
    }

    /// The next message upon a venue.
    pub fn next(&mut self, venue: &Venue) -> Vec<u8> {
        self.since_script = self.since_script.saturating_add(1);
        let due = self.shape.script_every > 0 && self.since_script > self.shape.script_every;
        if due && self.queue.is_empty() {
            self.plan_script(venue);
        }
        if self.queue.is_empty() && self.apart.chance(self.shape.settings) {
            self.plan_settings(venue);
        }
        let message = match self.queue.pop_front() {
            Some(message) => self.numbered(message, venue),
            None => self.random_message(venue),
        };
        match self.lasting {
            true => leaving_ids(message, venue.last).encode(),
            false => message.encode(),
        }
    }

    /// Bytes that end a list in the middle of a message.
    pub fn torn(&mut self, venue: &Venue) -> Vec<u8> {
        let mut bytes = self.random_message(venue).encode();
        match self.random.below(3) {
            0 => bytes.truncate(1 + self.random.below(3) as usize),
            1 => bytes[..2].copy_from_slice(&[self.random.below(4) as u8, 0]),
            _ => bytes.truncate(bytes.len().max(2) - 1),
        }
        bytes
    }

    /// Any bytes at all, some of them looking like messages.
    pub fn noise(&mut self) -> Vec<u8> {
        let length = self.random.below(60);
        let mut bytes: Vec<u8> = (0..length).map(|_| self.random.below(256) as u8).collect();
        if bytes.len() >= 4 && self.random.chance(80) {
            bytes[0] = self.random.below(24) as u8;
            bytes[1] = 0;
            bytes[2] = self.random.below(12) as u8;
            bytes[3] = 0;
        }
        bytes
    }

    pub fn random(&mut self) -> &mut Random {
        &mut self.random
    }

    fn plan_script(&mut self, venue: &Venue) {
        self.since_script = 0;
        self.queue.extend(scripts::clear(venue));
        let script = match (self.profile, self.random.below(2)) {
            (Profile::CrossParties, _) => scripts::both_parties(&mut self.random),
            (_, 0) => scripts::hidden_clear_price(&mut self.random),
            _ => scripts::quoted_pair(&mut self.random),
        };
        self.queue.extend(script);
    }

    /// Gives an order that was planned the next id, and a setting the next edition.
    fn numbered(&mut self, mut message: Message, venue: &Venue) -> Message {
        match &mut message {
            Message::Order(NewOrder { id, .. }) | Message::Complex(NewComplex { id, .. }) => {
                *id = self.next_id(venue)
            }
            Message::Increment(Increment { edition, .. })
            | Message::Percent(Percent { edition, .. }) => {
                *edition = self.next_edition(venue);
            }
            _ => {}
        }
        message
    }

    fn next_id(&mut self, venue: &Venue) -> u32 {
        let step = if self.random.chance(90) { 1 } else { MOST_STEP };
        let jump = if self.random.below(4000) == 0 {
            1 << 31
        } else {
            0
        };
        venue
            .last
            .saturating_add(step)
            .max(venue.last.saturating_add(jump))
    }

    fn random_message(&mut self, venue: &Venue) -> Message {
        let total = self.shape.weights.iter().sum();
        let mut drawn = self.random.below(total);
        let mut choice = 0;
        while drawn >= self.shape.weights[choice] {
            drawn -= self.shape.weights[choice];
            choice += 1;
        }
        let view = View::of(venue);
        match choice {
            0 => self.order(venue, &view),
            1 => self.complex(venue, &view),
            2 => self.cancel(venue),
            3 => {
                let series = self.random.pick(self.shape.series);
                self.away(series, &view)
            }
            4 => self.status(venue),
            5 => self.sweep(),
            _ => self.refused(venue, &view),
        }
    }

    fn quantity(&mut self) -> u32 {
        match self.random.below(60) {
            0 => 10_000,
            1 => 1,
            _ => self.random.between(1, self.shape.most_quantity) as u32,
        }
    }

    fn side_of_series(&mut self) -> Leg {
        Leg {
            series: self.random.pick(self.shape.series),
            side: self.random.below(2) as u8,
        }
    }

    /// A price on the increment, between the ends of the range.
    fn on_increment(view: &View, series: u8, price: i64) -> u32 {
        let step = view.increment(series);
        let rounded = price.div_euclid(step) * step;
        rounded.clamp(step, 100_000) as u32
    }

    /// Where a series trades: the profile's centre, or an end of the range.
    fn centre(&self, series: u8) -> i64 {
        match (self.profile, series) {
            (Profile::PriceEdges, 0 | 6) => 20,
            (Profile::PriceEdges, _) => 99_960,
            _ => self.shape.centre + 10 * i64::from(series),
        }
    }

    fn order(&mut self, venue: &Venue, view: &View) -> Message {
        let order = self.whole_order(venue, view);
        self.showing(order)
    }

    /// An order that shows all of it.
    fn whole_order(&mut self, venue: &Venue, view: &View) -> Message {
        let hits = if self.profile == Profile::Hits {
            40
        } else {
            15
        };
        if self.random.chance(hits) {
            if let Some(message) = self.hitting(venue, view) {
                return message;
            }
        }
        let leg = self.side_of_series();
        let step = view.increment(leg.series);
        let taking = view
            .best_own(opposite(leg))
            .filter(|_| self.random.chance(25));
        let joining = view.best_own(leg).filter(|_| self.random.chance(25));
        let price = match (taking, joining) {
            (Some(best), _) => {
                view.displayed(leg, best) + sign(leg) * step * self.random.between(0, 1)
            }
            (_, Some(best)) => {
                view.displayed(leg, best) + sign(leg) * step * self.random.between(-1, 1)
            }
            _ => {
                let apart = self.random.between(-1, self.shape.steps);
                self.centre(leg.series) - sign(leg) * step * apart
            }
        };
        Message::Order(NewOrder {
            id: self.next_id(venue),
            leg,
            price: Self::on_increment(view, leg.series, price),
            quantity: self.quantity(),
            shows: None,
        })
    }

    /// An order that reaches a standing legging order, for less than, all of or
    /// more than what it finds.
    fn hitting(&mut self, venue: &Venue, view: &View) -> Option<Message> {
        let standing: Vec<usize> = (0..16)
            .filter(|place| view.legging[*place].quantity > 0)
            .collect();
        if standing.is_empty() {
            return None;
        }
        let made = leg_at(self.random.pick(&standing));
        let order = view.standing(made)?;
        let ahead: u32 = held_regular(venue)
            .filter(|regular| side_of(regular) == made)
            .filter(|regular| !beats(made, i64::from(order.price), i64::from(regular.price)))
            .map(|regular| regular.quantity)
            .sum();
        let quantity = match self.random.below(4) {
            0 => ahead + self.random.between(1, i64::from(order.quantity)) as u32,
            1 | 2 => ahead + order.quantity,
            _ => ahead + order.quantity + self.quantity(),
        };
        let reached = view.displayed(made, i64::from(order.price));
        Some(Message::Order(NewOrder {
            id: self.next_id(venue),
            leg: opposite(made),
            price: Self::on_increment(view, made.series, reached),
            quantity: quantity.clamp(1, 10_000),
            shows: None,
        }))
    }

    fn legs(&mut self) -> [Leg; 2] {
        let first = self.side_of_series();
        let mut second = self.side_of_series();
        while second.series == first.series {
            second = self.side_of_series();
        }
        second.side = if self.random.chance(self.shape.reversed_legs) {
            1 - first.side
        } else {
            first.side
        };
        [first, second]
    }

    fn resting_complex<'a>(&mut self, venue: &'a Venue) -> Option<&'a Complex> {
        let orders: Vec<&Complex> = held_complex(venue).collect();
        (!orders.is_empty()).then(|| self.random.pick(&orders))
    }

    fn complex(&mut self, venue: &Venue, view: &View) -> Message {
        let copies = if self.profile == Profile::Classes {
            50
        } else {
            10
        };
        let drawn = self.random.below(100);
        let crossing = drawn < self.shape.crossing_limits;
        let copying = !crossing && drawn < self.shape.crossing_limits + copies;
        let other = self.resting_complex(venue).filter(|_| crossing || copying);
        let (parts, limit) = match other {
            Some(other) => self.against(other, crossing),
            None => {
                let parts = parts(self.legs(), self.new_ratios());
                (parts, self.limit(view, parts))
            }
        };
        let most = if is_even(parts) { 200_000 } else { 600_000 };
        Message::Complex(NewComplex {
            id: self.next_id(venue),
            legs: parts.map(|part| part.leg),
            class: self.random.below(2) as u8,
            limit: limit.clamp(-most, most) as i32,
            quantity: self.quantity(),
            ratios: self.ratio_bytes(parts),
        })
    }

    /// Legs and limit of an order that crosses another, or competes with it.
    fn against(&mut self, other: &Complex, crossing: bool) -> ([Part; 2], i64) {
        let mut legs = legs_of(other);
        let mut limit = i64::from(other.limit);
        if crossing {
            legs = legs.map(opposite);
            limit = -limit + self.random.between(-2, 4);
        } else if self.random.chance(40) {
            limit += self.random.between(-1, 2);
        }
        let mut parts = parts(legs, self.ratios_like(other));
        if self.random.chance(50) {
            parts.swap(0, 1);
        }
        (parts, limit)
    }

    fn limit(&mut self, view: &View, parts: [Part; 2]) -> i64 {
        let [first, second] = parts.map(|part| part.of_net(self.centre(part.leg.series)));
        let market = view.market_net(parts).unwrap_or(first + second);
        if self.profile == Profile::PriceEdges && self.random.chance(50) {
            let legs = parts.map(|part| part.leg);
            let limit = self.edge_limit(view, legs);
            if let Some(limit) = limit.filter(|_| is_even(parts)) {
                return limit;
            }
        }
        let at_edge = if self.profile == Profile::BandEdges {
            70
        } else {
            20
        };
        if self.random.chance(at_edge) {
            let percent = i64::from(view.in_force.percent().value);
            let edge = (100 * market + percent * market.abs()).div_euclid(100);
            return edge + self.random.between(-1, 1);
        }
        match self.random.below(4) {
            0 => market + self.random.between(0, 12),
            1 => market,
            _ => market - self.random.between(1, 30),
        }
    }

    /// A limit that puts a legging order at an end of the range of prices.
    fn edge_limit(&mut self, view: &View, legs: [Leg; 2]) -> Option<i64> {
        let which = self.random.below(2) as usize;
        let (leg, other) = (legs[which], legs[1 - which]);
        let clear = view.clear(opposite(other))?;
        let low = self.centre(leg.series) < 1000;
        let price = if low {
            self.random.pick(&[1, 2, 3, 4, 5, 6, 9, 10, 11])
        } else {
            self.random
                .pick(&[99_989, 99_990, 99_995, 99_996, 99_999, 100_000, 100_001])
        };
        Some(sign(leg) * price + sign(other) * clear.price)
    }

    fn resting_ids(venue: &Venue) -> Vec<u32> {
        let regular = held_regular(venue).map(|order| order.id);
        regular
            .chain(held_complex(venue).map(|order| order.id))
            .collect()
    }

    fn cancel(&mut self, venue: &Venue) -> Message {
        let complex: Vec<u32> = held_complex(venue).map(|order| order.id).collect();
        let all = Self::resting_ids(venue);
        let ids = if self.random.chance(40) && !complex.is_empty() {
            complex
        } else {
            all
        };
        let id = if ids.is_empty() {
            1
        } else {
            self.random.pick(&ids)
        };
        Message::Cancel(Cancel { id })
    }

    fn away_of(&mut self, series: u8) -> Message {
        let centre = self.centre(series);
        if self.profile == Profile::PriceEdges && self.random.chance(60) {
            let ends: [u32; 5] = if centre < 1000 {
                [0, 1, 2, 4, 5]
            } else {
                [0, 99_998, 99_999, 100_000, 100_000]
            };
            let [bid, offer] = [0, 1].map(|_| self.random.pick(&ends));
            return Message::Away(Away { series, bid, offer });
        }
        let near = |random: &mut Random, towards: i64| {
            (centre + towards * random.between(-8, 40)).clamp(1, 100_000) as u32
        };
        Message::Away(Away {
            series,
            bid: near(&mut self.random, -1),
            offer: near(&mut self.random, 1),
        })
    }

    /// Away prices near the centre, near the best own prices, or none.
    fn away(&mut self, series: u8, view: &View) -> Message {
        let Message::Away(Away { bid, offer, .. }) = self.away_of(series) else {
            return Message::Sweep;
        };
        let mut prices = [bid, offer];
        for side in [0, 1] {
            let best = view.best_own(Leg { series, side });
            let price = &mut prices[usize::from(side)];
            match (self.random.below(6), best) {
                (0, _) => *price = 0,
                (1 | 2, Some(best)) => {
                    *price = (best + self.random.between(-3, 3)).clamp(0, 100_000) as u32;
                }
                _ => {}
            }
        }
        let [bid, offer] = prices;
        Message::Away(Away { series, bid, offer })
    }

    /// A status for a series in use; a series that is not open is mostly opened.
    fn status(&mut self, venue: &Venue) -> Message {
        let is_open = |series: u8| venue.series[usize::from(series)].status == 1;
        let shut = self
            .shape
            .series
            .iter()
            .copied()
            .find(|series| !is_open(*series));
        if let Some(series) = shut.filter(|_| self.random.chance(60)) {
            return Message::Status(Status { series, status: 1 });
        }
        Message::Status(Status {
            series: self.random.pick(self.shape.series),
            status: self.random.pick(&[0, 1, 1, 1, 1, 2]),
        })
    }

    /// A message meant to be refused with one of 2 to 8, or 14.
    fn refused(&mut self, venue: &Venue, view: &View) -> Message {
        match self.random.below(8) {
            1 => Message::Raw(self.wrong_length(venue, view)),
            2 | 3 => self.out_of_range(venue, view),
            4 => self.stale_id(venue, view),
            5 => self.in_closed_series(venue, view),
            6 => Message::Cancel(Cancel {
                id: venue.last.saturating_add(1),
            }),
            _ => Message::Raw(self.unknown_kind()),
        }
    }

    fn unknown_kind(&mut self) -> Vec<u8> {
        let length = 4 + self.random.below(30);
        let kind = self
            .random
            .pick(&[0, 14, 15, 12, 13, 63, 64, 65, 80, 99, 255, 256, 65_535]);
        let mut bytes = vec![length as u8, 0];
        bytes.extend_from_slice(&u16::to_le_bytes(kind));
        bytes.extend((4..length).map(|_| self.random.below(256) as u8));
        bytes
    }

    fn wrong_length(&mut self, venue: &Venue, view: &View) -> Vec<u8> {
        let mut bytes = match self.random.below(4) {
            0 => self.complex(venue, view).encode(),
            1 => self.order(venue, view).encode(),
            2 => self.cancel(venue).encode(),
            _ => Message::Sweep.encode(),
        };
        if bytes.len() > 4 && self.random.chance(50) {
            bytes.pop();
        } else {
            bytes.push(self.random.below(256) as u8);
        }
        bytes[0] = bytes.len() as u8;
        bytes
    }

    /// One byte of a field set to a value that may be out of its range.
    fn out_of_range(&mut self, venue: &Venue, view: &View) -> Message {
        let message = match self.random.below(5) {
            0 | 1 => self.order(venue, view),
            2 => self.complex(venue, view),
            3 => {
                let series = self.random.pick(self.shape.series);
                self.away(series, view)
            }
            _ => self.status(venue),
        };
        let mut bytes = message.encode();
        if let Message::Complex(_) = message {
            if self.random.chance(30) {
                bytes[10] = bytes[8];
                return Message::decode(&bytes);
            }
        }
        let at = 4 + self.random.below(bytes.len() as u64 - 4) as usize;
        bytes[at] = match self.random.below(3) {
            0 => 0,
            1 => bytes[at].wrapping_add(1),
            _ => self.random.below(256) as u8,
        };
        Message::decode(&bytes)
    }

    fn stale_id(&mut self, venue: &Venue, view: &View) -> Message {
        let mut message = if self.random.chance(50) {
            self.order(venue, view)
        } else {
            self.complex(venue, view)
        };
        if let Message::Order(NewOrder { id, .. }) | Message::Complex(NewComplex { id, .. }) =
            &mut message
        {
            *id = venue.last - venue.last.min(self.random.below(4) as u32);
        }
        message
    }

    /// An order in a closed series; where none is closed, a closing first.
    fn in_closed_series(&mut self, venue: &Venue, view: &View) -> Message {
        let closed = (0..8u8).find(|series| venue.series[usize::from(*series)].status == 0);
        let series = closed.unwrap_or_else(|| self.random.below(8) as u8);
        let mut message = if self.random.chance(50) {
            self.order(venue, view)
        } else {
            self.complex(venue, view)
        };
        match &mut message {
            Message::Order(NewOrder { leg, price, .. }) => {
                leg.series = series;
                *price = 100;
            }
            Message::Complex(NewComplex { legs, .. }) => legs[1].series = series,
            _ => {}
        }
        if closed.is_none() {
            self.queue.push_back(message);
            return Message::Status(Status { series, status: 0 });
        }
        message
    }
}

/// The message with the next id where its own is a jump that leaves too few.
fn leaving_ids(mut message: Message, last: u32) -> Message {
    let id = match &mut message {
        Message::Order(order) => &mut order.id,
        Message::Complex(complex) => &mut complex.id,
        _ => return message,
    };
    if *id > HIGHEST_JUMP.max(last.saturating_add(MOST_STEP)) {
        *id = last.saturating_add(1);
    }
    message
}
