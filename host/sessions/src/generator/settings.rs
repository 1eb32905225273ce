//! Settings of a session: percentages, increments of series that were emptied and
//! closed for it, and settings to be refused.

use super::Generator;
use crate::message::{Cancel, Increment, Leg, Message, NewOrder, Percent, Status};
use crate::settings::last_edition;
use crate::view::{held_complex, held_regular, legs_of, parts_of, sign, View};
use reference::{Complex, Venue};

impl Generator {
    pub(super) fn next_edition(&mut self, venue: &Venue) -> u32 {
        let step = match self.apart.below(400) {
            0 => u32::MAX,
            1..=40 => 7,
            _ => 1,
        };
        last_edition(venue).0.saturating_add(step)
    }

    pub(super) fn plan_settings(&mut self, venue: &Venue) {
        match self.apart.below(12) {
            0..=4 => {
                let percent = self.percent(venue);
                self.queue.push_back(percent);
            }
            5..=8 => self.plan_increment(venue),
            9 | 10 => {
                let series = self.apart.below(8) as u8;
                self.plan_increment_as_it_is(series);
            }
            _ => {
                let refused = self.refused_setting(venue);
                self.queue.push_back(refused);
            }
        }
    }

    /// A percentage; the edition is given when it is sent.
    fn percent(&mut self, venue: &Venue) -> Message {
        let at_edge = self.percent_at_edge(venue);
        let percent = match (self.apart.below(4), at_edge) {
            (0 | 1, Some(percent)) => percent,
            (2, _) => self.apart.pick(&[0, 1, 5, 49, 50]),
            (3, _) => self.apart.between(2, 12) as u8,
            _ => self.apart.between(0, 50) as u8,
        };
        let edition = 0;
        Message::Percent(Percent { percent, edition })
    }

    /// The least percentage that has some resting order's limit in band, or one less;
    /// of an order whose legging order stands, where there is one.
    fn percent_at_edge(&mut self, venue: &Venue) -> Option<u8> {
        let view = View::of(venue);
        let least = |order: &&Complex| {
            let market = view.market_net(parts_of(order)).filter(|net| *net != 0)?;
            let over = 100 * (i64::from(order.limit) - market);
            let least = over.div_euclid(market.abs()) + i64::from(over % market.abs() != 0);
            (1..=50).contains(&least).then_some(least as u8)
        };
        let stands = |order: &&Complex| venue.legging.iter().any(|made| made.parent == order.id);
        let resting = held_complex(venue).filter(|order| least(order).is_some());
        let (standing, others): (Vec<_>, Vec<_>) = resting.partition(stands);
        let choices = if standing.is_empty() {
            others
        } else {
            standing
        };
        if choices.is_empty() {
            return None;
        }
        let edge = least(&self.apart.pick(&choices))?;
        Some(edge - self.apart.below(2) as u8)
    }

    /// An increment whatever the series has, so that most are refused.
    fn plan_increment_as_it_is(&mut self, series: u8) {
        let increment = self.increment(series);
        self.queue.push_back(increment);
    }

    fn increment(&mut self, series: u8) -> Message {
        Message::Increment(Increment {
            series,
            increment: self.apart.pick(&[1, 1, 5, 10]),
            edition: 0,
        })
    }

    /// Empties and closes a series between two sweeps, sets its increment and opens
    /// it again; some with the percentage too, some with an order left or in auction.
    fn plan_increment(&mut self, venue: &Venue) {
        const MOST_CANCELS: usize = 20;
        let (series, mut ids) = self.series_to_empty(venue);
        if ids.len() > MOST_CANCELS {
            return self.plan_increment_as_it_is(series);
        }
        let status = |status| Message::Status(Status { series, status });
        if self.apart.chance(12) {
            ids.pop();
        }
        let mut plan = vec![Message::Sweep];
        plan.extend(ids.into_iter().map(|id| Message::Cancel(Cancel { id })));
        plan.push(status(self.apart.pick(&[0, 0, 0, 0, 0, 0, 0, 2])));
        for _ in 0..self.apart.between(1, 2) {
            plan.push(self.increment(series));
        }
        if self.apart.chance(40) {
            plan.push(self.percent(venue));
        }
        plan.extend([status(1), Message::Sweep]);
        plan.extend((0..2).map(|_| self.order_of_any_increment(series)));
        self.queue.extend(plan);
    }

    /// Of the series in use one with few orders and legs, with the ids of these.
    fn series_to_empty(&mut self, venue: &Venue) -> (u8, Vec<u32>) {
        let resting = |series: u8| {
            let regular = held_regular(venue).filter(move |order| order.series == series);
            let complex = held_complex(venue)
                .filter(move |order| legs_of(order).iter().any(|leg| leg.series == series));
            let ids = regular.map(|order| order.id);
            ids.chain(complex.map(|order| order.id)).collect()
        };
        let drawn = [0; 3].map(|_| self.apart.pick(self.shape.series));
        let rows = drawn.map(|series| (series, resting(series)));
        let fewest = rows
            .into_iter()
            .min_by_key(|(_, ids): &(u8, Vec<u32>)| ids.len());
        fewest.unwrap_or_default()
    }

    /// Near the centre, on the increment in force or off it.
    fn order_of_any_increment(&mut self, series: u8) -> Message {
        let side = self.apart.below(2) as u8;
        let leg = Leg { series, side };
        let step = self.apart.pick(&[1, 1, 5, 5, 10]);
        let apart = step * self.apart.between(0, 6);
        let price = (self.centre(series) - sign(leg) * apart).clamp(1, 100_000);
        Message::Order(NewOrder {
            id: 0,
            leg,
            price: price as u32,
            quantity: self.apart.between(1, 9) as u32,
            shows: None,
        })
    }

    /// A setting meant to be refused with 11, 3 or 4: its bytes, which keep its edition.
    fn refused_setting(&mut self, venue: &Venue) -> Message {
        let series = self.apart.pick(self.shape.series);
        let mut message = match self.apart.below(2) {
            0 => self.increment(series),
            _ => self.percent(venue),
        };
        let (last, _) = last_edition(venue);
        if let Message::Increment(Increment { edition, .. })
        | Message::Percent(Percent { edition, .. }) = &mut message
        {
            *edition = last - last.min(self.apart.below(4) as u32);
        }
        let mut bytes = message.encode();
        match self.apart.below(4) {
            0 => bytes[4] = self.apart.pick(&[8, 51, 255]),
            1 => bytes[5] = self.apart.pick(&[0, 2, 6, 9, 11, 255]),
            2 => bytes.push(self.apart.below(256) as u8),
            _ => {}
        }
        bytes[0] = bytes.len() as u8;
        Message::Raw(bytes)
    }
}
