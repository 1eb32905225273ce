//! The rules of prices, standing and generation, worked out from a venue as a
//! caller sees it. Nothing here is shared with the reference but its types.

use crate::causes::Standing;
use crate::message::{Leg, NewComplex};
use crate::settings::{Figure, InForce};
use reference::{Complex, Legging, Listed, Regular, Venue};
use std::fmt::{self, Display};

#[derive(Clone, Copy, Debug, PartialEq, Eq)]
pub struct Level {
    pub price: i64,
    pub size: i64,
}

/// The best regular prices, by what is shown, with what stands in the legging places.
#[derive(Clone, Debug)]
pub struct View {
    best: [[Option<Level>; 2]; 8],
    pub legging: [Legging; 16],
    series: [Listed; 8],
    pub in_force: InForce,
    /// Of each series the messages of its last 20 generations, zeros before the first.
    pub generations: [[u32; 20]; 8],
}

pub fn place_of(leg: Leg) -> usize {
    2 * usize::from(leg.series) + usize::from(leg.side)
}

pub fn leg_at(place: usize) -> Leg {
    Leg {
        series: (place / 2) as u8,
        side: (place % 2) as u8,
    }
}

pub fn legs_of(order: &Complex) -> [Leg; 2] {
    [
        Leg {
            series: order.series1,
            side: order.side1,
        },
        Leg {
            series: order.series2,
            side: order.side2,
        },
    ]
}

/// A complex order as it comes to rest.
pub fn to_rest(order: &NewComplex) -> Complex {
    let ([first, second], [ratio1, ratio2]) = (order.legs, order.unit());
    Complex {
        id: order.id,
        series1: first.series,
        side1: first.side,
        series2: second.series,
        side2: second.side,
        class: order.class,
        limit: order.limit,
        quantity: order.quantity,
        ratio1,
        ratio2,
    }
}

/// A leg with the contracts that one unit of its order has of it.
#[derive(Clone, Copy, Debug, PartialEq, Eq)]
pub struct Part {
    pub leg: Leg,
    pub ratio: i64,
}

impl Part {
    /// What it adds to the net of a unit at this price.
    pub fn of_net(self, price: i64) -> i64 {
        sign(self.leg) * self.ratio * price
    }
}

pub fn parts(legs: [Leg; 2], ratios: [u8; 2]) -> [Part; 2] {
    let part = |at: usize| Part {
        leg: legs[at],
        ratio: i64::from(ratios[at]),
    };
    [part(0), part(1)]
}

pub fn ratios_of(order: &Complex) -> [u8; 2] {
    [order.ratio1, order.ratio2]
}

pub fn parts_of(order: &Complex) -> [Part; 2] {
    parts(legs_of(order), ratios_of(order))
}

/// Whether an order is of kind 10: not of one contract against one.
pub fn has_ratios(order: &Complex) -> bool {
    ratios_of(order) != [1, 1]
}

pub fn opposite(leg: Leg) -> Leg {
    Leg {
        series: leg.series,
        side: 1 - leg.side,
    }
}

pub fn sign(leg: Leg) -> i64 {
    1 - 2 * i64::from(leg.side)
}

/// Strictly better to rest at on this side.
pub fn beats(leg: Leg, a: i64, b: i64) -> bool {
    sign(leg) * a > sign(leg) * b
}

/// Whether a price of this side meets one of the other.
fn reaches(leg: Leg, price: i64, facing: i64) -> bool {
    !beats(leg, facing, price)
}

/// Down to the increment for a buy, up to it for a sell.
pub fn rounded(leg: Leg, price: i64, increment: i64) -> i64 {
    let up = if leg.side == 1 { increment - 1 } else { 0 };
    (price + up).div_euclid(increment) * increment
}

/// Whether a net is in the band of a market net.
pub fn within(net: i64, market: i64, percent: i64) -> bool {
    100 * net <= 100 * market + percent * market.abs()
}

/// What an order shows; the rest of its quantity is reserve.
pub fn shown(order: &Regular) -> u32 {
    order.quantity.saturating_sub(order.reserve)
}

pub fn side_of(order: &Regular) -> Leg {
    Leg {
        series: order.series,
        side: order.side,
    }
}

pub fn held_regular(venue: &Venue) -> impl Iterator<Item = &Regular> {
    venue.regular.iter().take_while(|order| order.quantity > 0)
}

pub fn held_complex(venue: &Venue) -> impl Iterator<Item = &Complex> {
    venue.complex.iter().take_while(|order| order.quantity > 0)
}

pub fn find_regular(venue: &Venue, id: u32) -> Option<&Regular> {
    held_regular(venue).find(|order| order.id == id)
}

pub fn find_complex(venue: &Venue, id: u32) -> Option<&Complex> {
    held_complex(venue).find(|order| order.id == id)
}

impl View {
    pub fn of(venue: &Venue) -> View {
        let mut view = View {
            best: [[None; 2]; 8],
            legging: venue.legging,
            series: venue.series,
            in_force: InForce::of(venue),
            generations: venue.generations,
        };
        for order in held_regular(venue) {
            view.count(order);
        }
        view
    }

    /// Counts what an order shows; one that shows nothing gives no price.
    fn count(&mut self, order: &Regular) {
        let leg = side_of(order);
        let (price, size) = (i64::from(order.price), i64::from(shown(order)));
        if size == 0 {
            return;
        }
        let best = &mut self.best[usize::from(leg.series)][usize::from(leg.side)];
        match best {
            Some(level) if level.price == price => level.size += size,
            Some(level) if beats(leg, level.price, price) => {}
            _ => *best = Some(Level { price, size }),
        }
    }

    pub fn best(&self, leg: Leg) -> Option<Level> {
        self.best[usize::from(leg.series)][usize::from(leg.side)]
    }

    pub fn standing(&self, leg: Leg) -> Option<Legging> {
        let order = self.legging[place_of(leg)];
        (order.quantity > 0).then_some(order)
    }

    /// All that stands at the best own price of a side: shown size, and the legging
    /// order's where that is its price.
    pub fn own_level(&self, leg: Leg) -> Option<Level> {
        let price = self.best_own(leg)?;
        let shown = self.best(leg).map(|level| (level.price, level.size));
        let legging = self.standing(leg);
        let made = legging.map(|order| (i64::from(order.price), i64::from(order.quantity)));
        let at_price = shown.into_iter().chain(made).filter(|(at, _)| *at == price);
        let size = at_price.map(|(_, size)| size).sum();
        Some(Level { price, size })
    }

    /// The best own price of a side, legging orders included.
    pub fn best_own(&self, leg: Leg) -> Option<i64> {
        let regular = self.best(leg).map(|level| level.price);
        let legging = self.standing(leg).map(|order| i64::from(order.price));
        better_of(leg, regular, legging)
    }

    pub fn clear(&self, leg: Leg) -> Option<Level> {
        let level = self.best(leg)?;
        let hidden = self
            .standing(leg)
            .is_some_and(|order| beats(leg, i64::from(order.price), level.price));
        (!hidden).then_some(level)
    }

    pub fn away(&self, leg: Leg) -> Option<i64> {
        let listed = self.series[usize::from(leg.series)];
        let price = [listed.bid, listed.offer][usize::from(leg.side)];
        (price != 0).then_some(i64::from(price))
    }

    pub fn market_best(&self, leg: Leg) -> Option<i64> {
        better_of(leg, self.best(leg).map(|level| level.price), self.away(leg))
    }

    /// O: the net of the market bests that the legs would take.
    pub fn market_net(&self, parts: [Part; 2]) -> Option<i64> {
        let taken = |part: Part| Some(part.of_net(self.market_best(opposite(part.leg))?));
        Some(taken(parts[0])? + taken(parts[1])?)
    }

    pub fn in_band(&self, net: i64, parts: [Part; 2]) -> bool {
        let percent = i64::from(self.in_force.percent().value);
        self.market_net(parts)
            .is_some_and(|market| within(net, market, percent))
    }

    pub fn increment(&self, series: u8) -> i64 {
        i64::from(self.in_force.increment(series).value)
    }

    pub fn displayed(&self, leg: Leg, price: i64) -> i64 {
        rounded(leg, price, self.increment(leg.series))
    }

    /// The net of the best regular prices that the legs would take.
    pub fn regular_net(&self, parts: [Part; 2]) -> Option<i64> {
        let taken = |part: Part| Some(part.of_net(self.best(opposite(part.leg))?.price));
        Some(taken(parts[0])? + taken(parts[1])?)
    }

    /// 0 closed, 1 open, 2 in auction.
    pub fn status(&self, series: u8) -> u8 {
        self.series[usize::from(series)].status
    }

    pub fn is_open(&self, leg: Leg) -> bool {
        self.status(leg.series) == 1
    }

    /// The causes for which the order at a place fails its test, in their
    /// rank: 1, 5, 2, 6.
    pub fn failing_causes(&self, leg: Leg, parent: &Complex) -> Vec<u8> {
        Standing::of(self, leg, parent).map_or(Vec::new(), |test| test.failing())
    }
}

fn better_of(leg: Leg, a: Option<i64>, b: Option<i64>) -> Option<i64> {
    match (a, b) {
        (Some(a), Some(b)) => Some(if beats(leg, b, a) { b } else { a }),
        (a, b) => a.or(b),
    }
}

/// The condition of generation that failed first.
#[derive(Clone, Debug, PartialEq, Eq)]
pub enum Declined {
    HasRatios {
        ratios: [u8; 2],
    },
    NotOpen {
        series: u8,
    },
    OutOfBand {
        limit: i64,
        market: Option<i64>,
        percent: Figure,
    },
    NoClearPrice {
        series: u8,
        side: u8,
    },
    DisplayedOutOfRange {
        displayed: i64,
        increment: Figure,
    },
    WorseThanBook {
        displayed: i64,
        best: i64,
        increment: Figure,
    },
    ReachesOwn {
        price: i64,
        own: i64,
    },
    ReachesAway {
        price: i64,
        away: i64,
    },
    PlaceHeld {
        price: i64,
        holder: u32,
        held: i64,
    },
    OtherWouldFail {
        price: i64,
        parent: u32,
    },
    /// The ceiling: the first of 20 messages, each of which generated in the series.
    AtCeiling {
        series: u8,
        first: u32,
    },
}

impl Display for Declined {
    fn fmt(&self, f: &mut fmt::Formatter) -> fmt::Result {
        match self {
            Declined::HasRatios {
                ratios: [first, second],
            } => write!(f, "an order of ratios {first} and {second} has none"),
            Declined::NotOpen { series } => write!(f, "series {series} is not open"),
            Declined::OutOfBand {
                limit,
                market: Some(market),
                percent,
            } => write!(f, "limit {limit} is not in band of market net {market} by percent {percent}"),
            Declined::OutOfBand { market: None, .. } => {
                write!(f, "a market best that the legs would take is missing")
            }
            Declined::NoClearPrice { series, side } => {
                let side = ["buy", "sell"][usize::from(*side)];
                write!(f, "the {side} side of series {series} has no clear price")
            }
            Declined::DisplayedOutOfRange { displayed, increment } => write!(
                f,
                "displayed price {displayed} is not from increment {increment} to 100000"
            ),
            Declined::WorseThanBook { displayed, best, increment } => write!(
                f,
                "displayed price {displayed} by increment {increment} is worse than the best regular price {best} of its side"
            ),
            Declined::ReachesOwn { price, own } => {
                write!(f, "price {price} reaches the own price {own} opposite")
            }
            Declined::ReachesAway { price, away } => {
                write!(f, "price {price} reaches the away price {away} opposite")
            }
            Declined::PlaceHeld {
                price,
                holder,
                held,
            } => write!(f, "the place is held by order {holder} at {held}, not to be replaced at {price}"),
            Declined::OtherWouldFail { price, parent } => write!(
                f,
                "at {price} it would make the legging order of {parent} fail its test"
            ),
            Declined::AtCeiling { series, first } => write!(
                f,
                "the ceiling: 20 were generated in series {series} since message {first}"
            ),
        }
    }
}

impl View {
    /// The legging order that generation of the message with this number makes for a leg,
    /// or the first condition that fails, in the document's order.
    pub fn generation(
        &self,
        number: u32,
        venue: &Venue,
        order: &Complex,
        which: usize,
    ) -> Result<Legging, Declined> {
        self.order_allowed(order)?;
        let leg = legs_of(order)[which];
        let (price, quantity) = self.offered(order, which)?;
        self.price_allowed(leg, price)?;
        let made = Legging {
            parent: order.id,
            price: price as u32,
            quantity,
        };
        self.place_allowed(venue, leg, order.class, made)?;
        self.traffic_allowed(number, leg.series)?;
        Ok(made)
    }

    /// The price and the quantity of a leg by the clear price of the other one.
    pub(crate) fn offered(&self, order: &Complex, which: usize) -> Result<(i64, u32), Declined> {
        let legs = legs_of(order);
        let (leg, other) = (legs[which], legs[1 - which]);
        let taken = opposite(other);
        let Some(clear) = self.clear(taken) else {
            return Err(Declined::NoClearPrice {
                series: taken.series,
                side: taken.side,
            });
        };
        let price = sign(leg) * (i64::from(order.limit) - sign(other) * clear.price);
        Ok((price, order.quantity.min(clear.size as u32)))
    }

    /// Fewer than 20 of the series in the 256 messages that end with this one.
    pub(crate) fn traffic_allowed(&self, number: u32, series: u8) -> Result<(), Declined> {
        match self.recent(number, series).count() {
            ..20 => Ok(()),
            _ => Err(Declined::AtCeiling {
                series,
                first: self.generations[usize::from(series)][0],
            }),
        }
    }

    /// The generations of a series that count for the ceiling at this number, oldest first.
    pub fn recent(&self, number: u32, series: u8) -> impl Iterator<Item = u32> + '_ {
        let last = self.generations[usize::from(series)].iter().copied();
        last.filter(move |made| *made > 0 && u64::from(*made) + 256 > u64::from(number))
    }

    /// One more generation of a series; of those kept the oldest goes.
    pub fn count_generation(&mut self, number: u32, series: u8) {
        let last = &mut self.generations[usize::from(series)];
        *last = std::array::from_fn(|at| last.get(at + 1).copied().unwrap_or(number));
    }

    /// What both legs need of their order.
    fn order_allowed(&self, order: &Complex) -> Result<(), Declined> {
        ratios_allowed(order)?;
        self.open_allowed(order)?;
        self.band_allowed(order)
    }

    pub(crate) fn open_allowed(&self, order: &Complex) -> Result<(), Declined> {
        let legs = legs_of(order);
        match legs.iter().find(|leg| !self.is_open(**leg)) {
            Some(leg) => Err(Declined::NotOpen { series: leg.series }),
            None => Ok(()),
        }
    }

    pub(crate) fn band_allowed(&self, order: &Complex) -> Result<(), Declined> {
        let (limit, parts) = (i64::from(order.limit), parts_of(order));
        if self.in_band(limit, parts) {
            return Ok(());
        }
        Err(Declined::OutOfBand {
            limit,
            market: self.market_net(parts),
            percent: self.in_force.percent(),
        })
    }

    fn price_allowed(&self, leg: Leg, price: i64) -> Result<(), Declined> {
        self.range_allowed(leg, price)?;
        self.book_allowed(leg, price)?;
        self.own_allowed(leg, price)?;
        self.away_allowed(leg, price)
    }

    pub(crate) fn range_allowed(&self, leg: Leg, price: i64) -> Result<(), Declined> {
        let displayed = self.displayed(leg, price);
        let increment = self.in_force.increment(leg.series);
        if displayed < i64::from(increment.value) || displayed > 100_000 {
            return Err(Declined::DisplayedOutOfRange {
                displayed,
                increment,
            });
        }
        Ok(())
    }

    pub(crate) fn book_allowed(&self, leg: Leg, price: i64) -> Result<(), Declined> {
        let displayed = self.displayed(leg, price);
        match self.best(leg).map(|level| level.price) {
            Some(best) if beats(leg, best, displayed) => Err(Declined::WorseThanBook {
                displayed,
                best,
                increment: self.in_force.increment(leg.series),
            }),
            _ => Ok(()),
        }
    }

    pub(crate) fn own_allowed(&self, leg: Leg, price: i64) -> Result<(), Declined> {
        match self.best_own(opposite(leg)) {
            Some(own) if reaches(leg, price, own) => Err(Declined::ReachesOwn { price, own }),
            _ => Ok(()),
        }
    }

    pub(crate) fn away_allowed(&self, leg: Leg, price: i64) -> Result<(), Declined> {
        match self.away(opposite(leg)) {
            Some(away) if reaches(leg, price, away) => Err(Declined::ReachesAway { price, away }),
            _ => Ok(()),
        }
    }

    fn place_allowed(
        &self,
        venue: &Venue,
        leg: Leg,
        class: u8,
        made: Legging,
    ) -> Result<(), Declined> {
        self.holder_allowed(venue, leg, class, i64::from(made.price))?;
        self.others_allowed(venue, leg, made)
    }

    /// Whoever holds the place is at a worse price, or of the other class at the same one.
    pub(crate) fn holder_allowed(
        &self,
        venue: &Venue,
        leg: Leg,
        class: u8,
        price: i64,
    ) -> Result<(), Declined> {
        let Some(holder) = self.standing(leg) else {
            return Ok(());
        };
        let held = i64::from(holder.price);
        let holder_class = find_complex(venue, holder.parent).map(|parent| parent.class);
        let by_class = held == price && class == 0 && holder_class == Some(1);
        if beats(leg, price, held) || by_class {
            return Ok(());
        }
        Err(Declined::PlaceHeld {
            price,
            holder: holder.parent,
            held,
        })
    }

    /// No other legging order would fail its test with this one in its place.
    pub(crate) fn others_allowed(
        &self,
        venue: &Venue,
        leg: Leg,
        made: Legging,
    ) -> Result<(), Declined> {
        let price = i64::from(made.price);
        let mut then = self.clone();
        then.legging[place_of(leg)] = made;
        for place in (0..16).filter(|place| *place != place_of(leg)) {
            let parent = then.legging[place].parent;
            let fails = find_complex(venue, parent)
                .is_some_and(|order| !then.failing_causes(leg_at(place), order).is_empty());
            if fails {
                return Err(Declined::OtherWouldFail { price, parent });
            }
        }
        Ok(())
    }
}

pub(crate) fn ratios_allowed(order: &Complex) -> Result<(), Declined> {
    if !has_ratios(order) {
        return Ok(());
    }
    let ratios = ratios_of(order);
    Err(Declined::HasRatios { ratios })
}
