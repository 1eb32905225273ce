//! The figures of a cause: the standing test of a legging order, condition by condition,
//! with what each compares in the state that is tested.

use crate::message::Leg;
use crate::settings::Figure;
use crate::view::{beats, legs_of, opposite, parts_of, sign, Level, View};
use reference::{Complex, Legging};
use std::fmt::{self, Display};

/// The standing test of a legging order, each condition with its figures.
#[derive(Clone, Debug, PartialEq, Eq)]
pub struct Standing {
    /// The place that it holds.
    pub leg: Leg,
    pub order: Legging,
    pub book: BookTest,
    pub band: BandTest,
    pub other: OtherLegTest,
    pub open: OpenTest,
}

impl Standing {
    /// The test of the order that stands at a leg, with its parent; none where none stands.
    pub fn of(view: &View, leg: Leg, parent: &Complex) -> Option<Standing> {
        let order = view.standing(leg)?;
        let legs = legs_of(parent);
        let other = if legs[0] == leg { legs[1] } else { legs[0] };
        Some(Standing {
            leg,
            order,
            book: BookTest::of(view, leg, i64::from(order.price)),
            band: BandTest::of(view, parent),
            other: OtherLegTest::of(view, [leg, other], order, parent),
            open: OpenTest::of(view, [leg, other]),
        })
    }

    /// The causes for which it fails, in their rank: 1, 5, 2, 6.
    pub fn failing(&self) -> Vec<u8> {
        let conditions = [
            (1, self.book.holds()),
            (5, self.band.holds()),
            (2, self.other.holds()),
            (6, self.open.holds()),
        ];
        let failing = conditions.iter().filter(|(_, holds)| !holds);
        failing.map(|(cause, _)| *cause).collect()
    }

    /// The figures of one of these causes, in words; none of any other.
    pub fn in_words(&self, cause: u8) -> Option<String> {
        match cause {
            1 => Some(self.book.to_string()),
            5 => Some(self.band.to_string()),
            2 => Some(self.other.to_string()),
            6 => Some(self.open.to_string()),
            _ => None,
        }
    }
}

/// Cause 1: the displayed price is no worse than the best regular of its side.
#[derive(Clone, Debug, PartialEq, Eq)]
pub struct BookTest {
    pub leg: Leg,
    pub price: i64,
    pub displayed: i64,
    pub increment: Figure,
    /// The best regular price of its side.
    pub best: Option<i64>,
}

impl BookTest {
    /// The test of an order of a leg at its own price.
    pub fn of(view: &View, leg: Leg, price: i64) -> BookTest {
        BookTest {
            leg,
            price,
            displayed: view.displayed(leg, price),
            increment: view.in_force.increment(leg.series),
            best: view.best(leg).map(|level| level.price),
        }
    }

    pub fn holds(&self) -> bool {
        !self
            .best
            .is_some_and(|best| beats(self.leg, best, self.displayed))
    }
}

impl Display for BookTest {
    fn fmt(&self, f: &mut fmt::Formatter) -> fmt::Result {
        let BookTest {
            price,
            displayed,
            increment,
            ..
        } = self;
        write!(
            f,
            "price {price} is displayed at {displayed} by increment {increment}"
        )?;
        match (self.best, self.holds()) {
            (None, _) => write!(f, ", no regular order is on its side"),
            (Some(best), true) => write!(f, ", no worse than the best regular price {best}"),
            (Some(best), false) => write!(f, ", worse than the best regular price {best}"),
        }
    }
}

/// Cause 5: N is in band.
#[derive(Clone, Debug, PartialEq, Eq)]
pub struct BandTest {
    /// N.
    pub limit: i64,
    /// The sides that the legs would take, each with its market best.
    pub bests: [(Leg, Option<i64>); 2],
    /// O, where no market best is missing.
    pub market: Option<i64>,
    pub percent: Figure,
}

impl BandTest {
    pub fn of(view: &View, parent: &Complex) -> BandTest {
        let taken = legs_of(parent).map(opposite);
        BandTest {
            limit: i64::from(parent.limit),
            bests: taken.map(|side| (side, view.market_best(side))),
            market: view.market_net(parts_of(parent)),
            percent: view.in_force.percent(),
        }
    }

    /// The highest net in band: 100 of it are at most 100 O and the percentage of |O|.
    pub fn highest(&self) -> Option<i64> {
        let percent = i64::from(self.percent.value);
        let market = self.market?;
        Some((100 * market + percent * market.abs()).div_euclid(100))
    }

    pub fn holds(&self) -> bool {
        self.highest().is_some_and(|highest| self.limit <= highest)
    }
}

impl Display for BandTest {
    fn fmt(&self, f: &mut fmt::Formatter) -> fmt::Result {
        let BandTest { limit, percent, .. } = self;
        let (Some(market), Some(highest)) = (self.market, self.highest()) else {
            let missing = self.bests.iter().filter(|(_, best)| best.is_none());
            let sides: Vec<String> = missing.map(|(side, _)| side_in_words(*side)).collect();
            let sides = sides.join(" and ");
            return write!(f, "N is {limit}, and a market best is missing: {sides}");
        };
        let is = if self.holds() { "at most" } else { "above" };
        write!(
            f,
            "N {limit} is {is} {highest}, the highest net in band of O {market} by percent {percent}"
        )
    }
}

/// Cause 2: the other leg has a clear price, the net with it is at most N, and the size
/// there is no less than the quantity.
#[derive(Clone, Debug, PartialEq, Eq)]
pub struct OtherLegTest {
    /// The side that the other leg takes.
    pub taken: Leg,
    /// Its best regular price, clear or not, and the size shown there.
    pub best: Option<Level>,
    /// The legging order of that side that has a strictly better own price.
    pub hider: Option<Legging>,
    /// The net of the own price and the clear price, where there is one.
    pub net: Option<i64>,
    /// N.
    pub limit: i64,
    pub quantity: i64,
}

/// A condition of cause 2.
#[derive(Clone, Copy, Debug, PartialEq, Eq)]
pub enum OtherLegFails {
    Clear,
    Net,
    Size,
}

impl OtherLegFails {
    pub fn name(self) -> &'static str {
        match self {
            OtherLegFails::Clear => "clear",
            OtherLegFails::Net => "net",
            OtherLegFails::Size => "size",
        }
    }
}

impl OtherLegTest {
    fn of(view: &View, [leg, other]: [Leg; 2], order: Legging, parent: &Complex) -> Self {
        let taken = opposite(other);
        let own = sign(leg) * i64::from(order.price);
        OtherLegTest {
            taken,
            best: view.best(taken),
            hider: hider(view, taken),
            net: view
                .clear(taken)
                .map(|clear| own + sign(other) * clear.price),
            limit: i64::from(parent.limit),
            quantity: i64::from(order.quantity),
        }
    }

    /// The conditions that fail; without a clear price no other is asked.
    pub fn failing(&self) -> Vec<OtherLegFails> {
        let Some((net, best)) = self.net.zip(self.best) else {
            return vec![OtherLegFails::Clear];
        };
        let mut failing = Vec::new();
        failing.extend((net > self.limit).then_some(OtherLegFails::Net));
        failing.extend((best.size < self.quantity).then_some(OtherLegFails::Size));
        failing
    }

    pub fn holds(&self) -> bool {
        self.failing().is_empty()
    }

    fn failure_in_words(&self, fails: OtherLegFails) -> String {
        let (price, size) = self.best.map_or((0, 0), |best| (best.price, best.size));
        match fails {
            OtherLegFails::Clear => no_clear_price(self.taken, self.best, self.hider),
            OtherLegFails::Net => {
                let (net, limit) = (self.net.unwrap_or_default(), self.limit);
                format!("net {net} with clear price {price} is above N {limit}")
            }
            OtherLegFails::Size => {
                let quantity = self.quantity;
                format!("size {size} at clear price {price} is below quantity {quantity}")
            }
        }
    }
}

impl Display for OtherLegTest {
    fn fmt(&self, f: &mut fmt::Formatter) -> fmt::Result {
        let failing = self.failing().into_iter();
        let words: Vec<String> = failing.map(|fails| self.failure_in_words(fails)).collect();
        if !words.is_empty() {
            return write!(f, "{}", words.join(", and "));
        }
        let (price, size) = self.best.map_or((0, 0), |best| (best.price, best.size));
        let (net, limit) = (self.net.unwrap_or_default(), self.limit);
        let quantity = self.quantity;
        write!(
            f,
            "net {net} with clear price {price} is at most N {limit}, size {size} covers {quantity}"
        )
    }
}

/// The legging order of a side that hides its best regular price.
pub fn hider(view: &View, side: Leg) -> Option<Legging> {
    let best = view.best(side)?;
    let hides = |order: &Legging| beats(side, i64::from(order.price), best.price);
    view.standing(side).filter(hides)
}

/// Why a side has no clear price.
pub fn no_clear_price(side: Leg, best: Option<Level>, hider: Option<Legging>) -> String {
    let side = side_in_words(side);
    match (best, hider) {
        (Some(best), Some(hider)) => format!(
            "{side} has no clear price: the legging order of {} at {} hides {}",
            hider.parent, hider.price, best.price
        ),
        _ => format!("{side} has no clear price: no regular order shows there"),
    }
}

fn side_in_words(side: Leg) -> String {
    let name = if side.side == 0 { "buy" } else { "sell" };
    format!("the {name} side of series {}", side.series)
}

/// Cause 6: both series are open.
#[derive(Clone, Debug, PartialEq, Eq)]
pub struct OpenTest {
    /// Both series, each with its status.
    pub series: [(u8, u8); 2],
}

impl OpenTest {
    /// The test of the series of two legs.
    pub fn of(view: &View, legs: [Leg; 2]) -> OpenTest {
        let series = legs.map(|leg| leg.series);
        OpenTest {
            series: series.map(|series| (series, view.status(series))),
        }
    }

    /// The series that are not open, each with its status.
    pub fn not_open(&self) -> impl Iterator<Item = (u8, u8)> {
        self.series.into_iter().filter(|(_, status)| *status != 1)
    }

    pub fn holds(&self) -> bool {
        self.not_open().next().is_none()
    }
}

impl Display for OpenTest {
    fn fmt(&self, f: &mut fmt::Formatter) -> fmt::Result {
        let words: Vec<String> = self
            .not_open()
            .map(|(series, status)| format!("series {series} is {}", status_name(status)))
            .collect();
        match words.is_empty() {
            true => write!(f, "both series are open"),
            false => write!(f, "{}", words.join(" and ")),
        }
    }
}

fn status_name(status: u8) -> &'static str {
    match status {
        0 => "closed",
        1 => "open",
        _ => "in auction",
    }
}
