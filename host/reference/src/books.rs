//! The state inside a call, and the prices of a side.

use crate::book::{Level, RegularBook, Resting};
use crate::price::{
    better, bit, by_place, displayed, in_band, is_open, place, series_of, side_of, Legs, Place,
};
use crate::types::{Complex, Edition, Legging, Listed, Regular, Settings, Venue};
use crate::types::{BUY, CEILING, COMPLEX_PLACES, LEGGING_PLACES, SERIES};

#[derive(Clone, Copy, Debug)]
pub struct ComplexOrder {
    pub id: u32,
    pub legs: Legs,
    pub class: u8,
    pub limit: i32,
    /// In units.
    pub quantity: u32,
    /// The ratio of each of its legs, by place.
    pub by_place: u32,
}

impl ComplexOrder {
    pub fn new(id: u32, legs: Legs, class: u8, limit: i32, quantity: u32) -> Self {
        ComplexOrder {
            id,
            legs,
            class,
            limit,
            quantity,
            by_place: by_place(legs.places, legs.ratios),
        }
    }

    /// What an order has by place that has the same series and ratios and each side
    /// reversed, whichever leg is named first.
    pub fn reversed(&self) -> u32 {
        by_place(self.legs.taken(), self.legs.ratios)
    }

    /// The two places of its legging orders, rising.
    pub fn places(&self) -> [Place; 2] {
        rising(self.legs.places)
    }
}

fn rising([a, b]: [Place; 2]) -> [Place; 2] {
    [a.min(b), a.max(b)]
}

/// A legging order, with what its test needs of its parent.
#[derive(Clone, Copy, Debug, Default)]
pub struct Standing {
    pub parent: u32,
    pub price: u32,
    pub quantity: u32,
    pub other: Place,
    pub limit: i32,
    pub class: u8,
}

#[derive(Clone, Debug)]
pub struct Books {
    pub regular: RegularBook,
    /// In rising id; an order filled during a message stays with quantity 0
    /// until the message's work on complex orders is done.
    pub complex: Vec<ComplexOrder>,
    pub standing: [Standing; LEGGING_PLACES],
    /// The legging places in use.
    pub filled: u16,
    pub series: [Listed; SERIES],
    pub last: u32,
    /// In rising edition and message number.
    pub editions: Vec<Edition>,
    /// In force: of each figure the last of the editions.
    pub settings: Settings,
    /// Of each series the numbers of the messages that generated last, oldest first.
    pub generations: [[u32; CEILING]; SERIES],
    /// The last id that a limited sweep looked at.
    pub reached: u32,
}

impl Books {
    pub fn fresh() -> Self {
        Books {
            regular: RegularBook::default(),
            complex: Vec::with_capacity(COMPLEX_PLACES),
            standing: [Standing::default(); LEGGING_PLACES],
            filled: 0,
            series: [Listed::FRESH; SERIES],
            last: 0,
            editions: Vec::new(),
            settings: Settings::FIRST,
            generations: [[0; CEILING]; SERIES],
            reached: 0,
        }
    }

    pub fn is_filled(&self, place: Place) -> bool {
        self.filled & bit(place) != 0
    }

    pub fn is_series_open(&self, place: Place) -> bool {
        is_open(self.series[series_of(place)].status)
    }

    /// The legging order's own price at a place, if one stands there.
    pub fn legging_price(&self, place: Place) -> Option<u32> {
        self.is_filled(place).then(|| self.standing[place].price)
    }

    /// The best own price of a side, legging orders included.
    pub fn best_own(&self, place: Place) -> Option<u32> {
        best_of(place, self.regular.best(place), self.legging_price(place))
    }

    /// What is shown at the best own price of a side, the legging order's quantity
    /// included where that is its price.
    pub fn own_level(&self, place: Place) -> Option<Level> {
        let price = self.best_own(place)?;
        let shown = self
            .regular
            .level(place)
            .filter(|level| level.price == price);
        let legging = self.legging_price(place).filter(|own| *own == price);
        let size = shown.map_or(0, |level| level.size)
            + legging.map_or(0, |_| self.standing[place].quantity);
        Some(Level { price, size })
    }

    /// The best regular price and its size, unless a legging order on that
    /// side has a strictly better own price.
    pub fn clear(&self, place: Place) -> Option<Level> {
        let level = self.regular.level(place)?;
        match self.legging_price(place) {
            Some(price) if better(place, price, level.price) => None,
            _ => Some(level),
        }
    }

    pub fn away(&self, place: Place) -> Option<u32> {
        let listed = &self.series[series_of(place)];
        let price = if side_of(place) == BUY {
            listed.bid
        } else {
            listed.offer
        };
        (price > 0).then_some(price)
    }

    fn market_best(&self, place: Place) -> Option<u32> {
        best_of(place, self.regular.best(place), self.away(place))
    }

    /// Net of the market bests that the legs would take.
    pub fn market_net(&self, legs: &Legs) -> Option<i32> {
        let [first, second] = legs.taken();
        let prices = [self.market_best(first)?, self.market_best(second)?];
        Some(legs.net(prices))
    }

    /// Net of the best regular prices that the legs would take, where both have one.
    pub fn regular_net(&self, legs: &Legs) -> Option<i32> {
        let [first, second] = legs.taken();
        let prices = [self.regular.best(first)?, self.regular.best(second)?];
        Some(legs.net(prices))
    }

    pub fn is_in_band(&self, net: i32, legs: &Legs) -> bool {
        match self.market_net(legs) {
            Some(market) => in_band(net, market, self.settings.percent),
            None => false,
        }
    }

    pub fn increment(&self, place: Place) -> u8 {
        self.settings.increments[series_of(place)]
    }

    pub fn displayed(&self, place: Place, price: i32) -> i32 {
        displayed(place, price, self.increment(place))
    }

    /// The highest number of a message that is kept: an edition's or a generation's.
    pub fn highest_kept(&self) -> u32 {
        let edition = self.editions.last().map_or(0, |entry| entry.number);
        let generations = self.generations.iter().flatten().copied();
        generations.fold(edition, u32::max)
    }

    pub fn complex_index(&self, id: u32) -> Option<usize> {
        self.complex
            .binary_search_by_key(&id, |order| order.id)
            .ok()
    }
}

fn best_of(place: Place, a: Option<u32>, b: Option<u32>) -> Option<u32> {
    match (a, b) {
        (Some(a), Some(b)) if better(place, b, a) => Some(b),
        (None, b) => b,
        (a, _) => a,
    }
}

impl Books {
    /// Adds orders in rising id.
    pub fn add_regular(&mut self, orders: &[Regular]) {
        let places = orders.iter().map(|order| place(order.series, order.side));
        self.regular.make_room(places.clone());
        for (place, order) in places.zip(orders) {
            let resting = Resting::showing(order.id, order.price, order.quantity, order.display);
            self.regular.insert(place, resting);
        }
    }

    pub fn add_complex(&mut self, order: &Complex) {
        let legs = Legs {
            places: [
                place(order.series1, order.side1),
                place(order.series2, order.side2),
            ],
            ratios: [order.ratio1, order.ratio2],
        };
        let added = ComplexOrder::new(order.id, legs, order.class, order.limit, order.quantity);
        self.complex.push(added);
    }

    /// The venue by value, in its one form.
    pub fn to_venue(&self) -> Venue {
        let mut venue = Venue::fresh();
        let mut count = 0;
        for (slot, (place, order)) in venue.regular.iter_mut().zip(self.regular.iter()) {
            *slot = regular_at(place, order);
            count += 1;
        }
        venue.regular[..count].sort_unstable_by_key(|order| order.id);
        for (slot, order) in venue.complex.iter_mut().zip(&self.complex) {
            *slot = complex_of(order);
        }
        for place in crate::price::places(self.filled) {
            let standing = &self.standing[place];
            venue.legging[place] = Legging {
                parent: standing.parent,
                price: standing.price,
                quantity: standing.quantity,
            };
        }
        venue.series = self.series;
        venue.last = self.last;
        venue.editions[..self.editions.len()].copy_from_slice(&self.editions);
        venue.generations = self.generations;
        venue.reached = self.reached;
        venue
    }
}

fn regular_at(place: Place, order: &Resting) -> Regular {
    Regular {
        id: order.id,
        series: series_of(place) as u8,
        side: side_of(place),
        price: order.price,
        quantity: order.quantity,
        reserve: order.quantity - order.shown,
        display: order.display.min(order.quantity),
    }
}

fn complex_of(order: &ComplexOrder) -> Complex {
    let Legs {
        places: [first, second],
        ratios: [ratio1, ratio2],
    } = order.legs;
    Complex {
        id: order.id,
        series1: series_of(first) as u8,
        side1: side_of(first),
        series2: series_of(second) as u8,
        side2: side_of(second),
        class: order.class,
        limit: order.limit,
        quantity: order.quantity,
        ratio1,
        ratio2,
    }
}
