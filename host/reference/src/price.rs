//! Numbers: places, prices on and off an increment, nets and the band.

use crate::types::{BUY, OPEN};

pub const HIGHEST_PRICE: u32 = 100_000;
/// Of an order of one contract against one.
pub const HIGHEST_NET: i32 = 200_000;
/// Of an order of unequal ratios.
pub const HIGHEST_UNEQUAL_NET: i32 = 600_000;
pub const HIGHEST_RATIO: u8 = 3;
pub const HIGHEST_QUANTITY: u32 = 10_000;

pub const HIGHEST_PERCENT: u8 = 50;

/// `2 * series + side`: a side of a series, a leg, or a legging place.
pub type Place = usize;

pub fn place(series: u8, side: u8) -> Place {
    2 * usize::from(series) + usize::from(side)
}

pub fn series_of(place: Place) -> usize {
    place >> 1
}

pub fn side_of(place: Place) -> u8 {
    (place & 1) as u8
}

/// The side that a leg takes, or the side facing an order.
pub fn facing(place: Place) -> Place {
    place ^ 1
}

/// Whether price `a` is strictly better than `b` for an order on this side.
pub fn better(place: Place, a: u32, b: u32) -> bool {
    if side_of(place) == BUY {
        a > b
    } else {
        a < b
    }
}

/// Whether an order on this side at `price` crosses or equals `opposite`.
pub fn reaches(place: Place, price: i32, opposite: u32) -> bool {
    if side_of(place) == BUY {
        price >= opposite as i32
    } else {
        price <= opposite as i32
    }
}

/// +1 for a buy leg, -1 for a sell leg.
pub fn sign(leg: Place) -> i32 {
    if side_of(leg) == BUY {
        1
    } else {
        -1
    }
}

/// A leg's part of a net.
pub fn signed(leg: Place, price: u32) -> i32 {
    sign(leg) * price as i32
}

/// How far a price is above the increment's multiple below it. A divisor that is
/// known takes less time than one that is not.
fn above_increment(price: i32, increment: u8) -> i32 {
    match increment {
        1 => 0,
        5 => price.rem_euclid(5),
        _ => price.rem_euclid(10),
    }
}

/// The price rounded away from the market to the increment.
pub fn displayed(place: Place, price: i32, increment: u8) -> i32 {
    let above = above_increment(price, increment);
    if side_of(place) == BUY || above == 0 {
        price - above
    } else {
        price - above + i32::from(increment)
    }
}

/// Whether `net` is at most the market net and a part of its size above it.
pub fn in_band(net: i32, market: i32, percent: u8) -> bool {
    100 * net <= 100 * market + i32::from(percent) * market.abs()
}

pub fn is_open(status: u8) -> bool {
    status == OPEN
}

pub fn valid_quantity(quantity: u32) -> bool {
    (1..=HIGHEST_QUANTITY).contains(&quantity)
}

/// A shown quantity is part of the quantity, or all of it.
pub fn valid_shown(shown: u32, quantity: u32) -> bool {
    (1..=quantity).contains(&shown)
}

pub fn valid_price(price: u32) -> bool {
    (1..=HIGHEST_PRICE).contains(&price)
}

/// A regular price is in range and on its series' increment.
pub fn valid_regular_price(price: u32, increment: u8) -> bool {
    valid_price(price) && above_increment(price as i32, increment) == 0
}

pub fn valid_increment(increment: u8) -> bool {
    matches!(increment, 1 | 5 | 10)
}

pub fn valid_percent(percent: u8) -> bool {
    percent <= HIGHEST_PERCENT
}

pub fn valid_ratio(ratio: u8) -> bool {
    (1..=HIGHEST_RATIO).contains(&ratio)
}

pub fn valid_limit(limit: i32) -> bool {
    (-HIGHEST_NET..=HIGHEST_NET).contains(&limit)
}

pub fn valid_unequal_limit(limit: i32) -> bool {
    (-HIGHEST_UNEQUAL_NET..=HIGHEST_UNEQUAL_NET).contains(&limit)
}

/// The legs of a complex order, each with its ratio: what one unit of it is.
#[derive(Clone, Copy, Debug)]
pub struct Legs {
    pub places: [Place; 2],
    pub ratios: [u8; 2],
}

impl Legs {
    /// One contract of each.
    pub fn even(places: [Place; 2]) -> Self {
        Legs {
            places,
            ratios: [1, 1],
        }
    }

    pub fn is_even(&self) -> bool {
        self.ratios == [1, 1]
    }

    /// The net of a unit at these prices of the first leg and the second.
    pub fn net(&self, prices: [u32; 2]) -> i32 {
        let part = |at: usize| i32::from(self.ratios[at]) * signed(self.places[at], prices[at]);
        part(0) + part(1)
    }

    /// How many whole units these sizes of the sides taken fill.
    pub fn units(&self, sizes: [u32; 2]) -> u32 {
        let fills = |at: usize| whole_units(sizes[at], self.ratios[at]);
        fills(0).min(fills(1))
    }

    /// The two sides that the legs would take.
    pub fn taken(&self) -> [Place; 2] {
        self.places.map(facing)
    }
}

/// How many times a size holds a ratio, by divisors that are known.
fn whole_units(size: u32, ratio: u8) -> u32 {
    match ratio {
        1 => size,
        2 => size / 2,
        _ => size / 3,
    }
}

/// Two bits for each place: the ratio of the leg there, 0 where there is none.
pub fn by_place(places: [Place; 2], ratios: [u8; 2]) -> u32 {
    let at = |which: usize| u32::from(ratios[which]) << (2 * places[which]);
    at(0) | at(1)
}

/// The places set in a mask, rising.
pub fn places(mut mask: u16) -> impl Iterator<Item = Place> {
    std::iter::from_fn(move || {
        if mask == 0 {
            return None;
        }
        let place = mask.trailing_zeros() as Place;
        mask &= mask - 1;
        Some(place)
    })
}

pub fn bit(place: Place) -> u16 {
    1 << place
}

#[cfg(test)]
mod tests {
    use super::*;

    #[test]
    fn displayed_price_goes_down_to_buy_and_up_to_sell() {
        let (buy, sell) = (place(3, 0), place(3, 1));
        assert_eq!(displayed(buy, 113, 5), 110);
        assert_eq!(displayed(sell, 113, 5), 115);
        assert_eq!(displayed(buy, 119, 10), 110);
        assert_eq!(displayed(sell, 111, 10), 120);
        assert_eq!(displayed(sell, 110, 10), 110);
        assert_eq!(displayed(buy, -1, 5), -5);
        assert_eq!(displayed(sell, -1, 5), 0);
        assert_eq!(
            (displayed(buy, 113, 1), displayed(sell, 113, 1)),
            (113, 113)
        );
    }

    #[test]
    fn regular_prices_are_multiples_of_the_increment() {
        let valid = |increment| (1..40).filter(move |price| valid_regular_price(*price, increment));
        assert_eq!(valid(1).count(), 39);
        assert_eq!(valid(5).collect::<Vec<_>>(), [5, 10, 15, 20, 25, 30, 35]);
        assert_eq!(valid(10).collect::<Vec<_>>(), [10, 20, 30]);
        assert!(valid_regular_price(100_000, 1) && !valid_regular_price(100_001, 1));
    }

    #[test]
    fn band_is_wider_towards_zero_for_a_credit() {
        assert!(in_band(-190, -200, 5));
        assert!(!in_band(-189, -200, 5));
        assert!(in_band(0, 0, 5));
        assert!(!in_band(1, 0, 5));
        assert!(in_band(105, 100, 5));
        assert!(!in_band(106, 100, 5));
    }

    #[test]
    fn band_is_as_wide_as_its_percentage() {
        assert!(in_band(100, 100, 0) && !in_band(101, 100, 0));
        assert!(in_band(150, 100, 50) && !in_band(151, 100, 50));
        assert!(in_band(-100, -200, 50) && !in_band(-99, -200, 50));
        assert!(in_band(200_000, 200_000, 50));
    }

    #[test]
    fn net_weighs_each_leg_by_its_ratio() {
        let legs = Legs {
            places: [place(0, 0), place(1, 1)],
            ratios: [3, 2],
        };
        assert_eq!(legs.net([130, 90]), 210);
        assert_eq!(legs.net([1, 100_000]), -199_997);
        assert_eq!(Legs::even(legs.places).net([130, 90]), 40);
        let bought = Legs {
            places: [place(0, 0), place(1, 0)],
            ratios: [3, 2],
        };
        assert_eq!(bought.net([100_000, 100_000]), 500_000);
        assert!(in_band(500_000, 500_000, 50) && !in_band(600_000, 399_999, 50));
    }

    #[test]
    fn units_are_whole() {
        let legs = Legs {
            places: [0, 2],
            ratios: [3, 2],
        };
        assert_eq!(legs.units([9, 5]), 2);
        assert_eq!(legs.units([2, 100]), 0);
        assert_eq!(legs.units([100, 1]), 0);
        assert_eq!(legs.units([3, 2]), 1);
    }

    #[test]
    fn by_place_tells_ratios_and_sides_whichever_leg_is_first() {
        let told = by_place([0, 3], [2, 1]);
        assert_eq!(told, by_place([3, 0], [1, 2]));
        assert_ne!(told, by_place([0, 3], [1, 2]));
        assert_ne!(told, by_place([1, 3], [2, 1]));
    }

    #[test]
    fn places_of_a_mask_rise() {
        let all: Vec<Place> = places(0b1000_0000_0010_0101).collect();
        assert_eq!(all, [0, 2, 5, 15]);
        assert_eq!(places(0).count(), 0);
    }
}
