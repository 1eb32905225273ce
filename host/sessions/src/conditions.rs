//! Every condition of generation of a leg, each asked by itself: generation stops at the first
//! that fails, and here those after it are asked too.

use crate::view::{legs_of, ratios_allowed, Declined, View};
use reference::{Complex, Legging, Venue};

/// How many conditions there are.
pub const CONDITIONS: usize = 11;

/// What a leg's legging order would be, by the clear price of the other leg.
#[derive(Clone, Copy, Debug, PartialEq, Eq)]
pub struct Offered {
    pub price: i64,
    pub displayed: i64,
    pub quantity: u32,
}

/// The conditions of a leg.
#[derive(Clone, Debug, PartialEq, Eq)]
pub struct Conditions {
    /// In the document's order: its ratios; its series open; in band; a clear price of the
    /// other leg; its displayed price in range; no worse than the book; the own price and the
    /// away price opposite not reached; its place; no other made to fail; the ceiling. None
    /// where it cannot be asked: without a price, or of an order of unequal ratios.
    pub answers: [Option<Result<(), Declined>>; CONDITIONS],
    pub offered: Option<Offered>,
}

impl Conditions {
    /// The first condition that fails.
    pub fn first_failing(&self) -> Option<&Declined> {
        let mut asked = self.answers.iter().flatten();
        asked.find_map(|answer| answer.as_ref().err())
    }

    /// The legging order that another makes fail, if there is one.
    pub fn made_to_fail(&self) -> Option<u32> {
        match self.answers[9] {
            Some(Err(Declined::OtherWouldFail { parent, .. })) => Some(parent),
            _ => None,
        }
    }
}

impl View {
    /// The conditions of a leg, for a message with this number.
    pub fn conditions(
        &self,
        number: u32,
        venue: &Venue,
        order: &Complex,
        which: usize,
    ) -> Conditions {
        let mut answers = [const { None }; CONDITIONS];
        let ratios = ratios_allowed(order);
        let stops = ratios.is_err();
        answers[0] = Some(ratios);
        if stops {
            return Conditions {
                answers,
                offered: None,
            };
        }
        let leg = legs_of(order)[which];
        let offered = self.offered(order, which);
        answers[1] = Some(self.open_allowed(order));
        answers[2] = Some(self.band_allowed(order));
        answers[3] = Some(offered.clone().map(|_| ()));
        answers[10] = Some(self.traffic_allowed(number, leg.series));
        let offered = offered.ok().map(|(price, quantity)| Offered {
            price,
            displayed: self.displayed(leg, price),
            quantity,
        });
        if let Some(offered) = &offered {
            self.ask_price(venue, order, which, offered, &mut answers);
        }
        Conditions { answers, offered }
    }

    /// The conditions of a leg's price and of its place.
    fn ask_price(
        &self,
        venue: &Venue,
        order: &Complex,
        which: usize,
        offered: &Offered,
        answers: &mut [Option<Result<(), Declined>>; CONDITIONS],
    ) {
        let (leg, price) = (legs_of(order)[which], offered.price);
        answers[4] = Some(self.range_allowed(leg, price));
        answers[5] = Some(self.book_allowed(leg, price));
        answers[6] = Some(self.own_allowed(leg, price));
        answers[7] = Some(self.away_allowed(leg, price));
        answers[8] = Some(self.holder_allowed(venue, leg, order.class, price));
        // A price out of range stands in no place.
        let made = u32::try_from(price).ok().filter(|price| *price <= 100_000);
        answers[9] = made.map(|price| {
            let made = Legging {
                parent: order.id,
                price,
                quantity: offered.quantity,
            };
            self.others_allowed(venue, leg, made)
        });
    }
}
