//! What trades take of their makers, shown size or reserve, followed through the records
//! of a message.

use crate::message::{Leg, Message};
use crate::model::Turn;
use crate::record::Record;
use crate::view::{held_regular, shown, sign};
use reference::Venue;

/// What is left of the orders that rested when a message began.
pub struct Takings {
    makers: Vec<Maker>,
}

#[derive(Clone, Copy, Debug)]
pub struct Maker {
    pub id: u32,
    pub side: Leg,
    pub price: u32,
    pub shown: u32,
    pub reserve: u32,
}

impl Takings {
    pub fn before(venue: &Venue) -> Self {
        let makers = held_regular(venue).map(|order| Maker {
            id: order.id,
            side: Leg {
                series: order.series,
                side: order.side,
            },
            price: order.price,
            shown: shown(order),
            reserve: order.reserve,
        });
        Takings {
            makers: makers.collect(),
        }
    }

    pub fn makers(&self) -> &[Maker] {
        &self.makers
    }

    /// The order with this id, as it is left.
    pub fn maker(&self, id: u32) -> Option<&Maker> {
        self.makers.iter().find(|maker| maker.id == id)
    }

    /// What a trade takes: shown size while its maker shows some, and then reserve; of
    /// a maker that is no regular order, its legging order.
    pub fn take(&mut self, record: &Record) -> Result<Option<Turn>, String> {
        let Record::Trade(trade) = record else {
            return Ok(None);
        };
        let mut makers = self.makers.iter_mut();
        let Some(maker) = makers.find(|order| order.id == trade.maker) else {
            return Ok(Some(Turn::Legging));
        };
        let (turn, left) = match maker.shown {
            0 => (Turn::Reserve, &mut maker.reserve),
            _ => (Turn::Shown, &mut maker.shown),
        };
        match left.checked_sub(trade.quantity) {
            Some(less) => {
                *left = less;
                Ok(Some(turn))
            }
            None => Err(format!(
                "record \"{record}\" takes more than the {left} of its maker's {}",
                match turn {
                    Turn::Reserve => "reserve",
                    _ => "shown size",
                }
            )),
        }
    }
}

/// The message of an order has at most two trades with one maker, the first of its shown
/// size and the second of its reserve; at one price all shown size by id, then all
/// reserve by id, then the legging order, and a better price before a worse one. What
/// complex orders take of a maker is never more than it showed when the message began.
pub fn check_takings(before: &Venue, message: &Message, effects: &[Record]) -> Result<(), String> {
    let mut takings = Takings::before(before);
    let mut last = None;
    for (index, record) in effects.iter().enumerate() {
        let Some(turn) = takings.take(record)? else {
            continue;
        };
        if matches!(message, Message::Order(_)) && with_maker_of(record, &effects[..index]) > 1 {
            return Err(format!(
                "record \"{record}\" is a third trade with one maker"
            ));
        }
        match arriving_turn(message, record, turn) {
            Some(rank) if last.is_some_and(|last| last >= rank) => {
                return Err(format!("record \"{record}\" comes out of its turn"));
            }
            Some(rank) => last = Some(rank),
            None if turn != Turn::Shown => {
                return Err(format!(
                    "record \"{record}\" takes other than shown size for a complex order"
                ));
            }
            None => {}
        }
    }
    Ok(())
}

/// How many of some records are trades with the maker of this one.
fn with_maker_of(record: &Record, earlier: &[Record]) -> usize {
    let maker_of = |record: &Record| match *record {
        Record::Trade(trade) => Some(trade.maker),
        _ => None,
    };
    let earlier = earlier.iter().map(maker_of);
    earlier.filter(|maker| *maker == maker_of(record)).count()
}

/// The rank of an arriving order's trade: price, what is taken, id; none of a trade that
/// is a complex order's.
fn arriving_turn(message: &Message, record: &Record, turn: Turn) -> Option<(i64, Turn, u32)> {
    let (Message::Order(order), Record::Trade(trade)) = (message, record) else {
        return None;
    };
    let rank = sign(order.leg) * i64::from(trade.price);
    (trade.taker == order.id).then_some((rank, turn, trade.maker))
}

#[cfg(test)]
mod tests {
    use super::*;
    use crate::record::parse_sheet;
    use crate::text::{encode_session, parse_session};
    use reference::run;

    /// Checks trades of a message upon what a session leaves.
    fn checked(session: &str, message: &str, sheet: &str) -> Result<(), String> {
        let venue = run(&encode_session(session).unwrap(), &mut [0; 4096]).venue;
        let message = &parse_session(message).unwrap()[0];
        check_takings(&venue, message, &parse_sheet(sheet).unwrap())
    }

    const BIDS: &str = "order 1 buy 5 series 0 at 115 shows 2\norder 2 buy 3 series 0 at 115\n\
        order 3 buy 4 series 0 at 110 shows 1\n";

    #[test]
    fn trades_in_their_turn_hold() {
        let sheet = "65 0 1 115 2 4 1\n65 0 1 115 3 4 2\n65 0 1 115 3 4 1\n65 0 1 110 1 4 3\n\
            65 0 1 110 3 4 3\n";
        let seller = "order 4 sell 12 series 0 at 110";
        assert_eq!(checked(BIDS, seller, sheet), Ok(()));
    }

    #[test]
    fn each_wrong_turn_is_found() {
        let seller = "order 4 sell 12 series 0 at 110";
        for (sheet, expected) in [
            // One trade for shown size and reserve.
            (
                "65 0 1 115 5 4 1",
                "takes more than the 2 of its maker's shown size",
            ),
            (
                "65 0 1 115 2 4 1\n65 0 1 115 4 4 1",
                "takes more than the 3 of its maker's reserve",
            ),
            // Reserve before another's shown size.
            (
                "65 0 1 115 2 4 1\n65 0 1 115 3 4 1\n65 0 1 115 3 4 2",
                "out of its turn",
            ),
            // Three trades: slices of the shown quantity.
            (
                "65 0 1 115 2 4 1\n65 0 1 115 2 4 1\n65 0 1 115 1 4 1",
                "a third trade with one maker",
            ),
            ("65 0 1 115 1 4 1\n65 0 1 115 1 4 1", "out of its turn"),
            // The other leg of a hit, in three trades.
            (
                "65 0 1 115 1 9 2\n65 0 1 115 1 9 2\n65 0 1 115 1 9 2",
                "a third trade with one maker",
            ),
            ("65 0 1 110 1 4 3\n65 0 1 115 2 4 1", "out of its turn"),
            ("65 0 1 115 3 4 2\n65 0 1 115 2 4 1", "out of its turn"),
        ] {
            let found = checked(BIDS, seller, sheet).unwrap_err();
            assert!(found.contains(expected), "{sheet}: {found}");
        }
    }

    #[test]
    fn complex_orders_take_shown_size_only() {
        let seller = "complex 4 sell 0 sell 1 class 0 net -9 quantity 9";
        let shown = "65 0 1 115 1 4 1\n65 0 1 115 1 4 1\n65 0 1 115 3 4 2";
        assert_eq!(checked(BIDS, seller, shown), Ok(()));
        let reserve = "65 0 1 115 2 4 1\n65 0 1 115 1 4 1";
        for message in [seller, "sweep"] {
            let found = checked(BIDS, message, reserve).unwrap_err();
            assert!(found.ends_with("takes other than shown size for a complex order"));
        }
    }
}
