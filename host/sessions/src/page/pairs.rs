//! How the net of a pair comes about.

use super::Done;
use crate::message::Message;
use crate::record::{Pair, Record};
use crate::view::{find_complex, parts, parts_of, Part};

/// The legs of a complex order, with their ratios, and its limit.
struct Order {
    parts: [Part; 2],
    limit: i32,
}

/// An order that rested before the message, or came with it.
fn order_of(done: &Done, id: u32) -> Option<Order> {
    match &done.explained.message {
        Message::Complex(came) if came.id == id => Some(Order {
            parts: parts(came.legs, came.unit()),
            limit: came.limit,
        }),
        _ => find_complex(done.before, id).map(|order| Order {
            parts: parts_of(order),
            limit: order.limit,
        }),
    }
}

/// What a leg traded for a pair: the price and the contracts.
struct Traded {
    price: u32,
    contracts: u32,
}

/// The arithmetic of the pair that stands at a place of a message's records: by the trades
/// before it, what each leg dealt at, and the net of both beside the limit.
pub fn arithmetic(done: &Done, place: usize) -> Option<String> {
    let Record::Pair(Pair { id, .. }) = *done.records.get(place)? else {
        return None;
    };
    let Order { parts, limit } = order_of(done, id)?;
    let mut legs = Vec::new();
    let mut terms = Vec::new();
    let mut net = 0;
    for part in parts {
        let Traded { price, contracts } = traded(&done.records[..place], id, part.leg.series)?;
        legs.push(leg_in_words(part, price, contracts));
        terms.push(term(part, price));
        net += part.of_net(i64::from(price));
    }
    let (legs, terms) = (legs.join(", "), terms.join(" "));
    let terms = terms.trim_start_matches("+ ");
    Some(format!("{legs}: {terms} = {net}, limit {limit}"))
}

/// The trades of an order in a series, of those that end a list of records.
fn traded(records: &[Record], order: u32, wanted: u8) -> Option<Traded> {
    let mut found: Option<Traded> = None;
    for record in records.iter().rev() {
        let Record::Trade(trade) = record else {
            break;
        };
        if trade.series != wanted || ![trade.taker, trade.maker].contains(&order) {
            continue;
        }
        let before = found.map_or(0, |traded| traded.contracts);
        found = Some(Traded {
            price: trade.price,
            contracts: before + trade.quantity,
        });
    }
    found
}

fn leg_in_words(part: Part, price: u32, contracts: u32) -> String {
    let verb = ["buys", "sells"][usize::from(part.leg.side)];
    let series = part.leg.series;
    format!("{verb} {contracts} of series {series} at {price}")
}

/// What a leg adds to the net, with its sign.
fn term(part: Part, price: u32) -> String {
    let sign = ["+", "-"][usize::from(part.leg.side)];
    match part.ratio {
        1 => format!("{sign} {price}"),
        ratio => format!("{sign} {ratio} x {price}"),
    }
}
