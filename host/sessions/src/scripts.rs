//! Short scripts that lead to states that chance alone seldom finds. Prices,
//! series and quantities are drawn; ids are given when a message is sent.

use crate::message::{Away, Cancel, Leg, Message, NewComplex, NewOrder, Status};
use crate::random::Random;
use crate::view::{held_complex, held_regular};
use reference::Venue;

fn order(series: u8, side: u8, price: i64, quantity: i64) -> Message {
    Message::Order(NewOrder {
        id: 0,
        leg: Leg { series, side },
        price: price as u32,
        quantity: quantity as u32,
        shows: None,
    })
}

fn complex(legs: [(u8, u8); 2], limit: i64, quantity: i64, random: &mut Random) -> Message {
    Message::Complex(NewComplex {
        id: 0,
        legs: legs.map(|(series, side)| Leg { series, side }),
        class: random.below(2) as u8,
        limit: limit as i32,
        quantity: quantity as u32,
        ratios: None,
    })
}

fn away(series: u8, bid: i64, offer: i64) -> Message {
    Message::Away(Away {
        series,
        bid: bid as u32,
        offer: offer as u32,
    })
}

/// Cancels every order, takes back the away prices and opens the series.
pub fn clear(venue: &Venue) -> Vec<Message> {
    let complex = held_complex(venue).map(|order| order.id);
    let regular = held_regular(venue).map(|order| order.id);
    let cancels = complex
        .chain(regular)
        .map(|id| Message::Cancel(Cancel { id }));
    let mut messages: Vec<Message> = cancels.collect();
    for series in 0..8u8 {
        let listed = venue.series[usize::from(series)];
        if listed.bid > 0 || listed.offer > 0 {
            messages.push(away(series, 0, 0));
        }
        if listed.status != 1 {
            messages.push(Message::Status(Status { series, status: 1 }));
        }
    }
    messages
}

fn three_series(random: &mut Random) -> [u8; 3] {
    let first = random.below(8) as u8;
    let second = (first + 1 + random.below(3) as u8) % 8;
    let third = (second + 1 + random.below(3) as u8) % 8;
    [first, second, third]
}

fn tens(price: i64) -> i64 {
    (price + 9).div_euclid(10) * 10
}

/// A hit takes the level that a legging order A equals; what rests of the hit
/// puts A out of band; A then hides the next level from B, which would stand.
pub fn hidden_clear_price(random: &mut Random) -> Vec<Message> {
    let [s, t, v] = three_series(random);
    let hit = 10 * random.between(5, 40);
    let offer = 10 * random.between(5, 40);
    let next = offer + 10 * random.between(1, 4);
    let after = hit - (offer - 10);
    let above = tens(hit + 10 + after.abs() / 20 + 2);
    let bid = 10 * random.between(2, 20);
    let size = random.between(3, 15);
    let rest = random.between(1, 9);
    let more = random.between(0, 3);
    vec![
        away(v, 0, bid + (next - offer) + 10),
        away(t, offer - 10, 0),
        order(t, 1, next, size + more),
        complex([(v, 0), (t, 0)], bid + next, size, random),
        order(t, 1, offer, size),
        order(s, 1, above, 20),
        complex([(s, 0), (t, 0)], hit + offer, size + more, random),
        complex([(s, 0), (t, 1)], above - offer, rest, random),
        order(s, 1, hit, size + rest),
    ]
}

/// Two reversed orders that the band keeps from crossing, until a third legs in
/// during a sweep; both then generate, and the next sweep crosses them.
pub fn both_parties(random: &mut Random) -> Vec<Message> {
    let [a, b, c] = three_series(random);
    let cheap = 10 * random.between(9, 30);
    let quote = 10 * random.between(9, 30);
    let market = cheap + quote;
    let least = market * 105 / 100 + 1;
    let dear = tens(cheap + market / 20 + 20);
    let limit = random.between(least, (dear + quote - 1).min(least + 12));
    let size = random.between(1, 9);
    let low = (limit - dear - 20).div_euclid(10) * 10;
    let mut messages = vec![
        away(b, 0, quote),
        order(a, 1, cheap, size),
        order(a, 1, dear, 15),
        order(a, 0, cheap - 10, 20),
    ];
    if low >= 10 {
        messages.push(order(b, 0, low, 20));
    }
    let sizes = [random.between(1, 12), random.between(1, 12)];
    messages.extend([
        complex([(a, 1), (b, 1)], -least, sizes[0], random),
        complex([(b, 0), (a, 0)], limit, sizes[1], random),
        complex([(a, 0), (c, 0)], cheap + 50, size + 2, random),
        order(c, 1, 50, size + 1),
        Message::Sweep,
        Message::Sweep,
    ]);
    messages
}

/// The books of the trials: two offers, and an order that legs between them.
pub fn quoted_pair(random: &mut Random) -> Vec<Message> {
    let [a, b, _] = three_series(random);
    let offers = [10 * random.between(8, 30), 10 * random.between(8, 30)];
    let limit = offers[0] + offers[1] - random.between(1, 40);
    let price = limit - offers[1];
    let down = price.div_euclid(10) * 10;
    let mut messages = vec![
        order(a, 1, offers[0], random.between(1, 15)),
        order(b, 1, offers[1], random.between(1, 15)),
    ];
    if down >= 10 && random.chance(60) {
        messages.push(order(a, 0, down, random.between(1, 6)));
    }
    let quantity = random.between(1, 20);
    messages.push(complex([(a, 0), (b, 0)], limit, quantity, random));
    messages
}

/// Orders that fill one of the two books without trading.
pub fn full_book(random: &mut Random) -> Vec<Message> {
    if random.chance(50) {
        let quantity = random.between(1, 9);
        return (0..128).map(|_| order(0, 1, 5_000, quantity)).collect();
    }
    (0..32)
        .map(|_| complex([(0, 0), (1, 0)], -200_000, 5, random))
        .collect()
}
