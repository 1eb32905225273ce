//! Request (i): no better price is passed over. Every trade and every cross is looked at
//! upon the books just before it, all that was written before it done.

use crate::message::{Leg, Message};
use crate::record::{Record, Trade};
use crate::replay::{taken_side, Books, Resting};
use crate::view::{beats, opposite, parts_of, sign, Part};
use reference::{one_message, Complex, Venue};

/// More than the records of any one message take.
const ROOM: usize = 16_384;

/// A record that is looked at, by its parties.
#[derive(Clone, Copy, Debug, PartialEq, Eq)]
pub enum Parties {
    Orders,
    OrderAndLegging,
    ComplexAndOrder,
    Cross,
}

impl Parties {
    pub const ALL: [(Parties, &'static str); 4] = [
        (Parties::Orders, "trades of two regular orders"),
        (
            Parties::OrderAndLegging,
            "trades of a regular with a legging order",
        ),
        (
            Parties::ComplexAndOrder,
            "trades of a complex with a regular order",
        ),
        (Parties::Cross, "crosses"),
    ];
}

/// A record looked at upon the books just before it.
#[derive(Clone, Copy, Debug, PartialEq, Eq)]
pub struct Moment {
    pub parties: Parties,
    /// Whether there was something to ask for: another price on the side taken, or
    /// regular prices at both legs of a party of a cross.
    pub had_choice: bool,
}

impl Moment {
    /// What a record is; nothing but a trade or a cross is looked at.
    pub fn of(books: &Books, record: &Record) -> Option<Moment> {
        match record {
            Record::Trade(trade) => Moment::of_trade(books, trade),
            Record::Cross(cross) => {
                let ids = [cross.taker, cross.maker].into_iter();
                let mut parties = ids.filter_map(|id| books.complex(id));
                Some(Moment {
                    parties: Parties::Cross,
                    had_choice: parties.any(|party| legs_net(books, party).is_some()),
                })
            }
            _ => None,
        }
    }

    fn of_trade(books: &Books, trade: &Trade) -> Option<Moment> {
        let taken = taken_side(trade).ok()?;
        let parties = match (books.complex(trade.taker), books.complex(trade.maker)) {
            (Some(_), _) => Parties::ComplexAndOrder,
            (None, Some(_)) => Parties::OrderAndLegging,
            (None, None) => Parties::Orders,
        };
        let standing = books.standing(taken);
        let had_choice = books.resting(taken).any(|order| order.price != trade.price)
            || standing.is_some_and(|order| order.price != trade.price);
        Some(Moment {
            parties,
            had_choice,
        })
    }
}

/// What a record passed over, in words. Of a trade: a strictly better shown or legging
/// price on the side taken; where the taker is a regular order, a better reserve too; and
/// where the maker is a complex order, any regular contract at that price. Of a cross: a
/// party's net above what the best regular prices of both its legs give it.
pub fn passed_over(books: &Books, record: &Record) -> Option<String> {
    match record {
        Record::Trade(trade) => passed_by_trade(books, trade),
        Record::Cross(cross) => {
            let net = i64::from(cross.net);
            let nets = [(cross.taker, net), (cross.maker, -net)];
            nets.into_iter()
                .find_map(|(party, net)| above_legs(books, party, net))
        }
        _ => None,
    }
}

fn passed_by_trade(books: &Books, trade: &Trade) -> Option<String> {
    let Trade { price, maker, .. } = *trade;
    let taken = taken_side(trade).ok()?;
    let with_reserve = books.order(trade.taker).is_some();
    let passed = better(books, taken, price, with_reserve);
    let passed = passed.map(|what| format!("passes over {what}"));
    passed.or_else(|| {
        books.complex(maker)?;
        let at_price = books.resting(taken).find(|order| order.price == price)?;
        let what = in_words(at_price);
        Some(format!("takes the legging order of {maker} before {what}"))
    })
}

/// The first of the best that stands at a strictly better price.
fn better(books: &Books, taken: Leg, price: u32, with_reserve: bool) -> Option<String> {
    let is_better = |at: u32| beats(taken, i64::from(at), i64::from(price));
    let regular = books
        .resting(taken)
        .filter(|order| order.shown > 0 || with_reserve)
        .filter(|order| is_better(order.price))
        .map(|order| (order.price, in_words(order)));
    let legging = books.standing(taken).filter(|order| is_better(order.price));
    let legging = legging.map(|order| {
        let what = format!("the legging order of {} at {}", order.parent, order.price);
        (order.price, what)
    });
    let best = regular
        .chain(legging)
        .min_by_key(|(at, _)| -sign(taken) * i64::from(*at));
    best.map(|(_, what)| what)
}

/// What there is of an order, shown size before reserve.
fn in_words(order: &Resting) -> String {
    let Resting {
        id,
        price,
        left,
        shown,
        ..
    } = order;
    match shown {
        0 => format!("{left} in reserve of order {id} at {price}"),
        _ => format!("{shown} that order {id} shows at {price}"),
    }
}

fn above_legs(books: &Books, party: u32, net: i64) -> Option<String> {
    let legs = legs_net(books, books.complex(party)?)?;
    (net > legs).then(|| {
        format!("is above the legs: net {net} of order {party}, {legs} by its best regular prices")
    })
}

/// What the best regular prices give an order, where both its legs have one.
fn legs_net(books: &Books, order: &Complex) -> Option<i64> {
    let [first, second] = parts_of(order).map(|part| part_net(books, part));
    Some(first? + second?)
}

fn part_net(books: &Books, part: Part) -> Option<i64> {
    let taken = opposite(part.leg);
    let shown = books.resting(taken).filter(|order| order.shown > 0);
    let prices = shown.map(|order| i64::from(order.price));
    let best = prices.max_by_key(|price| sign(taken) * price)?;
    Some(part.of_net(best))
}

/// Replays an accepted message's records after its 64 upon the venue before it: each
/// trade and cross at its moment; and the books that they lead to are the venue left.
pub fn check_moments(
    before: &Venue,
    number: u32,
    message: &Message,
    effects: &[Record],
    after: &Venue,
) -> Result<Vec<Moment>, String> {
    let mut books = Books::of(before);
    books.enter(number, message)?;
    let mut moments = Vec::new();
    for record in effects {
        moments.extend(Moment::of(&books, record));
        if let Some(what) = passed_over(&books, record) {
            return Err(format!("record \"{record}\" {what}"));
        }
        let noted = books.note(record);
        noted.map_err(|what| format!("record \"{record}\": {what}"))?;
    }
    books.finish();
    match books.difference(after) {
        Some(what) => Err(what),
        None => Ok(moments),
    }
}

/// Looks at a record upon the books just before it, and notes it in them; tells what it
/// passed over, and what of it the books do not have.
pub fn look_at(books: &mut Books, record: &Record) -> (Option<Moment>, Vec<String>) {
    let moment = Moment::of(books, record);
    let passed = passed_over(books, record).map(|what| format!("record \"{record}\" {what}"));
    let noted = books.note(record).err();
    let noted = noted.map(|what| format!("record \"{record}\": {what}"));
    (moment, passed.into_iter().chain(noted).collect())
}

/// A sheet replayed from a fresh venue.
#[derive(Debug, Default)]
pub struct Replayed {
    pub moments: Vec<Moment>,
    /// Each record that passed something over, or that its books do not have, by its
    /// line; and the first message after which the books are not the reference's.
    pub faults: Vec<String>,
}

/// Replays a sheet by its messages and records alone, the answers numbered from 1.
pub fn replay_sheet(pieces: &[&[u8]], records: &[Record]) -> Replayed {
    let mut reader = Reader {
        pieces,
        number: 0,
        books: Books::of(&Venue::fresh()),
        venue: Some(Venue::fresh()),
        replayed: Replayed::default(),
    };
    for (line, record) in (1..).zip(records) {
        match *record {
            Record::Answer(answer) => reader.begin(line, answer.refusal),
            _ => reader.record(line, record),
        }
    }
    reader.end();
    reader.replayed
}

/// A reader of a sheet, somewhere on it.
struct Reader<'a> {
    pieces: &'a [&'a [u8]],
    /// The message whose records these are.
    number: u32,
    books: Books,
    /// What the reference leaves, while the books were the same.
    venue: Option<Venue>,
    replayed: Replayed,
}

impl<'a> Reader<'a> {
    fn fault(&mut self, line: u32, what: String) {
        let number = self.number;
        let what = format!("line {line} (message {number}): {what}");
        self.replayed.faults.push(what);
    }

    /// The bytes of the message.
    fn piece(&self) -> &'a [u8] {
        let at = (self.number as usize).wrapping_sub(1);
        self.pieces.get(at).copied().unwrap_or_default()
    }

    /// A 64: the message before it ends, and its own begins where it was accepted.
    fn begin(&mut self, line: u32, refusal: u8) {
        self.end();
        self.number += 1;
        if refusal == 0 {
            let message = Message::decode(self.piece());
            if let Err(what) = self.books.enter(self.number, &message) {
                self.fault(line, what);
            }
        }
    }

    fn record(&mut self, line: u32, record: &Record) {
        let (moment, faults) = look_at(&mut self.books, record);
        self.replayed.moments.extend(moment);
        for what in faults {
            self.fault(line, what);
        }
    }

    /// The books once a message is done are those of the venue that the reference leaves.
    fn end(&mut self) {
        self.books.finish();
        let Some(done) = self.number.checked_sub(1) else {
            return;
        };
        let Some(before) = self.venue.take() else {
            return;
        };
        let mut report = vec![0; ROOM];
        let left = one_message(&before, done, self.piece(), &mut report).venue;
        match self.books.difference(&left) {
            None => self.venue = Some(left),
            Some(what) => {
                let what = format!("after message {}: {what}", self.number);
                self.replayed.faults.push(what);
            }
        }
    }
}
