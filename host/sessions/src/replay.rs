//! The books as a reader of the sheet keeps them: from a venue, the messages accepted
//! and the records, one by one. No rule is asked; what a record says is done.

use crate::explain::leg_name;
use crate::message::{Leg, Message, NewOrder};
use crate::model::fields_in_range;
use crate::record::{Record, Trade};
use crate::settings::{entered_by, figure_name, held_editions};
use crate::view::{held_complex, held_regular, leg_at, legs_of, opposite, place_of};
use crate::view::{shown, side_of, to_rest};
use reference::{Complex, Edition, Legging, Listed, Venue};

/// A regular order in the books.
#[derive(Clone, Copy, Debug, PartialEq, Eq)]
pub struct Resting {
    pub id: u32,
    pub side: Leg,
    pub price: u32,
    /// What is left of it; what of that is not shown is reserve.
    pub left: u32,
    pub shown: u32,
    /// What it shows again, if as much is left.
    display: u32,
}

/// What rests, stands and holds at a place of the sheet. An order of which nothing is
/// left is struck out at once.
#[derive(Clone, Debug, PartialEq, Eq)]
pub struct Books {
    /// In rising id, both kinds of orders.
    regular: Vec<Resting>,
    complex: Vec<Complex>,
    legging: [Legging; 16],
    series: [Listed; 8],
    last: u32,
    editions: Vec<Edition>,
    /// Of each series the messages of its last 20 records 67, oldest first.
    generations: [Vec<u32>; 8],
    /// The last id that a limited sweep looked at.
    reached: u32,
    /// The accepted message whose records come; 0 between messages.
    number: u32,
    /// Whether the 72 of a limited sweep is still to come.
    due: bool,
}

impl Books {
    /// Those of a venue between messages.
    pub fn of(venue: &Venue) -> Self {
        let regular = held_regular(venue).map(|order| Resting {
            id: order.id,
            side: side_of(order),
            price: order.price,
            left: order.quantity,
            shown: shown(order),
            display: order.display,
        });
        Books {
            regular: regular.collect(),
            complex: held_complex(venue).copied().collect(),
            legging: venue.legging,
            series: venue.series,
            last: venue.last,
            editions: held_editions(venue).copied().collect(),
            generations: venue.generations.map(|last| {
                let held = last.into_iter().filter(|number| *number > 0);
                held.collect()
            }),
            reached: venue.reached,
            number: 0,
            due: false,
        }
    }

    pub fn order(&self, id: u32) -> Option<&Resting> {
        self.regular.iter().find(|order| order.id == id)
    }

    pub fn complex(&self, id: u32) -> Option<&Complex> {
        self.complex.iter().find(|order| order.id == id)
    }

    /// The regular orders of a side, shown or not.
    pub fn resting(&self, side: Leg) -> impl Iterator<Item = &Resting> {
        self.regular.iter().filter(move |order| order.side == side)
    }

    /// The legging order of a side.
    pub fn standing(&self, side: Leg) -> Option<Legging> {
        let order = self.legging[place_of(side)];
        (order.quantity > 0).then_some(order)
    }

    /// What the accepted message of a number brings by itself. An order takes with all
    /// of its quantity, and shows a part of what is left when its message ends.
    pub fn enter(&mut self, number: u32, message: &Message) -> Result<(), String> {
        self.number = number;
        self.due = matches!(message, Message::LimitedSweep(_));
        if !fields_in_range(message) {
            return Err("a message with a field outside its range was accepted".to_string());
        }
        match message {
            Message::Order(order) => self.enter_order(order),
            Message::Complex(order) => {
                self.last = order.id;
                self.complex.push(to_rest(order));
            }
            Message::Away(away) => {
                let listed = &mut self.series[usize::from(away.series)];
                (listed.bid, listed.offer) = (away.bid, away.offer);
            }
            Message::Status(set) => self.series[usize::from(set.series)].status = set.status,
            Message::Increment(_) | Message::Percent(_) => {
                self.editions.extend(entered_by(message, number));
            }
            Message::Cancel(_) | Message::Raw(_) => {}
            Message::Sweep | Message::LimitedSweep(_) => {}
        }
        Ok(())
    }

    fn enter_order(&mut self, order: &NewOrder) {
        self.last = order.id;
        self.regular.push(Resting {
            id: order.id,
            side: order.leg,
            price: order.price,
            left: order.quantity,
            shown: order.quantity,
            display: order.shown(),
        });
    }

    /// A message's last step: each order shows again the lesser of its shown quantity
    /// and what is left of it.
    pub fn finish(&mut self) {
        for order in &mut self.regular {
            order.display = order.display.min(order.left);
            order.shown = order.display;
        }
        self.number = 0;
    }
}

/// The records, one by one.
impl Books {
    /// One record more. An error tells what of it these books do not have; all else of
    /// it is noted.
    pub fn note(&mut self, record: &Record) -> Result<(), String> {
        match *record {
            Record::Answer(_) => Ok(()),
            Record::Trade(trade) => self.note_trade(trade),
            Record::Pair(pair) => self.lessen_complex(pair.id, pair.quantity),
            Record::Generated(made) => self.note_generated(
                known_side(made.leg())?,
                Legging {
                    parent: made.id,
                    price: made.price,
                    quantity: made.quantity,
                },
            ),
            Record::Removed(gone) => self.note_removed(known_side(gone.leg())?, gone.id),
            Record::Cross(cross) => {
                let taking = self.lessen_complex(cross.taker, cross.quantity);
                taking.and(self.lessen_complex(cross.maker, cross.quantity))
            }
            Record::Cancelled(gone) => self.note_cancelled(gone.id, gone.quantity),
            Record::Looked(looked) => self.note_looked(looked.count),
        }
    }

    /// Both parties have so much less. A complex order that takes, or whose legging order
    /// is taken, is lessened by its 66, and the legging order stands until its 68.
    fn note_trade(&mut self, trade: Trade) -> Result<(), String> {
        let Trade { taker, maker, .. } = trade;
        let (price, quantity) = (trade.price, trade.quantity);
        let is_maker = self.makes(maker, taken_side(&trade)?, price, quantity);
        let taking = match self.complex(taker) {
            Some(_) => Ok(()),
            None => self.lessen_order(taker, quantity),
        };
        let making = match self.order(maker) {
            Some(_) => self.lessen_order(maker, quantity),
            None => Ok(()),
        };
        if !is_maker {
            return Err(format!(
                "order {maker} does not have {quantity} there at {price}"
            ));
        }
        taking.and(making)
    }

    /// Whether an order, or the legging order of one, stands so on a side.
    fn makes(&self, maker: u32, taken: Leg, price: u32, quantity: u32) -> bool {
        match self.order(maker) {
            Some(order) => order.side == taken && order.price == price && order.left >= quantity,
            None => self.standing(taken).is_some_and(|order| {
                order.parent == maker && order.price == price && order.quantity >= quantity
            }),
        }
    }

    fn lessen_order(&mut self, id: u32, quantity: u32) -> Result<(), String> {
        let Some(at) = self.regular.iter().position(|order| order.id == id) else {
            return Err(not_there(id));
        };
        let order = &mut self.regular[at];
        let left = order.left;
        order.left = left.saturating_sub(quantity);
        order.shown = order.shown.saturating_sub(quantity);
        if order.left == 0 {
            self.regular.remove(at);
        }
        enough(id, left, quantity)
    }

    fn lessen_complex(&mut self, id: u32, quantity: u32) -> Result<(), String> {
        let Some(at) = self.complex.iter().position(|order| order.id == id) else {
            return Err(not_there(id));
        };
        let order = &mut self.complex[at];
        let open = order.quantity;
        order.quantity = open.saturating_sub(quantity);
        if order.quantity == 0 {
            self.complex.remove(at);
        }
        enough(id, open, quantity)
    }

    /// A limited sweep goes so many orders on from the last id looked at, round by id.
    fn note_looked(&mut self, count: u8) -> Result<(), String> {
        let (resting, reached) = (self.complex.len(), self.reached);
        let passed = self.complex.iter().filter(|order| order.id <= reached);
        let end = passed.count() + usize::from(count);
        if let Some(last) = end.checked_sub(1).filter(|_| count > 0 && resting > 0) {
            self.reached = self.complex[last % resting].id;
        }
        let due = std::mem::take(&mut self.due);
        match (due, usize::from(count) <= resting) {
            (true, true) => Ok(()),
            (true, false) => Err(format!("{resting} complex orders rest")),
            (false, _) => Err("no limited sweep is to tell it".to_string()),
        }
    }

    fn note_generated(&mut self, side: Leg, made: Legging) -> Result<(), String> {
        let holder = self.standing(side);
        self.legging[place_of(side)] = made;
        let last = &mut self.generations[usize::from(side.series)];
        last.push(self.number);
        last.drain(..last.len().saturating_sub(20));
        match holder {
            Some(holder) => Err(format!(
                "the place is held by the legging order of {}",
                holder.parent
            )),
            None => Ok(()),
        }
    }

    fn note_removed(&mut self, side: Leg, parent: u32) -> Result<(), String> {
        let held = self.standing(side);
        self.legging[place_of(side)] = Legging::default();
        match held {
            Some(order) if order.parent == parent => Ok(()),
            _ => Err(format!("no legging order of {parent} stands there")),
        }
    }

    fn note_cancelled(&mut self, id: u32, quantity: u32) -> Result<(), String> {
        match self.order(id) {
            Some(_) => self.lessen_order(id, quantity),
            None => self.lessen_complex(id, quantity),
        }
    }
}

/// A side as a record names it.
fn known_side(leg: Leg) -> Result<Leg, String> {
    match leg {
        Leg {
            series: 0..=7,
            side: 0..=1,
        } => Ok(leg),
        Leg { series, side } => Err(format!("there is no side {side} of series {series}")),
    }
}

/// The side that the taker of a trade takes.
pub fn taken_side(trade: &Trade) -> Result<Leg, String> {
    known_side(trade.leg()).map(opposite)
}

fn not_there(id: u32) -> String {
    format!("order {id} does not rest")
}

fn enough(id: u32, left: u32, quantity: u32) -> Result<(), String> {
    match left >= quantity {
        true => Ok(()),
        false => Err(format!("order {id} has {left} left")),
    }
}

/// The books in words, to tell where two differ.
impl Books {
    /// What these books have and a venue has not, or the other way round.
    pub fn difference(&self, venue: &Venue) -> Option<String> {
        let left = Books::of(venue);
        if *self == left {
            return None;
        }
        let (records, venue) = (self.lines(), left.lines());
        let first = |lines: &[String], others: &[String]| {
            let line = lines.iter().find(|line| !others.contains(line));
            line.map_or("nothing else".to_string(), |line| format!("\"{line}\""))
        };
        Some(format!(
            "the records lead to {}, the venue has {}",
            first(&records, &venue),
            first(&venue, &records)
        ))
    }

    fn lines(&self) -> Vec<String> {
        let mut lines = self.order_lines();
        for (place, order) in self.legging.iter().enumerate() {
            let (leg, Legging { parent, .. }) = (leg_name(leg_at(place)), order);
            let (quantity, price) = (order.quantity, order.price);
            lines.push(format!("{leg}: legging {quantity} at {price} of {parent}"));
        }
        for (series, listed) in self.series.iter().enumerate() {
            let Listed { status, bid, offer } = listed;
            lines.push(format!(
                "series {series}: status {status}, away {bid} and {offer}"
            ));
        }
        for entry in &self.editions {
            let (name, value) = (figure_name(entry.figure), entry.value);
            let (edition, number) = (entry.edition, entry.number);
            lines.push(format!(
                "edition {edition}, message {number}: {name} {value}"
            ));
        }
        for (series, last) in self.generations.iter().enumerate() {
            lines.push(format!("series {series}: generated by messages {last:?}"));
        }
        lines.push(format!("last id {}", self.last));
        lines.push(format!("last id looked at {}", self.reached));
        lines.extend(self.due.then(|| "a record 72 to come".to_string()));
        lines
    }

    fn order_lines(&self) -> Vec<String> {
        let regular = self.regular.iter().map(|order| {
            let (leg, price) = (leg_name(order.side), order.price);
            let (left, shown, display) = (order.left, order.shown, order.display);
            format!(
                "order {}: {leg} at {price}, {left} left, {shown} of {display} shown",
                order.id
            )
        });
        let complex = self.complex.iter().map(|order| {
            let [first, second] = legs_of(order).map(leg_name);
            let (ratio1, ratio2) = (order.ratio1, order.ratio2);
            let (class, limit, open) = (order.class, order.limit, order.quantity);
            format!(
                "order {}: {ratio1} {first}, {ratio2} {second}, class {class} net {limit}, {open} open",
                order.id
            )
        });
        regular.chain(complex).collect()
    }
}
