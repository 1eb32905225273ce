//! One piece of work at a time: a prefix of messages makes the state, then a unit
//! of a few messages that leave the state as it was is repeated. Between units that
//! generate, refused messages keep the series below their ceiling.

use sessions::message::{Away, Cancel, Leg, LimitedSweep, Message, NewComplex, NewOrder, Status};

/// What a unit does.
#[derive(Clone, Copy, Debug, PartialEq, Eq)]
pub enum Layer {
    Rests,
    TakesTwo,
    TakesReserve,
    Generates,
    Hit,
    LegsInUnits,
    Cross,
    CrossWithLegging,
    SweepIdle,
    SweepWorking,
    /// A sweep limited to so many.
    Limited(u8),
    Settles,
}

impl Layer {
    pub const ALL: [Layer; 14] = [
        Layer::Rests,
        Layer::TakesTwo,
        Layer::TakesReserve,
        Layer::Generates,
        Layer::Hit,
        Layer::LegsInUnits,
        Layer::Cross,
        Layer::CrossWithLegging,
        Layer::SweepIdle,
        Layer::SweepWorking,
        Layer::Limited(1),
        Layer::Limited(8),
        Layer::Limited(32),
        Layer::Settles,
    ];

    /// One word, to choose it by.
    pub fn name(self) -> &'static str {
        match self {
            Layer::Rests => "rests",
            Layer::TakesTwo => "takes-two",
            Layer::TakesReserve => "takes-reserve",
            Layer::Generates => "generates",
            Layer::Hit => "hit",
            Layer::LegsInUnits => "legs-in-units",
            Layer::Cross => "cross",
            Layer::CrossWithLegging => "cross-legging",
            Layer::SweepIdle => "sweep-32",
            Layer::SweepWorking => "sweep-32-working",
            Layer::Limited(1) => "limited-1",
            Layer::Limited(8) => "limited-8",
            Layer::Limited(_) => "limited-32",
            Layer::Settles => "settles",
        }
    }

    pub fn from_name(name: &str) -> Option<Layer> {
        Layer::ALL.into_iter().find(|layer| layer.name() == name)
    }

    /// Whether a unit has a regular order that needs a place when it arrives.
    fn brings_an_order(self) -> bool {
        match self {
            Layer::Rests | Layer::TakesTwo | Layer::TakesReserve | Layer::Hit => true,
            Layer::Generates | Layer::LegsInUnits => false,
            Layer::Cross | Layer::CrossWithLegging => false,
            Layer::SweepIdle | Layer::SweepWorking => false,
            Layer::Limited(_) | Layer::Settles => false,
        }
    }

    /// Whether 32 complex orders rest, eight with a legging order.
    fn has_complex_book(self) -> bool {
        match self {
            Layer::SweepIdle | Layer::SweepWorking => true,
            Layer::Limited(_) | Layer::Settles => true,
            _ => false,
        }
    }

    /// The most legging orders that a unit generates in a series.
    fn generates(self) -> usize {
        match self {
            Layer::Generates | Layer::Hit | Layer::CrossWithLegging => 1,
            Layer::SweepWorking => 2,
            _ => 0,
        }
    }

    /// The messages of a unit in words.
    pub fn unit(self) -> &'static str {
        match self {
            Layer::Rests => "an order that rests; its cancel",
            Layer::TakesTwo => "an order that takes two; the two again",
            Layer::TakesReserve => "the same, each with reserve that it takes too",
            Layer::Generates => "a complex order that generates both legs; its cancel",
            Layer::Hit => "a complex order that generates both legs; the order that hits one",
            Layer::LegsInUnits => {
                "a complex order of two against one that legs in; what it took again"
            }
            Layer::Cross => "a complex order that rests; the one that crosses it",
            Layer::CrossWithLegging => "the same, its two legging orders removed",
            Layer::SweepIdle => "a sweep of 32, eight legging orders standing, none made",
            Layer::SweepWorking => "two sweeps of 32 that generate, an away price before each",
            Layer::Limited(1) => "a limited sweep of 1 of the 32, none made",
            Layer::Limited(8) => "a limited sweep of 8 of the 32, none made",
            Layer::Limited(_) => "a limited sweep of all 32, none made",
            Layer::Settles => "an away price, eight legging orders tested",
        }
    }
}

/// A layer upon a book of some regular orders.
pub struct Case {
    pub prefix: Vec<u8>,
    /// The prefix and then what is between the units.
    pub without_units: Vec<u8>,
    /// The prefix and then the units.
    pub list: Vec<u8>,
    pub messages_in_unit: usize,
}

/// Prices of the quotes: offers and bids of the first two series.
const OFFERS: [u32; 2] = [130, 90];
const BIDS: [u32; 2] = [110, 70];
const MOST: u32 = 10_000;

/// At most so many legging orders of a series in so many messages.
const CEILING: usize = 20;
const CEILING_MESSAGES: usize = 256;

/// A message of no kind.
const REFUSED: [u8; 4] = [4, 0, 99, 0];

impl Case {
    /// Upon `book` regular orders, an arriving one counted among them.
    pub fn new(layer: Layer, book: usize, units: usize) -> Self {
        let mut script = Script::default();
        script.open(layer);
        script.quote(layer);
        script.fill(book.saturating_sub(script.resting + usize::from(layer.brings_an_order())));
        script.complex_book(layer);
        // What the prefix generated is not counted with what the units do.
        script.refused(CEILING_MESSAGES);
        let prefix = script.bytes.clone();
        let before = script.messages;
        script.unit(layer);
        let messages_in_unit = script.messages - before;
        let between = (layer.generates() * CEILING_MESSAGES).div_ceil(CEILING);
        let between = between.saturating_sub(messages_in_unit);
        for _ in 1..units {
            script.refused(between);
            script.unit(layer);
        }
        Case {
            without_units: [&prefix[..], &REFUSED.repeat(between * (units - 1))].concat(),
            prefix,
            list: script.bytes,
            messages_in_unit,
        }
    }
}

/// Messages with rising ids.
#[derive(Default)]
struct Script {
    bytes: Vec<u8>,
    messages: usize,
    resting: usize,
    last: u32,
}

impl Script {
    fn send(&mut self, message: Message) {
        self.bytes.extend(message.encode());
        self.messages += 1;
    }

    /// Messages that do nothing but count.
    fn refused(&mut self, count: usize) {
        self.bytes.extend(REFUSED.repeat(count));
        self.messages += count;
    }

    fn order(&mut self, series: u8, side: u8, price: u32, quantity: u32) {
        self.order_showing(series, side, price, quantity, None);
    }

    fn order_showing(
        &mut self,
        series: u8,
        side: u8,
        price: u32,
        quantity: u32,
        shows: Option<u32>,
    ) {
        self.last += 1;
        self.send(Message::Order(NewOrder {
            id: self.last,
            leg: Leg { series, side },
            price,
            quantity,
            shows,
        }));
    }

    /// Two offers that show one of two each.
    fn offers_with_reserve(&mut self) {
        (0..2).for_each(|_| self.order_showing(0, 1, OFFERS[0], 2, Some(1)));
    }

    fn rest(&mut self, series: u8, side: u8, price: u32, quantity: u32) {
        self.order(series, side, price, quantity);
        self.resting += 1;
    }

    fn complex(&mut self, series: [u8; 2], side: u8, limit: i32, quantity: u32) {
        self.complex_of(series, side, limit, quantity, None);
    }

    fn complex_of(
        &mut self,
        series: [u8; 2],
        side: u8,
        limit: i32,
        quantity: u32,
        ratios: Option<[u8; 2]>,
    ) {
        self.last += 1;
        self.send(Message::Complex(NewComplex {
            id: self.last,
            legs: series.map(|series| Leg { series, side }),
            class: 1,
            limit,
            quantity,
            ratios,
        }));
    }

    fn cancel_last(&mut self) {
        self.send(Message::Cancel(Cancel { id: self.last }));
    }

    fn away_offer(&mut self, series: u8, offer: u32) {
        let bid = 0;
        self.send(Message::Away(Away { series, bid, offer }));
    }

    /// Opens all series; those of a plain cross are in auction, where no legging
    /// order is made.
    fn open(&mut self, layer: Layer) {
        let status = if layer == Layer::Cross { 2 } else { 1 };
        for series in 0..8 {
            self.send(Message::Status(Status { series, status }));
        }
    }

    /// The orders that the units need.
    fn quote(&mut self, layer: Layer) {
        match layer {
            Layer::Rests => {}
            Layer::TakesTwo => (0..2).for_each(|_| self.rest(0, 1, OFFERS[0], 1)),
            Layer::TakesReserve => {
                self.offers_with_reserve();
                self.resting += 2;
            }
            Layer::Generates | Layer::Hit => self.offers(),
            Layer::LegsInUnits => {
                self.offers_of_a_unit();
                self.resting += 2;
            }
            Layer::Cross | Layer::CrossWithLegging => {
                self.offers();
                self.rest(0, 0, BIDS[0], MOST);
                self.rest(1, 0, BIDS[1], MOST);
            }
            Layer::SweepIdle | Layer::SweepWorking | Layer::Limited(_) | Layer::Settles => {
                (0..8).for_each(|series| self.rest(series, 1, OFFERS[0], MOST));
            }
        }
    }

    /// Two contracts of one series and one of the other.
    fn offers_of_a_unit(&mut self) {
        self.order(0, 1, OFFERS[0], 2);
        self.order(1, 1, OFFERS[1], 1);
    }

    fn offers(&mut self) {
        self.rest(0, 1, OFFERS[0], MOST);
        self.rest(1, 1, OFFERS[1], MOST);
    }

    /// Orders on all sides, far from the quotes, several at a price.
    fn fill(&mut self, count: usize) {
        for index in 0..count {
            let (series, side) = ((index / 2 % 8) as u8, (index % 2) as u8);
            let step = 10 * (index / 16 % 4) as u32;
            let price = if side == 0 { 10 + step } else { 50_000 + step };
            self.rest(series, side, price, 5);
        }
    }

    /// 32 complex orders over all pairs of series next to each other; the first
    /// eight get the legging places.
    fn complex_book(&mut self, layer: Layer) {
        if !layer.has_complex_book() {
            return;
        }
        for index in 0..32u8 {
            let first = index % 8;
            let second = (first + 1 + index / 8) % 8;
            self.complex([first, second], 0, 235, 10);
        }
        self.send(Message::Sweep);
    }

    fn unit(&mut self, layer: Layer) {
        match layer {
            Layer::Rests => {
                self.order(0, 0, 100, 5);
                self.cancel_last();
            }
            Layer::TakesTwo => {
                self.order(0, 0, OFFERS[0], 2);
                (0..2).for_each(|_| self.order(0, 1, OFFERS[0], 1));
            }
            Layer::TakesReserve => {
                self.order(0, 0, OFFERS[0], 4);
                self.offers_with_reserve();
            }
            Layer::Generates => {
                self.complex([0, 1], 0, 205, 8);
                self.cancel_last();
            }
            Layer::Hit => {
                self.complex([0, 1], 0, 205, 1);
                self.order(0, 1, 115, 1);
            }
            Layer::LegsInUnits => {
                self.complex_of([0, 1], 0, 350, 1, Some([2, 1]));
                self.offers_of_a_unit();
            }
            Layer::Cross | Layer::CrossWithLegging => {
                self.complex([0, 1], 0, 200, 8);
                self.complex([0, 1], 1, -200, 8);
            }
            Layer::SweepIdle => self.send(Message::Sweep),
            Layer::SweepWorking => {
                for offer in [80, 0] {
                    self.away_offer(0, offer);
                    self.send(Message::Sweep);
                }
            }
            Layer::Limited(most) => self.send(Message::LimitedSweep(LimitedSweep { most })),
            Layer::Settles => self.away_offer(0, 50_000),
        }
    }
}

#[cfg(test)]
mod tests {
    use super::*;
    use crate::race::Track;
    use sessions::record::{read_report, Answer, Record};

    /// The kinds of the records of the last unit.
    fn kinds(layer: Layer, book: usize) -> Vec<u16> {
        kinds_of_last(layer, book, 3)
    }

    /// The same of the last of so many.
    fn kinds_of_last(layer: Layer, book: usize, units: usize) -> Vec<u16> {
        let case = Case::new(layer, book, units);
        let mut track = Track::new();
        track.list(case.list).expect("both agree");
        let records = read_report(track.memory()).expect("whole records");
        let answers = records.iter().rev();
        let answered = |record: &&Record| matches!(record, Record::Answer(_));
        let mut left = case.messages_in_unit;
        let from = answers
            .enumerate()
            .filter(|(_, record)| answered(record))
            .find_map(|(at, _)| {
                left -= 1;
                (left == 0).then_some(at + 1)
            })
            .expect("a unit has answers");
        let unit = &records[records.len() - from..];
        for record in unit {
            if let Record::Answer(Answer { refusal, .. }) = record {
                assert_eq!(*refusal, 0, "{layer:?} {book}");
            }
        }
        unit.iter().map(Record::kind).collect()
    }

    #[test]
    fn each_unit_does_what_it_is_said_to_do() {
        for book in [8, 32, 128] {
            assert_eq!(kinds(Layer::Rests, book), [64, 64, 71]);
            assert_eq!(kinds(Layer::TakesTwo, book), [64, 65, 65, 64, 64]);
            let reserve = [64, 65, 65, 65, 65, 64, 64];
            assert_eq!(kinds(Layer::TakesReserve, book), reserve);
            assert_eq!(kinds(Layer::Generates, book), [64, 67, 67, 64, 71, 68, 68]);
            let hit = [64, 67, 67, 64, 65, 65, 66, 68, 68];
            assert_eq!(kinds(Layer::Hit, book), hit);
            assert_eq!(kinds(Layer::LegsInUnits, book), [64, 65, 65, 66, 64, 64]);
            assert_eq!(kinds(Layer::Cross, book), [64, 64, 70]);
            let crossed = [64, 67, 67, 64, 70, 68, 68];
            assert_eq!(kinds(Layer::CrossWithLegging, book), crossed);
            assert_eq!(kinds(Layer::SweepIdle, book), [64]);
            assert_eq!(kinds(Layer::Settles, book), [64]);
            for most in [1, 8, 32] {
                assert_eq!(kinds(Layer::Limited(most), book), [64, 72]);
            }
            let working = kinds(Layer::SweepWorking, book);
            assert!(
                working.contains(&67) && working.contains(&68),
                "{working:?}"
            );
        }
    }

    #[test]
    fn no_unit_is_at_the_ceiling() {
        for layer in Layer::ALL {
            let last = kinds_of_last(layer, 32, 400);
            assert_eq!(last, kinds(layer, 32), "{}", layer.name());
        }
    }

    #[test]
    fn eight_legging_orders_stand_in_the_sweeps() {
        let case = Case::new(Layer::SweepIdle, 8, 1);
        let mut track = Track::new();
        track.list(case.list).expect("both agree");
        let records = read_report(track.memory()).expect("whole records");
        let Some(Record::Answer(Answer { count, .. })) = records.last() else {
            panic!("the sweep's answer is last");
        };
        assert_eq!(*count, 8);
    }
}
