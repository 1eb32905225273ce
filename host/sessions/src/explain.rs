//! What happened, message by message, and why a legging order or a cross was not
//! made; with the figures that decided and the edition that held where a band or an
//! increment did, with what trades took of shown size and of reserve, and with the
//! contracts of units.

use crate::asked::ENOUGH;
use crate::causes::Standing;
use crate::check::{Checker, Seen, Step};
use crate::json::{add_message, add_record, figures_of_cause, figures_of_field, Object};
use crate::message::{split, Leg, LimitedSweep, Message, NewComplex, NewOrder};
use crate::model::{looked_at, AboveLegs, OutOfBand, ShortOfUnit, Turn};
use crate::phases::Attempt;
use crate::ranges::{refused_field, OutOfRange};
use crate::record::{read_report_into, Answer, Cancelled, Cross, Generated, Looked};
use crate::record::{Pair, Record, Removed, Trade};
use crate::settings::{figure_name, InForce, PERCENT};
use crate::takings::Takings;
use crate::view::{find_complex, find_regular, held_regular, ratios_of, shown};
use reference::{one_message, Regular, Venue};
use std::fmt::{self, Display};

/// Explains a whole session. An error is a violation of the checks.
pub fn explain(list: &[u8]) -> Result<String, String> {
    let mut explainer = Explainer::default();
    let mut text = String::new();
    for piece in split(list) {
        text.push_str(&explainer.explain(piece)?.to_string());
    }
    Ok(text)
}

/// Explains a session message by message. What it keeps does not grow with the session.
pub struct Explainer {
    checker: Checker,
    /// The venue that the messages so far leave.
    venue: Venue,
    report: Vec<u8>,
    records: Vec<Record>,
}

impl Default for Explainer {
    fn default() -> Self {
        Explainer {
            checker: Checker::default(),
            venue: Venue::fresh(),
            report: vec![0; ENOUGH as usize],
            records: Vec::new(),
        }
    }
}

impl Explainer {
    /// How many messages were done.
    pub fn done(&self) -> u32 {
        self.checker.done
    }

    pub fn venue(&self) -> &Venue {
        &self.venue
    }

    /// How many orders are followed: those that rest.
    pub fn accounts(&self) -> usize {
        self.checker.ledger.accounts.len()
    }

    /// Does a message and checks it. An error is a violation.
    pub fn pass(&mut self, piece: &[u8]) -> Result<(), String> {
        self.step(piece, |_, _, _| ())
    }

    /// Does a message, checks it, and tells what happened.
    pub fn explain(&mut self, piece: &[u8]) -> Result<Explained, String> {
        self.step(piece, |number, step, seen| Explained {
            number,
            message: step.message.clone(),
            lines: Told::new(step, seen).lines(),
        })
    }

    fn step<T>(
        &mut self,
        piece: &[u8],
        tell: impl FnOnce(u32, &Step, Option<&Seen>) -> T,
    ) -> Result<T, String> {
        let returned = one_message(&self.venue, self.checker.done, piece, &mut self.report);
        read_report_into(&self.report[..returned.written], &mut self.records)?;
        let step = Step {
            message: &Message::decode(piece),
            bytes: piece,
            before: &self.venue,
            returned: &returned,
            records: &self.records,
        };
        let seen = self.checker.check(&step);
        let number = self.checker.done;
        let seen = seen.map_err(|what| format!("message {number}: {what}"))?;
        let told = tell(number, &step, seen.as_ref());
        self.venue = returned.venue;
        Ok(told)
    }
}

/// A message, and what is told of it.
pub struct Explained {
    pub number: u32,
    pub message: Message,
    pub lines: Vec<Line>,
}

/// What a line tells of.
#[derive(Clone, Copy, Debug, PartialEq, Eq)]
pub enum About {
    Record(Record),
    /// What an order with reserve shows.
    Shows,
    /// What a setting sets.
    Setting,
    /// A cross, a pair or a unit that was not made.
    NotMade,
    /// A legging order that was tried and not made.
    NotGenerated,
    /// Why there is no legging order after the message.
    Without,
}

/// A line of what is told of a message.
#[derive(Clone, Debug, PartialEq, Eq)]
pub struct Line {
    pub about: About,
    pub words: String,
    /// The orders that it is about.
    pub orders: Vec<u32>,
    /// The figures that decided.
    pub figures: Option<Object>,
}

impl Line {
    pub fn new(about: About, words: String, orders: Vec<u32>) -> Self {
        Line {
            about,
            words,
            orders,
            figures: None,
        }
    }
}

/// The message after its number, then its lines.
impl Display for Explained {
    fn fmt(&self, f: &mut fmt::Formatter) -> fmt::Result {
        writeln!(f, "{}: {}", self.number, self.message)?;
        let mut lines = self.lines.iter();
        lines.try_for_each(|line| writeln!(f, "    {}", line.words))
    }
}

impl Explained {
    /// The message, its records and the other lines as an object.
    pub fn object(&self) -> Object {
        let mut object = Object::new();
        object.add("message", self.number);
        object.add("text", self.message.to_string());
        add_message(&mut object, &self.message);
        let (mut records, mut more) = (Vec::new(), Vec::new());
        for line in &self.lines {
            let mut told = Object::new();
            match &line.about {
                About::Record(record) => add_record(&mut told, record),
                about => told
                    .add("about", about.name())
                    .add("orders", line.orders.clone()),
            };
            told.add("words", line.words.as_str());
            told.add_some("figures", line.figures.as_ref());
            match line.about {
                About::Record(_) => records.push(told),
                _ => more.push(told),
            }
        }
        object.add("records", records).add("more", more);
        object
    }
}

impl About {
    fn name(&self) -> &'static str {
        match self {
            About::Record(_) => "record",
            About::Shows => "shows",
            About::Setting => "setting",
            About::NotMade => "not_made",
            About::NotGenerated => "not_generated",
            About::Without => "without",
        }
    }
}

/// Why a leg has no legging order, if it has none.
fn declined_in_words(attempt: &Attempt) -> Option<Line> {
    let declined = attempt.outcome.as_ref().err()?;
    let (id, leg) = (attempt.id, leg_name(attempt.leg));
    let words = format!("no legging order of {id}, {leg}: {declined}");
    Some(Line::new(About::NotGenerated, words, vec![id]))
}

/// What an order with reserve shows once the message's trades are done.
fn shown_in_words(order: &Regular) -> Line {
    let Regular { id, quantity, .. } = order;
    let words = format!("order {id} shows {} of {quantity} left", shown(order));
    Line::new(About::Shows, words, vec![*id])
}

fn passed_in_words(passed: &AboveLegs) -> Line {
    let AboveLegs {
        taker,
        maker,
        party,
        net,
        legs,
    } = passed;
    let words = format!(
        "no cross of {taker} with {maker}: net {net} of order {party} is above the {legs} of its best regular prices"
    );
    Line::new(About::NotMade, words, vec![*taker, *maker])
}

/// Why legging in ended for less than a unit.
fn short_in_words(short: &ShortOfUnit) -> Line {
    let ShortOfUnit {
        id,
        leg,
        ratio,
        level,
    } = short;
    let (leg, size, price) = (leg_name(*leg), level.size, level.price);
    let words = format!("no further unit of {id}: {leg} takes {ratio}, {size} shown at {price}");
    Line::new(About::NotMade, words, vec![*id])
}

fn side_name(side: u8) -> &'static str {
    if side == 0 {
        "buy"
    } else {
        "sell"
    }
}

pub(crate) fn leg_name(leg: Leg) -> String {
    format!("{} series {}", side_name(leg.side), leg.series)
}

/// A message, with the settings that hold at its number.
pub struct Told<'a> {
    step: &'a Step<'a>,
    seen: Option<&'a Seen<'a>>,
    in_force: InForce,
}

impl<'a> Told<'a> {
    /// What an accepted message did is seen.
    pub fn new(step: &'a Step<'a>, seen: Option<&'a Seen<'a>>) -> Self {
        Told {
            step,
            seen,
            in_force: InForce::of(&step.returned.venue),
        }
    }

    /// All that is told: the records first, then what they do not tell.
    pub fn lines(&self) -> Vec<Line> {
        let mut takings = Takings::before(self.step.before);
        let mut lines = Vec::new();
        for (at, record) in self.step.records.iter().enumerate() {
            let turn = takings.take(record).ok().flatten();
            let (words, of) = (self.in_words(at), self.taken_in_words(record, turn));
            lines.push(Line {
                about: About::Record(*record),
                words: format!("{words}{of}"),
                orders: self.orders_of(record),
                figures: self.figures_of(record),
            });
        }
        let Some(seen) = self.seen else {
            return lines;
        };
        lines.extend(self.showing_anew().map(shown_in_words));
        lines.extend(self.setting_in_words());
        lines.extend(self.not_made(seen));
        lines
    }

    /// The orders that a record names; of an answer, the one that its message names.
    fn orders_of(&self, record: &Record) -> Vec<u32> {
        match *record {
            Record::Answer(_) => self.named().into_iter().collect(),
            Record::Trade(Trade { taker, maker, .. })
            | Record::Cross(Cross { taker, maker, .. }) => vec![taker, maker],
            Record::Pair(Pair { id, .. })
            | Record::Generated(Generated { id, .. })
            | Record::Removed(Removed { id, .. })
            | Record::Cancelled(Cancelled { id, .. }) => vec![id],
            Record::Looked(_) => self.looked(),
        }
    }

    /// The order that the message names.
    fn named(&self) -> Option<u32> {
        match self.step.message {
            Message::Order(order) => Some(order.id),
            Message::Complex(order) => Some(order.id),
            Message::Cancel(cancel) => Some(cancel.id),
            _ => None,
        }
    }

    /// The figures of a removal by the settling, or of refusal 4.
    fn figures_of(&self, record: &Record) -> Option<Object> {
        match *record {
            Record::Answer(answer) => Some(figures_of_field(&self.refused_field(answer.refusal)?)),
            Record::Removed(removed) => figures_of_cause(&self.standing(&removed)?, removed.cause),
            _ => None,
        }
    }

    /// The crosses, pairs, units and legging orders that were not made.
    fn not_made(&self, seen: &Seen) -> Vec<Line> {
        let out = seen.out_of_band.iter();
        let mut lines: Vec<Line> = out.map(|out| self.out_of_band_in_words(out)).collect();
        lines.extend(seen.above.iter().map(passed_in_words));
        lines.extend(seen.short.iter().map(short_in_words));
        lines.extend(seen.attempts.iter().filter_map(declined_in_words));
        lines
    }

    /// The record at a place of the message's records.
    pub fn in_words(&self, at: usize) -> String {
        match self.step.records[at] {
            Record::Answer(answer) => self.answer_in_words(&answer),
            Record::Trade(Trade {
                series,
                side,
                price,
                quantity,
                taker,
                maker,
            }) => {
                let leg = leg_name(Leg { series, side });
                format!("trade: {taker} {leg}, {quantity} at {price}, maker {maker}")
            }
            Record::Pair(Pair { id, net, quantity }) => {
                let (units, in_band) = (self.units_of(id, quantity), self.paired_in_band());
                format!("pair: {id}, {quantity}{units} at net {net}{in_band}")
            }
            Record::Generated(generated) => self.generated_in_words(&generated),
            Record::Removed(removed) => self.removed_in_words(&removed, at),
            Record::Cross(Cross {
                taker,
                maker,
                net,
                quantity,
            }) => {
                let (units, in_band) = (self.units_of(taker, quantity), self.in_band());
                format!("cross: {taker} with {maker}, {quantity}{units} at the taker's net {net}{in_band}")
            }
            Record::Cancelled(Cancelled { id, quantity }) => {
                let (units, reserve) = (self.units_of(id, quantity), self.reserve_of(id));
                format!("cancelled: {id}, {quantity}{units} were open{reserve}")
            }
            Record::Looked(Looked { count }) => self.looked_in_words(count),
        }
    }

    /// The orders that a limited sweep looks at, in their turn.
    fn looked(&self) -> Vec<u32> {
        match *self.step.message {
            Message::LimitedSweep(LimitedSweep { most }) => looked_at(self.step.before, most),
            _ => Vec::new(),
        }
    }

    fn looked_in_words(&self, count: u8) -> String {
        let looked = self.looked().into_iter();
        let ids: Vec<String> = looked.map(|id| id.to_string()).collect();
        match ids.is_empty() {
            true => format!("looks at {count}"),
            false => format!("looks at {count}: {}", ids.join(", ")),
        }
    }

    fn answer_in_words(&self, answer: &Answer) -> String {
        let Answer {
            refusal,
            mask,
            count,
            ..
        } = *answer;
        if refusal == 0 {
            let (increment, places) = (self.on_increment(), places(mask));
            return format!(
                "accepted{increment}; legging orders standing after it: {count}{places}"
            );
        }
        let name = refusal_name(refusal);
        let field = self.refused_field(refusal);
        let field = field.map_or(String::new(), |field| format!(": {field}"));
        format!("refused with {refusal}: {name}{field}")
    }

    /// The field for which a message is refused with 4.
    fn refused_field(&self, refusal: u8) -> Option<OutOfRange> {
        match refusal {
            4 => refused_field(self.step.message, &self.in_force),
            _ => None,
        }
    }

    /// The ratios of a complex order that rested before the message, or came with it.
    fn ratios_of(&self, id: u32) -> [u8; 2] {
        match *self.step.message {
            Message::Complex(NewComplex {
                id: came, ratios, ..
            }) if came == id => ratios.unwrap_or([1, 1]),
            _ => find_complex(self.step.before, id).map_or([1, 1], ratios_of),
        }
    }

    /// Of an order of unequal ratios: that a quantity is of units, and their contracts.
    fn units_of(&self, id: u32, quantity: u32) -> String {
        let ratios = self.ratios_of(id);
        if ratios == [1, 1] {
            return String::new();
        }
        let [first, second] = ratios.map(|ratio| u32::from(ratio) * quantity);
        format!(" units ({first} and {second} contracts)")
    }

    /// How much of an order was in reserve before the message.
    fn reserve_of(&self, id: u32) -> String {
        match find_regular(self.step.before, id).map_or(0, |order| order.reserve) {
            0 => String::new(),
            reserve => format!(", {reserve} of them in reserve"),
        }
    }

    /// Of a maker that has reserve: whether a trade took shown size or reserve.
    fn taken_in_words(&self, record: &Record, turn: Option<Turn>) -> &'static str {
        let Record::Trade(Trade { maker, .. }) = *record else {
            return "";
        };
        let maker = find_regular(self.step.before, maker);
        match turn {
            Some(Turn::Reserve) => ", of its reserve",
            Some(Turn::Shown) if maker.is_some_and(|maker| maker.reserve > 0) => {
                ", of what it shows"
            }
            _ => "",
        }
    }

    /// The orders that had reserve and traded, and one of kind 9 that came to rest.
    fn showing_anew(&self) -> impl Iterator<Item = &Regular> {
        let came = match self.step.message {
            Message::Order(NewOrder {
                id, shows: Some(_), ..
            }) => Some(*id),
            _ => None,
        };
        let is_party = |record: &Record, id: u32| match record {
            Record::Trade(trade) => trade.maker == id || trade.taker == id,
            _ => false,
        };
        let traded = move |order: &Regular| {
            let mut records = self.step.records.iter();
            if !records.any(|record| is_party(record, order.id)) {
                return false;
            }
            let before = find_regular(self.step.before, order.id);
            before.is_some_and(|before| before.reserve > 0 && before.quantity > order.quantity)
        };
        held_regular(&self.step.returned.venue)
            .filter(move |order| Some(order.id) == came || traded(order))
    }

    fn generated_in_words(&self, generated: &Generated) -> String {
        let Generated {
            id,
            series,
            side,
            price,
            displayed,
            quantity,
        } = *generated;
        let leg = leg_name(Leg { series, side });
        let (increment, in_band) = (self.in_force.increment(series), self.in_band());
        format!(
            "legging order of {id}, {leg}: {quantity} at {price}, shown at {displayed} by increment {increment}{in_band}"
        )
    }

    fn removed_in_words(&self, removed: &Removed, at: usize) -> String {
        let Removed {
            id,
            series,
            side,
            cause,
        } = *removed;
        let (leg, why) = (leg_name(Leg { series, side }), cause_name(cause));
        let standing = self.standing(removed);
        let figures = standing.and_then(|test| test.in_words(cause));
        let figures = figures.or_else(|| self.replaced_by(removed, at));
        let figures = figures.map_or(String::new(), |figures| format!(": {figures}"));
        format!("removed the legging order of {id}, {leg}: cause {cause}, {why}{figures}")
    }

    /// The test that a legging order failed in the settling, upon the state that was
    /// tested.
    fn standing(&self, removed: &Removed) -> Option<Standing> {
        let Removed {
            id, series, side, ..
        } = *removed;
        let parent = find_complex(&self.step.returned.venue, id)?;
        let view = &self.seen?.phases.at_settling;
        Standing::of(view, Leg { series, side }, parent)
    }

    /// The legging order that takes the place of one that goes with cause 7.
    fn replaced_by(&self, removed: &Removed, at: usize) -> Option<String> {
        match self.step.records.get(at + 1)? {
            Record::Generated(made) if removed.cause == 7 => {
                Some(format!("that of {} at {}", made.id, made.price))
            }
            _ => None,
        }
    }

    fn out_of_band_in_words(&self, out: &OutOfBand) -> Line {
        let OutOfBand {
            id,
            maker,
            party,
            net,
            market,
        } = out;
        let not_made = match maker {
            Some(maker) => format!("no cross of {id} with {maker}"),
            None => format!("no pair of {id}"),
        };
        let percent = self.in_force.percent();
        let words = format!(
            "{not_made}: net {net} of order {party} is not in band of market net {market} by percent {percent}"
        );
        let orders = [Some(*id), *maker].into_iter().flatten().collect();
        Line::new(About::NotMade, words, orders)
    }

    fn in_band(&self) -> String {
        format!(", in band by percent {}", self.in_force.percent())
    }

    /// The band is asked of a pair that legs in, not of one that a hit makes.
    fn paired_in_band(&self) -> String {
        match self.step.message {
            Message::Order(_) => String::new(),
            _ => self.in_band(),
        }
    }

    fn on_increment(&self) -> String {
        match self.step.message {
            Message::Order(NewOrder { leg, .. }) => {
                format!(" on increment {}", self.in_force.increment(leg.series))
            }
            _ => String::new(),
        }
    }

    /// What an accepted setting sets, and what held before it.
    fn setting_in_words(&self) -> Option<Line> {
        let before = InForce::of(self.step.before);
        let (name, set, held) = match self.step.message {
            Message::Increment(setting) => (
                figure_name(setting.series),
                self.in_force.increment(setting.series),
                before.increment(setting.series),
            ),
            Message::Percent(_) => (
                figure_name(PERCENT),
                self.in_force.percent(),
                before.percent(),
            ),
            _ => return None,
        };
        let words = format!("{name}: {set}, before it {held}");
        Some(Line::new(About::Setting, words, Vec::new()))
    }
}

fn places(mask: u16) -> String {
    let filled = (0..16).filter(|place| mask & 1 << place != 0);
    let names: Vec<String> = filled.map(|place: u16| place.to_string()).collect();
    if names.is_empty() {
        return String::new();
    }
    format!(" (places {})", names.join(", "))
}

pub fn refusal_name(refusal: u8) -> &'static str {
    match refusal {
        1 => "the message is torn",
        2 => "the kind is not 1 to 11",
        3 => "the length is not its kind's",
        4 => "a field is outside its range",
        5 => "the id is not above the last accepted",
        6 => "a series of the order is closed",
        7 => "the book is full",
        8 => "no resting order has the id",
        9 => "the venue is unsound",
        10 => "the report memory or the message numbers are used up",
        11 => "the edition is not above the last",
        12 => "the series is not closed, or has a resting order or leg",
        13 => "32 editions are held already",
        14 => "the two ratios are equal",
        _ => "not a number of documents 01 and 02",
    }
}

fn cause_name(cause: u8) -> &'static str {
    match cause {
        1 => "its displayed price is worse than the best regular of its side",
        2 => "the other leg lacks a clear price, net within the limit, or size",
        3 => "its parent crossed or paired",
        4 => "its parent was cancelled",
        5 => "its parent's limit is out of band",
        6 => "a series of its parent is not open",
        7 => "replaced by another legging order",
        8 => "touched by a complex order",
        10 => "touched by a complex order of which the sizes there cannot fill a unit",
        _ => "not a cause of documents 01 and 02",
    }
}
