//! The data of a page that shows a session message by message: what happened in words, the
//! records, and the books before the first message with what each message changes in them.
//! Every figure that a page tells is worked out here.
//!
//! ```text
//! name, messages        the session's name and how many messages it has
//! first                 the number of the first message shown
//! words                 texts, each once; a line is a place in them, or two: "A: B"
//! note                  the comments of a session without a message
//! start                 the state before the first message shown
//! others                complex orders done before it, whose sums agree: how many
//! steps                 the messages shown:
//!   text, note          the message; the comments of the session's text that go with it
//!   line                the line of its 64 in the sheet
//!   records             its records as numbers
//!   told, more          a line for each record; lines of what was not made
//!   pairs               of each 66, by its place in the records, its arithmetic
//!   rows                where a sheet given differs: its lines beside the rules' records
//!   faults              what the sheet given says of orders that are not there
//!   change              what changes in the state
//! sheet                 of a sheet given: its name, the messages that differ, how many they
//!                       are, its last message, its lines that answer none
//! ```
//! The parts of a state are told where they are made, in `state.rs` and `sums.rs`.

mod given;
mod json;
mod notes;
mod pairs;
mod state;
mod sums;

pub use json::Json;
pub use notes::notes;

use crate::explain::{About, Explained, Explainer};
use crate::message::{split, Message};
use crate::record::Record;
use given::{fields, row, side_by_side, Given, Row};
use pairs::arithmetic;
use reference::Venue;
use state::state;
use std::collections::{BTreeMap, BTreeSet, HashMap};
use sums::{named, Sums};

/// What a page is made of.
pub struct Session<'a> {
    pub name: &'a str,
    pub list: &'a [u8],
    /// Comments by message number.
    pub notes: BTreeMap<usize, String>,
    /// A sheet to compare with: its name and its records.
    pub sheet: Option<(&'a str, &'a [Record])>,
    /// The first and the last message to show.
    pub shown: (u32, u32),
}

/// The most messages that are named as differing; the rest is counted.
const MOST_NAMED: usize = 1_000;

/// The most letters of a message's text.
const MOST_TEXT: usize = 1_000;

/// The data of a page. An error is a violation of the checks.
pub fn page(session: &Session) -> Result<Json, String> {
    let pieces = split(session.list);
    let mut walk = Walk::new(session);
    let mut explainer = Explainer::default();
    // A sheet is compared to its end; without one, nothing after the last message is shown.
    let last = match session.sheet {
        Some(_) => pieces.len(),
        None => session.shown.1 as usize,
    };
    for piece in pieces.iter().take(last) {
        let before = explainer.venue().clone();
        let explained = explainer.explain(piece)?;
        walk.step(&Done::new(&explained, &before, explainer.venue()));
    }
    Ok(walk.done(pieces.len()))
}

/// A message that was done.
struct Done<'a> {
    explained: &'a Explained,
    records: Vec<Record>,
    before: &'a Venue,
    after: &'a Venue,
}

impl<'a> Done<'a> {
    fn new(explained: &'a Explained, before: &'a Venue, after: &'a Venue) -> Self {
        let records = explained.lines.iter().filter_map(|line| match line.about {
            About::Record(record) => Some(record),
            _ => None,
        });
        Done {
            records: records.collect(),
            explained,
            before,
            after,
        }
    }

    /// The lines of its records, or the others.
    fn lines(&self, of_records: bool) -> impl Iterator<Item = &str> {
        let lines = self.explained.lines.iter();
        let wanted = move |about: &About| matches!(about, About::Record(_)) == of_records;
        lines
            .filter(move |line| wanted(&line.about))
            .map(|line| line.words.as_str())
    }
}

/// Texts, each kept once.
#[derive(Default)]
struct Words {
    places: HashMap<String, i64>,
    texts: Vec<Json>,
}

impl Words {
    fn place(&mut self, text: &str) -> Json {
        if let Some(place) = self.places.get(text) {
            return Json::number(*place);
        }
        let place = self.texts.len() as i64;
        self.places.insert(text.to_string(), place);
        self.texts.push(Json::text(text));
        Json::number(place)
    }

    /// What stands before a colon is kept apart from what stands after it: both come again
    /// more often than the whole.
    fn line(&mut self, line: &str) -> Json {
        match line.split_once(": ") {
            Some((before, after)) => Json::list([self.place(before), self.place(after)]),
            None => self.place(line),
        }
    }
}

/// What a sheet given says otherwise of a message, and what the message changes in the sums.
struct Compared {
    rows: Option<Vec<Row>>,
    faults: Vec<String>,
    sums: Option<Json>,
}

/// A session on its way through its messages.
struct Walk<'a> {
    session: &'a Session<'a>,
    given: Option<Given>,
    words: Words,
    sums: Sums,
    /// The state before the first message shown, and the last state told.
    start: Json,
    state: Json,
    others: usize,
    steps: Vec<Json>,
    /// The lines of the rules' sheet so far.
    lines: usize,
    differing: Vec<u32>,
}

impl<'a> Walk<'a> {
    fn new(session: &'a Session<'a>) -> Self {
        let mut walk = Walk {
            session,
            given: session.sheet.map(|(_, records)| Given::of(records)),
            words: Words::default(),
            sums: Sums::default(),
            start: Json::Null,
            state: Json::Null,
            others: 0,
            steps: Vec::new(),
            lines: 0,
            differing: Vec::new(),
        };
        walk.begin(&Venue::fresh(), 1);
        walk
    }

    /// Takes the state of a venue as that before the message with this number.
    fn begin(&mut self, venue: &Venue, number: u32) {
        let (sums, others) = self.sums.of_note();
        self.state = state(venue, number);
        self.start = self.state.clone().with("sums", Some(sums));
        self.others = others;
    }

    fn is_shown(&self, number: u32) -> bool {
        let (first, last) = self.session.shown;
        (first..=last).contains(&number)
    }

    /// Goes through one message.
    fn step(&mut self, done: &Done) {
        let (number, line) = (done.explained.number, self.lines + 1);
        self.lines += done.records.len();
        let compared = self.compare(done);
        if self.is_shown(number) {
            self.show(line, done, compared);
        } else if number + 1 == self.session.shown.0 {
            self.begin(done.after, number + 1);
        }
    }

    /// Adds a message to the sums, by the sheet given where there is one.
    fn compare(&mut self, done: &Done) -> Compared {
        let number = done.explained.number;
        let given = self.given.as_ref().map(|given| given.message(number));
        let rows = given.and_then(|given| side_by_side(given, &done.records));
        if rows.is_some() {
            self.differing.push(number);
        }
        let said: Vec<Record> = match given {
            Some(given) => given.iter().map(|line| line.record).collect(),
            None => done.records.clone(),
        };
        let faults = self.sums.add(&done.explained.message, &said);
        let orders = orders_named(done, &said);
        Compared {
            rows,
            faults,
            sums: self.sums.change(&orders, done.after),
        }
    }

    /// Adds a message to those shown.
    fn show(&mut self, line: usize, done: &Done, compared: Compared) {
        let number = done.explained.number;
        let after = state(done.after, number + 1);
        let change = self.state.change_to(&after);
        let change = change.unwrap_or_else(|| Json::keyed::<u32>([]));
        self.state = after;
        let [told, more] = [true, false].map(|of_records| {
            let lines = done.lines(of_records);
            Json::list(lines.map(|line| self.words.line(line)))
        });
        let rows = compared.rows.map(|rows| Json::list(rows.iter().map(row)));
        let faults = compared.faults.into_iter().map(Json::Text);
        self.steps.push(Json::of_some([
            (
                "text",
                Some(Json::Text(message_text(&done.explained.message))),
            ),
            ("note", self.note(number as usize)),
            ("line", Some(Json::number(line as i64))),
            ("records", Some(Json::list(done.records.iter().map(fields)))),
            ("told", Some(told)),
            ("more", more.unless_empty()),
            ("pairs", arithmetic_of_pairs(done).unless_empty()),
            ("rows", rows),
            ("faults", Json::list(faults).unless_empty()),
            ("change", Some(change.with("sums", compared.sums))),
        ]));
    }

    fn note(&self, number: usize) -> Option<Json> {
        let note = self.session.notes.get(&number)?;
        Some(Json::text(note))
    }

    fn done(self, messages: usize) -> Json {
        Json::of_some([
            ("name", Some(Json::text(self.session.name))),
            ("messages", Some(Json::number(messages as i64))),
            ("first", Some(Json::number(self.session.shown.0))),
            ("note", self.note(0)),
            ("sheet", self.sheet(messages as u32)),
            ("words", Some(Json::List(self.words.texts))),
            ("start", Some(self.start)),
            ("others", Some(Json::number(self.others as i64))),
            ("steps", Some(Json::List(self.steps))),
        ])
    }

    /// How the sheet given compares.
    fn sheet(&self, messages: u32) -> Option<Json> {
        let (name, _) = self.session.sheet?;
        let given = self.given.as_ref()?;
        let named = self.differing.iter().take(MOST_NAMED);
        Some(Json::keyed([
            ("name", Json::text(name)),
            ("differing", Json::numbers(named.copied())),
            ("count", Json::number(self.differing.len() as i64)),
            ("last", Json::number(given.last())),
            ("beyond", Json::number(given.beyond(messages) as i64)),
        ]))
    }
}

/// Of each pair of a message, by its place in the records, its arithmetic.
fn arithmetic_of_pairs(done: &Done) -> Json {
    let places = 0..done.records.len();
    Json::keyed(places.filter_map(|place| Some((place, Json::Text(arithmetic(done, place)?)))))
}

/// The orders whose sums a message may change.
fn orders_named(done: &Done, said: &[Record]) -> BTreeSet<u32> {
    let records = done.records.iter().chain(said);
    let mut orders: BTreeSet<u32> = records.flat_map(named).flatten().collect();
    if let Message::Complex(order) = &done.explained.message {
        orders.insert(order.id);
    }
    orders
}

/// A message as text; of a long one its beginning.
fn message_text(message: &Message) -> String {
    let text = message.to_string();
    if text.len() <= MOST_TEXT {
        return text;
    }
    let bytes = message.encode().len();
    format!("{}... ({bytes} bytes)", &text[..MOST_TEXT])
}
