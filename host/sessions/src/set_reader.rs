//! What is wrong with a set, told in words: a second reader of sets, record by record,
//! apart from the reference's.

use crate::message::{Message, NewComplex, NewOrder};
use crate::set::{split_set, Entry};
use crate::settings::entered_by;
use crate::sound::fault;
use crate::view::{place_of, to_rest};
use reference::{Legging, Regular, Venue};
use std::fmt::{self, Display};

/// Why a set is refused.
#[derive(Clone, Debug, PartialEq, Eq)]
pub struct Refused {
    /// 16, or 9.
    pub number: u8,
    /// Where the record begins for which it is; the set's length where it ends too early.
    pub byte: Option<usize>,
    pub what: String,
}

impl Display for Refused {
    fn fmt(&self, f: &mut fmt::Formatter) -> fmt::Result {
        write!(f, "the set is refused with {}: {}", self.number, self.what)
    }
}

/// The venue of a set and the number of its last message.
pub fn look_at(memory: &[u8]) -> Result<(Venue, u32), Refused> {
    let mut looking = Looking::default();
    let mut byte = 0;
    for (record, index) in split_set(memory).into_iter().zip(1..) {
        let told = |what| format!("record {index} at byte {byte}: {what}");
        if let Err(what) = looking.take(record) {
            return Err(refused(16, Some(byte), told(what)));
        }
        looking.unplaced = looking.unplaced.take().map(|unplaced| match unplaced {
            Unplaced::Now(what) => Unplaced::At(byte, told(what)),
            at => at,
        });
        byte += record.len();
    }
    looking
        .end()
        .map_err(|what| refused(16, Some(byte), what))?;
    match looking.unplaced {
        Some(Unplaced::At(at, what)) => return Err(refused(9, Some(at), what)),
        Some(Unplaced::Now(what)) => return Err(refused(9, None, what)),
        None => {}
    }
    let number = looking.message;
    match fault(&looking.venue).or_else(|| above_its_own(&looking.venue, number)) {
        Some(what) => Err(refused(9, None, what)),
        None => Ok((looking.venue, number)),
    }
}

fn refused(number: u8, byte: Option<usize>, what: String) -> Refused {
    Refused { number, byte, what }
}

/// Where the first record begins with which the venue of a set is unsound, or has a message
/// number above the set's own.
pub fn first_unsound(memory: &[u8]) -> Option<usize> {
    let mut looking = Looking::default();
    let mut byte = 0;
    for record in split_set(memory) {
        looking.take(record).ok()?;
        let venue = &looking.venue;
        if fault(venue).is_some() || above_its_own(venue, looking.message).is_some() {
            return Some(byte);
        }
        byte += record.len();
    }
    None
}

/// A message number above the set's own.
fn above_its_own(venue: &Venue, number: u32) -> Option<String> {
    let editions = venue.editions.iter().map(|entry| entry.number);
    let generations = venue.generations.iter().flatten().copied();
    let above = editions.chain(generations).find(|kept| *kept > number)?;
    Some(format!("message {above} is above the set's own, {number}"))
}

/// A field that no venue has a place for: of the record looked at, or told before.
enum Unplaced {
    Now(String),
    At(usize, String),
}

/// The parts of a set, in their order.
#[derive(Clone, Copy, Debug, PartialEq, Eq, PartialOrd, Ord)]
enum Part {
    Start,
    Series,
    Editions,
    Orders,
    Legging,
    Generations,
    Reached,
}

/// Where the reading of a set stands.
struct Looking {
    short: bool,
    message: u32,
    venue: Venue,
    part: Part,
    /// How many records of the series were read.
    listed: usize,
    /// What the next record of this part has to be above: edition, id or place.
    above: Option<u64>,
    /// The series and number of the last generation, and how many of its series.
    generated: (u8, u32, usize),
    editions: usize,
    regular: usize,
    complex: usize,
    legging: usize,
    unplaced: Option<Unplaced>,
}

impl Default for Looking {
    fn default() -> Self {
        Looking {
            short: false,
            message: 0,
            venue: Venue::fresh(),
            part: Part::Start,
            listed: 0,
            above: None,
            generated: (0, 0, 0),
            editions: 0,
            regular: 0,
            complex: 0,
            legging: 0,
            unplaced: None,
        }
    }
}

type Taken = Result<(), String>;

impl Looking {
    fn take(&mut self, record: &[u8]) -> Taken {
        let entry = Entry::decode(record);
        if let Entry::Raw(bytes) = &entry {
            return Err(raw_fault(bytes));
        }
        match (self.part, &entry) {
            (Part::Start, _) => self.take_first(&entry),
            (Part::Series, _) if self.listed < 16 => self.take_series(&entry),
            (_, Entry::Setting { setting, number }) => self.take_setting(setting, *number),
            (_, Entry::Told(Message::Order(order))) => self.take_order(order),
            (_, Entry::Told(Message::Complex(order))) => self.take_complex(order),
            (_, Entry::Legging { .. }) => self.take_legging(&entry),
            (_, Entry::Generated { series, number }) => self.take_generated(*series, *number),
            (_, Entry::Reached { id }) => self.take_reached(*id),
            _ => Err(format!("{entry} stands before what comes before it here")),
        }
    }

    /// After the last record.
    fn end(&self) -> Taken {
        match self.part {
            Part::Start => Err("there is no record".to_string()),
            _ if self.listed < 16 => Err(format!(
                "expected {}, found the end of the set",
                self.next_of_series()
            )),
            _ => Ok(()),
        }
    }

    fn take_first(&mut self, entry: &Entry) -> Taken {
        let Entry::First {
            short,
            message,
            last,
        } = entry
        else {
            return Err(format!("expected a set's first record, found {entry}"));
        };
        (self.short, self.message, self.venue.last) = (*short, *message, *last);
        self.part = Part::Series;
        Ok(())
    }

    fn next_of_series(&self) -> String {
        let word = if self.listed.is_multiple_of(2) {
            "status"
        } else {
            "away"
        };
        format!("{word} of series {}", self.listed / 2)
    }

    /// Status and away prices of each series in turn.
    fn take_series(&mut self, entry: &Entry) -> Taken {
        let at = self.listed / 2;
        let is_next = |series: u8, of: usize| usize::from(series) == at && self.listed % 2 == of;
        match entry {
            Entry::Told(Message::Status(set)) if is_next(set.series, 0) => {
                self.venue.series[at].status = set.status;
            }
            Entry::Told(Message::Away(away)) if is_next(away.series, 1) => {
                (self.venue.series[at].bid, self.venue.series[at].offer) = (away.bid, away.offer);
            }
            _ => return Err(format!("expected {}, found {entry}", self.next_of_series())),
        }
        self.listed += 1;
        Ok(())
    }

    /// The record is of this part, and what it rises by is above the last.
    fn rise(&mut self, part: Part, name: &str, mark: u64) -> Taken {
        self.enter(part)?;
        match self.above {
            Some(last) if mark <= last => {
                return Err(format!("expected {name} above {last}, found {mark}"));
            }
            _ => self.above = Some(mark),
        }
        Ok(())
    }

    /// Goes on to a part, or stays in it.
    fn enter(&mut self, part: Part) -> Taken {
        if part < self.part {
            return Err(format!("{part:?} come before {:?}", self.part).to_lowercase());
        }
        if part > self.part {
            (self.part, self.above) = (part, None);
        }
        Ok(())
    }

    fn only_whole(&self, name: &str) -> Taken {
        match self.short {
            true => Err(format!("a short set has no {name}")),
            false => Ok(()),
        }
    }

    /// A field that no venue has a place for; the first is told.
    fn require(&mut self, has_place: bool, what: &str) -> bool {
        if !has_place && self.unplaced.is_none() {
            self.unplaced = Some(Unplaced::Now(what.to_string()));
        }
        has_place
    }

    fn take_setting(&mut self, setting: &Message, number: u32) -> Taken {
        self.only_whole("editions")?;
        let Some(entry) = entered_by(setting, number) else {
            return Err("expected a setting".to_string());
        };
        let edition = entry.edition;
        self.rise(Part::Editions, "an edition", edition.into())?;
        let count = one_more(&mut self.editions, 32, "editions")?;
        let is_series = entry.figure < 8 || matches!(setting, Message::Percent(_));
        if self.require(is_series, "a series above 7") && self.require(edition > 0, "edition 0") {
            self.venue.editions[count] = entry;
        }
        Ok(())
    }

    fn take_order(&mut self, order: &NewOrder) -> Taken {
        let NewOrder {
            id,
            leg,
            price,
            quantity,
            shows,
        } = *order;
        if self.short == shows.is_some() {
            return Err(match self.short {
                true => "a short set has no order with a shown quantity".to_string(),
                false => "a whole set has no order without a shown quantity".to_string(),
            });
        }
        self.rise(Part::Orders, "an id", id.into())?;
        let count = one_more(&mut self.regular, 128, "regular orders")?;
        let display = order.shown();
        if self.require(quantity > 0, "an order of quantity 0") {
            self.venue.regular[count] = Regular {
                id,
                series: leg.series,
                side: leg.side,
                price,
                quantity,
                reserve: quantity.wrapping_sub(display),
                display,
            };
        }
        Ok(())
    }

    fn take_complex(&mut self, order: &NewComplex) -> Taken {
        self.rise(Part::Orders, "an id", order.id.into())?;
        let count = one_more(&mut self.complex, 32, "complex orders")?;
        if self.require(order.quantity > 0, "an order of quantity 0")
            && self.require(order.ratios != Some([1, 1]), "kind 10 with ratios 1 and 1")
        {
            self.venue.complex[count] = to_rest(order);
        }
        Ok(())
    }

    fn take_legging(&mut self, order: &Entry) -> Taken {
        let Entry::Legging {
            id,
            leg,
            price,
            quantity,
        } = *order
        else {
            return Err("expected a legging order".to_string());
        };
        self.rise(Part::Legging, "a place", place_of(leg) as u64)?;
        one_more(&mut self.legging, 16, "legging orders")?;
        if self.require(
            leg.series < 8 && leg.side < 2,
            "a series or side out of range",
        ) && self.require(quantity > 0, "a legging order of quantity 0")
        {
            self.venue.legging[place_of(leg)] = Legging {
                parent: id,
                price,
                quantity,
            };
        }
        Ok(())
    }

    fn take_generated(&mut self, series: u8, number: u32) -> Taken {
        self.only_whole("generations")?;
        let first = self.part < Part::Generations;
        self.enter(Part::Generations)?;
        let (last_series, last, told) = self.generated;
        let goes_on = !first && series == last_series;
        if !first && series < last_series {
            return Err(format!(
                "expected series {last_series} or more, found {series}"
            ));
        }
        if goes_on && number < last {
            return Err(format!("expected message {last} or more, found {number}"));
        }
        let mut count = if goes_on { told } else { 0 };
        one_more(&mut count, 20, "generations of a series")?;
        self.generated = (series, number, count);
        if self.require(series < 8, "a series above 7") && self.require(number > 0, "message 0") {
            let row = &mut self.venue.generations[usize::from(series)];
            row.rotate_left(1);
            row[19] = number;
        }
        Ok(())
    }

    fn take_reached(&mut self, id: u32) -> Taken {
        self.only_whole("id reached")?;
        if self.part == Part::Reached {
            return Err("the id reached is told already".to_string());
        }
        self.enter(Part::Reached)?;
        self.require(id > 0, "id 0 reached");
        self.venue.reached = id;
        Ok(())
    }
}

/// Counts one more of a part; tells how many were before.
fn one_more(count: &mut usize, most: usize, name: &str) -> Result<usize, String> {
    if *count == most {
        return Err(format!("a set has at most {most} {name}"));
    }
    *count += 1;
    Ok(*count - 1)
}

fn raw_fault(bytes: &[u8]) -> String {
    let [a, b, c, d, ..] = bytes else {
        return format!(
            "expected a record's length and kind, found {} bytes",
            bytes.len()
        );
    };
    let (length, kind) = (u16::from_le_bytes([*a, *b]), u16::from_le_bytes([*c, *d]));
    if usize::from(length) != bytes.len() {
        return format!(
            "expected a record of {length} bytes, found {} to the end",
            bytes.len()
        );
    }
    format!("no set has a record of kind {kind} and {length} bytes")
}
