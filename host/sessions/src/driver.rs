//! Two engines driven side by side over random sessions: every call is made of both, upon
//! memory lent full of junk. The number, every byte of the memory and the bytes around it
//! have to be the same, and an observer looks at what came.
//!
//! A session is named by its profile and seed alone, and so is all that is compared on it.

pub mod check;
mod layers;
mod own;
mod session;
mod sets;

use crate::asked::Asked;
use crate::engine::{Came, Engine, NUMBER_BYTES};
use crate::feed_generator::Feed;
use crate::lent::Lent;
use crate::record::{read_report_into, Record};
use crate::set::decode_set;
use crate::text::decode_line;
use check::{Check, Fault, Part};
pub use own::{drive_own, Compared};
pub use session::{drive_session, Difference, Effort};

/// How much was compared.
#[derive(Clone, Debug, Default)]
pub struct Counts {
    pub sessions: u64,
    pub messages: u64,
    pub runs: u64,
    pub feeds: u64,
    pub calls: u64,
    /// Trades and crosses that were looked at at their moment.
    pub moments: u64,
    pub settings: u64,
    pub sets: u64,
    pub arrivals: u64,
    pub turns: u64,
    pub bytes: u64,
    /// How often each number was returned.
    pub numbers: [u64; NUMBERS],
}

/// One more than the highest number of a call.
const NUMBERS: usize = 22;

impl Counts {
    fn add(&mut self, check: Check) {
        let kind = check.name().split('-').next();
        let count = match kind.unwrap_or_default() {
            "run" => &mut self.runs,
            "feed" => &mut self.feeds,
            "settings" => &mut self.settings,
            "write" | "read" => &mut self.sets,
            "arrive" => &mut self.arrivals,
            "turn" => &mut self.turns,
            "layer" => return,
            _ => &mut self.calls,
        };
        *count += 1;
    }
}

/// What went wrong in which check.
pub type Failed = (Check, String);

/// A one-message call that was compared.
pub struct Call<'a> {
    pub check: Check,
    pub given: &'a [u8],
    pub before: u32,
    pub message: &'a [u8],
    pub number: u8,
    pub done: u32,
    pub written: usize,
    /// The venue memory that the engine left.
    pub left: &'a [u8],
    pub records: &'a [Record],
}

/// What looks at the calls beside the comparison. An error is a violation.
pub trait Observer {
    /// A session begins.
    fn begin(&mut self) {}

    /// A one-message call; tells how many trades and crosses were looked at. The records
    /// and the venue left are the engine's own.
    fn called(&mut self, _call: &Call) -> Result<u64, String> {
        Ok(0)
    }

    /// A run, by its number.
    fn ran(&mut self, _number: u8) {}

    /// Two lines with report memory of this length.
    fn fed(&mut self, _feed: &Feed, _room: usize, _number: u8, _written: usize) -> Checked {
        Ok(())
    }

    /// A set written of a venue on the way or a changed one, or read that was spoiled.
    fn set(&mut self, _check: Check, _number: u8) {}

    /// A call upon a layer.
    fn asked(&mut self, _asked: &AskedOf) -> Checked {
        Ok(())
    }
}

/// What an observer says.
pub type Checked = Result<(), String>;

/// A call upon a layer that was compared.
pub struct AskedOf<'a> {
    pub asked: &'a Asked,
    pub given: &'a [u8],
    pub number: u8,
    /// The venue served by a turn; 4 for none.
    pub served: u8,
    /// The layer that the session goes on from; a call beside it may be upon another.
    pub own: &'a [u8],
    /// Whether the session goes on from what is left.
    pub goes_on: bool,
}

/// The memory that the calls of an engine are lent.
#[derive(Default)]
struct Memory {
    report: Lent,
    venue: Lent,
    layer: Lent,
    /// A set, and what a call upon one tells.
    set: Lent,
    told: Lent,
    /// Main first.
    lines: [Lent; 2],
}

impl Memory {
    /// Nothing is lent.
    fn cleared(&mut self) -> &mut Self {
        let [main, spare] = &mut self.lines;
        let others = [&mut self.report, &mut self.venue, &mut self.layer];
        let of_sets = [&mut self.set, &mut self.told];
        for lent in [main, spare].into_iter().chain(others).chain(of_sets) {
            lent.lend(0);
        }
        self
    }
}

/// Calls of two engines, compared as they are made.
pub struct Driver<'a> {
    engine: &'a dyn Engine,
    wanted: &'a dyn Engine,
    fault: Option<Fault>,
    pub observer: &'a mut dyn Observer,
    found: Memory,
    expected: Memory,
    records: Vec<Record>,
    pub counts: Counts,
}

/// What both engines came to.
struct Both {
    number: u32,
    /// Messages done and bytes written, by the records.
    done: u32,
    written: usize,
}

impl<'a> Driver<'a> {
    /// The engine's answers have to be those of the one that is wanted. With a fault a part
    /// of its answers is spoiled, to see that it is found.
    pub fn new(
        engine: &'a dyn Engine,
        wanted: &'a dyn Engine,
        observer: &'a mut dyn Observer,
        fault: Option<Fault>,
    ) -> Self {
        Driver {
            engine,
            wanted,
            fault,
            observer,
            found: Memory::default(),
            expected: Memory::default(),
            records: Vec::new(),
            counts: Counts::default(),
        }
    }

    /// Makes a call of both; `about` tells of it in an error.
    fn both(
        &mut self,
        check: Check,
        call: impl Fn(&dyn Engine, &mut Memory) -> Came,
        about: impl FnOnce() -> String,
    ) -> Result<Both, Failed> {
        let wanted = call(self.wanted, self.expected.cleared());
        let mut found = call(self.engine, self.found.cleared());
        self.counts.add(check);
        found.number = self.spoiled(check, found.number);
        let same = same_number(found.number, wanted.number)
            .and_then(|()| self.same_memory(check))
            .and_then(|()| self.same_told(check, &found, &wanted));
        let (done, written) = same.map_err(|what| (check, format!("{}: {what}", about())))?;
        let number = found.number;
        if let Some(count) = self.counts.numbers.get_mut(usize::from(number as u8)) {
            *count += 1;
        }
        Ok(Both {
            number,
            done,
            written,
        })
    }

    /// Every byte of the memory, and the bytes around it.
    fn same_memory(&mut self, check: Check) -> Checked {
        let report = match check {
            Check::Settings => "settings",
            _ => "report",
        };
        let (found, wanted) = (&self.found, &self.expected);
        for (name, found, wanted) in [
            (report, &found.report, &wanted.report),
            ("set", &found.set, &wanted.set),
            ("venue", &found.venue, &wanted.venue),
            ("layer", &found.layer, &wanted.layer),
        ] {
            if !found.is_guarded() || !wanted.is_guarded() {
                return Err(format!("bytes outside the {name} memory were written"));
            }
            self.counts.bytes += wanted.memory().len() as u64;
            same_bytes(name, found.memory(), wanted.memory())?;
        }
        if !found.told.is_guarded() || !wanted.told.is_guarded() {
            return Err("bytes outside the memory of the number told were written".to_string());
        }
        same_bytes("number told", found.told.memory(), wanted.told.memory())?;
        let lines = found.lines.iter().zip(&wanted.lines);
        for ((found, wanted), name) in lines.zip(["main", "spare"]) {
            if found.memory() != wanted.memory() || !found.is_guarded() {
                return Err(format!("the {name} line was written"));
            }
        }
        Ok(())
    }

    /// The messages done and the bytes written by the records of the report memory; what
    /// an engine tells of them is the same, and where both tell a venue, it is one.
    fn same_told(
        &mut self,
        check: Check,
        found: &Came,
        wanted: &Came,
    ) -> Result<(u32, usize), String> {
        self.records.clear();
        if check != Check::Settings {
            read_report_into(self.found.report.memory(), &mut self.records)?;
        }
        let bytes: usize = self.records.iter().map(Record::length).sum();
        let is_answer = |record: &&Record| matches!(record, Record::Answer(_));
        let answers = self.records.iter().filter(is_answer).count() as u32;
        for told in [&found.told, &wanted.told].into_iter().flatten() {
            let (done, written) = (told.done, told.written);
            if (answers, bytes) != (done, written) {
                return Err(format!(
                    "{answers} messages done and {bytes} bytes written, expected {done} and {written}"
                ));
            }
        }
        match (&found.told, &wanted.told) {
            (Some(found), Some(wanted)) if found.venue != wanted.venue => {
                Err("another venue is told to be left".to_string())
            }
            _ => Ok((answers, bytes)),
        }
    }

    /// The number and 256 times the venue served, with a part of the answer spoiled if
    /// that was asked for.
    fn spoiled(&mut self, check: Check, number: u32) -> u32 {
        let part = match self.fault {
            Some(fault) if fault.check == check => fault.part,
            _ => return number,
        };
        let memory = &mut self.found;
        let [main, spare] = &mut memory.lines;
        let lent = match part {
            Part::Number => return number ^ 1,
            Part::Served => return number ^ 256,
            Part::Report | Part::BeforeReport | Part::AfterReport => &mut memory.report,
            Part::Venue | Part::BeforeVenue | Part::AfterVenue => &mut memory.venue,
            Part::Layer | Part::BeforeLayer | Part::AfterLayer => &mut memory.layer,
            Part::Set | Part::BeforeSet | Part::AfterSet => &mut memory.set,
            Part::Told | Part::BeforeTold | Part::AfterTold => &mut memory.told,
            Part::Main => main,
            Part::Spare => spare,
        };
        let length = lent.memory().len() as isize;
        let at = match part.name() {
            name if name.starts_with("before-") => -1,
            name if name.starts_with("after-") => length,
            _ if matches!(part, Part::Main | Part::Spare) => 0,
            _ => (length - 1).max(0),
        };
        lent.spoil(at);
        number
    }
}

/// The calls.
impl Driver<'_> {
    /// A run with report memory of this length.
    fn run(&mut self, check: Check, messages: &[u8], length: usize) -> Result<Both, Failed> {
        let both = self.both(
            check,
            |engine, memory| engine.run(messages, memory.report.lend(length)),
            || format!("report memory of {length} bytes"),
        )?;
        self.observer.ran(both.number as u8);
        Ok(both)
    }

    /// A feed with report memory of this length. Tells the bytes written.
    fn feed(&mut self, check: Check, feed: &Feed, length: usize) -> Result<usize, Failed> {
        let both = self.both(
            check,
            |engine, memory| {
                let [main, spare] = &mut memory.lines;
                main.hold(&feed.main);
                spare.hold(&feed.spare);
                let report = memory.report.lend(length);
                engine.feed(main.memory(), spare.memory(), report)
            },
            || format!("report memory of {length} bytes"),
        );
        let lines = || {
            let [main, spare] = [&feed.main, &feed.spare].map(|line| decode_line(line));
            format!("main line:\n{main}spare line:\n{}", spare.trim_end())
        };
        let both = both.map_err(|(check, what)| (check, format!("{what}\n{}", lines())))?;
        let (number, written) = (both.number as u8, both.written);
        let seen = self.observer.fed(feed, length, number, written);
        seen.map_err(|what| (check, format!("{what}\n{}", lines())))?;
        Ok(written)
    }

    /// A fresh venue in venue memory of this length. Tells what is left.
    fn fresh(&mut self, length: usize) -> Result<Vec<u8>, Failed> {
        self.both(
            Check::Fresh,
            |engine, memory| engine.fresh(memory.venue.lend(length)),
            || format!("venue memory of {length} bytes"),
        )?;
        Ok(self.found.venue.memory().to_vec())
    }

    /// A one-message call. Tells what both came to, and the venue left.
    fn call(
        &mut self,
        check: Check,
        given: &[u8],
        before: u32,
        message: &[u8],
        length: usize,
    ) -> Result<(Both, Vec<u8>), Failed> {
        let both = self.both(
            check,
            |engine, memory| {
                let (venue, report) = (memory.venue.hold(given), memory.report.lend(length));
                engine.message(venue, before, message, report)
            },
            || {
                let message = hexadecimal(message);
                format!(
                    "{before} messages before, report memory of {length} bytes, message {message}"
                )
            },
        )?;
        let left = self.found.venue.memory().to_vec();
        let spoiled = self.spoil_replayed(check, &left);
        let records = std::mem::take(&mut self.records);
        let seen = self.observe(&Call {
            check,
            given,
            before,
            message,
            number: both.number as u8,
            done: both.done,
            written: both.written,
            left: spoiled.as_deref().unwrap_or(&left),
            records: &records,
        });
        self.records = records;
        seen.map(|()| (both, left))
    }

    /// Lets the observer look at a one-message call.
    fn observe(&mut self, call: &Call) -> Result<(), Failed> {
        let check = match call.check {
            Check::Call => Check::Replay,
            check => check,
        };
        let number = call.before.wrapping_add(1);
        let told = |what| format!("the report of message {number}: {what}");
        let seen = self.observer.called(call);
        self.counts.moments += seen.map_err(|what| (check, told(what)))?;
        Ok(())
    }

    /// Spoils what the observer looks at, if that was asked for: the records, or the venue
    /// left, which is told then.
    fn spoil_replayed(&mut self, check: Check, left: &[u8]) -> Option<Vec<u8>> {
        let fault = self.fault.filter(|fault| fault.check == Check::Replay)?;
        if check != Check::Call {
            return None;
        }
        if fault.part != Part::Venue {
            self.records.iter_mut().for_each(spoil_trade);
            return None;
        }
        let mut left = left.to_vec();
        left[LAST_ID_AT] ^= 1;
        Some(left)
    }

    /// The settings at a message number, in memory of this length.
    fn settings(&mut self, venue: &[u8], number: u32, length: usize) -> Result<(), Failed> {
        self.both(
            Check::Settings,
            |engine, memory| {
                let (venue, told) = (memory.venue.hold(venue), memory.report.lend(length));
                engine.settings(venue, number, told)
            },
            || format!("settings at message {number}, memory of {length} bytes"),
        )?;
        Ok(())
    }

    /// A set, in memory of these lengths. Tells the set; nothing where none is written.
    fn write_set(
        &mut self,
        check: Check,
        venue: &[u8],
        number: u32,
        [length, told]: [usize; 2],
    ) -> Result<Vec<u8>, Failed> {
        let both = self.both(
            check,
            |engine, memory| {
                let (set, written) = (memory.set.lend(length), memory.told.lend(told));
                engine.write_set(memory.venue.hold(venue), number, set, written)
            },
            || format!("set after {number} messages, memory of {length} and {told} bytes"),
        )?;
        self.observer.set(check, both.number as u8);
        let told = <[u8; NUMBER_BYTES]>::try_from(self.found.told.memory());
        let length = told.map_or(0, |told| u32::from_le_bytes(told) as usize);
        let set = self.found.set.memory().get(..length);
        Ok(set.unwrap_or_default().to_vec())
    }

    /// A set read into memory of these lengths. Tells the number, the venue, and the
    /// memory of its message number.
    fn read_set(
        &mut self,
        check: Check,
        set: &[u8],
        [length, told]: [usize; 2],
    ) -> Result<(u8, Vec<u8>, Vec<u8>), Failed> {
        let both = self.both(
            check,
            |engine, memory| {
                let (venue, number) = (memory.venue.lend(length), memory.told.lend(told));
                engine.read_set(memory.set.hold(set), venue, number)
            },
            || {
                let bytes = set.len();
                format!("a set of {bytes} bytes, memory of {length} and {told} bytes")
            },
        );
        let set = || decode_set(set).trim_end().to_string();
        let both = both.map_err(|(check, what)| (check, format!("{what}\n{}", set())))?;
        let number = both.number as u8;
        self.observer.set(check, number);
        let [venue, told] =
            [&self.found.venue, &self.found.told].map(|lent| lent.memory().to_vec());
        Ok((number, venue, told))
    }

    /// A fresh layer in layer memory of this length. Tells what is left.
    fn layer_fresh(&mut self, length: usize) -> Result<Vec<u8>, Failed> {
        self.both(
            Check::LayerFresh,
            |engine, memory| engine.layer_fresh(memory.layer.lend(length)),
            || format!("layer memory of {length} bytes"),
        )?;
        Ok(self.found.layer.memory().to_vec())
    }

    /// A call upon layer memory, or upon the session's own where none is given. Tells what
    /// is left, and the bytes written.
    fn ask(
        &mut self,
        check: Check,
        asked: &Asked,
        (own, given): (&[u8], Option<&[u8]>),
        goes_on: bool,
    ) -> Result<(Vec<u8>, usize), Failed> {
        let given = given.unwrap_or(own);
        let both = self.both(
            check,
            |engine, memory| {
                let layer = memory.layer.hold(given);
                match asked {
                    Asked::Arrive { venue, message } => engine.arrive(layer, *venue, message),
                    Asked::Turn { room } => engine.turn(layer, memory.report.lend(*room as usize)),
                }
            },
            || asked.to_string(),
        )?;
        let left = self.found.layer.memory().to_vec();
        let seen = self.observer.asked(&AskedOf {
            asked,
            given,
            number: both.number as u8,
            served: (both.number >> 8) as u8,
            own,
            goes_on,
        });
        seen.map_err(|what| (check, format!("{asked}: {what}")))?;
        Ok((left, both.written))
    }
}

/// Where the last id stands in a venue's bytes.
const LAST_ID_AT: usize = 2_600;

fn same_number(found: u32, wanted: u32) -> Checked {
    let [(number, served), (wanted, wanted_served)] =
        [found, wanted].map(|number| (number as u8, number >> 8));
    if number != wanted {
        return Err(format!("number {number}, expected {wanted}"));
    }
    if served != wanted_served {
        return Err(format!("venue {served} served, expected {wanted_served}"));
    }
    Ok(())
}

/// Moves a trade to a worse price for its taker.
fn spoil_trade(record: &mut Record) {
    if let Record::Trade(trade) = record {
        let worse = 1 - 2 * i32::from(trade.side);
        trade.price = trade.price.wrapping_add_signed(worse);
    }
}

fn same_bytes(name: &str, found: &[u8], wanted: &[u8]) -> Checked {
    if found == wanted {
        return Ok(());
    }
    let at = found.iter().zip(wanted).position(|(a, b)| a != b);
    match at {
        Some(at) => Err(format!(
            "{name} byte {at} is {:02x}, expected {:02x}",
            found[at], wanted[at]
        )),
        None => Err(format!(
            "{name} of {} bytes, expected {}",
            found.len(),
            wanted.len()
        )),
    }
}

fn hexadecimal(bytes: &[u8]) -> String {
    let shown: Vec<String> = bytes.iter().map(|byte| format!("{byte:02x}")).collect();
    match shown.is_empty() {
        true => "of no bytes".to_string(),
        false => shown.join(" "),
    }
}
