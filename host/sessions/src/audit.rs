//! The audit of a sheet, message by message: every record against the reference's, every
//! 66 by arithmetic of its own, every trade and cross at its moment, every complex order's
//! sums in units and its contracts, and the ceiling. What is kept does not grow with the
//! session or the sheet, and one false line hides none of those after it.

use crate::asked::ENOUGH;
use crate::check::{see, Step};
use crate::counted::counted;
use crate::explain::Told as Explanation;
use crate::ledger::{Account, Ledger};
use crate::message::Message;
use crate::moments::{look_at, Moment, Parties};
use crate::pairs::Pairs;
use crate::record::{read_report_into, Record};
use crate::replay::Books;
use crate::settings::held_editions;
use crate::sheet_lines::{Found, Group, Sheet, SheetLine};
use crate::traffic::{Traffic, CEILING};
use crate::view::{find_complex, find_regular, shown};
use reference::{one_message, Edition, Returned, Venue};
use std::io::{self, BufRead};

/// The most disagreements of one message that are told.
const MOST_OF_MESSAGE: usize = 12;

/// Something that does not agree.
#[derive(Clone, Debug, PartialEq, Eq)]
pub struct Disagreement {
    /// The message that it is of.
    pub message: Option<u32>,
    /// The line of the sheet.
    pub line: Option<u64>,
    /// The order whose sums do not agree.
    pub order: Option<u32>,
    /// What the rules say there, and what the sheet says.
    pub expected: Option<Record>,
    pub found: Option<String>,
    pub what: String,
}

impl Disagreement {
    fn new(what: String) -> Self {
        Disagreement {
            message: None,
            line: None,
            order: None,
            expected: None,
            found: None,
            what,
        }
    }

    fn at(message: u32, line: u64, what: String) -> Self {
        Disagreement {
            message: Some(message),
            line: Some(line),
            ..Disagreement::new(what)
        }
    }
}

/// A complex order, once it is gone or the sheet ends.
#[derive(Clone, Debug, PartialEq, Eq)]
pub struct Row {
    pub account: Account,
    pub open: u64,
    pub agrees: bool,
}

/// An order with reserve, what is left of it and what that shows.
#[derive(Clone, Debug, PartialEq, Eq)]
pub struct Reserve {
    pub account: Account,
    pub open: u64,
    pub shown: u64,
}

/// What is told as the audit goes.
#[derive(Clone, Debug, PartialEq, Eq)]
pub enum Told {
    Order(Row),
    Reserve(Reserve),
    Disagreement(Disagreement),
}

/// Whose sheet it is.
pub enum Source<R> {
    Given(Sheet<R>),
    /// The reference's own.
    Own,
}

/// An audit that is being made.
pub struct Auditor<R> {
    source: Source<R>,
    /// How many messages, and how many orders, are told as not agreeing.
    most: u64,
    /// The venue that the reference leaves.
    venue: Venue,
    report: Vec<u8>,
    /// The reference's records of the message.
    expected: Vec<Record>,
    /// The books by the sheet's records, and from the reference where these are false.
    books: Books,
    ledger: Ledger,
    traffic: Traffic,
    told: Vec<Told>,
    counts: Counts,
}

/// What an audit counted.
#[derive(Clone, Debug, Default, PartialEq, Eq)]
pub struct Counts {
    /// The messages of the session, and those up to where the sheet ends.
    pub messages: u32,
    pub answered: u32,
    /// The lines of the sheet that are records.
    pub records: u64,
    pub complex: u64,
    /// The messages whose records do not agree, missing ones included.
    pub differing: u64,
    /// The answers that are no message's.
    pub extra: u64,
    /// The orders whose sums do not agree.
    pub orders: u64,
    pub has_ended: bool,
    /// Whether the sheet ends within the records of the last message that it answers.
    pub ends_within: bool,
    /// The trades and crosses that were looked at, by their parties.
    pub moments: [u64; 4],
    /// Of each series the legging orders made, and the most of them in 256 messages.
    pub generated: [usize; 8],
    pub most_generated: [usize; 8],
}

/// A message, as the reference does it and as the sheet tells it.
struct Compared<'a> {
    number: u32,
    message: Message,
    bytes: &'a [u8],
    returned: Returned,
    faults: Vec<Disagreement>,
}

impl<R: BufRead> Auditor<R> {
    pub fn new(source: Source<R>, most: u64) -> Self {
        Auditor {
            source,
            most,
            venue: Venue::fresh(),
            report: vec![0; ENOUGH as usize],
            expected: Vec::new(),
            books: Books::of(&Venue::fresh()),
            ledger: Ledger::default(),
            traffic: Traffic::default(),
            told: Vec::new(),
            counts: Counts::default(),
        }
    }

    pub fn counts(&self) -> &Counts {
        &self.counts
    }

    /// What is to be told since this was asked last.
    pub fn told(&mut self) -> impl Iterator<Item = Told> {
        std::mem::take(&mut self.told).into_iter()
    }

    /// The settings entered by the messages that the sheet answers.
    pub fn editions(&self) -> impl Iterator<Item = &Edition> {
        held_editions(&self.venue)
    }

    /// The next message of the session, which may be its last. An error is one of reading
    /// the sheet.
    pub fn message(&mut self, bytes: &[u8], is_last: bool) -> io::Result<()> {
        self.counts.messages += 1;
        if self.counts.has_ended {
            return Ok(());
        }
        let number = self.counts.messages;
        let returned = one_message(&self.venue, number - 1, bytes, &mut self.report);
        let written = &self.report[..returned.written];
        read_report_into(written, &mut self.expected).map_err(io::Error::other)?;
        let Some(group) = self.find(number, is_last)? else {
            return Ok(());
        };
        self.counts.answered = number;
        let mut compared = Compared {
            number,
            message: Message::decode(bytes),
            bytes,
            returned,
            faults: Vec::new(),
        };
        match group {
            Some(group) => self.hold(&mut compared, &group),
            None => self.miss(&mut compared),
        }
        self.close(compared);
        Ok(())
    }

    /// What the sheet has for a message: its answer, or none of it; nothing where the sheet
    /// has ended.
    fn find(&mut self, number: u32, is_last: bool) -> io::Result<Option<Option<Group>>> {
        loop {
            let found = match &mut self.source {
                Source::Given(sheet) => sheet.find(number, is_last)?,
                Source::Own => Found::Answer(own_group(self.counts.records, &self.expected)),
            };
            match found {
                Found::Answer(group) => return Ok(Some(Some(group))),
                Found::Nothing => return Ok(Some(None)),
                Found::Extra(group) => self.extra(&group, &format!("message {number}")),
                Found::End => {
                    self.counts.has_ended = true;
                    return Ok(None);
                }
            }
        }
    }

    /// An answer that is one too many; `instead` is what is expected in its place.
    fn extra(&mut self, group: &Group, instead: &str) {
        self.counts.records += readable(group);
        self.counts.ends_within = false;
        self.counts.extra += 1;
        if self.counts.extra > self.most {
            return;
        }
        let Some(first) = group.lines.first() else {
            return;
        };
        let more = match group.lines.len() as u64 + group.beyond {
            1 => String::new(),
            lines => format!(" and {} after it", counted(lines - 1, "line")),
        };
        let found = first.text();
        self.told.push(Told::Disagreement(Disagreement {
            line: Some(first.line),
            what: format!("expected {instead}, found \"{found}\"{more}, one answer too many"),
            found: Some(found),
            ..Disagreement::new(String::new())
        }));
    }

    /// A message to which the sheet has no answer.
    fn miss(&mut self, compared: &mut Compared) {
        let Some(answer) = self.expected.first().copied() else {
            return;
        };
        self.counts.ends_within = false;
        let number = compared.number;
        compared.faults.push(Disagreement {
            message: Some(number),
            expected: Some(answer),
            ..Disagreement::new(format!("expected \"{answer}\", found no answer to it"))
        });
        if compared.returned.number == 0 {
            // So that later records of the order are not false too.
            let _ = self.ledger.enter(&compared.message);
        }
        self.go_on_from(&compared.returned.venue);
    }

    /// Goes on from what the reference leaves, so that a false message makes none after it
    /// look false.
    fn go_on_from(&mut self, left: &Venue) {
        self.books = Books::of(left);
        self.traffic.go_on_from(left);
    }

    /// Holds the lines of a message to the reference's records, and its records to their
    /// own arithmetic and to the books.
    fn hold(&mut self, compared: &mut Compared, group: &Group) {
        self.counts.records += readable(group);
        self.counts.ends_within = false;
        self.compare(compared, group);
        self.begin(compared, group);
        let mut pairs = Pairs::default();
        for SheetLine { line, read, .. } in &group.lines {
            let Ok(record) = read else {
                continue;
            };
            if record.kind() == 64 {
                continue;
            }
            let told = self.note(compared.number, record, &mut pairs);
            let told = told.into_iter();
            let faults = told.map(|what| Disagreement::at(compared.number, *line, what));
            compared.faults.extend(faults);
        }
        let unpaired = pairs.end();
        let unpaired =
            unpaired.map(|what| Disagreement::at(compared.number, group.end() - 1, what));
        compared.faults.extend(unpaired);
        self.end(compared);
    }

    /// The first line of a message that is not the reference's.
    fn compare(&mut self, compared: &mut Compared, group: &Group) {
        let lines = group.lines.len().max(self.expected.len());
        let differs = |at: &usize| match (group.lines.get(*at), self.expected.get(*at)) {
            (Some(line), Some(record)) => line.read.as_ref() != Ok(record),
            _ => true,
        };
        let Some(at) = (0..lines).find(differs) else {
            return;
        };
        let (line, expected) = (group.lines.get(at), self.expected.get(at).copied());
        self.counts.ends_within = line.is_none_or(|line| !line.has_end);
        let said = expected.map_or("no line".to_string(), |record| format!("\"{record}\""));
        let found = line.map_or("no line".to_string(), found_in_words);
        let rules = expected.and_then(|_| self.rules_in_words(compared, at));
        let rules = rules.map_or(String::new(), |words| format!("; by the rules: {words}"));
        compared.faults.push(Disagreement {
            expected,
            found: line.map(SheetLine::text),
            ..Disagreement::at(
                compared.number,
                line.map_or(group.end(), |line| line.line),
                format!("expected {said}, found {found}{rules}"),
            )
        });
        if group.beyond > 0 {
            let what = format!(
                "{} more than are looked at of one message",
                counted(group.beyond, "line")
            );
            let line = group.end() - group.beyond;
            compared
                .faults
                .push(Disagreement::at(compared.number, line, what));
        }
    }

    /// What a record of the reference says, in words.
    fn rules_in_words(&self, compared: &Compared, at: usize) -> Option<String> {
        if self.counts.differing >= self.most {
            return None;
        }
        let step = Step {
            message: &compared.message,
            bytes: compared.bytes,
            before: &self.venue,
            returned: &compared.returned,
            records: &self.expected,
        };
        let effects = self.expected.get(1..)?;
        let seen = match compared.returned.number {
            0 => see(&step, compared.number, effects).ok(),
            _ => None,
        };
        Some(Explanation::new(&step, seen.as_ref()).in_words(at))
    }

    /// The message is entered where the sheet says that it was accepted. Where only the
    /// reference accepts it, its order is followed too, so that not all that comes of it
    /// is told as false.
    fn begin(&mut self, compared: &mut Compared, group: &Group) {
        let Compared {
            number,
            message,
            returned,
            faults,
            ..
        } = compared;
        let refusal = match group.lines.first().map(|line| &line.read) {
            Some(Ok(Record::Answer(answer))) => answer.refusal,
            _ => returned.number,
        };
        if refusal == 0 {
            let entered = [
                self.books.enter(*number, message),
                self.ledger.enter(message),
            ];
            let wrong = entered.into_iter().filter_map(Result::err);
            faults.extend(wrong.map(|what| Disagreement::at(*number, group.line(), what)));
        } else if returned.number == 0 && self.ledger.enter(message).is_ok() {
            let id = self.ledger.accounts.last().map(|account| account.id);
            let rests = id.filter(|id| open_quantity(&returned.venue, *id) > 0);
            faults.extend(rests.map(|id| {
                let what = format!("order {id}: rests, but the sheet did not accept it");
                Disagreement::at(*number, group.line(), what)
            }));
        }
    }

    /// One record of a message: what is wrong with it.
    fn note(&mut self, number: u32, record: &Record, pairs: &mut Pairs) -> Vec<String> {
        let mut faults = Vec::new();
        let paired = pairs.note(&self.ledger, record);
        faults.extend(paired.map(|what| format!("record \"{record}\": {what}")));
        let (moment, looked) = look_at(&mut self.books, record);
        self.count_moment(moment);
        faults.extend(looked);
        faults.extend(self.ledger.add(record).err());
        if let (Some(recent), Record::Generated(made)) = (self.traffic.note(number, record), record)
        {
            let most = &mut self.counts.most_generated[usize::from(made.series)];
            *most = recent.max(*most);
            let series = made.series;
            let above = (recent > CEILING)
                .then(|| format!("number {recent} of series {series} in 256 messages"));
            faults.extend(above);
        }
        faults
    }

    fn count_moment(&mut self, moment: Option<Moment>) {
        let Some(moment) = moment else {
            return;
        };
        let at = Parties::ALL
            .iter()
            .position(|(parties, _)| *parties == moment.parties);
        self.counts.moments[at.unwrap_or_default()] += 1;
    }

    /// The books once a message is done are those of the venue that the reference leaves.
    fn end(&mut self, compared: &mut Compared) {
        self.books.finish();
        let left = &compared.returned.venue;
        if let Some(what) = self.books.difference(left) {
            compared.faults.push(Disagreement {
                message: Some(compared.number),
                ..Disagreement::new(format!("after it {what}"))
            });
        }
        if !compared.faults.is_empty() {
            self.go_on_from(&compared.returned.venue);
        }
    }

    /// Tells what does not agree in a message, and the orders that are gone with it.
    fn close(&mut self, compared: Compared) {
        let number = compared.number;
        self.venue = compared.returned.venue;
        let mut faults = compared.faults;
        if !faults.is_empty() {
            self.counts.differing += 1;
            let more = faults.len().saturating_sub(MOST_OF_MESSAGE);
            faults.truncate(MOST_OF_MESSAGE);
            if more > 0 {
                let what = format!("{} more of it", counted(more as u64, "disagreement"));
                faults.push(Disagreement {
                    message: Some(number),
                    ..Disagreement::new(what)
                });
            }
            if self.counts.differing <= self.most {
                self.told.extend(faults.into_iter().map(Told::Disagreement));
            }
        }
        for account in self.ledger.close(&self.venue) {
            self.tell_order(account, 0);
        }
    }

    /// Tells an order with what is open of it.
    fn tell_order(&mut self, account: Account, open: u64) {
        let fault = account.disagreement(open);
        let agrees = fault.is_none();
        if let Some(what) = fault {
            self.counts.orders += 1;
            if self.counts.orders <= self.most {
                self.told.push(Told::Disagreement(Disagreement {
                    order: Some(account.id),
                    ..Disagreement::new(what)
                }));
            }
        }
        if account.is_complex {
            self.counts.complex += 1;
            self.told.push(Told::Order(Row {
                account,
                open,
                agrees,
            }));
        } else if account.shown < account.entered {
            let rests = find_regular(&self.venue, account.id);
            let shown = rests.map_or(0, |order| u64::from(shown(order)));
            self.told.push(Told::Reserve(Reserve {
                account,
                open,
                shown,
            }));
        }
    }

    /// The session ends: what the sheet still has is too much, and the orders that rest
    /// are told.
    pub fn finish(&mut self) -> io::Result<()> {
        let messages = counted(u64::from(self.counts.messages), "message");
        let instead = format!("no more answers, the session has {messages}");
        loop {
            let rest = match &mut self.source {
                Source::Given(sheet) => sheet.rest()?,
                Source::Own => None,
            };
            let Some(group) = rest else {
                break;
            };
            self.extra(&group, &instead);
        }
        for account in std::mem::take(&mut self.ledger.accounts) {
            let open = open_quantity(&self.venue, account.id);
            self.tell_order(account, open);
        }
        self.counts.generated = self.traffic.counts();
        self.tell_untold();
        Ok(())
    }

    /// How many disagreements were counted and not told.
    fn tell_untold(&mut self) {
        let Counts {
            differing,
            extra,
            orders,
            ..
        } = self.counts;
        let untold = [
            (differing, "more message", "that does not agree"),
            (extra, "more answer", "that is one too many"),
            (orders, "more order", "whose sums do not agree"),
        ];
        for (count, name, which) in untold {
            let count = count.saturating_sub(self.most);
            if count > 0 {
                let what = format!("{} not told, each {which}", counted(count, name));
                self.told.push(Told::Disagreement(Disagreement::new(what)));
            }
        }
    }
}

/// How many lines of a message are records.
fn readable(group: &Group) -> u64 {
    group.lines.iter().filter(|line| line.read.is_ok()).count() as u64
}

/// The reference's own records as lines of a sheet, so many lines after its first.
fn own_group(lines: u64, records: &[Record]) -> Group {
    let line = |(line, record): (u64, &Record)| SheetLine {
        line,
        read: Ok(*record),
        has_end: true,
    };
    Group {
        lines: (lines + 1..).zip(records).map(line).collect(),
        beyond: 0,
    }
}

fn found_in_words(line: &SheetLine) -> String {
    let text = line.text();
    let why = line.read.as_ref().err();
    let why = why.map_or(String::new(), |bad| {
        format!(", which is no record: {}", bad.what)
    });
    let cut = if line.has_end {
        ""
    } else {
        ", where the sheet is cut: its last line has no end"
    };
    format!("\"{text}\"{why}{cut}")
}

fn open_quantity(venue: &Venue, id: u32) -> u64 {
    let complex = find_complex(venue, id).map(|order| order.quantity);
    let regular = || find_regular(venue, id).map(|order| order.quantity);
    u64::from(complex.or_else(regular).unwrap_or(0))
}
