//! The calls: a run over a message list, one message upon a venue, and the
//! settings of a venue.

use crate::books::Books;
use crate::sound::lay_out;
use crate::types::{Returned, Settings, Venue};
use crate::wire::{decode, first_message, Message, Refusal, Report, ANSWER_BYTES, LOOKED_BYTES};

const UNSOUND: u8 = 9;
const ENDED_EARLY: u8 = 10;

/// How a message ended.
enum Outcome {
    /// Done, with its refusal's number or 0.
    Done(u8),
    /// Its records did not fit: nothing of it was kept.
    DoesNotFit,
}

/// Runs a message list from a fresh venue.
pub fn run(messages: &[u8], report: &mut [u8]) -> Returned {
    let mut books = Books::fresh();
    let mut report = Report::new(report);
    let mut rest = messages;
    let mut done: u32 = 0;
    let mut number = 0;
    while !rest.is_empty() {
        let Some(next) = done.checked_add(1) else {
            number = ENDED_EARLY;
            break;
        };
        let first = first_message(rest);
        let outcome = take(&mut books, next, first, &mut report);
        let Outcome::Done(_) = outcome else {
            number = ENDED_EARLY;
            break;
        };
        done = next;
        let Ok(message) = first else {
            number = Refusal::Torn.number();
            break;
        };
        rest = &rest[message.len()..];
    }
    Returned {
        number,
        done,
        written: report.finish(),
        venue: books.to_venue(),
    }
}

/// Takes one message upon a venue; `before` messages went before it.
pub fn one_message(venue: &Venue, before: u32, message: &[u8], report: &mut [u8]) -> Returned {
    let mut report = Report::new(report);
    let Some(mut books) = lay_out(venue) else {
        return ended(UNSOUND, venue, report);
    };
    let Some(next) = before.checked_add(1) else {
        return ended(ENDED_EARLY, venue, report);
    };
    if next <= books.highest_kept() {
        return ended(UNSOUND, venue, report);
    }
    match take(&mut books, next, first_message(message), &mut report) {
        Outcome::Done(number) => Returned {
            number,
            done: 1,
            written: report.finish(),
            venue: books.to_venue(),
        },
        Outcome::DoesNotFit => ended(ENDED_EARLY, venue, report),
    }
}

/// The settings in force at a message number; nothing if the venue is unsound.
pub fn settings(venue: &Venue, number: u32) -> Option<Settings> {
    let books = lay_out(venue)?;
    Some(Settings::at(&books.editions, number))
}

/// A one-message call that ended before its message.
fn ended(number: u8, venue: &Venue, report: Report) -> Returned {
    Returned {
        number,
        done: 0,
        written: report.finish(),
        venue: venue.clone(),
    }
}

/// Takes a message that was cut from the list, or the refusal of cutting it.
fn take(
    books: &mut Books,
    number: u32,
    first: Result<&[u8], Refusal>,
    report: &mut Report,
) -> Outcome {
    let increments = &books.settings.increments;
    let decoded = first.and_then(|bytes| decode(bytes, increments));
    let accepted = decoded.and_then(|message| {
        books.admit(&message)?;
        Ok(message)
    });
    match accepted {
        Ok(message) => accept(books, number, message, report),
        Err(refusal) => refuse(books, number, refusal, report),
    }
}

fn refuse(books: &Books, number: u32, refusal: Refusal, report: &mut Report) -> Outcome {
    if report.left() < ANSWER_BYTES {
        return Outcome::DoesNotFit;
    }
    let start = report.reserve_answer();
    report.fill_answer(start, number, refusal.number(), books.filled);
    Outcome::Done(refusal.number())
}

/// Carries out a message. Only where its records might not fit is the state
/// kept beforehand, to be put back.
fn accept(books: &mut Books, number: u32, message: Message, report: &mut Report) -> Outcome {
    let kept = (report.left() < most_bytes(books, &message)).then(|| books.clone());
    let start = report.reserve_answer();
    books.perform(number, message, report);
    if !report.overflowed() {
        report.fill_answer(start, number, 0, books.filled);
        return Outcome::Done(0);
    }
    let Some(kept) = kept else {
        unreachable!("no message writes more than its most bytes");
    };
    *books = kept;
    report.rewind(start);
    Outcome::DoesNotFit
}

/// No such message writes more bytes upon these books than this.
///
/// Every message has its answer, at most one 71, and one 68 for each legging
/// order that stands. A trade uses up what one of the regular orders shows, or its
/// reserve, which arriving orders alone take, or is the last of an order, a hit or a
/// leg of a round. A cross fills one of the complex orders. A round of legging in
/// is the last of an order worked, filled or with less than a unit left at a price, or
/// uses up the size shown at a price, of which there are no more than regular orders.
/// Each leg of an order worked makes one legging order and removes one. A limited sweep
/// tells how many it works.
fn most_bytes(books: &Books, message: &Message) -> usize {
    const TRADE: usize = 22;
    let regular = books.regular.count();
    let quiet = ANSWER_BYTES + 12 + 11 * books.filled.count_ones() as usize;
    let worked = match message {
        Message::Cancel { .. } | Message::Away { .. } | Message::Status { .. } => return quiet,
        Message::Setting(_) => return quiet,
        Message::Order(_) => return quiet + TRADE * (2 * regular + 3) + 16,
        Message::Complex(_) => 1,
        Message::Sweep => books.complex.len(),
        Message::LimitedSweep { most } => books.complex.len().min(*most),
    };
    let crosses = books.complex.len() + 1;
    let rounds = worked + regular;
    let trades = regular + 2 * rounds;
    quiet + LOOKED_BYTES + 20 * crosses + 16 * rounds + TRADE * trades + 2 * worked * (22 + 11)
}
