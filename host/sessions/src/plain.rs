//! The plain model as an engine: every call by the plainest reading of documents 01 and 02,
//! over the model of a message's work and of its legging orders, the second reader of sets,
//! the second reading of lines and the second test of soundness. Slow, and apart from the
//! reference but for its types.

use crate::engine::{served_none, Calls, SETTINGS_BYTES, UNSOUND};
use crate::feed::hand_out;
use crate::layer_check::faults_of;
use crate::message::{first_whole, Away, Increment, Leg, Message, NewComplex, NewOrder};
use crate::message::{Percent, Status};
use crate::model::{refusal, work, Work};
use crate::phases::{expected_generation, expected_settling};
use crate::record::{Answer, Record, Removed};
use crate::set::Entry;
use crate::set_reader::look_at;
use crate::settings::{held_editions, InForce, PERCENT};
use crate::sound::{call_fault, fault};
use crate::view::{has_ratios, held_complex, held_regular, leg_at, legs_of, ratios_of};
use crate::view::{side_of, View};
use reference::{Edition, Layer, Legging, Listed, Returned, Turned, Venue, VENUES};
use std::collections::BTreeMap;

/// The records do not fit, or the message numbers are used up.
const NO_ROOM: u8 = 10;

const TORN: u8 = 1;

/// The memory is shorter than the set.
const SHORT_MEMORY: u8 = 15;

/// The plain model.
pub struct Plain;

/// The refusal of a message or 0, the venue left and the records, of the message with this
/// number upon a sound venue. `left` is all that is left to read.
fn done(venue: &Venue, number: u32, left: &[u8]) -> (u8, Venue, Vec<Record>) {
    let refusal = refusal(venue, left);
    let (after, effects) = match (refusal, first_whole(left)) {
        (0, Some(piece)) => accepted(venue, number, &Message::decode(piece)),
        _ => (venue.clone(), Vec::new()),
    };
    let filled = (0..16).filter(|place| after.legging[*place].quantity > 0);
    let mask = filled.fold(0, |mask, place| mask | 1u16 << place);
    let answer = Record::Answer(Answer {
        number,
        refusal,
        mask,
        count: mask.count_ones() as u8,
    });
    let records = [vec![answer], effects].concat();
    (refusal, after, records)
}

/// The work, the settling and the generation of an accepted message.
fn accepted(before: &Venue, number: u32, message: &Message) -> (Venue, Vec<Record>) {
    let Work {
        mut venue,
        mut records,
        ..
    } = work(before, message, number);
    for (place, cause) in expected_settling(&View::of(&venue), &venue) {
        let (leg, gone) = (leg_at(place), std::mem::take(&mut venue.legging[place]));
        records.push(Record::Removed(Removed {
            id: gone.parent,
            series: leg.series,
            side: leg.side,
            cause,
        }));
    }
    let mut view = View::of(&venue);
    let (_, made) = expected_generation(&mut view, (number, message), before, &venue);
    records.extend(made);
    (venue.legging, venue.generations) = (view.legging, view.generations);
    (venue, records)
}

/// Report memory that is filled record by record.
struct Report<'a> {
    memory: &'a mut [u8],
    written: usize,
}

impl<'a> Report<'a> {
    fn new(memory: &'a mut [u8]) -> Self {
        memory.fill(0);
        Report { memory, written: 0 }
    }

    /// Writes the records of a message, all or none.
    fn write(&mut self, records: &[Record]) -> bool {
        let bytes: Vec<u8> = records.iter().flat_map(Record::encode).collect();
        let room = self.memory.get_mut(self.written..);
        let Some(room) = room.and_then(|room| room.get_mut(..bytes.len())) else {
            return false;
        };
        room.copy_from_slice(&bytes);
        self.written += bytes.len();
        true
    }
}

impl Calls for Plain {
    fn run(&self, messages: &[u8], report: &mut [u8]) -> Returned {
        let mut report = Report::new(report);
        let mut returned = returned(0, 0, 0, Venue::fresh());
        let mut rest = messages;
        while !rest.is_empty() {
            let number = returned.done + 1;
            let (refusal, venue, records) = done(&returned.venue, number, rest);
            if !report.write(&records) {
                returned.number = NO_ROOM;
                break;
            }
            (returned.done, returned.venue) = (number, venue);
            if refusal == TORN {
                returned.number = TORN;
                break;
            }
            rest = &rest[first_whole(rest).map_or(rest.len(), <[u8]>::len)..];
        }
        returned.written = report.written;
        returned
    }

    /// The run of the list handed out, with the number of what stopped it where that was
    /// not the memory.
    fn feed(&self, main: &[u8], spare: &[u8], report: &mut [u8]) -> Returned {
        let handed = hand_out(main, spare);
        let mut returned = Calls::run(self, &handed.list(), report);
        if returned.number != NO_ROOM {
            returned.number = handed.stop.number();
        }
        returned
    }

    fn message(&self, venue: &Venue, before: u32, message: &[u8], report: &mut [u8]) -> Returned {
        let mut report = Report::new(report);
        if call_fault(venue, before).is_some() {
            return returned(UNSOUND, 0, 0, venue.clone());
        }
        let Some(number) = before.checked_add(1) else {
            return returned(NO_ROOM, 0, 0, venue.clone());
        };
        let (refusal, after, records) = done(venue, number, message);
        match report.write(&records) {
            true => returned(refusal, 1, report.written, after),
            false => returned(NO_ROOM, 0, 0, venue.clone()),
        }
    }

    fn settings(&self, venue: &Venue, number: u32) -> Option<[u8; SETTINGS_BYTES]> {
        let sound = fault(venue).is_none();
        sound.then(|| InForce::at(venue, number).values())
    }

    fn write_set(&self, venue: &Venue, number: u32, set: &mut [u8]) -> (u8, usize) {
        set.fill(0);
        if call_fault(venue, number).is_some() {
            return (UNSOUND, 0);
        }
        let entries = entries(venue, number);
        let bytes: Vec<u8> = entries.iter().flat_map(Entry::encode).collect();
        let Some(room) = set.get_mut(..bytes.len()) else {
            return (SHORT_MEMORY, 0);
        };
        room.copy_from_slice(&bytes);
        (0, bytes.len())
    }

    fn read_set(&self, set: &[u8]) -> (u8, Venue, u32) {
        match look_at(set) {
            Ok((venue, number)) => (0, venue, number),
            Err(refused) => (refused.number, Venue::fresh(), 0),
        }
    }

    fn arrive(&self, layer: &mut Layer, venue: u32, message: &[u8]) -> u8 {
        if !faults_of(layer).is_empty() {
            return UNSOUND;
        }
        if venue as usize >= VENUES {
            return 18;
        }
        let wait = &mut layer.lanes[venue as usize].wait;
        if wait.len() >= 8 || message.len() > 32 {
            return 17;
        }
        wait.push(message.to_vec());
        0
    }

    fn turn(&self, layer: &mut Layer, report: &mut [u8]) -> Turned {
        report.fill(0);
        if !faults_of(layer).is_empty() {
            return served_none(UNSOUND);
        }
        let Some(next) = next_served(layer) else {
            return served_none(0);
        };
        let lane = &mut layer.lanes[next];
        let came = Calls::message(self, &lane.venue, lane.done, &lane.wait[0], report);
        if came.done == 0 {
            return served_none(came.number);
        }
        lane.wait.remove(0);
        lane.done += 1;
        lane.venue = came.venue;
        layer.last = next as u8;
        Turned {
            number: came.number,
            done: 1,
            written: came.written,
            served: layer.last,
        }
    }
}

fn returned(number: u8, done: u32, written: usize, venue: Venue) -> Returned {
    Returned {
        number,
        done,
        written,
        venue,
    }
}

/// The venue after the last one served that has a message waiting.
fn next_served(layer: &Layer) -> Option<usize> {
    let mut venue = usize::from(layer.last);
    for _ in 0..VENUES {
        venue = if venue == VENUES - 1 { 0 } else { venue + 1 };
        if !layer.lanes[venue].wait.is_empty() {
            return Some(venue);
        }
    }
    None
}

/// The records of a venue's set, in their order.
fn entries(venue: &Venue, number: u32) -> Vec<Entry> {
    let mut entries = vec![Entry::First {
        short: false,
        message: number,
        last: venue.last,
    }];
    for (series, listed) in (0..).zip(&venue.series) {
        let Listed { status, bid, offer } = *listed;
        entries.push(Entry::Told(Message::Status(Status { series, status })));
        entries.push(Entry::Told(Message::Away(Away { series, bid, offer })));
    }
    entries.extend(held_editions(venue).map(edition_entry));
    entries.extend(resting(venue).into_values().map(Entry::Told));
    let standing = (0..16).filter(|place| venue.legging[*place].quantity > 0);
    entries.extend(standing.map(|place| legging_entry(leg_at(place), venue.legging[place])));
    for (series, numbers) in (0..).zip(&venue.generations) {
        let made = numbers.iter().copied().filter(|number| *number > 0);
        entries.extend(made.map(|number| Entry::Generated { series, number }));
    }
    let id = venue.reached;
    entries.extend((id > 0).then_some(Entry::Reached { id }));
    entries
}

fn edition_entry(entry: &Edition) -> Entry {
    let (edition, value) = (entry.edition, entry.value);
    let setting = match entry.figure {
        PERCENT => Message::Percent(Percent {
            percent: value,
            edition,
        }),
        series => Message::Increment(Increment {
            series,
            increment: value,
            edition,
        }),
    };
    Entry::Setting {
        setting,
        number: entry.number,
    }
}

/// The resting orders of both books, by id.
fn resting(venue: &Venue) -> BTreeMap<u32, Message> {
    let regular = held_regular(venue).map(|order| {
        let message = Message::Order(NewOrder {
            id: order.id,
            leg: side_of(order),
            price: order.price,
            quantity: order.quantity,
            shows: Some(order.display),
        });
        (order.id, message)
    });
    let complex = held_complex(venue).map(|order| {
        let message = Message::Complex(NewComplex {
            id: order.id,
            legs: legs_of(order),
            class: order.class,
            limit: order.limit,
            quantity: order.quantity,
            ratios: has_ratios(order).then(|| ratios_of(order)),
        });
        (order.id, message)
    });
    regular.chain(complex).collect()
}

fn legging_entry(leg: Leg, order: Legging) -> Entry {
    Entry::Legging {
        id: order.parent,
        leg,
        price: order.price,
        quantity: order.quantity,
    }
}
