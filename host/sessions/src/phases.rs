//! A message's records by phase: the work, the settling, the generation.

use crate::message::{Leg, Message};
use crate::model::looked_at;
use crate::record::{Generated, Record, Removed};
use crate::view::{find_complex, held_complex, leg_at, legs_of, place_of, Declined, View};
use reference::{Complex, Legging, Venue};

/// What the records of an accepted message tell of its legging orders.
pub struct Phases<'a> {
    pub work: &'a [Record],
    /// The state that the settling tested.
    pub at_settling: View,
    /// The orders that the settling removed: place and cause.
    pub settled: Vec<(usize, u8)>,
    /// The state after the settling.
    pub settled_view: View,
    pub generation: &'a [Record],
}

fn is_settling(record: &Record) -> bool {
    matches!(record, Record::Removed(gone) if matches!(gone.cause, 1 | 2 | 5 | 6))
}

fn is_generation(record: &Record) -> bool {
    match record {
        Record::Removed(gone) => gone.cause == 7,
        record => matches!(record, Record::Generated(_)),
    }
}

/// Cuts the effects of an accepted message into phases.
pub fn phases<'a>(
    before: &Venue,
    after: &Venue,
    effects: &'a [Record],
) -> Result<Phases<'a>, String> {
    let not_work = |record| is_settling(record) || is_generation(record);
    let work = effects.iter().position(not_work).unwrap_or(effects.len());
    let (work, rest) = effects.split_at(work);
    let settling = rest
        .iter()
        .position(|record| !is_settling(record))
        .unwrap_or(rest.len());
    let (settling, generation) = rest.split_at(settling);
    if let Some(record) = generation.iter().find(|record| !is_generation(record)) {
        return Err(format!("record \"{record}\" comes after its phase"));
    }
    let mut at_settling = View::of(after);
    at_settling.legging = before.legging;
    at_settling.generations = before.generations;
    for record in work {
        take_away(&mut at_settling, record)?;
    }
    let mut settled_view = at_settling.clone();
    let mut settled = Vec::new();
    for record in settling {
        settled.extend(take_away(&mut settled_view, record)?);
    }
    Ok(Phases {
        work,
        at_settling,
        settled,
        settled_view,
        generation,
    })
}

/// Takes a removed legging order out of the view; tells its place and cause.
fn take_away(view: &mut View, record: &Record) -> Result<Option<(usize, u8)>, String> {
    let Record::Removed(gone) = record else {
        return Ok(None);
    };
    let place = place_of(gone.leg());
    match view.legging.get_mut(place) {
        Some(order) if order.quantity > 0 && order.parent == gone.id => {
            *order = Legging::default();
            Ok(Some((place, gone.cause)))
        }
        _ => Err(format!(
            "record \"{record}\" removes an order that does not stand"
        )),
    }
}

/// What a settling of this state removes, by place.
pub fn expected_settling(view: &View, after: &Venue) -> Vec<(usize, u8)> {
    let mut removed = Vec::new();
    for place in 0..16 {
        let order = view.legging[place];
        if order.quantity == 0 {
            continue;
        }
        let Some(parent) = find_complex(after, order.parent) else {
            continue;
        };
        let causes = view.failing_causes(leg_at(place), parent);
        removed.extend(causes.first().map(|cause| (place, *cause)));
    }
    removed
}

/// One try at generating a leg.
pub struct Attempt {
    pub id: u32,
    pub leg: Leg,
    pub outcome: Result<Legging, Declined>,
}

/// The orders that a message generates for: those resting afterwards.
fn generates_for<'a>(message: &Message, before: &Venue, after: &'a Venue) -> Vec<&'a Complex> {
    match message {
        Message::Complex(order) => find_complex(after, order.id).into_iter().collect(),
        Message::Sweep => held_complex(after).collect(),
        Message::LimitedSweep(sweep) => {
            let looked = looked_at(before, sweep.most).into_iter();
            looked.filter_map(|id| find_complex(after, id)).collect()
        }
        _ => Vec::new(),
    }
}

/// Works out the generation after a settling: each try, and the records. The message has
/// this number.
pub fn expected_generation(
    view: &mut View,
    (number, message): (u32, &Message),
    before: &Venue,
    after: &Venue,
) -> (Vec<Attempt>, Vec<Record>) {
    let mut attempts = Vec::new();
    let mut records = Vec::new();
    for order in generates_for(message, before, after) {
        for which in 0..2 {
            let leg = legs_of(order)[which];
            let outcome = view.generation(number, after, order, which);
            if let Ok(made) = &outcome {
                records.extend(view.make(leg, *made));
                view.count_generation(number, leg.series);
            }
            attempts.push(Attempt {
                id: order.id,
                leg,
                outcome,
            });
        }
    }
    (attempts, records)
}

impl View {
    /// Puts a legging order in its place; tells the records of it.
    fn make(&mut self, leg: Leg, made: Legging) -> impl Iterator<Item = Record> {
        let Leg { series, side } = leg;
        let replaced = self.standing(leg).map(|holder| {
            Record::Removed(Removed {
                id: holder.parent,
                series,
                side,
                cause: 7,
            })
        });
        self.legging[place_of(leg)] = made;
        let generated = Record::Generated(Generated {
            id: made.parent,
            series,
            side,
            price: made.price,
            displayed: self.displayed(leg, i64::from(made.price)) as u32,
            quantity: made.quantity,
        });
        replaced.into_iter().chain([generated])
    }
}
