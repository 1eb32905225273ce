//! Demand 3 and what surrounds it, checked after every message from what a
//! caller sees: the bytes given, the numbers and venues returned, the records.

use crate::ledger::Ledger;
use crate::message::{Leg, Message};
use crate::model::{refusal, work, AboveLegs, OutOfBand, ShortOfUnit, Work};
use crate::moments::{check_moments, Moment};
use crate::phases::{expected_generation, expected_settling, phases, Attempt, Phases};
use crate::record::{Answer, Record};
use crate::settings::{entered_by, InForce};
use crate::sound::fault;
use crate::takings::check_takings;
use crate::traffic::Traffic;
use crate::view::{beats, find_complex, held_regular, leg_at, legs_of, opposite, sign};
use crate::view::{parts_of, shown, View};
use reference::{settings, Complex, Edition, Legging, Returned, Venue};

/// One message as a caller saw it.
pub struct Step<'a> {
    pub message: &'a Message,
    /// The bytes lent to the call.
    pub bytes: &'a [u8],
    pub before: &'a Venue,
    pub returned: &'a Returned,
    pub records: &'a [Record],
}

/// What an accepted message did to the legging orders, and crosses not made.
pub struct Seen<'a> {
    pub phases: Phases<'a>,
    pub attempts: Vec<Attempt>,
    /// Who was passed over in crossing for the prices of a party's legs alone.
    pub above: Vec<AboveLegs>,
    /// What else was not made for the band, no market best missing.
    pub out_of_band: Vec<OutOfBand>,
    /// Where legging in ended for less than a unit.
    pub short: Vec<ShortOfUnit>,
    /// The trades and crosses that were looked at upon the books just before them.
    pub moments: Vec<Moment>,
}

/// Follows one list of messages from a fresh venue.
#[derive(Clone, Default)]
pub struct Checker {
    pub ledger: Ledger,
    pub done: u32,
    /// The settings accepted, from their messages.
    entered: Vec<Edition>,
    traffic: Traffic,
}

impl Checker {
    /// Follows the same orders upon a venue with other generations, so many messages done.
    pub fn upon(&self, venue: &Venue, done: u32) -> Self {
        Checker {
            done,
            traffic: Traffic::of(venue),
            ..self.clone()
        }
    }

    /// What held at a message number, by the messages alone.
    pub fn in_force(&self, number: u32) -> InForce {
        let mut in_force = InForce::first();
        let earlier = self.entered.iter().filter(|entry| entry.number <= number);
        earlier.for_each(|entry| in_force.enter(entry));
        in_force
    }

    /// The settings that a venue tells are those that the messages have entered:
    /// at its ends and its own number, and after a setting about each one kept.
    pub fn check_settings(&self, step: &Step) -> Result<(), String> {
        let mut numbers = vec![0, self.done, u32::MAX];
        if let Message::Increment(_) | Message::Percent(_) = step.message {
            let about = |entry: &Edition| [entry.number - 1, entry.number];
            numbers.extend(self.entered.iter().flat_map(about));
        }
        for number in numbers {
            let told = settings(&step.returned.venue, number).map(|told| {
                let [a, b, c, d, e, f, g, h] = told.increments;
                [a, b, c, d, e, f, g, h, told.percent]
            });
            let expected = self.in_force(number).values();
            if told != Some(expected) {
                return Err(format!(
                    "settings at message {number} told as {told:?}, expected {expected:?}"
                ));
            }
        }
        Ok(())
    }

    /// Takes note of an accepted setting.
    fn enter(&mut self, message: &Message) {
        self.entered.extend(entered_by(message, self.done));
    }

    /// Checks one message done; tells what an accepted one did.
    pub fn check<'a>(&mut self, step: &Step<'a>) -> Result<Option<Seen<'a>>, String> {
        self.done += 1;
        let effects = check_answer(step, self.done)?;
        let expected = refusal(step.before, step.bytes);
        if expected != step.returned.number {
            let found = step.returned.number;
            return Err(format!("answered {found}, expected {expected}"));
        }
        if step.returned.number != 0 {
            // The venue is as it was, so what was checked of it holds.
            check_refused(step, effects)?;
            self.traffic.check(self.done, step)?;
            return Ok(None);
        }
        let seen = self.check_accepted(step, effects)?;
        self.check_left(step)?;
        Ok(Some(seen))
    }

    /// What holds of the venue that an accepted message leaves.
    fn check_left(&mut self, step: &Step) -> Result<(), String> {
        let after = &step.returned.venue;
        if let Some(fault) = fault(after) {
            return Err(format!("unsound: {fault}"));
        }
        check_standing(after)?;
        self.traffic.check(self.done, step)?;
        let disagreement = self.ledger.disagreement(after);
        if let Some(fault) = disagreement.or_else(|| self.ledger.shows_otherwise(after)) {
            return Err(fault);
        }
        self.ledger.close(after);
        Ok(())
    }

    fn check_accepted<'a>(
        &mut self,
        step: &Step<'a>,
        effects: &'a [Record],
    ) -> Result<Seen<'a>, String> {
        self.ledger.enter(step.message)?;
        self.enter(step.message);
        for record in effects {
            self.ledger.add(record)?;
        }
        see(step, self.done, effects)
    }
}

/// Checks what the accepted message of a number did, by itself, and tells it.
pub fn see<'a>(step: &Step<'a>, number: u32, effects: &'a [Record]) -> Result<Seen<'a>, String> {
    check_takings(step.before, step.message, effects)?;
    let after = &step.returned.venue;
    let moments = check_moments(step.before, number, step.message, effects, after)?;
    let phases = phases(step.before, after, effects)?;
    let work = check_work(step, number, &phases)?;
    let expected = expected_settling(&phases.at_settling, after);
    if expected != phases.settled {
        return Err(format!(
            "settling removed {:?}, expected {expected:?} (place, cause)",
            phases.settled
        ));
    }
    Ok(Seen {
        attempts: check_generation(step, number, &phases)?,
        phases,
        above: work.above,
        out_of_band: work.out_of_band,
        short: work.short,
        moments,
    })
}

/// The work's records and the books left are those of the plain model.
fn check_work(step: &Step, number: u32, phases: &Phases) -> Result<Work, String> {
    let after = &step.returned.venue;
    let expected = work(step.before, step.message, number);
    if expected.records != phases.work {
        return Err(format!(
            "the work wrote {:?}, expected {:?}",
            phases.work, expected.records
        ));
    }
    let same = expected.venue.regular == after.regular
        && expected.venue.complex == after.complex
        && expected.venue.series == after.series
        && expected.venue.last == after.last
        && expected.venue.editions == after.editions
        && expected.venue.reached == after.reached
        && expected.venue.legging == phases.at_settling.legging;
    if !same {
        return Err("the work left other books".to_string());
    }
    Ok(expected)
}

/// The generation's records, and the legging orders and generations left, are those of
/// the plain rules; tells each try.
fn check_generation(step: &Step, number: u32, phases: &Phases) -> Result<Vec<Attempt>, String> {
    let after = &step.returned.venue;
    let mut view = phases.settled_view.clone();
    let numbered = (number, step.message);
    let (attempts, records) = expected_generation(&mut view, numbered, step.before, after);
    if records != phases.generation {
        return Err(format!(
            "generation wrote {:?}, expected {records:?}",
            phases.generation
        ));
    }
    if view.legging != after.legging {
        return Err("the records do not lead to the legging orders left".to_string());
    }
    if view.generations != after.generations {
        return Err("the records do not lead to the generations left".to_string());
    }
    Ok(attempts)
}

/// The first record is the message's 64, and there is no other.
fn check_answer<'a>(step: &Step<'a>, number: u32) -> Result<&'a [Record], String> {
    let after = &step.returned.venue;
    let filled = (0..16).filter(|place| after.legging[*place].quantity > 0);
    let mask = filled.fold(0, |mask, place| mask | 1u16 << place);
    let expected = Record::Answer(Answer {
        number,
        refusal: step.returned.number,
        mask,
        count: mask.count_ones() as u8,
    });
    let Some((first, effects)) = step.records.split_first() else {
        return Err("no record was written".to_string());
    };
    if *first != expected {
        return Err(format!("answer \"{first}\", expected \"{expected}\""));
    }
    if effects.iter().any(|record| record.kind() == 64) {
        return Err("a second 64 was written".to_string());
    }
    Ok(effects)
}

fn check_refused(step: &Step, effects: &[Record]) -> Result<(), String> {
    if !effects.is_empty() {
        return Err(format!("a refused message wrote {effects:?}"));
    }
    if *step.before != step.returned.venue {
        return Err("a refused message changed the venue".to_string());
    }
    Ok(())
}

/// Each standing legging order is best displayed, in band, and its hit finds
/// every number of contracts up to its quantity.
fn check_standing(venue: &Venue) -> Result<(), String> {
    let view = View::of(venue);
    for place in 0..16 {
        let leg = leg_at(place);
        let Some(order) = view.standing(leg) else {
            continue;
        };
        let Some(parent) = find_complex(venue, order.parent) else {
            return Err(format!("the legging order at place {place} has no parent"));
        };
        check_best_displayed(&view, venue, leg, order)?;
        if !view.in_band(i64::from(parent.limit), parts_of(parent)) {
            return Err(format!("order {} is not in band", parent.id));
        }
        check_hit(&view, venue, leg, order, parent)?;
    }
    Ok(())
}

fn check_best_displayed(
    view: &View,
    venue: &Venue,
    leg: Leg,
    order: Legging,
) -> Result<(), String> {
    let shown = view.displayed(leg, i64::from(order.price));
    let mut same_side = held_regular(venue)
        .filter(|regular| regular.series == leg.series && regular.side == leg.side);
    match same_side.find(|regular| beats(leg, i64::from(regular.price), shown)) {
        Some(regular) => Err(format!(
            "regular order {} is better than the legging order of {} shown at {shown}",
            regular.id, order.parent
        )),
        None => Ok(()),
    }
}

/// The hit for k contracts, k from 1 to the quantity: what is at hand for the
/// largest is at hand for each.
fn check_hit(
    view: &View,
    venue: &Venue,
    leg: Leg,
    order: Legging,
    parent: &Complex,
) -> Result<(), String> {
    let legs = legs_of(parent);
    let other = if legs[0] == leg { legs[1] } else { legs[0] };
    let taken = opposite(other);
    let Some(clear) = view.clear(taken) else {
        return Err(format!("a hit of order {} finds no clear price", parent.id));
    };
    let at_hand: i64 = held_regular(venue)
        .filter(|regular| regular.series == taken.series && regular.side == taken.side)
        .filter(|regular| i64::from(regular.price) == clear.price)
        .map(|regular| i64::from(shown(regular)))
        .sum();
    let net = sign(leg) * i64::from(order.price) + sign(other) * clear.price;
    if at_hand < i64::from(order.quantity) || net > i64::from(parent.limit) {
        return Err(format!(
            "a hit of order {} finds {at_hand} contracts at a net of {net}",
            parent.id
        ));
    }
    Ok(())
}

#[cfg(test)]
mod tests {
    use super::*;
    use crate::record::{parse_sheet, read_report};
    use crate::settings::PERCENT;
    use crate::text::encode_session;
    use reference::{one_message, run};

    const OFFERS: &str = "open 0\nopen 1\norder 1 sell 15 series 0 at 130\n\
        order 2 sell 12 series 1 at 90\n";
    const LEGGING: &str = "complex 3 buy 0 buy 1 class 1 net 203 quantity 8\n";

    fn venue_after(text: &str) -> Venue {
        run(&encode_session(text).unwrap(), &mut [0; 4096]).venue
    }

    fn standing() -> Venue {
        venue_after(&format!("{OFFERS}{LEGGING}order 4 buy 1 series 0 at 110\n"))
    }

    #[test]
    fn standing_orders_of_a_session_hold() {
        assert_eq!(check_standing(&standing()), Ok(()));
    }

    #[test]
    fn legging_order_that_is_not_best_displayed_is_found() {
        let mut venue = standing();
        venue.regular[2].price = 115;
        let expected = "regular order 4 is better than the legging order of 3 shown at 110";
        assert_eq!(check_standing(&venue), Err(expected.to_string()));
    }

    #[test]
    fn legging_order_out_of_band_is_found() {
        let mut venue = standing();
        venue.series[1].offer = 40;
        let expected = "order 3 is not in band";
        assert_eq!(check_standing(&venue), Err(expected.to_string()));
    }

    #[test]
    fn hit_that_finds_too_few_contracts_or_too_high_a_net_is_found() {
        let mut venue = standing();
        venue.regular[1].quantity = 7;
        let expected = "a hit of order 3 finds 7 contracts at a net of 203";
        assert_eq!(check_standing(&venue), Err(expected.to_string()));
        let mut venue = standing();
        venue.regular[1].price = 95;
        let expected = "a hit of order 3 finds 12 contracts at a net of 208";
        assert_eq!(check_standing(&venue), Err(expected.to_string()));
        let mut venue = standing();
        venue.legging[3] = Legging {
            parent: 3,
            price: 85,
            quantity: 1,
        };
        let expected = "a hit of order 3 finds no clear price";
        assert_eq!(check_standing(&venue), Err(expected.to_string()));
    }

    /// Checks the printed session's last message after a change to what the
    /// call returned or wrote.
    fn check_changed(change: impl Fn(&mut Returned, &mut Vec<Record>)) -> Result<(), String> {
        check_last("order 4 sell 5 series 0 at 115\n", change)
    }

    /// The same with another last message.
    fn check_last(
        last: &str,
        change: impl Fn(&mut Returned, &mut Vec<Record>),
    ) -> Result<(), String> {
        let complex = "complex 3 buy 0 buy 1 class 1 net 205 quantity 8\n";
        let list = encode_session(&format!("{OFFERS}{complex}{last}")).unwrap();
        let mut checker = Checker::default();
        let mut venue = Venue::fresh();
        let pieces = crate::message::split(&list);
        for (before, piece) in pieces.iter().enumerate() {
            let mut report = [0; 1024];
            let mut returned = one_message(&venue, before as u32, piece, &mut report);
            let mut records = read_report(&report).unwrap();
            if before + 1 == pieces.len() {
                change(&mut returned, &mut records);
            }
            let step = Step {
                message: &Message::decode(piece),
                bytes: piece,
                before: &venue,
                returned: &returned,
                records: &records,
            };
            checker.check(&step)?;
            venue = returned.venue;
        }
        Ok(())
    }

    #[test]
    fn session_without_a_change_holds() {
        assert_eq!(check_changed(|_, _| {}), Ok(()));
    }

    #[test]
    fn every_changed_missing_or_doubled_record_is_found() {
        for index in 0..6 {
            assert!(check_changed(|_, records| {
                records.remove(index);
            })
            .is_err());
            assert!(check_changed(|_, records| records.insert(index, records[index])).is_err());
        }
        let changes = [
            (0, "64 6 0 1 1"),
            (1, "65 0 1 110 5 4 3"),
            (2, "65 1 0 90 5 3 1"),
            (3, "66 3 204 5"),
            (4, "68 3 0 0 4"),
        ];
        for (index, line) in changes {
            let record = parse_sheet(line).unwrap()[0];
            assert!(check_changed(|_, records| records[index] = record).is_err());
        }
        assert!(check_changed(|_, records| records.swap(4, 5)).is_err());
    }

    #[test]
    fn contracts_that_are_not_ratio_times_units_are_found() {
        let order = "complex 4 buy 0 buy 1 class 1 net 350 quantity 2 ratio 2 1\n";
        assert_eq!(check_last(order, |_, _| {}), Ok(()));
        for (index, line) in [
            (1, "65 0 0 130 2 4 1"),
            (2, "65 1 0 90 4 4 2"),
            (3, "66 4 350 4"),
            (3, "66 4 220 2"),
            (3, "67 4 0 0 130 130 2"),
        ] {
            let record = parse_sheet(line).unwrap()[0];
            let found = check_last(order, |_, records| records[index] = record);
            assert!(found.is_err(), "{line}");
        }
    }

    #[test]
    fn settling_by_falling_place_is_found() {
        assert_eq!(check_last("close 0\n", |_, _| {}), Ok(()));
        let expected = "settling removed [(2, 6), (0, 6)], expected [(0, 6), (2, 6)]";
        let found = check_last("close 0\n", |_, records| records.swap(1, 2)).unwrap_err();
        assert!(found.contains(expected), "{found}");
    }

    #[test]
    fn every_changed_part_of_the_venue_left_is_found() {
        let changes: [fn(&mut Venue); 16] = [
            |venue| venue.regular[0].quantity = 14,
            |venue| venue.regular[0].reserve = 1,
            |venue| venue.regular[0].display = 14,
            |venue| (venue.regular[0].reserve, venue.regular[0].display) = (5, 10),
            |venue| venue.regular[1].quantity = 8,
            |venue| venue.complex[0].quantity = 4,
            |venue| venue.complex[0].limit = 204,
            |venue| venue.complex[0].ratio1 = 2,
            |venue| venue.complex[0].ratio2 = 3,
            |venue| venue.series[5].status = 0,
            |venue| venue.last = 5,
            |venue| venue.reached = 3,
            |venue| venue.generations[0][19] = 6,
            |venue| venue.generations[7][19] = 1,
            |venue| {
                venue.editions[0] = Edition {
                    edition: 1,
                    number: 6,
                    figure: PERCENT,
                    value: 5,
                }
            },
            |venue| {
                venue.legging[0] = Legging {
                    parent: 3,
                    price: 115,
                    quantity: 3,
                }
            },
        ];
        for change in changes {
            assert!(check_changed(|returned, _| change(&mut returned.venue)).is_err());
        }
        assert!(check_changed(|returned, _| returned.number = 4).is_err());
    }

    #[test]
    fn order_that_shows_otherwise_than_it_was_entered_is_found() {
        let text = "order 1 sell 9 series 0 at 130 shows 4\norder 2 buy 3 series 0 at 130\n";
        let mut venue = venue_after(text);
        let mut ledger = Ledger::default();
        for piece in crate::message::split(&encode_session(text).unwrap()) {
            ledger.enter(&Message::decode(piece)).unwrap();
        }
        assert_eq!(ledger.shows_otherwise(&venue), None);
        for (display, shows) in [(1, 1), (3, 3), (5, 5), (6, 6)] {
            venue.regular[0].display = display;
            venue.regular[0].reserve = 6 - display;
            let expected = format!("order 1 shows {shows} of 6, expected 4");
            assert_eq!(ledger.shows_otherwise(&venue), Some(expected));
        }
    }
}
