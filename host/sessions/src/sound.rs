//! Soundness from the document's sentence, apart from the reference's test.

use crate::message::Leg;
use crate::settings::{last_edition, InForce, PERCENT};
use crate::view::{find_complex, has_ratios, leg_at, legs_of, ratios_of, View};
use reference::{Complex, Edition, Legging, Listed, Regular, Venue};

/// Why a one-message call gets 9, if it does: `before` messages went before its own.
pub fn call_fault(venue: &Venue, before: u32) -> Option<String> {
    fault(venue).or_else(|| number_fault(venue, before))
}

/// The message's number is above that of every edition kept, and of every generation.
pub fn number_fault(venue: &Venue, before: u32) -> Option<String> {
    edition_number_fault(venue, before).or_else(|| generation_number_fault(venue, before))
}

pub fn edition_number_fault(venue: &Venue, before: u32) -> Option<String> {
    let (edition, kept) = last_edition(venue);
    let number = u64::from(before) + 1;
    (number <= u64::from(kept))
        .then(|| format!("message {number} is not above message {kept} of edition {edition}"))
}

pub fn generation_number_fault(venue: &Venue, before: u32) -> Option<String> {
    let number = u64::from(before) + 1;
    let mut kept = venue.generations.iter().flatten();
    let kept = kept.find(|kept| number <= u64::from(**kept))?;
    Some(format!(
        "message {number} is not above message {kept} of a generation"
    ))
}

/// What is unsound about a venue, if anything.
pub fn fault(venue: &Venue) -> Option<String> {
    // The other tests read the settings in force.
    if let Some(fault) = edition_fault(venue) {
        return Some(fault);
    }
    let faults = [
        arrangement_fault(venue),
        regular_fault(venue),
        shown_fault(venue),
        complex_fault(venue),
        series_fault(venue),
        id_fault(venue),
        traffic_fault(venue),
    ];
    if let Some(fault) = faults.into_iter().flatten().next() {
        return Some(fault);
    }
    legging_fault(venue).or_else(|| crossed_fault(venue))
}

/// Editions come first and rise from 0 in both numbers; free places are zero.
fn edition_fault(venue: &Venue) -> Option<String> {
    let editions: Vec<u32> = venue.editions.iter().map(|entry| entry.edition).collect();
    let numbers: Vec<u32> = venue.editions.iter().map(|entry| entry.number).collect();
    if !rises_then_zero(&editions) || !rises_then_zero(&numbers) {
        return Some("editions do not rise in both numbers".to_string());
    }
    let mut free = venue.editions.iter().filter(|entry| entry.edition == 0);
    if free.any(|entry| *entry != Edition::default()) {
        return Some("a free place of the editions is not zero".to_string());
    }
    let out = |entry: &&Edition| match entry.figure {
        _ if entry.number == 0 => true,
        0..=7 => ![1, 5, 10].contains(&entry.value),
        PERCENT => entry.value > 50,
        _ => true,
    };
    let mut held = venue.editions.iter().filter(|entry| entry.edition != 0);
    held.find(out)
        .map(|entry| format!("a field of edition {} is out of range", entry.edition))
}

/// Held places come first in rising id; free places are zero.
fn arrangement_fault(venue: &Venue) -> Option<String> {
    let regular: Vec<u32> = venue.regular.iter().map(|order| order.id).collect();
    let complex: Vec<u32> = venue.complex.iter().map(|order| order.id).collect();
    if !rises_then_zero(&regular) || !rises_then_zero(&complex) {
        return Some("places are not held first in rising id".to_string());
    }
    let free_regular = venue.regular.iter().filter(|order| order.id == 0);
    let free_complex = venue.complex.iter().filter(|order| order.id == 0);
    let free_legging = venue.legging.iter().filter(|order| order.quantity == 0);
    let zero = free_regular
        .clone()
        .all(|order| *order == Regular::default())
        && free_complex
            .clone()
            .all(|order| *order == Complex::default())
        && free_legging
            .clone()
            .all(|order| *order == Legging::default());
    (!zero).then(|| "a free place is not zero".to_string())
}

fn rises_then_zero(ids: &[u32]) -> bool {
    ids.windows(2)
        .all(|pair| pair[1] == 0 || (pair[0] != 0 && pair[0] < pair[1]))
}

fn regular_fault(venue: &Venue) -> Option<String> {
    let in_force = InForce::of(venue);
    let held = venue.regular.iter().filter(|order| order.id != 0);
    let mut bad = held.filter(|order| {
        order.series > 7
            || order.side > 1
            || !(1..=100_000).contains(&order.price)
            || order.price % u32::from(in_force.increment(order.series).value) != 0
            || !(1..=10_000).contains(&order.quantity)
            || !(1..=order.quantity).contains(&order.display)
    });
    bad.next()
        .map(|order| format!("a field of regular order {} is out of range", order.id))
}

/// Each order shows its display: all else of it is in reserve.
fn shown_fault(venue: &Venue) -> Option<String> {
    let mut held = venue.regular.iter().filter(|order| order.id != 0);
    let otherwise = |order: &&Regular| {
        u64::from(order.reserve) + u64::from(order.display) != u64::from(order.quantity)
    };
    held.find(otherwise).map(|order| {
        format!(
            "regular order {} shows otherwise than its display",
            order.id
        )
    })
}

fn complex_fault(venue: &Venue) -> Option<String> {
    let held = venue.complex.iter().filter(|order| order.id != 0);
    let mut bad = held.filter(|order| {
        let legs = legs_of(order);
        legs.iter().any(|leg| leg.series > 7 || leg.side > 1)
            || legs[0].series == legs[1].series
            || order.class > 1
            || ratio_out(order)
            || !(1..=10_000).contains(&order.quantity)
    });
    bad.next()
        .map(|order| format!("a field of complex order {} is out of range", order.id))
}

/// Ratios are from 1 to 3 and not the same, with the limit of kind 10; but 1 and 1 is
/// an order of kind 2, with its limit.
fn ratio_out(order: &Complex) -> bool {
    let limit = order.limit.abs_diff(0);
    match ratios_of(order) {
        [1, 1] => limit > 200_000,
        [1, 2 | 3] | [2, 1 | 3] | [3, 1 | 2] => limit > 600_000,
        _ => true,
    }
}

fn series_fault(venue: &Venue) -> Option<String> {
    let out = |listed: &Listed| listed.status > 2 || listed.bid > 100_000 || listed.offer > 100_000;
    let bad = venue.series.iter().position(out);
    bad.map(|series| format!("a field of series {series} is out of range"))
}

fn id_fault(venue: &Venue) -> Option<String> {
    let mut ids = Vec::with_capacity(venue.regular.len() + venue.complex.len());
    ids.extend(venue.regular.iter().map(|order| order.id));
    ids.extend(venue.complex.iter().map(|order| order.id));
    ids.retain(|id| *id != 0);
    // Both books are mostly in rising id, which a stable sort finds out.
    ids.sort();
    if ids.windows(2).any(|pair| pair[0] == pair[1]) {
        return Some("two orders have one id".to_string());
    }
    let above = ids.last().is_some_and(|id| *id > venue.last);
    above.then(|| "an id is above the last id".to_string())
}

/// The generations of a series do not fall, zeros before the first; the id reached is one
/// that was accepted.
fn traffic_fault(venue: &Venue) -> Option<String> {
    let falls = |last: &[u32; 20]| last.windows(2).any(|pair| pair[1] < pair[0]);
    if let Some(series) = venue.generations.iter().position(falls) {
        return Some(format!("the generations of series {series} fall"));
    }
    (venue.reached > venue.last).then(|| "the id reached is above the last id".to_string())
}

fn legging_fault(venue: &Venue) -> Option<String> {
    let view = View::of(venue);
    (0..16).find_map(|place| {
        let leg = leg_at(place);
        let order = view.standing(leg)?;
        let fault = match_fault(venue, leg, order).or_else(|| test_fault(&view, venue, leg, order));
        fault.map(|fault| format!("the legging order at place {place} {fault}"))
    })
}

fn match_fault(venue: &Venue, leg: Leg, order: Legging) -> Option<String> {
    let Some(parent) = find_complex(venue, order.parent) else {
        return Some("has no parent".to_string());
    };
    if !legs_of(parent).contains(&leg) {
        return Some("matches no leg of its parent".to_string());
    }
    if has_ratios(parent) {
        return Some("is one of an order of unequal ratios".to_string());
    }
    if !(1..=100_000).contains(&order.price) {
        return Some("has a price out of range".to_string());
    }
    (order.quantity > parent.quantity).then(|| "is larger than its parent".to_string())
}

fn test_fault(view: &View, venue: &Venue, leg: Leg, order: Legging) -> Option<String> {
    let parent = find_complex(venue, order.parent)?;
    let causes = view.failing_causes(leg, parent);
    let shown = view.displayed(leg, i64::from(order.price));
    let cause = causes.first()?;
    Some(format!(
        "shown at {shown} fails its test with cause {cause}"
    ))
}

fn crossed_fault(venue: &Venue) -> Option<String> {
    let view = View::of(venue);
    let crossed = (0..8).find(|series| {
        let side = |side| Leg {
            series: *series,
            side,
        };
        match (view.best_own(side(0)), view.best_own(side(1))) {
            (Some(bid), Some(offer)) => bid >= offer,
            _ => false,
        }
    });
    crossed.map(|series| format!("series {series} is locked or crossed"))
}
