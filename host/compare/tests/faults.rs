//! Every comparison can fail: a part of the answer is spoiled in one kind of call,
//! and the difference must be found there and nowhere else.

use compare::{in_words, Archive, Replay};
use sessions::driver::check::{Check, Fault, Part};
use sessions::driver::{drive_session, Driver, Effort};
use sessions::engine::{Engine, Reference};
use sessions::profile::Profile;

/// Short sessions, which together make every kind of call.
const SEEDS: [u64; 3] = [0, 3, 5];

fn found(engine: &dyn Engine, fault: Option<Fault>) -> Option<(Check, String)> {
    let mut replay = Replay;
    let mut driver = Driver::new(engine, &Reference, &mut replay, fault);
    let (one_in, few) = (5, false);
    SEEDS.into_iter().find_map(|seed| {
        let compared = drive_session(&mut driver, Profile::Mixed, seed, Effort { one_in, few });
        compared
            .err()
            .map(|difference| (difference.check, in_words(&difference)))
    })
}

fn faults() -> impl Iterator<Item = Fault> {
    Check::ALL.iter().copied().flat_map(|check| {
        let parts = Part::ALL.iter().copied();
        parts
            .filter(move |part| check.has(*part))
            .map(move |part| Fault { check, part })
    })
}

#[test]
fn the_reference_does_not_differ_from_itself() {
    assert_eq!(found(&Reference, None), None);
}

#[test]
fn sets_arrivals_and_lines_get_every_number() {
    let mut replay = Replay;
    let mut driver = Driver::new(&Reference, &Reference, &mut replay, None);
    let (one_in, few) = (50, false);
    for seed in 0..10 {
        let compared = drive_session(&mut driver, Profile::Hits, seed, Effort { one_in, few });
        assert!(compared.is_ok());
    }
    let numbers = &driver.counts.numbers[15..];
    assert!(numbers.iter().all(|count| *count > 0), "{numbers:?}");
}

#[test]
fn the_engine_does_not_differ() {
    assert_eq!(found(&Archive, None), None);
}

#[test]
fn each_spoiled_part_is_found_where_it_was_spoiled() {
    for fault in faults() {
        let Some((check, told)) = found(&Archive, Some(fault)) else {
            panic!("{fault:?} was not found");
        };
        assert_eq!(check, fault.check, "{told}");
        assert!(told.contains("session --profile mixed --seed "), "{told}");
        let word = match fault.part {
            Part::Number => "number",
            Part::Report if fault.check == Check::Settings => "settings byte",
            Part::Report => "report",
            Part::BeforeReport | Part::AfterReport if fault.check == Check::Settings => {
                "settings memory"
            }
            Part::BeforeReport | Part::AfterReport => "report memory",
            Part::Venue => "venue",
            Part::BeforeVenue | Part::AfterVenue => "venue memory",
            Part::Main => "the main line was written",
            Part::Spare => "the spare line was written",
            Part::Layer => "layer",
            Part::BeforeLayer | Part::AfterLayer => "layer memory",
            Part::Served => "served",
            Part::Set => "set byte",
            Part::BeforeSet | Part::AfterSet => "set memory",
            Part::Told => "number told byte",
            Part::BeforeTold | Part::AfterTold => "memory of the number told",
        };
        assert!(told.contains(word), "{told}");
    }
}
