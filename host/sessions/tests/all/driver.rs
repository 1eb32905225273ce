//! The driver of two engines finds every kind of call in which they differ.

use sessions::coverage::Coverage;
use sessions::driver::check::{Check, Fault, Part};
use sessions::driver::Difference;
use sessions::profile::Profile;
use sessions::soak::check_spoiled;

/// The first difference of short sessions, which together make every kind of call.
fn found(fault: Option<Fault>) -> Option<Difference> {
    let mut coverage = Coverage::default();
    let mut seeds = 0..12;
    seeds.find_map(|seed| check_spoiled(Profile::Mixed, seed, &mut coverage, fault).err())
}

#[test]
fn a_spoiled_answer_of_each_kind_of_call_is_found_there() {
    for check in Check::ALL.iter().copied() {
        let parts = Part::ALL.iter().copied();
        let part = parts
            .filter(|part| check.has(*part))
            .min_by_key(|part| *part as u8);
        let fault = part.map(|part| Fault { check, part });
        let Some(difference) = found(fault) else {
            panic!("{fault:?} was not found");
        };
        assert_eq!(difference.check, check, "{difference}");
    }
}

#[test]
fn a_difference_names_the_session_and_the_call() {
    let (check, part) = (Check::RunTorn, Part::AfterReport);
    let difference = found(Some(Fault { check, part })).expect("it is found");
    let told = difference.to_string();
    let first = "profile mixed seed 0: a run of a list cut off\n";
    assert!(told.starts_with(first), "{told}");
    assert!(told.contains("outside the report memory"), "{told}");
}

#[test]
fn names_of_checks_and_parts_are_read_back() {
    for check in Check::ALL.iter().copied() {
        for part in Part::ALL.iter().copied() {
            let name = format!("{}:{}", check.name(), part.name());
            assert_eq!(Fault::from_name(&name), Some(Fault { check, part }));
        }
    }
    assert_eq!(Fault::from_name("run:what"), None);
}
