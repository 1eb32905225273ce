//! Short report memory: at every length from 0 up, a call ends before the
//! message whose records do not fit, and that message leaves no trace.

use crate::common::{by_calls, bytes, with_legging};
use reference::{one_message, run, Venue};
use sessions::lent::Lent;
use sessions::message::split;
use sessions::profile::Profile;
use sessions::soak::generate;

/// The venue and the report bytes after each message, from none on.
fn stages(list: &[u8]) -> Vec<(Venue, usize)> {
    let mut stages = vec![(Venue::fresh(), 0)];
    let mut lent = Lent::new();
    for (before, piece) in split(list).into_iter().enumerate() {
        let (venue, end) = &stages[before];
        let returned = one_message(venue, before as u32, piece, lent.lend(16_384));
        let end = end + returned.written;
        stages.push((returned.venue, end));
    }
    stages
}

fn check_every_length(list: &[u8]) {
    let stages = stages(list);
    let (number, _, report) = by_calls(list);
    let ending = u8::from(number == 1);
    let mut lent = Lent::new();
    for length in 0..report.len() + 30 {
        let returned = run(list, lent.lend(length));
        let done = stages.iter().rposition(|(_, end)| *end <= length).unwrap();
        let (venue, end) = &stages[done];
        assert_eq!(returned.done as usize, done, "length {length}");
        assert_eq!(returned.written, *end, "length {length}");
        assert_eq!(returned.venue, *venue, "length {length}");
        let whole = done + 1 == stages.len();
        assert_eq!(returned.number, if whole { ending } else { 10 });
        assert_eq!(lent.written(*end).unwrap(), &report[..*end]);
    }
}

#[test]
fn run_of_the_printed_session_at_every_length() {
    check_every_length(&bytes(&with_legging("order 4 sell 5 series 0 at 115\n")));
}

#[test]
fn run_with_sweeps_crosses_and_a_torn_end_at_every_length() {
    let text = with_legging(
        "away 0 bid 100 offer 0\naway 1 bid 80 offer 0\norder 4 sell 5 series 0 at 115\nsweep\n\
         complex 5 sell 0 sell 1 class 1 net -200 quantity 2\ncancel 9\nsweep\ncancel 3\n\
         raw 09 00 06\n",
    );
    check_every_length(&bytes(&text));
}

#[test]
fn run_of_random_sessions_at_every_length() {
    for (seed, profile) in Profile::ALL.into_iter().enumerate() {
        check_every_length(&generate(profile, seed as u64, 60).concat());
    }
}

#[test]
fn one_message_call_at_every_length_either_fits_or_leaves_no_trace() {
    let list = bytes(&with_legging("order 4 sell 5 series 0 at 115\nsweep\n"));
    let stages = stages(&list);
    let mut lent = Lent::new();
    for (before, piece) in split(&list).into_iter().enumerate() {
        let (venue, start) = &stages[before];
        let (after, end) = &stages[before + 1];
        for length in 0..end - start + 20 {
            let returned = one_message(venue, before as u32, piece, lent.lend(length));
            let fits = length >= end - start;
            let expected = if fits {
                (0, 1, end - start)
            } else {
                (10, 0, 0)
            };
            let told = (returned.number, returned.done, returned.written);
            assert_eq!(told, expected, "message {} length {length}", before + 1);
            assert_eq!(
                returned.venue,
                if fits { after.clone() } else { venue.clone() }
            );
            lent.written(returned.written).unwrap();
        }
    }
}

#[test]
fn one_sweep_may_write_thousands_of_bytes() {
    // Full books that a single sweep trades away: the largest effects at hand.
    let mut text = String::from("open 0\nopen 1\n");
    for id in 1..=32 {
        text += &format!("complex {id} buy 0 buy 1 class 1 net 220 quantity 2\n");
    }
    for id in 33..=96 {
        text += &format!("order {id} sell 1 series 0 at 130\n");
    }
    for id in 97..=160 {
        text += &format!("order {id} sell 1 series 1 at 90\n");
    }
    text += "sweep\n";
    let list = bytes(&text);
    let stages = stages(&list);
    let [.., before, after] = &stages[..] else {
        panic!("a session has messages");
    };
    assert_eq!(after.1 - before.1, 12 + 128 * 22 + 32 * 16);
    let mut lent = Lent::new();
    let returned = run(&list, lent.lend(after.1 - 1));
    assert_eq!((returned.number, returned.written), (10, before.1));
    assert_eq!(returned.venue, before.0);
}

#[test]
fn one_order_may_take_shown_size_and_reserve_of_every_other() {
    let offers: String = (1..=127)
        .map(|id| format!("order {id} sell 2 series 0 at 130 shows 1\n"))
        .collect();
    let list = bytes(&format!("{offers}order 128 buy 254 series 0 at 130\n"));
    let stages = stages(&list);
    let [.., before, after] = &stages[..] else {
        panic!("a session has messages");
    };
    let whole = 12 + 2 * 127 * 22;
    assert_eq!(after.1 - before.1, whole);
    let order = split(&list)[127];
    let mut lent = Lent::new();
    for length in 0..whole {
        let returned = one_message(&before.0, 127, order, lent.lend(length));
        assert_eq!((returned.number, returned.written), (10, 0), "{length}");
        assert_eq!(returned.venue, before.0);
    }
    let returned = one_message(&before.0, 127, order, lent.lend(whole));
    assert_eq!((returned.number, returned.written), (0, whole));
}
