//! Every refusal: its example in document 01, its place in the order of
//! checks, and what it leaves.

use crate::common::{by_calls, bytes, last_lines, one, sheet, venue_after, with_legging};
use reference::{one_message, run, Venue};
use sessions::lent::Lent;
use sessions::message::{Leg, Message, NewComplex};
use sessions::sheet::run_whole;

#[test]
fn torn_example_is_1_counts_as_done_and_ends_the_run() {
    let text = "sweep\nraw 09 00 06\n";
    assert_eq!(sheet(text), "64 1 0 0 0\n64 2 1 0 0\n");
    let (returned, _) = run_whole(&bytes(text));
    assert_eq!((returned.number, returned.done), (1, 2));
}

#[test]
fn lengths_below_4_or_above_what_is_left_are_1_whatever_the_kind() {
    for raw in [
        "raw 03 00 63 00",
        "raw 00 00 06 00",
        "raw 05 00 06 00",
        "raw 04",
        "raw 04 00",
        "raw ff ff 06 00 00",
    ] {
        assert_eq!(sheet(raw), "64 1 1 0 0\n", "{raw}");
    }
}

#[test]
fn one_message_call_given_no_bytes_is_1() {
    let (returned, lines) = one(&Venue::fresh(), &[]);
    assert_eq!((returned.number, returned.done), (1, 1));
    assert_eq!(lines, "64 1 1 0 0\n");
}

#[test]
fn one_message_call_reads_nothing_after_its_message() {
    let (returned, lines) = one(&Venue::fresh(), &bytes("open 0\nraw 09 00\n"));
    assert_eq!((returned.number, returned.done), (0, 1));
    assert_eq!(lines, "64 1 0 0 0\n");
}

#[test]
fn unknown_kinds_of_any_length_are_2() {
    for raw in [
        "raw 04 00 63 00",
        "raw 05 00 00 00 01",
        "raw 04 00 40 00",
        "raw 04 00 0c 00",
        "raw 06 00 05 01 00 01",
    ] {
        assert_eq!(sheet(raw), "64 1 2 0 0\n", "{raw}");
    }
}

#[test]
fn lengths_that_are_not_the_kinds_are_3() {
    for raw in [
        "raw 05 00 06 00 00",
        "raw 04 00 05 00",
        "raw 07 00 05 00 00 01 00",
        "raw 09 00 03 00 00 00 00 00 00",
    ] {
        assert_eq!(sheet(raw), "64 1 3 0 0\n", "{raw}");
    }
}

#[test]
fn fields_out_of_range_are_4_before_anything_of_the_venue_is_asked() {
    let lines = [
        "order 1 sell 5 series 0 at 113",
        "order 0 sell 5 series 0 at 115",
        "order 1 sell 5 series 8 at 115",
        "order 1 side=2 5 series 0 at 115",
        "order 1 sell 0 series 0 at 115",
        "order 1 sell 10001 series 0 at 115",
        "order 1 sell 5 series 0 at 0",
        "order 1 sell 5 series 0 at 100005",
        "order 1 sell 5 series 6 at 115",
        "complex 0 buy 0 buy 1 class 0 net 5 quantity 5",
        "complex 1 buy 0 sell 0 class 0 net 5 quantity 5",
        "complex 1 buy 8 sell 0 class 0 net 5 quantity 5",
        "complex 1 buy 1 sell 8 class 0 net 5 quantity 5",
        "complex 1 side=2 1 sell 0 class 0 net 5 quantity 5",
        "complex 1 buy 1 side=9 0 class 0 net 5 quantity 5",
        "complex 1 buy 1 sell 0 class 2 net 5 quantity 5",
        "complex 1 buy 1 sell 0 class 1 net 200001 quantity 5",
        "complex 1 buy 1 sell 0 class 1 net -200001 quantity 5",
        "complex 1 buy 1 sell 0 class 1 net 5 quantity 0",
        "complex 1 buy 1 sell 0 class 1 net 5 quantity 10001",
        "cancel 0",
        "away 8 bid 0 offer 0",
        "away 0 bid 100001 offer 0",
        "away 0 bid 0 offer 100001",
        "status 8 open",
        "status 0 status=3",
    ];
    for line in lines {
        assert_eq!(sheet(line), "64 1 4 0 0\n", "{line}");
    }
}

#[test]
fn fields_at_the_ends_of_their_ranges_are_accepted() {
    let text = "open 0\nopen 6\nopen 7\naway 0 bid 100000 offer 1\n\
        order 1 buy 1 series 0 at 5\norder 2 sell 10000 series 0 at 100000\n\
        order 3 buy 10000 series 6 at 10\norder 4 sell 1 series 7 at 100000\n\
        complex 5 buy 0 sell 7 class 0 net 200000 quantity 10000\n\
        complex 4294967295 buy 6 buy 7 class 1 net -200000 quantity 1\n";
    let refused = sheet(text).lines().any(|line| {
        let fields: Vec<&str> = line.split(' ').collect();
        fields[0] == "64" && fields[2] != "0"
    });
    assert!(!refused, "{}", sheet(text));
}

#[test]
fn ids_not_above_the_last_accepted_are_5() {
    let text = "open 0\norder 1 sell 5 series 0 at 115\norder 1 sell 5 series 0 at 115\n";
    assert_eq!(last_lines(text), ["64 3 5 0 0"]);
    let text = "open 0\norder 2 sell 5 series 0 at 115\ncancel 2\norder 1 sell 5 series 0 at 115\n";
    assert_eq!(last_lines(text), ["64 4 5 0 0"]);
}

#[test]
fn refused_order_does_not_move_the_last_id() {
    let text = "close 0\norder 9 sell 5 series 0 at 115\nopen 0\norder 1 sell 5 series 0 at 115\n";
    assert_eq!(last_lines(text), ["64 4 0 0 0"]);
}

#[test]
fn orders_in_a_closed_series_are_6_after_5() {
    let example = "close 0\norder 1 sell 5 series 0 at 115\norder 1 sell 5 series 7 at 120\n";
    assert_eq!(sheet(example), "64 1 0 0 0\n64 2 6 0 0\n64 3 0 0 0\n");
    let half = "close 1\ncomplex 1 buy 0 buy 1 class 0 net 5 quantity 5\n";
    assert_eq!(last_lines(half), ["64 2 6 0 0"]);
    let stale = "open 0\norder 1 sell 5 series 0 at 115\nclose 0\norder 1 buy 5 series 0 at 5\n";
    assert_eq!(last_lines(stale), ["64 4 5 0 0"]);
}

#[test]
fn every_series_of_a_fresh_venue_is_open() {
    for series in 0..8 {
        let text = format!("order 1 sell 5 series {series} at 100\n");
        assert_eq!(sheet(&text), "64 1 0 0 0\n", "series {series}");
    }
    assert_eq!(venue_after("open 0\nopen 1\n"), Venue::fresh());
}

#[test]
fn cancel_in_a_closed_series_is_accepted() {
    let text = "open 0\norder 1 sell 5 series 0 at 115\nclose 0\ncancel 1\n";
    assert_eq!(last_lines(text), ["64 4 0 0 0", "71 1 5"]);
}

fn many_orders(count: u32) -> String {
    let orders = (1..=count).map(|id| format!("order {id} sell 1 series 0 at 115\n"));
    format!("open 0\nopen 1\n{}", orders.collect::<String>())
}

#[test]
fn order_upon_128_resting_is_7_even_if_it_would_trade() {
    let text = format!("{}order 129 buy 1 series 0 at 115\n", many_orders(128));
    assert_eq!(last_lines(&text), ["64 131 7 0 0"]);
    let text = format!("{}order 128 buy 1 series 0 at 115\n", many_orders(127));
    assert_eq!(last_lines(&text), ["64 130 0 0 0", "65 0 0 115 1 128 1"]);
}

#[test]
fn complex_upon_32_resting_is_7_and_leaving_frees_the_place() {
    let orders = (1..=32).map(|id| format!("complex {id} buy 0 buy 1 class 0 net 5 quantity 5\n"));
    let text = format!("open 0\nopen 1\n{}", orders.collect::<String>());
    let more = "complex 33 sell 0 sell 1 class 0 net 5 quantity 5\n";
    assert_eq!(last_lines(&format!("{text}{more}")), ["64 35 7 0 0"]);
    let freed = format!("{text}cancel 7\n{more}");
    assert_eq!(last_lines(&freed), ["64 36 0 0 0"]);
}

#[test]
fn cancel_of_an_id_that_does_not_rest_is_8() {
    assert_eq!(sheet("cancel 9"), "64 1 8 0 0\n");
    let text = "open 0\norder 1 sell 5 series 0 at 115\norder 2 buy 5 series 0 at 115\ncancel 1\n";
    assert_eq!(last_lines(text), ["64 4 8 0 0"]);
}

#[test]
fn refused_message_tells_the_mask_and_count_as_they_stand() {
    assert_eq!(last_lines(&with_legging("cancel 9\n")), ["64 6 8 5 2"]);
}

#[test]
fn run_answers_0_where_its_last_message_was_refused_with_2_to_8() {
    let (returned, _) = run_whole(&bytes("open 0\ncancel 9\n"));
    assert_eq!((returned.number, returned.done), (0, 2));
    let (number, _, _) = by_calls(&bytes("open 0\ncancel 9\n"));
    assert_eq!(number, 8);
}

#[test]
fn unsound_venue_is_9_before_all_and_every_report_byte_is_0() {
    let mut venue = venue_after("open 0\norder 1 sell 5 series 0 at 115\n");
    venue.regular[1] = venue.regular[0];
    let mut lent = Lent::new();
    for (before, message) in [(0, vec![]), (u32::MAX, vec![4, 0, 6, 0])] {
        for length in [0, 5, 100] {
            let returned = one_message(&venue, before, &message, lent.lend(length));
            assert_eq!(
                (returned.number, returned.done, returned.written),
                (9, 0, 0)
            );
            assert_eq!(returned.venue, venue);
            assert!(lent.written(0).unwrap().is_empty());
        }
    }
}

#[test]
fn eleven_report_bytes_and_one_sweep_is_10() {
    let mut lent = Lent::new();
    let returned = run(&bytes("sweep"), lent.lend(11));
    assert_eq!(
        (returned.number, returned.done, returned.written),
        (10, 0, 0)
    );
    lent.written(0).unwrap();
    let returned = run(&bytes("sweep"), lent.lend(12));
    assert_eq!(
        (returned.number, returned.done, returned.written),
        (0, 1, 12)
    );
}

#[test]
fn refusal_whose_answer_does_not_fit_is_10_even_for_a_torn_message() {
    let mut lent = Lent::new();
    for text in ["raw 09 00 06", "raw 04 00 63 00", "cancel 9"] {
        let returned = run(&bytes(text), lent.lend(11));
        assert_eq!((returned.number, returned.done), (10, 0), "{text}");
        let returned = one_message(&Venue::fresh(), 0, &bytes(text), lent.lend(11));
        assert_eq!((returned.number, returned.done), (10, 0), "{text}");
    }
}

#[test]
fn run_with_no_bytes_left_ends_with_0_though_the_memory_is_full() {
    let mut lent = Lent::new();
    let returned = run(&bytes("sweep\nsweep"), lent.lend(24));
    assert_eq!((returned.number, returned.done), (0, 2));
    let returned = run(&[], lent.lend(0));
    assert_eq!((returned.number, returned.done), (0, 0));
}

#[test]
fn message_number_past_the_last_is_10_even_for_a_torn_message() {
    let mut lent = Lent::new();
    for message in [&[4u8, 0, 6, 0][..], &[9, 0, 6], &[]] {
        let returned = one_message(&Venue::fresh(), u32::MAX, message, lent.lend(50));
        assert_eq!(
            (returned.number, returned.done, returned.written),
            (10, 0, 0)
        );
        let returned = one_message(&Venue::fresh(), u32::MAX - 1, message, lent.lend(50));
        assert_ne!(returned.number, 10);
        assert_eq!(lent.memory()[4..8], [255; 4]);
    }
}

#[test]
fn every_byte_of_every_field_is_read() {
    // Each field of a message changes something that a caller can see.
    let venue = venue_after("open 0\nopen 1\nopen 2\n");
    let order = Message::Complex(NewComplex {
        id: 0x0102_0304,
        legs: [Leg { series: 0, side: 0 }, Leg { series: 1, side: 1 }],
        class: 1,
        limit: -70_000,
        quantity: 0x1234,
        ratios: Some([3, 2]),
    });
    let (returned, _) = one(&venue, &order.encode());
    let held = returned.venue.complex[0];
    assert_eq!(
        (held.id, held.limit, held.quantity),
        (0x0102_0304, -70_000, 0x1234)
    );
    assert_eq!((held.ratio1, held.ratio2), (3, 2));
    let legs = (
        held.series1,
        held.side1,
        held.series2,
        held.side2,
        held.class,
    );
    assert_eq!(legs, (0, 0, 1, 1, 1));
    assert_eq!(returned.venue.last, 0x0102_0304);
}
