//! Increments and the percentage of the band with their dates (request (d)): what
//! reads them, what they are refused with, what a venue tells of them.

use crate::common::{by_calls, bytes, last_lines, sheet, venue_after, with_legging, with_offers};
use reference::{one_message, settings, Edition, Settings, Venue};
use sessions::lent::Lent;
use sessions::sheet::run_whole;

/// The number of the last answer of a session.
fn last_answer(text: &str) -> String {
    let line = last_lines(text).swap_remove(0);
    line.split(' ').nth(2).unwrap().to_string()
}

/// Settings of a series while it is closed, and then open again.
fn set(series: u8, increment: u8, edition: u32) -> String {
    format!("close {series}\nincrement {series} {increment} {edition}\nopen {series}\n")
}

/// Percentages as the editions 1 to `count`.
fn percents(count: u32) -> String {
    let line = |edition| format!("percent {} {edition}\n", edition % 51);
    (1..=count).map(line).collect()
}

#[test]
fn fields_at_the_ends_of_their_ranges_are_accepted() {
    for line in ["percent 0 1", "percent 50 1", "percent 5 4294967295"] {
        assert_eq!(sheet(line), "64 1 0 0 0\n", "{line}");
    }
    for series in 0..8 {
        for increment in [1, 5, 10] {
            let text = format!("close {series}\nincrement {series} {increment} 1\n");
            assert_eq!(last_answer(&text), "0", "{text}");
        }
    }
}

#[test]
fn fields_out_of_range_are_4_before_11_and_12() {
    for line in ["percent 51 0", "percent 255 1", "increment 8 5 0"] {
        assert_eq!(sheet(line), "64 1 4 0 0\n", "{line}");
    }
    for increment in [0, 2, 3, 4, 6, 7, 8, 9, 11, 50, 255] {
        let line = format!("increment 0 {increment} 1");
        assert_eq!(sheet(&line), "64 1 4 0 0\n", "{line}");
    }
}

#[test]
fn lengths_that_are_not_the_kinds_are_3_before_4() {
    for raw in [
        "raw 09 00 07 00 09 09 00 00 00",
        "raw 0b 00 07 00 00 05 01 00 00 00 00",
        "raw 08 00 08 00 05 01 00 00",
        "raw 0a 00 08 00 63 01 00 00 00 00",
        "raw 04 00 07 00",
    ] {
        assert_eq!(sheet(raw), "64 1 3 0 0\n", "{raw}");
    }
}

#[test]
fn editions_not_above_the_last_of_either_kind_are_11() {
    for text in [
        "percent 5 0",
        "close 0\nincrement 0 5 0",
        "percent 5 7\npercent 9 7",
        "percent 5 7\npercent 9 6",
        "percent 5 7\nclose 0\nincrement 0 1 7",
        "close 0\nincrement 0 1 7\npercent 9 7",
        "percent 5 4294967295\npercent 6 4294967295",
    ] {
        assert_eq!(last_answer(text), "11", "{text}");
    }
    assert_eq!(last_answer("percent 5 7\nclose 0\nincrement 0 1 8"), "0");
}

#[test]
fn refused_setting_leaves_the_last_edition_and_the_settings() {
    for line in ["percent 51 9", "increment 0 1 9", "percent 9 3"] {
        let text = format!("percent 7 3\n{line}\n");
        assert_ne!(last_answer(&text), "0");
        assert_eq!(venue_after(&text), venue_after("percent 7 3\n"));
        assert_eq!(last_answer(&format!("{text}percent 5 4\n")), "0");
    }
}

#[test]
fn increment_of_a_series_that_is_not_closed_or_is_in_use_is_12() {
    let increment = "increment 0 1 1\n";
    for text in [
        "",
        "auction 0\n",
        "order 1 sell 5 series 0 at 115\nclose 0\n",
        "order 1 buy 5 series 0 at 115\nclose 0\n",
        "complex 1 buy 0 buy 1 class 0 net 5 quantity 5\nclose 0\n",
        "complex 1 buy 1 sell 0 class 0 net 5 quantity 5\nclose 0\n",
    ] {
        assert_eq!(last_answer(&format!("{text}{increment}")), "12", "{text}");
    }
    for text in [
        "close 0\n",
        "order 1 sell 5 series 1 at 115\nclose 0\n",
        "complex 1 buy 1 sell 2 class 0 net 5 quantity 5\nclose 0\n",
        "order 1 sell 5 series 0 at 115\nclose 0\ncancel 1\n",
        "order 1 sell 5 series 0 at 115\norder 2 buy 5 series 0 at 115\nclose 0\n",
        "close 0\naway 0 bid 3 offer 4\n",
    ] {
        assert_eq!(last_answer(&format!("{text}{increment}")), "0", "{text}");
    }
}

#[test]
fn percentage_is_never_12() {
    assert_eq!(last_answer(&with_legging("percent 5 1\n")), "0");
}

#[test]
fn refusals_11_12_and_13_come_in_this_order() {
    assert_eq!(last_answer("increment 0 1 0\n"), "11");
    let full = percents(32);
    assert_eq!(last_answer(&full), "0");
    assert_eq!(last_answer(&format!("{full}increment 0 1 32\n")), "11");
    assert_eq!(last_answer(&format!("{full}percent 5 32\n")), "11");
    assert_eq!(last_answer(&format!("{full}increment 0 1 33\n")), "12");
    let closed = format!("{full}close 0\nincrement 0 1 33\n");
    assert_eq!(last_answer(&closed), "13");
    assert_eq!(last_answer(&format!("{full}percent 5 33\n")), "13");
    assert_eq!(last_answer(&format!("{full}percent 51 33\n")), "4");
}

#[test]
fn thirty_two_editions_of_both_kinds_are_held_and_the_33rd_is_not() {
    let mut text = String::from("close 6\n");
    for edition in 1..=16 {
        let increment = [1, 5, 10][edition % 3];
        text += &format!("percent {edition} {}\n", 2 * edition - 1);
        text += &format!("increment 6 {increment} {}\n", 2 * edition);
    }
    let venue = venue_after(&text);
    let held = venue.editions.map(|entry| (entry.edition, entry.number));
    assert_eq!(
        held,
        std::array::from_fn(|at| (at as u32 + 1, at as u32 + 2))
    );
    let refused = format!("{text}percent 20 33\nincrement 6 10 34\n");
    assert_eq!(last_answer(&refused), "13");
    assert_eq!(venue_after(&refused), venue);
    let told = settings(&venue, u32::MAX).unwrap();
    assert_eq!((told.percent, told.increments[6]), (16, 5));
}

#[test]
fn setting_that_changes_nothing_is_an_edition() {
    let venue = venue_after("sweep\npercent 5 9\n");
    let entry = Edition {
        edition: 9,
        number: 2,
        figure: 8,
        value: 5,
    };
    assert_eq!(venue.editions[0], entry);
    assert_eq!(venue.editions[1], Edition::default());
}

#[test]
fn regular_price_is_a_multiple_of_the_increment_in_force() {
    let order = |price: u32| format!("order 1 sell 5 series 0 at {price}\n");
    for (increment, taken, refused) in [(1, 113, 0), (5, 115, 113), (10, 110, 115)] {
        let text = format!("{}{}", set(0, increment, 1), order(taken));
        assert_eq!(last_answer(&text), "0", "{text}");
        let text = format!("{}{}", set(0, increment, 1), order(refused));
        assert_eq!(last_answer(&text), "4", "{text}");
    }
    // Of another series nothing is set, and what was set may be taken back.
    assert_eq!(last_answer(&format!("{}{}", set(1, 1, 1), order(113))), "4");
    let back = format!("{}{}{}", set(0, 1, 1), set(0, 5, 2), order(113));
    assert_eq!(last_answer(&back), "4");
    let range = format!("{}order 1 sell 5 series 0 at 100001\n", set(0, 1, 1));
    assert_eq!(last_answer(&range), "4");
}

#[test]
fn displayed_price_is_rounded_to_the_increment_in_force() {
    let text = format!(
        "{}{}{}",
        set(0, 1, 1),
        set(1, 10, 2),
        with_offers("complex 3 buy 0 buy 1 class 1 net 203 quantity 8\n")
    );
    let expected = ["64 11 0 5 2", "67 3 0 0 113 113 8", "67 3 1 0 73 70 8"];
    assert_eq!(last_lines(&text), expected);
}

#[test]
fn displayed_price_is_at_least_the_increment_in_force() {
    let made = |increment: u8, limit: i32| {
        let order = format!("complex 3 buy 0 buy 1 class 1 net {limit} quantity 8\n");
        last_lines(&format!("{}{}", set(0, increment, 1), with_offers(&order))).split_off(1)
    };
    assert_eq!(made(5, 95), ["67 3 0 0 5 5 8"]);
    assert_eq!(made(5, 94), Vec::<String>::new());
    assert_eq!(made(10, 99), Vec::<String>::new());
    assert_eq!(made(10, 100), ["67 3 0 0 10 10 8"]);
    assert_eq!(made(1, 91), ["67 3 0 0 1 1 8"]);
    assert_eq!(made(1, 90), Vec::<String>::new());
}

#[test]
fn displayed_price_of_the_standing_test_reads_the_increment_in_force() {
    let base = "complex 3 buy 0 buy 1 class 1 net 203 quantity 8\norder 4 buy 1 series 0 at ";
    // 113 is shown as 113, 110 and 110.
    for (increment, stays, goes) in [(1, 113, 114), (5, 110, 115), (10, 110, 120)] {
        let text = format!("{}{}", set(0, increment, 1), with_offers(base));
        let lines = last_lines(&format!("{text}{stays}\n"));
        assert_eq!(lines, ["64 9 0 5 2"], "{increment}");
        let lines = last_lines(&format!("{text}{goes}\n"));
        assert_eq!(lines, ["64 9 0 4 1", "68 3 0 0 1"], "{increment}");
    }
}

#[test]
fn percentage_holds_from_its_own_message_on() {
    let text = "away 0 bid 0 offer 100\norder 1 sell 15 series 0 at 130\n\
        order 2 sell 12 series 1 at 90\ncomplex 3 buy 0 buy 1 class 1 net 195 quantity 8\n";
    assert_eq!(last_lines(text), ["64 4 0 4 1", "67 3 1 0 65 65 8"]);
    let narrow = format!("{text}percent 2 1\n");
    assert_eq!(last_lines(&narrow), ["64 5 0 0 0", "68 3 1 0 5"]);
    // 195 is in band of 190 from 3 percent on.
    let enough = format!("{text}percent 3 1\n");
    assert_eq!(last_lines(&enough), ["64 5 0 4 1"]);
}

#[test]
fn generation_reads_the_percentage_in_force() {
    let made = |percent: u8| {
        let text = format!(
            "percent {percent} 1\naway 0 bid 0 offer 60\naway 1 bid 0 offer 40\n{}",
            with_offers("complex 3 buy 0 buy 1 class 1 net 106 quantity 8\n")
        );
        last_lines(&text).split_off(1)
    };
    assert_eq!(made(5), Vec::<String>::new());
    assert_eq!(made(6), ["67 3 0 0 16 15 8"]);
}

#[test]
fn legging_in_reads_the_percentage_in_force() {
    let paired = |percent: u8| {
        let text = format!(
            "percent {percent} 1\naway 0 bid 0 offer 100\n{}",
            with_offers("complex 3 buy 0 buy 1 class 1 net 220 quantity 8\n")
        );
        last_lines(&text).contains(&"66 3 220 8".to_string())
    };
    assert!(!paired(15) && paired(16) && paired(50));
}

/// Whether two orders cross at a credit, the taker's market net being -200.
fn crosses(percent: u8, net: i32) -> bool {
    let text = format!(
        "percent {percent} 1\naway 0 bid 100 offer 100\naway 1 bid 100 offer 100\n\
         complex 1 buy 0 buy 1 class 0 net {} quantity 5\n\
         complex 2 sell 0 sell 1 class 0 net {net} quantity 5\n",
        -net
    );
    last_lines(&text).contains(&format!("70 2 1 {net} 5"))
}

#[test]
fn crossing_reads_the_percentage_in_force() {
    assert!(crosses(0, -200) && !crosses(0, -199));
    assert!(crosses(50, -100) && !crosses(50, -99));
    assert!(crosses(1, -198) && !crosses(1, -197));
}

#[test]
fn sweep_reads_what_is_in_force_when_it_comes() {
    let base = "away 0 bid 0 offer 60\naway 1 bid 0 offer 40\n";
    let order = "complex 3 buy 0 buy 1 class 1 net 106 quantity 8\n";
    let text = format!("{base}{}", with_offers(order));
    assert_eq!(last_lines(&format!("{text}sweep\n")), ["64 8 0 0 0"]);
    let wider = format!("{text}percent 6 1\n");
    assert_eq!(last_lines(&wider), ["64 8 0 0 0"]);
    let swept = last_lines(&format!("{wider}sweep\n"));
    assert_eq!(swept, ["64 9 0 1 1", "67 3 0 0 16 15 8"]);
}

/// Series 6 by 1 from message 3, the percentage 50 from 5 and 0 from 8.
const DATED: &str = "sweep\nclose 6\nincrement 6 1 3\nopen 6\npercent 50 4\nsweep\nsweep\n\
    percent 0 9\nsweep\n";

#[test]
fn settings_are_told_at_every_number() {
    let venue = venue_after(DATED);
    let told = |number| {
        let Settings {
            increments,
            percent,
        } = settings(&venue, number).unwrap();
        assert_eq!(increments[..6], [5; 6]);
        assert_eq!(increments[7], 10);
        (increments[6], percent)
    };
    let expected = [
        (0, (10, 5)),
        (2, (10, 5)),
        (3, (1, 5)),
        (4, (1, 5)),
        (5, (1, 50)),
        (7, (1, 50)),
        (8, (1, 0)),
        (9, (1, 0)),
        (10, (1, 0)),
        (u32::MAX, (1, 0)),
    ];
    for (number, values) in expected {
        assert_eq!(told(number), values, "message {number}");
    }
    assert_eq!(settings(&Venue::fresh(), 0), Some(Settings::FIRST));
    assert_eq!(settings(&Venue::fresh(), u32::MAX), Some(Settings::FIRST));
}

#[test]
fn settings_of_an_unsound_venue_are_not_told() {
    let mut venue = venue_after(DATED);
    venue.regular[127].price = 5;
    assert_eq!(settings(&venue, 0), None);
    let mut venue = venue_after(DATED);
    venue.editions[1].number = 3;
    assert_eq!(settings(&venue, u32::MAX), None);
}

#[test]
fn one_message_call_whose_number_is_not_above_an_editions_is_9() {
    let venue = venue_after(DATED);
    let mut lent = Lent::new();
    for message in [&[4, 0, 6, 0][..], &[9, 0, 6], &[], &bytes("percent 5 10")] {
        for before in 0..12 {
            let returned = one_message(&venue, before, message, lent.lend(64));
            let expected = if before < 8 {
                (9, 0)
            } else {
                (returned.number, 1)
            };
            assert_eq!((returned.number, returned.done), expected, "{before}");
            if before < 8 {
                assert_eq!(returned.venue, venue);
                lent.written(0).unwrap();
            }
        }
        let returned = one_message(&venue, u32::MAX, message, lent.lend(64));
        assert_eq!((returned.number, returned.venue), (10, venue.clone()));
    }
}

#[test]
fn number_that_would_pass_the_last_is_10_though_an_edition_has_the_last() {
    let mut lent = Lent::new();
    let percent = bytes("percent 9 1");
    let returned = one_message(&Venue::fresh(), u32::MAX - 1, &percent, lent.lend(64));
    assert_eq!(returned.number, 0);
    assert_eq!(returned.venue.editions[0].number, u32::MAX);
    let sweep = bytes("sweep");
    for (before, number) in [(u32::MAX, 10), (u32::MAX - 1, 9), (0, 9)] {
        let ended = one_message(&returned.venue, before, &sweep, lent.lend(64));
        assert_eq!((ended.number, &ended.venue), (number, &returned.venue));
    }
}

#[test]
fn run_and_one_message_calls_keep_the_same_editions() {
    let text = format!("{DATED}{}percent 60 40\n", percents(40));
    let list = bytes(&text);
    let (returned, report) = run_whole(&list);
    let (number, venue, records) = by_calls(&list);
    assert_eq!((returned.number, number), (0, 4));
    assert_eq!((returned.venue, report), (venue, records));
}
