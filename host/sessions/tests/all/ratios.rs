//! Orders of unequal ratios (request (g)): nets by ratio, whole units, no legging order.

use crate::common::{by_calls, bytes, last_lines, sheet, venue_after, with_legging, with_offers};
use reference::Venue;
use sessions::ledger::Ledger;
use sessions::message::{split, Message};
use sessions::record::parse_sheet;
use sessions::sheet::run_whole;

/// The number of the last answer of a session.
fn last_answer(text: &str) -> String {
    let line = last_lines(text).swap_remove(0);
    line.split(' ').nth(2).unwrap().to_string()
}

/// The last message's records without its 64.
fn effects(text: &str) -> Vec<String> {
    last_lines(text).split_off(1)
}

/// Id and what is open of each complex order.
fn open(venue: &Venue) -> Vec<(u32, u32)> {
    let held = venue.complex.iter().filter(|order| order.id > 0);
    held.map(|order| (order.id, order.quantity)).collect()
}

const NO_RECORDS: [&str; 0] = [];

#[test]
fn ratios_are_1_to_3_and_the_limit_thrice_that_of_kind_2() {
    for (rest, answer) in [
        ("net 5 quantity 5 ratio 2 1", "0"),
        ("net 5 quantity 5 ratio 1 3", "0"),
        ("net 600000 quantity 10000 ratio 3 2", "0"),
        ("net -600000 quantity 1 ratio 2 3", "0"),
        ("net 600001 quantity 5 ratio 2 1", "4"),
        ("net -600001 quantity 5 ratio 2 1", "4"),
        ("net 5 quantity 0 ratio 2 1", "4"),
        ("net 5 quantity 10001 ratio 2 1", "4"),
        ("net 5 quantity 5 ratio 0 1", "4"),
        ("net 5 quantity 5 ratio 1 0", "4"),
        ("net 5 quantity 5 ratio 4 1", "4"),
        ("net 5 quantity 5 ratio 1 4", "4"),
        ("net 5 quantity 5 ratio 255 1", "4"),
        ("net 5 quantity 5 ratio 0 0", "4"),
        ("net 5 quantity 5 ratio 4 4", "4"),
        ("net 200001 quantity 5", "4"),
    ] {
        let text = format!("complex 1 buy 0 sell 1 class 0 {rest}\n");
        assert_eq!(last_answer(&text), answer, "{text}");
    }
}

#[test]
fn refusals_that_name_kind_2_cover_kind_10() {
    for (text, answer) in [
        (
            "complex 0 buy 0 buy 1 class 0 net 5 quantity 5 ratio 2 1",
            "4",
        ),
        (
            "complex 1 buy 0 sell 0 class 0 net 5 quantity 5 ratio 2 1",
            "4",
        ),
        (
            "complex 1 buy 8 sell 0 class 0 net 5 quantity 5 ratio 2 1",
            "4",
        ),
        (
            "complex 1 buy 1 side=2 0 class 0 net 5 quantity 5 ratio 2 1",
            "4",
        ),
        (
            "complex 1 buy 1 sell 0 class 2 net 5 quantity 5 ratio 2 1",
            "4",
        ),
        (
            "order 1 buy 5 series 0 at 5\ncomplex 1 buy 0 buy 1 class 0 net 5 quantity 5 ratio 2 1",
            "5",
        ),
        (
            "close 1\ncomplex 1 buy 0 buy 1 class 0 net 5 quantity 5 ratio 2 1",
            "6",
        ),
        ("raw 04 00 0a 00", "3"),
        (
            "raw 15 00 0a 00 01 00 00 00 00 00 01 00 01 05 00 00 00 05 00 00 00",
            "3",
        ),
        (
            "raw 17 00 02 00 01 00 00 00 00 00 01 00 01 05 00 00 00 05 00 00 00 02 01",
            "3",
        ),
        (
            "raw 18 00 0a 00 01 00 00 00 00 00 01 00 01 05 00 00 00 05 00 00 00 02 01 00",
            "3",
        ),
        (
            "raw 17 00 0a 00 01 00 00 00 00 00 01 00 01 05 00 00 00 05 00 00 00 02 01",
            "0",
        ),
    ] {
        assert_eq!(last_answer(text), answer, "{text}");
    }
}

#[test]
fn equal_ratio_bytes_are_14_after_4_and_before_all_that_the_venue_says() {
    for ratio in 1..=3 {
        let text =
            format!("complex 1 buy 0 buy 1 class 0 net 5 quantity 5 ratio {ratio} {ratio}\n");
        assert_eq!(sheet(&text), "64 1 14 0 0\n");
    }
    let equal = "complex 1 buy 0 buy 1 class 0 net 5 quantity 5 ratio 2 2\n";
    let full: String = (1..=32)
        .map(|id| format!("complex {id} buy 0 buy 1 class 0 net 5 quantity 5 ratio 1 2\n"))
        .collect();
    for before in ["order 9 buy 5 series 0 at 5\n", "close 0\n", &full] {
        assert_eq!(last_answer(&format!("{before}{equal}")), "14", "{before}");
    }
    for out in [
        "complex 1 buy 0 buy 0 class 0 net 5 quantity 5 ratio 2 2\n",
        "complex 1 buy 0 buy 1 class 0 net 600001 quantity 5 ratio 2 2\n",
        "complex 1 buy 0 buy 1 class 0 net 5 quantity 0 ratio 1 1\n",
    ] {
        assert_eq!(last_answer(out), "4", "{out}");
    }
    assert_eq!(venue_after(equal), Venue::fresh());
}

#[test]
fn both_kinds_share_the_32_places() {
    let ratio = |id: u32| match id % 2 {
        0 => " ratio 3 1",
        _ => "",
    };
    let full: String = (1..=32)
        .map(|id| {
            format!(
                "complex {id} buy 0 buy 1 class 0 net 5 quantity 5{}\n",
                ratio(id)
            )
        })
        .collect();
    assert_eq!(last_answer(&full), "0");
    for id in [33, 34] {
        let one_more = format!(
            "complex {id} buy 0 buy 1 class 0 net 5 quantity 5{}\n",
            ratio(id)
        );
        assert_eq!(last_answer(&format!("{full}{one_more}")), "7");
    }
}

/// Offers 130 (3) and 135 (9) in series 0, 90 (12) in series 1.
const TWO_PRICES: &str = "order 1 sell 3 series 0 at 130\norder 2 sell 9 series 0 at 135\n\
    order 3 sell 12 series 1 at 90\n";

#[test]
fn no_unit_is_gathered_from_two_prices() {
    let text = format!("{TWO_PRICES}complex 4 buy 0 buy 1 class 1 net 370 quantity 20 ratio 2 1\n");
    let one_unit = ["65 0 0 130 2 4 1", "65 1 0 90 1 4 3", "66 4 350 1"];
    assert_eq!(effects(&text), one_unit);
    assert_eq!(open(&venue_after(&text)), [(4, 19)]);
    assert_eq!(effects(&format!("{text}sweep\n")), NO_RECORDS);
    assert_eq!(effects(&format!("{text}cancel 4\n")), ["71 4 19"]);
}

#[test]
fn where_units_use_up_a_price_the_next_one_follows() {
    let even = TWO_PRICES.replace("sell 3", "sell 4");
    let text = format!("{even}complex 4 buy 0 buy 1 class 1 net 370 quantity 20 ratio 2 1\n");
    let rounds = [
        "65 0 0 130 4 4 1",
        "65 1 0 90 2 4 3",
        "66 4 350 2",
        "65 0 0 135 8 4 2",
        "65 1 0 90 4 4 3",
        "66 4 360 4",
    ];
    assert_eq!(effects(&text), rounds);
    assert_eq!(open(&venue_after(&text)), [(4, 14)]);
}

#[test]
fn ratio_goes_with_its_series_whichever_leg_is_named_first() {
    let named = |legs: &str, ratios: &str| {
        let order = format!("complex 4 {legs} class 1 net 370 quantity 1 ratio {ratios}\n");
        effects(&format!("{TWO_PRICES}{order}"))
    };
    let first = ["65 0 0 130 2 4 1", "65 1 0 90 1 4 3", "66 4 350 1"];
    assert_eq!(named("buy 0 buy 1", "2 1"), first);
    let second = ["65 1 0 90 1 4 3", "65 0 0 130 2 4 1", "66 4 350 1"];
    assert_eq!(named("buy 1 buy 0", "1 2"), second);
    let other = ["65 0 0 130 1 4 1", "65 1 0 90 2 4 3", "66 4 310 1"];
    assert_eq!(named("buy 0 buy 1", "1 2"), other);
    assert_eq!(named("buy 0 buy 1", "3 1"), NO_RECORDS);
}

#[test]
fn units_are_the_least_of_what_is_open_and_of_each_size_by_its_ratio() {
    for (quantity, ratios, trades, units) in [
        (9, "1 3", [4, 12], 4),
        (9, "1 2", [6, 12], 6),
        (9, "3 1", [15, 5], 5),
        (9, "3 2", [15, 10], 5),
        (9, "2 3", [8, 12], 4),
        (3, "2 1", [6, 3], 3),
    ] {
        let order =
            format!("complex 3 buy 0 buy 1 class 1 net 9999 quantity {quantity} ratio {ratios}\n");
        let lines = effects(&with_offers(&order));
        let told: Vec<&str> = lines.iter().map(String::as_str).collect();
        let [first, second] = trades;
        let contracts = [
            format!("65 0 0 130 {first} 3 1"),
            format!("65 1 0 90 {second} 3 2"),
        ];
        assert_eq!(told[..2], contracts, "{order}");
        assert!(told[2].ends_with(&format!(" {units}")), "{order}");
        assert_eq!(told.len(), 3, "{order}");
    }
}

#[test]
fn largest_order_trades_30000_contracts() {
    let mut text = String::new();
    for (id, series) in [(1, 0), (2, 0), (3, 0), (4, 1), (5, 1)] {
        text += &format!("order {id} sell 10000 series {series} at 100000\n");
    }
    text += "complex 6 buy 0 buy 1 class 0 net 500000 quantity 10000 ratio 3 2\n";
    let lines = effects(&text);
    assert_eq!(lines.len(), 6);
    assert_eq!(lines[5], "66 6 500000 10000");
    assert!(venue_after(&text).regular.iter().all(|order| order.id == 0));
}

#[test]
fn market_net_and_band_are_of_a_unit() {
    // O is 2 x 100 + 50; 5 percent of it above is 262.5.
    let pairs = |price: u32| {
        let text = format!(
            "away 0 bid 0 offer 100\naway 1 bid 0 offer 50\norder 1 sell 5 series 0 at {price}\n\
             order 2 sell 5 series 1 at 50\ncomplex 3 buy 0 buy 1 class 0 net 300 quantity 1 ratio 2 1\n"
        );
        effects(&text).len()
    };
    assert_eq!(pairs(105), 3);
    assert_eq!(pairs(110), 0);
}

const BUYER: &str = "away 0 bid 125 offer 130\naway 1 bid 90 offer 95\n\
    complex 3 buy 0 buy 1 class 0 net 350 quantity 5 ratio 2 1\n";

#[test]
fn orders_cross_with_the_same_ratio_in_each_series() {
    let sell = |legs: &str, rest: &str| {
        effects(&format!(
            "{BUYER}complex 4 {legs} class 0 net -350 quantity 3{rest}\n"
        ))
    };
    assert_eq!(sell("sell 0 sell 1", " ratio 2 1"), ["70 4 3 -350 3"]);
    assert_eq!(sell("sell 1 sell 0", " ratio 1 2"), ["70 4 3 -350 3"]);
    assert_eq!(sell("sell 0 sell 1", " ratio 1 2"), NO_RECORDS);
    assert_eq!(sell("sell 1 sell 0", " ratio 2 1"), NO_RECORDS);
    assert_eq!(sell("sell 0 sell 1", " ratio 3 1"), NO_RECORDS);
    assert_eq!(sell("sell 0 buy 1", " ratio 2 1"), NO_RECORDS);
    assert_eq!(sell("sell 0 sell 2", " ratio 2 1"), NO_RECORDS);
}

#[test]
fn kind_2_never_crosses_with_kind_10() {
    let quotes = "away 0 bid 125 offer 130\naway 1 bid 90 offer 95\n";
    let even = "complex 3 buy 0 buy 1 class 0 net 220 quantity 5\n";
    let sells = |rest: &str| {
        effects(&format!(
            "{quotes}{even}complex 4 sell 0 sell 1 class 0 net -200 quantity 3{rest}\n"
        ))
    };
    assert_eq!(sells(""), ["70 4 3 -220 3"]);
    assert_eq!(sells(" ratio 2 1"), NO_RECORDS);
    assert_eq!(
        effects(&format!(
            "{BUYER}complex 4 sell 0 sell 1 class 0 net 0 quantity 3\n"
        )),
        NO_RECORDS
    );
}

#[test]
fn cross_respects_the_legs_by_their_ratios() {
    // The best bids give a seller of a unit 2 x 100 + 50.
    let bids = "away 0 bid 0 offer 101\naway 1 bid 0 offer 51\norder 1 buy 5 series 0 at 100\n\
        order 2 buy 5 series 1 at 50\n";
    let sell = |limit: i32| {
        effects(&format!(
            "{bids}complex 3 buy 0 buy 1 class 0 net {limit} quantity 5 ratio 2 1\n\
             complex 4 sell 0 sell 1 class 0 net -240 quantity 3 ratio 2 1\n"
        ))
    };
    assert_eq!(sell(250), ["70 4 3 -250 3"]);
    let legs_in = ["65 0 1 100 4 4 1", "65 1 1 50 2 4 2", "66 4 -250 2"];
    assert_eq!(sell(249), legs_in);
}

#[test]
fn order_of_unequal_ratios_never_generates() {
    let text = with_offers("complex 3 buy 0 buy 1 class 1 net 335 quantity 8 ratio 2 1\n");
    assert_eq!(last_lines(&text), ["64 5 0 0 0"]);
    assert_eq!(last_lines(&format!("{text}sweep\n")), ["64 6 0 0 0"]);
    let even = "complex 4 buy 0 buy 1 class 1 net 205 quantity 8\n";
    assert_eq!(
        effects(&format!("{text}{even}")),
        ["67 4 0 0 115 115 8", "67 4 1 0 75 75 8"]
    );
}

#[test]
fn touch_that_a_unit_fills_removes_with_8() {
    // The legging orders are 8 at 115 and 8 at 75.
    let sells = "complex 4 sell 0 sell 1 class 0 net -305 quantity 20 ratio 2 1\n";
    let gone = ["68 3 0 0 8", "68 3 1 0 8"];
    assert_eq!(effects(&with_legging(sells)), gone);
    let above = sells.replace("-305", "-306");
    assert_eq!(effects(&with_legging(&above)), NO_RECORDS);
    let even = "complex 4 sell 0 sell 1 class 0 net -190 quantity 20\n";
    assert_eq!(effects(&with_legging(even)), gone);
}

/// Legging orders buy one contract at 115 and one at 75; then these messages.
fn with_one(bids: &str, rest: &str) -> String {
    let made = "complex 3 buy 0 buy 1 class 1 net 205 quantity 1\n";
    with_offers(&format!("{made}{bids}{rest}"))
}

#[test]
fn touch_that_cannot_fill_a_unit_removes_both_with_10() {
    let both = |cause: u8| [format!("68 3 0 0 {cause}"), format!("68 3 1 0 {cause}")];
    let sells = |ratios: &str, bids: &str| {
        let order = format!("complex 9 sell 0 sell 1 class 0 net 0 quantity 7 ratio {ratios}\n");
        let mut lines = effects(&with_one(bids, &order));
        lines.truncate(2);
        lines
    };
    assert_eq!(sells("2 1", ""), both(10));
    assert_eq!(sells("1 2", ""), both(10));
    // Shown size at the legging order's price counts with it, reserve does not.
    assert_eq!(sells("2 1", "order 5 buy 1 series 0 at 115\n"), both(8));
    assert_eq!(sells("3 1", "order 5 buy 1 series 0 at 115\n"), both(10));
    assert_eq!(sells("3 1", "order 5 buy 2 series 0 at 115\n"), both(8));
    assert_eq!(
        sells("3 1", "order 5 buy 9 series 0 at 115 shows 1\n"),
        both(10)
    );
    assert_eq!(sells("1 3", "order 5 buy 2 series 1 at 75\n"), both(8));
    // A worse price does not count.
    assert_eq!(sells("2 1", "order 5 buy 9 series 0 at 110\n"), both(10));
}

#[test]
fn touch_with_regular_prices_on_one_side_removes_what_stands_on_the_other() {
    let bid = "order 5 buy 9 series 2 at 50\n";
    let sells = |ratios: &str| {
        let order = format!("complex 9 sell 0 sell 2 class 0 net -9 quantity 1 ratio {ratios}\n");
        effects(&with_one(bid, &order))
    };
    assert_eq!(sells("2 1"), ["68 3 0 0 10"]);
    assert_eq!(sells("1 2"), ["68 3 0 0 8"]);
}

#[test]
fn leg_in_goes_on_at_regular_prices_after_cause_10() {
    let bids = "order 5 buy 5 series 0 at 110\norder 6 buy 5 series 1 at 70\n";
    let order = "complex 9 sell 0 sell 1 class 0 net -290 quantity 1 ratio 2 1\n";
    let lines = [
        "68 3 0 0 10",
        "68 3 1 0 10",
        "65 0 1 110 2 9 5",
        "65 1 1 70 1 9 6",
        "66 9 -290 1",
    ];
    assert_eq!(effects(&with_one(bids, order)), lines);
}

#[test]
fn unit_takes_shown_size_only() {
    let offers = "order 1 sell 9 series 0 at 130 shows 1\norder 2 sell 9 series 1 at 90\n";
    let order = "complex 3 buy 0 buy 1 class 0 net 400 quantity 3 ratio 2 1\n";
    assert_eq!(effects(&format!("{offers}{order}")), NO_RECORDS);
    let two = offers.replace("shows 1", "shows 2");
    let unit = ["65 0 0 130 2 3 1", "65 1 0 90 1 3 2", "66 3 350 1"];
    assert_eq!(effects(&format!("{two}{order}")), unit);
    assert_eq!(effects(&format!("{two}{order}sweep\n")), unit);
}

#[test]
fn increment_of_a_series_with_a_leg_of_unequal_ratios_is_12() {
    for ratios in ["1 2", "2 1", "3 2"] {
        for series in [0, 1] {
            let text = format!(
                "complex 1 buy 0 sell 1 class 0 net 5 quantity 5 ratio {ratios}\n\
                 close {series}\nincrement {series} 1 1\n"
            );
            assert_eq!(last_answer(&text), "12", "{text}");
        }
    }
}

#[test]
fn contracts_in_each_series_are_ratio_times_units_paired() {
    let text = format!(
        "{TWO_PRICES}complex 4 buy 0 buy 1 class 1 net 370 quantity 9 ratio 2 1\n\
         order 5 sell 3 series 0 at 130\nsweep\ncancel 4\n"
    );
    let list = bytes(&text);
    let mut ledger = Ledger::default();
    for piece in split(&list) {
        ledger.enter(&Message::decode(piece)).unwrap();
    }
    for record in parse_sheet(&sheet(&text)).unwrap() {
        ledger.add(&record).unwrap();
    }
    let order = ledger
        .accounts
        .iter()
        .find(|account| account.id == 4)
        .unwrap();
    assert_eq!((order.entered, order.paired, order.cancelled), (9, 7, 2));
    assert_eq!(order.contracts, [14, 7, 0, 0, 0, 0, 0, 0]);
    assert_eq!(order.disagreement(0), None);
    let mut one_less = order.clone();
    one_less.contracts[0] = 7;
    let found = one_less.disagreement(0).unwrap();
    assert_eq!(found, "order 4: 7 contracts in series 0, expected 14");
}

#[test]
fn calls_one_by_one_write_what_the_run_writes() {
    let text = format!(
        "{TWO_PRICES}complex 4 buy 0 buy 1 class 1 net 370 quantity 20 ratio 2 1\n\
         complex 5 sell 1 sell 0 class 0 net -360 quantity 3 ratio 1 2\n\
         away 0 bid 125 offer 130\naway 1 bid 90 offer 95\nsweep\ncancel 4\n"
    );
    let list = bytes(&text);
    let (run, report) = run_whole(&list);
    assert_eq!(by_calls(&list), (0, run.venue, report));
}
