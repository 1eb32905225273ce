//! Orders with reserve (request (e)): what they show, who trades when, what counts.

use crate::common::{by_calls, bytes, last_lines, sheet, venue_after, with_legging, with_offers};
use reference::Venue;
use sessions::sheet::run_whole;

/// The number of the last answer of a session.
fn last_answer(text: &str) -> String {
    let line = last_lines(text).swap_remove(0);
    line.split(' ').nth(2).unwrap().to_string()
}

/// The last message's records without its 64.
fn effects(text: &str) -> Vec<String> {
    last_lines(text).split_off(1)
}

/// Id, what is left and what is shown of each regular order.
fn shown(venue: &Venue) -> Vec<(u32, u32, u32)> {
    let held = venue.regular.iter().filter(|order| order.id > 0);
    held.map(|order| (order.id, order.quantity, order.quantity - order.reserve))
        .collect()
}

#[test]
fn shown_quantity_is_from_1_to_the_quantity() {
    for (shows, answer) in [(0, "4"), (1, "0"), (5, "0"), (6, "4"), (u32::MAX, "4")] {
        let text = format!("order 1 buy 5 series 0 at 115 shows {shows}\n");
        assert_eq!(last_answer(&text), answer, "{text}");
    }
    let most = "order 1 buy 10000 series 0 at 115 shows 10000\n";
    assert_eq!(last_answer(most), "0");
}

#[test]
fn refusals_that_name_kind_1_cover_kind_9() {
    for (text, answer) in [
        ("order 0 buy 5 series 0 at 115 shows 2", "4"),
        ("order 1 buy 5 series 8 at 115 shows 2", "4"),
        ("order 1 side=2 5 series 0 at 115 shows 2", "4"),
        ("order 1 buy 5 series 0 at 113 shows 2", "4"),
        ("order 1 buy 5 series 0 at 100005 shows 2", "4"),
        ("order 1 buy 0 series 0 at 115 shows 1", "4"),
        ("order 1 buy 10001 series 0 at 115 shows 1", "4"),
        (
            "order 3 buy 5 series 0 at 115 shows 2\norder 3 buy 5 series 0 at 115 shows 2",
            "5",
        ),
        ("close 0\norder 3 buy 5 series 0 at 115 shows 2", "6"),
        ("raw 04 00 09 00", "3"),
        (
            "raw 12 00 09 00 01 00 00 00 00 00 73 00 00 00 05 00 00 00",
            "3",
        ),
        (
            "raw 17 00 09 00 01 00 00 00 00 00 73 00 00 00 05 00 00 00 02 00 00 00 00",
            "3",
        ),
        (
            "raw 16 00 01 00 01 00 00 00 00 00 73 00 00 00 05 00 00 00 02 00 00 00",
            "3",
        ),
        (
            "raw 16 00 09 00 01 00 00 00 00 00 73 00 00 00 05 00 00 00 02 00 00 00",
            "0",
        ),
        ("close 0\norder 1 buy 5 series 0 at 115 shows 6", "4"),
    ] {
        assert_eq!(last_answer(text), answer, "{text}");
    }
}

#[test]
fn order_with_reserve_upon_128_resting_is_7() {
    let full: String = (1..=128)
        .map(|id| format!("order {id} sell 2 series 0 at 100 shows 1\n"))
        .collect();
    assert_eq!(last_answer(&full), "0");
    for order in [
        "order 129 buy 5 series 0 at 100 shows 2",
        "order 129 buy 5 series 0 at 100",
    ] {
        assert_eq!(last_answer(&format!("{full}{order}\n")), "7");
    }
}

#[test]
fn kind_1_is_kind_9_that_shows_all() {
    let plain = "order 1 sell 9 series 0 at 130\norder 2 buy 4 series 0 at 130\n";
    let shows = "order 1 sell 9 series 0 at 130 shows 9\norder 2 buy 4 series 0 at 130 shows 4\n";
    assert_eq!(sheet(plain), sheet(shows));
    assert_eq!(venue_after(plain), venue_after(shows));
}

#[test]
fn at_one_price_all_shown_size_by_id_then_all_reserve_by_id() {
    let bids = "order 1 buy 5 series 0 at 115 shows 2\norder 2 buy 3 series 0 at 115\n";
    let sell = |quantity: u32| {
        let text = format!("{bids}order 3 sell {quantity} series 0 at 115\n");
        (effects(&text), shown(&venue_after(&text)))
    };
    assert_eq!(sell(4).0, ["65 0 1 115 2 3 1", "65 0 1 115 2 3 2"]);
    assert_eq!(sell(4).1, [(1, 3, 2), (2, 1, 1)]);
    let seven = ["65 0 1 115 2 3 1", "65 0 1 115 3 3 2", "65 0 1 115 2 3 1"];
    assert_eq!(sell(7).0, seven);
    assert_eq!(sell(7).1, [(1, 1, 1)]);
    let two = "order 1 buy 9 series 0 at 115 shows 1\norder 2 buy 9 series 0 at 115 shows 2\n\
        order 3 sell 14 series 0 at 115\n";
    assert_eq!(
        effects(two),
        [
            "65 0 1 115 1 3 1",
            "65 0 1 115 2 3 2",
            "65 0 1 115 8 3 1",
            "65 0 1 115 3 3 2"
        ]
    );
}

#[test]
fn shown_size_and_reserve_of_one_order_are_two_trades() {
    let text = "order 1 buy 5 series 0 at 115 shows 2\norder 2 sell 4 series 0 at 115\n";
    assert_eq!(effects(text), ["65 0 1 115 2 2 1", "65 0 1 115 2 2 1"]);
}

#[test]
fn reserve_at_a_better_price_goes_before_shown_size_at_a_worse() {
    let text = "order 1 buy 6 series 0 at 120 shows 1\norder 2 buy 4 series 0 at 115\n\
        order 3 sell 4 series 0 at 115\n";
    assert_eq!(effects(text), ["65 0 1 120 1 3 1", "65 0 1 120 3 3 1"]);
    let text = text.replace("sell 4", "sell 8");
    assert_eq!(
        effects(&text),
        ["65 0 1 120 1 3 1", "65 0 1 120 5 3 1", "65 0 1 115 2 3 2"]
    );
}

#[test]
fn legging_order_comes_after_all_reserve_at_its_price() {
    let bid = "order 4 buy 6 series 0 at 115 shows 2\n";
    let text = with_legging(&format!("{bid}order 5 sell 9 series 0 at 115\n"));
    assert_eq!(
        effects(&text)[..5],
        [
            "65 0 1 115 2 5 4",
            "65 0 1 115 4 5 4",
            "65 0 1 115 3 5 3",
            "65 1 0 90 3 3 2",
            "66 3 205 3"
        ]
    );
    let text = with_legging(&format!("{bid}order 5 sell 6 series 0 at 115\n"));
    assert_eq!(effects(&text), ["65 0 1 115 2 5 4", "65 0 1 115 4 5 4"]);
}

#[test]
fn legging_order_at_a_better_price_goes_before_reserve() {
    let bid = "order 4 buy 6 series 0 at 110 shows 2\n";
    let text = with_legging(&format!("{bid}order 5 sell 10 series 0 at 110\n"));
    let trades: Vec<String> = effects(&text)
        .into_iter()
        .filter(|line| line.starts_with("65 0"))
        .collect();
    assert_eq!(trades, ["65 0 1 115 8 5 3", "65 0 1 110 2 5 4"]);
}

#[test]
fn arriving_order_takes_with_all_of_its_quantity_and_its_rest_shows_again() {
    let text = "order 1 buy 5 series 0 at 115\norder 2 sell 9 series 0 at 115 shows 1\n";
    assert_eq!(effects(text), ["65 0 1 115 5 2 1"]);
    assert_eq!(shown(&venue_after(text)), [(2, 4, 1)]);
    let text = text.replace("shows 1", "shows 6");
    assert_eq!(shown(&venue_after(&text)), [(2, 4, 4)]);
}

#[test]
fn order_shows_again_what_was_asked_at_its_entry() {
    let text = "order 1 buy 6 series 0 at 120 shows 3\norder 2 sell 1 series 0 at 120\n\
        order 3 sell 3 series 0 at 120\n";
    assert_eq!(effects(text), ["65 0 1 120 3 3 1"]);
    assert_eq!(shown(&venue_after(text)), [(1, 2, 2)]);
}

#[test]
fn order_keeps_its_turn_by_id() {
    let text = "order 1 buy 6 series 0 at 120 shows 2\norder 2 buy 6 series 0 at 120 shows 2\n\
        order 3 sell 3 series 0 at 120\norder 4 sell 3 series 0 at 120\n";
    assert_eq!(effects(text), ["65 0 1 120 2 4 1", "65 0 1 120 1 4 2"]);
}

#[test]
fn cancel_tells_all_that_is_left() {
    let text = "order 1 buy 6 series 0 at 120 shows 2\norder 2 sell 3 series 0 at 120\ncancel 1\n";
    assert_eq!(effects(text), ["71 1 3"]);
}

#[test]
fn complex_order_takes_shown_size_only_and_then_the_next_price() {
    let text = "order 1 sell 15 series 0 at 130 shows 4\norder 2 sell 12 series 1 at 90\n\
        order 3 sell 9 series 0 at 135\ncomplex 4 buy 0 buy 1 class 1 net 225 quantity 20\n";
    let expected = [
        "65 0 0 130 4 4 1",
        "65 1 0 90 4 4 2",
        "66 4 220 4",
        "65 0 0 135 8 4 3",
        "65 1 0 90 8 4 2",
        "66 4 225 8",
    ];
    assert_eq!(effects(text)[..6], expected);
    assert_eq!(shown(&venue_after(text)), [(1, 11, 4), (3, 1, 1)]);
}

#[test]
fn orders_of_a_sweep_find_the_shown_size_once() {
    let text = "away 0 bid 0 offer 100\norder 1 sell 15 series 0 at 130 shows 4\n\
        order 2 sell 12 series 1 at 90\ncomplex 3 buy 0 buy 1 class 1 net 220 quantity 3\n\
        complex 4 buy 0 buy 1 class 1 net 220 quantity 3\naway 0 bid 0 offer 0\nsweep\n";
    assert_eq!(
        effects(text)[..6],
        [
            "65 0 0 130 3 3 1",
            "65 1 0 90 3 3 2",
            "66 3 220 3",
            "65 0 0 130 1 4 1",
            "65 1 0 90 1 4 2",
            "66 4 220 1"
        ]
    );
    let again = format!("{text}sweep\n");
    assert_eq!(
        effects(&again)[..3],
        ["65 0 0 130 2 4 1", "65 1 0 90 2 4 2", "66 4 220 2"]
    );
}

#[test]
fn legging_quantity_is_the_size_shown() {
    let made = |shows: u32| {
        let text = format!(
            "order 1 sell 15 series 0 at 130\norder 2 sell 12 series 1 at 90 shows {shows}\n\
             complex 3 buy 0 buy 1 class 1 net 205 quantity 8\n"
        );
        effects(&text)
    };
    assert_eq!(made(5), ["67 3 0 0 115 115 5", "67 3 1 0 75 75 8"]);
    assert_eq!(made(8), ["67 3 0 0 115 115 8", "67 3 1 0 75 75 8"]);
}

#[test]
fn other_leg_of_a_hit_takes_shown_size_and_shows_again() {
    let text = "order 1 sell 15 series 0 at 130\norder 2 sell 12 series 1 at 90 shows 5\n\
        complex 3 buy 0 buy 1 class 1 net 205 quantity 8\norder 4 sell 9 series 0 at 115\n";
    assert_eq!(
        effects(text)[..3],
        ["65 0 1 115 5 4 3", "65 1 0 90 5 3 2", "66 3 205 5"]
    );
    assert_eq!(
        shown(&venue_after(text)),
        [(1, 15, 15), (2, 7, 5), (4, 4, 4)]
    );
}

#[test]
fn standing_test_counts_the_size_shown() {
    // 5 and 3 are shown at 90, and 8 stand upon it; 3 go, and 7 in reserve do not help.
    let text = "order 1 sell 15 series 0 at 130\norder 2 sell 12 series 1 at 90 shows 5\n\
        order 3 sell 3 series 1 at 90\ncomplex 4 buy 0 buy 1 class 1 net 205 quantity 8\n\
        cancel 3\n";
    assert_eq!(last_lines(text), ["64 5 0 4 1", "71 3 3", "68 4 0 0 2"]);
}

#[test]
fn settling_finds_what_is_shown_again() {
    // 5 of the 8 shown trade; before settling the order shows 7 of the 7 left.
    let text = "order 1 sell 15 series 0 at 130\norder 2 sell 12 series 1 at 90 shows 8\n\
        complex 3 buy 0 buy 1 class 1 net 200 quantity 7\norder 4 buy 5 series 1 at 90\n";
    assert_eq!(last_lines(text), ["64 4 0 5 2", "65 1 0 90 5 4 2"]);
    assert_eq!(shown(&venue_after(text))[1], (2, 7, 7));
}

#[test]
fn band_reads_the_next_price_once_the_shown_size_is_used_up() {
    // A net of 220 is in band of 130 and 90, and not of 100 and 90.
    let text = "order 1 sell 9 series 0 at 100 shows 2\norder 2 sell 9 series 0 at 130\n\
        order 3 sell 20 series 1 at 90 shows 20\n\
        complex 4 buy 0 buy 1 class 1 net 190 quantity 2\n";
    assert_eq!(
        effects(text),
        ["65 0 0 100 2 4 1", "65 1 0 90 2 4 3", "66 4 190 2"]
    );
    let more = text.replace("net 190 quantity 2", "net 220 quantity 3");
    assert_eq!(
        effects(&more),
        [
            "65 0 0 100 2 4 1",
            "65 1 0 90 2 4 3",
            "66 4 190 2",
            "65 0 0 130 1 4 2",
            "65 1 0 90 1 4 3",
            "66 4 220 1"
        ]
    );
}

#[test]
fn cross_asks_the_next_price_once_the_shown_size_is_used_up() {
    // By 100 and 90 order 5 would cross above its legs, by 130 and 90 it does not.
    let text = "away 0 bid 95 offer 0\naway 1 bid 80 offer 0\n\
        order 1 sell 9 series 0 at 100 shows 2\norder 2 sell 9 series 0 at 130\n\
        order 3 sell 20 series 1 at 90\ncomplex 5 buy 0 buy 1 class 1 net 210 quantity 10\n\
        complex 6 sell 0 sell 1 class 1 net -205 quantity 20\n";
    assert_eq!(effects(text), Vec::<String>::new());
    assert_eq!(
        effects(&format!("{text}sweep\n"))[..4],
        [
            "65 0 0 100 2 5 1",
            "65 1 0 90 2 5 3",
            "66 5 190 2",
            "70 6 5 -210 6"
        ]
    );
}

#[test]
fn touch_asks_the_next_price_once_the_shown_size_is_used_up() {
    // By 100 and the 85 of order 8's legging order, order 7 touches it in a sweep; where
    // order 6 has taken the 2 shown at 100 before, it does not by 130 and 85.
    let swept = |before: &str| {
        effects(&format!(
            "away 0 bid 0 offer 95\naway 1 bid 80 offer 84\n\
             order 1 sell 9 series 0 at 100 shows 2\norder 2 sell 9 series 0 at 130\n\
             order 3 sell 9 series 1 at 90\norder 4 sell 9 series 3 at 40\n\
             order 5 buy 9 series 2 at 50\n{before}\
             complex 7 buy 0 buy 1 class 1 net 185 quantity 1\n\
             complex 8 sell 1 sell 2 class 1 net -135 quantity 4\nsweep\n"
        ))
    };
    assert_eq!(swept("")[0], "68 8 1 1 8");
    let taken = swept("complex 6 buy 0 buy 3 class 1 net 140 quantity 6\n");
    assert_eq!(taken, ["65 0 0 100 2 6 1", "65 3 0 40 2 6 4", "66 6 140 2"]);
}

#[test]
fn increment_is_not_set_while_an_order_with_reserve_rests() {
    let text = "order 1 sell 9 series 0 at 100 shows 2\nclose 0\nincrement 0 1 1\n";
    assert_eq!(last_answer(text), "12");
}

#[test]
fn venue_keeps_the_shown_quantity_cut_to_what_is_left() {
    let venue = venue_after(
        "order 1 sell 9 series 0 at 100 shows 4\norder 2 buy 6 series 0 at 100\n\
         order 3 sell 9 series 1 at 100 shows 4\n",
    );
    let row = |at: usize| {
        let order = venue.regular[at];
        (order.quantity, order.reserve, order.display)
    };
    assert_eq!((row(0), row(1), row(2)), ((3, 0, 3), (9, 5, 4), (0, 0, 0)));
}

#[test]
fn run_and_one_message_calls_show_the_same() {
    // A run keeps the shown quantity as entered; the calls hand on what is left of it.
    let text = with_offers(
        "order 3 buy 9 series 2 at 120 shows 4\norder 4 sell 7 series 2 at 120\n\
         order 5 buy 9 series 2 at 120 shows 8\norder 6 sell 3 series 2 at 115 shows 2\n\
         sweep\norder 7 sell 9 series 2 at 110 shows 5\n",
    );
    let (returned, report) = run_whole(&bytes(&text));
    let (number, venue, records) = by_calls(&bytes(&text));
    assert_eq!((returned.number, number), (0, 0));
    assert_eq!((returned.venue, report), (venue, records));
}
