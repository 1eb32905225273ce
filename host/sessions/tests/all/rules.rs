//! Each rule of document 01 by a session whose sheet was worked out by hand.

use crate::common::{last_lines, venue_after, with_legging, with_offers};

#[test]
fn order_meets_best_price_first_then_lower_id() {
    let text = "open 0\norder 1 sell 5 series 0 at 110\norder 2 sell 5 series 0 at 105\n\
        order 3 sell 5 series 0 at 105\norder 4 buy 12 series 0 at 110\n";
    let expected = [
        "64 5 0 0 0",
        "65 0 0 105 5 4 2",
        "65 0 0 105 5 4 3",
        "65 0 0 110 2 4 1",
    ];
    assert_eq!(last_lines(text), expected);
}

#[test]
fn order_rests_with_what_does_not_cross() {
    let text = "open 0\norder 1 sell 5 series 0 at 110\norder 2 buy 7 series 0 at 110\n";
    assert_eq!(last_lines(text), ["64 3 0 0 0", "65 0 0 110 5 2 1"]);
    let venue = venue_after(text);
    assert_eq!((venue.regular[0].id, venue.regular[0].quantity), (2, 2));
    assert_eq!(venue.regular[1].quantity, 0);
}

#[test]
fn legging_order_at_a_better_own_price_is_met_before_regular() {
    let text = with_legging("order 4 buy 2 series 0 at 110\norder 5 sell 10 series 0 at 110\n");
    let expected = [
        "64 7 0 0 0",
        "65 0 1 115 8 5 3",
        "65 1 0 90 8 3 2",
        "66 3 205 8",
        "68 3 0 0 3",
        "68 3 1 0 3",
        "65 0 1 110 2 5 4",
    ];
    assert_eq!(last_lines(&text), expected);
}

#[test]
fn hit_trades_at_the_own_price_not_the_displayed_one() {
    let text = with_offers(
        "complex 3 buy 0 buy 1 class 1 net 203 quantity 8\norder 4 sell 5 series 0 at 110\n",
    );
    let expected = [
        "64 6 0 0 0",
        "65 0 1 113 5 4 3",
        "65 1 0 90 5 3 2",
        "66 3 203 5",
        "68 3 0 0 3",
        "68 3 1 0 3",
    ];
    assert_eq!(last_lines(&text), expected);
}

#[test]
fn hit_takes_the_other_leg_by_id_at_an_improved_price() {
    let text = with_legging(
        "order 4 sell 8 series 1 at 85\norder 5 sell 9 series 1 at 85\n\
         order 6 buy 5 series 1 at 85\norder 7 sell 5 series 0 at 115\n",
    );
    let expected = [
        "64 9 0 0 0",
        "65 0 1 115 5 7 3",
        "65 1 0 85 3 3 4",
        "65 1 0 85 2 3 5",
        "66 3 200 5",
        "68 3 0 0 3",
        "68 3 1 0 3",
    ];
    assert_eq!(last_lines(&text), expected);
}

#[test]
fn better_price_too_small_in_size_removes_and_is_never_cut_down() {
    let text = with_legging("order 4 sell 3 series 1 at 85\n");
    assert_eq!(last_lines(&text), ["64 6 0 4 1", "68 3 0 0 2"]);
}

#[test]
fn what_is_left_of_an_order_after_a_hit_rests_and_settles() {
    let text = with_legging("order 4 sell 10 series 0 at 115\n");
    let expected = [
        "64 6 0 0 0",
        "65 0 1 115 8 4 3",
        "65 1 0 90 8 3 2",
        "66 3 205 8",
        "68 3 0 0 3",
        "68 3 1 0 3",
    ];
    assert_eq!(last_lines(&text), expected);
    let venue = venue_after(&text);
    assert_eq!(venue.complex[0].quantity, 0);
    let ids: Vec<u32> = venue.regular.iter().map(|order| order.id).take(4).collect();
    assert_eq!(ids, [1, 2, 4, 0]);
    assert_eq!(venue.regular[2].quantity, 2);
}

#[test]
fn cause_1_when_a_regular_price_is_better_than_the_displayed_one() {
    let text = with_offers(
        "complex 3 buy 0 buy 1 class 1 net 203 quantity 8\norder 4 buy 1 series 0 at 115\n",
    );
    assert_eq!(last_lines(&text), ["64 6 0 4 1", "68 3 0 0 1"]);
}

#[test]
fn no_cause_1_when_a_regular_price_equals_the_displayed_one() {
    let text = with_offers(
        "complex 3 buy 0 buy 1 class 1 net 203 quantity 8\norder 4 buy 1 series 0 at 110\n",
    );
    assert_eq!(last_lines(&text), ["64 6 0 5 2"]);
}

#[test]
fn cause_2_when_the_size_falls_below_the_quantity() {
    let text = with_legging("order 4 buy 5 series 1 at 90\n");
    let expected = ["64 6 0 4 1", "65 1 0 90 5 4 2", "68 3 0 0 2"];
    assert_eq!(last_lines(&text), expected);
    let text = with_legging("order 4 buy 4 series 1 at 90\n");
    assert_eq!(last_lines(&text), ["64 6 0 5 2", "65 1 0 90 4 4 2"]);
}

#[test]
fn cause_2_when_the_clear_price_goes_and_an_away_price_keeps_the_band() {
    let text = with_offers(
        "away 1 bid 0 offer 95\n\
         complex 3 buy 0 buy 1 class 1 net 205 quantity 8\ncancel 2\n",
    );
    assert_eq!(last_lines(&text), ["64 7 0 4 1", "71 2 12", "68 3 0 0 2"]);
}

#[test]
fn cause_5_is_told_where_2_applies_too() {
    // Without offers in series 1, place 0 has no clear price and neither a band;
    // place 2 still pairs.
    let text = with_legging("cancel 2\n");
    let expected = ["64 6 0 0 0", "71 2 12", "68 3 0 0 5", "68 3 1 0 5"];
    assert_eq!(last_lines(&text), expected);
    // A better offer in series 1 is too small for place 0; whether the limit
    // leaves the band with it is for the away offer in series 0 to say.
    let small_offer = |away: u32| {
        with_offers(&format!(
            "away 0 bid 0 offer {away}\n\
             complex 3 buy 0 buy 1 class 1 net 195 quantity 8\n\
             order 4 sell 2 series 1 at 70\n"
        ))
    };
    let expected = ["64 7 0 0 0", "68 3 0 0 5", "68 3 1 0 5"];
    assert_eq!(last_lines(&small_offer(110)), expected);
    assert_eq!(last_lines(&small_offer(120)), ["64 7 0 4 1", "68 3 0 0 2"]);
}

#[test]
fn cause_4_follows_the_cancel_of_the_parent() {
    let expected = ["64 6 0 0 0", "71 3 8", "68 3 0 0 4", "68 3 1 0 4"];
    assert_eq!(last_lines(&with_legging("cancel 3\n")), expected);
}

#[test]
fn cause_5_when_an_away_price_moves_the_band() {
    let text = with_legging("away 0 bid 0 offer 60\n");
    assert_eq!(
        last_lines(&text),
        ["64 6 0 0 0", "68 3 0 0 5", "68 3 1 0 5"]
    );
}

#[test]
fn cause_6_in_auction_and_in_closed_series() {
    let expected = ["64 6 0 0 0", "68 3 0 0 6", "68 3 1 0 6"];
    assert_eq!(last_lines(&with_legging("auction 1\n")), expected);
    assert_eq!(last_lines(&with_legging("close 0\n")), expected);
}

#[test]
fn cause_7_by_a_better_price() {
    let text = with_legging("complex 4 buy 0 buy 1 class 1 net 206 quantity 9\n");
    let expected = [
        "64 6 0 5 2",
        "68 3 0 0 7",
        "67 4 0 0 116 115 9",
        "68 3 1 0 7",
        "67 4 1 0 76 75 9",
    ];
    assert_eq!(last_lines(&text), expected);
}

#[test]
fn cause_7_at_an_equal_price_by_class_0_only() {
    let text = with_legging("complex 4 buy 0 buy 1 class 0 net 205 quantity 9\n");
    let expected = [
        "64 6 0 5 2",
        "68 3 0 0 7",
        "67 4 0 0 115 115 9",
        "68 3 1 0 7",
        "67 4 1 0 75 75 9",
    ];
    assert_eq!(last_lines(&text), expected);
    let text = with_legging("complex 4 buy 0 buy 1 class 1 net 205 quantity 9\n");
    assert_eq!(last_lines(&text), ["64 6 0 5 2"]);
}

#[test]
fn replacement_asks_own_prices_not_displayed_ones() {
    let text = with_legging("complex 4 buy 0 buy 1 class 0 net 204 quantity 9\n");
    assert_eq!(last_lines(&text), ["64 6 0 5 2"]);
}

#[test]
fn cause_8_when_the_best_own_prices_reach_the_limit() {
    let text = with_legging("complex 4 sell 0 sell 1 class 1 net -190 quantity 5\n");
    assert_eq!(
        last_lines(&text),
        ["64 6 0 0 0", "68 3 0 0 8", "68 3 1 0 8"]
    );
    let text = with_legging("complex 4 sell 0 sell 1 class 1 net -191 quantity 5\n");
    assert_eq!(last_lines(&text), ["64 6 0 5 2"]);
}

#[test]
fn legging_in_goes_on_round_by_round() {
    let text = with_offers(
        "order 3 sell 5 series 0 at 125\ncomplex 4 buy 0 buy 1 class 1 net 220 quantity 8\n",
    );
    let expected = [
        "64 6 0 0 0",
        "65 0 0 125 5 4 3",
        "65 1 0 90 5 4 2",
        "66 4 215 5",
        "65 0 0 130 3 4 1",
        "65 1 0 90 3 4 2",
        "66 4 220 3",
    ];
    assert_eq!(last_lines(&text), expected);
}

#[test]
fn second_named_leg_trades_second() {
    let text = with_offers("complex 3 buy 1 buy 0 class 1 net 220 quantity 2\n");
    let expected = [
        "64 5 0 0 0",
        "65 1 0 90 2 3 2",
        "65 0 0 130 2 3 1",
        "66 3 220 2",
    ];
    assert_eq!(last_lines(&text), expected);
}

#[test]
fn legging_in_asks_the_band_of_its_net() {
    let text =
        with_offers("away 0 bid 0 offer 100\ncomplex 3 buy 0 buy 1 class 1 net 220 quantity 8\n");
    assert_eq!(last_lines(&text), ["64 6 0 0 0"]);
    // A market net of 210 has 220 in band; the limit 240 need not be.
    let text =
        with_offers("away 0 bid 0 offer 120\ncomplex 3 buy 0 buy 1 class 1 net 240 quantity 8\n");
    let expected = [
        "64 6 0 0 0",
        "65 0 0 130 8 3 1",
        "65 1 0 90 8 3 2",
        "66 3 220 8",
    ];
    assert_eq!(last_lines(&text), expected);
}

const QUOTES: &str = "open 0\nopen 1\naway 0 bid 95 offer 105\naway 1 bid 95 offer 105\n";

#[test]
fn cross_takes_the_highest_limit_then_the_earliest_whichever_leg_is_named_first() {
    let text = format!(
        "{QUOTES}complex 1 buy 0 buy 1 class 1 net 190 quantity 5\n\
         complex 2 buy 0 buy 1 class 1 net 195 quantity 5\n\
         complex 3 buy 1 buy 0 class 0 net 195 quantity 5\n\
         complex 4 sell 0 sell 1 class 1 net -190 quantity 12\n"
    );
    let expected = [
        "64 8 0 0 0",
        "70 4 2 -195 5",
        "70 4 3 -195 5",
        "70 4 1 -190 2",
    ];
    assert_eq!(last_lines(&text), expected);
}

#[test]
fn cross_passes_over_a_limit_that_is_not_in_band() {
    let text = format!(
        "{QUOTES}complex 1 buy 0 buy 1 class 1 net 221 quantity 5\n\
         complex 2 buy 0 buy 1 class 1 net 220 quantity 5\n\
         complex 3 sell 0 sell 1 class 1 net -190 quantity 5\n"
    );
    assert_eq!(last_lines(&text), ["64 7 0 0 0", "70 3 2 -220 5"]);
}

#[test]
fn cross_is_only_with_every_side_reversed_and_limits_that_meet() {
    let text = format!(
        "{QUOTES}complex 1 buy 0 sell 1 class 1 net 195 quantity 5\n\
         complex 2 buy 0 buy 1 class 1 net 189 quantity 5\n\
         complex 3 sell 0 sell 1 class 1 net -190 quantity 5\n"
    );
    assert_eq!(last_lines(&text), ["64 7 0 0 0"]);
}

/// Bids of 100 and of `bid`, offers away only; order 3 would buy both at 150.
fn with_bids(bid: u32, rest: &str) -> String {
    format!(
        "open 0\nopen 1\naway 0 bid 0 offer 101\naway 1 bid 0 offer 51\n\
         order 1 buy 5 series 0 at 100\norder 2 buy 5 series 1 at {bid}\n\
         complex 3 buy 0 buy 1 class 0 net 150 quantity 5\n{rest}"
    )
}

#[test]
fn cross_asks_the_legs_of_the_net_dealt_at_not_of_the_limit() {
    let text = with_bids(50, "complex 4 sell 0 sell 1 class 0 net -140 quantity 3\n");
    assert_eq!(last_lines(&text), ["64 8 0 0 0", "70 4 3 -150 3"]);
}

#[test]
fn cross_asks_the_legs_of_each_party_by_itself() {
    let text = with_bids(55, "complex 4 sell 0 sell 1 class 0 net -150 quantity 3\n");
    let expected = [
        "64 8 0 0 0",
        "65 0 1 100 3 4 1",
        "65 1 1 55 3 4 2",
        "66 4 -155 3",
    ];
    assert_eq!(last_lines(&text), expected);
}

/// Orders 1 and 2 would buy both, at 195 and at 190; then offers of 100 and 90.
fn with_dear_buyers(rest: &str) -> String {
    format!(
        "{QUOTES}complex 1 buy 0 buy 1 class 1 net 195 quantity 5\n\
         complex 2 buy 1 buy 0 class 1 net 190 quantity 5\n\
         order 3 sell 5 series 0 at 100\norder 4 sell 5 series 1 at 90\n{rest}"
    )
}

#[test]
fn cross_passes_over_a_net_above_the_legs_before_it_takes_the_highest() {
    let text = with_dear_buyers("complex 5 sell 0 sell 1 class 1 net -185 quantity 3\n");
    assert_eq!(last_lines(&text), ["64 9 0 0 0", "70 5 2 -190 3"]);
}

#[test]
fn cross_that_the_legs_forbid_is_made_in_a_later_sweep() {
    let sell = "complex 5 sell 0 sell 1 class 1 net -195 quantity 3\n";
    assert_eq!(last_lines(&with_dear_buyers(sell)), ["64 9 0 0 0"]);
    let text = with_dear_buyers(&format!("{sell}cancel 3\nsweep\n"));
    let expected = ["64 11 0 1 1", "70 1 5 195 3", "67 2 0 0 100 100 5"];
    assert_eq!(last_lines(&text), expected);
}

#[test]
fn cross_asks_no_away_price_and_no_legging_price_of_the_legs() {
    // Regular offers net 210, away offers 205, with the legging order at 105 too.
    let text = "open 0\nopen 1\nopen 2\n\
        away 0 bid 100 offer 107\naway 1 bid 95 offer 98\n\
        complex 1 buy 0 buy 1 class 1 net 208 quantity 5\n\
        order 2 sell 5 series 0 at 110\norder 3 sell 5 series 1 at 100\n\
        order 4 sell 5 series 2 at 50\n\
        complex 5 sell 0 buy 2 class 1 net -55 quantity 5\n";
    assert_eq!(last_lines(text), ["64 10 0 2 1", "67 5 0 1 105 105 5"]);
    let text = format!("{text}complex 6 sell 0 sell 1 class 1 net -208 quantity 3\n");
    assert_eq!(last_lines(&text), ["64 11 0 2 1", "70 6 1 -208 3"]);
}

#[test]
fn cross_removes_the_legging_orders_of_the_maker() {
    let text = with_offers(
        "away 0 bid 100 offer 0\naway 1 bid 80 offer 0\n\
         complex 3 buy 0 buy 1 class 1 net 205 quantity 8\n\
         complex 4 sell 0 sell 1 class 1 net -200 quantity 3\n",
    );
    let expected = ["64 8 0 0 0", "70 4 3 -205 3", "68 3 0 0 3", "68 3 1 0 3"];
    assert_eq!(last_lines(&text), expected);
}

#[test]
fn sweep_generates_again_after_a_hit() {
    let text = with_legging("order 4 sell 5 series 0 at 115\nsweep\n");
    let expected = ["64 7 0 5 2", "67 3 0 0 115 115 3", "67 3 1 0 75 75 3"];
    assert_eq!(last_lines(&text), expected);
}

#[test]
fn sweep_replaces_an_orders_own_legging_order_at_a_better_price_only() {
    let text = with_legging("order 4 sell 12 series 1 at 85\nsweep\n");
    let expected = ["64 7 0 5 2", "68 3 0 0 7", "67 3 0 0 120 120 8"];
    assert_eq!(last_lines(&text), expected);
}

#[test]
fn sweep_crosses_when_the_band_has_come_to_allow_it() {
    let text = "open 0\nopen 1\ncomplex 1 buy 0 buy 1 class 1 net 200 quantity 5\n\
        complex 2 sell 0 sell 1 class 1 net -195 quantity 3\n\
        away 0 bid 95 offer 105\naway 1 bid 95 offer 105\nsweep\n";
    // The earlier order's turn comes first: it takes, at the other's limit.
    assert_eq!(last_lines(text), ["64 7 0 0 0", "70 1 2 195 3"]);
}

#[test]
fn sweep_passes_over_orders_in_a_closed_series_but_not_in_auction() {
    let setup = "open 0\nopen 1\ncomplex 1 buy 0 buy 1 class 1 net 220 quantity 2\n\
        order 2 sell 5 series 0 at 130\norder 3 sell 5 series 1 at 90\n";
    let closed = format!("{setup}close 0\nsweep\n");
    assert_eq!(last_lines(&closed), ["64 7 0 0 0"]);
    let auction = format!("{setup}auction 0\nsweep\n");
    let expected = [
        "64 7 0 0 0",
        "65 0 0 130 2 1 2",
        "65 1 0 90 2 1 3",
        "66 1 220 2",
    ];
    assert_eq!(last_lines(&auction), expected);
}

#[test]
fn order_in_auction_trades_and_no_legging_order_is_made_there() {
    let text = "auction 0\nopen 1\norder 1 sell 15 series 0 at 130\n\
        order 2 sell 12 series 1 at 90\ncomplex 3 buy 0 buy 1 class 1 net 205 quantity 8\n";
    assert_eq!(last_lines(text), ["64 5 0 0 0"]);
    let text = "auction 0\norder 1 sell 5 series 0 at 130\norder 2 buy 5 series 0 at 130\n";
    assert_eq!(last_lines(text), ["64 3 0 0 0", "65 0 0 130 5 2 1"]);
}

/// A legging sell order in series 1 that relies on the bid of 90 in series 0.
fn relying_on_a_bid(limit: i32) -> Vec<String> {
    let text = format!(
        "open 0\nopen 1\nopen 2\norder 1 buy 10 series 0 at 90\naway 1 bid 80 offer 0\n\
         complex 2 sell 0 sell 1 class 1 net -200 quantity 5\n\
         order 3 sell 5 series 2 at 50\naway 0 bid 0 offer 120\n\
         complex 4 buy 0 buy 2 class 1 net {limit} quantity 5\n"
    );
    last_lines(&text)
}

#[test]
fn nothing_is_made_that_would_hide_a_price_from_a_standing_order() {
    assert_eq!(relying_on_a_bid(150), ["64 9 0 8 1"]);
    assert_eq!(relying_on_a_bid(141), ["64 9 0 8 1"]);
    assert_eq!(relying_on_a_bid(140), ["64 9 0 9 2", "67 4 0 0 90 90 5"]);
}

#[test]
fn price_that_reaches_an_own_or_away_price_opposite_is_not_made() {
    let base = "open 0\nopen 1\norder 1 sell 12 series 1 at 90\n";
    let limit = |away: u32| {
        let text = format!(
            "{base}away 0 bid 0 offer {away}\n\
             complex 2 buy 0 buy 1 class 1 net 190 quantity 3\n"
        );
        last_lines(&text)
    };
    assert_eq!(limit(100), ["64 5 0 0 0"]);
    assert_eq!(limit(101), ["64 5 0 1 1", "67 2 0 0 100 100 3"]);
}

#[test]
fn displayed_price_worse_than_the_book_is_not_made() {
    let at = |bid: u32| {
        let text = with_offers(&format!(
            "order 3 buy 1 series 0 at {bid}\n\
             complex 4 buy 0 buy 1 class 1 net 203 quantity 8\n"
        ));
        last_lines(&text)
    };
    assert_eq!(at(110)[1], "67 4 0 0 113 110 8");
    assert_eq!(at(115)[1], "67 4 1 0 73 70 8");
}

#[test]
fn failing_order_still_hides_a_clear_price_in_its_settling() {
    let text = "open 0\nopen 1\nopen 2\naway 2 bid 0 offer 70\naway 1 bid 80 offer 0\n\
        order 1 sell 10 series 1 at 100\n\
        complex 2 buy 2 buy 1 class 1 net 150 quantity 8\n\
        order 3 sell 8 series 1 at 90\norder 4 sell 20 series 0 at 130\n\
        complex 5 buy 0 buy 1 class 1 net 200 quantity 10\n\
        complex 6 buy 0 sell 1 class 1 net 40 quantity 3\n\
        order 7 sell 11 series 0 at 110\n";
    let expected = [
        "64 12 0 0 0",
        "65 0 1 110 8 7 5",
        "65 1 0 90 8 5 3",
        "66 5 200 8",
        "68 5 0 0 3",
        "68 5 1 0 3",
        "68 6 1 1 5",
        "68 2 2 0 2",
    ];
    assert_eq!(last_lines(text), expected);
}

/// Orders 5 and 6 are reversed and their limits meet, but 211 is out of the
/// band of 200 until order 7 takes the offer at 100 in the first sweep.
const KEPT_APART: &str = "open 0\nopen 1\nopen 2\naway 1 bid 0 offer 100\n\
    order 1 sell 5 series 0 at 100\norder 2 sell 15 series 0 at 130\n\
    order 3 buy 20 series 0 at 90\norder 4 buy 20 series 1 at 60\n\
    complex 5 sell 0 sell 1 class 1 net -211 quantity 4\n\
    complex 6 buy 1 buy 0 class 1 net 215 quantity 3\n\
    complex 7 buy 0 buy 2 class 1 net 150 quantity 7\norder 8 sell 6 series 2 at 50\nsweep\n";

#[test]
fn sweep_works_all_orders_then_settles_then_generates_by_id() {
    let expected = [
        "64 13 0 28 3",
        "65 0 0 100 5 7 1",
        "65 2 0 50 5 7 8",
        "66 7 150 5",
        "67 6 1 0 85 85 3",
        "67 7 2 0 20 20 2",
    ];
    assert_eq!(last_lines(KEPT_APART), expected);
}

#[test]
fn cross_in_a_sweep_removes_the_takers_legging_orders_then_the_makers() {
    let expected = [
        "64 14 0 24 2",
        "70 5 6 -215 3",
        "68 5 1 1 3",
        "68 6 1 0 3",
        "67 5 1 1 121 125 1",
    ];
    assert_eq!(last_lines(&format!("{KEPT_APART}sweep\n")), expected);
}

#[test]
fn cancel_of_a_regular_order_tells_what_was_open() {
    let text = "open 0\norder 1 sell 5 series 0 at 110\norder 2 buy 2 series 0 at 110\ncancel 1\n";
    assert_eq!(last_lines(text), ["64 4 0 0 0", "71 1 3"]);
}

#[test]
fn sell_side_mirrors_the_buy_side() {
    let text = "open 6\nopen 7\norder 1 buy 15 series 6 at 130\norder 2 buy 12 series 7 at 90\n\
        complex 3 sell 6 sell 7 class 1 net -235 quantity 8\norder 4 buy 3 series 6 at 150\n";
    // Sells at 235 - 90 = 145 shown 150, and at 235 - 130 = 105 shown 110.
    let expected = [
        "64 6 0 0 0",
        "65 6 0 145 3 4 3",
        "65 7 1 90 3 3 2",
        "66 3 -235 3",
        "68 3 6 1 3",
        "68 3 7 1 3",
    ];
    assert_eq!(last_lines(text), expected);
}
