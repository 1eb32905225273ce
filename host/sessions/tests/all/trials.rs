//! The trials and the printed session of document 01, and the examples of the filing.

use crate::common::{last_lines, sheet, with_legging, with_offers};

#[test]
fn printed_session_comes_out_to_the_letter() {
    let text = with_legging("order 4 sell 5 series 0 at 115\n");
    let expected = "64 1 0 0 0\n64 2 0 0 0\n64 3 0 0 0\n64 4 0 0 0\n64 5 0 5 2\n\
        67 3 0 0 115 115 8\n67 3 1 0 75 75 8\n64 6 0 0 0\n65 0 1 115 5 4 3\n\
        65 1 0 90 5 3 2\n66 3 205 5\n68 3 0 0 3\n68 3 1 0 3\n";
    assert_eq!(sheet(&text), expected);
}

fn complex_after(setup: &str, limit: i32, quantity: u32) -> Vec<String> {
    let order = format!("complex 3 buy 0 buy 1 class 1 net {limit} quantity {quantity}\n");
    last_lines(&with_offers(&format!("{setup}{order}")))
}

#[test]
fn limit_205_makes_115_and_75() {
    let lines = complex_after("", 205, 8);
    assert_eq!(
        lines,
        ["64 5 0 5 2", "67 3 0 0 115 115 8", "67 3 1 0 75 75 8"]
    );
}

#[test]
fn limit_203_makes_113_shown_110_and_73_shown_70() {
    let lines = complex_after("", 203, 8);
    assert_eq!(
        lines,
        ["64 5 0 5 2", "67 3 0 0 113 110 8", "67 3 1 0 73 70 8"]
    );
}

#[test]
fn quantity_20_is_cut_to_the_sizes_12_and_15() {
    let lines = complex_after("", 205, 20);
    assert_eq!(
        lines,
        ["64 5 0 5 2", "67 3 0 0 115 115 12", "67 3 1 0 75 75 15"]
    );
}

#[test]
fn limit_220_legs_in_and_generates_nothing() {
    let lines = complex_after("", 220, 8);
    let expected = [
        "64 5 0 0 0",
        "65 0 0 130 8 3 1",
        "65 1 0 90 8 3 2",
        "66 3 220 8",
    ];
    assert_eq!(lines, expected);
}

const AWAY_OFFERS: &str = "away 0 bid 0 offer 60\naway 1 bid 0 offer 40\n";

#[test]
fn limit_105_with_away_offers_makes_15_in_series_0_and_none_in_1() {
    let lines = complex_after(AWAY_OFFERS, 105, 8);
    assert_eq!(lines, ["64 7 0 1 1", "67 3 0 0 15 15 8"]);
}

#[test]
fn limit_106_with_away_offers_makes_none() {
    assert_eq!(complex_after(AWAY_OFFERS, 106, 8), ["64 7 0 0 0"]);
}

/// Whether the taker of a credit crosses at a net, its market net being -200.
fn crosses_at_credit(net: i32) -> bool {
    let text = format!(
        "open 0\nopen 1\naway 0 bid 100 offer 100\naway 1 bid 100 offer 100\n\
         complex 1 buy 0 buy 1 class 0 net {} quantity 5\n\
         complex 2 sell 0 sell 1 class 0 net {net} quantity 5\n",
        -net
    );
    last_lines(&text).contains(&format!("70 2 1 {net} 5"))
}

#[test]
fn market_net_minus_200_has_minus_190_in_band_and_minus_189_not() {
    assert!(crosses_at_credit(-200));
    assert!(crosses_at_credit(-190));
    assert!(!crosses_at_credit(-189));
}

/// Whether the taker of an even spread crosses at a net, its market net being 0.
fn crosses_at_even(net: i32) -> bool {
    let text = format!(
        "open 0\nopen 1\naway 0 bid 90 offer 100\naway 1 bid 100 offer 110\n\
         complex 1 sell 0 buy 1 class 0 net {} quantity 5\n\
         complex 2 buy 0 sell 1 class 0 net {net} quantity 5\n",
        -net
    );
    last_lines(&text).contains(&format!("70 2 1 {net} 5"))
}

#[test]
fn market_net_0_has_0_in_band_and_1_not() {
    assert!(crosses_at_even(0));
    assert!(!crosses_at_even(1));
}

#[test]
fn selling_6_to_regular_2_and_legging_8_at_one_price_trades_2_then_4() {
    let text = with_legging("order 4 buy 2 series 0 at 115\norder 5 sell 6 series 0 at 115\n");
    let expected = [
        "64 7 0 0 0",
        "65 0 1 115 2 5 4",
        "65 0 1 115 4 5 3",
        "65 1 0 90 4 3 2",
        "66 3 205 4",
        "68 3 0 0 3",
        "68 3 1 0 3",
    ];
    assert_eq!(last_lines(&text), expected);
}

#[test]
fn empty_list_writes_no_record() {
    assert_eq!(sheet(""), "");
}

/// The sheet of an example that the filing works out in its Item 3 is the one stored beside it.
macro_rules! assert_as_filed {
    ($name:literal) => {
        let text = include_str!(concat!(
            "../../../venue/tests/sessions/filing-",
            $name,
            ".txt"
        ));
        let stored = include_str!(concat!(
            "../../../venue/tests/sessions/filing-",
            $name,
            ".sheet"
        ));
        assert_eq!(sheet(text), stored);
    };
}

#[test]
fn filing_generating_legging_orders() {
    assert_as_filed!("1-generating");
}

#[test]
fn filing_execution_of_legging_orders() {
    assert_as_filed!("2-execution");
}

#[test]
fn filing_removal_no_longer_best_nor_at_the_net_price() {
    assert_as_filed!("3-removal-i-ii");
}

#[test]
fn filing_removal_outside_the_ace_parameter() {
    assert_as_filed!("4-removal-v");
}

#[test]
fn filing_removal_by_an_auction() {
    assert_as_filed!("5-removal-vi");
}

#[test]
fn filing_removal_for_a_customer_at_the_same_price() {
    assert_as_filed!("6-removal-vii");
}

#[test]
fn filing_removal_with_legs_in_common() {
    assert_as_filed!("7-removal-viii");
}

#[test]
fn filing_removal_by_a_trade_with_the_complex_order() {
    assert_as_filed!("8-removal-viii-revised");
}

#[test]
fn filing_removal_of_multiple_legging_orders() {
    assert_as_filed!("9-removal-ix");
}

#[test]
fn filing_removal_by_an_unequal_quantity_of_components() {
    assert_as_filed!("10-removal-x");
}
