//! The figures of causes and refusals, and one order followed through its session.

use crate::common::bytes;
use reference::Venue;
use sessions::explain::{explain, About, Explainer};
use sessions::follow::Followed;
use sessions::message::split;
use sessions::profile::Profile;
use sessions::record::Record;
use sessions::soak::generate;

/// Offers in two series, a second one in the latter, and a complex order whose legging
/// orders stand at 115 and 75.
const STANDING: &str = "order 1 sell 15 series 0 at 130\norder 2 sell 12 series 1 at 90\n\
    order 3 sell 20 series 1 at 95\ncomplex 5 buy 0 buy 1 class 1 net 205 quantity 8\n";

/// What is told of the last message of a session.
fn told(session: &str) -> Vec<String> {
    let list = bytes(session);
    let mut explainer = Explainer::default();
    let mut lines = Vec::new();
    for piece in split(&list) {
        lines = explainer.explain(piece).unwrap().lines;
    }
    lines.into_iter().map(|line| line.words).collect()
}

#[test]
fn removals_tell_the_figures_that_failed() {
    let odd = STANDING.replace("net 205", "net 203");
    let cases = [
        (
            format!("{odd}order 6 buy 1 series 0 at 115\n"),
            "buy series 0: cause 1, its displayed price is worse than the best regular of its \
             side: price 113 is displayed at 110 by increment 5 (edition 0), worse than the best \
             regular price 115",
        ),
        (
            format!("{STANDING}away 0 bid 0 offer 60\n"),
            "buy series 0: cause 5, its parent's limit is out of band: N 205 is above 157, the \
             highest net in band of O 150 by percent 5 (edition 0)",
        ),
        (
            format!("{STANDING}cancel 1\n"),
            "buy series 0: cause 5, its parent's limit is out of band: N is 205, and a market \
             best is missing: the sell side of series 0",
        ),
        (
            format!("{STANDING}order 6 buy 6 series 1 at 90\n"),
            "buy series 0: cause 2, the other leg lacks a clear price, net within the limit, or \
             size: size 6 at clear price 90 is below quantity 8",
        ),
        (
            format!("{STANDING}cancel 2\n"),
            "buy series 0: cause 2, the other leg lacks a clear price, net within the limit, or \
             size: net 210 with clear price 95 is above N 205",
        ),
        (
            format!("{}cancel 2\n", STANDING.replace("sell 20", "sell 7")),
            "buy series 0: cause 2, the other leg lacks a clear price, net within the limit, or \
             size: net 210 with clear price 95 is above N 205, and size 7 at clear price 95 is \
             below quantity 8",
        ),
        (
            format!("{STANDING}away 1 bid 0 offer 95\ncancel 3\ncancel 2\n"),
            "buy series 0: cause 2, the other leg lacks a clear price, net within the limit, or \
             size: the sell side of series 1 has no clear price: no regular order shows there",
        ),
        (
            format!("{STANDING}close 0\n"),
            "buy series 1: cause 6, a series of its parent is not open: series 0 is closed",
        ),
        (
            format!("{STANDING}auction 1\n"),
            "buy series 0: cause 6, a series of its parent is not open: series 1 is in auction",
        ),
        (
            format!("{STANDING}complex 6 buy 0 buy 1 class 0 net 206 quantity 3\n"),
            "buy series 0: cause 7, replaced by another legging order: that of 6 at 116",
        ),
    ];
    for (session, expected) in cases {
        let lines = told(&session);
        let expected = format!("removed the legging order of 5, {expected}");
        assert!(lines.contains(&expected), "{expected}\n{lines:#?}");
    }
}

#[test]
fn who_hides_a_clear_price_is_told() {
    let session = format!(
        "order 1 sell 15 series 0 at 130\norder 2 sell 12 series 1 at 90\n\
         order 3 sell 20 series 1 at 95\norder 4 sell 20 series 2 at 50\n\
         away 1 bid 60 offer 0\n{}cancel 2\n",
        "complex 5 buy 0 buy 1 class 1 net 205 quantity 8\n\
         complex 6 sell 1 buy 2 class 1 net -40 quantity 8\n"
    );
    let expected = "removed the legging order of 5, buy series 0: cause 2, the other leg lacks a \
        clear price, net within the limit, or size: the sell side of series 1 has no clear price: \
        the legging order of 6 at 90 hides 95";
    let lines = told(&session);
    assert!(lines.contains(&expected.to_string()), "{lines:#?}");
}

#[test]
fn a_credits_highest_net_in_band_is_rounded_down() {
    let session = "away 1 bid 115 offer 0\norder 1 buy 9 series 0 at 100\n\
        order 2 buy 9 series 1 at 105\n\
        complex 3 sell 0 sell 1 class 1 net -210 quantity 5\npercent 2 1\n";
    // 2 percent of 215 is 4.3, and -210.7 rounds down to -211.
    let expected = "removed the legging order of 3, sell series 0: cause 5, its parent's limit is \
        out of band: N -210 is above -211, the highest net in band of O -215 by percent 2 \
        (edition 1, message 5)";
    let lines = told(session);
    assert!(lines.contains(&expected.to_string()), "{lines:#?}");
}

#[test]
fn refusal_4_names_the_field_its_value_and_its_range() {
    let cases = [
        (
            "order 0 buy 1 series 0 at 5",
            "id is 0, not from 1 to 4294967295",
        ),
        (
            "order 1 buy 1 series 8 at 5",
            "series is 8, not from 0 to 7",
        ),
        (
            "order 1 side=2 1 series 0 at 5",
            "side is 2, not from 0 to 1",
        ),
        (
            "order 1 buy 1 series 0 at 0",
            "price is 0, not from 1 to 100000",
        ),
        (
            "order 1 buy 1 series 0 at 100001",
            "price is 100001, not from 1 to 100000",
        ),
        (
            "order 1 buy 1 series 0 at 113",
            "price is 113, not a multiple of increment 5 (edition 0)",
        ),
        (
            "order 1 buy 1 series 6 at 115",
            "price is 115, not a multiple of increment 10 (edition 0)",
        ),
        (
            "order 1 buy 10001 series 0 at 5",
            "quantity is 10001, not from 1 to 10000",
        ),
        (
            "order 1 buy 6 series 0 at 5 shows 7",
            "shown quantity is 7, not from 1 to 6",
        ),
        (
            "order 1 buy 6 series 0 at 5 shows 0",
            "shown quantity is 0, not from 1 to 6",
        ),
        (
            "complex 0 buy 0 buy 1 class 0 net 5 quantity 1",
            "id is 0, not from 1 to 4294967295",
        ),
        (
            "complex 1 buy 8 buy 1 class 0 net 5 quantity 1",
            "series1 is 8, not from 0 to 7",
        ),
        (
            "complex 1 side=3 0 buy 1 class 0 net 5 quantity 1",
            "side1 is 3, not from 0 to 1",
        ),
        (
            "complex 1 buy 0 buy 9 class 0 net 5 quantity 1",
            "series2 is 9, not from 0 to 7",
        ),
        (
            "complex 1 buy 0 sell 0 class 0 net 5 quantity 1",
            "series2 is 0, not another series than that of the first leg",
        ),
        (
            "complex 1 buy 0 side=3 1 class 0 net 5 quantity 1",
            "side2 is 3, not from 0 to 1",
        ),
        (
            "complex 1 buy 0 buy 1 class 2 net 5 quantity 1",
            "class is 2, not from 0 to 1",
        ),
        (
            "complex 1 buy 0 buy 1 class 0 net 200001 quantity 1",
            "N is 200001, not from -200000 to 200000",
        ),
        (
            "complex 1 buy 0 buy 1 class 0 net -600001 quantity 1 ratio 2 1",
            "N is -600001, not from -600000 to 600000",
        ),
        (
            "complex 1 buy 0 buy 1 class 0 net 5 quantity 0",
            "quantity is 0, not from 1 to 10000",
        ),
        (
            "complex 1 buy 0 buy 1 class 0 net 5 quantity 1 ratio 4 1",
            "ratio1 is 4, not from 1 to 3",
        ),
        (
            "complex 1 buy 0 buy 1 class 0 net 5 quantity 1 ratio 1 0",
            "ratio2 is 0, not from 1 to 3",
        ),
        ("cancel 0", "id is 0, not from 1 to 4294967295"),
        ("away 8 bid 0 offer 0", "series is 8, not from 0 to 7"),
        (
            "away 0 bid 100001 offer 0",
            "bid is 100001, not from 0 to 100000",
        ),
        (
            "away 0 bid 0 offer 100001",
            "offer is 100001, not from 0 to 100000",
        ),
        ("status 0 status=3", "status is 3, not from 0 to 2"),
        ("increment 0 2 1", "increment is 2, not 1, 5 or 10"),
        ("percent 51 1", "percent is 51, not from 0 to 50"),
        ("limited 33", "n is 33, not from 1 to 32"),
        ("limited 0", "n is 0, not from 1 to 32"),
    ];
    for (message, expected) in cases {
        let expected = format!("refused with 4: a field is outside its range: {expected}");
        assert_eq!(told(message), [expected], "{message}");
    }
}

#[test]
fn every_removal_by_a_settling_and_every_refusal_4_has_its_figures() {
    let mut removals = 0;
    for profile in Profile::ALL {
        let list = generate(profile, 12, 400).concat();
        let mut explainer = Explainer::default();
        for piece in split(&list) {
            for line in explainer.explain(piece).unwrap().lines {
                let due = match line.about {
                    About::Record(Record::Removed(gone)) => [1, 2, 5, 6].contains(&gone.cause),
                    About::Record(Record::Answer(answer)) => answer.refusal == 4,
                    _ => false,
                };
                assert_eq!(line.figures.is_some(), due, "{}", line.words);
                removals += usize::from(due);
            }
        }
    }
    assert!(removals > 200, "{removals}");
}

#[test]
fn explaining_keeps_no_more_of_a_long_session_than_of_a_short_one() {
    let mut explainer = Explainer::default();
    for id in 1..3_000 {
        let side = if id % 2 == 0 { "sell" } else { "buy" };
        let message = bytes(&format!("order {id} {side} 1 series 0 at 100\n"));
        explainer.pass(&message).unwrap();
    }
    assert_eq!(explainer.done(), 2_999);
    assert_eq!(explainer.accounts(), 1);
}

/// What is told of one order, message by message.
fn followed(session: &str, id: u32) -> Vec<(u32, Vec<String>)> {
    let list = bytes(session);
    let mut explainer = Explainer::default();
    let mut followed = Followed::new(id);
    let mut told = Vec::new();
    for piece in split(&list) {
        let explained = explainer.explain(piece).unwrap();
        let touched = followed.touched(explained, explainer.venue());
        told.extend(touched.map(|explained| {
            let lines = explained.lines.into_iter().map(|line| line.words);
            (explained.number, lines.collect())
        }));
    }
    assert_eq!(followed.was_touched, !told.is_empty());
    told
}

#[test]
fn an_order_is_followed_through_all_that_touched_it() {
    let session = format!(
        "{STANDING}sweep\norder 6 buy 6 series 1 at 90\nsweep\naway 0 bid 0 offer 60\nsweep\n\
         away 0 bid 0 offer 0\ncancel 5\nsweep\n"
    );
    let told = followed(&session, 5);
    let numbers: Vec<u32> = told.iter().map(|(number, _)| *number).collect();
    // The sweep of message 5 changes nothing; messages 7 and 9 do.
    assert_eq!(numbers, [4, 6, 7, 8, 10, 11], "{told:#?}");
    let lines = |number: u32| {
        let of = told.iter().find(|(of, _)| *of == number);
        of.map(|(_, lines)| lines.clone()).unwrap_or_default()
    };
    assert_eq!(lines(4).len(), 3);
    assert!(lines(6)[0].starts_with("removed the legging order of 5, buy series 0: cause 2,"));
    let expected = "no legging order of 5, buy series 0 after it: every condition holds, and a \
        sweep would make one of 6 at 115";
    assert_eq!(lines(6)[1], expected);
    assert!(lines(7)[0].starts_with("legging order of 5, buy series 0: 6 at 115,"));
    assert_eq!(lines(7).len(), 1);
    let expected = "no legging order of 5, buy series 1 after it: limit 205 is not in band of \
        market net 150 by percent 5 (edition 0)";
    assert!(lines(8).contains(&expected.to_string()), "{:#?}", lines(8));
    let expected = "no legging order of 5, buy series 1 after it: every condition holds, and a \
        sweep would make one of 8 at 75";
    assert!(
        lines(10).contains(&expected.to_string()),
        "{:#?}",
        lines(10)
    );
    assert_eq!(lines(11)[1], "cancelled: 5, 8 were open");
    assert_eq!(followed(&session, 99), []);
}

#[test]
fn a_regular_order_is_followed_too() {
    let session = format!("{STANDING}order 6 sell 5 series 0 at 115\ncancel 2\n");
    let told = followed(&session, 2);
    let numbers: Vec<u32> = told.iter().map(|(number, _)| *number).collect();
    assert_eq!(numbers, [2, 5, 6]);
    assert_eq!(told[1].1, ["trade: 5 buy series 1, 5 at 90, maker 2"]);
}

#[test]
fn explained_lines_are_those_of_the_whole_text() {
    let list = generate(Profile::Mixed, 3, 200).concat();
    let mut explainer = Explainer::default();
    let pieces = split(&list);
    let told = pieces
        .iter()
        .map(|piece| explainer.explain(piece).unwrap().to_string());
    assert_eq!(told.collect::<String>(), explain(&list).unwrap());
    assert_ne!(*explainer.venue(), Venue::fresh());
}
