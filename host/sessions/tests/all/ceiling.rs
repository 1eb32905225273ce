//! The ceiling on legging traffic, and the limited sweep (request (m)).

use crate::common::{by_calls, bytes, last_lines, sheet, venue_after, with_legging, with_offers};
use reference::{one_message, Venue};
use sessions::lent::Lent;
use sessions::record::{print_sheet, read_report};
use sessions::sheet::run_whole;

/// Orders that generate in series 0 and 1, each cancelled before the next: so many of each
/// series, by messages 5, 7, 9 and so on.
fn traffic(count: usize) -> String {
    let make = |id| format!("complex {id} buy 0 buy 1 class 1 net 205 quantity 8\n");
    let made = (3..3 + count).map(|id| format!("{}cancel {id}\n", make(id)));
    with_offers(&made.collect::<String>())
}

/// The session, then so many messages in all, the last of them this one; those between are
/// refused.
fn at_message(number: usize, text: &str, last: &str) -> Vec<String> {
    let refused = number - 1 - text.lines().count();
    last_lines(&format!(
        "{text}{}{last}\n",
        "cancel 9999\n".repeat(refused)
    ))
}

fn lines<const N: usize>(lines: [&str; N]) -> Vec<String> {
    lines.map(str::to_string).to_vec()
}

const NEXT: &str = "complex 100 buy 0 buy 1 class 1 net 205 quantity 8";

#[test]
fn the_20th_of_a_series_in_256_messages_is_generated_and_the_21st_is_not() {
    let made = ["67 100 0 0 115 115 8", "67 100 1 0 75 75 8"];
    let at_43 = lines(["64 43 0 5 2", made[0], made[1]]);
    assert_eq!(at_message(43, &traffic(19), NEXT), at_43);
    assert_eq!(at_message(45, &traffic(20), NEXT), ["64 45 0 0 0"]);
    // The oldest is of message 5: refused messages count among the 256.
    assert_eq!(at_message(260, &traffic(20), NEXT), ["64 260 0 0 0"]);
    let at_261 = lines(["64 261 0 5 2", made[0], made[1]]);
    assert_eq!(at_message(261, &traffic(20), NEXT), at_261);
    // The next oldest is of message 7: order 101 has to wait for message 263.
    let refused = "raw 04 00 63 00\n".repeat(215);
    let better = NEXT.replace("100", "101").replace("205", "206");
    let text = format!("{}{NEXT}\n{refused}sweep\n{better}\nsweep\n", traffic(20));
    let tail = "64 261 0 5 2\n67 100 0 0 115 115 8\n67 100 1 0 75 75 8\n64 262 0 5 2\n\
        64 263 0 5 2\n68 100 0 0 7\n67 101 0 0 116 115 8\n68 100 1 0 7\n67 101 1 0 76 75 8\n";
    assert!(sheet(&text).ends_with(tail), "{}", sheet(&text));
}

#[test]
fn each_series_has_a_ceiling_of_its_own() {
    // Series 0 is at its ceiling, series 2 is not.
    let text = format!("{}order 900 sell 9 series 2 at 50\n", traffic(20));
    let last = "complex 901 buy 2 buy 0 class 1 net 170 quantity 8";
    let lines = last_lines(&format!("{text}{last}\n"));
    assert_eq!(lines, ["64 46 0 16 1", "67 901 2 0 40 40 8"]);
    // The other leg would be 120 in series 0.
    let early = format!("{}order 900 sell 9 series 2 at 50\n{last}\n", traffic(1));
    let both = ["64 8 0 17 2", "67 901 2 0 40 40 8", "67 901 0 0 120 120 8"];
    assert_eq!(last_lines(&early), both);
}

#[test]
fn a_replacement_counts_and_at_the_ceiling_the_holder_stays() {
    // Each bids one more than the last and takes its places.
    let make = |id| {
        format!(
            "complex {id} buy 0 buy 1 class 1 net {} quantity 8\n",
            170 + id
        )
    };
    let all: String = (3..23).map(make).collect();
    let text = with_offers(&all);
    let twentieth = ["64 24 0 5 2", "68 21 0 0 7", "67 22 0 0 102 100 8"];
    assert_eq!(last_lines(&text)[..3], twentieth);
    let venue = venue_after(&text);
    let by: Vec<u32> = (5..25).collect();
    assert_eq!(venue.generations[0].to_vec(), by);
    assert_eq!(venue.generations[1].to_vec(), by);
    // A better price, and an equal one of a customer.
    for last in [
        make(23),
        make(22)
            .replace("22 buy", "23 buy")
            .replace("class 1", "class 0"),
    ] {
        assert_eq!(last_lines(&format!("{text}{last}")), ["64 25 0 5 2"]);
        let after = venue_after(&format!("{text}{last}"));
        assert_eq!(after.legging, venue.legging);
        assert_eq!(after.generations, venue.generations);
    }
}

#[test]
fn one_message_can_reach_the_ceiling_alone() {
    // 24 orders, each bidding one more than the last, generate in one sweep.
    let make = |id| {
        format!(
            "complex {id} buy 0 buy 1 class 1 net {} quantity 8\n",
            170 + id
        )
    };
    let all: String = (3..27).map(make).collect();
    let offers = "order 30 sell 15 series 0 at 130\norder 31 sell 12 series 1 at 90\n";
    let text = format!("{all}{offers}sweep\n");
    let made = |series: &str| {
        let of = |line: &&String| line.starts_with("67") && line.split(' ').nth(2) == Some(series);
        last_lines(&text).iter().filter(of).count()
    };
    assert_eq!((made("0"), made("1")), (20, 20));
    let venue = venue_after(&text);
    assert_eq!(venue.generations[0], [27; 20]);
    assert_eq!(venue.generations[2], [0; 20]);
    assert_eq!(venue.legging[0].parent, 22);
}

#[test]
fn the_last_20_are_kept_however_old() {
    let venue = venue_after(&format!("{}{}", traffic(3), "sweep\n".repeat(600)));
    let mut expected = [0; 20];
    expected[17..].copy_from_slice(&[5, 7, 9]);
    assert_eq!(venue.generations[0], expected);
    assert_eq!(venue.generations[1], expected);
    assert_eq!(venue.generations[2..], [[0; 20]; 6]);
}

#[test]
fn one_message_call_whose_number_is_not_above_a_generations_is_9() {
    let venue = venue_after(&with_legging(""));
    let mut lent = Lent::new();
    for message in [&bytes("sweep")[..], &[9, 0, 6], &[], &bytes("limited 1")] {
        for before in 0..8 {
            let returned = one_message(&venue, before, message, lent.lend(64));
            assert_eq!(returned.number == 9, before < 5, "{before}");
            if before < 5 {
                assert_eq!((returned.done, returned.venue), (0, venue.clone()));
                lent.written(0).unwrap();
            }
        }
        let returned = one_message(&venue, u32::MAX, message, lent.lend(64));
        assert_eq!((returned.number, returned.venue), (10, venue.clone()));
    }
}

#[test]
fn the_ceiling_holds_up_to_the_last_message_number() {
    let mut venue = venue_after(&with_offers(NEXT));
    venue.legging = Default::default();
    let mut lent = Lent::new();
    let mut generated = |venue: &Venue, before| {
        let returned = one_message(venue, before, &bytes("sweep"), lent.lend(256));
        let records = read_report(lent.written(returned.written).unwrap()).unwrap();
        print_sheet(&records).matches("67 ").count()
    };
    let last = u32::MAX - 1;
    for (oldest, count) in [(last - 254, 0), (last - 255, 2), (last, 0), (1, 2)] {
        for series in [0, 1] {
            venue.generations[series] = [last; 20];
            venue.generations[series][0] = oldest;
        }
        assert_eq!(generated(&venue, last), count, "{oldest}");
    }
    venue.generations[1][0] = 0;
    venue.generations[0][0] = last;
    assert_eq!(generated(&venue, last), 1);
}

#[test]
fn limited_sweeps_are_of_1_to_32_orders_and_5_bytes() {
    for (text, answer) in [
        ("limited 1", "64 1 0 0 0\n72 0\n"),
        ("limited 32", "64 1 0 0 0\n72 0\n"),
        ("limited 0", "64 1 4 0 0\n"),
        ("limited 33", "64 1 4 0 0\n"),
        ("limited 255", "64 1 4 0 0\n"),
        ("raw 04 00 0b 00", "64 1 3 0 0\n"),
        ("raw 06 00 0b 00 01 00", "64 1 3 0 0\n"),
        ("raw 05 00 0b 01 01", "64 1 2 0 0\n"),
        ("raw 05 00 0c 00 01", "64 1 2 0 0\n"),
    ] {
        assert_eq!(sheet(text), answer, "{text}");
    }
}

#[test]
fn the_next_limited_sweep_goes_on_after_the_last_one() {
    let text = "complex 1 buy 0 buy 1 class 1 net 205 quantity 8\n\
        complex 2 buy 0 buy 1 class 1 net 206 quantity 8\n\
        order 3 sell 15 series 0 at 130\norder 4 sell 12 series 1 at 90\nlimited 1\n";
    let first = [
        "64 5 0 5 2",
        "72 1",
        "67 1 0 0 115 115 8",
        "67 1 1 0 75 75 8",
    ];
    assert_eq!(last_lines(text), first);
    let second = [
        "64 6 0 5 2",
        "72 1",
        "68 1 0 0 7",
        "67 2 0 0 116 115 8",
        "68 1 1 0 7",
        "67 2 1 0 76 75 8",
    ];
    assert_eq!(last_lines(&format!("{text}limited 1\n")), second);
    let reached = |rest: &str| venue_after(&format!("{text}{rest}")).reached;
    assert_eq!([reached(""), reached("limited 1\n")], [1, 2]);
    assert_eq!(reached("limited 1\nlimited 1\n"), 1);
    assert_eq!(reached("limited 2\n"), 1);
    assert_eq!(reached("limited 0\nsweep\nlimited 33\n"), 1);
}

#[test]
fn an_order_gone_by_its_turn_counts_as_looked_at() {
    let text = "complex 1 buy 0 buy 1 class 0 net 150 quantity 5\n\
        complex 2 sell 0 sell 1 class 0 net -150 quantity 5\n\
        away 0 bid 100 offer 101\naway 1 bid 50 offer 51\nlimited 2\n";
    assert_eq!(last_lines(text), ["64 5 0 0 0", "72 2", "70 1 2 150 5"]);
    assert_eq!(venue_after(text).reached, 2);
}

/// Orders 3, 5 and 9, which do nothing.
const IDLE: &str = "complex 3 buy 0 buy 1 class 1 net 5 quantity 1\n\
    complex 5 buy 2 buy 1 class 1 net 5 quantity 1\n\
    complex 9 buy 0 buy 3 class 1 net 5 quantity 1\n";

#[test]
fn limited_sweeps_go_round_by_id_past_orders_that_left_or_came() {
    for (rest, told, reached) in [
        ("limited 2\n", 2, 5),
        ("limited 2\nlimited 2\n", 2, 3),
        ("limited 32\n", 3, 9),
        ("limited 2\nlimited 3\n", 3, 5),
        // The last one looked at has left: on from the next higher id.
        ("limited 2\ncancel 5\nlimited 1\n", 1, 9),
        ("limited 2\ncancel 5\nlimited 2\n", 2, 3),
        ("limited 3\ncancel 9\nlimited 1\n", 1, 3),
        ("limited 3\ncancel 9\nlimited 9\n", 2, 5),
        // A new order has the highest id.
        (
            "limited 3\ncomplex 12 buy 0 buy 1 class 1 net 5 quantity 1\nlimited 1\n",
            1,
            12,
        ),
        (
            "limited 1\ncomplex 12 buy 0 buy 1 class 1 net 5 quantity 1\nlimited 4\n",
            4,
            3,
        ),
        // A closed series counts.
        ("close 2\nlimited 2\n", 2, 5),
        // With none at rest the id reached stays.
        ("limited 2\ncancel 3\ncancel 5\ncancel 9\nlimited 7\n", 0, 5),
        ("cancel 3\ncancel 5\ncancel 9\nlimited 7\n", 0, 0),
    ] {
        let text = format!("{IDLE}{rest}");
        assert_eq!(last_lines(&text)[1..], [format!("72 {told}")], "{rest}");
        assert_eq!(venue_after(&text).reached, reached, "{rest}");
    }
}

#[test]
fn generation_is_for_the_orders_looked_at_in_their_turn() {
    // Order 3 was looked at: 5 and 9 come next, and 3 after them.
    let text = "complex 3 buy 0 buy 1 class 1 net 205 quantity 8\n\
        complex 5 buy 2 buy 1 class 1 net 130 quantity 8\n\
        complex 9 buy 0 buy 1 class 1 net 204 quantity 8\nlimited 1\n\
        order 20 sell 15 series 0 at 130\norder 21 sell 12 series 1 at 90\n\
        order 22 sell 9 series 2 at 50\n";
    let last = last_lines(&format!("{text}limited 2\n"));
    let two = [
        "64 8 0 21 3",
        "72 2",
        "67 5 2 0 40 40 8",
        "67 5 1 0 80 80 8",
        "67 9 0 0 114 110 8",
    ];
    assert_eq!(last, two);
    let three = last_lines(&format!("{text}limited 3\n"));
    assert_eq!(three[2..5], two[2..]);
    assert_eq!(three[5..], ["68 9 0 0 7", "67 3 0 0 115 115 8"]);
}

#[test]
fn a_limited_sweep_of_all_from_the_first_is_a_sweep_with_a_72() {
    let text = with_offers(
        "complex 3 buy 0 buy 1 class 1 net 203 quantity 8\n\
         complex 4 buy 1 buy 0 class 0 net 204 quantity 8\nclose 0\nopen 0\n",
    );
    let (swept, limited) = (format!("{text}sweep\n"), format!("{text}limited 32\n"));
    let mut lines = last_lines(&limited);
    assert_eq!(lines.remove(1), "72 2");
    assert_eq!(lines, last_lines(&swept));
    let venue = Venue {
        reached: 4,
        ..venue_after(&swept)
    };
    assert_eq!(venue_after(&limited), venue);
}

#[test]
fn run_and_one_message_calls_keep_the_same_generations() {
    let text = format!("{}{NEXT}\nlimited 1\nlimited 8\nsweep\n", traffic(30));
    let list = bytes(&text);
    let (run, written) = run_whole(&list);
    let (number, venue, report) = by_calls(&list);
    assert_eq!((run.number, number), (0, 0));
    assert_eq!((run.venue, written), (venue, report));
}
