//! Each kind of unsoundness is found, by the reference and by the check
//! written apart from it; and what is sound stays sound.

use crate::common::{one_after, venue_after, with_legging};
use reference::{is_sound, Edition, Legging, Venue};
use sessions::sound::fault;

/// Regular orders in series 0 to 2, a complex order with two legging orders,
/// and a second complex order without any.
fn opened() -> Venue {
    venue_after(&with_legging(
        "open 2\nopen 3\ncomplex 4 buy 2 buy 3 class 0 net 9 quantity 5\n\
         order 6 buy 4 series 2 at 50\n",
    ))
}

#[test]
fn venues_of_sessions_are_sound() {
    for venue in [Venue::fresh(), venue_after(&with_legging("")), opened()] {
        assert!(is_sound(&venue));
        assert_eq!(fault(&venue), None);
    }
}

type Change = (&'static str, fn(&mut Venue));

const REGULAR: &[Change] = &[
    ("id 0 in a held place", |v| v.regular[0].id = 0),
    ("id above the last", |v| v.regular[2].id = 7),
    ("ids fall", |v| v.regular.swap(0, 1)),
    ("one id twice", |v| v.regular[1].id = 1),
    ("series 8", |v| v.regular[2].series = 8),
    ("side 2", |v| v.regular[2].side = 2),
    ("price 0", |v| v.regular[2].price = 0),
    ("price above 100,000", |v| v.regular[0].price = 100_005),
    ("price off the increment", |v| v.regular[2].price = 51),
    ("price off the increment of 10", |v| {
        v.regular[2].series = 6;
        v.regular[2].price = 55;
    }),
    ("quantity 0", |v| v.regular[2].quantity = 0),
    ("quantity above 10,000", |v| v.regular[2].quantity = 10_001),
    ("a gap", |v| v.regular.swap(2, 3)),
    ("a free place with an id", |v| v.regular[100].id = 5),
    ("a free place with a series", |v| v.regular[127].series = 1),
    ("a free place with a side", |v| v.regular[127].side = 1),
    ("a free place with a price", |v| v.regular[5].price = 5),
];

const COMPLEX: &[Change] = &[
    ("id 0 in a held place", |v| v.complex[0].id = 0),
    ("id above the last", |v| v.complex[1].id = 7),
    ("id of a regular order", |v| v.complex[1].id = 6),
    ("ids fall", |v| v.complex.swap(0, 1)),
    ("series 8", |v| v.complex[1].series1 = 8),
    ("second series 8", |v| v.complex[1].series2 = 8),
    ("side 2", |v| v.complex[1].side1 = 2),
    ("second side 2", |v| v.complex[1].side2 = 2),
    ("both legs in one series", |v| v.complex[1].series2 = 2),
    ("class 2", |v| v.complex[1].class = 2),
    ("limit above 200,000", |v| v.complex[1].limit = 200_001),
    ("limit below -200,000", |v| v.complex[1].limit = -200_001),
    ("limit at the end of its width", |v| {
        v.complex[1].limit = i32::MIN
    }),
    ("quantity 0", |v| v.complex[1].quantity = 0),
    ("quantity above 10,000", |v| v.complex[1].quantity = 10_001),
    ("a gap", |v| v.complex.swap(1, 2)),
    ("a free place with a limit", |v| v.complex[31].limit = 1),
    ("a free place with a class", |v| v.complex[31].class = 1),
];

const SERIES: &[Change] = &[
    ("status 3", |v| v.series[7].status = 3),
    ("bid above 100,000", |v| v.series[7].bid = 100_001),
    ("offer above 100,000", |v| v.series[7].offer = 100_001),
    ("last id below a resting id", |v| v.last = 5),
];

const LEGGING: &[Change] = &[
    ("parent that does not rest", |v| v.legging[0].parent = 5),
    ("parent that is a regular order", |v| {
        v.legging[0].parent = 1
    }),
    ("parent without that leg", |v| v.legging[0].parent = 4),
    ("side of no leg of its parent", |v| v.legging.swap(0, 1)),
    ("price 0", |v| v.legging[0].price = 0),
    ("price above 100,000", |v| v.legging[0].price = 100_001),
    ("quantity 0", |v| v.legging[0].quantity = 0),
    ("free place with a parent", |v| v.legging[9].parent = 3),
    ("free place with a price", |v| v.legging[9].price = 5),
    ("larger than its parent", |v| v.legging[2].quantity = 9),
    ("larger than its parent left", |v| v.complex[0].quantity = 7),
    ("net above the limit", |v| v.legging[0].price = 116),
    ("limit below the net", |v| v.complex[0].limit = 204),
    ("size below the quantity", |v| v.regular[1].quantity = 7),
    ("out of band", |v| v.series[0].offer = 60),
    ("a series in auction", |v| v.series[1].status = 2),
    ("a series closed", |v| v.series[0].status = 0),
    ("worse than the book", |v| {
        v.regular[2].series = 0;
        v.regular[2].price = 120;
    }),
    ("locked with a regular order", |v| v.regular[0].price = 115),
];

/// An increment of series 6 by message 6, and the percentages of messages 7 and 9.
fn dated() -> Venue {
    venue_after(&with_legging(
        "percent 9 2\npercent 5 4\nsweep\npercent 50 8\nclose 6\nincrement 6 1 9\n",
    ))
}

const EDITIONS: &[Change] = &[
    ("edition 0", |v| v.editions[0].edition = 0),
    ("edition 0 in the middle", |v| v.editions[1].edition = 0),
    ("number 0", |v| v.editions[0].number = 0),
    ("the last number 0", |v| v.editions[3].number = 0),
    ("an edition twice", |v| v.editions[1].edition = 2),
    ("an edition that falls", |v| v.editions[3].edition = 7),
    ("a number twice", |v| v.editions[1].number = 6),
    ("a number that falls", |v| v.editions[3].number = 8),
    ("two exchanged", |v| v.editions.swap(1, 2)),
    ("a gap", |v| v.editions.swap(3, 4)),
    ("figure 9", |v| v.editions[0].figure = 9),
    ("percentage 51", |v| v.editions[1].value = 51),
    ("increment 0", |v| v.editions[3].value = 0),
    ("increment 2", |v| v.editions[3].value = 2),
    ("increment 50", |v| v.editions[2].figure = 6),
    ("percentage in place of an increment", |v| {
        v.editions[0].figure = 0
    }),
    ("a free place with an edition", |v| {
        v.editions[4].edition = 10
    }),
    ("a free place with a number", |v| v.editions[31].number = 99),
    ("a free place with a figure", |v| v.editions[31].figure = 1),
    ("a free place with a value", |v| v.editions[4].value = 5),
    ("a resting price off the increment in force", |v| {
        v.editions[3].figure = 0;
        v.editions[3].value = 10;
        v.regular[0].price = 135;
    }),
    ("a legging order out of the band in force", |v| {
        v.editions[2].value = 0;
        v.complex[0].limit = 221;
    }),
];

/// An order that shows 3 of 8, one that shows all of 5, and one of which 2 are left.
fn with_reserve() -> Venue {
    venue_after(
        "order 1 sell 8 series 0 at 130 shows 3\norder 2 sell 5 series 1 at 90\n\
         order 3 buy 6 series 2 at 50 shows 4\norder 4 sell 4 series 2 at 50\n",
    )
}

const RESERVE: &[Change] = &[
    ("display 0", |v| v.regular[0].display = 0),
    ("display 0, all in reserve", |v| {
        (v.regular[0].reserve, v.regular[0].display) = (8, 0)
    }),
    ("display above what is left", |v| v.regular[0].display = 9),
    ("display above what is left, reserve below 0", |v| {
        (v.regular[0].reserve, v.regular[0].display) = (u32::MAX, 9)
    }),
    ("display as entered, with less left", |v| {
        v.regular[2].display = 4
    }),
    ("shows less than its display", |v| v.regular[0].reserve = 6),
    ("shows more than its display", |v| v.regular[0].reserve = 4),
    ("no reserve", |v| v.regular[0].reserve = 0),
    ("reserve of an order that shows all", |v| {
        v.regular[1].reserve = 1
    }),
    ("reserve above what is left", |v| v.regular[0].reserve = 9),
    ("more is left", |v| v.regular[0].quantity = 9),
    ("less is left", |v| v.regular[0].quantity = 7),
    ("a free place with reserve", |v| v.regular[3].reserve = 1),
    ("a free place with display", |v| v.regular[127].display = 1),
    ("legging order larger than what is shown", |v| {
        *v = venue_after(&with_legging(""));
        (v.regular[1].reserve, v.regular[1].display) = (5, 7);
    }),
];

/// A complex order with two legging orders, then one of ratios 3 and 2 and one of kind 2.
fn with_ratios() -> Venue {
    venue_after(&with_legging(
        "complex 4 buy 2 buy 3 class 0 net 600000 quantity 5 ratio 3 2\n\
         complex 5 buy 2 buy 3 class 0 net 9 quantity 5\n",
    ))
}

fn set_ratios(venue: &mut Venue, at: usize, ratio1: u8, ratio2: u8) {
    (venue.complex[at].ratio1, venue.complex[at].ratio2) = (ratio1, ratio2);
}

const RATIOS: &[Change] = &[
    ("ratio 0", |v| v.complex[1].ratio1 = 0),
    ("second ratio 0", |v| v.complex[1].ratio2 = 0),
    ("no ratios", |v| set_ratios(v, 2, 0, 0)),
    ("ratio 4", |v| v.complex[1].ratio1 = 4),
    ("second ratio 4", |v| v.complex[1].ratio2 = 4),
    ("ratios 2 and 2", |v| set_ratios(v, 2, 2, 2)),
    ("ratios 3 and 3", |v| set_ratios(v, 2, 3, 3)),
    ("ratios 255 and 255", |v| set_ratios(v, 2, 255, 255)),
    ("ratios 1 and 1 with the limit of kind 10", |v| {
        set_ratios(v, 1, 1, 1)
    }),
    ("limit above 600,000", |v| v.complex[1].limit = 600_001),
    ("limit below -600,000", |v| v.complex[1].limit = -600_001),
    ("limit of kind 10 in kind 2", |v| {
        v.complex[2].limit = 200_001
    }),
    ("quantity above 10,000 units", |v| {
        v.complex[1].quantity = 10_001
    }),
    ("a free place with a ratio", |v| v.complex[3].ratio1 = 1),
    ("a free place with a second ratio", |v| {
        v.complex[31].ratio2 = 1
    }),
    ("a free place of ratios 1 and 1", |v| {
        set_ratios(v, 31, 1, 1)
    }),
    ("a parent of unequal ratios", |v| set_ratios(v, 0, 2, 1)),
    ("a legging order of unequal ratios", |v| {
        v.series[2].offer = 300;
        v.series[3].offer = 300;
        v.legging[4] = Legging {
            parent: 4,
            price: 5,
            quantity: 1,
        };
    }),
];

/// Generations of series 0 and 1 by messages 5 and 6, the last of 5 looked at.
fn with_traffic() -> Venue {
    let higher = "complex 5 buy 0 buy 1 class 1 net 206 quantity 8\nlimited 2\n";
    venue_after(&with_legging(higher))
}

const TRAFFIC: &[Change] = &[
    ("the last generation 0", |v| v.generations[0][19] = 0),
    ("a generation that falls", |v| v.generations[0][19] = 4),
    ("an earlier generation above", |v| v.generations[1][18] = 7),
    ("a generation before none", |v| v.generations[0][17] = 6),
    ("two exchanged", |v| v.generations[1].swap(18, 19)),
    ("the oldest alone", |v| v.generations[7][0] = 1),
    ("a gap", |v| v.generations[0][16] = 1),
    ("one before the last of none", |v| v.generations[5][18] = 9),
    ("an id reached above the last", |v| v.reached = 6),
    ("an id reached at the end of its width", |v| {
        v.reached = u32::MAX
    }),
];

fn expect_unsound(changes: &[Change]) {
    expect_unsound_upon(opened(), changes);
}

fn expect_unsound_upon(sound: Venue, changes: &[Change]) {
    assert!(is_sound(&sound));
    for (name, change) in changes {
        let mut venue = sound.clone();
        change(&mut venue);
        assert!(!is_sound(&venue), "the reference takes {name}");
        assert!(fault(&venue).is_some(), "the check takes {name}");
        let (returned, lines) = one_after(&venue, u32::MAX - 1, &[4, 0, 6, 0]);
        assert_eq!((returned.number, returned.done), (9, 0), "{name}");
        assert_eq!((returned.venue, lines), (venue, String::new()), "{name}");
    }
}

#[test]
fn each_fault_of_a_regular_order_is_unsound() {
    expect_unsound(REGULAR);
}

#[test]
fn each_fault_of_a_complex_order_is_unsound() {
    expect_unsound(COMPLEX);
}

#[test]
fn each_fault_of_a_series_or_of_the_last_id_is_unsound() {
    expect_unsound(SERIES);
}

#[test]
fn each_fault_of_a_legging_order_is_unsound() {
    expect_unsound(LEGGING);
}

#[test]
fn each_fault_of_the_row_of_editions_is_unsound() {
    expect_unsound_upon(dated(), EDITIONS);
}

#[test]
fn each_fault_of_what_an_order_shows_is_unsound() {
    expect_unsound_upon(with_reserve(), RESERVE);
}

#[test]
fn each_fault_of_ratios_is_unsound() {
    expect_unsound_upon(with_ratios(), RATIOS);
}

#[test]
fn each_fault_of_generations_or_of_the_id_reached_is_unsound() {
    expect_unsound_upon(with_traffic(), TRAFFIC);
}

#[test]
fn equal_generations_any_distance_and_an_id_that_left_are_sound() {
    let changes: [fn(&mut Venue); 6] = [
        |v| v.generations[0] = [1; 20],
        |v| v.generations[0] = [u32::MAX; 20],
        |v| v.generations[7][19] = u32::MAX,
        |v| (v.generations[0][18], v.generations[0][19]) = (6, 6),
        |v| v.reached = 4,
        |v| v.reached = 0,
    ];
    for change in changes {
        let mut venue = with_traffic();
        change(&mut venue);
        assert!(is_sound(&venue));
        assert_eq!(fault(&venue), None);
    }
}

#[test]
fn all_unequal_ratios_of_1_to_3_are_sound_with_either_end_of_the_limit() {
    for (ratio1, ratio2) in [(1, 2), (2, 1), (1, 3), (3, 1), (2, 3), (3, 2)] {
        for limit in [-600_000, -200_001, 0, 200_001, 600_000] {
            let mut venue = with_ratios();
            set_ratios(&mut venue, 1, ratio1, ratio2);
            venue.complex[1].limit = limit;
            assert!(is_sound(&venue));
            assert_eq!(fault(&venue), None);
        }
    }
}

#[test]
fn any_part_of_an_order_may_be_shown() {
    for display in 1..=8 {
        let mut venue = with_reserve();
        (venue.regular[0].reserve, venue.regular[0].display) = (8 - display, display);
        assert!(is_sound(&venue));
        assert_eq!(fault(&venue), None);
    }
    let mut venue = venue_after(&with_legging(""));
    (venue.regular[1].reserve, venue.regular[1].display) = (4, 8);
    assert!(is_sound(&venue));
}

#[test]
fn row_of_32_editions_is_sound_and_so_is_any_distance_between_them() {
    let mut venue = dated();
    for (at, entry) in venue.editions.iter_mut().enumerate().skip(4) {
        *entry = Edition {
            edition: 100_000_000 * at as u32,
            number: 130_000_000 * at as u32,
            figure: (at % 9) as u8,
            value: 5,
        };
    }
    venue.editions[31].number = u32::MAX;
    venue.editions[31].edition = u32::MAX;
    assert!(is_sound(&venue));
    assert_eq!(fault(&venue), None);
}

#[test]
fn locked_or_crossed_regular_orders_are_unsound() {
    for price in [50, 45] {
        let mut venue = opened();
        venue.regular[0].series = 2;
        venue.regular[0].price = price;
        venue.legging = Default::default();
        assert!(!is_sound(&venue));
        assert_eq!(
            fault(&venue),
            Some("series 2 is locked or crossed".to_string())
        );
        venue.regular[0].price = 55;
        assert!(is_sound(&venue));
        assert_eq!(fault(&venue), None);
    }
}

const SOUND: &[Change] = &[
    ("a worse own price", |v| v.legging[0].price = 114),
    ("own price 1, shown at 0", |v| v.legging[0].price = 1),
    ("a smaller quantity", |v| v.legging[0].quantity = 1),
    ("no legging orders", |v| v.legging = Default::default()),
    ("a legging order that reaches an away price", |v| {
        v.series[0].offer = 106
    }),
    ("crossed away prices off the increment", |v| {
        v.series[5].bid = 77;
        v.series[5].offer = 33;
    }),
    ("a higher last id", |v| v.last = u32::MAX),
    ("resting orders in a closed series", |v| {
        v.series[2].status = 0
    }),
];

#[test]
fn what_the_document_allows_is_sound() {
    for (name, change) in SOUND {
        let mut venue = opened();
        change(&mut venue);
        assert!(is_sound(&venue), "the reference refuses {name}");
        assert_eq!(fault(&venue), None, "{name}");
    }
}
