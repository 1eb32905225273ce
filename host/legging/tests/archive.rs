//! The wrapper over the archive: what its callers are promised.

use legging::c::{legging_arrive, legging_layer_fresh, legging_turn};
use legging::c::{legging_feed, legging_fresh, legging_message, legging_run, legging_settings};
use legging::{arrive, arrive_in, layer_fresh_in, turn, turn_in};
use legging::{feed, fresh_in, one_message, one_message_in, run, settings, settings_in};
use legging::{read_set_in, write_set, write_set_in};
use legging::{ComplexOrder, LayerBytes, Number, RegularOrder, Settings, VenueBytes};
use legging::{LAYER_BYTES, MOST_BYTES, SETTINGS_BYTES, SET_BYTES, VENUE_BYTES};
use reference::{Layer, Venue, MOST_SET};
use sessions::held::to_bytes;
use sessions::held_layer;
use sessions::line::{line_bytes, numbered};
use sessions::message::split;
use sessions::profile::Profile;
use sessions::record::{print_sheet, read_report};
use sessions::soak::generate;
use sessions::text::{encode_line, encode_session};

const SESSION: &str = include_str!("../../venue/tests/sessions/printed.txt");
const MAIN: &str = include_str!("../../venue/tests/sessions/printed-main.txt");
const SPARE: &str = include_str!("../../venue/tests/sessions/printed-spare.txt");

const SHEET: &str = "\
64 1 0 0 0
64 2 0 0 0
64 3 0 0 0
64 4 0 0 0
64 5 0 5 2
67 3 0 0 115 115 8
67 3 1 0 75 75 8
64 6 0 0 0
65 0 1 115 5 4 3
65 1 0 90 5 3 2
66 3 205 5
68 3 0 0 3
68 3 1 0 3
";

fn messages() -> Vec<u8> {
    encode_session(SESSION).expect("the stored session is good")
}

fn lines() -> [Vec<u8>; 2] {
    [MAIN, SPARE].map(|text| encode_line(text).expect("the stored line is good"))
}

fn sheet(report: &[u8]) -> String {
    print_sheet(&read_report(report).expect("whole records"))
}

#[test]
fn the_printed_session() {
    let mut report = [0xC3; 400];
    assert_eq!(run(&messages(), &mut report), Number::DONE);
    assert_eq!(sheet(&report), SHEET);
}

#[test]
fn a_run_ends_before_the_message_that_does_not_fit() {
    let mut report = [0xC3; 35];
    assert_eq!(run(&messages(), &mut report), Number::NO_ROOM);
    assert_eq!(sheet(&report), "64 1 0 0 0\n64 2 0 0 0\n");
    assert_eq!(report[24..], [0; 11]);
}

#[test]
fn a_torn_list_is_answered() {
    let mut report = [0xC3; 20];
    assert_eq!(run(&[9, 0, 6], &mut report), Number::TORN);
    assert_eq!(sheet(&report), "64 1 1 0 0\n");
}

#[test]
fn after_a_length_below_4_nothing_is_read() {
    let mut report = [0xC3; 36];
    let list = [4, 0, 6, 0, 3, 0, 6, 0, 4, 0, 6, 0];
    assert_eq!(run(&list, &mut report), Number::TORN);
    assert_eq!(sheet(&report), "64 1 0 0 0\n64 2 1 0 0\n");
    assert_eq!(report[24..], [0; 12]);
}

#[test]
fn empty_slices() {
    assert_eq!(run(&[], &mut []), Number::DONE);
    assert_eq!(run(&[4, 0, 6, 0], &mut []), Number::NO_ROOM);
    let mut report = [0xC3; 3];
    assert_eq!(run(&[], &mut report), Number::DONE);
    assert_eq!(report, [0; 3]);
}

#[test]
fn the_printed_session_over_two_lines() {
    let [main, spare] = lines();
    for length in 0..400 {
        let mut wanted = vec![0xC3; length];
        let number = run(&messages(), &mut wanted);
        let mut report = vec![0xC3; length];
        assert_eq!(feed(&main, &spare, &mut report), number, "{length}");
        assert_eq!(report, wanted);
    }
    let mut report = [0xC3; 400];
    assert_eq!(feed(&main, &spare, &mut report), Number::DONE);
    assert_eq!(sheet(&report), SHEET);
}

/// The number and the sheet of two lines of text.
fn fed(main: &str, spare: &str, length: usize) -> (Number, String) {
    let [main, spare] = [main, spare].map(|text| encode_line(text).expect("a good line"));
    let mut report = vec![0xC3; length];
    let number = feed(&main, &spare, &mut report);
    let records = sheet(&report);
    let written = 12 * records.lines().count();
    assert!(report[written..].iter().all(|byte| *byte == 0));
    (number, records)
}

#[test]
fn a_message_that_is_not_to_be_had_stops_the_lines() {
    let two = "64 1 0 0 0\n64 2 0 0 0\n".to_string();
    let main = "1 sweep\n2 sweep\n3 sweep\n";
    for length in [24, 35, 36, 100] {
        let differs = fed(main, "3 cancel 1\n4 sweep\n", length);
        assert_eq!(differs, (Number::DIFFERS, two.clone()));
        let lost = fed("1 sweep\n4 sweep\n", "2 sweep\n", length);
        assert_eq!(lost, (Number::LOST, two.clone()));
    }
    let one = "64 1 0 0 0\n".to_string();
    assert_eq!(fed(main, "3 cancel 1\n", 23), (Number::NO_ROOM, one));
}

#[test]
fn a_bad_line_leaves_a_report_of_zeros() {
    let good = "1 sweep\n2 sweep\n";
    for bad in [
        "raw 03 00",
        "3 raw 03 00 06 00",
        "3 raw 05 00 06 00",
        "0 sweep",
        "1 sweep",
        "raw 00 00 00 00 00 00 00 00",
    ] {
        let line = format!("1 sweep\n{bad}\n");
        for length in [0, 11, 100] {
            let stopped = (Number::BAD_LINE, String::new());
            assert_eq!(fed(&line, good, length), stopped, "{bad}");
            assert_eq!(fed(good, &line, length), stopped, "{bad}");
        }
    }
}

#[test]
fn lines_may_be_empty_and_may_be_one_memory() {
    assert_eq!(feed(&[], &[], &mut []), Number::DONE);
    let mut report = [0xC3; 20];
    assert_eq!(feed(&[], &[], &mut report), Number::DONE);
    assert_eq!(report, [0; 20]);
    let line = encode_line("1 sweep\n").expect("a good line");
    for [main, spare] in [[&line[..], &[]], [&[], &line], [&line, &line]] {
        assert_eq!(feed(main, spare, &mut report), Number::DONE);
        assert_eq!(sheet(&report), "64 1 0 0 0\n");
    }
}

#[test]
fn the_fresh_venue_is_written_whole() {
    let mut venue = [0x77; VENUE_BYTES];
    assert_eq!(fresh_in(&mut venue), Number::DONE);
    assert_eq!(venue, to_bytes(&Venue::fresh()));
    assert_eq!(VenueBytes::fresh().as_bytes(), &venue);
}

#[test]
fn memory_of_another_length_gets_no_fresh_venue() {
    for length in [0, 1, VENUE_BYTES - 1, VENUE_BYTES + 1] {
        let mut venue = vec![0x77; length];
        assert_eq!(fresh_in(&mut venue), Number::UNSOUND);
        assert_eq!(venue, vec![0x77; length]);
    }
}

/// Each message of a text upon the venue: the numbers.
fn numbers(venue: &mut VenueBytes, text: &str) -> Vec<u8> {
    let messages = encode_session(text).expect("a good session");
    let mut report = [0xC3; MOST_BYTES];
    let mut call = |message| one_message(venue, 0, message, &mut report).get();
    split(&messages).into_iter().map(&mut call).collect()
}

#[test]
fn zeros_are_a_venue_with_all_series_closed() {
    let order = "order 1 sell 5 series 3 at 100\n";
    let mut zeros = VenueBytes::from_bytes([0; VENUE_BYTES]);
    assert_eq!(numbers(&mut zeros, order), [6]);
    assert_eq!(numbers(&mut zeros, "open 3\n"), [0]);
    assert_eq!(numbers(&mut zeros, order), [0]);
    let mut fresh = VenueBytes::fresh();
    assert_eq!(numbers(&mut fresh, order), [0]);
}

#[test]
fn eight_closing_messages_leave_zeros() {
    let mut venue = VenueBytes::fresh();
    let closes: String = (0..8).map(|series| format!("close {series}\n")).collect();
    assert_eq!(numbers(&mut venue, &closes), [0; 8]);
    assert_eq!(venue.as_bytes(), &[0; VENUE_BYTES]);
}

#[test]
fn the_printed_session_message_by_message() {
    let mut venue = VenueBytes::fresh();
    let mut told = String::new();
    for (message, before) in split(&messages()).into_iter().zip(0..) {
        let mut report = [0xC3; MOST_BYTES];
        let number = one_message(&mut venue, before, message, &mut report);
        assert_eq!(number, Number::DONE);
        told += &sheet(&report);
    }
    assert_eq!(told, SHEET);
    assert_eq!(venue.last_id(), 4);
}

#[test]
fn a_message_that_was_not_accepted_leaves_the_venue() {
    let fresh = VenueBytes::fresh();
    let mut venue = fresh.clone();
    let mut report = [0xC3; 20];
    let sweep = [4, 0, 6, 0];
    let number = one_message(&mut venue, u32::MAX, &sweep, &mut report);
    assert_eq!((number, &venue, report), (Number::NO_ROOM, &fresh, [0; 20]));
    let mut short = [0xC3; 11];
    let number = one_message(&mut venue, 0, &sweep, &mut short);
    assert_eq!((number, &venue, short), (Number::NO_ROOM, &fresh, [0; 11]));
    let number = one_message(&mut venue, 0, &[8, 0, 3, 0, 9, 0, 0, 0], &mut report);
    assert_eq!((number, &venue), (Number::NO_SUCH_ORDER, &fresh));
    assert_eq!(sheet(&report), "64 1 8 0 0\n");
    let number = one_message(&mut venue, 0, &[], &mut report);
    assert_eq!((number, &venue), (Number::TORN, &fresh));
}

#[test]
fn an_unsound_venue_is_left_as_given() {
    let mut bytes = [0; VENUE_BYTES];
    bytes[0] = 1; // an id in a free place
    let unsound = VenueBytes::from_bytes(bytes);
    let mut venue = unsound.clone();
    let mut report = [0xC3; 20];
    let number = one_message(&mut venue, 0, &[4, 0, 6, 0], &mut report);
    assert_eq!(number, Number::UNSOUND);
    assert_eq!((venue, report), (unsound, [0; 20]));
}

#[test]
fn venue_memory_of_another_length_is_unsound() {
    for length in [0, 1, VENUE_BYTES - 1, VENUE_BYTES + 1] {
        let mut venue = vec![0x77; length];
        let mut report = [0xC3; 20];
        let number = one_message_in(&mut venue, 0, &[4, 0, 6, 0], &mut report);
        assert_eq!((number, report), (Number::UNSOUND, [0; 20]));
        assert_eq!(venue, vec![0x77; length]);
    }
}

/// The venue that messages leave, all of them accepted.
fn venue_after(text: &str) -> VenueBytes {
    let messages = encode_session(text).expect("a good session");
    let mut venue = VenueBytes::fresh();
    for (message, before) in split(&messages).into_iter().zip(0..) {
        let number = one_message(&mut venue, before, message, &mut [0; 256]);
        assert_eq!(number, Number::DONE);
    }
    venue
}

/// One that shows 4 of 5 left, one that shows all, one that shows 3 of 8.
const RESTING: &str = "order 1 buy 9 series 0 at 115 shows 4\norder 2 buy 3 series 0 at 115\n\
    order 3 sell 5 series 0 at 115\norder 5 sell 8 series 6 at 200 shows 3\n";

#[test]
fn orders_that_rest_are_told_with_what_they_show() {
    let venue = venue_after(RESTING);
    let order = |id, (series, side, price), quantity, shown| RegularOrder {
        id,
        series,
        side,
        price,
        quantity,
        shown,
    };
    let expected = [
        order(1, (0, 0, 115), 5, 4),
        order(2, (0, 0, 115), 2, 2),
        order(5, (6, 1, 200), 8, 3),
    ];
    assert_eq!(venue.regular_orders().collect::<Vec<_>>(), expected);
    assert_eq!(VenueBytes::fresh().regular_orders().count(), 0);
    let bytes = venue.as_bytes();
    assert_eq!(bytes[2_924..2_932], [1, 0, 0, 0, 4, 0, 0, 0]);
    assert_eq!(bytes[2_940..2_948], [5, 0, 0, 0, 3, 0, 0, 0]);
    assert_eq!(bytes[2_948..], [0; 1_708]);
}

#[test]
fn an_order_that_shows_otherwise_is_unsound() {
    let venue = venue_after(RESTING);
    for (at, byte) in [(2_924, 0), (2_924, 2), (2_928, 0), (2_928, 6), (2_948, 1)] {
        let mut bytes = *venue.as_bytes();
        bytes[at] = byte;
        expect_unsound(bytes, at);
    }
}

/// A sweep upon a venue of which this byte was changed.
fn expect_unsound(bytes: [u8; VENUE_BYTES], at: usize) {
    let mut given = VenueBytes::from_bytes(bytes);
    let mut report = [0xC3; 20];
    let number = one_message(&mut given, 9, &[4, 0, 6, 0], &mut report);
    assert_eq!((number, report), (Number::UNSOUND, [0; 20]), "byte {at}");
    assert_eq!(*given.as_bytes(), bytes);
}

#[test]
fn the_stored_sessions_of_reserve_ratios_and_limited_sweeps() {
    for text in [
        include_str!("../../venue/tests/sessions/shown.txt"),
        include_str!("../../venue/tests/sessions/units.txt"),
        include_str!("../../venue/tests/sessions/limited.txt"),
    ] {
        let messages = encode_session(text).expect("the stored session is good");
        let mut report = [0xC3; 4_096];
        assert_eq!(run(&messages, &mut report), Number::DONE);
        let mut wanted = [0; 4_096];
        reference::run(&messages, &mut wanted);
        assert_eq!(sheet(&report), sheet(&wanted));
    }
}

/// Two contracts of series 0 against one of series 1, of which a unit is paired; then an
/// order of one against one.
const UNITS: &str = "order 1 sell 3 series 0 at 130\norder 2 sell 12 series 1 at 90\n\
    complex 3 buy 0 buy 1 class 1 net 350 quantity 9 ratio 2 1\n\
    complex 4 sell 7 buy 1 class 0 net -5 quantity 2\n";

#[test]
fn complex_orders_that_rest_are_told_with_their_ratios() {
    let venue = venue_after(UNITS);
    let order = |id, (series, sides), ratios, (class, limit), quantity| ComplexOrder {
        id,
        series,
        sides,
        ratios,
        class,
        limit,
        quantity,
    };
    let expected = [
        order(3, ([0, 1], [0, 0]), [2, 1], (1, 350), 8),
        order(4, ([7, 1], [1, 0]), [1, 1], (0, -5), 2),
    ];
    assert_eq!(venue.complex_orders().collect::<Vec<_>>(), expected);
    assert_eq!(VenueBytes::fresh().complex_orders().count(), 0);
    let bytes = venue.as_bytes();
    assert_eq!(bytes[3_948..3_952], [2, 1, 1, 1]);
    assert_eq!(bytes[3_952..], [0; 704]);
}

#[test]
fn ratios_that_no_order_has_are_unsound() {
    let venue = venue_after(UNITS);
    // Equal, 0, above 3, and in a free place.
    for (at, byte) in [
        (3_948, 1),
        (3_949, 2),
        (3_948, 0),
        (3_949, 0),
        (3_948, 4),
        (3_949, 255),
        (3_951, 0),
        (3_952, 1),
        (4_011, 1),
    ] {
        let mut bytes = *venue.as_bytes();
        bytes[at] = byte;
        // With ratios 1 and 1 it would be an order of kind 2, but not with this limit.
        bytes[1_792 + 9..1_792 + 13].copy_from_slice(&200_001i32.to_le_bytes());
        expect_unsound(bytes, at);
    }
}

#[test]
fn equal_ratios_are_answered_with_14() {
    let text = "complex 3 buy 0 buy 1 class 1 net 350 quantity 9 ratio 2 2";
    let message = encode_session(text).expect("a good session");
    let mut venue = VenueBytes::fresh();
    let mut report = [0xC3; 20];
    let number = one_message(&mut venue, 0, &message, &mut report);
    assert_eq!(number, Number::EQUAL_RATIOS);
    assert!(number.is_done());
    assert_eq!(number.to_string(), "14: the two ratios are equal");
    assert_eq!(sheet(&report), "64 1 14 0 0\n");
    assert_eq!(venue, VenueBytes::fresh());
}

/// Two orders, a limited sweep that generates for the first of them, one that generates for
/// the second in its places.
const LIMITED: &str = "complex 1 buy 0 buy 1 class 1 net 205 quantity 8\n\
    complex 2 buy 0 buy 1 class 1 net 206 quantity 8\norder 3 sell 15 series 0 at 130\n\
    order 4 sell 12 series 1 at 90\nlimited 1\nlimited 1\n";

#[test]
fn generations_and_the_id_reached_are_told() {
    let venue = venue_after(LIMITED);
    let [first, second, others @ ..] = venue.generations();
    assert_eq!((first, second), (vec![5, 6], vec![5, 6]));
    assert_eq!((others, venue.reached()), (Default::default(), 2));
    assert_eq!(VenueBytes::fresh().reached(), 0);
    let bytes = venue.as_bytes();
    assert_eq!(bytes[4_012 + 18 * 4..4_012 + 80], [5, 0, 0, 0, 6, 0, 0, 0]);
    assert_eq!(bytes[4_092 + 18 * 4..4_092 + 80], [5, 0, 0, 0, 6, 0, 0, 0]);
    assert_eq!(bytes[4_172..], [&[0; 480][..], &[2, 0, 0, 0]].concat());
}

#[test]
fn generations_that_fall_and_an_id_reached_above_the_last_are_unsound() {
    let venue = venue_after(LIMITED);
    // The last 0 and 4, the one before it 7, the first of all, one alone; id 5.
    for (at, byte) in [
        (4_088, 0),
        (4_088, 4),
        (4_084, 7),
        (4_012, 1),
        (4_172, 1),
        (4_652, 5),
        (4_655, 1),
    ] {
        let mut bytes = *venue.as_bytes();
        bytes[at] = byte;
        expect_unsound(bytes, at);
    }
}

/// Series 6 by 1 from message 3, the percentage 50 from 5 and 0 from 6.
fn dated() -> VenueBytes {
    venue_after("sweep\nclose 6\nincrement 6 1 3\nopen 6\npercent 50 4\npercent 0 9\n")
}

#[test]
fn settings_are_told_at_any_message() {
    let venue = dated();
    for (number, increment, percent) in [
        (0, 10, 5),
        (2, 10, 5),
        (3, 1, 5),
        (5, 1, 50),
        (6, 1, 0),
        (u32::MAX, 1, 0),
    ] {
        let told = Settings {
            increments: [5, 5, 5, 5, 5, 5, increment, 10],
            percent,
        };
        assert_eq!(settings(&venue, number), Some(told), "message {number}");
    }
    assert_eq!(venue.last_id(), 0);
}

#[test]
fn settings_memory_of_every_length_is_written_whole() {
    let venue = dated();
    for length in 0..SETTINGS_BYTES + 4 {
        let mut told = vec![0xC3; length];
        let number = settings_in(venue.as_bytes(), 6, &mut told);
        let mut expected = vec![0; length];
        if length < SETTINGS_BYTES {
            assert_eq!(number, Number::UNSOUND, "{length}");
        } else {
            assert_eq!(number, Number::DONE, "{length}");
            expected[..9].copy_from_slice(&[5, 5, 5, 5, 5, 5, 1, 10, 0]);
        }
        assert_eq!(told, expected);
    }
}

#[test]
fn settings_of_what_is_no_sound_venue_are_zeros() {
    let mut bytes = *dated().as_bytes();
    bytes[VENUE_BYTES - 1] = 1; // an id looked at, above the last
    assert_eq!(settings(&VenueBytes::from_bytes(bytes), 6), None);
    for length in [0, 1, VENUE_BYTES - 1, VENUE_BYTES + 1] {
        let mut told = [0xC3; 12];
        let number = settings_in(&vec![0; length], 6, &mut told);
        assert_eq!((number, told), (Number::UNSOUND, [0; 12]), "{length}");
    }
}

#[test]
fn number_of_a_message_is_above_every_editions_and_generations() {
    // The last of both is of message 6.
    for kept in [dated(), venue_after(LIMITED)] {
        for (before, number) in [(0, 9), (5, 9), (6, 0), (u32::MAX - 1, 0), (u32::MAX, 10)] {
            let mut venue = kept.clone();
            let mut report = [0xC3; 20];
            let told = one_message(&mut venue, before, &[4, 0, 6, 0], &mut report);
            assert_eq!(told.get(), number, "{before} messages before");
            assert_eq!(venue, kept);
            assert_eq!(report == [0; 20], number != 0);
        }
    }
}

#[test]
fn settings_are_refused_with_11_12_and_13() {
    let mut text = String::from("percent 5 0\nincrement 0 1 1\n");
    for edition in 1..=33 {
        text += &format!("percent 5 {edition}\n");
    }
    let messages = encode_session(&text).expect("a good session");
    let mut venue = VenueBytes::fresh();
    let mut numbers = Vec::new();
    for (message, before) in split(&messages).into_iter().zip(0..) {
        numbers.push(one_message(&mut venue, before, message, &mut [0; 64]));
    }
    let [first, second, taken @ .., last] = &numbers[..] else {
        panic!("{numbers:?}");
    };
    let refused = [*first, *second, *last];
    let expected = [
        Number::EDITION_NOT_ABOVE,
        Number::SERIES_IN_USE,
        Number::EDITIONS_FULL,
    ];
    assert_eq!(refused, expected);
    assert!(refused.iter().all(|number| number.is_done()));
    assert_eq!(taken, [Number::DONE; 32]);
}

#[test]
fn the_fresh_layer_is_written_whole() {
    let mut layer = vec![0x77; LAYER_BYTES];
    assert_eq!(layer_fresh_in(&mut layer), Number::DONE);
    assert_eq!(layer, *held_layer::to_bytes(&Layer::fresh()));
    assert_eq!(LayerBytes::fresh().as_bytes()[..], layer);
    assert_eq!(
        LayerBytes::fresh().venues(),
        [(); 4].map(|()| VenueBytes::fresh())
    );
}

/// The number of a turn and the venue that it served, with the sheet.
fn turned(layer: &mut LayerBytes, length: usize) -> (Number, Option<usize>, String) {
    let mut report = vec![0xC3; length];
    let turned = turn(layer, &mut report);
    (turned.number(), turned.venue(), sheet(&report))
}

#[test]
fn four_venues_are_served_in_turn() {
    let mut layer = LayerBytes::fresh();
    for (venue, message) in [
        (3, &[4, 0, 6, 0][..]),
        (1, &[]),
        (1, &[8, 0, 3, 0, 9, 0, 0, 0]),
    ] {
        assert_eq!(arrive(&mut layer, venue, message), Number::DONE);
    }
    assert_eq!((layer.waiting(), layer.done()), ([0, 2, 0, 1], [0; 4]));
    let answer = |number, refusal| format!("64 {number} {refusal} 0 0\n");
    assert_eq!(
        turned(&mut layer, 12),
        (Number::TORN, Some(1), answer(1, 1))
    );
    assert_eq!(
        turned(&mut layer, 12),
        (Number::DONE, Some(3), answer(1, 0))
    );
    let cancel = (Number::NO_SUCH_ORDER, Some(1), answer(2, 8));
    assert_eq!(turned(&mut layer, 12), cancel);
    assert_eq!((layer.waiting(), layer.done()), ([0; 4], [0, 2, 0, 1]));
    assert_eq!(turned(&mut layer, 12), (Number::DONE, None, String::new()));
}

#[test]
fn an_arrival_that_is_refused_leaves_the_layer() {
    let mut layer = LayerBytes::fresh();
    for _ in 0..8 {
        assert_eq!(arrive(&mut layer, 2, &[7; 32]), Number::DONE);
    }
    let full = layer.clone();
    assert_eq!(arrive(&mut layer, 2, &[]), Number::NO_PLACE);
    assert_eq!(arrive(&mut layer, 0, &[7; 33]), Number::NO_PLACE);
    for venue in [4, 256, u32::MAX] {
        assert_eq!(arrive(&mut layer, venue, &[7; 33]), Number::NO_VENUE);
    }
    assert_eq!(layer, full);
}

#[test]
fn a_turn_that_is_ended_leaves_the_layer() {
    let mut layer = LayerBytes::fresh();
    let _ = arrive(&mut layer, 2, &[4, 0, 6, 0]);
    let given = layer.clone();
    let mut report = [0xC3; 11];
    let ended = turn(&mut layer, &mut report);
    assert_eq!(ended.get(), 10 + 4 * 256);
    assert_eq!((&layer, report), (&given, [0; 11]));
    let mut bytes = *layer.as_bytes();
    bytes[LAYER_BYTES - 1] = 4;
    let unsound = LayerBytes::from_bytes(bytes);
    let mut layer = unsound.clone();
    assert_eq!(
        turned(&mut layer, 20),
        (Number::UNSOUND, None, String::new())
    );
    assert_eq!(arrive(&mut layer, 4, &[0; 33]), Number::UNSOUND);
    assert_eq!(layer, unsound);
}

#[test]
fn a_layer_with_a_next_number_not_above_an_editions_is_unsound() {
    let mut layer = LayerBytes::fresh();
    let _ = arrive(&mut layer, 2, &[9, 0, 8, 0, 50, 1, 0, 0, 0]);
    let entered = (Number::DONE, Some(2), "64 1 0 0 0\n".to_string());
    assert_eq!(turned(&mut layer, 12), entered);
    let told = settings(&layer.venues()[2], 1).map(|told| told.percent);
    assert_eq!((told, layer.done()), (Some(50), [0, 0, 1, 0]));
    assert_eq!(arrive(&mut layer, 3, &[]), Number::DONE);
    let mut bytes = *layer.as_bytes();
    bytes[2 * (LAYER_BYTES / 4) + VENUE_BYTES] = 0; // messages of venue 2 done
    let mut layer = LayerBytes::from_bytes(bytes);
    assert_eq!(arrive(&mut layer, 4, &[0; 33]), Number::UNSOUND);
    let ended = (Number::UNSOUND, None, String::new());
    assert_eq!(turned(&mut layer, 20), ended);
    assert_eq!(layer.as_bytes(), &bytes);
}

#[test]
fn layer_memory_of_another_length_is_unsound() {
    for length in [0, 1, LAYER_BYTES - 1, LAYER_BYTES + 1] {
        let mut layer = vec![0x77; length];
        assert_eq!(layer_fresh_in(&mut layer), Number::UNSOUND);
        assert_eq!(arrive_in(&mut layer, 4, &[0; 33]), Number::UNSOUND);
        let mut report = [0xC3; 20];
        let ended = turn_in(&mut layer, &mut report);
        assert_eq!((ended.get(), report), (9 + 4 * 256, [0; 20]));
        assert_eq!(layer, vec![0x77; length]);
    }
}

#[test]
fn null_with_length_0() {
    let (nothing, nowhere) = (std::ptr::null(), std::ptr::null_mut());
    let sweep = [4, 0, 6, 0];
    let mut venue = [0; VENUE_BYTES];
    let at = venue.as_mut_ptr();
    let mut layer = [0; LAYER_BYTES];
    let mut report = [0xC3; 3];
    // SAFETY: each pointer is null with the length 0, or an array with its length.
    unsafe {
        assert_eq!(legging_run(nothing, 0, nowhere, 0), 0);
        assert_eq!(legging_run(sweep.as_ptr(), 4, nowhere, 0), 10);
        assert_eq!(legging_run(nothing, 0, report.as_mut_ptr(), 3), 0);
        assert_eq!(legging_feed(nothing, 0, nothing, 0, nowhere, 0), 0);
        assert_eq!(legging_feed(sweep.as_ptr(), 4, nothing, 0, nowhere, 0), 21);
        assert_eq!(legging_fresh(nowhere, 0), 9);
        assert_eq!(legging_settings(nothing, 0, 0, nowhere, 0), 9);
        assert_eq!(legging_settings(at, VENUE_BYTES, 0, nowhere, 0), 9);
        assert_eq!(legging_settings(nothing, 0, 0, report.as_mut_ptr(), 3), 9);
        assert_eq!(legging_message(nowhere, 0, 0, nothing, 0, nowhere, 0), 9);
        let torn = legging_message(at, VENUE_BYTES, 0, nothing, 0, nowhere, 0);
        assert_eq!(torn, 10);
        assert_eq!(legging_layer_fresh(nowhere, 0), 9);
        assert_eq!(legging_arrive(nowhere, 0, 0, nothing, 0), 9);
        assert_eq!(legging_turn(nowhere, 0, nowhere, 0), 9 + 4 * 256);
        let layer = layer.as_mut_ptr();
        assert_eq!(legging_layer_fresh(layer, LAYER_BYTES), 0);
        assert_eq!(legging_arrive(layer, LAYER_BYTES, 0, nothing, 0), 0);
        assert_eq!(legging_turn(layer, LAYER_BYTES, nowhere, 0), 10 + 4 * 256);
    }
    assert_eq!(report, [0; 3]);
    assert_eq!(venue, [0; VENUE_BYTES]);
}

#[test]
fn calls_at_once_do_not_meet() {
    let messages = messages();
    let [main, spare] = lines();
    std::thread::scope(|scope| {
        for _ in 0..4 {
            scope.spawn(|| {
                for _ in 0..500 {
                    let mut report = [0xC3; 400];
                    assert_eq!(run(&messages, &mut report), Number::DONE);
                    assert_eq!(sheet(&report), SHEET);
                    assert_eq!(feed(&main, &spare, &mut report), Number::DONE);
                    assert_eq!(sheet(&report), SHEET);
                }
            });
        }
    });
}

/// Sends a list to each of the four venues, and takes turns until nothing waits.
fn serve_all(layer: &mut LayerBytes, list: &[Vec<u8>], report: &mut [u8]) {
    for message in list.iter().filter(|message| message.len() <= 32) {
        for venue in 0..4 {
            assert_eq!(arrive(layer, venue, message), Number::DONE);
        }
        for venue in 0..4 {
            assert_eq!(turn(layer, report).venue(), Some(venue as usize));
        }
    }
    assert_eq!(turn(layer, report).venue(), None);
}

/// Does some work upon a stack of so many bytes, those of the thread itself included.
fn upon_stack(bytes: usize, work: impl FnOnce() + Send + 'static) {
    let thread = std::thread::Builder::new().stack_size(bytes);
    let ended = thread.spawn(work).expect("a thread").join();
    ended.expect("it ends");
}

#[test]
fn a_stack_of_32_kibibytes_is_enough() {
    let list = generate(Profile::Sweeps, 3, 600);
    let line = line_bytes(&numbered(&list));
    let mut report = vec![0xC3; 1 << 20];
    let mut venue = Box::new(VenueBytes::fresh());
    // The thread and the test take 6 KiB for themselves.
    upon_stack(38 << 10, move || {
        for (message, before) in list.iter().zip(0..) {
            let _ = one_message(&mut venue, before, message, &mut report);
        }
        assert_eq!(run(&list.concat(), &mut report), Number::DONE);
        assert_eq!(feed(&line, &line, &mut report), Number::DONE);
        assert!(settings(&venue, 300).is_some());
    });
}

#[test]
fn a_turn_takes_less_than_48_kibibytes_of_stack() {
    let list = generate(Profile::Sweeps, 3, 300);
    let mut report = vec![0xC3; MOST_BYTES];
    let mut layer = Box::new(LayerBytes::fresh());
    // The thread and the test take 6 KiB for themselves.
    upon_stack(54 << 10, move || serve_all(&mut layer, &list, &mut report));
}

#[test]
fn a_stack_of_32_kibibytes_is_enough_to_write_a_set_and_one_of_48_to_read_it() {
    let (venue, done) = (venue_after(LIMITED), 6);
    let mut set = vec![0; SET_BYTES];
    write_set(&venue, done, &mut set).expect("a set");
    let mut torn = set.clone();
    torn[0] = 3;
    let mut read = vec![0xC3; VENUE_BYTES];
    let venue = Box::new(venue);
    // The thread and the test take 6 KiB for themselves.
    upon_stack(38 << 10, move || {
        let mut written = vec![0xC3; SET_BYTES];
        let number = write_set_in(venue.as_bytes(), done, &mut written, &mut [0; 4]);
        assert_eq!(number, Number::DONE);
    });
    upon_stack(54 << 10, move || {
        let number = read_set_in(&set, &mut read, &mut [0; 4]);
        assert_eq!(number, Number::DONE);
        let number = read_set_in(&torn, &mut read, &mut [0; 4]);
        assert_eq!(number, Number::BAD_SET);
    });
}

#[test]
fn numbers_have_words() {
    assert_eq!(Number::DONE.to_string(), "0: done");
    assert_eq!(
        Number::UNSOUND.to_string(),
        "9: the venue or the layer is unsound"
    );
    assert!(Number::NO_SUCH_ORDER.is_done() && !Number::UNSOUND.is_done());
    assert!(Number::EDITIONS_FULL.is_done() && !Number::NO_ROOM.is_done());
    assert_eq!(
        Number::EDITIONS_FULL.to_string(),
        "13: 32 editions are held"
    );
    assert_eq!(Number::NO_ROOM.get(), 10);
    assert_eq!(
        Number::LOST.to_string(),
        "20: a message is lost from both lines"
    );
    assert!(!Number::DIFFERS.is_done() && !Number::BAD_LINE.is_done());
}

/// The number that a name stands for in the header for C.
fn in_header(name: &str) -> usize {
    let header = include_str!("../../../include/legging.h");
    let line = header.lines().find_map(|line| {
        let after = line.strip_prefix("#define ")?.strip_prefix(name)?;
        after.starts_with(' ').then_some(after)
    });
    let word = line.and_then(|after| after.split_whitespace().next());
    let digits = word.and_then(|word| word.strip_suffix('u'));
    digits.unwrap().parse().unwrap()
}

#[test]
fn hosts_in_c_and_rust_and_scripts_lend_the_same_memory() {
    assert_eq!(in_header("LEGGING_VENUE_BYTES"), VENUE_BYTES);
    assert_eq!(in_header("LEGGING_MOST_BYTES"), MOST_BYTES);
    assert_eq!(
        in_header("LEGGING_RATIOS_AT") + 2 * 32,
        in_header("LEGGING_GENERATIONS_AT")
    );
    assert_eq!(
        in_header("LEGGING_GENERATIONS_AT") + 8 * 20 * 4,
        in_header("LEGGING_REACHED_AT")
    );
    assert_eq!(in_header("LEGGING_REACHED_AT") + 4, VENUE_BYTES);
    assert_eq!((LAYER_BYTES, MOST_BYTES), (19_701, 10_433));
    assert_eq!(sessions::asked::ENOUGH as usize, MOST_BYTES);
    assert_eq!(sessions::held::VENUE_BYTES, VENUE_BYTES);
    assert_eq!(held_layer::LAYER_BYTES, LAYER_BYTES);
    assert_eq!(in_header("LEGGING_SET_BYTES"), SET_BYTES);
    assert_eq!(
        (in_header("LEGGING_NUMBER_BYTES"), MOST_SET),
        (4, SET_BYTES)
    );
}
