//! Request (k): what two lines hand out, what stops them, and what is left then.

use crate::common::{bytes, with_legging};
use reference::{feed, run, Returned, Venue};
use sessions::lent::Lent;
use sessions::line::{line_bytes, numbered};
use sessions::message::split;
use sessions::record::{print_sheet, read_report};
use sessions::text::encode_line;

const ROOM: usize = 4_096;

/// The call upon two lines of bytes, with guarded junk memory; tells the sheet too.
fn feed_bytes(main: &[u8], spare: &[u8], room: usize) -> (Returned, String) {
    let mut lent = Lent::new();
    let returned = feed(main, spare, lent.lend(room));
    let records = read_report(lent.written(returned.written).unwrap()).unwrap();
    (returned, print_sheet(&records))
}

/// The number and the sheet of two lines of text.
fn fed(main: &str, spare: &str, room: usize) -> (u8, String) {
    let [main, spare] = [main, spare].map(|text| encode_line(text).unwrap());
    let (returned, sheet) = feed_bytes(&main, &spare, room);
    (returned.number, sheet)
}

/// A line of the messages that came over it.
fn line(list: &[u8], came: impl Fn(usize) -> bool) -> Vec<u8> {
    let pieces: Vec<Vec<u8>> = split(list).into_iter().map(<[u8]>::to_vec).collect();
    let mut parts = numbered(&pieces);
    parts.retain(|part| came(part.number as usize));
    line_bytes(&parts)
}

/// The printed session, with refused messages in it.
fn list() -> Vec<u8> {
    let rest = "order 4 sell 5 series 0 at 115\ncancel 9\nraw 04 00 63 00\n";
    bytes(&with_legging(rest))
}

#[test]
fn lines_that_lose_no_message_from_both_hand_out_the_list_at_every_length() {
    let list = list();
    let count = split(&list).len();
    let mut report = vec![0; ROOM];
    let whole = run(&list, &mut report).written;
    for lost in 0..3usize.pow(count as u32) {
        let came = |number: usize| lost / 3usize.pow(number as u32 - 1) % 3;
        let main = line(&list, |number| came(number) != 1);
        let spare = line(&list, |number| came(number) != 2);
        // Every pattern of losses with room for all; every length for some of them.
        let rooms = if lost % 365 == 0 {
            0..whole + 30
        } else {
            whole..whole + 1
        };
        for room in rooms {
            let mut wanted = vec![0; room];
            let expected = run(&list, &mut wanted);
            let mut lent = Lent::new();
            assert_eq!(feed(&main, &spare, lent.lend(room)), expected);
            assert_eq!(lent.memory(), wanted);
            assert!(lent.is_guarded());
        }
    }
}

#[test]
fn empty_lines() {
    let list = list();
    let whole = line(&list, |_| true);
    let expected = run(&list, &mut [0; ROOM]);
    assert_eq!(feed_bytes(&whole, &[], ROOM).0, expected);
    assert_eq!(feed_bytes(&[], &whole, ROOM).0, expected);
    for room in [0, 1, 12, ROOM] {
        let (returned, sheet) = feed_bytes(&[], &[], room);
        assert_eq!((returned.number, returned.done, sheet.as_str()), (0, 0, ""));
        assert_eq!(returned.venue, Venue::fresh());
    }
}

#[test]
fn differing_bytes_are_19_and_what_went_before_stands() {
    for other in ["cancel 1", "raw 05 00 06 00 00", "raw 04 00 07 00"] {
        let spare = format!("1 sweep\n3 {other}\n4 sweep\n");
        let expected = (19, "64 1 0 0 0\n64 2 0 0 0\n".to_string());
        assert_eq!(fed("1 sweep\n2 sweep\n3 sweep\n", &spare, ROOM), expected);
        assert_eq!(fed(&spare, "1 sweep\n2 sweep\n3 sweep\n", ROOM), expected);
    }
    assert_eq!(fed("1 sweep\n", "1 cancel 1\n", ROOM), (19, String::new()));
    // The first of two messages that differ stops it; later ones are not asked.
    let (main, spare) = ("1 sweep\n2 open 0\n3 sweep\n", "2 open 1\n3 cancel 1\n");
    assert_eq!(fed(main, spare, ROOM), (19, "64 1 0 0 0\n".to_string()));
}

#[test]
fn a_number_lost_from_both_is_20_while_a_later_one_stands() {
    let one = "64 1 0 0 0\n".to_string();
    assert_eq!(fed("1 sweep\n3 sweep\n", "", ROOM), (20, one.clone()));
    assert_eq!(fed("", "1 sweep\n3 sweep\n", ROOM), (20, one.clone()));
    assert_eq!(
        fed("1 sweep\n", "4294967295 sweep\n", ROOM),
        (20, one.clone())
    );
    assert_eq!(
        fed("3 sweep\n", "1 sweep\n4 sweep\n", ROOM),
        (20, one.clone())
    );
    assert_eq!(fed("2 sweep\n", "3 sweep\n", ROOM), (20, String::new()));
    // Lost at the end, it is the end.
    assert_eq!(fed("1 sweep\n", "", ROOM), (0, one));
}

#[test]
fn a_stop_comes_before_a_10_of_its_own_number_and_not_before_others() {
    let one = || "64 1 0 0 0\n".to_string();
    for (main, spare, number) in [
        ("1 sweep\n2 sweep\n", "2 cancel 1\n", 19),
        ("1 sweep\n3 sweep\n", "", 20),
    ] {
        for room in [12, 13, 23, 24, ROOM] {
            assert_eq!(fed(main, spare, room), (number, one()), "{room}");
        }
        for room in [0, 1, 11] {
            assert_eq!(fed(main, spare, room), (10, String::new()), "{room}");
        }
    }
    assert_eq!(fed("2 sweep\n", "", 0), (20, String::new()));
    assert_eq!(fed("1 sweep\n", "1 cancel 1\n", 0), (19, String::new()));
    // A 10 ends all, also where the number after it would stop.
    let three = "1 sweep\n2 sweep\n4 sweep\n";
    assert_eq!(fed(three, "", 23), (10, one()));
}

#[test]
fn a_bad_line_is_21_before_all_and_nothing_is_done() {
    let bad = [
        "raw 01",
        "raw 01 00",
        "raw 09 00 00",
        "raw 09 00 00 00",
        "raw 09 00 00 00 04",
        "raw 09 00 00 00 04 00",
        "raw 09 00 00 00 04 00 06",
        "raw 09 00 00 00 05 00 06 00",
        "9 raw ff ff 06 00",
        "9 raw 00 00 06 00",
        "9 raw 03 00 06 00",
        "9 raw 03 00 06",
        "0 sweep",
        "1 sweep",
        "3 sweep\n3 sweep",
        "3 sweep\n2 sweep",
        "4294967295 sweep\n3 sweep",
        "raw 00",
        "raw 00 00 00",
        "raw 00 00 00 00",
        "raw 00 00 00 00 00 00 00 00",
        "raw 00 00 00 00 00 00 00 00 00 00 00 00",
    ];
    let good = "1 open 0\n2 open 1\n";
    for end in bad {
        let line = format!("1 open 0\n{end}\n");
        for (main, spare) in [(line.as_str(), good), (good, &line), (&line, &line)] {
            for room in [0, 11, ROOM] {
                assert_eq!(fed(main, spare, room), (21, String::new()), "{end}");
            }
        }
    }
    // Before a 19, a 20 and a 10 of messages that stand before it.
    for (main, spare) in [
        ("1 sweep\n1 sweep\n", "1 cancel 1\n"),
        ("2 sweep\nraw 00\n", ""),
    ] {
        let lines = [main, spare].map(|text| encode_line(text).unwrap());
        let (returned, sheet) = feed_bytes(&lines[0], &lines[1], 0);
        assert_eq!(
            (returned.number, returned.done, sheet.as_str()),
            (21, 0, "")
        );
        assert_eq!(returned.venue, Venue::fresh());
    }
}

#[test]
fn numbers_may_leave_gaps_on_one_line() {
    let main = "1 sweep\n7 sweep\n";
    let spare = "2 sweep\n3 sweep\n4 sweep\n5 sweep\n6 sweep\n8 sweep\n";
    let (number, sheet) = fed(main, spare, ROOM);
    assert_eq!((number, sheet.lines().count()), (0, 8));
}
