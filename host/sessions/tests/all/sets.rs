//! Sets: a venue and its message number written and read back.

use crate::common::{by_calls, bytes, venue_after};
use reference::{one_message, read_set, write_set, Legging, SetRead, SetWritten};
use reference::{Venue, MOST_SET};
use sessions::lent::Lent;
use sessions::message::split;
use sessions::profile::Profile;
use sessions::random::Random;
use sessions::set::{decode_set, encode_set, split_set};
use sessions::set_generator::{set_of, short_of, spoiled, with_many, Many};
use sessions::set_reader::look_at;
use sessions::sheet::run_whole;
use sessions::soak::generate;

/// Editions, reserve, ratios, legging orders, generations and a limited sweep.
const SESSION: &str = "away 0 bid 100 offer 0\nclose 7\nincrement 7 1 3\npercent 10 4\n\
    order 1 sell 15 series 0 at 130 shows 4\norder 2 sell 12 series 1 at 90\n\
    complex 3 buy 0 buy 1 class 1 net 205 quantity 8\n\
    complex 4 buy 0 sell 1 class 1 net -300 quantity 8 ratio 2 1\nlimited 1\n";

const SET: &str = "set 9 last 4\n\
    status 0 open\naway 0 bid 100 offer 0\nstatus 1 open\naway 1 bid 0 offer 0\n\
    status 2 open\naway 2 bid 0 offer 0\nstatus 3 open\naway 3 bid 0 offer 0\n\
    status 4 open\naway 4 bid 0 offer 0\nstatus 5 open\naway 5 bid 0 offer 0\n\
    status 6 open\naway 6 bid 0 offer 0\nstatus 7 closed\naway 7 bid 0 offer 0\n\
    increment 7 1 3 message 3\npercent 10 4 message 4\n\
    order 1 sell 15 series 0 at 130 shows 4\norder 2 sell 12 series 1 at 90 shows 12\n\
    complex 3 buy 0 buy 1 class 1 net 205 quantity 8\n\
    complex 4 buy 0 sell 1 class 1 net -300 quantity 8 ratio 2 1\n\
    legging 3 buy 8 series 0 at 115\nlegging 3 buy 4 series 1 at 75\n\
    generated 0 message 7\ngenerated 1 message 7\nreached 3\n";

fn set(text: &str) -> Vec<u8> {
    encode_set(text).unwrap()
}

/// The set with a text in it exchanged.
fn changed(from: &str, to: &str) -> Vec<u8> {
    assert_eq!(SET.matches(from).count(), 1, "{from:?}");
    set(&SET.replace(from, to))
}

/// Reads a set, by both readers, and tells the number.
fn number_of(memory: &[u8]) -> u8 {
    let read = read_set(memory);
    let looked = look_at(memory);
    let expected = looked.as_ref().map_or_else(|refused| refused.number, |_| 0);
    assert_eq!(read.number, expected, "{looked:?}");
    match looked {
        Ok(carried) => assert_eq!((read.venue, read.message), carried),
        Err(_) => assert_eq!(read, refused(read.number)),
    }
    expected
}

fn refused(number: u8) -> SetRead {
    SetRead {
        number,
        venue: Venue::fresh(),
        message: 0,
    }
}

/// Everything after a session, carried: the venue and its number.
fn carried(venue: &Venue, number: u32) -> (Venue, u32) {
    let mut lent = Lent::new();
    let wrote = write_set(venue, number, lent.lend(MOST_SET));
    assert_eq!(wrote.number, 0);
    lent.written(wrote.written).unwrap();
    let read = read_set(lent.memory());
    assert_eq!(read.number, 0);
    (read.venue, read.message)
}

#[test]
fn the_fresh_venue_is_its_first_record_and_its_series() {
    let mut memory = [0xFF; 170];
    let wrote = write_set(&Venue::fresh(), 0x0403_0201, &mut memory);
    assert_eq!((wrote.number, wrote.written), (0, 12 + 8 * 19));
    assert_eq!(memory[..12], [12, 0, 80, 0, 1, 2, 3, 4, 0, 0, 0, 0]);
    for (series, pair) in (0..8).zip(memory[12..164].chunks(19)) {
        assert_eq!(pair[..6], [6, 0, 5, 0, series, 1]);
        assert_eq!(pair[6..], [13, 0, 4, 0, series, 0, 0, 0, 0, 0, 0, 0, 0]);
    }
    assert_eq!(memory[164..], [0; 6]);
}

#[test]
fn a_session_is_written_as_its_text_and_read_back() {
    let venue = venue_after(SESSION);
    let written = set_of(&venue, 9).unwrap();
    assert_eq!(decode_set(&written), SET);
    assert_eq!(written, set(SET));
    assert_eq!(carried(&venue, 9), (venue, 9));
}

#[test]
fn what_is_left_and_what_shows_is_written() {
    let text = format!("{SESSION}order 5 buy 13 series 0 at 130\n");
    let told = decode_set(&set_of(&venue_after(&text), 10).unwrap());
    assert!(
        told.contains("order 1 sell 2 series 0 at 130 shows 2\n"),
        "{told}"
    );
    assert_eq!(MOST_SET, 5_900);
}

#[test]
fn memory_of_every_length_about_a_sets() {
    let venue = venue_after(SESSION);
    let whole = set(SET);
    let mut lent = Lent::new();
    for length in 0..whole.len() + 40 {
        let wrote = write_set(&venue, 9, lent.lend(length));
        let fits = length >= whole.len();
        let (number, written) = if fits { (0, whole.len()) } else { (15, 0) };
        assert_eq!(wrote, SetWritten { number, written }, "{length}");
        assert_eq!(lent.written(written).unwrap(), &whole[..written]);
        assert_eq!(number_of(lent.memory()), if fits { 0 } else { 16 });
    }
}

#[test]
fn what_is_unsound_or_above_its_number_is_not_written() {
    let mut lent = Lent::new();
    let mut expect = |venue: &Venue, number: u32, answer: u8| {
        for length in [0, 11, MOST_SET] {
            let wrote = write_set(venue, number, lent.lend(length));
            let expected = if length == MOST_SET || answer == 9 {
                answer
            } else {
                15
            };
            assert_eq!(wrote.number, expected);
            assert_eq!(wrote.written == 0, expected > 0);
            lent.written(wrote.written).unwrap();
        }
    };
    let venue = venue_after(SESSION);
    // The last generation is of message 7.
    for (number, answer) in [(0, 9), (6, 9), (7, 0), (8, 0), (u32::MAX, 0)] {
        expect(&venue, number, answer);
    }
    let settings = venue_after("percent 10 4\nsweep\npercent 11 5\n");
    for (number, answer) in [(0, 9), (2, 9), (3, 0)] {
        expect(&settings, number, answer);
    }
    let mut unsound = venue.clone();
    unsound.legging[3] = Legging::default();
    unsound.last = 3;
    expect(&unsound, 9, 9);
}

#[test]
fn a_set_ends_with_its_memory_a_zero_length_or_one_zero_byte() {
    let whole = set(SET);
    for (end, number) in [
        (&[][..], 0),
        (&[0], 0),
        (&[0, 0], 0),
        (&[0; 50], 0),
        (&[0, 0, 1], 0),
        (&[0, 0, 8, 0, 84, 0, 1, 0, 0, 0], 0),
        (&[1], 16),
        (&[255], 16),
        (&[0, 1], 16),
        (&[1, 0], 16),
        (&[3, 0, 84], 16),
        (&[4, 0, 84, 0], 16),
        (&[9, 0, 84, 0], 16),
    ] {
        let memory = [&whole, end].concat();
        assert_eq!(number_of(&memory), number, "{end:?}");
    }
    for nothing in [&[][..], &[0], &[0, 0], &[0; 6_000]] {
        assert_eq!(number_of(nothing), 16);
    }
}

#[test]
fn a_set_cut_at_any_byte_is_torn_but_between_its_records() {
    let whole = set(SET);
    let mut ends = vec![0];
    for record in split_set(&whole) {
        ends.push(ends[ends.len() - 1] + record.len());
    }
    for cut in 0..whole.len() {
        let number = number_of(&whole[..cut]);
        let between = ends[17..].contains(&cut);
        assert_eq!(number != 16, between, "{cut}");
        let mut with_zeros = whole[..cut].to_vec();
        with_zeros.resize(whole.len(), 0);
        let after = number_of(&with_zeros);
        assert!(!between || after == number, "{cut}");
    }
}

#[test]
fn records_missing_doubled_or_exchanged_are_out_of_order() {
    let whole = set(SET);
    let records = split_set(&whole);
    for at in 0..records.len() {
        let mut doubled = records.clone();
        doubled.insert(at, records[at]);
        // Two generations of one series may be of one message.
        let generation = records[at][2] == 83;
        let number = if generation { 0 } else { 16 };
        assert_eq!(number_of(&doubled.concat()), number, "{at}");
        let mut without = records.clone();
        without.remove(at);
        assert!(at > 16 || number_of(&without.concat()) == 16, "{at}");
        for other in 0..at {
            let mut exchanged = records.clone();
            exchanged.swap(at, other);
            assert_eq!(number_of(&exchanged.concat()), 16, "{other} and {at}");
        }
    }
}

#[test]
fn what_breaks_the_sets_own_order_or_count_is_16() {
    for (from, to) in [
        ("percent 10 4", "percent 10 3"),
        ("percent 10 4", "percent 10 2"),
        ("percent 10 4", "percent 10 0"),
        ("order 2", "order 1"),
        ("order 2", "order 0"),
        ("complex 3", "complex 2"),
        ("complex 4", "complex 3"),
        ("legging 3 buy 4 series 1", "legging 3 buy 4 series 0"),
        ("legging 3 buy 8 series 0", "legging 3 side=2 8 series 0"),
        ("generated 1 message 7", "generated 0 message 6"),
        ("generated 0", "generated 2"),
        ("generated 0", "generated 9"),
        ("reached 3\n", "reached 3\nreached 3\n"),
        ("reached 3\n", "reached 3\nreached 4\n"),
        ("reached 3\n", "reached 3\ngenerated 7 message 9\n"),
        ("reached 3\n", "reached 3\nset 9 last 4\n"),
        ("status 0 open\n", ""),
        ("status 0", "status 1"),
        ("away 7", "away 6"),
        ("away 7", "away 8"),
        ("set 9 last 4\n", ""),
        ("set 9 last 4\n", "set 9 last 4\nset 9 last 4\n"),
        ("set 9 last 4\n", "reached 3\n"),
        (" shows 4", ""),
        (
            "increment 7 1 3 message 3",
            "raw 0a 00 07 00 07 01 03 00 00 00",
        ),
        ("reached 3", "raw 04 00 06 00"),
        ("reached 3", "raw 05 00 0b 00 01"),
        ("reached 3", "raw 08 00 55 00 01 00 00 00"),
        ("reached 3", "raw 09 00 54 00 01 00 00 00 00"),
        ("reached 3", "raw 07 00 54 00 01 00 00"),
    ] {
        assert_eq!(number_of(&changed(from, to)), 16, "{from:?} to {to:?}");
    }
}

#[test]
fn what_is_wrong_in_the_venue_alone_is_9() {
    for (from, to) in [
        ("set 9", "set 6"),
        ("last 4", "last 3"),
        ("message 4", "message 10"),
        ("message 4", "message 3"),
        ("message 4", "message 0"),
        ("increment 7 1 3", "increment 7 1 0"),
        ("increment 7 1 3", "increment 8 1 3"),
        ("increment 7 1 3", "increment 255 5 3"),
        ("increment 7 1 3", "increment 7 2 3"),
        ("percent 10 4", "percent 51 4"),
        ("order 1", "order 0"),
        ("15 series 0 at 130 shows 4", "0 series 0 at 130 shows 4"),
        ("15 series 0 at 130 shows 4", "0 series 0 at 130 shows 0"),
        ("shows 4", "shows 0"),
        ("shows 4", "shows 16"),
        ("sell 15", "side=2 15"),
        ("15 series 0", "15 series 8"),
        ("at 130", "at 131"),
        ("quantity 8\n", "quantity 0\n"),
        ("ratio 2 1", "ratio 1 1"),
        ("ratio 2 1", "ratio 2 2"),
        ("ratio 2 1", "ratio 4 1"),
        ("net 205", "net 200001"),
        ("buy 8 series 0", "buy 0 series 0"),
        ("legging 3 buy 4 series 1", "legging 3 buy 4 series 8"),
        ("legging 3 buy 4 series 1", "legging 3 side=2 4 series 1"),
        ("legging 3 buy 4 series 1", "legging 4 buy 4 series 1"),
        ("generated 1 message 7", "generated 8 message 7"),
        ("generated 1 message 7", "generated 1 message 10"),
        ("generated 0 message 7", "generated 0 message 0"),
        ("reached 3", "reached 0"),
        ("reached 3", "reached 5"),
        ("status 7 closed", "status 7 status=3"),
        ("away 0 bid 100", "away 0 bid 100001"),
    ] {
        assert_eq!(number_of(&changed(from, to)), 9, "{from:?} to {to:?}");
    }
}

#[test]
fn equal_is_not_above_and_parts_may_be_left_out() {
    for (from, to) in [
        ("set 9", "set 7"),
        ("set 9", "set 4294967295"),
        ("message 4", "message 9"),
        ("generated 1 message 7", "generated 1 message 9"),
        (
            "generated 0 message 7\n",
            "generated 0 message 7\ngenerated 0 message 7\n",
        ),
        ("generated 0 message 7\ngenerated 1 message 7\n", ""),
        ("reached 3\n", ""),
        ("reached 3", "reached 4"),
        ("increment 7 1 3 message 3\n", ""),
        (
            "complex 4 buy 0 sell 1 class 1 net -300 quantity 8 ratio 2 1\n",
            "",
        ),
        ("legging 3 buy 4 series 1 at 75\n", ""),
    ] {
        assert_eq!(number_of(&changed(from, to)), 0, "{from:?} to {to:?}");
    }
}

#[test]
fn sixteen_comes_before_nine() {
    let wrong = SET.replace("shows 4", "shows 16");
    assert_eq!(number_of(&set(&wrong)), 9);
    for (from, to) in [
        ("reached 3\n", "reached 3\nreached 3\n"),
        ("set 9 last 4", "short 9 last 4"),
        ("generated 1", "generated 0"),
    ] {
        let both = wrong
            .replace(from, to)
            .replace("message 7\nreached", "message 6\nreached");
        assert_eq!(number_of(&set(&both)), 16, "{to:?}");
    }
    let torn = [set(&wrong), vec![1]].concat();
    assert_eq!(number_of(&torn), 16);
}

#[test]
fn one_too_many_of_each_part_is_16() {
    for part in Many::ALL {
        let full = with_many(&set(SET), part, part.most());
        assert_ne!(number_of(&full), 16, "{part:?}");
        let more = with_many(&set(SET), part, part.most() + 1);
        assert_eq!(number_of(&more), 16, "{part:?}");
    }
    let full = with_many(&set_of(&Venue::fresh(), 40).unwrap(), Many::Editions, 32);
    assert_eq!(number_of(&full), 0);
    let full = with_many(&set(SET), Many::Generations(0), 20);
    assert_eq!(number_of(&full), 0);
}

#[test]
fn full_books_are_carried() {
    let mut text = String::new();
    for id in 1..=32 {
        text += &format!("complex {id} buy 0 buy 1 class 1 net -5 quantity 2 ratio 1 3\n");
    }
    for id in 33..=160 {
        text += &format!("order {id} sell 2 series 0 at 130 shows 1\n");
    }
    for edition in 1..=32 {
        text += &format!("percent 5 {edition}\n");
    }
    let venue = venue_after(&text);
    let whole = set_of(&venue, 192).unwrap();
    assert_eq!(whole.len(), 164 + 32 * 23 + 128 * 22 + 32 * 13);
    assert_eq!(carried(&venue, 192), (venue, 192));
}

#[test]
fn a_short_set_means_edition_0_all_shown_and_none_generated() {
    let short = short_of(&set(SET));
    let text = decode_set(&short);
    assert!(
        text.starts_with("short 9 last 4\nstatus 0 open\n"),
        "{text}"
    );
    assert!(text.contains("order 1 sell 15 series 0 at 130\n"), "{text}");
    assert_eq!(number_of(&short), 0);
    let read = read_set(&short);
    let mut expected = venue_after(SESSION);
    expected.editions = Venue::fresh().editions;
    expected.generations = Venue::fresh().generations;
    expected.reached = 0;
    expected.regular[0].reserve = 0;
    expected.regular[0].display = 15;
    assert_eq!((read.venue, read.message), (expected, 9));
    for line in [
        "increment 7 1 3 message 3\n",
        "percent 10 4 message 4\n",
        "generated 1 message 7\n",
        "reached 3\n",
        "order 5 sell 2 series 0 at 130 shows 2\n",
        "short 9 last 4\n",
    ] {
        assert_eq!(number_of(&set(&format!("{text}{line}"))), 16, "{line}");
    }
    assert_eq!(number_of(&set(&text.replace("short", "set"))), 16);
    let nothing_else = set_of(&Venue::fresh(), 5).unwrap();
    assert_eq!(read_set(&short_of(&nothing_else)), read_set(&nothing_else));
}

/// The report of a list whose venue is carried over by a set between every two messages.
fn by_carried_calls(list: &[u8]) -> Vec<u8> {
    let (mut venue, mut number) = (Venue::fresh(), 0);
    let mut report = Vec::new();
    let mut lent = Lent::new();
    for piece in split(list) {
        let returned = one_message(&venue, number, piece, lent.lend(16_384));
        report.extend_from_slice(lent.written(returned.written).unwrap());
        (venue, number) = carried(&returned.venue, number + returned.done);
    }
    report
}

#[test]
fn a_day_cut_between_all_its_messages_goes_on_as_if_it_were_not() {
    for (seed, profile) in Profile::ALL.into_iter().enumerate() {
        for seed in [seed as u64, 100 + seed as u64] {
            let list = generate(profile, seed, 300).concat();
            assert_eq!(by_carried_calls(&list), by_calls(&list).2, "{profile:?}");
        }
    }
}

#[test]
fn a_day_cut_between_any_two_messages_goes_on_as_if_it_were_not() {
    let list = bytes(&format!(
        "{SESSION}sweep\norder 5 buy 13 series 0 at 130\nlimited 2\n"
    ));
    let (_, whole) = run_whole(&list);
    let pieces = split(&list);
    for cut in 0..=pieces.len() {
        let (first, mut report) = run_whole(&pieces[..cut].concat());
        let (mut venue, mut number) = carried(&first.venue, first.done);
        for piece in &pieces[cut..] {
            let mut lent = Lent::new();
            let returned = one_message(&venue, number, piece, lent.lend(16_384));
            report.extend_from_slice(lent.written(returned.written).unwrap());
            (venue, number) = (returned.venue, number + returned.done);
        }
        assert_eq!(report, whole, "{cut}");
    }
}

#[test]
fn both_readers_agree_on_spoiled_sets() {
    let mut random = Random::new(7);
    let mut counts = [0; 17];
    for (seed, profile) in Profile::ALL.into_iter().enumerate() {
        let list = generate(profile, seed as u64, 200).concat();
        let (returned, _) = run_whole(&list);
        let whole = set_of(&returned.venue, returned.done).unwrap();
        assert_eq!(number_of(&whole), 0);
        for _ in 0..2_000 {
            let (_, changed) = spoiled(&whole, &mut random);
            counts[usize::from(number_of(&changed))] += 1;
        }
    }
    for number in [0, 9, 16] {
        assert!(counts[number] > 2_000, "{number}: {}", counts[number]);
    }
}
