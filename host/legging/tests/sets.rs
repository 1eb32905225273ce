//! Sets by the wrapper: a venue and its message number carried over an upgrade.

use legging::{one_message, read_set, read_set_in, write_set, write_set_in};
use legging::{Number, VenueBytes, MOST_BYTES, SET_BYTES, VENUE_BYTES};
use sessions::message::split;
use sessions::profile::Profile;
use sessions::set::{decode_set, encode_set};
use sessions::set_generator::short_of;
use sessions::sheet::run_whole;
use sessions::soak::generate;
use sessions::text::encode_session;

const LIMITED: &str = include_str!("../../venue/tests/sessions/limited.txt");

/// The venue that messages leave, and how many they are.
fn venue_after(text: &str) -> (VenueBytes, u32) {
    let messages = encode_session(text).expect("a good session");
    let mut venue = VenueBytes::fresh();
    let mut done = 0;
    for message in split(&messages) {
        let _ = one_message(&mut venue, done, message, &mut [0; MOST_BYTES]);
        done += 1;
    }
    (venue, done)
}

#[test]
fn a_set_is_written_whole_and_read_back() {
    let (venue, done) = venue_after(LIMITED);
    let mut set = [0xC3; SET_BYTES];
    let length = write_set(&venue, done, &mut set).expect("a set");
    assert!(set[length..].iter().all(|byte| *byte == 0));
    let text = decode_set(&set);
    assert!(text.starts_with("set 30 last 8\nstatus 0 open\n"), "{text}");
    assert!(
        text.ends_with("generated 1 message 27\nreached 2\n"),
        "{text}"
    );
    assert_eq!(encode_set(&text).as_deref(), Ok(&set[..length]));
    assert_eq!(read_set(&set), Ok((venue.clone(), done)));
    assert_eq!(read_set(&set[..length]), Ok((venue, done)));
}

#[test]
fn memory_of_every_length() {
    let (venue, done) = venue_after(LIMITED);
    let mut whole = vec![0; SET_BYTES];
    let length = write_set(&venue, done, &mut whole).expect("a set");
    for room in 0..length + 3 {
        let mut set = vec![0xC3; room];
        let mut written = [0xC3; 4];
        let number = write_set_in(venue.as_bytes(), done, &mut set, &mut written);
        if room < length {
            assert_eq!((number, written), (Number::SHORT_MEMORY, [0; 4]), "{room}");
            assert!(set.iter().all(|byte| *byte == 0), "{room}");
        } else {
            assert_eq!(number, Number::DONE, "{room}");
            assert_eq!(written, (length as u32).to_le_bytes());
            assert_eq!(set, whole[..room]);
        }
    }
}

#[test]
fn a_refused_set_leaves_zeros() {
    let (venue, done) = venue_after(LIMITED);
    let zeros = |memory: &[u8]| memory.iter().all(|byte| *byte == 0);
    let expect = |venue: &[u8], number, told: usize| {
        for room in [0, 100, SET_BYTES] {
            let (mut set, mut written) = (vec![0xC3; room], vec![0xC3; told]);
            let answer = write_set_in(venue, number, &mut set, &mut written);
            assert_eq!(answer, Number::UNSOUND, "{room}");
            assert!(zeros(&set) && zeros(&written));
        }
    };
    expect(venue.as_bytes(), 26, 4); // the last generation is of message 27
    let mut unsound = *venue.as_bytes();
    unsound[VENUE_BYTES - 1] = 1; // an id looked at, above the last
    expect(&unsound, done, 4);
    for told in [0, 1, 3, 5, 8] {
        expect(venue.as_bytes(), done, told);
    }
    for length in [0, 1, VENUE_BYTES - 1, VENUE_BYTES + 1] {
        expect(&vec![0; length], done, 4);
    }
}

#[test]
fn a_set_that_is_not_read_leaves_a_fresh_venue_and_0() {
    let (venue, done) = venue_after(LIMITED);
    let mut set = [0; SET_BYTES];
    let length = write_set(&venue, done, &mut set).expect("a set");
    let text = decode_set(&set);
    let above = encode_set(&text.replace("reached 2", "reached 9")).expect("a text");
    let twice = encode_set(&format!("{text}reached 2\n")).expect("a text");
    for (bytes, number) in [
        (&above[..], Number::UNSOUND),
        (&twice, Number::BAD_SET),
        (&set[..length - 1], Number::BAD_SET),
        (&[0; 20], Number::BAD_SET),
        (&[], Number::BAD_SET),
    ] {
        let (mut venue, mut message) = ([0xC3; VENUE_BYTES], [0xC3; 4]);
        assert_eq!(read_set_in(bytes, &mut venue, &mut message), number);
        assert_eq!(&venue, VenueBytes::fresh().as_bytes());
        assert_eq!(message, [0; 4]);
        assert_eq!(read_set(bytes), Err(number));
    }
    for told in [0, 1, 3, 5, 8] {
        let (mut venue, mut message) = ([0xC3; VENUE_BYTES], vec![0xC3; told]);
        assert_eq!(read_set_in(&set, &mut venue, &mut message), Number::UNSOUND);
        assert_eq!(&venue, VenueBytes::fresh().as_bytes());
        assert_eq!(message, vec![0; told]);
    }
    for length in [0, 1, VENUE_BYTES - 1, VENUE_BYTES + 1] {
        let (mut venue, mut message) = (vec![0xC3; length], [0xC3; 4]);
        assert_eq!(read_set_in(&set, &mut venue, &mut message), Number::UNSOUND);
        assert_eq!((venue, message), (vec![0xC3; length], [0; 4]));
    }
}

#[test]
fn a_short_set_is_read() {
    let (venue, done) = venue_after("order 1 buy 5 series 0 at 115 shows 2\npercent 10 1\n");
    let mut set = [0; SET_BYTES];
    let length = write_set(&venue, done, &mut set).expect("a set");
    let (read, number) = read_set(&short_of(&set[..length])).expect("a short set");
    let (plain, _) = venue_after("order 1 buy 5 series 0 at 115\n");
    assert_eq!((read, number), (plain, done));
}

#[test]
fn a_session_carried_between_all_its_messages_writes_the_same_records() {
    for profile in [Profile::Mixed, Profile::Ceiling, Profile::Settings] {
        let list = generate(profile, 1, 300);
        let (mut venue, mut done) = (VenueBytes::fresh(), 0);
        let mut records = Vec::new();
        for message in &list {
            let mut report = [0; MOST_BYTES];
            let _ = one_message(&mut venue, done, message, &mut report);
            let whole = sessions::record::read_report(&report).expect("whole records");
            let bytes: usize = whole.iter().map(|record| record.length()).sum();
            records.extend_from_slice(&report[..bytes]);
            let mut set = [0xC3; SET_BYTES];
            write_set(&venue, done + 1, &mut set).expect("a set");
            (venue, done) = read_set(&set).expect("it reads back");
        }
        assert_eq!(records, run_whole(&list.concat()).1, "{profile:?}");
    }
}
