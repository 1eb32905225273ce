//! The wrapper as a host uses it: typed messages and records, venues, sets and layers.

use legging::{records, run, Edition, Layer, LeggingOrder, Number, Record, Series, Set};
use legging::{Cancel, Message, Settings, Venue, VenueBytes, MOST_BYTES};
use sessions::held::{from_bytes, to_bytes};
use sessions::message::{encode_all, split};
use sessions::profile::Profile;
use sessions::soak::generate;
use sessions::text::parse_session;
use std::error::Error;
use std::fs;
use std::path::Path;
use std::process::Command;

const SESSION: &str = include_str!("../../venue/tests/sessions/printed.txt");
const EDITIONS: &str = include_str!("../../venue/tests/sessions/editions.txt");

/// Takes the messages of a text upon a fresh venue; tells it and the records.
fn taken(text: &str) -> (Venue, Vec<Record>) {
    let mut venue = Venue::fresh();
    let mut told = Vec::new();
    let mut report = [0; MOST_BYTES];
    for message in parse_session(text).expect("a good session") {
        assert!(venue.take(&message, &mut report).is_done(), "{message}");
        told.extend(records(&report).map(|record| record.expect("a whole record")));
    }
    (venue, told)
}

#[test]
fn typed_messages_and_records_are_those_of_a_run() {
    let messages = parse_session(SESSION).expect("a good session");
    let mut report = [0; 4_096];
    run(&encode_all(&messages), &mut report).ok().unwrap();
    let by_run: Result<Vec<Record>, _> = records(&report).collect();
    let (venue, told) = taken(SESSION);
    assert_eq!(told, by_run.unwrap());
    assert_eq!(venue.done() as usize, messages.len());
}

#[test]
fn a_number_is_an_error() {
    let error: Box<dyn Error> = Number::BAD_SET.into();
    assert_eq!(error.to_string(), "16: the records are no set");
    assert_eq!(Number::DONE.ok(), Ok(()));
    assert_eq!(Number::CLOSED.ok(), Err(Number::CLOSED));
}

/// All that the accessors tell of every venue of some sessions is what the venue holds.
#[test]
fn accessors_tell_what_the_bytes_hold() {
    let (mut standing, mut set, mut away) = (0, 0, 0);
    for profile in Profile::ALL {
        let mut venue = Venue::fresh();
        for message in generate(profile, 3, 300) {
            let _ = venue.take_bytes(&message, &mut [0; MOST_BYTES]);
            let (bytes, held) = (venue.bytes(), from_bytes(venue.bytes().as_bytes()));
            let legging = (0..16).filter(|place| held.legging[*place].quantity > 0);
            let legging = legging.map(|place| LeggingOrder {
                parent: held.legging[place].parent,
                series: place as u8 / 2,
                side: place as u8 % 2,
                price: held.legging[place].price,
                quantity: held.legging[place].quantity,
            });
            assert!(bytes.legging_orders().eq(legging));
            let series = held.series.map(|listed| Series {
                status: listed.status,
                bid: listed.bid,
                offer: listed.offer,
            });
            assert_eq!(bytes.series(), series);
            let editions = held.editions.iter().filter(|entry| entry.edition > 0);
            let editions = editions.map(|entry| Edition {
                edition: entry.edition,
                message: entry.number,
                figure: entry.figure,
                value: entry.value,
            });
            assert!(bytes.editions().eq(editions));
            standing += bytes.legging_orders().count();
            set += bytes.editions().count();
            away += series.iter().filter(|series| series.bid > 0).count();
        }
    }
    assert!(standing > 0 && set > 0 && away > 0);
}

#[test]
fn a_venue_counts_the_messages_done() {
    let mut venue = Venue::fresh();
    let sweep = Message::Sweep;
    assert_eq!(venue.take(&sweep, &mut [0; 11]), Number::NO_ROOM);
    assert_eq!(venue.done(), 0);
    assert_eq!(venue.take_bytes(&[1], &mut [0; 12]), Number::TORN);
    assert_eq!(venue.take(&sweep, &mut [0; 12]), Number::DONE);
    assert_eq!(venue.done(), 2);
    let mut last = Venue::new(VenueBytes::fresh(), u32::MAX);
    assert_eq!(last.take(&sweep, &mut [0; 12]), Number::NO_ROOM);
    assert_eq!(last.done(), u32::MAX);
}

#[test]
fn settings_of_a_venue() {
    let (venue, _) = taken(EDITIONS);
    let first = Settings {
        increments: [5, 5, 5, 5, 5, 5, 10, 10],
        percent: 5,
    };
    assert_eq!(venue.settings(0), Some(first));
    assert_ne!(venue.settings(u32::MAX), Some(first));
    let junk = VenueBytes::from_bytes([0xFF; legging::VENUE_BYTES]);
    assert_eq!(Venue::new(junk, 0).settings(0), None);
}

#[test]
fn a_set_carries_a_venue() {
    let (venue, _) = taken(SESSION);
    let set = venue.write_set().unwrap();
    assert_eq!(set.read(), Ok(venue.clone()));
    let kept = set.as_bytes();
    assert_eq!(Set::from_bytes(kept), set);
    let torn = Set::from_bytes(&kept[..kept.len() - 1]);
    assert_eq!(torn.read(), Err(Number::BAD_SET));
    let mut changed = *venue.bytes().as_bytes();
    changed[0] ^= 0x80;
    let unsound = Venue::new(VenueBytes::from_bytes(changed), venue.done());
    assert_eq!(unsound.write_set(), Err(Number::UNSOUND));
}

#[test]
fn a_layer_serves_four_venues() {
    let mut layer = Layer::fresh();
    let mut report = [0; MOST_BYTES];
    for venue in [3, 1] {
        layer.arrive(venue, &Message::Sweep).ok().unwrap();
    }
    let cancel = Message::Cancel(Cancel { id: 1 });
    layer.arrive(1, &cancel).ok().unwrap();
    let served = [(); 4].map(|()| {
        let turned = layer.turn(&mut report);
        (turned.venue(), turned.number())
    });
    let done = Number::DONE;
    let refused = (Some(1), Number::NO_SUCH_ORDER);
    assert_eq!(
        served,
        [(Some(1), done), (Some(3), done), refused, (None, done)]
    );
    assert_eq!(layer.bytes().done(), [0, 2, 0, 1]);
    assert_eq!(Layer::new(layer.bytes().clone()), layer);
    assert_eq!(layer.arrive(9, &cancel), Number::NO_VENUE);
}

#[test]
fn bytes_of_a_venue_are_those_of_the_reference() {
    let fresh = *Venue::fresh().bytes().as_bytes();
    assert_eq!(fresh[..], to_bytes(&reference::Venue::fresh())[..]);
}

#[test]
fn the_list_of_typed_messages_is_cut_again() {
    let messages = parse_session(SESSION).expect("a good session");
    let list = legging::encode_all(&messages);
    let again: Vec<Message> = split(&list).into_iter().map(Message::decode).collect();
    assert_eq!(again, messages);
}

/// The files of the wrapper's own code.
fn sources() -> Vec<(String, String)> {
    let folder = Path::new(env!("CARGO_MANIFEST_DIR")).join("src");
    let files = fs::read_dir(folder).expect("the sources are here");
    let text = |path: &Path| fs::read_to_string(path).expect("a source is text");
    let paths = files.map(|file| file.expect("a file").path());
    paths
        .map(|path| (path.display().to_string(), text(&path)))
        .collect()
}

/// The public functions of a source without an example.
fn without_example(source: &str) -> Vec<&str> {
    let mut missing = Vec::new();
    let mut has_example = false;
    for line in source.lines().map(str::trim) {
        if line.starts_with("///") {
            has_example |= line == "/// ```";
        } else if let Some(name) = line.strip_prefix("pub fn ") {
            missing.extend((!has_example).then_some(name));
            has_example = false;
        } else if !line.starts_with("#[") {
            has_example = false;
        }
    }
    missing
}

/// Whether a function is a call: it takes a venue, a set, a layer or messages, and tells a
/// number, a turn or what was read.
fn is_call(function: &str) -> bool {
    let tells = ["-> Number", "-> Turned", ", Number>", "-> Option<Settings>"];
    tells.iter().any(|told| function.contains(told)) && !function.contains("(self)")
}

#[test]
fn each_call_has_an_example() {
    let mut calls = 0;
    for (path, source) in sources() {
        let missing = without_example(&source);
        let missing: Vec<_> = missing.iter().filter(|name| is_call(name)).collect();
        assert!(missing.is_empty(), "{path}: {missing:?}");
        let all = source.lines().filter(|line| line.contains("pub fn "));
        calls += all.filter(|line| is_call(line)).count();
    }
    assert!(calls >= 16, "{calls}");
    let bare = "/// A call.\npub fn one() {}\n/// ```\n/// ```\n#[inline]\npub fn two() {}\n";
    assert_eq!(without_example(bare), ["one() {}"]);
}

#[test]
fn the_example_packs_no_byte_by_hand_and_runs() {
    let example = include_str!("../examples/session.rs");
    for by_hand in ["to_le_bytes", "from_le_bytes", "&[u8]", "Raw("] {
        assert!(!example.contains(by_hand), "{by_hand}");
    }
    // Cargo builds the examples beside the tests.
    let tests = std::env::current_exe().expect("a test has a path");
    let built = tests.parent().and_then(Path::parent).expect("a folder");
    let output = Command::new(built.join("examples/session")).output();
    let output = output.expect("the example runs");
    let said = String::from_utf8_lossy(&output.stdout);
    assert!(output.status.success(), "{said}");
    assert!(
        said.starts_with("0: done\nAnswer(Answer { number: 1, "),
        "{said}"
    );
    assert!(
        said.ends_with("carried over an upgrade after 9 messages\n"),
        "{said}"
    );
}
