//! The header: its macros against the definitions and the bytes of a venue, and what it says
//! of the archives that no proof says.

use super::programs::{archives, expect_silence, run, scratch, top};
use legging::{one_message_in, Number, MOST_BYTES, VENUE_BYTES};
use reference::Venue;
use sessions::held::to_bytes;
use sessions::held_layer;
use sessions::message::split;
use sessions::record::{print_sheet, read_report};
use sessions::text::encode_session;
use std::collections::{BTreeMap, BTreeSet};
use std::process::Command;
use std::sync::OnceLock;

const HEADER: &str = include_str!("../../../../include/legging.h");
const HELD: &str = include_str!("../../../../crates/venue_bytes/specs/Held.antt");

/// Every macro of the header that is a number, as a compiler of C has it. The tests run
/// beside one another, and the program that prints the macros is made once.
fn macros() -> &'static BTreeMap<String, usize> {
    static MACROS: OnceLock<BTreeMap<String, usize>> = OnceLock::new();
    MACROS.get_or_init(printed_macros)
}

/// The macros as a program in C prints them.
fn printed_macros() -> BTreeMap<String, usize> {
    let defined = HEADER
        .lines()
        .filter_map(|line| line.strip_prefix("#define "));
    let names = defined.filter_map(|rest| rest.split_whitespace().next());
    let numbers = names
        .filter(|name| !name.contains('(') && !["LEGGING_H", "LEGGING_VERSION"].contains(name));
    let prints = numbers.map(|name| format!("    printf(\"{name} %u\\n\", (unsigned)({name}));\n"));
    let body: String = prints.collect();
    let text = format!("#include \"legging.h\"\n#include <stdio.h>\n\nint main(void)\n{{\n{body}    puts(\"VERSION \" LEGGING_VERSION);\n    return 0;\n}}\n");
    let source = scratch("macros.c");
    std::fs::write(&source, text).expect("written");
    let program = scratch("macros");
    let mut compiler = Command::new("cc");
    compiler
        .arg("-I")
        .arg(top().join("include"))
        .arg(&source)
        .arg("-o")
        .arg(&program);
    expect_silence(&mut compiler);
    let (status, told, _) = run(&program, &[], &[]);
    assert_eq!(status, 0);
    let pairs = told.lines().filter_map(|line| line.split_once(' '));
    let numbers = pairs.filter_map(|(name, number)| Some((name.to_string(), number.parse().ok()?)));
    numbers.collect()
}

/// A table of a venue's bytes: where it begins, its rows and the bytes of a row.
type Table = (usize, usize, usize);

/// The tables of the header, by the names in its macros.
fn in_header(macros: &BTreeMap<String, usize>, name: &str) -> Table {
    let of = |ending: &str| macros.get(&format!("LEGGING_{name}_{ending}")).copied();
    let at = of("AT").expect("a table has its place");
    (at, of("PLACES").unwrap_or(1), of("BYTES").unwrap_or(4))
}

/// The tables in the order of the bytes, by what the header calls them.
const TABLES: [&str; 10] = [
    "REGULAR",
    "COMPLEX",
    "LEGGING",
    "SERIES",
    "LAST_ID",
    "EDITIONS",
    "SHOWN",
    "RATIOS",
    "GENERATIONS",
    "REACHED",
];

/// The tables that the definitions tell, from the comment at the head of their file.
fn in_definitions() -> Vec<Table> {
    let rows = HELD.lines().filter_map(|line| {
        let words: Vec<&str> = line.strip_prefix("--")?.split_whitespace().collect();
        let at = words.first()?.parse().ok()?;
        // A table ends with its bytes, rows and name, a single number with its bytes.
        let number = |back: usize| {
            words
                .get(words.len().checked_sub(back)?)?
                .parse::<usize>()
                .ok()
        };
        match (number(3), number(2), number(1)) {
            (Some(bytes), Some(rows), _) => Some((at, rows, bytes)),
            (_, _, Some(bytes)) => Some((at, 1, bytes)),
            _ => None,
        }
    });
    rows.collect()
}

#[test]
fn tables_of_the_header_are_those_of_the_definitions() {
    let macros = macros();
    let tables = TABLES.map(|name| in_header(macros, name));
    assert_eq!(tables.to_vec(), in_definitions());
    let mut end = 0;
    for (at, rows, bytes) in tables {
        assert_eq!(at, end);
        end += rows * bytes;
    }
    assert_eq!(
        (end, macros["LEGGING_VENUE_BYTES"]),
        (VENUE_BYTES, VENUE_BYTES)
    );
    // The definitions' own names for them.
    for (name, table) in [
        ("editions_at", "EDITIONS"),
        ("reserves_at", "SHOWN"),
        ("ratios_at", "RATIOS"),
        ("generations_at", "GENERATIONS"),
        ("reached_at", "REACHED"),
    ] {
        let line = format!("\n{name} = {}\n", in_header(&macros, table).0);
        assert!(HELD.contains(&line), "{line}");
    }
    assert_eq!(
        macros["LEGGING_GENERATIONS_KEPT"] * 4,
        macros["LEGGING_GENERATIONS_BYTES"]
    );
}

/// Where a venue's bytes differ from those of a fresh one once a field is set.
fn place_of(set: impl FnOnce(&mut Venue)) -> usize {
    let mut venue = Venue::fresh();
    let fresh = to_bytes(&venue);
    set(&mut venue);
    let bytes = to_bytes(&venue);
    let differs = |(one, other): (&u8, &u8)| one != other;
    bytes
        .iter()
        .zip(&fresh)
        .position(differs)
        .expect("a field was set")
}

#[test]
fn rows_of_the_header_hold_what_it_says() {
    let macros = macros();
    let row = |name: &str, row: usize| {
        let (at, rows, bytes) = in_header(macros, name);
        assert!(row < rows, "{name}");
        at + row * bytes
    };
    for place in [0, 1, 127] {
        assert_eq!(place_of(|v| v.regular[place].id = 7), row("REGULAR", place));
        assert_eq!(
            place_of(|v| v.regular[place].reserve = 7),
            row("SHOWN", place)
        );
        assert_eq!(
            place_of(|v| v.regular[place].display = 7),
            row("SHOWN", place) + 4
        );
    }
    for place in [0, 1, 31] {
        assert_eq!(place_of(|v| v.complex[place].id = 7), row("COMPLEX", place));
        assert_eq!(
            place_of(|v| v.complex[place].ratio2 = 7),
            row("RATIOS", place) + 1
        );
        assert_eq!(
            place_of(|v| v.editions[place].edition = 7),
            row("EDITIONS", place)
        );
    }
    for series in [0, 1, 7] {
        assert_eq!(
            place_of(|v| v.series[series].bid = 7),
            row("SERIES", series) + 1
        );
        assert_eq!(
            place_of(|v| v.generations[series][19] = 7),
            row("GENERATIONS", series) + 76
        );
        assert_eq!(
            place_of(|v| v.legging[2 * series + 1].parent = 7),
            row("LEGGING", 2 * series + 1)
        );
    }
    assert_eq!(place_of(|v| v.last = 7), row("LAST_ID", 0));
    assert_eq!(place_of(|v| v.reached = 7), row("REACHED", 0));
}

#[test]
fn lanes_of_the_header_hold_what_it_says() {
    let macros = macros();
    for (name, expected) in [
        ("LANE_DONE_AT", held_layer::DONE_AT),
        ("LANE_WAITING_AT", held_layer::COUNT_AT),
        ("LANE_PLACES_AT", held_layer::PLACES_AT),
        ("PLACE_BYTES", held_layer::PLACE_BYTES),
        ("LANE_BYTES", held_layer::LANE_BYTES),
        ("SERVED_AT", held_layer::LAST_AT),
        ("LAYER_BYTES", held_layer::LAYER_BYTES),
    ] {
        assert_eq!(macros[&format!("LEGGING_{name}")], expected, "{name}");
    }
}

/// The header says that an archive calls three functions of the C library and no other.
#[test]
fn archives_call_three_functions_of_the_c_library() {
    for archive in archives() {
        let output = Command::new("nm")
            .arg("-P")
            .arg(&archive)
            .output()
            .expect("nm");
        let told = String::from_utf8(output.stdout).expect("text");
        let (mut asked, mut own) = (BTreeSet::new(), BTreeSet::new());
        for line in told.lines() {
            let mut words = line.split_whitespace();
            match (words.next(), words.next()) {
                (Some(name), Some("U")) => asked.insert(name),
                (Some(name), Some(_)) => own.insert(name),
                _ => false,
            };
        }
        assert!(
            own.iter().any(|name| name.starts_with("legging_")),
            "{told}"
        );
        let others = asked.difference(&own).copied();
        let unknown: Vec<&str> = others
            .filter(|name| !["memcpy", "memmove", "memset"].contains(name))
            .collect();
        assert!(unknown.is_empty(), "{unknown:?} of {}", archive.display());
    }
}

/// The header says that memory may be lent at any alignment.
#[test]
fn memory_at_any_alignment() {
    let session = encode_session(super::SESSION).expect("the stored session is good");
    let mut sheets = BTreeSet::new();
    for at in 0..9 {
        let mut venue = vec![0; VENUE_BYTES + at];
        let mut report = vec![0; MOST_BYTES + at];
        let mut lines = String::new();
        let fresh = legging::fresh_in(&mut venue[at..]);
        assert_eq!(fresh.get(), 0);
        for (before, message) in (0..).zip(split(&session)) {
            let moved = [&vec![0xC3; at][..], message].concat();
            let number = one_message_in(&mut venue[at..], before, &moved[at..], &mut report[at..]);
            assert_eq!(number, Number::DONE);
            lines += &print_sheet(&read_report(&report[at..]).expect("whole records"));
        }
        sheets.insert(lines);
    }
    assert_eq!(sheets.len(), 1);
}
