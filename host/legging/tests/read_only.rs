//! The archives' read-only memory (request (c)): code, and a few constants of single
//! instructions. No table of lengths, kinds or increments.

use legging::{one_message, Number, VenueBytes, MOST_BYTES};
use std::path::Path;

/// What a board may be asked to keep beside an archive's code.
const MOST_READ_ONLY: usize = 128;

const WRITE: u64 = 1;
const ALLOC: u64 = 2;
const CODE: u64 = 4;
const MERGE: u64 = 16;
const STRINGS: u64 = 32;

const NO_BITS: u64 = 8;
const RELOCATIONS: [u64; 2] = [4, 9];

/// A part of an object file that a program has in its memory.
#[derive(Clone, Default)]
struct Section {
    name: String,
    flags: u64,
    /// Of a section of constants that a linker may merge: the length of one.
    entry: usize,
    bytes: Vec<u8>,
    /// Addresses are filled in by the linker.
    relocated: bool,
}

impl Section {
    fn is(&self, flag: u64) -> bool {
        self.flags & flag != 0
    }

    /// Why it may not be, where it may not.
    fn fault(&self, lengths: &[u64]) -> Option<&'static str> {
        if self.is(WRITE) {
            return Some("data that is written");
        }
        if self.relocated {
            return Some("addresses: a table by kinds");
        }
        if !self.is(MERGE) || self.is(STRINGS) || !matches!(self.entry, 4 | 8 | 16 | 32) {
            return Some("a table or text");
        }
        let table = self.bytes.chunks(self.entry).any(|c| is_table(c, lengths));
        table.then_some("a table of lengths or increments")
    }
}

/// Two numbers next to each other, of any width, are the lengths of neighbouring
/// kinds, or the increments of series 5 and 6.
fn is_table(constant: &[u8], lengths: &[u64]) -> bool {
    let told = |pair: &[u64]| pair == [5, 10] || lengths.windows(2).any(|two| two == pair);
    [1, 2, 4, 8].into_iter().any(|width| {
        let numbers: Vec<u64> = constant.chunks(width).map(number).collect();
        numbers.windows(2).any(told)
    })
}

/// A little-endian number.
fn number(bytes: &[u8]) -> u64 {
    let add = |sum, byte: &u8| sum << 8 | u64::from(*byte);
    bytes.iter().rev().fold(0, add)
}

/// The sections that are in a program's memory, of every object file of an archive.
fn sections(archive: &[u8]) -> Vec<Section> {
    const HEADER: usize = 60;
    let mut rest = archive.strip_prefix(b"!<arch>\n").expect("an archive");
    let mut found = Vec::new();
    while rest.len() > HEADER {
        let told = std::str::from_utf8(&rest[48..58]).expect("a length in digits");
        let length: usize = told.trim_end().parse().expect("a length");
        let file = &rest[HEADER..HEADER + length];
        if file.starts_with(b"\x7fELF") {
            found.extend(of_object(file));
        }
        let next = HEADER + length.next_multiple_of(2);
        rest = &rest[next.min(rest.len())..];
    }
    found
}

/// Those of an object file: little-endian ELF of 64 bits.
fn of_object(file: &[u8]) -> Vec<Section> {
    assert_eq!(file[4..6], [2, 1], "64 bits, little-endian");
    let field = |at: usize, width: usize| number(&file[at..at + width]) as usize;
    let headers: Vec<usize> = (0..field(0x3C, 2))
        .map(|n| field(0x28, 8) + n * field(0x3A, 2))
        .collect();
    let kind = |header: usize| field(header + 4, 4) as u64;
    let part = |header: usize| {
        let at = field(header + 24, 8);
        &file[at..at + field(header + 32, 8)]
    };
    let names = part(headers[field(0x3E, 2)]);
    let relocated: Vec<usize> = headers
        .iter()
        .filter(|h| RELOCATIONS.contains(&kind(**h)))
        .map(|h| field(h + 44, 4))
        .collect();
    let section = |(n, &header): (usize, &usize)| Section {
        name: text(&names[field(header, 4)..]),
        flags: field(header + 8, 8) as u64,
        entry: field(header + 56, 8),
        bytes: match kind(header) {
            NO_BITS => vec![0; field(header + 32, 8)],
            _ => part(header).to_vec(),
        },
        relocated: relocated.contains(&n),
    };
    let all = headers.iter().enumerate().map(section);
    all.filter(|s| s.is(ALLOC) && !s.bytes.is_empty()).collect()
}

fn text(bytes: &[u8]) -> String {
    let end = bytes.iter().position(|b| *b == 0).expect("an end");
    String::from_utf8_lossy(&bytes[..end]).into_owned()
}

/// The number that a message of a kind and a length is answered with.
fn answer(kind: u16, length: u16) -> Number {
    let mut message = vec![0xFF; usize::from(length)];
    message[..2].copy_from_slice(&length.to_le_bytes());
    message[2..4].copy_from_slice(&kind.to_le_bytes());
    let mut report = [0; MOST_BYTES];
    one_message(&mut VenueBytes::fresh(), 0, &message, &mut report)
}

/// The lengths of the kinds from 1 on, as the engine takes them.
fn lengths() -> Vec<u64> {
    let kinds = (1..).take_while(|kind| answer(*kind, 4) != Number::UNKNOWN_KIND);
    let of_kind = |kind| {
        let taken: Vec<u16> = (4..100)
            .filter(|n| answer(kind, *n) != Number::WRONG_LENGTH)
            .collect();
        assert_eq!(taken.len(), 1, "one length of kind {kind}");
        u64::from(taken[0])
    };
    kinds.map(of_kind).collect()
}

#[test]
fn each_kind_has_its_length_and_no_other_number_is_a_kind() {
    let lengths = lengths();
    assert_eq!(lengths, [18, 21, 8, 13, 6, 4, 10, 9, 22, 23, 5]);
    for kind in 0..=u16::MAX {
        if kind == 0 || usize::from(kind) > lengths.len() {
            assert_eq!(answer(kind, 4), Number::UNKNOWN_KIND, "kind {kind}");
        }
    }
}

#[test]
fn no_archive_keeps_a_table() {
    std::env::split_paths(env!("ARCHIVES")).for_each(|path| keeps_no_table(&path));
}

fn keeps_no_table(path: &Path) {
    let archive = std::fs::read(path).expect("the archive");
    let (code, others): (Vec<Section>, Vec<Section>) =
        sections(&archive).into_iter().partition(|s| s.is(CODE));
    let length = |all: &[Section]| all.iter().map(|s| s.bytes.len()).sum::<usize>();
    assert!(length(&code) > 10_000, "the engine's code is found");
    let lengths = lengths();
    let fault = |s: &Section| Some((s.name.clone(), s.bytes.len(), s.fault(&lengths)?));
    let faults: Vec<_> = others.iter().filter_map(fault).collect();
    assert!(faults.is_empty(), "{faults:#?}");
    let bytes = length(&others);
    assert!(bytes <= MOST_READ_ONLY, "{bytes} read-only bytes");
    println!(
        "{}: {} bytes of code, {bytes} read-only",
        path.display(),
        length(&code)
    );
}

/// Constants of single instructions, 16 bytes each.
fn constants(bytes: Vec<u8>) -> Section {
    Section {
        flags: ALLOC | MERGE,
        entry: 16,
        bytes,
        ..Section::default()
    }
}

#[test]
fn a_mask_is_no_table() {
    let mut masks = vec![0xFF; 5];
    masks.extend([0; 11]);
    masks.extend([7, 1, 7, 1, 0, 0, 0, 0, 0, 0, 0, 0, 0, 0, 0, 0]);
    assert_eq!(constants(masks).fault(&[18, 21, 8]), None);
}

#[test]
fn tables_are_found() {
    let lengths = [18, 21, 8, 13, 6, 4, 10, 9];
    let sixteens = lengths.iter().flat_map(|n| (*n as u16).to_le_bytes());
    let table = constants(sixteens.collect());
    assert!(table.fault(&lengths).is_some());
    let increments = constants([5, 5, 5, 5, 5, 5, 10, 10].repeat(2));
    assert!(increments.fault(&lengths).is_some());
    let zeros = constants(vec![0; 16]);
    assert_eq!(zeros.fault(&lengths), None);
    let spoiled = [
        Section {
            flags: ALLOC,
            ..zeros.clone()
        },
        Section {
            flags: ALLOC | WRITE,
            ..zeros.clone()
        },
        Section {
            flags: ALLOC | MERGE | STRINGS,
            ..zeros.clone()
        },
        Section {
            entry: 1,
            ..zeros.clone()
        },
        Section {
            relocated: true,
            ..zeros.clone()
        },
    ];
    for section in spoiled {
        assert!(section.fault(&lengths).is_some());
    }
}
