//! The printed session of document 01, byte by byte.

use reference::{is_sound, one_message, run, Venue};

fn printed_session() -> Vec<Vec<u8>> {
    vec![
        vec![6, 0, 5, 0, 0, 1],
        vec![6, 0, 5, 0, 1, 1],
        vec![18, 0, 1, 0, 1, 0, 0, 0, 0, 1, 130, 0, 0, 0, 15, 0, 0, 0],
        vec![18, 0, 1, 0, 2, 0, 0, 0, 1, 1, 90, 0, 0, 0, 12, 0, 0, 0],
        vec![
            21, 0, 2, 0, 3, 0, 0, 0, 0, 0, 1, 0, 1, 205, 0, 0, 0, 8, 0, 0, 0,
        ],
        vec![18, 0, 1, 0, 4, 0, 0, 0, 0, 1, 115, 0, 0, 0, 5, 0, 0, 0],
    ]
}

fn expected_report() -> Vec<u8> {
    let mut bytes: Vec<u8> = Vec::new();
    for number in 1..=4 {
        bytes.extend([12, 0, 64, 0, number, 0, 0, 0, 0, 0, 0, 0]);
    }
    bytes.extend([12, 0, 64, 0, 5, 0, 0, 0, 0, 5, 0, 2]);
    bytes.extend([22, 0, 67, 0, 3, 0, 0, 0, 0, 0]);
    bytes.extend([115, 0, 0, 0, 115, 0, 0, 0, 8, 0, 0, 0]);
    bytes.extend([22, 0, 67, 0, 3, 0, 0, 0, 1, 0]);
    bytes.extend([75, 0, 0, 0, 75, 0, 0, 0, 8, 0, 0, 0]);
    bytes.extend([12, 0, 64, 0, 6, 0, 0, 0, 0, 0, 0, 0]);
    bytes.extend([22, 0, 65, 0, 0, 1, 115, 0, 0, 0, 5, 0, 0, 0]);
    bytes.extend([4, 0, 0, 0, 3, 0, 0, 0]);
    bytes.extend([22, 0, 65, 0, 1, 0, 90, 0, 0, 0, 5, 0, 0, 0]);
    bytes.extend([3, 0, 0, 0, 2, 0, 0, 0]);
    bytes.extend([16, 0, 66, 0, 3, 0, 0, 0, 205, 0, 0, 0, 5, 0, 0, 0]);
    bytes.extend([11, 0, 68, 0, 3, 0, 0, 0, 0, 0, 3]);
    bytes.extend([11, 0, 68, 0, 3, 0, 0, 0, 1, 0, 3]);
    bytes
}

#[test]
fn run_writes_the_printed_session() {
    let expected = expected_report();
    let mut report = [0xA5; 1024];
    let returned = run(&printed_session().concat(), &mut report);
    assert_eq!((returned.number, returned.done), (0, 6));
    assert_eq!(report[..returned.written], expected);
    assert!(report[returned.written..].iter().all(|byte| *byte == 0));
    assert!(is_sound(&returned.venue));
}

#[test]
fn one_message_calls_write_the_printed_session() {
    let mut venue = Venue::fresh();
    let mut records = Vec::new();
    for (before, message) in printed_session().iter().enumerate() {
        let mut report = [0xA5; 1024];
        let returned = one_message(&venue, before as u32, message, &mut report);
        assert_eq!((returned.number, returned.done), (0, 1));
        records.extend_from_slice(&report[..returned.written]);
        venue = returned.venue;
    }
    assert_eq!(records, expected_report());
    let whole = run(&printed_session().concat(), &mut [0; 1024]);
    assert_eq!(venue, whole.venue);
}
