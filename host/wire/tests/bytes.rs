//! Every kind of message and record, to its bytes and back.

use wire::message::{encode_all, split};
use wire::record::{parse_sheet, read_report};
use wire::{records, Away, Cancel, Increment, Leg, LimitedSweep, Message, NewComplex, NewOrder};
use wire::{Answer, Percent, Record, Status};

fn order(shows: Option<u32>) -> Message {
    Message::Order(NewOrder {
        id: 0x0403_0201,
        leg: Leg { series: 5, side: 1 },
        price: 0x0807_0605,
        quantity: 0x0C0B_0A09,
        shows,
    })
}

fn complex(ratios: Option<[u8; 2]>) -> Message {
    Message::Complex(NewComplex {
        id: 7,
        legs: [Leg { series: 1, side: 0 }, Leg { series: 2, side: 1 }],
        class: 1,
        limit: -2,
        quantity: 9,
        ratios,
    })
}

/// A message of each kind from 1 to 11, with its length.
fn messages() -> [(Message, usize); 11] {
    let away = Away {
        series: 3,
        bid: 4,
        offer: 5,
    };
    let increment = Increment {
        series: 6,
        increment: 10,
        edition: 1,
    };
    let percent = Percent {
        percent: 7,
        edition: 2,
    };
    [
        (order(None), 18),
        (complex(None), 21),
        (Message::Cancel(Cancel { id: 1 }), 8),
        (Message::Away(away), 13),
        (
            Message::Status(Status {
                series: 2,
                status: 1,
            }),
            6,
        ),
        (Message::Sweep, 4),
        (Message::Increment(increment), 10),
        (Message::Percent(percent), 9),
        (order(Some(3)), 22),
        (complex(Some([3, 2])), 23),
        (Message::LimitedSweep(LimitedSweep { most: 4 }), 5),
    ]
}

#[test]
fn every_kind_of_message_reads_back_at_its_length() {
    for ((message, length), kind) in messages().into_iter().zip(1..) {
        let bytes = message.encode();
        assert_eq!(message.kind(), Some(kind));
        assert_eq!(bytes.len(), length, "{message}");
        assert_eq!(&bytes[..4], [length as u8, 0, kind as u8, 0]);
        assert_eq!(Message::decode(&bytes), message);
    }
}

#[test]
fn fields_are_little_endian_without_padding() {
    let bytes = order(Some(0x100F_0E0D)).encode();
    let fields = [1, 2, 3, 4, 5, 1, 5, 6, 7, 8, 9, 10, 11, 12, 13, 14, 15, 16];
    assert_eq!(&bytes[4..], fields);
    assert_eq!(&complex(None).encode()[13..17], [0xFE, 0xFF, 0xFF, 0xFF]);
}

#[test]
fn a_message_a_byte_short_or_long_or_of_no_kind_stays_raw() {
    for (message, length) in messages() {
        let bytes = message.encode();
        for spoiled in [&bytes[..length - 1], &[&bytes[..], &[0]].concat()] {
            let mut framed = spoiled.to_vec();
            for _ in 0..2 {
                assert_eq!(Message::decode(&framed), Message::Raw(framed.clone()));
                framed[0] = spoiled.len() as u8;
            }
        }
    }
    for bytes in [&[][..], &[4], &[4, 0, 12, 0], &[4, 0, 0, 0]] {
        assert_eq!(Message::decode(bytes), Message::Raw(bytes.to_vec()));
    }
}

#[test]
fn a_list_is_cut_into_its_messages_again() {
    let messages = messages().map(|(message, _)| message);
    let list = encode_all(&messages);
    let read: Vec<Message> = split(&list).into_iter().map(Message::decode).collect();
    assert_eq!(read, messages);
}

const SHEET: &str = "64 1 0 65535 16\n65 7 1 100000 10000 4294967295 1\n66 3 -2147483648 8\n\
    67 3 0 0 115 115 8\n68 3 1 0 10\n70 5 3 -205 2\n71 3 6\n72 32\n";

#[test]
fn every_kind_of_record_reads_back_at_its_length() {
    let sheet = parse_sheet(SHEET).unwrap();
    let lengths: Vec<usize> = sheet.iter().map(|record| record.encode().len()).collect();
    assert_eq!(lengths, [12, 22, 16, 22, 11, 20, 12, 5]);
    assert!(sheet.iter().map(Record::length).eq(lengths));
    let mut memory: Vec<u8> = sheet.iter().flat_map(Record::encode).collect();
    assert_eq!(read_report(&memory).unwrap(), sheet);
    memory.extend([0; 3]);
    let read: Result<Vec<Record>, _> = records(&memory).collect();
    assert_eq!(read.unwrap(), sheet);
}

#[test]
fn records_end_at_a_zero_length_and_after_an_error() {
    let answer = Record::Answer(Answer {
        number: 1,
        refusal: 6,
        mask: 0,
        count: 0,
    });
    let memory = [answer.encode(), vec![0, 0], answer.encode()].concat();
    assert_eq!(records(&memory).count(), 1);
    for torn in [&[9][..], &[12, 0, 64, 0], &[12, 0, 69, 0], &[13, 0, 64, 0]] {
        let memory = [answer.encode(), torn.to_vec()].concat();
        let mut read = records(&memory);
        assert_eq!(read.next(), Some(Ok(answer)));
        let error = read.next().unwrap().unwrap_err();
        assert_eq!(error.byte, 12, "{error}");
        assert!(error.to_string().starts_with("byte 12: expected "));
        assert_eq!(read.next(), None);
    }
}
