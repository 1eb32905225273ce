//! Two lines of one list, with messages lost, cut, doubled, swapped and spoiled at
//! drawn places: equal numbers drawn, equal lines.

use crate::line::{line_bytes, numbered, Numbered};
use crate::message::{Cancel, Message};
use crate::random::Random;

/// The lines, and the list that was sent over them.
#[derive(Clone, Debug)]
pub struct Feed {
    pub list: Vec<Vec<u8>>,
    pub main: Vec<u8>,
    pub spare: Vec<u8>,
    /// No message was lost from both lines, and nothing else befell them.
    pub is_whole: bool,
}

/// The messages of both lines, main first.
type Parts = [Vec<Numbered>; 2];

/// What may befall the messages, each line still good by itself: lost and differing
/// ones.
const LOSSES: [OnParts; 5] = [lose, lose_from_both, lose_last, differ, exchange];

/// What may befall the messages of a line so that it is a bad one.
const ON_PARTS: [OnParts; 5] = [double, swap, renumber, shorten, lengthen];

/// What may befall the bytes of a line.
const ON_BYTES: [OnBytes; 7] = [
    cut,
    begin_number,
    begin_message,
    leave_out_end,
    add_zeros,
    |line, random| spoil(line, random),
    add_noise,
];

type OnParts = fn(&mut Parts, &mut Random);
type OnBytes = fn(&mut Vec<u8>, &mut Random);

/// Sends a list of whole messages over two lines.
pub fn draw_feed(list: &[Vec<u8>], random: &mut Random) -> Feed {
    let mut parts = carried(list, random);
    let mishaps = random.pick(&[0, 0, 0, 1, 1, 1, 1, 1, 2, 3]);
    let mut on_bytes = Vec::new();
    for _ in 0..mishaps {
        match random.below(100) {
            ..60 => random.pick(&LOSSES)(&mut parts, random),
            60..77 => random.pick(&ON_PARTS)(&mut parts, random),
            _ => on_bytes.push(random.pick(&ON_BYTES)),
        }
    }
    let mut lines = parts.map(|parts| line_bytes(&parts));
    for befall in on_bytes {
        befall(&mut lines[random.below(2) as usize], random);
    }
    let [main, spare] = lines;
    Feed {
        list: list.to_vec(),
        main,
        spare,
        is_whole: mishaps == 0,
    }
}

/// The numbered messages of each line, none of them lost from both.
fn carried(list: &[Vec<u8>], random: &mut Random) -> Parts {
    let way = random.below(6);
    let middle = random.below(list.len() as u64 + 1) as usize;
    let overlap = random.below(4) as usize;
    let mut alone = 0;
    let mut parts = [Vec::new(), Vec::new()];
    for (index, part) in numbered(list).into_iter().enumerate() {
        if random.chance(20) {
            alone = 1 - alone;
        }
        let lost = match way {
            0 => None,
            1 | 2 => Some(way as usize - 1),
            3 => Some(alone),
            4 => random.chance(30).then_some(alone),
            _ if index < middle => Some(1),
            _ if index < middle + overlap => None,
            _ => Some(0),
        };
        for (line, parts) in parts.iter_mut().enumerate() {
            if lost != Some(line) {
                parts.push(part.clone());
            }
        }
    }
    parts
}

/// A line that has messages, and the place of one of them.
fn drawn(parts: &Parts, random: &mut Random) -> Option<(usize, usize)> {
    let first = random.below(2) as usize;
    let line = [first, 1 - first]
        .into_iter()
        .find(|line| !parts[*line].is_empty())?;
    Some((line, random.below(parts[line].len() as u64) as usize))
}

fn lose(parts: &mut Parts, random: &mut Random) {
    let Some((line, at)) = drawn(parts, random) else {
        return;
    };
    let end = (at + random.between(1, 3) as usize).min(parts[line].len());
    parts[line].drain(at..end);
}

fn lose_from_both(parts: &mut Parts, random: &mut Random) {
    let Some((line, at)) = drawn(parts, random) else {
        return;
    };
    let at = if random.chance(15) { 0 } else { at };
    let number = parts[line][at].number;
    for parts in parts {
        parts.retain(|part| part.number != number);
    }
}

fn lose_last(parts: &mut Parts, random: &mut Random) {
    let Some((line, at)) = drawn(parts, random) else {
        return;
    };
    let number = parts[line][at].number;
    for parts in parts {
        parts.retain(|part| part.number < number);
    }
}

/// The same message twice: an equal number.
fn double(parts: &mut Parts, random: &mut Random) {
    if let Some((line, at)) = drawn(parts, random) {
        let part = parts[line][at].clone();
        parts[line].insert(at, part);
    }
}

/// Two neighbours exchanged: a falling number.
fn swap(parts: &mut Parts, random: &mut Random) {
    if let Some((line, at)) = drawn(parts, random) {
        let next = (at + 1) % parts[line].len();
        parts[line].swap(at, next);
    }
}

/// A byte of a message changed that the other line has too, its length kept.
fn differ(parts: &mut Parts, random: &mut Random) {
    with_both(parts, random, |message, random| {
        let at = 2 + random.below(message.len() as u64 - 2) as usize;
        message[at] ^= 1 << random.below(8);
    });
}

/// A message of another length in place of one that the other line has too.
fn exchange(parts: &mut Parts, random: &mut Random) {
    with_both(parts, random, |message, _| {
        let sweep = Message::Sweep.encode();
        let cancel = Message::Cancel(Cancel { id: 1 }).encode();
        *message = if message.len() == sweep.len() {
            cancel
        } else {
            sweep
        };
    });
}

/// Changes a message of one line, and sees that the other has it.
fn with_both(parts: &mut Parts, random: &mut Random, change: fn(&mut Vec<u8>, &mut Random)) {
    let Some((line, at)) = drawn(parts, random) else {
        return;
    };
    let part = parts[line][at].clone();
    let other = &mut parts[1 - line];
    if !other.iter().any(|has| has.number == part.number) {
        let place = other.partition_point(|has| has.number < part.number);
        other.insert(place, part);
    }
    change(&mut parts[line][at].message, random);
}

fn renumber(parts: &mut Parts, random: &mut Random) {
    let Some((line, at)) = drawn(parts, random) else {
        return;
    };
    let number = parts[line][at].number;
    let before = at.checked_sub(1).map_or(0, |at| parts[line][at].number);
    parts[line][at].number = match random.below(6) {
        0 => 0,
        1 => before,
        2 => before.saturating_sub(1),
        3 => number.saturating_add(1),
        4 => u32::MAX,
        _ => random.below(1 << 32) as u32,
    };
}

/// A length below 4.
fn shorten(parts: &mut Parts, random: &mut Random) {
    if let Some((line, at)) = drawn(parts, random) {
        parts[line][at].message[..2].copy_from_slice(&[random.below(4) as u8, 0]);
    }
}

/// A length that takes in what follows, or more than that.
fn lengthen(parts: &mut Parts, random: &mut Random) {
    if let Some((line, at)) = drawn(parts, random) {
        let message = &mut parts[line][at].message;
        let length = message.len() as u16 + random.between(1, 60) as u16;
        message[..2].copy_from_slice(&length.to_le_bytes());
    }
}

fn cut(line: &mut Vec<u8>, random: &mut Random) {
    line.truncate(random.below(line.len() as u64 + 1) as usize);
}

/// A number above all others.
const HIGH: [u8; 4] = [0xFF, 0xFF, 0xFF, 0x7F];

fn begin_number(line: &mut Vec<u8>, random: &mut Random) {
    line.extend(&HIGH[..random.between(1, 3) as usize]);
}

/// A number, and no more than a part of a message's head after it.
fn begin_message(line: &mut Vec<u8>, random: &mut Random) {
    line.extend(HIGH);
    line.extend(&[4, 0, 6][..random.below(4) as usize]);
}

/// A number, and a message without its last bytes.
fn leave_out_end(line: &mut Vec<u8>, random: &mut Random) {
    let message = Message::Cancel(Cancel { id: 1 }).encode();
    line.extend(HIGH);
    line.extend(&message[..random.between(4, 7) as usize]);
}

fn add_zeros(line: &mut Vec<u8>, random: &mut Random) {
    line.extend(vec![0; random.between(1, 12) as usize]);
}

fn spoil(line: &mut [u8], random: &mut Random) {
    for _ in 0..random.between(1, 3) {
        if !line.is_empty() {
            let at = random.below(line.len() as u64) as usize;
            line[at] ^= 1 << random.below(8);
        }
    }
}

fn add_noise(line: &mut Vec<u8>, random: &mut Random) {
    let length = random.below(20);
    line.extend((0..length).map(|_| random.below(256) as u8));
}
