//! A script of arrivals and turns, played upon a fresh layer.

use crate::asked::{Asked, ENOUGH};
use crate::record::{read_report, Record};
use reference::{arrive, turn, Layer, VENUES};

/// What a script came to.
pub struct Played {
    /// Each venue's records.
    pub sheets: [Vec<Record>; VENUES],
    /// The calls that did nothing, in words, each with its line.
    pub notes: Vec<String>,
    /// How many messages wait for each venue at the end.
    pub waiting: [usize; VENUES],
}

/// Plays a script, each call with its line.
pub fn play(script: &[(usize, Asked)]) -> Result<Played, String> {
    let mut layer = Layer::fresh();
    let mut sheets: [Vec<Record>; VENUES] = Default::default();
    let mut notes = Vec::new();
    for (line, asked) in script {
        let note = match asked {
            Asked::Arrive { venue, message } => {
                refused(arrive(&mut layer, *venue, message), *venue)
            }
            Asked::Turn { room } => {
                // No message writes more, so more memory would be zeros.
                let mut report = vec![0; *room.min(&ENOUGH) as usize];
                let turned = turn(&mut layer, &mut report);
                if let Some(sheet) = sheets.get_mut(usize::from(turned.served)) {
                    sheet.extend(read_report(&report)?);
                    continue;
                }
                Some(ended(turned.number).to_string())
            }
        };
        notes.extend(note.map(|note| format!("line {line}: {note}")));
    }
    Ok(Played {
        sheets,
        notes,
        waiting: layer.lanes.map(|lane| lane.wait.len()),
    })
}

/// Why an arrival was refused.
fn refused(number: u8, venue: u32) -> Option<String> {
    let why = match number {
        0 => return None,
        17 => "its wait holds 8, or the message is over 32 bytes",
        18 => "there is no such venue",
        _ => "the layer is unsound",
    };
    Some(format!(
        "arrival for venue {venue} refused with {number}: {why}"
    ))
}

/// Why a turn served no venue.
fn ended(number: u8) -> &'static str {
    match number {
        0 => "turn with number 0: nothing waits",
        10 => "turn ended by 10: the records do not fit, or the message numbers are used up",
        _ => "turn ended by 9: the layer is unsound",
    }
}
