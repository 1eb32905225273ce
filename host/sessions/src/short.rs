//! Every session of at most three messages from a list: shorter first, then by the
//! messages' places in the list.

use crate::record::{print_sheet, read_report};
use crate::sheet::run_whole;
use crate::text::encode_text_line;

/// The most messages of a list.
pub const MOST_MESSAGES: usize = 12;

/// The most messages of a session.
pub const MOST_LENGTH: usize = 3;

/// The fixed list, which the proved program, crates/short_sheets, has.
pub const FIXED: &str = include_str!("short.txt");

/// The messages of a list's text, each in bytes. An error names the line.
pub fn parse_list(text: &str) -> Result<Vec<Vec<u8>>, String> {
    let mut pieces = Vec::new();
    for (line, number) in text.lines().zip(1..) {
        let piece = encode_text_line(line, number).map_err(|error| error.to_string())?;
        if piece.is_empty() {
            continue;
        }
        if pieces.len() == MOST_MESSAGES {
            let what = format!("expected at most {MOST_MESSAGES} messages");
            return Err(format!("line {number}: {what}, found another"));
        }
        if !is_whole(&piece) {
            let what = "its length field does not tell its bytes";
            return Err(format!("line {number}: {what}"));
        }
        pieces.push(piece);
    }
    Ok(pieces)
}

/// Whether bytes are one message, so that what comes after them is the next one.
fn is_whole(piece: &[u8]) -> bool {
    match piece {
        [low, high, _, _, ..] => usize::from(u16::from_le_bytes([*low, *high])) == piece.len(),
        _ => false,
    }
}

/// The sessions from a list of so many messages, each as its places from 0.
pub fn sessions_of(count: usize) -> Vec<Vec<usize>> {
    let mut sessions = vec![Vec::new()];
    let mut from = 0;
    for _ in 0..MOST_LENGTH {
        let shorter = sessions[from..].to_vec();
        from = sessions.len();
        for session in shorter {
            sessions.extend((0..count).map(|place| [&session[..], &[place]].concat()));
        }
    }
    sessions
}

/// The line of a session's places, which are printed from 1, and the sheet of its run.
fn print_session(list: &[Vec<u8>], session: &[usize]) -> Result<String, String> {
    let places: Vec<String> = session
        .iter()
        .map(|place| format!("{}", place + 1))
        .collect();
    let bytes: Vec<u8> = session
        .iter()
        .flat_map(|place| list[*place].clone())
        .collect();
    let records = read_report(&run_whole(&bytes).1)?;
    Ok(format!("{}\n{}", places.join(" "), print_sheet(&records)))
}

/// What is printed of every session from a list.
pub fn print_short(list: &[Vec<u8>]) -> Result<String, String> {
    let sessions = sessions_of(list.len());
    sessions
        .iter()
        .map(|session| print_session(list, session))
        .collect()
}

#[cfg(test)]
mod tests {
    use super::*;

    fn before(earlier: &[usize], later: &[usize]) -> bool {
        (earlier.len(), earlier) < (later.len(), later)
    }

    #[test]
    fn each_session_comes_once_and_in_order() {
        for count in 0..=MOST_MESSAGES {
            let sessions = sessions_of(count);
            assert_eq!(
                sessions.len(),
                1 + count + count.pow(2) + count.pow(3),
                "{count}"
            );
            assert!(sessions.windows(2).all(|pair| before(&pair[0], &pair[1])));
            assert!(sessions.iter().all(|session| session.len() <= MOST_LENGTH));
            assert!(sessions.iter().flatten().all(|place| *place < count));
        }
    }

    #[test]
    fn the_fixed_list_has_twelve_messages() {
        assert_eq!(parse_list(FIXED).unwrap().len(), MOST_MESSAGES);
    }

    #[test]
    fn places_stand_on_a_line_before_the_sheet() {
        let list = parse_list("open 0\nsweep\n").unwrap();
        let printed = print_short(&list).unwrap();
        let lines: Vec<&str> = printed.lines().collect();
        assert_eq!(
            &lines[..8],
            &[
                "",
                "1",
                "64 1 0 0 0",
                "2",
                "64 1 0 0 0",
                "1 1",
                "64 1 0 0 0",
                "64 2 0 0 0"
            ]
        );
        assert_eq!(lines.last(), Some(&"64 3 0 0 0"));
        assert!(lines.contains(&"2 2 2"));
    }

    #[test]
    fn an_empty_list_has_the_empty_session() {
        assert_eq!(print_short(&[]).unwrap(), "\n");
    }

    #[test]
    fn bad_lists_are_named() {
        let thirteen = "sweep\n".repeat(13);
        assert_eq!(
            parse_list(&thirteen).unwrap_err(),
            "line 13: expected at most 12 messages, found another"
        );
        assert_eq!(
            parse_list("sweep\nraw 05 00 06 00\n").unwrap_err(),
            "line 2: its length field does not tell its bytes"
        );
        assert!(parse_list("sweep\nswep\n")
            .unwrap_err()
            .starts_with("line 2: expected"));
    }
}
