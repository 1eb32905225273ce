//! The comments of a session's text, each with the message that it stands before or beside.

use crate::message::split;
use crate::text::{encode_session, LineError};
use std::collections::BTreeMap;

/// The comments by message number; those after the last message are the last one's, and those
/// of a session without a message are of number 0.
pub fn notes(text: &str) -> Result<BTreeMap<usize, String>, LineError> {
    let mut bytes = Vec::new();
    let mut comments = Vec::new();
    for line in text.lines() {
        let (body, comment) = line.split_once('#').unwrap_or((line, ""));
        let comment = comment.trim();
        if !comment.is_empty() {
            comments.push((bytes.len(), comment));
        }
        bytes.extend(encode_session(body)?);
    }
    let pieces = split(&bytes);
    let mut starts = Vec::new();
    let mut end = 0;
    for piece in &pieces {
        starts.push(end);
        end += piece.len();
    }
    let mut notes: BTreeMap<usize, String> = BTreeMap::new();
    for (byte, comment) in comments {
        let before = starts.partition_point(|start| *start < byte);
        let note = notes.entry((before + 1).min(pieces.len())).or_default();
        let blank = if note.is_empty() { "" } else { " " };
        *note += &format!("{blank}{comment}");
    }
    Ok(notes)
}

#[cfg(test)]
mod tests {
    use super::*;

    fn told(text: &str) -> Vec<(usize, String)> {
        notes(text).unwrap().into_iter().collect()
    }

    #[test]
    fn comments_go_with_the_message_that_follows_or_stands_beside_them() {
        let text = "# one\n#  two\n\nsweep # beside\nsweep\n# before\nsweep\n# end\n";
        let expected = [(1, "one two beside"), (3, "before end")];
        assert_eq!(
            told(text),
            expected.map(|(at, note)| (at, note.to_string()))
        );
    }

    #[test]
    fn raw_lines_that_are_part_of_a_message_are_counted_by_their_bytes() {
        let text = "raw 04 00 06\nraw 00 04 00 06 00\n# third\nsweep\n";
        assert_eq!(told(text), [(3, "third".to_string())]);
        assert_eq!(told("# alone"), [(0, "alone".to_string())]);
    }
}
