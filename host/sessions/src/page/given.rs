//! A sheet given beside a session: what it says of each message, beside what the rules say.

use super::json::Json;
use crate::record::Record;
use std::collections::BTreeMap;

/// A line of a sheet: its number, and its record.
#[derive(Clone, Copy, Debug, PartialEq, Eq)]
pub struct Line {
    pub number: usize,
    pub record: Record,
}

/// The lines of a sheet by the message that they answer.
#[derive(Default)]
pub struct Given {
    messages: BTreeMap<u32, Vec<Line>>,
}

impl Given {
    /// A 64 of a higher number begins a message; each other line belongs to the one before
    /// it. Lines before the first 64 are of message 0.
    pub fn of(records: &[Record]) -> Self {
        let mut given = Given::default();
        let mut message = 0;
        for (number, record) in (1..).zip(records.iter().copied()) {
            if let Record::Answer(answer) = record {
                message = message.max(answer.number);
            }
            let lines = given.messages.entry(message).or_default();
            lines.push(Line { number, record });
        }
        given
    }

    /// What it says of a message.
    pub fn message(&self, number: u32) -> &[Line] {
        self.messages.get(&number).map_or(&[], Vec::as_slice)
    }

    /// The last message that it answers.
    pub fn last(&self) -> u32 {
        self.messages.keys().next_back().copied().unwrap_or(0)
    }

    /// The lines of messages that a session of so many messages has not.
    pub fn beyond(&self, messages: u32) -> usize {
        let beyond = self.messages.range(messages.saturating_add(1)..);
        let before_the_first = self.message(0).len();
        before_the_first + beyond.map(|(_, lines)| lines.len()).sum::<usize>()
    }
}

/// A line of the sheet given beside the rules' record in its place.
#[derive(Clone, Copy, Debug, PartialEq, Eq)]
pub struct Row {
    pub given: Option<Line>,
    pub rules: Option<Record>,
}

/// What a sheet says and what the rules say, row by row: the rows that begin and those that
/// end alike stand beside each other. Nothing where both say the same.
pub fn side_by_side(given: &[Line], rules: &[Record]) -> Option<Vec<Row>> {
    let same = |(line, record): &(&Line, &Record)| line.record == **record;
    let alike = given.iter().zip(rules).take_while(same).count();
    if alike == given.len() && alike == rules.len() {
        return None;
    }
    let (given_rest, rules_rest) = (&given[alike..], &rules[alike..]);
    let from_end = given_rest.iter().rev().zip(rules_rest.iter().rev());
    let at_end = from_end.take_while(same).count();
    let (given_end, rules_end) = (given.len() - at_end, rules.len() - at_end);
    let rows = given_end.max(rules_end);
    let row = |at: usize| Row {
        given: given[..given_end].get(at).copied(),
        rules: rules[..rules_end].get(at).copied(),
    };
    let ends = given[given_end..].iter().zip(&rules[rules_end..]);
    let ends = ends.map(|(line, record)| Row {
        given: Some(*line),
        rules: Some(*record),
    });
    Some((0..rows).map(row).chain(ends).collect())
}

/// The line's number and its record, then the rules' record; 0 where there is none.
pub fn row(row: &Row) -> Json {
    let number = row.given.map_or(0, |line| line.number as i64);
    let given = row.given.map(|line| line.record);
    Json::list([Json::number(number), maybe(given), maybe(row.rules)])
}

fn maybe(record: Option<Record>) -> Json {
    record.map_or(Json::number(0), |record| fields(&record))
}

/// A record as numbers, as its line has them.
pub fn fields(record: &Record) -> Json {
    let line = record.to_string();
    let numbers = line.split(' ').map(|word| word.parse().unwrap_or(0));
    Json::numbers::<i64>(numbers)
}

#[cfg(test)]
mod tests {
    use super::*;
    use crate::record::parse_sheet;

    fn rows(given: &str, rules: &str) -> String {
        let lines = Given::of(&parse_sheet(given).unwrap());
        let rows = side_by_side(lines.message(1), &parse_sheet(rules).unwrap());
        let rows = rows.unwrap_or_default();
        rows.iter().map(|at| row(at).to_string()).collect()
    }

    const RULES: &str = "64 1 0 0 0\n65 0 1 115 5 4 3\n66 3 205 5\n68 3 0 0 3";

    #[test]
    fn same_lines_have_no_rows() {
        assert_eq!(rows(RULES, RULES), "");
    }

    #[test]
    fn lines_that_begin_and_end_alike_stand_beside_each_other() {
        let missing = "64 1 0 0 0\n66 3 205 5\n68 3 0 0 3";
        let expected = "[1,[64,1,0,0,0],[64,1,0,0,0]][0,0,[65,0,1,115,5,4,3]]\
            [2,[66,3,205,5],[66,3,205,5]][3,[68,3,0,0,3],[68,3,0,0,3]]";
        assert_eq!(rows(missing, RULES), expected);
        let changed = RULES.replace("205 5", "205 6");
        assert!(rows(&changed, RULES).contains("[3,[66,3,205,6],[66,3,205,5]]"));
        let longer = format!("{RULES}\n68 3 1 0 3");
        assert!(rows(&longer, RULES).ends_with("[5,[68,3,1,0,3],0]"));
        assert!(rows("", RULES).starts_with("[0,0,[64,1,0,0,0]]"));
    }

    #[test]
    fn lines_go_with_the_message_that_they_answer() {
        let sheet = "66 3 205 5\n64 2 0 0 0\n71 4 4\n64 2 0 0 0\n64 5 0 0 0\n64 3 0 0 0";
        let given = Given::of(&parse_sheet(sheet).unwrap());
        let count = |message| given.message(message).len();
        assert_eq!([0, 1, 2, 3, 4, 5].map(count), [1, 0, 3, 0, 0, 2]);
        assert_eq!((given.last(), given.beyond(4), given.beyond(5)), (5, 3, 1));
    }
}
