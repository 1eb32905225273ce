//! Values of JSON, and what changed from one to the next.

use std::collections::BTreeMap;
use std::fmt::{self, Display, Write};

#[derive(Clone, Debug, PartialEq, Eq)]
pub enum Json {
    Null,
    Number(i64),
    Text(String),
    List(Vec<Json>),
    /// No value in it is null: in a change, null says that a key is gone.
    Keyed(BTreeMap<String, Json>),
}

impl Json {
    pub fn text(text: &str) -> Json {
        Json::Text(text.to_string())
    }

    /// A list of numbers.
    pub fn numbers<N: Into<i64>>(numbers: impl IntoIterator<Item = N>) -> Json {
        Json::list(numbers.into_iter().map(Json::number))
    }

    pub fn number(number: impl Into<i64>) -> Json {
        Json::Number(number.into())
    }

    /// A number, or null where there is none.
    pub fn maybe(number: Option<impl Into<i64>>) -> Json {
        number.map_or(Json::Null, Json::number)
    }

    pub fn list(values: impl IntoIterator<Item = Json>) -> Json {
        Json::List(values.into_iter().collect())
    }

    pub fn keyed<K: Display>(entries: impl IntoIterator<Item = (K, Json)>) -> Json {
        let entries = entries.into_iter();
        Json::Keyed(entries.map(|(key, of)| (key.to_string(), of)).collect())
    }

    /// An object of the parts that there are.
    pub fn of_some<K: Display>(parts: impl IntoIterator<Item = (K, Option<Json>)>) -> Json {
        let parts = parts.into_iter();
        Json::keyed(parts.filter_map(|(key, part)| Some((key, part?))))
    }

    /// This object with one part more, if there is one.
    pub fn with(mut self, key: &str, part: Option<Json>) -> Json {
        if let (Json::Keyed(entries), Some(part)) = (&mut self, part) {
            entries.insert(key.to_string(), part);
        }
        self
    }

    /// Nothing where it is an empty list or object.
    pub fn unless_empty(self) -> Option<Json> {
        match &self {
            Json::List(values) if values.is_empty() => None,
            Json::Keyed(entries) if entries.is_empty() => None,
            _ => Some(self),
        }
    }

    /// The value of a key.
    pub fn get(&self, key: &str) -> Option<&Json> {
        match self {
            Json::Keyed(entries) => entries.get(key),
            _ => None,
        }
    }

    /// The values of a list; none of anything else.
    pub fn items(&self) -> &[Json] {
        match self {
            Json::List(values) => values,
            _ => &[],
        }
    }

    /// The number that it is.
    pub fn as_number(&self) -> Option<i64> {
        match self {
            Json::Number(number) => Some(*number),
            _ => None,
        }
    }

    /// The text that it is.
    pub fn as_text(&self) -> Option<&str> {
        match self {
            Json::Text(text) => Some(text),
            _ => None,
        }
    }

    /// What changes this value into another; nothing where both are the same.
    ///
    /// Of two objects it is an object of the keys that differ, null for one that is gone. Of two
    /// lists of one length it is an object of the places that differ, where that is shorter
    /// than the list. All else is replaced.
    pub fn change_to(&self, after: &Json) -> Option<Json> {
        if self == after {
            return None;
        }
        match (self, after) {
            (Json::Keyed(old), Json::Keyed(new)) => Some(change_of_keys(old, new)),
            (Json::List(old), Json::List(new)) if old.len() == new.len() => {
                let places = Json::Keyed(change_of_places(old, new));
                let is_shorter = places.to_string().len() < after.to_string().len();
                Some(if is_shorter { places } else { after.clone() })
            }
            _ => Some(after.clone()),
        }
    }

    /// This value once a change is made to it: what the script of a page does.
    pub fn changed_by(&self, change: &Json) -> Json {
        let Json::Keyed(changes) = change else {
            return change.clone();
        };
        match self {
            Json::List(values) => {
                let mut values = values.clone();
                for (place, value) in values.iter_mut().enumerate() {
                    if let Some(change) = changes.get(&place.to_string()) {
                        *value = value.changed_by(change);
                    }
                }
                Json::List(values)
            }
            Json::Keyed(entries) => Json::Keyed(with_keys_changed(entries, changes)),
            _ => change.clone(),
        }
    }
}

type Entries = BTreeMap<String, Json>;

fn change_of_keys(old: &Entries, new: &Entries) -> Json {
    let gone = old.keys().filter(|key| !new.contains_key(*key));
    let mut changes: Entries = gone.map(|key| (key.clone(), Json::Null)).collect();
    for (key, value) in new {
        let change = match old.get(key) {
            Some(before) => before.change_to(value),
            None => Some(value.clone()),
        };
        changes.extend(change.map(|change| (key.clone(), change)));
    }
    Json::Keyed(changes)
}

fn change_of_places(old: &[Json], new: &[Json]) -> Entries {
    let pairs = old.iter().zip(new).enumerate();
    pairs
        .filter_map(|(place, (old, new))| Some((place.to_string(), old.change_to(new)?)))
        .collect()
}

fn with_keys_changed(entries: &Entries, changes: &Entries) -> Entries {
    let mut entries = entries.clone();
    for (key, change) in changes {
        let changed = match (entries.get(key), change) {
            (_, Json::Null) => {
                entries.remove(key);
                continue;
            }
            (Some(before), change) => before.changed_by(change),
            (None, change) => change.clone(),
        };
        entries.insert(key.clone(), changed);
    }
    entries
}

/// As it stands in a page: no blank between, and no `<`, which could end the script it is in.
impl Display for Json {
    fn fmt(&self, f: &mut fmt::Formatter) -> fmt::Result {
        match self {
            Json::Null => write!(f, "null"),
            Json::Number(number) => write!(f, "{number}"),
            Json::Text(text) => write_text(f, text),
            Json::List(values) => {
                f.write_char('[')?;
                for (at, value) in values.iter().enumerate() {
                    write!(f, "{}{value}", if at > 0 { "," } else { "" })?;
                }
                f.write_char(']')
            }
            Json::Keyed(entries) => {
                f.write_char('{')?;
                for (at, (key, value)) in entries.iter().enumerate() {
                    f.write_str(if at > 0 { "," } else { "" })?;
                    write_text(f, key)?;
                    write!(f, ":{value}")?;
                }
                f.write_char('}')
            }
        }
    }
}

fn write_text(f: &mut fmt::Formatter, text: &str) -> fmt::Result {
    f.write_char('"')?;
    for letter in text.chars() {
        match letter {
            '"' => f.write_str("\\\"")?,
            '\\' => f.write_str("\\\\")?,
            '<' | '\u{2028}' | '\u{2029}' | '\0'..='\u{1f}' => {
                write!(f, "\\u{:04x}", u32::from(letter))?;
            }
            _ => f.write_char(letter)?,
        }
    }
    f.write_char('"')
}

#[cfg(test)]
mod tests {
    use super::*;

    fn order(values: [i64; 3]) -> Json {
        Json::numbers(values)
    }

    /// The change is what is written, and leads from the one to the other.
    fn changes(old: &Json, new: &Json, written: &str) {
        let change = old.change_to(new).unwrap();
        assert_eq!(change.to_string(), written);
        assert_eq!(old.changed_by(&change), *new);
    }

    #[test]
    fn text_is_written_so_that_nothing_ends_the_script() {
        let told = Json::text("a \"b\" \\ </script>\n");
        let written = "\"a \\\"b\\\" \\\\ \\u003c/script>\\u000a\"";
        assert_eq!(told.to_string(), written);
    }

    #[test]
    fn equal_values_have_no_change() {
        let one = Json::keyed([(3, order([1, 2, 3]))]);
        assert_eq!(one.change_to(&one.clone()), None);
    }

    #[test]
    fn keys_come_change_and_go() {
        let old = Json::keyed([(3, order([100, 200, 300])), (4, order([1, 2, 3]))]);
        let new = Json::keyed([(3, order([100, 201, 300])), (5, order([7, 8, 9]))]);
        changes(&old, &new, "{\"3\":{\"1\":201},\"4\":null,\"5\":[7,8,9]}");
    }

    #[test]
    fn short_lists_and_other_lengths_are_replaced() {
        changes(&order([1, 2, 3]), &order([4, 5, 3]), "[4,5,3]");
        let longer = Json::numbers([1, 2, 3, 4]);
        changes(&order([1, 2, 3]), &longer, "[1,2,3,4]");
    }

    #[test]
    fn null_in_a_list_is_a_value() {
        let old = Json::list([Json::text("a long text stays"), Json::number(5), Json::Null]);
        let new = Json::list([Json::text("a long text stays"), Json::Null, Json::number(6)]);
        changes(&old, &new, "{\"1\":null,\"2\":6}");
    }
}
