//! Counts in words.

/// So many of a thing, as `1 message` or `2 messages`.
pub fn counted(count: u64, one: &str) -> String {
    match count {
        1 => format!("1 {one}"),
        count => format!("{count} {one}s"),
    }
}

#[cfg(test)]
mod tests {
    use super::*;

    #[test]
    fn one_is_one_and_others_are_many() {
        let told = [0, 1, 2].map(|count| counted(count, "message"));
        assert_eq!(told, ["0 messages", "1 message", "2 messages"]);
    }
}
