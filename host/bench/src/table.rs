//! Markdown.

use crate::race::Both;

pub fn header(columns: &[&str]) -> String {
    let names = columns.join(" | ");
    let rule = vec!["---"; columns.len()].join("|");
    format!("| {names} |\n|{rule}|\n")
}

pub fn row(cells: &[String]) -> String {
    format!("| {} |\n", cells.join(" | "))
}

/// Whole numbers with a comma between thousands.
pub fn number(value: f64) -> String {
    let digits = format!("{:.0}", value.abs());
    let mut text = String::new();
    for (index, digit) in digits.chars().enumerate() {
        if index > 0 && (digits.len() - index).is_multiple_of(3) {
            text.push(',');
        }
        text.push(digit);
    }
    let sign = if value <= -0.5 { "-" } else { "" };
    format!("{sign}{text}")
}

/// Least and median of the rounds.
pub fn pair(least: f64, median: f64) -> String {
    format!("{} / {}", number(least), number(median))
}

pub fn ratio(both: &Both<f64>) -> String {
    format!("{:.2}", both.ratio())
}

#[cfg(test)]
mod tests {
    use super::*;

    #[test]
    fn thousands_are_parted() {
        assert_eq!(number(0.4), "0");
        assert_eq!(number(999.6), "1,000");
        assert_eq!(number(1_234_567.0), "1,234,567");
        assert_eq!(number(-1_234.0), "-1,234");
        assert_eq!(number(-0.2), "0");
    }
}
