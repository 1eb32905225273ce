//! The editions of a venue, and the settings in force at a message number.

use crate::types::{Edition, Settings, PERCENT};
use crate::wire::valid_setting;

impl Settings {
    /// A figure is set from here on.
    pub fn set(&mut self, figure: u8, value: u8) {
        if figure == PERCENT {
            self.percent = value;
        } else {
            self.increments[usize::from(figure)] = value;
        }
    }

    /// Of each figure the last that a message numbered no higher has entered.
    pub fn at(editions: &[Edition], number: u32) -> Settings {
        let mut settings = Settings::FIRST;
        let entered = editions.iter().take_while(|entry| entry.number <= number);
        entered.for_each(|entry| settings.set(entry.figure, entry.value));
        settings
    }
}

/// The editions held: first, valid, rising from 0 in both numbers; the free places
/// after them all zero.
pub fn held_editions(editions: &[Edition]) -> Option<&[Edition]> {
    let count = editions.iter().position(|entry| entry.edition == 0);
    let (held, free) = editions.split_at(count.unwrap_or(editions.len()));
    let mut before = Edition::default();
    let valid = held.iter().all(|entry| {
        let rises = entry.edition > before.edition && entry.number > before.number;
        before = *entry;
        rises && valid_setting(entry.figure, entry.value)
    });
    let sound = valid && free.iter().all(|entry| *entry == Edition::default());
    sound.then_some(held)
}

#[cfg(test)]
mod tests {
    use super::*;

    fn entry(edition: u32, number: u32, figure: u8, value: u8) -> Edition {
        Edition {
            edition,
            number,
            figure,
            value,
        }
    }

    #[test]
    fn a_setting_holds_from_its_own_message_to_the_next_of_its_figure() {
        let editions = [
            entry(3, 10, 2, 1),
            entry(4, 20, PERCENT, 50),
            entry(9, 30, 2, 10),
        ];
        let told = |number| {
            let settings = Settings::at(&editions, number);
            (settings.increments[2], settings.percent)
        };
        assert_eq!(Settings::at(&editions, 0), Settings::FIRST);
        assert_eq!(told(9), (5, 5));
        assert_eq!(told(10), (1, 5));
        assert_eq!(told(19), (1, 5));
        assert_eq!(told(20), (1, 50));
        assert_eq!(told(30), (10, 50));
        assert_eq!(told(u32::MAX), (10, 50));
    }

    #[test]
    fn both_numbers_rise_from_above_0() {
        let free = Edition::default();
        let first = entry(1, 1, 0, 1);
        assert_eq!(held_editions(&[free; 3]), Some(&[][..]));
        assert_eq!(held_editions(&[first; 1]), Some(&[first][..]));
        for second in [
            entry(1, 2, 0, 5),
            entry(2, 1, 0, 5),
            entry(0, 2, 0, 5),
            entry(2, 0, 0, 5),
            entry(2, 2, 9, 5),
            entry(2, 2, 0, 2),
            entry(2, 2, PERCENT, 51),
        ] {
            assert_eq!(held_editions(&[first, second]), None, "{second:?}");
            assert_eq!(held_editions(&[free, second]), None, "{second:?}");
        }
        let second = entry(2, 2, PERCENT, 50);
        assert_eq!(
            held_editions(&[first, second, free]).map(<[_]>::len),
            Some(2)
        );
        assert_eq!(held_editions(&[first, free, second]), None);
    }
}
