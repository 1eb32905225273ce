//! Increments and the percentage of the band as a caller reads them from a venue:
//! each with the edition that set it. Nothing here is shared with the reference
//! but its types.

use crate::message::Message;
use reference::{Edition, Venue};
use std::fmt::{self, Display};

/// The figure that is the percentage; a lower one is the increment of that series.
pub const PERCENT: u8 = 8;

/// A figure's value with the edition that set it; edition 0 was entered by no
/// message.
#[derive(Clone, Copy, Debug, PartialEq, Eq)]
pub struct Figure {
    pub value: u8,
    pub edition: u32,
    pub number: u32,
}

/// The eight increments, then the percentage.
#[derive(Clone, Copy, Debug, PartialEq, Eq)]
pub struct InForce {
    figures: [Figure; 9],
}

impl InForce {
    /// Edition 0.
    pub fn first() -> Self {
        let first = |value| Figure {
            value,
            edition: 0,
            number: 0,
        };
        InForce {
            figures: [5, 5, 5, 5, 5, 5, 10, 10, 5].map(first),
        }
    }

    /// What holds at a message number: of each figure the last entered by a message
    /// numbered no higher.
    pub fn at(venue: &Venue, number: u32) -> Self {
        let mut in_force = InForce::first();
        for entry in held_editions(venue).filter(|entry| entry.number <= number) {
            in_force.enter(entry);
        }
        in_force
    }

    /// What holds for the next message upon a venue.
    pub fn of(venue: &Venue) -> Self {
        InForce::at(venue, u32::MAX)
    }

    /// Takes the editions in their order, one by one.
    pub fn enter(&mut self, entry: &Edition) {
        self.figures[usize::from(entry.figure)] = Figure {
            value: entry.value,
            edition: entry.edition,
            number: entry.number,
        };
    }

    pub fn increment(&self, series: u8) -> Figure {
        self.figures[usize::from(series)]
    }

    pub fn percent(&self) -> Figure {
        self.figures[usize::from(PERCENT)]
    }

    /// The values alone: eight increments and the percentage.
    pub fn values(&self) -> [u8; 9] {
        self.figures.map(|figure| figure.value)
    }
}

/// What a figure is, in words.
pub fn figure_name(figure: u8) -> String {
    match figure {
        PERCENT => "percent".to_string(),
        series => format!("increment of series {series}"),
    }
}

/// The nine figures, a line each.
impl Display for InForce {
    fn fmt(&self, f: &mut fmt::Formatter) -> fmt::Result {
        for (figure, held) in (0..).zip(&self.figures) {
            writeln!(f, "{}: {held}", figure_name(figure))?;
        }
        Ok(())
    }
}

/// What a setting enters by the message of a number; none of another message.
pub fn entered_by(message: &Message, number: u32) -> Option<Edition> {
    let (edition, figure, value) = match message {
        Message::Increment(set) => (set.edition, set.series, set.increment),
        Message::Percent(set) => (set.edition, PERCENT, set.percent),
        _ => return None,
    };
    Some(Edition {
        edition,
        number,
        figure,
        value,
    })
}

/// The editions of a venue's row, up to the first free place.
pub fn held_editions(venue: &Venue) -> impl Iterator<Item = &Edition> {
    venue.editions.iter().take_while(|entry| entry.edition > 0)
}

/// The last edition and the number of its message; 0 and 0 where there is none.
pub fn last_edition(venue: &Venue) -> (u32, u32) {
    let last = held_editions(venue).last();
    last.map_or((0, 0), |entry| (entry.edition, entry.number))
}

/// The value, the edition and the message that entered it.
impl Display for Figure {
    fn fmt(&self, f: &mut fmt::Formatter) -> fmt::Result {
        match (self.edition, self.number) {
            (0, _) => write!(f, "{} (edition 0)", self.value),
            (edition, number) => {
                write!(f, "{} (edition {edition}, message {number})", self.value)
            }
        }
    }
}
