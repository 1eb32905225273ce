//! Limited sweeps.

use super::Generator;
use crate::message::{LimitedSweep, Message};

impl Generator {
    /// A sweep, or one that is limited; now and then to a number out of its range, or of
    /// another length than its kind's.
    pub(super) fn sweep(&mut self) -> Message {
        if !self.limited.chance(self.shape.limited) {
            return Message::Sweep;
        }
        match self.limited.below(60) {
            0 => Message::Raw(vec![4, 0, 11, 0]),
            1 => Message::Raw(vec![6, 0, 11, 0, 1, 0]),
            _ => Message::LimitedSweep(LimitedSweep {
                most: self.most_looked_at(),
            }),
        }
    }

    fn most_looked_at(&mut self) -> u8 {
        match self.limited.below(40) {
            0 => self.limited.pick(&[0, 33, 255]),
            1..=4 => self.limited.pick(&[31, 32]),
            5..=14 => 1,
            15..=24 => self.limited.between(2, 4) as u8,
            _ => self.limited.between(1, 32) as u8,
        }
    }
}
