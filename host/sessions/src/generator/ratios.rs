//! Ratios of complex orders.

use super::Generator;
use crate::view::{ratios_of, Part};
use reference::Complex;

const UNEQUAL: [[u8; 2]; 6] = [[1, 2], [2, 1], [1, 3], [3, 1], [2, 3], [3, 2]];

/// Whether an order of these is of kind 2.
pub(super) fn is_even(parts: [Part; 2]) -> bool {
    parts.iter().all(|part| part.ratio == 1)
}

impl Generator {
    /// Unequal ratios for some orders, one against one for the others.
    pub(super) fn new_ratios(&mut self) -> [u8; 2] {
        if self.ratios.chance(self.shape.ratios) {
            self.ratios.pick(&UNEQUAL)
        } else {
            [1, 1]
        }
    }

    /// Mostly the ratios of another order, so that both cross or compete.
    pub(super) fn ratios_like(&mut self, other: &Complex) -> [u8; 2] {
        if self.ratios.chance(10) {
            self.new_ratios()
        } else {
            ratios_of(other)
        }
    }

    /// The ratio bytes of an order: none of kind 2, and of kind 10 now and then some that
    /// are out of range, or equal.
    pub(super) fn ratio_bytes(&mut self, parts: [Part; 2]) -> Option<[u8; 2]> {
        if is_even(parts) {
            return None;
        }
        let [first, second] = parts.map(|part| part.ratio as u8);
        let bytes = match self.ratios.below(50) {
            0 => [first, self.ratios.pick(&[0, 4, 255])],
            1 => [self.ratios.pick(&[0, 4, 255]), second],
            2 => [second, second],
            3 => [1, 1],
            _ => [first, second],
        };
        Some(bytes)
    }
}
