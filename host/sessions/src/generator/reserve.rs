//! What orders show of their quantity.

use super::Generator;
use crate::message::Message;

impl Generator {
    /// The order with a shown quantity, for some orders; now and then one out of range.
    pub(super) fn showing(&mut self, mut order: Message) -> Message {
        if !self.shown.chance(self.shape.reserve) {
            return order;
        }
        if let Message::Order(order) = &mut order {
            order.shows = Some(self.shown_of(order.quantity));
        }
        order
    }

    fn shown_of(&mut self, quantity: u32) -> u32 {
        let most = i64::from(quantity);
        match self.shown.below(50) {
            0 => self.shown.pick(&[0, quantity + 1, u32::MAX]),
            1..=4 => quantity,
            5..=9 => quantity.max(2) - 1,
            10..=19 => 1,
            20..=34 => self.shown.between(1, (most / 3).max(1)) as u32,
            _ => self.shown.between(1, most) as u32,
        }
    }
}
