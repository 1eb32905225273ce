//! One order of a session: all that touched it, and why it has no legging order after
//! each message where that changes.

use crate::causes::{hider, no_clear_price};
use crate::explain::{leg_name, About, Explained, Line};
use crate::message::Leg;
use crate::view::{find_complex, legs_of, Declined, View};
use reference::{Complex, Venue};

/// An order that is followed from message to message.
pub struct Followed {
    id: u32,
    /// Of each leg why it had no legging order, as it was told last.
    told: [Option<String>; 2],
    /// Whether something touched it.
    pub was_touched: bool,
}

impl Followed {
    pub fn new(id: u32) -> Self {
        Followed {
            id,
            told: [None, None],
            was_touched: false,
        }
    }

    /// What of a message touched the order, and why it has no legging order after it where
    /// that changed; nothing where neither is told.
    pub fn touched(&mut self, mut explained: Explained, after: &Venue) -> Option<Explained> {
        let id = self.id;
        let touches = |line: &Line| line.orders.contains(&id) && line.about != About::NotGenerated;
        explained.lines.retain(touches);
        self.was_touched |= !explained.lines.is_empty();
        let without = self.without(after, explained.number);
        explained.lines.extend(without);
        (!explained.lines.is_empty()).then_some(explained)
    }

    /// The legs that have no legging order, where the reason is another than before.
    fn without(&mut self, after: &Venue, number: u32) -> Vec<Line> {
        let Some(order) = find_complex(after, self.id) else {
            self.told = [None, None];
            return Vec::new();
        };
        let view = View::of(after);
        let mut lines = Vec::new();
        for (which, leg) in legs_of(order).into_iter().enumerate() {
            let why = why_without(&view, after, order, which, number);
            if let Some(why) = why
                .as_ref()
                .filter(|why| Some(*why) != self.told[which].as_ref())
            {
                let (id, leg) = (self.id, leg_name(leg));
                let words = format!("no legging order of {id}, {leg} after it: {why}");
                lines.push(Line::new(About::Without, words, vec![id]));
            }
            self.told[which] = why;
        }
        lines
    }
}

/// Why a leg of a resting order has no legging order after the message of a number: the
/// first condition of generation that fails; nothing where it has one.
fn why_without(
    view: &View,
    venue: &Venue,
    order: &Complex,
    which: usize,
    number: u32,
) -> Option<String> {
    let leg = legs_of(order)[which];
    if view
        .standing(leg)
        .is_some_and(|made| made.parent == order.id)
    {
        return None;
    }
    let next = number.saturating_add(1);
    let why = match view.generation(next, venue, order, which) {
        Ok(made) => format!(
            "every condition holds, and a sweep would make one of {} at {}",
            made.quantity, made.price
        ),
        Err(Declined::NoClearPrice { series, side }) => {
            let taken = Leg { series, side };
            no_clear_price(taken, view.best(taken), hider(view, taken))
        }
        Err(declined) => declined.to_string(),
    };
    Some(why)
}
