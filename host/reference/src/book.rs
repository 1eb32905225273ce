//! The regular orders: one sorted list for each side of each series.

use crate::price::{better, bit, places, Place};
use crate::types::{LEGGING_PLACES, REGULAR_PLACES};

#[derive(Clone, Copy, Debug)]
pub struct Resting {
    pub id: u32,
    pub price: u32,
    /// What is left of it, shown or not.
    pub quantity: u32,
    /// What it shows now; the rest of the quantity is reserve.
    pub shown: u32,
    /// The shown quantity asked for at its entry.
    pub display: u32,
}

impl Resting {
    /// An order that shows the lesser of its shown quantity and what is left of it.
    pub fn showing(id: u32, price: u32, quantity: u32, display: u32) -> Self {
        let shown = display.min(quantity);
        Resting {
            id,
            price,
            quantity,
            shown,
            display,
        }
    }
}

/// What a trade takes from one order.
#[derive(Clone, Copy, Debug, PartialEq, Eq)]
pub struct Fill {
    pub id: u32,
    pub price: u32,
    pub quantity: u32,
}

/// A best price and the total size shown at it.
#[derive(Clone, Copy, Debug, PartialEq, Eq)]
pub struct Level {
    pub price: u32,
    pub size: u32,
}

/// Each side is sorted so that the order with the best price, and of these the
/// earliest, stands last.
#[derive(Clone, Debug, Default)]
pub struct RegularBook {
    sides: [Vec<Resting>; LEGGING_PLACES],
    count: usize,
    /// The sides on which orders with reserve have traded since they last showed again.
    lessened: u16,
}

impl RegularBook {
    pub fn count(&self) -> usize {
        self.count
    }

    pub fn is_full(&self) -> bool {
        self.count >= REGULAR_PLACES
    }

    pub fn is_empty(&self, place: Place) -> bool {
        self.sides[place].is_empty()
    }

    /// The best price at which some size is shown.
    pub fn best(&self, place: Place) -> Option<u32> {
        let mut best_first = self.sides[place].iter().rev();
        let first = best_first.find(|order| order.shown > 0)?;
        Some(first.price)
    }

    /// The best price shown, with all that is shown at it.
    pub fn level(&self, place: Place) -> Option<Level> {
        let price = self.best(place)?;
        let size = self.sides[place]
            .iter()
            .rev()
            .skip_while(|order| order.price != price)
            .take_while(|order| order.price == price)
            .map(|order| order.shown)
            .sum();
        Some(Level { price, size })
    }

    /// The best price at which anything is left, shown or reserve.
    pub fn first_price(&self, place: Place) -> Option<u32> {
        self.sides[place].last().map(|order| order.price)
    }

    /// Makes room for as many orders on each side as these are.
    pub fn make_room(&mut self, places: impl Iterator<Item = Place>) {
        let mut counts = [0; LEGGING_PLACES];
        places.for_each(|place| counts[place] += 1);
        for (side, count) in self.sides.iter_mut().zip(counts) {
            side.reserve(count);
        }
    }

    /// Adds an order that is later than all others on its side.
    pub fn insert(&mut self, place: Place, order: Resting) {
        let side = &mut self.sides[place];
        let at = side.partition_point(|other| better(place, order.price, other.price));
        side.insert(at, order);
        self.count += 1;
    }

    /// Takes up to `most` contracts of what the first order of a side shows, by price
    /// and then by id; those that show nothing are passed over.
    pub fn take_shown(&mut self, place: Place, most: u32) -> Option<Fill> {
        let at = self.sides[place]
            .iter()
            .rposition(|order| order.shown > 0)?;
        let shown = self.sides[place][at].shown;
        Some(self.fill(place, at, shown.min(most)))
    }

    /// Takes up to `most` contracts at the best price of a side: all shown size by id,
    /// and then, where no size is shown at that price, all reserve by id.
    pub fn take_met(&mut self, place: Place, most: u32) -> Option<Fill> {
        let price = self.first_price(place)?;
        if self.best(place) == Some(price) {
            return self.take_shown(place, most);
        }
        let at = self.sides[place].len() - 1;
        let reserve = self.sides[place][at].quantity;
        Some(self.fill(place, at, reserve.min(most)))
    }

    /// Takes contracts from an order, of what it shows while it shows some.
    fn fill(&mut self, place: Place, at: usize, quantity: u32) -> Fill {
        let side = &mut self.sides[place];
        let order = &mut side[at];
        let fill = Fill {
            id: order.id,
            price: order.price,
            quantity,
        };
        order.quantity -= quantity;
        order.shown = order.shown.saturating_sub(quantity);
        if order.quantity == 0 {
            side.remove(at);
            self.count -= 1;
        } else if order.quantity > order.shown {
            self.lessened |= bit(place);
        }
        fill
    }

    /// Each order shows again the lesser of its shown quantity and what is left of it.
    pub fn show_again(&mut self) {
        for place in places(self.lessened) {
            for order in &mut self.sides[place] {
                order.shown = order.display.min(order.quantity);
            }
        }
        self.lessened = 0;
    }

    /// Takes the order with this id out of the book.
    pub fn cancel(&mut self, id: u32) -> Option<Resting> {
        for side in &mut self.sides {
            if let Some(at) = side.iter().position(|order| order.id == id) {
                self.count -= 1;
                return Some(side.remove(at));
            }
        }
        None
    }

    pub fn holds(&self, id: u32) -> bool {
        self.sides.iter().flatten().any(|order| order.id == id)
    }

    /// All orders, side by side.
    pub fn iter(&self) -> impl Iterator<Item = (Place, &Resting)> {
        let sides = self.sides.iter().enumerate();
        sides.flat_map(|(place, side)| side.iter().map(move |order| (place, order)))
    }
}

#[cfg(test)]
mod tests {
    use super::*;

    fn order(id: u32, price: u32, quantity: u32) -> Resting {
        Resting::showing(id, price, quantity, quantity)
    }

    /// Takes `most` at a time until nothing is left: ids and quantities.
    fn taken(book: &mut RegularBook, place: Place, most: u32) -> Vec<(u32, u32)> {
        let fills = std::iter::from_fn(|| book.take_met(place, most));
        fills.map(|fill| (fill.id, fill.quantity)).collect()
    }

    #[test]
    fn best_price_first_then_lowest_id_on_both_sides() {
        let mut book = RegularBook::default();
        for place in [0, 1] {
            for (id, price) in [(1, 100), (2, 110), (3, 90), (4, 110), (5, 90)] {
                book.insert(place, order(id, price, 1));
            }
        }
        let mut ids = |place| -> Vec<u32> {
            let fills = taken(&mut book, place, 9).into_iter();
            fills.map(|(id, _)| id).collect()
        };
        assert_eq!(ids(0), [2, 4, 1, 3, 5]);
        assert_eq!(ids(1), [3, 5, 1, 2, 4]);
    }

    #[test]
    fn level_sums_the_best_price_only() {
        let mut book = RegularBook::default();
        book.insert(1, order(1, 130, 5));
        book.insert(1, order(2, 125, 4));
        book.insert(1, order(3, 125, 3));
        let best = Level {
            price: 125,
            size: 7,
        };
        assert_eq!(book.level(1), Some(best));
        assert_eq!(book.level(0), None);
    }

    /// 2 of 5, all of 3, 1 of 4 at one price; 1 of 6 at a worse one.
    fn with_reserve() -> RegularBook {
        let mut book = RegularBook::default();
        book.insert(0, Resting::showing(1, 115, 5, 2));
        book.insert(0, order(2, 115, 3));
        book.insert(0, Resting::showing(3, 115, 4, 1));
        book.insert(0, Resting::showing(4, 110, 6, 1));
        book
    }

    #[test]
    fn at_each_price_all_shown_size_goes_before_all_reserve() {
        let mut book = with_reserve();
        let expected = [(1, 2), (2, 3), (3, 1), (1, 3), (3, 3), (4, 1), (4, 5)];
        assert_eq!(taken(&mut book, 0, 99), expected);
        assert_eq!(book.count(), 0);
    }

    #[test]
    fn prices_and_sizes_are_of_what_is_shown() {
        let mut book = with_reserve();
        let level = |price, size| Some(Level { price, size });
        assert_eq!(book.level(0), level(115, 6));
        let fills = [2, 3, 1].map(|most| book.take_shown(0, most).map(|fill| fill.id));
        assert_eq!(fills, [Some(1), Some(2), Some(3)]);
        assert_eq!(book.level(0), level(110, 1));
        assert_eq!((book.best(0), book.first_price(0)), (Some(110), Some(115)));
        assert_eq!(book.take_shown(0, 9).map(|fill| fill.quantity), Some(1));
        assert_eq!((book.best(0), book.take_shown(0, 9)), (None, None));
        book.show_again();
        assert_eq!(book.level(0), level(115, 3));
    }

    #[test]
    fn order_shows_again_its_shown_quantity_or_what_is_left() {
        let mut book = with_reserve();
        let shown = |book: &RegularBook| -> Vec<u32> {
            book.iter().map(|(_, order)| order.shown).collect()
        };
        assert_eq!(shown(&book), [1, 1, 3, 2]);
        assert_eq!(taken(&mut book, 1, 1), []);
        for _ in 0..10 {
            book.take_met(0, 1);
        }
        assert_eq!(shown(&book), [1, 0]);
        book.show_again();
        assert_eq!(shown(&book), [1, 1]);
    }
}
