//! A venue as hosts hold it, without padding, in the order of the venue's fields; but
//! reserve and display of the regular orders come after all these, then the ratios of the
//! complex orders, and then the last generations and the id reached. Any value goes to bytes and back, sound or not.

use reference::{Complex, Edition, Legging, Listed, Regular, Venue};

pub const VENUE_BYTES: usize = 4_656;

/// The bytes of a venue.
pub fn to_bytes(venue: &Venue) -> [u8; VENUE_BYTES] {
    let mut writer = Writer {
        bytes: [0; VENUE_BYTES],
        at: 0,
    };
    for order in &venue.regular {
        writer.u32(order.id);
        writer.all(&[order.series, order.side]);
        writer.u32(order.price);
        writer.u32(order.quantity);
    }
    for order in &venue.complex {
        writer.u32(order.id);
        writer.all(&[order.series1, order.side1, order.series2, order.side2]);
        writer.all(&[order.class]);
        writer.u32(order.limit as u32);
        writer.u32(order.quantity);
    }
    for order in &venue.legging {
        writer.u32(order.parent);
        writer.u32(order.price);
        writer.u32(order.quantity);
    }
    for listed in &venue.series {
        writer.all(&[listed.status]);
        writer.u32(listed.bid);
        writer.u32(listed.offer);
    }
    writer.u32(venue.last);
    writer.later_rows(venue);
    writer.bytes
}

/// The venue that bytes stand for.
pub fn from_bytes(bytes: &[u8; VENUE_BYTES]) -> Venue {
    let mut reader = Reader(bytes);
    let mut venue = Venue {
        regular: std::array::from_fn(|_| reader.regular()),
        complex: std::array::from_fn(|_| reader.complex()),
        legging: std::array::from_fn(|_| Legging {
            parent: reader.u32(),
            price: reader.u32(),
            quantity: reader.u32(),
        }),
        series: std::array::from_fn(|_| Listed {
            status: reader.u8(),
            bid: reader.u32(),
            offer: reader.u32(),
        }),
        last: reader.u32(),
        editions: std::array::from_fn(|_| Edition {
            edition: reader.u32(),
            number: reader.u32(),
            figure: reader.u8(),
            value: reader.u8(),
        }),
        ..Venue::fresh()
    };
    for order in &mut venue.regular {
        order.reserve = reader.u32();
        order.display = reader.u32();
    }
    for order in &mut venue.complex {
        order.ratio1 = reader.u8();
        order.ratio2 = reader.u8();
    }
    venue.generations = std::array::from_fn(|_| std::array::from_fn(|_| reader.u32()));
    venue.reached = reader.u32();
    venue
}

struct Writer {
    bytes: [u8; VENUE_BYTES],
    at: usize,
}

impl Writer {
    fn all(&mut self, bytes: &[u8]) {
        self.bytes[self.at..self.at + bytes.len()].copy_from_slice(bytes);
        self.at += bytes.len();
    }

    fn u32(&mut self, number: u32) {
        self.all(&number.to_le_bytes());
    }

    /// The rows that came with requests (d), (e), (g) and (m).
    fn later_rows(&mut self, venue: &Venue) {
        for entry in &venue.editions {
            self.u32(entry.edition);
            self.u32(entry.number);
            self.all(&[entry.figure, entry.value]);
        }
        for order in &venue.regular {
            self.u32(order.reserve);
            self.u32(order.display);
        }
        for order in &venue.complex {
            self.all(&[order.ratio1, order.ratio2]);
        }
        for number in venue.generations.iter().flatten() {
            self.u32(*number);
        }
        self.u32(venue.reached);
    }
}

/// What is left to read.
struct Reader<'a>(&'a [u8]);

impl Reader<'_> {
    fn take<const N: usize>(&mut self) -> [u8; N] {
        let (first, rest) = self.0.split_first_chunk().expect("a venue's length");
        self.0 = rest;
        *first
    }

    fn u8(&mut self) -> u8 {
        u8::from_le_bytes(self.take())
    }

    fn u32(&mut self) -> u32 {
        u32::from_le_bytes(self.take())
    }

    /// The first fields of a regular order; the other two stand in a row of their own.
    fn regular(&mut self) -> Regular {
        Regular {
            id: self.u32(),
            series: self.u8(),
            side: self.u8(),
            price: self.u32(),
            quantity: self.u32(),
            ..Regular::default()
        }
    }

    /// The first fields of a complex order; the ratios stand in a row of their own.
    fn complex(&mut self) -> Complex {
        Complex {
            id: self.u32(),
            series1: self.u8(),
            side1: self.u8(),
            series2: self.u8(),
            side2: self.u8(),
            class: self.u8(),
            limit: self.u32() as i32,
            quantity: self.u32(),
            ..Complex::default()
        }
    }
}

#[cfg(test)]
mod tests {
    use super::*;
    use crate::random::Random;

    #[test]
    fn bytes_go_to_a_venue_and_back() {
        let mut random = Random::new(1);
        let bytes: [u8; VENUE_BYTES] = std::array::from_fn(|_| random.below(256) as u8);
        assert_eq!(to_bytes(&from_bytes(&bytes)), bytes);
    }

    #[test]
    fn the_fresh_venue_is_zero_but_for_its_open_series() {
        let mut bytes = [0; VENUE_BYTES];
        for series in 0..8 {
            bytes[2_528 + 9 * series] = 1;
        }
        assert_eq!(to_bytes(&Venue::fresh()), bytes);
    }

    #[test]
    fn fields_stand_at_their_places() {
        let mut venue = Venue::fresh();
        venue.regular[1].price = 0x0403_0201;
        venue.complex[31].limit = -2;
        venue.legging[15].quantity = 7;
        venue.series[7].offer = 9;
        venue.last = 1;
        venue.editions[31].number = 0x0403_0201;
        venue.editions[31].value = 5;
        venue.regular[0].reserve = 0x0807_0605;
        venue.regular[127].display = 0x0403_0201;
        venue.complex[0].ratio1 = 3;
        venue.complex[31].ratio1 = 1;
        venue.complex[31].ratio2 = 2;
        venue.generations[0][1] = 0x0403_0201;
        venue.generations[7][19] = 9;
        venue.reached = 0x0807_0605;
        let bytes = to_bytes(&venue);
        assert_eq!(bytes[14 + 6..14 + 10], [1, 2, 3, 4]);
        assert_eq!(bytes[1_792 + 31 * 17 + 9..][..4], [0xFE, 0xFF, 0xFF, 0xFF]);
        assert_eq!(bytes[2_336 + 15 * 12 + 8], 7);
        assert_eq!(bytes[2_528 + 7 * 9 + 5], 9);
        assert_eq!(bytes[2_600..2_604], [1, 0, 0, 0]);
        assert_eq!(bytes[2_604 + 31 * 10 + 4..2_924], [1, 2, 3, 4, 0, 5]);
        assert_eq!(bytes[2_924..2_932], [5, 6, 7, 8, 0, 0, 0, 0]);
        assert_eq!(bytes[2_924 + 127 * 8..3_948], [0, 0, 0, 0, 1, 2, 3, 4]);
        assert_eq!(bytes[3_948..3_950], [3, 0]);
        assert_eq!(bytes[3_948 + 31 * 2..4_012], [1, 2]);
        assert_eq!(bytes[4_012 + 4..4_012 + 8], [1, 2, 3, 4]);
        assert_eq!(bytes[4_012 + 7 * 80 + 19 * 4..4_652], [9, 0, 0, 0]);
        assert_eq!(bytes[4_652..], [5, 6, 7, 8]);
    }
}
