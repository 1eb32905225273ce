//! The settings of a venue at a message number.

use crate::archive::settings_in;
use crate::number::Number;
use crate::venue::VenueBytes;

/// The bytes of the settings: eight increments, then the percentage.
pub const SETTINGS_BYTES: usize = 9;

/// What held at a message number.
#[derive(Clone, Copy, Debug, PartialEq, Eq)]
pub struct Settings {
    /// The increment of each series: 1, 5 or 10.
    pub increments: [u8; 8],
    /// The percentage of the band, 0 to 50.
    pub percent: u8,
}

/// The settings of a venue in force at a message number, any number: of each the last
/// that a message numbered no higher has entered. None where the venue is unsound.
///
/// ```
/// use legging::{settings, VenueBytes};
///
/// let told = settings(&VenueBytes::fresh(), 0).expect("a sound venue");
/// assert_eq!((told.increments[7], told.percent), (10, 5));
/// ```
pub fn settings(venue: &VenueBytes, number: u32) -> Option<Settings> {
    let mut told = [0; SETTINGS_BYTES];
    if settings_in(venue.as_bytes(), number, &mut told) != Number::DONE {
        return None;
    }
    let [increments @ .., percent] = told;
    Some(Settings {
        increments,
        percent,
    })
}
