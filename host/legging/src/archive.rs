//! The calls of the archives over slices. All of the wrapper's unsafe code is here.

use crate::c::{legging_arrive, legging_layer_fresh, legging_turn};
use crate::c::{legging_feed, legging_fresh, legging_message, legging_run, legging_settings};
use crate::c::{legging_read_set, legging_write_set};
use crate::layer::{LayerBytes, Turned};
use crate::number::Number;
use crate::venue::VenueBytes;

/// Runs a message list from a fresh venue.
///
/// Messages are taken one by one; one that is refused with 2 to 8 or 11 to 14 is
/// answered and passed over. The number is [`Number::DONE`] when all were done,
/// [`Number::TORN`] when a torn message ended the run, which is answered while
/// nothing after it is read, and [`Number::NO_ROOM`] when the run ended before the
/// first message whose records do not fit into the rest of `report`.
///
/// ```
/// use legging::{records, run, Message, Number};
///
/// // A sweep of the fresh venue: one answer, then zeros.
/// let mut report = [0xFF; 16];
/// assert_eq!(run(&Message::Sweep.encode(), &mut report), Number::DONE);
/// assert_eq!(records(&report).count(), 1);
/// assert_eq!(report[12..], [0; 4]);
/// ```
pub fn run(messages: &[u8], report: &mut [u8]) -> Number {
    // SAFETY: both slices are whole for their lengths and cannot overlap; the
    // call reads the one, writes the other, and keeps neither.
    let number = unsafe {
        legging_run(
            messages.as_ptr(),
            messages.len(),
            report.as_mut_ptr(),
            report.len(),
        )
    };
    Number::new(number)
}

/// Runs the messages that come over two lines, from a fresh venue.
///
/// On a line each message stands after its number, a little-endian u32; numbers count
/// from 1 and rise, and a line may lack some. The message of each number is taken from
/// `main`, or from `spare` where `main` lacks it. The number is [`Number::DONE`] when
/// neither line has more, and [`Number::NO_ROOM`] as of [`run`]. It is
/// [`Number::DIFFERS`] or [`Number::LOST`] where the next message is not to be had:
/// what went before was done. With [`Number::BAD_LINE`], asked of both whole lines
/// first, nothing was done and `report` is all zeros.
///
/// ```
/// use legging::{feed, records, Message, Number};
///
/// // Three sweeps over two lines, each of which lost one.
/// let numbered = |number: u32| [number.to_le_bytes().to_vec(), Message::Sweep.encode()].concat();
/// let main = [numbered(1), numbered(3)].concat();
/// let spare = [numbered(1), numbered(2)].concat();
/// let mut report = [0xFF; 40];
/// assert_eq!(feed(&main, &spare, &mut report), Number::DONE);
/// assert_eq!(records(&report).count(), 3);
/// assert_eq!(feed(&main, &[], &mut report), Number::LOST);
/// assert_eq!(records(&report).count(), 1);
/// ```
pub fn feed(main: &[u8], spare: &[u8], report: &mut [u8]) -> Number {
    // SAFETY: the three slices are whole for their lengths, and `report` cannot overlap
    // the lines; the call reads them, writes `report`, and keeps none.
    let number = unsafe {
        legging_feed(
            main.as_ptr(),
            main.len(),
            spare.as_ptr(),
            spare.len(),
            report.as_mut_ptr(),
            report.len(),
        )
    };
    Number::new(number)
}

/// Writes a fresh venue into venue memory: [`Number::DONE`]. With other than
/// [`VENUE_BYTES`](crate::VENUE_BYTES) bytes the number is [`Number::UNSOUND`], and
/// the memory as it was.
///
/// ```
/// use legging::{fresh_in, Number, VenueBytes, VENUE_BYTES};
///
/// let mut memory = [0xFF; VENUE_BYTES];
/// assert_eq!(fresh_in(&mut memory), Number::DONE);
/// assert_eq!(VenueBytes::from_bytes(memory), VenueBytes::fresh());
/// assert_eq!(fresh_in(&mut memory[1..]), Number::UNSOUND);
/// ```
pub fn fresh_in(venue: &mut [u8]) -> Number {
    // SAFETY: the slice is whole for its length; the call writes it and keeps nothing.
    let number = unsafe { legging_fresh(venue.as_mut_ptr(), venue.len()) };
    Number::new(number)
}

/// Takes the first message of `message` upon a venue; `before` messages went
/// before it, and its own number is one more.
///
/// An accepted message leaves the venue that follows from it. A refused one (1 to 8,
/// 11 to 14) leaves the venue as it was. Both are answered in `report`. With
/// [`Number::UNSOUND`], also where its number is not above that of every edition and
/// generation kept, and with [`Number::NO_ROOM`] nothing was done: the venue is as given
/// and `report` all zeros.
///
/// ```
/// use legging::{one_message, Message, Number, Status, VenueBytes, MOST_BYTES};
///
/// // Closes series 2 of the fresh venue; no message went before.
/// let close = Message::Status(Status { series: 2, status: 0 });
/// let mut venue = VenueBytes::fresh();
/// let mut report = [0; MOST_BYTES];
/// let number = one_message(&mut venue, 0, &close.encode(), &mut report);
/// assert_eq!(number, Number::DONE);
/// assert_eq!(venue.series()[2].status, 0);
/// ```
pub fn one_message(
    venue: &mut VenueBytes,
    before: u32,
    message: &[u8],
    report: &mut [u8],
) -> Number {
    one_message_in(venue.as_mut_bytes(), before, message, report)
}

/// As [`one_message`], upon venue memory of any length: with other than
/// [`VENUE_BYTES`](crate::VENUE_BYTES) bytes the number is [`Number::UNSOUND`].
///
/// ```
/// use legging::{one_message_in, Message, Number};
///
/// // No venue is of 100 bytes.
/// let (mut venue, mut report) = ([0; 100], [0xFF; 12]);
/// let number = one_message_in(&mut venue, 0, &Message::Sweep.encode(), &mut report);
/// assert_eq!(number, Number::UNSOUND);
/// assert_eq!(report, [0; 12]);
/// ```
pub fn one_message_in(venue: &mut [u8], before: u32, message: &[u8], report: &mut [u8]) -> Number {
    // SAFETY: the three slices are whole for their lengths and cannot overlap; the
    // call reads `message`, writes the other two, and keeps none.
    let number = unsafe {
        legging_message(
            venue.as_mut_ptr(),
            venue.len(),
            before,
            message.as_ptr(),
            message.len(),
            report.as_mut_ptr(),
            report.len(),
        )
    };
    Number::new(number)
}

/// Writes the settings of a venue at a message number: eight increments, the
/// percentage, then zeros to the end of the memory: [`Number::DONE`]. With a venue that
/// is unsound or of another length than [`VENUE_BYTES`](crate::VENUE_BYTES), or less
/// memory than [`SETTINGS_BYTES`](crate::SETTINGS_BYTES), the number is
/// [`Number::UNSOUND`] and the memory all zeros.
///
/// ```
/// use legging::{settings_in, Number, VenueBytes, SETTINGS_BYTES};
///
/// let mut told = [0xFF; SETTINGS_BYTES];
/// let number = settings_in(VenueBytes::fresh().as_bytes(), 0, &mut told);
/// assert_eq!(number, Number::DONE);
/// assert_eq!(told, [5, 5, 5, 5, 5, 5, 10, 10, 5]);
/// ```
pub fn settings_in(venue: &[u8], number: u32, settings: &mut [u8]) -> Number {
    // SAFETY: both slices are whole for their lengths and cannot overlap; the call
    // reads the one, writes the other, and keeps neither.
    let number = unsafe {
        legging_settings(
            venue.as_ptr(),
            venue.len(),
            number,
            settings.as_mut_ptr(),
            settings.len(),
        )
    };
    Number::new(number)
}

/// Writes the set of a venue upon which `number` messages were done, then zeros to the end
/// of the memory, and its length, a little-endian u32, into `written`: [`Number::DONE`].
/// Otherwise both are all zeros: with [`Number::UNSOUND`] the venue is unsound, has a
/// message number above `number` or another length than
/// [`VENUE_BYTES`](crate::VENUE_BYTES), or `written` is not of 4 bytes; with
/// [`Number::SHORT_MEMORY`] the set is longer than its memory.
///
/// ```
/// use legging::{write_set_in, Number, VenueBytes, SET_BYTES};
///
/// // The set of a fresh venue is longer than 100 bytes.
/// let (venue, mut written) = (VenueBytes::fresh(), [0xFF; 4]);
/// let mut set = [0xFF; SET_BYTES];
/// let number = write_set_in(venue.as_bytes(), 7, &mut set, &mut written);
/// assert_eq!(number, Number::DONE);
/// assert!(u32::from_le_bytes(written) > 100);
/// let number = write_set_in(venue.as_bytes(), 7, &mut set[..100], &mut written);
/// assert_eq!((number, written), (Number::SHORT_MEMORY, [0; 4]));
/// ```
pub fn write_set_in(venue: &[u8], number: u32, set: &mut [u8], written: &mut [u8]) -> Number {
    // SAFETY: the three slices are whole for their lengths and cannot overlap; the call
    // reads `venue`, writes the other two, and keeps none.
    let number = unsafe {
        legging_write_set(
            venue.as_ptr(),
            venue.len(),
            number,
            set.as_mut_ptr(),
            set.len(),
            written.as_mut_ptr(),
            written.len(),
        )
    };
    Number::new(number)
}

/// Reads a set into venue memory, and the number of its last message, a little-endian u32,
/// into `number`: [`Number::DONE`]. Otherwise these are a fresh venue and all zeros: with
/// [`Number::BAD_SET`] the records are no set; with [`Number::UNSOUND`] its venue is
/// unsound or has a message number above its own, `number` is not of 4 bytes, or `venue`
/// not of [`VENUE_BYTES`](crate::VENUE_BYTES) and then as it was.
///
/// ```
/// use legging::{read_set_in, Number, VENUE_BYTES};
///
/// // No records are no set.
/// let (mut venue, mut number) = ([0xFF; VENUE_BYTES], [0xFF; 4]);
/// assert_eq!(read_set_in(&[], &mut venue, &mut number), Number::BAD_SET);
/// assert_eq!(number, [0; 4]);
/// ```
pub fn read_set_in(set: &[u8], venue: &mut [u8], number: &mut [u8]) -> Number {
    // SAFETY: the three slices are whole for their lengths and cannot overlap; the call
    // reads `set`, writes the other two, and keeps none.
    let number = unsafe {
        legging_read_set(
            set.as_ptr(),
            set.len(),
            venue.as_mut_ptr(),
            venue.len(),
            number.as_mut_ptr(),
            number.len(),
        )
    };
    Number::new(number)
}

/// Writes a layer of four fresh venues into layer memory: [`Number::DONE`]. With other
/// than [`LAYER_BYTES`](crate::LAYER_BYTES) bytes the number is [`Number::UNSOUND`], and
/// the memory as it was.
///
/// ```
/// use legging::{layer_fresh_in, LayerBytes, Number, LAYER_BYTES};
///
/// let mut memory = [0xFF; LAYER_BYTES];
/// assert_eq!(layer_fresh_in(&mut memory), Number::DONE);
/// assert_eq!(LayerBytes::from_bytes(memory), LayerBytes::fresh());
/// assert_eq!(layer_fresh_in(&mut memory[1..]), Number::UNSOUND);
/// ```
pub fn layer_fresh_in(layer: &mut [u8]) -> Number {
    // SAFETY: the slice is whole for its length; the call writes it and keeps nothing.
    let number = unsafe { legging_layer_fresh(layer.as_mut_ptr(), layer.len()) };
    Number::new(number)
}

/// Puts a message at the end of a venue's wait: [`Number::DONE`]. Otherwise the layer is
/// as given: [`Number::NO_VENUE`] for a venue above 3, [`Number::NO_PLACE`] where 8
/// messages wait already or the message is over 32 bytes, and before both
/// [`Number::UNSOUND`].
///
/// ```
/// use legging::{arrive, LayerBytes, Message, Number};
///
/// let mut layer = LayerBytes::fresh();
/// let sweep = Message::Sweep.encode();
/// assert_eq!(arrive(&mut layer, 2, &sweep), Number::DONE);
/// assert_eq!(arrive(&mut layer, 4, &sweep), Number::NO_VENUE);
/// assert_eq!(layer.waiting(), [0, 0, 1, 0]);
/// ```
pub fn arrive(layer: &mut LayerBytes, venue: u32, message: &[u8]) -> Number {
    arrive_in(layer.as_mut_bytes(), venue, message)
}

/// As [`arrive`], upon layer memory of any length: with other than
/// [`LAYER_BYTES`](crate::LAYER_BYTES) bytes the number is [`Number::UNSOUND`].
///
/// ```
/// use legging::{arrive_in, Number};
///
/// // No layer is of 100 bytes.
/// assert_eq!(arrive_in(&mut [0; 100], 0, &[]), Number::UNSOUND);
/// ```
pub fn arrive_in(layer: &mut [u8], venue: u32, message: &[u8]) -> Number {
    // SAFETY: both slices are whole for their lengths and cannot overlap; the call reads
    // `message`, writes `layer`, and keeps neither.
    let number = unsafe {
        legging_arrive(
            layer.as_mut_ptr(),
            layer.len(),
            venue,
            message.as_ptr(),
            message.len(),
        )
    };
    Number::new(number)
}

/// Does the message at the head of the next venue's wait, as [`one_message`] would: the
/// next venue after the one served last, going round, that has a message waiting.
///
/// A turn that serves no venue leaves the layer as given and `report` all zeros: its
/// number is [`Number::DONE`] where nothing waits, [`Number::UNSOUND`], or
/// [`Number::NO_ROOM`], and then the next turn tries the same message again.
///
/// ```
/// use legging::{arrive, turn, LayerBytes, Message, Number, MOST_BYTES};
///
/// // A sweep for venue 2: the next turn does it, and then nothing waits.
/// let mut layer = LayerBytes::fresh();
/// assert_eq!(arrive(&mut layer, 2, &Message::Sweep.encode()), Number::DONE);
/// let mut report = [0; MOST_BYTES];
/// let turned = turn(&mut layer, &mut report);
/// assert_eq!((turned.number(), turned.venue()), (Number::DONE, Some(2)));
/// assert_eq!(turn(&mut layer, &mut report).venue(), None);
/// ```
pub fn turn(layer: &mut LayerBytes, report: &mut [u8]) -> Turned {
    turn_in(layer.as_mut_bytes(), report)
}

/// As [`turn`], upon layer memory of any length: with other than
/// [`LAYER_BYTES`](crate::LAYER_BYTES) bytes the number is [`Number::UNSOUND`].
///
/// ```
/// use legging::{turn_in, Number};
///
/// // No layer is of 100 bytes.
/// let turned = turn_in(&mut [0; 100], &mut []);
/// assert_eq!((turned.number(), turned.venue()), (Number::UNSOUND, None));
/// ```
pub fn turn_in(layer: &mut [u8], report: &mut [u8]) -> Turned {
    // SAFETY: both slices are whole for their lengths and cannot overlap; the call writes
    // them and keeps neither.
    let turned = unsafe {
        legging_turn(
            layer.as_mut_ptr(),
            layer.len(),
            report.as_mut_ptr(),
            report.len(),
        )
    };
    Turned::new(turned)
}
