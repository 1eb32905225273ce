//! The displayed books after each message.

use super::programs::{built, run};
use super::SESSION;
use reference::{one_message, settings, Venue};
use sessions::message::split;
use sessions::profile::Profile;
use sessions::soak::generate;
use sessions::text::encode_session;
use std::path::PathBuf;
use std::sync::OnceLock;

fn books(arguments: &[&str], input: &[u8]) -> (i32, String, String) {
    static PROGRAM: OnceLock<PathBuf> = OnceLock::new();
    run(PROGRAM.get_or_init(|| built("books")), arguments, input)
}

/// What one side of one book shows, by the venue that the reference holds.
fn side(venue: &Venue, place: usize, increment: u32) -> String {
    let head = format!("  series {} {}", place / 2, ["buy", "sell"][place % 2]);
    let mut lines = String::new();
    for order in venue.regular.iter().filter(|order| order.quantity > 0) {
        if 2 * usize::from(order.series) + usize::from(order.side) == place {
            let (shown, price) = (order.quantity - order.reserve, order.price);
            lines += &format!("{head} {shown} at {price}, order {}\n", order.id);
        }
    }
    let order = venue.legging[place];
    if order.quantity > 0 {
        let price = match place % 2 {
            0 => order.price - order.price % increment,
            _ => order.price.next_multiple_of(increment),
        };
        let (quantity, parent) = (order.quantity, order.parent);
        lines += &format!("{head} {quantity} at {price}, legging order of {parent}\n");
    }
    lines
}

/// What the program has to print of a list.
fn expected(list: &[u8]) -> String {
    let mut venue = Venue::fresh();
    let mut lines = String::new();
    for (done, message) in (0..).zip(split(list)) {
        let returned = one_message(&venue, done, message, &mut [0; 10_433]);
        venue = returned.venue;
        lines += &format!("message {}: number {}\n", done + 1, returned.number);
        let increments = settings(&venue, done + 1)
            .expect("a sound venue")
            .increments;
        let sides = (0..16).map(|place| side(&venue, place, increments[place / 2].into()));
        lines.extend(sides);
    }
    lines
}

#[test]
fn the_books_of_the_printed_session() {
    let messages = encode_session(SESSION).expect("the stored session is good");
    let (status, told, _) = books(&[], &messages);
    assert_eq!(status, 0);
    let fifth = "message 5: number 0\n  series 0 buy 8 at 115, legging order of 3\n  \
        series 0 sell 15 at 130, order 1\n  series 1 buy 8 at 75, legging order of 3\n  \
        series 1 sell 12 at 90, order 2\nmessage 6: number 0\n";
    assert!(told.contains(fifth), "{told}");
    assert_eq!(told, expected(&messages));
}

#[test]
fn the_books_of_sessions_of_every_profile() {
    for profile in Profile::ALL {
        let list = generate(profile, 11, 120).concat();
        let (status, told, _) = books(&["-"], &list);
        assert_eq!((status, told), (0, expected(&list)), "{}", profile.name());
    }
}

#[test]
fn no_message_no_book_and_what_is_wrong_is_told() {
    assert_eq!(books(&[], &[]), (0, String::new(), String::new()));
    let (status, told, _) = books(&["--help"], &[]);
    assert!(status == 0 && told.starts_with("usage: books "), "{told}");
    let (status, _, error) = books(&["no-such-file"], &[]);
    assert!(status == 1 && error.contains("no-such-file"), "{error}");
    let (status, _, error) = books(&["a", "b"], &[]);
    assert!(status == 2 && error.contains("too many: b"), "{error}");
}
