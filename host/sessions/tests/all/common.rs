//! What the tests share.

use reference::{one_message, Returned, Venue};
use sessions::lent::Lent;
use sessions::message::split;
use sessions::record::{print_sheet, read_report};
use sessions::sheet::run_whole;
use sessions::text::encode_session;

/// Message bytes of a text session.
pub fn bytes(text: &str) -> Vec<u8> {
    encode_session(text).unwrap()
}

/// The sheet of a text session.
pub fn sheet(text: &str) -> String {
    let (_, report) = run_whole(&bytes(text));
    print_sheet(&read_report(&report).unwrap())
}

/// The sheet lines of the last message of a text session.
pub fn last_lines(text: &str) -> Vec<String> {
    let sheet = sheet(text);
    let lines: Vec<String> = sheet.lines().map(str::to_string).collect();
    let last = lines.iter().rposition(|line| line.starts_with("64 "));
    lines[last.unwrap()..].to_vec()
}

/// The venue that a text session leaves.
pub fn venue_after(text: &str) -> Venue {
    run_whole(&bytes(text)).0.venue
}

/// The first message upon a venue, with guarded junk memory; tells the sheet too.
pub fn one(venue: &Venue, message: &[u8]) -> (Returned, String) {
    one_after(venue, 0, message)
}

/// A message upon a venue before which so many went.
pub fn one_after(venue: &Venue, before: u32, message: &[u8]) -> (Returned, String) {
    let mut lent = Lent::new();
    let returned = one_message(venue, before, message, lent.lend(16_384));
    let records = read_report(lent.written(returned.written).unwrap()).unwrap();
    (returned, print_sheet(&records))
}

/// A list by one-message calls: the last number, the venue and the report.
pub fn by_calls(list: &[u8]) -> (u8, Venue, Vec<u8>) {
    let mut venue = Venue::fresh();
    let mut number = 0;
    let mut report = Vec::new();
    let mut lent = Lent::new();
    for (before, piece) in split(list).into_iter().enumerate() {
        let returned = one_message(&venue, before as u32, piece, lent.lend(16_384));
        report.extend_from_slice(lent.written(returned.written).unwrap());
        number = returned.number;
        venue = returned.venue;
    }
    (number, venue, report)
}

/// Two series open with an offer in each, as in the trials.
pub const OFFERS: &str = "open 0\nopen 1\n\
    order 1 sell 15 series 0 at 130\norder 2 sell 12 series 1 at 90\n";

pub fn with_offers(rest: &str) -> String {
    format!("{OFFERS}{rest}")
}

/// Offers, then a complex order with two legging orders, at 115 and at 75.
pub fn with_legging(rest: &str) -> String {
    with_offers(&format!(
        "complex 3 buy 0 buy 1 class 1 net 205 quantity 8\n{rest}"
    ))
}
