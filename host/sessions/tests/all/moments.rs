//! No better price passed over (request (i)): sheets replayed by their records alone,
//! whole ones and spoiled ones.

use crate::common::{bytes, sheet, venue_after, with_legging};
use reference::{one_message, Venue};
use sessions::message::{split, Message};
use sessions::moments::{check_moments, replay_sheet, Parties};
use sessions::profile::Profile;
use sessions::random::Random;
use sessions::record::{
    parse_sheet, read_report, Cancelled, Cross, Generated, Pair, Record, Removed, Trade,
};
use sessions::sheet::run_whole;
use sessions::soak::generate;

/// What the replay of a sheet of a session finds.
fn faults_of(session: &str, sheet: &str) -> Vec<String> {
    let list = bytes(session);
    replay_sheet(&split(&list), &parse_sheet(sheet).unwrap()).faults
}

/// What it finds once lines of the session's own sheet are changed.
fn spoiled(session: &str, right: &str, wrong: &str) -> Vec<String> {
    let whole = sheet(session);
    assert_eq!(whole.matches(right).count(), 1, "{right}\n{whole}");
    faults_of(session, &whole.replace(right, wrong))
}

/// Two bids, and an order that takes both.
const BIDS: &str = "order 1 buy 2 series 0 at 120\norder 2 buy 3 series 0 at 115\n\
    order 3 sell 5 series 0 at 115\n";

/// A bid with reserve before one at a worse price, and an order that takes reserve.
const RESERVE: &str = "order 1 buy 6 series 0 at 120 shows 1\norder 2 buy 4 series 0 at 115\n\
    order 3 sell 4 series 0 at 115\n";

/// A regular and a legging order at 115, and an order that takes both.
fn equal() -> String {
    with_legging("order 4 buy 2 series 0 at 115\norder 5 sell 6 series 0 at 115\n")
}

#[test]
fn whole_sheets_hold_and_their_moments_are_told() {
    let sessions = [
        (BIDS.to_string(), [2, 0, 0, 0]),
        (RESERVE.to_string(), [2, 0, 0, 0]),
        (equal(), [1, 1, 1, 0]),
        (ABOVE_TAKER.to_string(), [0, 0, 0, 1]),
        (TOUCHED.to_string(), [0, 0, 2, 0]),
    ];
    for (session, expected) in sessions {
        let list = bytes(&session);
        let records = parse_sheet(&sheet(&session)).unwrap();
        let replayed = replay_sheet(&split(&list), &records);
        assert_eq!(replayed.faults, Vec::<String>::new(), "{session}");
        let count = |parties| {
            let moments = replayed.moments.iter();
            moments.filter(|moment| moment.parties == parties).count()
        };
        assert_eq!(Parties::ALL.map(|(parties, _)| count(parties)), expected);
    }
}

#[test]
fn trades_swapped_are_named() {
    let [first, second] = ["65 0 1 120 2 3 1\n", "65 0 1 115 3 3 2\n"];
    let (right, wrong) = (format!("{first}{second}"), format!("{second}{first}"));
    let expected = "line 4 (message 3): record \"65 0 1 115 3 3 2\" passes over 2 that order 1 \
        shows at 120";
    assert_eq!(spoiled(BIDS, &right, &wrong), [expected]);
}

#[test]
fn trade_at_a_worse_price_is_named_and_one_at_a_better_price_has_no_maker() {
    let cases = [
        ("119", "passes over 2 that order 1 shows at 120"),
        ("115", "passes over 2 that order 1 shows at 120"),
    ];
    for (price, expected) in cases {
        let wrong = format!("65 0 1 {price} 2 3 1");
        let found = spoiled(BIDS, "65 0 1 120 2 3 1", &wrong);
        let named = format!("line 4 (message 3): record \"{wrong}\" {expected}");
        assert_eq!(found[0], named);
    }
    let found = spoiled(BIDS, "65 0 1 120 2 3 1", "65 0 1 121 2 3 1");
    let named = "line 4 (message 3): record \"65 0 1 121 2 3 1\": order 1 does not have 2 there \
        at 121";
    assert_eq!(found, [named]);
}

#[test]
fn best_of_what_was_passed_over_is_named() {
    let session = "order 1 buy 1 series 0 at 120\norder 2 buy 1 series 0 at 125\n\
        order 3 buy 1 series 0 at 115\norder 4 sell 3 series 0 at 115\n";
    let trades = "65 0 1 125 1 4 2\n65 0 1 120 1 4 1\n65 0 1 115 1 4 3\n";
    let turned = "65 0 1 115 1 4 3\n65 0 1 120 1 4 1\n65 0 1 125 1 4 2\n";
    assert_eq!(
        spoiled(session, trades, turned),
        [
            "line 5 (message 4): record \"65 0 1 115 1 4 3\" passes over 1 that order 2 shows at 125",
            "line 6 (message 4): record \"65 0 1 120 1 4 1\" passes over 1 that order 2 shows at 125",
        ]
    );
}

#[test]
fn offers_are_better_the_lower_they_are() {
    let session = "order 1 sell 2 series 0 at 120\norder 2 sell 3 series 0 at 125\n\
        order 3 buy 5 series 0 at 125\n";
    let [first, second] = ["65 0 0 120 2 3 1\n", "65 0 0 125 3 3 2\n"];
    let (right, wrong) = (format!("{first}{second}"), format!("{second}{first}"));
    let expected = "line 4 (message 3): record \"65 0 0 125 3 3 2\" passes over 2 that order 1 \
        shows at 120";
    assert_eq!(spoiled(session, &right, &wrong), [expected]);
}

#[test]
fn trade_left_out_stays_in_the_books_and_is_passed_over() {
    let found = spoiled(BIDS, "65 0 1 120 2 3 1\n", "");
    assert_eq!(
        found,
        [
            "line 4 (message 3): record \"65 0 1 115 3 3 2\" passes over 2 that order 1 shows at 120",
            "after message 3: the records lead to \"order 1: buy series 0 at 120, 2 left, 2 of 2 \
             shown\", the venue has nothing else",
        ]
    );
}

/// The hit of an order's legging order, with all that follows from it.
const HIT: &str = "65 0 1 115 4 5 3\n65 1 0 90 4 3 2\n66 3 205 4\n68 3 0 0 3\n68 3 1 0 3\n";

#[test]
fn legging_order_before_an_equal_price_is_named() {
    let regular = "65 0 1 115 2 5 4\n";
    let (right, wrong) = (format!("{regular}{HIT}"), format!("{HIT}{regular}"));
    let expected = "line 10 (message 7): record \"65 0 1 115 4 5 3\" takes the legging order of 3 \
        before 2 that order 4 shows at 115";
    assert_eq!(spoiled(&equal(), &right, &wrong), [expected]);
}

#[test]
fn legging_order_before_equal_reserve_is_named() {
    let rest = "order 4 buy 2 series 0 at 115 shows 1\norder 5 sell 6 series 0 at 115\n";
    let [shown, reserve] = ["65 0 1 115 1 5 4\n"; 2];
    let right = format!("{shown}{reserve}{HIT}");
    let wrong = format!("{shown}{HIT}{reserve}");
    let expected = "line 11 (message 7): record \"65 0 1 115 4 5 3\" takes the legging order of 3 \
        before 1 in reserve of order 4 at 115";
    assert_eq!(spoiled(&with_legging(rest), &right, &wrong), [expected]);
}

#[test]
fn legging_order_passed_over_by_a_regular_order_is_named() {
    let session = with_legging("order 4 buy 2 series 0 at 110\norder 5 sell 6 series 0 at 110\n");
    let hit = HIT
        .replace("115 4 5", "115 6 5")
        .replace(" 4 3 2", " 6 3 2");
    let hit = hit.replace("66 3 205 4", "66 3 205 6");
    let regular = "65 0 1 110 2 5 4\n";
    let expected =
        "line 10 (message 7): record \"65 0 1 110 2 5 4\" passes over the legging order \
        of 3 at 115";
    let found = spoiled(&session, &hit, &format!("{regular}{hit}"));
    assert_eq!(found[0], expected);
}

/// A complex order that touches a legging order at 120 and legs in at 125 and 85.
const TOUCHED: &str = "order 1 sell 9 series 0 at 125\norder 2 sell 9 series 1 at 90\n\
    order 3 buy 9 series 1 at 85\naway 0 bid 100 offer 0\n\
    complex 4 sell 0 sell 1 class 0 net -205 quantity 2\n\
    complex 5 buy 0 sell 1 class 0 net 40 quantity 3\n";

#[test]
fn legging_order_that_a_touch_left_standing_is_passed_over() {
    let found = spoiled(TOUCHED, "68 4 0 1 8\n", "");
    let expected = "line 8 (message 6): record \"65 0 0 125 3 5 1\" passes over the legging order \
        of 4 at 120";
    assert_eq!(found[0], expected);
}

#[test]
fn reserve_passed_over_by_a_regular_order_is_named() {
    let right = "65 0 1 120 1 3 1\n65 0 1 120 3 3 1\n";
    let wrong = "65 0 1 120 1 3 1\n65 0 1 115 3 3 2\n";
    let expected = "line 5 (message 3): record \"65 0 1 115 3 3 2\" passes over 5 in reserve of \
        order 1 at 120";
    assert_eq!(spoiled(RESERVE, right, wrong)[0], expected);
}

#[test]
fn complex_order_may_pass_over_reserve_but_no_shown_size() {
    let session = "order 1 sell 15 series 0 at 130 shows 4\norder 2 sell 12 series 1 at 90\n\
        order 3 sell 9 series 0 at 135\ncomplex 4 buy 0 buy 1 class 1 net 225 quantity 20\n";
    let rounds = "65 0 0 130 4 4 1\n65 1 0 90 4 4 2\n66 4 220 4\n65 0 0 135 8 4 3\n";
    assert_eq!(spoiled(session, rounds, rounds), [""; 0]);
    let less = rounds.replace("130 4 4 1", "130 3 4 1");
    let expected = "line 8 (message 4): record \"65 0 0 135 8 4 3\" passes over 1 that order 1 \
        shows at 130";
    assert_eq!(spoiled(session, rounds, &less)[0], expected);
}

#[test]
fn order_shows_again_when_its_message_ends_and_not_before() {
    let session = "order 1 sell 15 series 0 at 130 shows 4\norder 2 sell 24 series 1 at 90\n\
        order 3 sell 9 series 0 at 135\ncomplex 4 buy 0 buy 1 class 1 net 220 quantity 4\n\
        complex 5 buy 0 buy 1 class 1 net 225 quantity 4\n";
    let again = "65 0 0 130 4 5 1\n";
    assert_eq!(spoiled(session, again, again), [""; 0]);
    let expected = "line 9 (message 5): record \"65 0 0 135 4 5 3\" passes over 4 that order 1 \
        shows at 130";
    assert_eq!(spoiled(session, again, "65 0 0 135 4 5 3\n")[0], expected);
}

/// Crosses at a net that the best regular prices of one party allow just so.
const ABOVE_TAKER: &str = "away 0 bid 0 offer 101\naway 1 bid 0 offer 51\n\
    order 1 buy 5 series 0 at 100\norder 2 buy 5 series 1 at 50\n\
    complex 3 buy 0 buy 1 class 0 net 150 quantity 5\n\
    complex 4 sell 0 sell 1 class 0 net -140 quantity 3\n";

#[test]
fn cross_above_the_legs_of_the_taker_is_named() {
    let found = spoiled(ABOVE_TAKER, "70 4 3 -150 3", "70 4 3 -149 3");
    let expected = "line 7 (message 6): record \"70 4 3 -149 3\" is above the legs: net -149 of \
        order 4, -150 by its best regular prices";
    assert_eq!(found, [expected]);
    // The maker has no regular price to buy at.
    let lower = spoiled(ABOVE_TAKER, "70 4 3 -150 3", "70 4 3 -900 3");
    assert_eq!(lower, [""; 0]);
}

#[test]
fn cross_above_the_legs_of_the_maker_is_named() {
    let session = "away 0 bid 99 offer 0\naway 1 bid 49 offer 0\n\
        order 1 sell 5 series 0 at 100\norder 2 sell 5 series 1 at 50\n\
        complex 3 buy 0 buy 1 class 0 net 245 quantity 5 ratio 2 1\n\
        complex 4 sell 1 sell 0 class 0 net -245 quantity 3 ratio 1 2\n";
    assert_eq!(spoiled(session, "70 4 3 -245 3", "70 4 3 -250 3"), [""; 0]);
    let found = spoiled(session, "70 4 3 -245 3", "70 4 3 -251 3");
    let expected = "line 7 (message 6): record \"70 4 3 -251 3\" is above the legs: net 251 of \
        order 3, 250 by its best regular prices";
    assert_eq!(found, [expected]);
}

#[test]
fn records_that_the_books_do_not_have_are_named() {
    let session = equal();
    let whole = sheet(&session);
    let cases = [
        (
            "65 0 1 115 2 5 4",
            "65 0 1 115 2 9 4",
            "order 9 does not rest",
        ),
        (
            "65 0 1 115 2 5 4",
            "65 0 1 115 7 5 4",
            "order 4 does not have 7 there at 115",
        ),
        (
            "65 0 1 115 2 5 4",
            "65 0 1 115 2 5 2",
            "order 2 does not have 2 there at 115",
        ),
        (
            "65 0 1 115 4 5 3",
            "65 0 1 115 9 5 3",
            "order 3 does not have 9 there at 115",
        ),
        (
            "65 1 0 90 4 3 2",
            "65 9 0 90 4 3 2",
            "there is no side 0 of series 9",
        ),
        (
            "65 1 0 90 4 3 2",
            "65 1 7 90 4 3 2",
            "there is no side 7 of series 1",
        ),
        ("66 3 205 4", "66 9 205 4", "order 9 does not rest"),
        ("66 3 205 4", "66 3 205 9", "order 3 has 8 left"),
        (
            "68 3 1 0 3",
            "68 9 1 0 3",
            "no legging order of 9 stands there",
        ),
        (
            "68 3 1 0 3",
            "68 3 1 1 3",
            "no legging order of 3 stands there",
        ),
        ("68 3 1 0 3", "68 3 8 0 3", "there is no side 0 of series 8"),
        (
            "68 3 1 0 3",
            "67 3 1 0 75 75 4",
            "the place is held by the legging order of 3",
        ),
        ("68 3 1 0 3", "70 3 9 0 1", "order 9 does not rest"),
        ("68 3 1 0 3", "71 9 1", "order 9 does not rest"),
        ("68 3 1 0 3", "71 3 9", "order 3 has 4 left"),
    ];
    for (right, wrong, expected) in cases {
        let line = whole.lines().position(|line| line == right).unwrap() + 1;
        let named = format!("line {line} (message 7): record \"{wrong}\": {expected}");
        let found = spoiled(&session, right, wrong);
        assert!(found.contains(&named), "{named}\n{found:?}");
    }
}

#[test]
fn message_accepted_that_cannot_be_is_named() {
    let found = faults_of("order 1 buy 2 series 9 at 120\n", "64 1 0 0 0\n");
    let expected = "line 1 (message 1): a message with a field outside its range was accepted";
    assert_eq!(found, [expected]);
    assert_eq!(faults_of("raw 04 00 63 00\n", "64 1 0 0 0\n"), [expected]);
    let closed = "close 0\norder 1 buy 2 series 0 at 120\n";
    let found = faults_of(closed, "64 1 0 0 0\n64 2 0 0 0\n");
    let line = "after message 2: the records lead to \"order 1: buy series 0 at 120, 2 left, 2 of \
        2 shown\", the venue has \"last id 0\"";
    assert_eq!(found, [line]);
}

#[test]
fn each_part_of_a_venue_is_told_apart() {
    let base = "close 7\nincrement 7 5 1\norder 1 sell 9 series 0 at 130 shows 4\n\
        order 2 sell 12 series 1 at 90\n";
    let last = "complex 3 buy 0 buy 1 class 1 net 205 quantity 8\n";
    let before = venue_after(base);
    let message = Message::decode(&bytes(last));
    let mut report = [0; 1024];
    let left = one_message(&before, 4, &bytes(last), &mut report).venue;
    let records = read_report(&report).unwrap();
    let checked = |after: &Venue| check_moments(&before, 5, &message, &records[1..], after);
    assert!(checked(&left).is_ok());
    let changes: [(fn(&mut Venue), &str); 12] = [
        (
            |venue| venue.regular[0].quantity = 8,
            "at 130, 8 left, 3 of 4 shown",
        ),
        (
            |venue| venue.regular[0].reserve = 4,
            "at 130, 9 left, 5 of 4 shown",
        ),
        (
            |venue| venue.regular[0].display = 5,
            "at 130, 9 left, 4 of 5 shown",
        ),
        (
            |venue| venue.regular[1].price = 95,
            "order 2: sell series 1 at 95",
        ),
        (
            |venue| venue.regular[1].side = 0,
            "order 2: buy series 1 at 90",
        ),
        (
            |venue| venue.complex[0].quantity = 7,
            "class 1 net 205, 7 open",
        ),
        (
            |venue| venue.complex[0].ratio2 = 2,
            "1 buy series 0, 2 buy series 1",
        ),
        (
            |venue| venue.complex[0].limit = 204,
            "class 1 net 204, 8 open",
        ),
        (
            |venue| venue.legging[2].price = 70,
            "buy series 1: legging 4 at 70 of 3",
        ),
        (
            |venue| venue.series[3].offer = 9,
            "series 3: status 1, away 0 and 9",
        ),
        (
            |venue| venue.editions[0].number = 1,
            "edition 1, message 1: increment of series 7 5",
        ),
        (|venue| venue.last = 4, "last id 4"),
    ];
    for (change, expected) in changes {
        let mut after = left.clone();
        change(&mut after);
        let found = checked(&after).unwrap_err();
        let (_, venue) = found.split_once("the venue has ").unwrap();
        assert!(venue.contains(expected), "{expected}: {found}");
    }
}

/// An accepted message with records, and the venues before and after it.
struct Done {
    before: Venue,
    number: u32,
    message: Message,
    effects: Vec<Record>,
    after: Venue,
}

impl Done {
    fn checked(&self, effects: &[Record]) -> Result<(), String> {
        let (number, message) = (self.number, &self.message);
        check_moments(&self.before, number, message, effects, &self.after).map(|_| ())
    }
}

/// The messages with records of a random session of a profile.
fn done(profile: Profile) -> Vec<Done> {
    let mut venue = Venue::fresh();
    let mut messages = Vec::new();
    for (number, piece) in (1..).zip(generate(profile, 11, 600)) {
        let mut report = vec![0; 16_384];
        let returned = one_message(&venue, number - 1, &piece, &mut report);
        let records = read_report(&report[..returned.written]).unwrap();
        let before = std::mem::replace(&mut venue, returned.venue);
        if returned.number == 0 && records.len() > 1 {
            messages.push(Done {
                before,
                number,
                message: Message::decode(&piece),
                effects: records[1..].to_vec(),
                after: venue.clone(),
            });
        }
    }
    messages
}

/// A trade moved by a cent to a worse price for its taker.
fn worse(record: &Record) -> Option<Record> {
    let Record::Trade(mut trade) = *record else {
        return None;
    };
    let worse = 1 - 2 * i32::from(trade.side);
    trade.price = trade.price.wrapping_add_signed(worse);
    Some(Record::Trade(trade))
}

#[test]
fn every_trade_at_a_worse_price_is_found() {
    let mut trades = 0;
    for done in Profile::ALL.into_iter().flat_map(done) {
        assert_eq!(done.checked(&done.effects), Ok(()));
        for (at, record) in done.effects.iter().enumerate() {
            let Some(worse) = worse(record) else {
                continue;
            };
            let mut effects = done.effects.clone();
            effects[at] = worse;
            let found = done.checked(&effects).unwrap_err();
            let named = format!("record \"{worse}\" passes over ");
            assert!(found.starts_with(&named), "{found}");
            trades += 1;
        }
    }
    assert!(trades > 1_000, "{trades}");
}

#[test]
fn every_record_left_out_or_doubled_is_found() {
    for done in Profile::ALL.into_iter().flat_map(done) {
        for at in 0..done.effects.len() {
            let mut less = done.effects.clone();
            let record = less.remove(at);
            assert!(done.checked(&less).is_err(), "without {record}: {less:?}");
            let mut more = done.effects.clone();
            more.insert(at, record);
            assert!(done.checked(&more).is_err(), "{record} twice: {more:?}");
        }
    }
}

/// Taker, series and price of a trade.
fn of_trade(record: &Record) -> Option<(u32, u8, u32)> {
    match *record {
        Record::Trade(trade) => Some((trade.taker, trade.series, trade.price)),
        _ => None,
    }
}

#[test]
fn every_two_trades_in_the_wrong_turn_are_found() {
    let mut swapped = 0;
    for done in Profile::ALL.into_iter().flat_map(done) {
        for at in 1..done.effects.len() {
            let pair = [at - 1, at].map(|at| of_trade(&done.effects[at]));
            let [Some((taker, series, price)), Some((other, same, next))] = pair else {
                continue;
            };
            if (taker, series) != (other, same) || price == next {
                continue;
            }
            let mut effects = done.effects.clone();
            effects.swap(at - 1, at);
            let found = done.checked(&effects).unwrap_err();
            assert!(found.contains("\" passes over "), "{found}");
            swapped += 1;
        }
    }
    assert!(swapped > 20, "{swapped}");
}

/// A number of up to so much, most often a small one.
fn drawn(random: &mut Random, most: u32) -> u32 {
    let limit = match random.below(4) {
        0 => most,
        1 => most.min(150),
        _ => most.min(9),
    };
    random.below(u64::from(limit) + 1) as u32
}

/// A record of any numbers, but with a quantity.
fn any_record(random: &mut Random) -> Record {
    let (any, byte) = (u32::MAX, u32::from(u8::MAX));
    let mut word = |most| drawn(random, most);
    let (id, other, price, series, side) =
        (word(any), word(any), word(any), word(byte), word(byte));
    let (series, side, quantity) = (series as u8, side as u8, word(any).max(1));
    match word(5) {
        0 => Record::Pair(Pair {
            id,
            net: price as i32,
            quantity,
        }),
        1 => Record::Generated(Generated {
            id,
            series,
            side,
            price,
            displayed: price,
            quantity,
        }),
        2 => Record::Removed(Removed {
            id,
            series,
            side,
            cause: 8,
        }),
        3 => Record::Cross(Cross {
            taker: id,
            maker: other,
            net: price as i32,
            quantity,
        }),
        4 => Record::Cancelled(Cancelled { id, quantity }),
        _ => Record::Trade(Trade {
            series,
            side,
            price,
            quantity,
            taker: id,
            maker: other,
        }),
    }
}

#[test]
fn any_record_put_into_a_sheet_is_found() {
    let mut random = Random::new(1);
    for profile in Profile::ALL {
        let pieces = generate(profile, 3, 60);
        let pieces: Vec<&[u8]> = pieces.iter().map(Vec::as_slice).collect();
        let records = read_report(&run_whole(&pieces.concat()).1).unwrap();
        assert_eq!(replay_sheet(&pieces, &records).faults, [""; 0]);
        for _ in 0..40 {
            let mut more = records.clone();
            let (at, record) = (
                1 + random.below(records.len() as u64),
                any_record(&mut random),
            );
            more.insert(at as usize, record);
            let found = replay_sheet(&pieces, &more).faults;
            assert_ne!(found, [""; 0], "{record} before record {at}");
        }
    }
}
