//! The data of pages, against explain, the audit, the rules and the venues, on sessions of
//! every profile.

use crate::common::bytes;
use reference::{one_message, Complex, Venue};
use sessions::audit::{Auditor, Row, Source, Told};
use sessions::explain::explain;
use sessions::message::{split, Leg};
use sessions::page::{notes, page, Json, Session};
use sessions::profile::Profile;
use sessions::record::{parse_sheet, read_report, Record};
use sessions::sheet::run_whole;
use sessions::soak::generate;
use sessions::view::{held_complex, held_regular, leg_at, legs_of, parts_of, shown};
use sessions::view::{Declined, View};
use std::collections::BTreeMap;

const PRINTED: &str = "status 0 open\nstatus 1 open\norder 1 sell 15 series 0 at 130\n\
    order 2 sell 12 series 1 at 90\ncomplex 3 buy 0 buy 1 class 1 net 205 quantity 8\n\
    order 4 sell 5 series 0 at 115\n";

fn data_of(list: &[u8], sheet: Option<&[Record]>, shown: (u32, u32)) -> Json {
    let session = Session {
        name: "a session",
        list,
        notes: BTreeMap::new(),
        sheet: sheet.map(|records| ("a sheet", records)),
        shown,
    };
    page(&session).unwrap()
}

fn whole(list: &[u8]) -> Json {
    data_of(list, None, (1, u32::MAX))
}

/// A session of each profile, with its data.
fn each_profile(messages: usize, mut look: impl FnMut(Profile, &[u8], &Json)) {
    for (seed, profile) in (7..).zip(Profile::ALL) {
        let list = generate(profile, seed, messages).concat();
        look(profile, &list, &whole(&list));
    }
}

fn of<'a>(value: &'a Json, key: &str) -> &'a Json {
    let found = value.get(key);
    found.unwrap_or_else(|| panic!("no {key} in {value}"))
}

fn steps(data: &Json) -> &[Json] {
    of(data, "steps").items()
}

/// The state before the first message shown, then that after each.
fn states(data: &Json) -> Vec<Json> {
    let mut states = vec![of(data, "start").clone()];
    for step in steps(data) {
        let next = states[states.len() - 1].changed_by(of(step, "change"));
        states.push(next);
    }
    states
}

/// The venues before the first message and after each.
fn venues(list: &[u8]) -> Vec<Venue> {
    let mut venues = vec![Venue::fresh()];
    let mut report = vec![0; 16_384];
    for (before, piece) in split(list).into_iter().enumerate() {
        let returned = one_message(&venues[before], before as u32, piece, &mut report);
        venues.push(returned.venue);
    }
    venues
}

/// A line by its place in the words, or by two of them.
fn line(data: &Json, place: &Json) -> String {
    let word = |place: &Json| {
        let place = place.as_number().unwrap() as usize;
        of(data, "words").items()[place]
            .as_text()
            .unwrap()
            .to_string()
    };
    match place.items() {
        [] => word(place),
        parts => parts.iter().map(word).collect::<Vec<_>>().join(": "),
    }
}

/// The lines of a message: of its records, and of what was not made.
fn lines(data: &Json, step: &Json) -> Vec<String> {
    let parts = ["told", "more"].into_iter().filter_map(|key| step.get(key));
    let places = parts.flat_map(|part| part.items());
    places.map(|place| line(data, place)).collect()
}

#[test]
fn words_are_those_of_explain() {
    each_profile(300, |profile, list, data| {
        let explained = explain(list).unwrap();
        let mut expected = explained.lines();
        for (number, step) in (1..).zip(steps(data)) {
            let text = of(step, "text").as_text().unwrap();
            let text = text.split("... (").next().unwrap();
            let head = expected.next().unwrap();
            assert!(head.starts_with(&format!("{number}: {text}")), "{head}");
            for line in lines(data, step) {
                let expected = expected.next().unwrap();
                assert_eq!(format!("    {line}"), expected, "{}", profile.name());
            }
            let told = of(step, "told").items().len();
            assert_eq!(told, of(step, "records").items().len());
        }
        assert_eq!(expected.next(), None);
    });
}

#[test]
fn records_are_the_lines_of_the_sheet() {
    each_profile(200, |_, list, data| {
        let sheet = read_report(&run_whole(list).1).unwrap();
        let mut at = 0;
        for step in steps(data) {
            assert_eq!(of(step, "line").as_number(), Some(at as i64 + 1));
            for record in of(step, "records").items() {
                let fields = record.to_string();
                let printed = fields.trim_matches(['[', ']']).replace(',', " ");
                assert_eq!(printed, sheet[at].to_string());
                at += 1;
            }
        }
        assert_eq!(at, sheet.len());
    });
}

/// What a keyed part of a state should be.
fn keyed<const N: usize>(entries: impl Iterator<Item = (u32, [i64; N])>) -> String {
    Json::keyed(entries.map(|(key, fields)| (key, Json::numbers(fields)))).to_string()
}

#[test]
fn changes_lead_to_the_books_of_the_venues() {
    each_profile(300, |profile, list, data| {
        for (venue, state) in venues(list).iter().zip(states(data)) {
            let orders = held_regular(venue).map(|order| {
                let (side, reserve) = (i64::from(order.side), i64::from(order.reserve));
                let fields = [order.price, shown(order)].map(i64::from);
                let series = i64::from(order.series);
                (order.id, [series, side, fields[0], fields[1], reserve])
            });
            let name = profile.name();
            assert_eq!(of(&state, "orders").to_string(), keyed(orders), "{name}");
            for (series, listed) in venue.series.iter().enumerate() {
                let told = &of(&state, "series").items()[series].items()[..3];
                let expected = [u32::from(listed.status), listed.bid, listed.offer];
                assert_eq!(Json::list(told.to_vec()), Json::numbers(expected), "{name}");
            }
            let parents = venue.legging.map(|order| order.parent);
            for (place, parent) in parents.into_iter().enumerate() {
                let told = of(&state, "legging").get(&place.to_string());
                let told = told.map_or(Some(0), |order| order.items()[0].as_number());
                assert_eq!(told, Some(i64::from(parent)), "{name}");
            }
            let last = of(&state, "last").as_number();
            assert_eq!(last, Some(i64::from(venue.last)), "{name}");
        }
    });
}

/// A field of an order in a part of a state.
fn field(state: &Json, part: &str, key: impl ToString, at: usize) -> Option<i64> {
    of(of(state, part), &key.to_string()).items()[at].as_number()
}

/// N, O and the highest net in band are those by which the rules decide.
fn check_band(view: &View, state: &Json, order: &Complex) {
    let parts = parts_of(order);
    let told = |at| field(state, "complex", order.id, at);
    assert_eq!(told(5), Some(i64::from(order.limit)));
    assert_eq!(told(6), Some(i64::from(order.quantity)));
    assert_eq!(told(9), view.market_net(parts));
    match told(10) {
        Some(highest) => {
            assert!(view.in_band(highest, parts));
            assert!(!view.in_band(highest + 1, parts));
        }
        None => assert_eq!(view.market_net(parts), None),
    }
}

#[test]
fn figures_are_those_of_the_rules() {
    let mut hidden = 0;
    each_profile(300, |_, list, data| {
        for (venue, state) in venues(list).iter().zip(states(data)) {
            let view = View::of(venue);
            held_complex(venue).for_each(|order| check_band(&view, &state, order));
            for place in 0..16 {
                let side = of(&state, "sides").items()[place].items();
                let [best, size, own, hider] = [0, 1, 2, 3].map(|at| side[at].as_number());
                let level = view.best(leg_at(place));
                assert_eq!(best, level.map(|level| level.price));
                assert_eq!(size, level.map(|level| level.size));
                assert_eq!(own, view.best_own(leg_at(place)));
                let is_hidden = level.is_some() && view.clear(leg_at(place)).is_none();
                assert_eq!(hider.is_some(), is_hidden);
                hidden += usize::from(is_hidden);
            }
        }
    });
    assert!(hidden > 100, "{hidden} sides were not clear");
}

/// The place in the list of conditions of one that fails.
fn place_of(declined: &Declined) -> usize {
    match declined {
        Declined::HasRatios { .. } => 0,
        Declined::NotOpen { .. } => 1,
        Declined::OutOfBand { .. } => 2,
        Declined::NoClearPrice { .. } => 3,
        Declined::DisplayedOutOfRange { .. } => 4,
        Declined::WorseThanBook { .. } => 5,
        Declined::ReachesOwn { .. } => 6,
        Declined::ReachesAway { .. } => 7,
        Declined::PlaceHeld { .. } => 8,
        Declined::OtherWouldFail { .. } => 9,
        Declined::AtCeiling { .. } => 10,
    }
}

/// The first condition told to fail is the one at which generation stops; tells its place.
fn check_leg(state: &Json, number: u32, venue: &Venue, order: &Complex, which: usize) -> usize {
    let leg = of(of(state, "legs"), &order.id.to_string()).items()[which].items();
    let answers = leg[0].as_text().unwrap();
    assert_eq!(answers.len(), 11);
    match View::of(venue).generation(number, venue, order, which) {
        Ok(made) => {
            assert_eq!(answers, "11111111111");
            let told = [1, 3].map(|at| leg[at].as_number());
            assert_eq!(
                told,
                [made.price, made.quantity].map(|n| Some(i64::from(n)))
            );
            11
        }
        Err(declined) => {
            let place = place_of(&declined);
            assert_eq!(answers.find('0'), Some(place), "{declined}");
            place
        }
    }
}

#[test]
fn first_condition_that_fails_is_where_generation_stops() {
    let mut stops = [0; 12];
    for (seed, profile) in (3..).zip(Profile::ALL) {
        let list = generate(profile, seed, 600).concat();
        let data = whole(&list);
        for (number, (venue, state)) in (1..).zip(venues(&list).iter().zip(states(&data))) {
            for order in held_complex(venue) {
                for which in 0..2 {
                    stops[check_leg(&state, number, venue, order, which)] += 1;
                }
            }
        }
    }
    assert!(stops.iter().all(|count| *count > 0), "{stops:?}");
}

/// The leg that a line of explain names: "... of ID, SIDE series SERIES: WHY".
fn declined_leg(line: &str) -> Option<(u32, Leg, &str)> {
    let (of, why) = line
        .strip_prefix("no legging order of ")?
        .split_once(": ")?;
    let (id, leg) = of.split_once(", ")?;
    let (side, series) = leg.split_once(" series ")?;
    let leg = Leg {
        series: series.parse().ok()?,
        side: u8::from(side == "sell"),
    };
    Some((id.parse().ok()?, leg, why))
}

/// A part of what explain says of each condition.
const SAID: [&str; 11] = [
    "has none",
    "open",
    "market",
    "no clear price",
    "is not from increment",
    "is worse than the best",
    "reaches the own price",
    "reaches the away price",
    "the place is held",
    "fail its test",
    "the ceiling",
];

#[test]
fn explain_tells_the_first_condition_that_fails() {
    let mut told = 0;
    each_profile(300, |profile, list, data| {
        let (states, venues) = (states(data), venues(list));
        for (at, step) in steps(data).iter().enumerate() {
            let records = of(step, "records").items();
            let made = |record: &Json| record.items()[0].as_number() == Some(67);
            // Orders made after a leg was asked change what it would be asked now.
            if records.iter().any(made) {
                continue;
            }
            for line in lines(data, step) {
                let Some((id, leg, why)) = declined_leg(&line) else {
                    continue;
                };
                let order = held_complex(&venues[at + 1]).find(|order| order.id == id);
                let which = legs_of(order.unwrap()).iter().position(|own| *own == leg);
                let legs = of(of(&states[at + 1], "legs"), &id.to_string()).items();
                let answers = legs[which.unwrap()].items()[0].as_text().unwrap();
                let first = answers.find('0').map(|place| SAID[place]);
                // A message later one generation less may count for the ceiling.
                if why.contains(SAID[10]) {
                    continue;
                }
                assert!(why.contains(first.unwrap()), "{}: {line}", profile.name());
                told += 1;
            }
        }
    });
    assert!(told > 1_000, "{told} lines");
}

#[test]
fn standing_orders_pass_their_test() {
    let mut standing = 0;
    each_profile(300, |_, _, data| {
        for state in states(data) {
            let Json::Keyed(legging) = of(&state, "legging") else {
                panic!("no legging orders in {state}");
            };
            for (place, order) in legging {
                let [parent, price, _, quantity, answers, net] = order.items() else {
                    panic!("{order}");
                };
                assert_eq!(answers.as_text(), Some("1111"), "place {place}");
                assert!(price.as_number() > Some(0) && quantity.as_number() > Some(0));
                let parent = parent.as_number().unwrap();
                assert!(net.as_number() <= field(&state, "complex", parent, 5));
                standing += 1;
            }
        }
    });
    assert!(standing > 1_000, "{standing} legging orders");
}

/// The value of a sum such as "- 2 x 130 + 90".
fn value(sum: &str) -> i64 {
    let close = sum
        .replace("+ ", "+")
        .replace("- ", "-")
        .replace(" x ", "x");
    let term = |term: &str| {
        let (sign, factors) = match term.strip_prefix('-') {
            Some(factors) => (-1, factors),
            None => (1, term.trim_start_matches('+')),
        };
        let factors = factors
            .split('x')
            .map(|factor| factor.parse::<i64>().unwrap());
        sign * factors.product::<i64>()
    };
    close.split(' ').map(term).sum()
}

#[test]
fn every_pair_has_the_arithmetic_of_its_net() {
    let (mut pairs, mut of_units) = (0, 0);
    each_profile(400, |profile, _, data| {
        for step in steps(data) {
            for (at, record) in of(step, "records").items().iter().enumerate() {
                let [kind, .., net, _] = record.items() else {
                    continue;
                };
                let told = step.get("pairs").and_then(|told| told.get(&at.to_string()));
                assert_eq!(told.is_some(), kind.as_number() == Some(66), "{record}");
                let Some(told) = told.and_then(Json::as_text) else {
                    continue;
                };
                let (_, sum) = told.split_once(": ").unwrap();
                let (sum, limit) = sum.split_once(", limit ").unwrap();
                let (terms, result) = sum.split_once(" = ").unwrap();
                let net = net.as_number().unwrap();
                assert_eq!(result.parse(), Ok(net), "{}: {told}", profile.name());
                assert_eq!(value(terms), net, "{told}");
                assert!(net <= limit.parse().unwrap(), "{told}");
                pairs += 1;
                of_units += usize::from(terms.contains('x'));
            }
        }
    });
    assert!(
        pairs > 200 && of_units > 10,
        "{pairs} pairs, {of_units} of units"
    );
}

#[test]
fn arithmetic_of_the_printed_pair() {
    let data = whole(&bytes(PRINTED));
    let pairs = of(&steps(&data)[5], "pairs");
    let expected = "{\"3\":\"buys 5 of series 0 at 115, buys 5 of series 1 at 90: 115 + 90 = \
        205, limit 205\"}";
    assert_eq!(pairs.to_string(), expected);
}

/// The complex orders of an audit of the reference's own sheet.
fn audited(list: &[u8]) -> Vec<Row> {
    let mut auditor = Auditor::<std::io::Empty>::new(Source::Own, u64::MAX);
    let pieces = split(list);
    for (at, piece) in pieces.iter().enumerate() {
        auditor.message(piece, at + 1 == pieces.len()).unwrap();
    }
    auditor.finish().unwrap();
    let orders = auditor.told().filter_map(|told| match told {
        Told::Order(row) => Some(row),
        _ => None,
    });
    orders.collect()
}

#[test]
fn sums_are_those_of_the_audit() {
    each_profile(400, |profile, list, data| {
        let rows = audited(list);
        let states = states(data);
        let sums = of(&states[states.len() - 1], "sums");
        let told = match sums {
            Json::Keyed(rows) => rows.len(),
            _ => 0,
        };
        assert_eq!(told, rows.len(), "{}", profile.name());
        for row in rows {
            let account = &row.account;
            let contracts = account
                .series()
                .map(|of| account.contracts[usize::from(of)]);
            let expected = [
                (0, account.entered),
                (1, account.paired),
                (2, account.crossed),
                (3, account.cancelled),
                (4, row.open),
                (6, contracts[0]),
                (9, contracts[1]),
                (11, 0),
            ];
            let told = of(sums, &account.id.to_string()).items();
            for (at, number) in expected {
                assert_eq!(told[at].as_number(), Some(number as i64), "{account:?}");
            }
        }
    });
}

#[test]
fn thousand_busy_messages_are_less_than_two_megabytes() {
    for (seed, profile) in (1..).zip(Profile::ALL) {
        let list = generate(profile, seed, 1_000).concat();
        let length = whole(&list).to_string().len();
        assert!(length < 1_900_000, "{}: {length} bytes", profile.name());
    }
}

#[test]
fn part_of_a_session_shows_what_the_whole_shows_there() {
    let list = generate(Profile::Ratios, 5, 300).concat();
    let (all, part) = (whole(&list), data_of(&list, None, (100, 150)));
    assert_eq!(of(&part, "first").as_number(), Some(100));
    assert_eq!(steps(&part).len(), 51);
    let (all_states, part_states) = (states(&all), states(&part));
    for (at, (step, state)) in (99..).zip(steps(&part).iter().zip(&part_states)) {
        let of_all = &steps(&all)[at];
        assert_eq!(lines(&part, step), lines(&all, of_all));
        for key in ["text", "line", "records"] {
            assert_eq!(of(step, key), of(of_all, key));
        }
        for key in ["orders", "complex", "legs", "legging", "sides", "series"] {
            assert_eq!(
                of(state, key),
                of(&all_states[at], key),
                "{key} before {at}"
            );
        }
    }
    let rows = |state: &Json| match of(state, "sums") {
        Json::Keyed(rows) => rows.len() as i64,
        _ => 0,
    };
    let others = of(&part, "others").as_number().unwrap();
    assert!(others > 0 && others + rows(&part_states[0]) == rows(&all_states[99]));
}

/// The records of a session, changed as a text.
fn sheet_with(list: &[u8], change: impl Fn(String) -> String) -> Vec<Record> {
    let records = read_report(&run_whole(list).1).unwrap();
    let lines = records.iter().map(|record| format!("{record}\n"));
    parse_sheet(&change(lines.collect())).unwrap()
}

/// How a changed sheet of the printed session compares, and the rows of its last message.
fn compared(change: impl Fn(String) -> String) -> (String, String) {
    let list = bytes(PRINTED);
    let sheet = sheet_with(&list, change);
    let data = data_of(&list, Some(&sheet), (1, 6));
    let rows = steps(&data)[5].get("rows");
    let rows = rows.map_or(String::new(), Json::to_string);
    (of(&data, "sheet").to_string(), rows)
}

#[test]
fn sheet_that_differs_stands_beside_the_rules() {
    let told = |differing: &str, count, last, beyond| {
        format!(
            "{{\"beyond\":{beyond},\"count\":{count},\"differing\":[{differing}],\
             \"last\":{last},\"name\":\"a sheet\"}}"
        )
    };
    let same = compared(|sheet| sheet);
    assert_eq!(same, (told("", 0, 6, 0), String::new()));
    let (sheet, rows) = compared(|sheet| sheet.replace("66 3 205 5", "66 3 205 6"));
    assert_eq!(sheet, told("6", 1, 6, 0));
    assert!(rows.contains("[11,[66,3,205,6],[66,3,205,5]]"), "{rows}");
    let (sheet, rows) = compared(|sheet| sheet.split("64 5").next().unwrap().to_string());
    assert_eq!(sheet, told("5,6", 2, 4, 0));
    assert!(rows.starts_with("[[0,0,[64,6,0,0,0]],"), "{rows}");
    let (sheet, _) = compared(|sheet| format!("{sheet}64 7 0 0 0\n68 3 0 0 3\n"));
    assert_eq!(sheet, told("", 0, 7, 2));
}

#[test]
fn false_sums_of_a_sheet_are_told_at_the_order() {
    let list = bytes(PRINTED);
    let sheet = sheet_with(&list, |sheet| sheet.replace("66 3 205 5", "66 3 205 6"));
    let data = data_of(&list, Some(&sheet), (1, 6));
    let states = states(&data);
    let fault = |at: usize| of(of(&states[at], "sums"), "3").items()[11].clone();
    assert_eq!(fault(5), Json::number(0));
    let expected = "order 3: entered 8 but traded 6, cancelled 0 and open 3";
    assert_eq!(fault(6).as_text(), Some(expected));
}

#[test]
fn orders_that_a_sheet_makes_up_are_told() {
    let list = bytes(PRINTED);
    let sheet = sheet_with(&list, |sheet| sheet.replace("66 3 205 5", "66 9 205 5"));
    let data = data_of(&list, Some(&sheet), (1, 6));
    let faults = of(&steps(&data)[5], "faults").items();
    let expected = "record \"66 9 205 5\" names 9, which was not accepted";
    let [Json::Text(fault)] = faults else {
        panic!("{faults:?}");
    };
    assert!(fault.starts_with(expected), "{fault}");
}

#[test]
fn comments_are_kept_with_their_messages() {
    let text = format!("# the printed session\n{PRINTED}# the end\n");
    let list = bytes(&text);
    let session = Session {
        name: "a session",
        list: &list,
        notes: notes(&text).unwrap(),
        sheet: None,
        shown: (1, 6),
    };
    let data = page(&session).unwrap();
    let note = |at: usize| steps(&data)[at].get("note").and_then(Json::as_text);
    assert_eq!(
        [0, 1, 5].map(note),
        [Some("the printed session"), None, Some("the end")]
    );
}

#[test]
fn empty_and_torn_sessions_have_a_page() {
    let empty = whole(&[]);
    assert_eq!(
        (of(&empty, "messages").as_number(), steps(&empty).len()),
        (Some(0), 0)
    );
    let torn = whole(&[9, 0, 1]);
    assert_eq!(of(&steps(&torn)[0], "text").as_text(), Some("raw 09 00 01"));
    assert_eq!(
        of(&steps(&torn)[0], "records").to_string(),
        "[[64,1,1,0,0]]"
    );
    let long = whole(&[7; 40_000]);
    let text = of(&steps(&long)[0], "text").as_text().unwrap();
    assert!(
        text.len() < 1_100 && text.ends_with("(1799 bytes)"),
        "{text}"
    );
}
