//! Request (j): four venues behind one line.

use reference::{arrive, one_message, settings, turn, Layer, Turned, Venue};
use sessions::asked::{parse_script, Asked, ENOUGH};
use sessions::held::VENUE_BYTES;
use sessions::held_layer::{from_bytes, to_bytes, LANE_BYTES, LAYER_BYTES};
use sessions::lent::Lent;
use sessions::record::{print_sheet, read_report};
use sessions::text::encode_session;

const SWEEP: [u8; 4] = [4, 0, 6, 0];

/// A turn with guarded junk memory; tells the sheet too.
fn turn_in(layer: &mut Layer, room: usize) -> (Turned, String) {
    let mut lent = Lent::new();
    let turned = turn(layer, lent.lend(room));
    let records = read_report(lent.written(turned.written).unwrap()).unwrap();
    (turned, print_sheet(&records))
}

/// Plays a script upon a layer: the arrivals' numbers, and each turn's number and venue.
fn played(layer: &mut Layer, text: &str) -> (Vec<u8>, Vec<(u8, u8)>) {
    let (mut arrivals, mut turns) = (Vec::new(), Vec::new());
    for (_, asked) in parse_script(text).unwrap() {
        match asked {
            Asked::Arrive { venue, message } => arrivals.push(arrive(layer, venue, &message)),
            Asked::Turn { room } => {
                let (turned, _) = turn_in(layer, room as usize);
                turns.push((turned.number, turned.served));
            }
        }
    }
    (arrivals, turns)
}

/// The venues that the turns of a script serve.
fn served(text: &str) -> Vec<u8> {
    let (_, turns) = played(&mut Layer::fresh(), text);
    turns.into_iter().map(|(_, served)| served).collect()
}

#[test]
fn turns_go_round_from_venue_0_over_those_that_wait() {
    let all = "arrive 3 sweep\narrive 2 sweep\narrive 1 sweep\narrive 0 sweep\n";
    assert_eq!(served(&format!("{all}turns 5\n")), [0, 1, 2, 3, 4]);
    assert_eq!(
        served(&format!("{all}{all}turns 8\n")),
        [0, 1, 2, 3, 0, 1, 2, 3]
    );
    let two = "arrive 1 sweep\narrive 1 sweep\narrive 3 sweep\narrive 3 sweep\n";
    assert_eq!(served(&format!("{two}turns 5\n")), [1, 3, 1, 3, 4]);
    assert_eq!(
        served("arrive 2 sweep\narrive 2 sweep\nturns 3\n"),
        [2, 2, 4]
    );
    // A message for the venue served last waits for the others.
    assert_eq!(
        served("arrive 1 sweep\nturn\narrive 1 sweep\narrive 0 sweep\nturns 2\n"),
        [1, 0, 1]
    );
}

#[test]
fn the_head_of_a_wait_is_done_by_the_fourth_turn_whatever_arrives() {
    let mut layer = Layer::fresh();
    for _ in 0..8 {
        assert_eq!(arrive(&mut layer, 0, &SWEEP), 0);
    }
    assert_eq!(arrive(&mut layer, 3, &SWEEP), 0);
    let mut turns = Vec::new();
    for _ in 0..4 {
        for flooded in 0..3 {
            arrive(&mut layer, flooded, &SWEEP);
        }
        turns.push(turn_in(&mut layer, 100).0.served);
    }
    assert_eq!(turns, [0, 1, 2, 3]);
}

#[test]
fn each_venue_has_orders_numbers_and_records_of_its_own() {
    let order = "order 1 sell 5 series 0 at 130\n";
    let message = encode_session(order).unwrap();
    let mut layer = Layer::fresh();
    for venue in [0, 0, 2] {
        assert_eq!(arrive(&mut layer, venue, &message), 0);
    }
    let (first, sheet) = turn_in(&mut layer, 100);
    assert_eq!(
        (first.number, first.done, first.written, first.served),
        (0, 1, 12, 0)
    );
    assert_eq!(sheet, "64 1 0 0 0\n");
    let (second, sheet) = turn_in(&mut layer, 100);
    assert_eq!(
        (second.number, second.served, sheet.as_str()),
        (0, 2, "64 1 0 0 0\n")
    );
    // The same id again: refused, and done.
    let (third, sheet) = turn_in(&mut layer, 100);
    assert_eq!(
        (third.number, third.served, sheet.as_str()),
        (5, 0, "64 2 5 0 0\n")
    );
    let alone = one_message(&Venue::fresh(), 0, &message, &mut [0; 100]).venue;
    assert_eq!((&layer.lanes[0].venue, layer.lanes[0].done), (&alone, 2));
    assert_eq!((&layer.lanes[2].venue, layer.lanes[2].done), (&alone, 1));
    assert_eq!(layer.lanes[1], Layer::fresh().lanes[1]);
}

#[test]
fn each_venue_has_editions_of_its_own() {
    let mut layer = Layer::fresh();
    let text = "arrive 1 percent 9 1\narrive 1 percent 9 1\narrive 2 increment 0 1 1\nturns 3\n";
    let turns = [(0, 1), (12, 2), (11, 1)];
    assert_eq!(played(&mut layer, text), (vec![0; 3], turns.to_vec()));
    let percent = |venue: &Venue| settings(venue, 1).map(|told| told.percent);
    let told = layer.lanes.map(|lane| percent(&lane.venue));
    assert_eq!(told, [Some(5), Some(9), Some(5), Some(5)]);
}

#[test]
fn messages_keep_their_order() {
    let mut layer = Layer::fresh();
    let text: String = (1..=8)
        .map(|id| format!("arrive 1 cancel {id}\n"))
        .collect();
    assert_eq!(played(&mut layer, &text).0, [0; 8]);
    for id in 1..=8 {
        assert_eq!(layer.lanes[1].wait[0], [8, 0, 3, 0, id, 0, 0, 0]);
        assert_eq!(turn_in(&mut layer, 100).0.number, 8);
    }
}

#[test]
fn a_full_wait_and_a_long_message_are_17() {
    let mut layer = Layer::fresh();
    assert_eq!(arrive(&mut layer, 2, &[0; 33]), 17);
    assert_eq!(layer, Layer::fresh());
    for _ in 0..8 {
        assert_eq!(arrive(&mut layer, 2, &[9; 32]), 0);
    }
    let full = layer.clone();
    assert_eq!(arrive(&mut layer, 2, &[]), 17);
    assert_eq!(arrive(&mut layer, 2, &[0; 33]), 17);
    assert_eq!(layer, full);
    assert_eq!(arrive(&mut layer, 1, &[]), 0);
    assert_eq!(turn_in(&mut layer, 100).0.served, 1);
    assert_eq!(turn_in(&mut layer, 100).0.served, 2);
    assert_eq!(arrive(&mut layer, 2, &[]), 0);
}

#[test]
fn a_venue_above_3_is_18_before_17() {
    let mut layer = Layer::fresh();
    for venue in [4, 5, 255, 256, u32::MAX] {
        assert_eq!(arrive(&mut layer, venue, &SWEEP), 18);
        assert_eq!(arrive(&mut layer, venue, &[0; 33]), 18);
    }
    assert_eq!(layer, Layer::fresh());
}

#[test]
fn torn_and_empty_messages_wait_and_are_answered_1() {
    let mut layer = Layer::fresh();
    for message in [&[][..], &[4], &[9, 0, 6, 0], &[0; 32]] {
        assert_eq!(arrive(&mut layer, 0, message), 0);
    }
    for number in 1..=4 {
        let (turned, sheet) = turn_in(&mut layer, 12);
        assert_eq!((turned.number, turned.done, turned.served), (1, 1, 0));
        assert_eq!(sheet, format!("64 {number} 1 0 0\n"));
    }
    assert_eq!(turn_in(&mut layer, 12).0.served, 4);
}

#[test]
fn with_nothing_waiting_a_turn_is_0_and_serves_none() {
    let mut layer = Layer::fresh();
    for room in [0, 1, 100] {
        let (turned, sheet) = turn_in(&mut layer, room);
        let told = (turned.number, turned.done, turned.written, turned.served);
        assert_eq!((told, sheet.as_str()), ((0, 0, 0, 4), ""));
    }
    assert_eq!(layer, Layer::fresh());
}

#[test]
fn a_turn_ended_by_10_changes_nothing_and_is_tried_again_at_the_same_venue() {
    let mut layer = Layer::fresh();
    played(&mut layer, "arrive 1 sweep\narrive 2 nothing\n");
    let given = layer.clone();
    for room in [0, 11] {
        let (turned, sheet) = turn_in(&mut layer, room);
        let told = (turned.number, turned.done, turned.written, turned.served);
        assert_eq!((told, sheet.as_str()), ((10, 0, 0, 4), ""));
        assert_eq!(layer, given);
    }
    assert_eq!(turn_in(&mut layer, 12).0.served, 1);
    // Message numbers used up: 10 however much memory is lent, and the others wait.
    layer.lanes[2].done = u32::MAX;
    arrive(&mut layer, 3, &SWEEP);
    let given = layer.clone();
    for _ in 0..3 {
        let (turned, _) = turn_in(&mut layer, ENOUGH as usize);
        assert_eq!((turned.number, turned.served), (10, 4));
        assert_eq!(layer, given);
    }
    layer.lanes[2].done = u32::MAX - 1;
    let (turned, sheet) = turn_in(&mut layer, ENOUGH as usize);
    assert_eq!((turned.number, turned.served), (1, 2));
    assert_eq!(sheet, "64 4294967295 1 0 0\n");
    assert_eq!(turn_in(&mut layer, 12).0.served, 3);
}

/// Layers with something out of range: each call gets 9.
fn unsound() -> Vec<Layer> {
    let mut layers = Vec::new();
    for last in [4, 255] {
        layers.push(Layer {
            last,
            ..Layer::fresh()
        });
    }
    for venue in 0..4 {
        for wait in [vec![Vec::new(); 9], vec![Vec::new(), vec![0; 33]]] {
            let mut layer = Layer::fresh();
            layer.lanes[venue].wait = wait;
            layers.push(layer);
        }
        let mut layer = Layer::fresh();
        layer.lanes[venue].venue.series[7].status = 3;
        layers.push(layer);
        // An order that shows 2 of 5, and none in reserve.
        let mut layer = Layer::fresh();
        let order = "order 1 buy 5 series 0 at 115 shows 2";
        played(&mut layer, &format!("arrive {venue} {order}\nturn\n"));
        layer.lanes[venue].venue.regular[0].reserve = 0;
        layers.push(layer);
        // An order of equal ratios.
        let mut layer = Layer::fresh();
        let order = "complex 1 buy 0 buy 1 class 0 net 5 quantity 5 ratio 2 1";
        played(&mut layer, &format!("arrive {venue} {order}\nturn\n"));
        layer.lanes[venue].venue.complex[0].ratio2 = 2;
        layers.push(layer);
        // A generation of message 1, and no message done.
        let mut layer = Layer::fresh();
        layer.lanes[venue].venue.generations[7][19] = 1;
        layers.push(layer);
        // An id looked at, and none accepted.
        let mut layer = Layer::fresh();
        layer.lanes[venue].venue.reached = 1;
        layers.push(layer);
        // An edition of message 1, and no message done.
        let mut layer = Layer::fresh();
        played(&mut layer, &format!("arrive {venue} percent 9 1\nturn\n"));
        layer.lanes[venue].done = 0;
        layers.push(layer);
    }
    layers
}

#[test]
fn an_unsound_layer_is_9_before_all_and_stays_as_given() {
    for given in unsound() {
        let mut layer = given.clone();
        for (venue, message) in [(0, &SWEEP[..]), (4, &SWEEP), (255, &[0; 33]), (3, &[0; 33])] {
            assert_eq!(arrive(&mut layer, venue, message), 9);
        }
        for room in [0, 100] {
            let (turned, sheet) = turn_in(&mut layer, room);
            let told = (turned.number, turned.done, turned.written, turned.served);
            assert_eq!((told, sheet.as_str()), ((9, 0, 0, 4), ""));
        }
        assert_eq!(layer, given);
    }
}

#[test]
fn figures_stand_at_their_places_in_memory() {
    let mut layer = Layer::fresh();
    assert_eq!(LANE_BYTES, VENUE_BYTES + 4 + 1 + 8 * 33);
    assert_eq!(LAYER_BYTES, 4 * LANE_BYTES + 1);
    assert_eq!(to_bytes(&layer)[LAYER_BYTES - 1], 3);
    arrive(&mut layer, 1, &[7, 8, 9]);
    arrive(&mut layer, 1, &[]);
    layer.lanes[3].done = 0x0403_0201;
    let bytes = to_bytes(&layer);
    assert_eq!(
        bytes[LANE_BYTES + VENUE_BYTES..][..10],
        [0, 0, 0, 0, 2, 3, 7, 8, 9, 0]
    );
    assert_eq!(bytes[3 * LANE_BYTES + VENUE_BYTES..][..5], [1, 2, 3, 4, 0]);
    assert_eq!(from_bytes(&bytes), layer);
}
