//! `venue explain`.

use crate::{drawn, ended, good, PRINTED_TEXT};

#[test]
fn messages_of_a_range_are_told_alone() {
    let (session, _) = drawn("mixed", "4", "200");
    let whole = good(&["explain", "--text"], session.as_bytes());
    let starts = |number: usize| {
        let head = format!("\n{number}: ");
        whole.find(&head).map_or(0, |at| at + 1)
    };
    let told = |arguments: &[&str]| {
        let arguments = [&["explain", "--text"], arguments].concat();
        good(&arguments, session.as_bytes())
    };
    assert_eq!(told(&["--from", "50"]), whole[starts(50)..]);
    assert_eq!(told(&["--to=49"]), whole[..starts(50)]);
    assert_eq!(
        told(&["--from", "50", "--to", "59"]),
        whole[starts(50)..starts(60)]
    );
    assert_eq!(
        told(&["--from", "200", "--to", "1000"]),
        whole[starts(200)..]
    );
    let (out, errors) = ended(
        &["explain", "--text", "--from", "201"],
        session.as_bytes(),
        1,
    );
    assert_eq!(out, "");
    let expected = "venue explain: standard input: the session has 200 messages, not 201\n";
    assert_eq!(errors, expected);
}

#[test]
fn one_order_is_told_alone() {
    let told = good(
        &["explain", "--text", "--order", "3"],
        PRINTED_TEXT.as_bytes(),
    );
    let expected = "\
        5: complex 3 buy 0 buy 1 class 1 net 205 quantity 8\n    \
        accepted; legging orders standing after it: 2 (places 0, 2)\n    \
        legging order of 3, buy series 0: 8 at 115, shown at 115 by increment 5 (edition 0), in band by percent 5 (edition 0)\n    \
        legging order of 3, buy series 1: 8 at 75, shown at 75 by increment 5 (edition 0), in band by percent 5 (edition 0)\n\
        6: order 4 sell 5 series 0 at 115\n    \
        trade: 4 sell series 0, 5 at 115, maker 3\n    \
        trade: 3 buy series 1, 5 at 90, maker 2\n    \
        pair: 3, 5 at net 205\n    \
        removed the legging order of 3, buy series 0: cause 3, its parent crossed or paired\n    \
        removed the legging order of 3, buy series 1: cause 3, its parent crossed or paired\n    \
        no legging order of 3, buy series 0 after it: every condition holds, and a sweep would make one of 3 at 115\n    \
        no legging order of 3, buy series 1 after it: every condition holds, and a sweep would make one of 3 at 75\n";
    assert_eq!(told, expected);
    let (out, errors) = ended(
        &["explain", "--text", "--order", "9"],
        PRINTED_TEXT.as_bytes(),
        1,
    );
    assert_eq!(out, "");
    assert_eq!(
        errors,
        "venue explain: standard input: no message that is told touches order 9\n"
    );
}

#[test]
fn ranges_and_orders_that_are_none_are_told() {
    let cases: [(&[&str], &str); 4] = [
        (&["--from", "0"], "messages are numbered from 1"),
        (&["--from", "7", "--to", "3"], "--from 7 is after --to 3"),
        (
            &["--order", "0"],
            "expected an id from 1 to 4294967295 after --order",
        ),
        (
            &["--order", "x"],
            "expected a number after --order, found \"x\"",
        ),
    ];
    for (arguments, expected) in cases {
        let (_, errors) = ended(&[&["explain"], arguments].concat(), b"", 2);
        assert!(errors.contains(expected), "{errors}");
    }
}

#[test]
fn a_wrong_line_ends_the_telling_with_its_line() {
    let (_, errors) = ended(&["explain", "--text"], b"open 0\nopen x\n", 1);
    assert!(errors.starts_with("venue explain: standard input: line 2: expected a series,"));
}
