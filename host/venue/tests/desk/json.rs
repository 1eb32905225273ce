//! What is written as JSON and as values between commas.

use crate::{drawn, ended, good, Kept, PRINTED_TEXT};

/// A value of JSON, as far as these tests look at it.
#[derive(Clone, Debug, PartialEq)]
enum Json {
    Null,
    Flag(bool),
    Number(i64),
    Text(String),
    List(Vec<Json>),
    Object(Vec<(String, Json)>),
}

struct Reader<'a>(std::iter::Peekable<std::str::Chars<'a>>);

impl Reader<'_> {
    fn expect(&mut self, text: &str) {
        for letter in text.chars() {
            assert_eq!(self.0.next(), Some(letter));
        }
    }

    fn text(&mut self) -> String {
        self.expect("\"");
        let mut text = String::new();
        loop {
            match self.0.next().unwrap() {
                '"' => return text,
                '\\' => match self.0.next().unwrap() {
                    'n' => text.push('\n'),
                    'u' => {
                        let digits: String = self.0.by_ref().take(4).collect();
                        let code = u32::from_str_radix(&digits, 16).unwrap();
                        text.push(char::from_u32(code).unwrap());
                    }
                    letter => text.push(letter),
                },
                letter => {
                    assert!(letter >= ' ');
                    text.push(letter);
                }
            }
        }
    }

    /// The parts between two brackets.
    fn parts<T>(&mut self, [open, close]: [char; 2], part: fn(&mut Self) -> T) -> Vec<T> {
        assert_eq!(self.0.next(), Some(open));
        let mut parts = Vec::new();
        if self.0.next_if_eq(&close).is_some() {
            return parts;
        }
        loop {
            parts.push(part(self));
            match self.0.next() {
                Some(',') => {}
                end => {
                    assert_eq!(end, Some(close));
                    return parts;
                }
            }
        }
    }

    fn field(&mut self) -> (String, Json) {
        let name = self.text();
        self.expect(":");
        (name, self.value())
    }

    fn value(&mut self) -> Json {
        match self.0.peek().unwrap() {
            '"' => Json::Text(self.text()),
            '[' => Json::List(self.parts(['[', ']'], Reader::value)),
            '{' => Json::Object(self.parts(['{', '}'], Reader::field)),
            'n' => {
                self.expect("null");
                Json::Null
            }
            't' => {
                self.expect("true");
                Json::Flag(true)
            }
            'f' => {
                self.expect("false");
                Json::Flag(false)
            }
            _ => {
                let mut digits = String::new();
                while let Some(digit) = self.0.next_if(|c| c.is_ascii_digit() || *c == '-') {
                    digits.push(digit);
                }
                Json::Number(digits.parse().unwrap())
            }
        }
    }
}

/// The objects of some lines, one each; their names are all different.
fn objects(lines: &str) -> Vec<Json> {
    let read = |line: &str| {
        let mut reader = Reader(line.chars().peekable());
        let object = reader.value();
        assert_eq!(reader.0.next(), None, "{line}");
        let names = names(&object);
        let mut once = names.clone();
        once.sort();
        once.dedup();
        assert_eq!(once.len(), names.len(), "{line}");
        object
    };
    lines.lines().map(read).collect()
}

fn names(object: &Json) -> Vec<String> {
    let Json::Object(fields) = object else {
        panic!("{object:?}");
    };
    fields.iter().map(|(name, _)| name.clone()).collect()
}

fn get<'a>(object: &'a Json, name: &str) -> &'a Json {
    let Json::Object(fields) = object else {
        panic!("{object:?}");
    };
    let field = fields.iter().find(|(field, _)| field == name);
    field.map_or(&Json::Null, |(_, value)| value)
}

fn number(object: &Json, name: &str) -> i64 {
    match get(object, name) {
        Json::Number(number) => *number,
        other => panic!("{name}: {other:?}"),
    }
}

fn list<'a>(object: &'a Json, name: &str) -> &'a [Json] {
    match get(object, name) {
        Json::List(values) => values,
        other => panic!("{name}: {other:?}"),
    }
}

fn word(object: &Json, name: &str) -> String {
    match get(object, name) {
        Json::Text(text) => text.clone(),
        other => panic!("{name}: {other:?}"),
    }
}

/// The line of the sheet that a record is.
fn sheet_line(record: &Json) -> String {
    let Json::Object(fields) = record else {
        panic!("{record:?}");
    };
    let not_fields = ["message", "name", "words", "figures"];
    let fields = fields
        .iter()
        .filter(|(name, _)| !not_fields.contains(&name.as_str()));
    let numbers = fields.map(|(_, value)| match value {
        Json::Number(number) => number.to_string(),
        other => panic!("{other:?}"),
    });
    numbers.collect::<Vec<String>>().join(" ")
}

const PROFILES: [&str; 6] = ["mixed", "hits", "settings", "reserve", "ratios", "ceiling"];

#[test]
fn the_records_of_a_sheet_are_its_lines() {
    for profile in PROFILES {
        let (session, sheet) = drawn(profile, "2", "300");
        let told = objects(&good(&["sheet", "--text", "--json"], session.as_bytes()));
        let lines: Vec<String> = told.iter().map(sheet_line).collect();
        assert_eq!(lines, sheet.lines().collect::<Vec<&str>>());
        let mut message = 0;
        for record in &told {
            message += i64::from(number(record, "kind") == 64);
            assert_eq!(number(record, "message"), message);
        }
    }
    let told = good(&["sheet", "--text", "--json"], PRINTED_TEXT.as_bytes());
    let lines: Vec<&str> = told.lines().collect();
    let expected = [
        (4, "{\"message\":5,\"kind\":64,\"name\":\"answer\",\"message_number\":5,\"refusal\":0,\"place_mask\":5,\"count\":2}"),
        (5, "{\"message\":5,\"kind\":67,\"name\":\"generated\",\"complex_id\":3,\"series\":0,\"side\":0,\"price\":115,\"displayed\":115,\"quantity\":8}"),
        (8, "{\"message\":6,\"kind\":65,\"name\":\"trade\",\"series\":0,\"taker_side\":1,\"price\":115,\"quantity\":5,\"taker_id\":4,\"maker_id\":3}"),
        (10, "{\"message\":6,\"kind\":66,\"name\":\"pair\",\"complex_id\":3,\"net\":205,\"quantity\":5}"),
        (11, "{\"message\":6,\"kind\":68,\"name\":\"removed\",\"complex_id\":3,\"series\":0,\"side\":0,\"cause\":3}"),
    ];
    for (at, line) in expected {
        assert_eq!(lines[at], line);
    }
}

#[test]
fn values_between_commas_are_those_of_the_lines() {
    let (session, sheet) = drawn("ceiling", "2", "300");
    let told = good(&["sheet", "--text", "--csv"], session.as_bytes());
    let mut lines = told.lines();
    let columns: Vec<&str> = lines.next().unwrap().split(',').collect();
    assert_eq!(&columns[..4], ["message", "kind", "name", "message_number"]);
    for (line, record) in lines.clone().zip(sheet.lines()) {
        let values: Vec<&str> = line.split(',').collect();
        assert_eq!(values.len(), columns.len());
        let given = values[3..].iter().filter(|value| !value.is_empty());
        let mut given: Vec<&str> = given.copied().chain([values[1]]).collect();
        let mut words: Vec<&str> = record.split(' ').collect();
        given.sort();
        words.sort();
        assert_eq!(given, words);
    }
    assert_eq!(lines.count(), sheet.lines().count());
    let (_, errors) = ended(&["sheet", "--json", "--csv"], b"", 2);
    assert!(errors.contains("only one of --json and --csv"), "{errors}");
}

#[test]
fn explanations_have_the_message_its_records_and_their_words() {
    for profile in PROFILES {
        let (session, sheet) = drawn(profile, "6", "300");
        let told = objects(&good(&["explain", "--text", "--json"], session.as_bytes()));
        let plain = good(&["explain", "--text"], session.as_bytes());
        let mut lines = Vec::new();
        let mut records = Vec::new();
        for message in &told {
            lines.push(format!(
                "{}: {}",
                number(message, "message"),
                word(message, "text")
            ));
            let parts = [list(message, "records"), list(message, "more")].concat();
            lines.extend(
                parts
                    .iter()
                    .map(|part| format!("    {}", word(part, "words"))),
            );
            records.extend(list(message, "records").iter().map(sheet_line));
        }
        assert_eq!(lines, plain.lines().collect::<Vec<&str>>());
        assert_eq!(records, sheet.lines().collect::<Vec<&str>>());
    }
}

#[test]
fn messages_have_the_fields_of_their_kinds() {
    let session = "order 1 sell 15 series 0 at 130 shows 3\n\
        complex 3 buy 0 sell 1 class 1 net -205 quantity 8 ratio 2 1\ncancel 9\n\
        away 1 bid 5 offer 7\nstatus 0 auction\nsweep\nincrement 2 10 4\npercent 7 5\nlimited 6\n\
        raw 09 00 06\n";
    let told = objects(&good(&["explain", "--text", "--json"], session.as_bytes()));
    let expected = [
        "kind 9 name order id 1 series 0 side 1 price 130 quantity 15 shown_quantity 3",
        "kind 10 name complex id 3 series1 0 side1 0 series2 1 side2 1 class 1 N -205 quantity 8 ratio1 2 ratio2 1",
        "kind 3 name cancel id 9",
        "kind 4 name away series 1 bid 5 offer 7",
        "kind 5 name status series 0 status 2",
        "kind 6 name sweep",
        "kind 7 name increment series 2 increment 10 edition 4",
        "kind 8 name percent percent 7 edition 5",
        "kind 11 name limited n 6",
        "name raw bytes 090006",
    ];
    for (message, expected) in told.iter().zip(expected) {
        let Json::Object(fields) = message else {
            panic!();
        };
        let own = fields[2..fields.len() - 2]
            .iter()
            .map(|(name, value)| match value {
                Json::Number(number) => format!("{name} {number}"),
                Json::Text(text) => format!("{name} {text}"),
                other => panic!("{other:?}"),
            });
        assert_eq!(own.collect::<Vec<String>>().join(" "), expected);
    }
    assert_eq!(told.len(), expected.len());
}

#[test]
fn figures_that_decided_are_fields() {
    let session = "order 1 sell 15 series 0 at 130\norder 2 sell 12 series 1 at 90\n\
        complex 3 buy 0 buy 1 class 1 net 205 quantity 8\norder 4 buy 6 series 1 at 90\n\
        away 0 bid 0 offer 60\norder 5 buy 1 series 0 at 113\n";
    let told = objects(&good(&["explain", "--text", "--json"], session.as_bytes()));
    let figures = |message: usize, record: usize| {
        let records = list(&told[message - 1], "records");
        get(&records[record], "figures").clone()
    };
    let two = figures(4, 2);
    assert_eq!(list(&two, "failed"), [Json::Text("size".to_string())]);
    assert_eq!((number(&two, "size"), number(&two, "quantity")), (6, 8));
    assert_eq!((number(&two, "net"), number(&two, "N")), (205, 205));
    assert_eq!(*get(&two, "hider_id"), Json::Null);
    let five = figures(5, 1);
    let of_five = ["N", "O", "highest", "percent"].map(|name| number(&five, name));
    assert_eq!(of_five, [205, 150, 157, 5]);
    let four = figures(6, 0);
    assert_eq!(
        (word(&four, "field"), number(&four, "value")),
        ("price".to_string(), 113)
    );
}

#[test]
fn an_audit_ends_with_its_verdict() {
    let sheet = good(&["sheet", "--text"], PRINTED_TEXT.as_bytes());
    let wrong = Kept::new("json.sheet", sheet.replace("66 3 205 5", "66 3 204 5"));
    let arguments = ["audit", "--text", "--json", "-", wrong.path()];
    let (told, _) = ended(&arguments, PRINTED_TEXT.as_bytes(), 1);
    let told = objects(&told);
    let of_type = |name: &str| {
        let of = told.iter().filter(|object| word(object, "type") == name);
        of.collect::<Vec<&Json>>()
    };
    let order = of_type("order")[0];
    let sums = ["id", "entered", "paired", "open"].map(|name| number(order, name));
    assert_eq!(sums, [3, 8, 5, 3]);
    let first = of_type("disagreement")[0];
    assert_eq!((number(first, "message"), number(first, "line")), (6, 11));
    assert_eq!(sheet_line(get(first, "expected")), "66 3 205 5");
    assert_eq!(word(first, "found"), "66 3 204 5");
    let verdict = told.last().unwrap();
    assert_eq!(word(verdict, "type"), "verdict");
    assert_eq!(*get(verdict, "agrees"), Json::Flag(false));
    assert_eq!(
        word(verdict, "words"),
        "does not agree: 1 of 6 messages differs"
    );
    let agrees = good(&["audit", "--text", "--json", "-"], PRINTED_TEXT.as_bytes());
    let verdict = objects(&agrees).pop().unwrap();
    assert_eq!(*get(&verdict, "agrees"), Json::Flag(true));
}

/// Every name that is written is told in the help.
#[test]
fn the_help_tells_every_name() {
    let help = good(&["help", "json"], b"");
    let told: Vec<&str> = help
        .split(|c: char| !c.is_alphanumeric() && c != '_')
        .collect();
    for profile in PROFILES {
        let (session, _) = drawn(profile, "7", "300");
        for arguments in [
            &["sheet", "--json", "--text"][..],
            &["explain", "--json", "--text"],
            &["audit", "--json", "--text", "-"],
        ] {
            for object in objects(&good(arguments, session.as_bytes())) {
                let mut parts = vec![object.clone()];
                for name in ["records", "more"] {
                    if let Json::List(of) = get(&object, name) {
                        parts.extend(of.iter().cloned());
                        let figures = of.iter().map(|part| get(part, "figures").clone());
                        parts.extend(figures.filter(|figures| *figures != Json::Null));
                    }
                }
                for name in parts.iter().flat_map(names) {
                    assert!(told.contains(&name.as_str()), "{name}");
                }
            }
        }
    }
}
