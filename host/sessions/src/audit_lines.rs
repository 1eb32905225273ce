//! What an audit tells, in lines and in objects of JSON.

use crate::audit::{Counts, Disagreement, Reserve, Row, Told};
use crate::counted::counted;
use crate::json::{record_object, Object};
use crate::ledger::Account;
use crate::moments::Parties;
use crate::settings::{figure_name, PERCENT};
use reference::Edition;
use std::fmt::{self, Display};

impl Display for Disagreement {
    fn fmt(&self, f: &mut fmt::Formatter) -> fmt::Result {
        match (self.line, self.message) {
            (Some(line), Some(message)) => write!(f, "line {line} (message {message}): ")?,
            (Some(line), None) => write!(f, "line {line}: ")?,
            (None, Some(message)) => write!(f, "message {message}: ")?,
            (None, None) => {}
        }
        write!(f, "{}", self.what)
    }
}

/// The verdict.
impl Counts {
    pub fn agrees(&self) -> bool {
        let wrong = self.differing + self.extra + self.orders;
        wrong == 0 && self.answered == self.messages
    }

    fn disagreements(&self) -> Vec<String> {
        let messages = self.messages;
        let mut parts = Vec::new();
        parts.extend(match self.differing {
            0 => None,
            1 => Some(format!("1 of {messages} messages differs")),
            differing => Some(format!("{differing} of {messages} messages differ")),
        });
        parts.extend(match self.extra {
            0 => None,
            1 => Some("1 answer is one too many".to_string()),
            extra => Some(format!("{extra} answers are too many")),
        });
        parts.extend(match self.orders {
            0 => None,
            orders => Some(format!(
                "the sums of {} do not agree",
                counted(orders, "order")
            )),
        });
        parts.extend(self.end_in_words());
        parts
    }

    /// Where the sheet ends, if that is before its end.
    fn end_in_words(&self) -> Option<String> {
        let Counts {
            messages, answered, ..
        } = self;
        if self.records == 0 && answered < messages {
            let messages = counted(u64::from(*messages), "message");
            return Some(format!(
                "the sheet has no records, the session has {messages}"
            ));
        }
        let place = if self.ends_within { "within" } else { "after" };
        (answered < messages || self.ends_within)
            .then(|| format!("the sheet ends {place} message {answered} of {messages}"))
    }
}

impl Display for Counts {
    fn fmt(&self, f: &mut fmt::Formatter) -> fmt::Result {
        if !self.agrees() {
            return write!(f, "does not agree: {}", self.disagreements().join("; "));
        }
        let messages = counted(u64::from(self.messages), "message");
        let records = counted(self.records, "record");
        write!(f, "agrees: {messages}, {records}")
    }
}

/// The head of the table of complex orders.
pub fn table_head() -> String {
    format!(
        "{:>10} {:>8} {:>8} {:>8} {:>9} {:>8}  {:<24} sums\n",
        "order", "entered", "paired", "crossed", "cancelled", "open", "contracts by series"
    )
}

/// A line of the table; of an order of unequal ratios, one more of its contracts.
impl Display for Row {
    fn fmt(&self, f: &mut fmt::Formatter) -> fmt::Result {
        let account = &self.account;
        let verdict = if self.agrees { "agree" } else { "DISAGREE" };
        write!(
            f,
            "{:>10} {:>8} {:>8} {:>8} {:>9} {:>8}  {:<24} {verdict}",
            account.id,
            account.entered,
            account.paired,
            account.crossed,
            account.cancelled,
            self.open,
            contracts(account)
        )?;
        match account.ratios {
            [1, 1] => Ok(()),
            _ => write!(f, "\n{}", units_in_words(account)),
        }
    }
}

/// The contracts in its own series and in any other that has some.
fn contracts(account: &Account) -> String {
    let shown = (0..8u8).filter(|series| {
        account.series().contains(series) || account.contracts[usize::from(*series)] > 0
    });
    let parts: Vec<String> = shown
        .map(|series| format!("{series}: {}", account.contracts[usize::from(series)]))
        .collect();
    parts.join(", ")
}

/// The contracts of an order of unequal ratios, beside its ratios and paired units.
fn units_in_words(account: &Account) -> String {
    let Account {
        id,
        ratios: [first, second],
        paired,
        ..
    } = account;
    let [a, b] = account.series().map(|series| {
        let contracts = account.contracts[usize::from(series)];
        format!("{contracts} in series {series}")
    });
    format!("order {id} of ratios {first} and {second}: {paired} units paired, contracts {a}, {b}")
}

impl Display for Reserve {
    fn fmt(&self, f: &mut fmt::Formatter) -> fmt::Result {
        let Account {
            id,
            entered,
            shown,
            cancelled,
            ..
        } = &self.account;
        let traded = self.account.traded();
        write!(
            f,
            "order {id} was to show {shown} of {entered}: traded {traded}, cancelled {cancelled}, \
             open {}, of these {} shown",
            self.open, self.shown
        )
    }
}

/// What the audit counted, a line each.
pub fn summary<'a>(
    counts: &Counts,
    editions: impl Iterator<Item = &'a Edition>,
) -> impl Iterator<Item = String> {
    let (messages, orders) = (u64::from(counts.answered), counts.complex);
    let (messages, orders) = (
        counted(messages, "message"),
        counted(orders, "complex order"),
    );
    let mut lines = vec![format!("{messages}, {orders}")];
    lines.extend(editions.map(edition_in_words));
    let series = counts.generated.iter().zip(counts.most_generated);
    for (series, (count, most)) in series.enumerate().filter(|(_, (count, _))| **count > 0) {
        let made = counted(*count as u64, "legging order");
        lines.push(format!(
            "series {series}: {made} made, at most {most} in 256 messages"
        ));
    }
    let moments = Parties::ALL.iter().zip(counts.moments);
    let moments: Vec<String> = moments
        .map(
            |((_, name), count)| match (count, name.strip_prefix("trades")) {
                (1, Some(of)) => format!("1 trade{of}"),
                (1, None) => "1 cross".to_string(),
                _ => format!("{count} {name}"),
            },
        )
        .collect();
    lines.push(format!("by replay: {}", moments.join(", ")));
    lines.into_iter()
}

fn edition_in_words(entry: &Edition) -> String {
    let (name, value) = (figure_name(entry.figure), entry.value);
    let (edition, number) = (entry.edition, entry.number);
    format!("from message {number}: {name} is {value} (edition {edition})")
}

impl Told {
    /// What is told as an object, by its type.
    pub fn object(&self) -> Object {
        match self {
            Told::Order(row) => row.object(),
            Told::Reserve(reserve) => reserve.object(),
            Told::Disagreement(disagreement) => disagreement.object(),
        }
    }
}

impl Row {
    fn object(&self) -> Object {
        let account = &self.account;
        let mut object = Object::new();
        object.add("type", "order").add("id", account.id);
        object
            .add("entered", account.entered)
            .add("paired", account.paired)
            .add("crossed", account.crossed)
            .add("cancelled", account.cancelled)
            .add("open", self.open)
            .add("contracts", account.contracts.to_vec())
            .add("ratio1", account.ratios[0])
            .add("ratio2", account.ratios[1])
            .add("agrees", self.agrees);
        object
    }
}

impl Reserve {
    fn object(&self) -> Object {
        let account = &self.account;
        let mut object = Object::new();
        object.add("type", "reserve").add("id", account.id);
        object
            .add("entered", account.entered)
            .add("shown_quantity", account.shown)
            .add("traded", account.traded())
            .add("cancelled", account.cancelled)
            .add("open", self.open)
            .add("shown", self.shown);
        object
    }
}

impl Disagreement {
    fn object(&self) -> Object {
        let expected = self.expected.as_ref().map(record_object);
        let mut object = Object::new();
        object
            .add("type", "disagreement")
            .add("message", self.message)
            .add("line", self.line)
            .add("order", self.order)
            .add("expected", expected)
            .add("found", self.found.clone())
            .add("words", self.to_string());
        object
    }
}

impl Counts {
    /// The verdict.
    pub fn object(&self) -> Object {
        let mut object = Object::new();
        object
            .add("type", "verdict")
            .add("agrees", self.agrees())
            .add("messages", self.messages)
            .add("answered", self.answered)
            .add("records", self.records)
            .add("differing", self.differing)
            .add("extra_answers", self.extra)
            .add("orders", self.orders)
            .add("words", self.to_string());
        object
    }

    /// What was counted, an object each: the settings, the legging orders of each series,
    /// the trades and crosses looked at.
    pub fn objects<'a>(&self, editions: impl Iterator<Item = &'a Edition>) -> Vec<Object> {
        let mut objects: Vec<Object> = editions.map(edition_object).collect();
        let series = self.generated.iter().zip(self.most_generated).enumerate();
        for (series, (count, most)) in series.filter(|(_, (count, _))| **count > 0) {
            let mut object = Object::new();
            object.add("type", "series").add("series", series);
            object.add("generated", *count).add("most_in_256", most);
            objects.push(object);
        }
        let [orders, order_and_legging, complex_and_order, crosses] = self.moments;
        let mut object = Object::new();
        object
            .add("type", "moments")
            .add("regular_trades", orders)
            .add("legging_trades", order_and_legging)
            .add("complex_trades", complex_and_order)
            .add("crosses", crosses);
        objects.push(object);
        objects
    }
}

fn edition_object(entry: &Edition) -> Object {
    let mut object = Object::new();
    object.add("type", "edition").add("message", entry.number);
    match entry.figure {
        PERCENT => object.add("percent", entry.value),
        series => object.add("series", series).add("increment", entry.value),
    };
    object.add("edition", entry.edition);
    object
}
