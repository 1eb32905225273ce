//! The sums of every complex order, kept up message by message.

use super::json::Json;
use crate::ledger::{Account, Ledger};
use crate::message::Message;
use crate::record::{Answer, Record};
use crate::view::find_complex;
use reference::Venue;
use std::collections::{BTreeMap, BTreeSet};

#[derive(Default)]
pub struct Sums {
    ledger: Ledger,
    rows: BTreeMap<u32, Row>,
}

struct Row {
    told: Json,
    /// Whether it still rests or its sums do not agree.
    is_of_note: bool,
}

impl Sums {
    /// Adds what a sheet says of a message; tells what cannot be added.
    pub fn add(&mut self, message: &Message, said: &[Record]) -> Vec<String> {
        let mut faults = Vec::new();
        if let Some(Record::Answer(Answer { refusal: 0, .. })) = said.first() {
            faults.extend(self.ledger.enter(message).err());
        }
        for record in said {
            faults.extend(self.ledger.add(record).err());
        }
        faults
    }

    /// What changes in the rows of these orders, once the message has left this venue.
    pub fn change(&mut self, orders: &BTreeSet<u32>, after: &Venue) -> Option<Json> {
        let mut changes = Vec::new();
        for id in orders {
            let Some(row) = self.row(*id, after) else {
                continue;
            };
            let change = match self.rows.get(id) {
                Some(before) => before.told.change_to(&row.told),
                None => Some(row.told.clone()),
            };
            changes.extend(change.map(|change| (id, change)));
            self.rows.insert(*id, row);
        }
        (!changes.is_empty()).then(|| Json::keyed(changes))
    }

    /// The row of a complex order, or none of a regular one.
    fn row(&self, id: u32, after: &Venue) -> Option<Row> {
        let account = self.ledger.find(id).filter(|account| account.is_complex)?;
        let open = find_complex(after, id).map_or(0, |order| u64::from(order.quantity));
        let fault = account.disagreement(open);
        Some(Row {
            is_of_note: open > 0 || fault.is_some(),
            told: told(account, open, fault),
        })
    }

    /// The rows of orders that still rest or do not agree, and how many others there are.
    pub fn of_note(&self) -> (Json, usize) {
        let of_note = self.rows.iter().filter(|(_, row)| row.is_of_note);
        let rows: Vec<(u32, Json)> = of_note.map(|(id, row)| (*id, row.told.clone())).collect();
        let others = self.rows.len() - rows.len();
        (Json::keyed(rows), others)
    }
}

/// Entered, paired, crossed, cancelled and open; of each leg its series, its contracts and
/// ratio x paired; what does not agree, or 0.
fn told(account: &Account, open: u64, fault: Option<String>) -> Json {
    let Account {
        entered,
        paired,
        crossed,
        cancelled,
        ..
    } = *account;
    let sums = [entered, paired, crossed, cancelled, open];
    let legs = account.series().into_iter().zip(account.ratios);
    let legs = legs.flat_map(|(series, ratio)| {
        let contracts = account.contracts[usize::from(series)];
        [u64::from(series), contracts, u64::from(ratio) * paired]
    });
    let numbers = sums.into_iter().chain(legs);
    let numbers = numbers.map(|number| Json::number(number as i64));
    let fault = fault.map_or(Json::number(0), Json::Text);
    Json::list(numbers.chain([fault]))
}

/// The orders that a record names.
pub fn named(record: &Record) -> [Option<u32>; 2] {
    match record {
        Record::Trade(trade) => [Some(trade.taker), Some(trade.maker)],
        Record::Cross(cross) => [Some(cross.taker), Some(cross.maker)],
        Record::Pair(pair) => [Some(pair.id), None],
        Record::Generated(made) => [Some(made.id), None],
        Record::Removed(removed) => [Some(removed.id), None],
        Record::Cancelled(cancelled) => [Some(cancelled.id), None],
        Record::Answer(_) | Record::Looked(_) => [None, None],
    }
}
