//! The arithmetic of pairs, by a sheet's own lines: each 66 by the 65s before it and by the
//! limit of its order.

use crate::ledger::{Account, Ledger};
use crate::record::{Pair, Record, Trade};
use crate::view::{sign, Part};

/// The trades of complex orders in a message that no 66 has paired yet.
#[derive(Default)]
pub struct Pairs {
    open: Vec<(u32, Trade)>,
}

impl Pairs {
    /// One record of the message; of a 66 that is not its trades, it tells why.
    pub fn note(&mut self, ledger: &Ledger, record: &Record) -> Option<String> {
        match record {
            Record::Trade(trade) => {
                let parties = [trade.taker, trade.maker].into_iter();
                let complex = parties.filter(|id| ledger.find(*id).is_some_and(is_complex));
                self.open.extend(complex.map(|id| (id, *trade)));
                None
            }
            Record::Pair(pair) => {
                let of_pair = |(id, _): &mut (u32, Trade)| *id == pair.id;
                let trades = self.open.extract_if(.., of_pair).map(|(_, trade)| trade);
                let trades: Vec<Trade> = trades.collect();
                let account = ledger.find(pair.id).filter(|account| is_complex(account))?;
                let faults = faults(account, pair, &trades);
                (!faults.is_empty()).then(|| faults.join(", and "))
            }
            _ => None,
        }
    }

    /// The message ends: the trades of a complex order that no 66 paired.
    pub fn end(&mut self) -> Option<String> {
        let (id, _) = *self.open.first()?;
        let contracts = self.open.iter().filter(|(of, _)| *of == id);
        let contracts: u64 = contracts.map(|(_, trade)| u64::from(trade.quantity)).sum();
        self.open.clear();
        Some(format!(
            "complex order {id} trades {contracts} contracts that no 66 pairs"
        ))
    }
}

fn is_complex(account: &Account) -> bool {
    account.is_complex
}

/// What is wrong with a pair of an order by these trades.
fn faults(account: &Account, pair: &Pair, trades: &[Trade]) -> Vec<String> {
    let parts = account.parts();
    let mut faults = Vec::new();
    for trade in trades {
        faults.extend(wrong_side(parts, pair.id, trade));
    }
    for part in parts {
        faults.extend(wrong_contracts(part, pair, trades));
    }
    let worth: i64 = trades.iter().map(|trade| worth(parts, trade)).sum();
    let told = i64::from(pair.net) * i64::from(pair.quantity);
    if worth != told {
        let (net, units) = (pair.net, pair.quantity);
        faults.push(format!(
            "its trades come to {worth} in all, {units} at net {net} to {told}"
        ));
    }
    if i64::from(pair.net) > account.limit {
        let (net, limit) = (pair.net, account.limit);
        faults.push(format!("net {net} is above N {limit} of the order"));
    }
    faults
}

/// A trade that is of no leg of the order, or of the other side of it.
fn wrong_side(parts: [Part; 2], id: u32, trade: &Trade) -> Option<String> {
    let series = trade.series;
    let Some(part) = parts.iter().find(|part| part.leg.series == series) else {
        return Some(format!("series {series} is no leg of the order"));
    };
    let own = if trade.taker == id {
        trade.side
    } else {
        1 - trade.side.min(1)
    };
    let name = if part.leg.side == 0 { "buys" } else { "sells" };
    (own != part.leg.side).then(|| format!("the order {name} in series {series}"))
}

/// Contracts of a leg that are not the ratio times the units.
fn wrong_contracts(part: Part, pair: &Pair, trades: &[Trade]) -> Option<String> {
    let series = part.leg.series;
    let of_leg = trades.iter().filter(|trade| trade.series == series);
    let contracts: i64 = of_leg.map(|trade| i64::from(trade.quantity)).sum();
    let expected = part.ratio * i64::from(pair.quantity);
    (contracts != expected).then(|| {
        format!("the 65s before it have {contracts} contracts in series {series}, not {expected}")
    })
}

/// What a trade adds to the nets of its units.
fn worth(parts: [Part; 2], trade: &Trade) -> i64 {
    let part = parts.iter().find(|part| part.leg.series == trade.series);
    let sign = part.map_or(0, |part| sign(part.leg));
    sign * i64::from(trade.price) * i64::from(trade.quantity)
}

#[cfg(test)]
mod tests {
    use super::*;
    use crate::record::parse_sheet;
    use crate::text::parse_session;

    /// What is told of the records of a message upon two complex orders.
    fn told(sheet: &str) -> Vec<String> {
        let text = "complex 3 buy 0 buy 1 class 1 net 205 quantity 8\n\
            complex 4 buy 0 sell 1 class 1 net 300 quantity 8 ratio 3 1\n";
        let mut ledger = Ledger::default();
        for message in parse_session(text).unwrap() {
            ledger.enter(&message).unwrap();
        }
        let mut pairs = Pairs::default();
        let records = parse_sheet(sheet).unwrap();
        let found = records
            .iter()
            .filter_map(|record| pairs.note(&ledger, record));
        let found: Vec<String> = found.collect();
        found.into_iter().chain(pairs.end()).collect()
    }

    const HIT: &str = "65 0 1 115 5 9 3\n65 1 0 90 3 3 2\n65 1 0 90 2 3 1\n";

    #[test]
    fn pairs_that_are_their_trades_hold() {
        for sheet in [
            "65 0 0 130 6 4 1\n65 1 1 90 2 4 2\n66 4 300 2\n",
            "65 0 1 115 5 9 8\n64 1 0 0 0\n",
            "65 0 0 110 3 3 1\n65 1 0 90 3 3 2\n66 3 200 3\n65 0 0 115 1 3 1\n65 1 0 90 1 3 2\n\
             66 3 205 1\n",
        ] {
            assert_eq!(told(sheet), [""; 0], "{sheet}");
        }
        assert_eq!(told(&format!("{HIT}66 3 205 5\n")), [""; 0]);
    }

    #[test]
    fn pairs_that_are_not_their_trades_are_told() {
        let cases = [
            (
                "66 3 204 5\n",
                "its trades come to 1025 in all, 5 at net 204 to 1020",
            ),
            (
                "66 3 205 4\n",
                "the 65s before it have 5 contracts in series 0, not 4, and the 65s before it \
                 have 5 contracts in series 1, not 4, and its trades come to 1025 in all, 4 at \
                 net 205 to 820",
            ),
            ("", "complex order 3 trades 10 contracts that no 66 pairs"),
        ];
        for (pair, expected) in cases {
            assert_eq!(told(&format!("{HIT}{pair}")), [expected]);
        }
        let cases = [
            (
                "65 0 0 120 1 3 1\n65 1 0 90 1 3 2\n66 3 210 1\n",
                "net 210 is above N 205 of the order",
            ),
            (
                "65 0 1 115 1 3 1\n65 1 0 90 1 3 2\n66 3 205 1\n",
                "the order buys in series 0",
            ),
            (
                "65 0 0 115 1 9 3\n65 1 0 90 1 3 2\n66 3 205 1\n",
                "the order buys in series 0",
            ),
            (
                "65 2 0 115 1 3 1\n65 0 0 115 1 3 1\n65 1 0 90 1 3 2\n66 3 205 1\n",
                "series 2 is no leg of the order",
            ),
        ];
        for (sheet, expected) in cases {
            assert_eq!(told(sheet), [expected], "{sheet}");
        }
    }

    #[test]
    fn ratios_count_contracts() {
        let found = told("65 0 0 130 5 4 1\n65 1 1 90 2 4 2\n66 4 300 2\n");
        let expected = "the 65s before it have 5 contracts in series 0, not 6, and its trades \
            come to 470 in all, 2 at net 300 to 600";
        assert_eq!(found, [expected]);
    }
}
