//! What each accepted order entered, traded, crossed and cancelled, summed from
//! messages and records.

use crate::message::{Leg, Message};
use crate::record::Record;
use crate::view::{held_complex, held_regular, parts, shown, Part};
use reference::Venue;
use std::iter::Peekable;

#[derive(Clone, Debug, PartialEq, Eq)]
pub struct Account {
    pub id: u32,
    /// The two legs of a complex order; one twice for a regular order.
    pub legs: [Leg; 2],
    /// N of a complex order.
    pub limit: i64,
    /// The contracts of each series in one unit: 1 and 1 but for kind 10.
    pub ratios: [u8; 2],
    pub is_complex: bool,
    /// In units, as all but the contracts.
    pub entered: u64,
    /// The shown quantity that it was entered with; all of it but for kind 9.
    pub shown: u64,
    pub paired: u64,
    pub crossed: u64,
    pub cancelled: u64,
    pub contracts: [u64; 8],
}

impl Account {
    /// The account of an order before any record names it.
    fn of(message: &Message) -> Option<Account> {
        let account = match message {
            Message::Order(order) => Account {
                legs: [order.leg; 2],
                shown: u64::from(order.shown()),
                ..Account::new(order.id, order.quantity)
            },
            Message::Complex(order) => Account {
                legs: order.legs,
                limit: i64::from(order.limit),
                ratios: order.unit(),
                is_complex: true,
                ..Account::new(order.id, order.quantity)
            },
            _ => return None,
        };
        Some(account)
    }

    fn new(id: u32, quantity: u32) -> Account {
        Account {
            id,
            legs: [Leg { series: 0, side: 0 }; 2],
            limit: 0,
            ratios: [1, 1],
            is_complex: false,
            entered: u64::from(quantity),
            shown: u64::from(quantity),
            paired: 0,
            crossed: 0,
            cancelled: 0,
            contracts: [0; 8],
        }
    }

    pub fn series(&self) -> [u8; 2] {
        self.legs.map(|leg| leg.series)
    }

    /// The legs with the contracts of each in one unit.
    pub fn parts(&self) -> [Part; 2] {
        parts(self.legs, self.ratios)
    }

    /// What was paired or crossed of a complex order, or traded of a regular one.
    pub fn traded(&self) -> u64 {
        if self.is_complex {
            self.paired + self.crossed
        } else {
            self.contracts[usize::from(self.legs[0].series)]
        }
    }

    /// What is wrong with the sums, given what is still open.
    pub fn disagreement(&self, open: u64) -> Option<String> {
        let traded = self.traded();
        if self.entered != traded + self.cancelled + open {
            return Some(format!(
                "order {}: entered {} but traded {}, cancelled {} and open {}",
                self.id, self.entered, traded, self.cancelled, open
            ));
        }
        let expected = self.expected_contracts();
        let differs = |series: &usize| self.contracts[*series] != expected[*series];
        let series = (0..8).find(differs)?;
        Some(format!(
            "order {}: {} contracts in series {series}, expected {}",
            self.id, self.contracts[series], expected[series]
        ))
    }

    /// The contracts of each series, by the pairs of a complex order; those of a regular
    /// order are whatever they are in its own series.
    fn expected_contracts(&self) -> [u64; 8] {
        let mut expected = [0; 8];
        for (leg, ratio) in self.legs.iter().zip(self.ratios) {
            let series = usize::from(leg.series);
            expected[series] = match self.is_complex {
                true => u64::from(ratio) * self.paired,
                false => self.contracts[series],
            };
        }
        expected
    }
}

/// Whether an id comes among rising ones, of which those up to it are taken.
fn comes(ids: &mut Peekable<impl Iterator<Item = u32>>, id: u32) -> bool {
    while ids.next_if(|next| *next < id).is_some() {}
    ids.next_if_eq(&id).is_some()
}

/// The accounts of accepted orders, in rising id, up to where they are closed.
#[derive(Clone, Debug, Default)]
pub struct Ledger {
    pub accounts: Vec<Account>,
}

impl Ledger {
    /// Opens the account of an accepted order.
    pub fn enter(&mut self, message: &Message) -> Result<(), String> {
        let Some(account) = Account::of(message) else {
            return Ok(());
        };
        let (id, series) = (account.id, account.series());
        if series.iter().any(|series| *series > 7) {
            return Err(format!("order {id} was accepted with a series above 7"));
        }
        if self.accounts.last().is_some_and(|last| last.id >= id) {
            return Err(format!("order {id} was accepted after a higher id"));
        }
        self.accounts.push(account);
        Ok(())
    }

    /// Takes out the accounts of the orders that no longer rest in a venue.
    pub fn close(&mut self, venue: &Venue) -> Vec<Account> {
        let mut regular = held_regular(venue).map(|order| order.id).peekable();
        let mut complex = held_complex(venue).map(|order| order.id).peekable();
        let is_gone = |account: &mut Account| match account.is_complex {
            true => !comes(&mut complex, account.id),
            false => !comes(&mut regular, account.id),
        };
        self.accounts.extract_if(.., is_gone).collect()
    }

    fn place(&self, id: u32) -> Option<usize> {
        let accounts = &self.accounts;
        accounts
            .binary_search_by_key(&id, |account| account.id)
            .ok()
    }

    /// The account of an order that is not closed.
    pub fn find(&self, id: u32) -> Option<&Account> {
        self.place(id).map(|at| &self.accounts[at])
    }

    fn account(&mut self, id: u32, record: &Record) -> Result<&mut Account, String> {
        match self.place(id) {
            Some(at) => Ok(&mut self.accounts[at]),
            None => Err(format!(
                "record \"{record}\" names {id}, which was not accepted or is gone"
            )),
        }
    }

    /// Adds one record's quantities to the accounts that it names.
    pub fn add(&mut self, record: &Record) -> Result<(), String> {
        match record {
            Record::Trade(trade) => {
                let series = usize::from(trade.series);
                for id in [trade.taker, trade.maker] {
                    let account = self.account(id, record)?;
                    let Some(contracts) = account.contracts.get_mut(series) else {
                        return Err(format!("record \"{record}\" has a series above 7"));
                    };
                    *contracts += u64::from(trade.quantity);
                }
            }
            Record::Pair(pair) => {
                self.account(pair.id, record)?.paired += u64::from(pair.quantity);
            }
            Record::Cross(cross) => {
                for id in [cross.taker, cross.maker] {
                    self.account(id, record)?.crossed += u64::from(cross.quantity);
                }
            }
            Record::Cancelled(gone) => {
                self.account(gone.id, record)?.cancelled += u64::from(gone.quantity);
            }
            Record::Answer(_) | Record::Looked(_) => {}
            Record::Generated(_) | Record::Removed(_) => {}
        }
        Ok(())
    }

    /// The first resting order that shows other than the lesser of the shown quantity
    /// it was entered with and what is left of it.
    pub fn shows_otherwise(&self, venue: &Venue) -> Option<String> {
        let mut accounts = self.accounts.iter();
        held_regular(venue).find_map(|order| {
            let entered = accounts.find(|account| account.id == order.id)?.shown;
            let expected = entered.min(u64::from(order.quantity));
            let shows = u64::from(shown(order));
            (shows != expected || u64::from(order.display) != expected).then(|| {
                format!(
                    "order {} shows {shows} of {}, expected {expected}",
                    order.id, order.quantity
                )
            })
        })
    }

    /// The first order whose sums do not agree with the venue left.
    pub fn disagreement(&self, venue: &Venue) -> Option<String> {
        let mut regular = held_regular(venue).peekable();
        let mut complex = held_complex(venue).peekable();
        for account in &self.accounts {
            let open = if account.is_complex {
                complex
                    .next_if(|order| order.id == account.id)
                    .map(|order| order.quantity)
            } else {
                regular
                    .next_if(|order| order.id == account.id)
                    .map(|order| order.quantity)
            };
            let fault = account.disagreement(u64::from(open.unwrap_or(0)));
            if fault.is_some() {
                return fault;
            }
        }
        let left = complex
            .next()
            .map(|order| order.id)
            .or(regular.next().map(|order| order.id));
        left.map(|id| format!("order {id} rests but was not accepted"))
    }
}
