//! Limited sweeps, and generation at the ceiling.

use super::{Coverage, Rare};
use crate::check::{Seen, Step};
use crate::message::{LimitedSweep, Message};
use crate::model::looked_at;
use crate::record::{Answer, Record};
use crate::view::{find_complex, held_complex, legs_of, place_of, Declined};
use reference::Complex;

impl Coverage {
    /// Limited sweeps as they are accepted and refused.
    pub(super) fn observe_limited(&mut self, step: &Step) {
        let Message::LimitedSweep(LimitedSweep { most }) = *step.message else {
            return;
        };
        if step.returned.number != 0 {
            self.add(Rare::LimitedRefused, step.returned.number == 4);
            return;
        }
        let reached = step.before.reached;
        let looked = looked_at(step.before, most);
        let all = looked.len() == held_complex(step.before).count();
        self.add(Rare::LimitedNone, looked.is_empty());
        self.add(Rare::LimitedAll, all && !looked.is_empty());
        self.add(Rare::LimitedPart, !all);
        self.add(Rare::GoesRound, !looked.is_sorted());
        let gone = reached > 0 && find_complex(step.before, reached).is_none();
        self.add(Rare::ReachedGone, gone && !looked.is_empty());
        for id in looked {
            self.add(Rare::GoneByTurn, gone_by_turn(step, id));
            let closed = find_complex(step.before, id).is_some_and(|order| is_closed(step, order));
            self.add(Rare::LookedClosed, closed);
        }
        let wrote = |kind| step.records.iter().any(|record| record.kind() == kind);
        self.add(Rare::PairInLimited, wrote(66));
        self.add(Rare::CrossInLimited, wrote(70));
        self.add(Rare::GeneratedByLimited, wrote(67));
        let made = step.records.iter().filter_map(generated_by);
        self.add(Rare::GeneratedInRound, !made.is_sorted());
    }

    /// Generation at the ceiling, and just after it.
    pub(super) fn observe_ceiling(&mut self, step: &Step, seen: &Seen) {
        for attempt in &seen.attempts {
            let holder = step.returned.venue.legging[place_of(attempt.leg)];
            let stopped = matches!(attempt.outcome, Err(Declined::AtCeiling { .. }));
            self.add(Rare::HolderStays, stopped && holder.quantity > 0);
        }
        let Some(Record::Answer(Answer { number, .. })) = step.records.first() else {
            return;
        };
        let mut generations = step.before.generations;
        for record in seen.phases.generation {
            if let Record::Generated(made) = record {
                let last = &mut generations[usize::from(made.series)];
                self.add(Rare::JustAllowed, last[0] > 0 && last[0] + 256 == *number);
                self.add(Rare::SeveralInOne, last[19] == *number);
                last.rotate_left(1);
                last[19] = *number;
            }
        }
    }
}

fn generated_by(record: &Record) -> Option<u32> {
    match *record {
        Record::Generated(made) => Some(made.id),
        _ => None,
    }
}

fn is_closed(step: &Step, order: &Complex) -> bool {
    let closed = |series: u8| step.before.series[usize::from(series)].status == 0;
    legs_of(order).iter().any(|leg| closed(leg.series))
}

/// Whether an order was used up by others of the sweep.
fn gone_by_turn(step: &Step, looked: u32) -> bool {
    let worked = |record: &Record| match *record {
        Record::Cross(cross) => cross.taker == looked,
        Record::Pair(pair) => pair.id == looked,
        _ => false,
    };
    find_complex(&step.returned.venue, looked).is_none() && !step.records.iter().any(worked)
}
