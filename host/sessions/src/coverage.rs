//! What a number of sessions showed: records, causes, refusals, rare cases.

mod ratios;
mod reserve;
mod traffic;

use crate::check::{Seen, Step};
use crate::feed_check::FeedCoverage;
use crate::layer_check::LayerCoverage;
use crate::message::{Leg, Message, NewOrder};
use crate::model::{in_use, AboveLegs};
use crate::moments::Parties;
use crate::phases::Phases;
use crate::record::{Cross, Record, Trade};
use crate::set_check::SetCoverage;
use crate::settings::{held_editions, InForce};
use crate::view::{beats, find_complex, held_complex, held_regular, leg_at, legs_of};
use crate::view::{opposite, parts_of, place_of, rounded, within, Declined, View};
use reference::{Legging, Venue};
use std::fmt::{self, Display};

macro_rules! rare {
    ($($rare:ident $name:literal)+) => {
        /// Cases that chance seldom finds.
        #[derive(Clone, Copy, Debug, PartialEq, Eq)]
        pub enum Rare {
            $($rare,)+
        }

        impl Rare {
            pub const ALL: [(Rare, &'static str); RARE] = [$((Rare::$rare, $name)),+];
        }
    };
}

const RARE: usize = 79;

rare! {
    FailingHides "settling: a failing order hides another's clear price"
    HiddenWouldStand "  of these, the other would have stood without it"
    BandAndNet "settling: causes 5 and 2 both apply"
    ReplacedByClass "replacement by class at an equal price"
    ReplacedByPrice "replacement by a better price"
    OwnReplacedInSweep "own replacement in a sweep"
    HitInPart "hit of a legging order in part"
    HitInFull "hit of a legging order in full"
    CrossInSweep "cross in a sweep"
    CrossOfTwoWithLegging "cross of two orders that both have legging orders"
    TakerAboveLegs "no cross: the taker's net above its best regular prices"
    MakerAboveLegs "no cross: the maker's net above its best regular prices"
    AboveLegsInSweep "no cross in a sweep: a net above best regular prices"
    TouchWithoutPair "touch that no pair follows"
    SeveralRounds "legging in of several rounds"
    RegularBookFull "128 regular orders rest"
    ComplexBookFull "32 complex orders rest"
    BothBooksFull "both books full at once"
    BelowIncrement "legging order at an own price below the increment"
    ShownAtIncrement "legging order shown at the increment"
    ShownAtHighest "legging order shown at 100,000"
    LimitAtBandEdge "generation with the limit at the edge of the band"
    PercentRemoves "percentage that removes a legging order"
    InByEdition "limit in band by an edition, not by edition 0"
    OutByEdition "limit in band by edition 0, not by the one in force"
    OnByEdition "order taken at a price off the increment of edition 0"
    OffByEdition "order refused at a price on the increment of edition 0"
    ShownByEdition "legging order shown otherwise than by edition 0"
    ChangesNothing "setting that changes nothing"
    StaleInUse "refusal 11 where 12 applies too"
    InUseFull "refusal 12 where 13 applies too"
    EditionsFull "32 editions held"
    NumberNotAbove "refusal 9 for a number not above an edition's"
    ShowsAll "order of kind 9 that shows all of it"
    ShownRefused "refusal 4 for the shown quantity alone"
    ReserveTaken "trade of reserve"
    ReserveById "reserve of two orders taken at one price"
    ReserveBeforeWorse "reserve taken before size shown at a worse price"
    ReserveBeforeLegging "reserve taken before a legging order at an equal price"
    RestHasReserve "order that trades when it comes and rests with reserve"
    LastIsShown "order whose reserve is used up, and the last of it shown"
    ReserveCancelled "cancel of an order with reserve"
    UsedUp "complex order that takes all that an order with reserve shows"
    BehindReserve "trade of a complex order behind reserve at a better price"
    SharedInSweep "two orders of a sweep that share what one order shows"
    GeneratedByShown "legging order no larger than what is shown, with reserve behind it"
    RemovedByShown "settling: cause 2 for the size shown, with reserve enough"
    RatiosRefused "refusal 4 for the ratios alone"
    EqualBeforeOthers "refusal 14 where 5, 6 or 7 applies too"
    LimitOfRatios "unequal ratios: limit beyond that of kind 2"
    UnitsCancelled "unequal ratios: cancel"
    PairOfUnits "unequal ratios: pair"
    UnitsInSweep "unequal ratios: pair in a sweep"
    RoundsOfUnits "unequal ratios: legging in of several rounds"
    ShortAtOnce "unequal ratios: less than a unit at a price, no pair"
    ShortAfterPair "unequal ratios: less than a unit at a price after a pair"
    ShortOfShown "unequal ratios: less than a unit shown, with reserve enough"
    CrossOfUnits "unequal ratios: cross"
    CrossNamedOtherwise "  of these, with the other leg named first"
    OtherRatios "no cross: sides reversed and limits met, other ratios"
    UnitsAboveLegs "no cross of unequal ratios: a net above best regular prices"
    TouchOfUnits "unequal ratios: touch of sizes that fill a unit"
    TouchShortThenPair "touch with cause 10 that a pair follows"
    LimitedRefused "refusal 4 for the number of a limited sweep"
    LimitedNone "limited sweep: no order rests"
    LimitedAll "limited sweep: every order looked at"
    LimitedPart "limited sweep: some orders looked at"
    GoesRound "limited sweep: on from the lowest id"
    ReachedGone "limited sweep: the last order looked at is gone"
    GoneByTurn "limited sweep: an order gone by its turn"
    LookedClosed "limited sweep: an order with a closed series"
    PairInLimited "limited sweep: pair"
    CrossInLimited "limited sweep: cross"
    GeneratedByLimited "limited sweep: generation"
    GeneratedInRound "  of these, for a lower id after a higher one"
    HolderStays "the ceiling: the holder of a place stays"
    JustAllowed "generation 256 messages after the oldest of 20"
    SeveralInOne "generation of a series twice in one message"
    NumberNotAboveMade "refusal 9 for a number not above a generation's"
}

/// Numbers of a run or a one-message call: 0 to 14.
const NUMBERS: usize = 15;

/// Causes of a removal.
const CAUSES: [u8; 9] = [1, 2, 3, 4, 5, 6, 7, 8, 10];

const DECLINED: [&str; 11] = [
    "a series not open",
    "limit out of band",
    "no clear price",
    "displayed price out of range",
    "worse than the best regular",
    "reaches an own price",
    "reaches an away price",
    "place held",
    "another order would fail",
    "unequal ratios",
    "the ceiling",
];

fn declined_index(declined: &Declined) -> usize {
    match declined {
        Declined::NotOpen { .. } => 0,
        Declined::OutOfBand { .. } => 1,
        Declined::NoClearPrice { .. } => 2,
        Declined::DisplayedOutOfRange { .. } => 3,
        Declined::WorseThanBook { .. } => 4,
        Declined::ReachesOwn { .. } => 5,
        Declined::ReachesAway { .. } => 6,
        Declined::PlaceHeld { .. } => 7,
        Declined::OtherWouldFail { .. } => 8,
        Declined::HasRatios { .. } => 9,
        Declined::AtCeiling { .. } => 10,
    }
}

const RECORD_KINDS: [u16; 8] = [64, 65, 66, 67, 68, 70, 71, 72];

#[derive(Clone, Debug)]
pub struct Coverage {
    pub sessions: u64,
    pub messages: u64,
    records: [u64; RECORD_KINDS.len()],
    causes: [u64; CAUSES.len()],
    answers: [u64; NUMBERS],
    declined: [u64; DECLINED.len()],
    rare: [u64; RARE],
    /// Trades and crosses looked at at their moment: all, and those with a choice.
    moments: [[u64; 2]; Parties::ALL.len()],
    pub feeds: FeedCoverage,
    pub layers: LayerCoverage,
    pub sets: SetCoverage,
}

impl Default for Coverage {
    fn default() -> Self {
        Coverage {
            sessions: 0,
            messages: 0,
            records: [0; RECORD_KINDS.len()],
            causes: [0; CAUSES.len()],
            answers: [0; NUMBERS],
            declined: [0; DECLINED.len()],
            rare: [0; RARE],
            moments: [[0; 2]; Parties::ALL.len()],
            feeds: FeedCoverage::default(),
            layers: LayerCoverage::default(),
            sets: SetCoverage::default(),
        }
    }
}

impl Coverage {
    /// Counts a call's number.
    pub fn answer(&mut self, number: u8) {
        self.answers[usize::from(number)] += 1;
    }

    pub fn rare(&self, rare: Rare) -> u64 {
        self.rare[rare as usize]
    }

    pub(crate) fn add(&mut self, rare: Rare, holds: bool) {
        self.rare[rare as usize] += u64::from(holds);
    }

    /// Counts one message of a list.
    pub fn observe(&mut self, step: &Step, seen: Option<&Seen>) {
        self.messages += 1;
        self.answer(step.returned.number);
        for record in step.records {
            let kind = RECORD_KINDS.iter().position(|kind| *kind == record.kind());
            self.records[kind.unwrap_or(0)] += 1;
            if let Record::Removed(gone) = record {
                let cause = CAUSES.iter().position(|known| *known == gone.cause);
                self.causes[cause.unwrap_or(0)] += 1;
            }
        }
        self.observe_settings(step);
        self.observe_shown(step);
        self.observe_ratios(step);
        self.observe_limited(step);
        let Some(seen) = seen else {
            return;
        };
        self.observe_takings(step);
        self.observe_sizes(step, &seen.phases);
        self.observe_units(step, seen);
        self.observe_ceiling(step, seen);
        for attempt in &seen.attempts {
            if let Err(declined) = &attempt.outcome {
                self.declined[declined_index(declined)] += 1;
            }
        }
        for moment in &seen.moments {
            let counts = &mut self.moments[moment.parties as usize];
            counts[0] += 1;
            counts[1] += u64::from(moment.had_choice);
        }
        self.observe_books(&step.returned.venue);
        self.observe_settling(&seen.phases, &step.returned.venue);
        self.observe_generation(step, &seen.phases);
        self.observe_bands(step, seen);
        self.observe_work(step);
        self.observe_above(step, &seen.above);
    }

    /// Settings entered or refused, and orders taken or refused by an increment.
    fn observe_settings(&mut self, step: &Step) {
        match *step.message {
            Message::Increment(set) => self.observe_setting(step, Some(set.series)),
            Message::Percent(_) => self.observe_setting(step, None),
            Message::Order(NewOrder { leg, price, .. }) if leg.series <= 7 && price > 0 => {
                let on = |in_force: InForce| {
                    price % u32::from(in_force.increment(leg.series).value) == 0
                };
                let (number, first) = (step.returned.number, on(InForce::first()));
                self.add(Rare::OnByEdition, number == 0 && !first);
                let off = first && !on(InForce::of(step.before));
                self.add(Rare::OffByEdition, number == 4 && off);
            }
            _ => {}
        }
    }

    /// A setting; `series` is that of an increment.
    fn observe_setting(&mut self, step: &Step, series: Option<u8>) {
        let number = step.returned.number;
        let used = series.is_some_and(|series| series <= 7 && in_use(step.before, series));
        let full = held_editions(step.before).count() == 32;
        self.add(Rare::StaleInUse, number == 11 && used);
        self.add(Rare::InUseFull, number == 12 && full);
        let values = |venue| InForce::of(venue).values();
        let same = values(step.before) == values(&step.returned.venue);
        self.add(Rare::ChangesNothing, number == 0 && same);
        let removes = step.records.iter().any(|record| record.kind() == 68);
        self.add(Rare::PercentRemoves, removes);
    }

    /// Limits that another percentage than that of edition 0 has in band or out of it.
    fn observe_bands(&mut self, step: &Step, seen: &Seen) {
        let view = &seen.phases.settled_view;
        for attempt in &seen.attempts {
            let Some(order) = find_complex(&step.returned.venue, attempt.id) else {
                continue;
            };
            let parts = parts_of(order);
            let Some(market) = view.market_net(parts) else {
                continue;
            };
            let limit = i64::from(order.limit);
            let first = InForce::first().percent().value;
            let by_first = within(limit, market, i64::from(first));
            let by_edition = view.in_band(limit, parts);
            self.add(Rare::InByEdition, by_edition && !by_first);
            self.add(Rare::OutByEdition, by_first && !by_edition);
        }
    }

    fn observe_books(&mut self, venue: &Venue) {
        self.add(Rare::EditionsFull, held_editions(venue).count() == 32);
        let regular = held_regular(venue).count() == 128;
        let complex = held_complex(venue).count() == 32;
        self.add(Rare::RegularBookFull, regular);
        self.add(Rare::ComplexBookFull, complex);
        self.add(Rare::BothBooksFull, regular && complex);
    }

    /// Failing orders to which two causes apply, and those that hide a clear
    /// price from other failing orders.
    fn observe_settling(&mut self, phases: &Phases, after: &Venue) {
        let view = &phases.at_settling;
        for (place, _) in &phases.settled {
            let Some(parent) = find_complex(after, view.legging[*place].parent) else {
                continue;
            };
            let leg = leg_at(*place);
            let causes = view.failing_causes(leg, parent);
            self.add(Rare::BandAndNet, causes.starts_with(&[5, 2]));
            let legs = legs_of(parent);
            let taken = opposite(if legs[0] == leg { legs[1] } else { legs[0] });
            let hider = place_of(taken);
            let hidden = view.best(taken).is_some() && view.clear(taken).is_none();
            let hider_fails = phases.settled.iter().any(|(place, _)| *place == hider);
            if !hidden || !hider_fails {
                continue;
            }
            self.add(Rare::FailingHides, true);
            let mut without = view.clone();
            without.legging[hider] = Default::default();
            let stands = without.failing_causes(leg, parent).is_empty();
            self.add(Rare::HiddenWouldStand, stands);
        }
    }

    fn observe_generation(&mut self, step: &Step, phases: &Phases) {
        let mut standing = phases.settled_view.legging;
        let mut holder = None;
        for record in phases.generation {
            match record {
                Record::Removed(gone) => holder = Some(standing[place_of(gone.leg())]),
                Record::Generated(told) => {
                    let leg = told.leg();
                    let made = Legging {
                        parent: told.id,
                        price: told.price,
                        quantity: told.quantity,
                    };
                    if let Some(holder) = holder.take() {
                        self.observe_replacement(step, leg, holder, made);
                    }
                    self.observe_price(&phases.settled_view, leg, told.price, told.displayed);
                    self.observe_limit(phases, &step.returned.venue, told.id);
                    standing[place_of(leg)] = made;
                }
                _ => {}
            }
        }
    }

    fn observe_replacement(&mut self, step: &Step, leg: Leg, holder: Legging, made: Legging) {
        let better = beats(leg, i64::from(made.price), i64::from(holder.price));
        let swept = step.message.is_sweep();
        self.add(Rare::ReplacedByPrice, better);
        self.add(Rare::ReplacedByClass, made.price == holder.price);
        let own = made.parent == holder.parent;
        self.add(Rare::OwnReplacedInSweep, swept && own);
    }

    fn observe_price(&mut self, view: &View, leg: Leg, price: u32, displayed: u32) {
        let lowest = view.increment(leg.series) == i64::from(displayed);
        self.add(Rare::BelowIncrement, lowest && price < displayed);
        self.add(Rare::ShownAtIncrement, lowest);
        self.add(Rare::ShownAtHighest, displayed == 100_000);
        let first = InForce::first().increment(leg.series).value;
        let by_first = rounded(leg, i64::from(price), i64::from(first));
        self.add(Rare::ShownByEdition, by_first != i64::from(displayed));
    }

    fn observe_limit(&mut self, phases: &Phases, after: &Venue, id: u32) {
        let Some(order) = find_complex(after, id) else {
            return;
        };
        let next = i64::from(order.limit) + 1;
        let at_edge = !phases.settled_view.in_band(next, parts_of(order));
        self.add(Rare::LimitAtBandEdge, at_edge);
    }

    fn observe_work(&mut self, step: &Step) {
        let mut touched = false;
        let mut pairs = 0;
        for (index, record) in step.records.iter().enumerate() {
            match *record {
                Record::Trade(trade) => self.observe_trade(step, &trade),
                Record::Pair(_) => pairs += 1,
                Record::Cross(Cross { taker, maker, .. }) => {
                    let after = &step.records[index + 1..];
                    let both = removals_after(after, taker) && removals_after(after, maker);
                    self.add(Rare::CrossInSweep, step.message.is_sweep());
                    self.add(Rare::CrossOfTwoWithLegging, both);
                }
                Record::Removed(gone) => touched |= matches!(gone.cause, 8 | 10),
                _ => {}
            }
        }
        self.add(Rare::TouchWithoutPair, touched && pairs == 0);
        let complex = matches!(step.message, Message::Complex(_));
        self.add(Rare::SeveralRounds, complex && pairs > 1);
    }

    fn observe_above(&mut self, step: &Step, above: &[AboveLegs]) {
        for passed in above {
            self.add(Rare::TakerAboveLegs, passed.party == passed.taker);
            self.add(Rare::MakerAboveLegs, passed.party == passed.maker);
            self.add(Rare::AboveLegsInSweep, step.message.is_sweep());
        }
    }

    /// A trade of an arriving order with a legging order.
    fn observe_trade(&mut self, step: &Step, trade: &Trade) {
        let standing = step.before.legging[place_of(opposite(trade.leg()))];
        let arrived = matches!(step.message, Message::Order(_));
        if arrived && standing.quantity > 0 && standing.parent == trade.maker {
            self.add(Rare::HitInPart, trade.quantity < standing.quantity);
            self.add(Rare::HitInFull, trade.quantity == standing.quantity);
        }
    }

    /// The moments looked at, each kind with those that had a choice.
    fn moment_lines(&self) -> impl Iterator<Item = (String, u64)> + '_ {
        Parties::ALL.into_iter().flat_map(|(parties, name)| {
            let [all, with_choice] = self.moments[parties as usize];
            let choice = match parties {
                Parties::Cross => "with regular prices at both legs of a party",
                _ => "with another price on the side taken",
            };
            [
                (format!("replay: {name}"), all),
                (format!("  of these, {choice}"), with_choice),
            ]
        })
    }

    /// What a report over all profiles must show and does not.
    pub fn missing(&self) -> Vec<String> {
        let mut missing = Vec::new();
        for (kind, count) in RECORD_KINDS.iter().zip(self.records) {
            missing.extend((count == 0).then(|| format!("record {kind}")));
        }
        for (cause, count) in CAUSES.iter().zip(self.causes) {
            missing.extend((count == 0).then(|| format!("cause {cause}")));
        }
        for (number, count) in self.answers.iter().enumerate() {
            missing.extend((*count == 0).then(|| format!("answer {number}")));
        }
        for (name, count) in DECLINED.iter().zip(self.declined) {
            missing.extend((count == 0).then(|| format!("generation declined: {name}")));
        }
        for (rare, name) in Rare::ALL {
            missing.extend((self.rare(rare) == 0).then(|| name.trim().to_string()));
        }
        for (name, count) in self.moment_lines() {
            missing.extend((count == 0).then(|| name.trim().to_string()));
        }
        for (way, count) in self.feeds.counts() {
            missing.extend((count == 0).then(|| format!("feed {way}")));
        }
        for (way, count) in self.layers.counts() {
            missing.extend((count == 0).then(|| format!("layer {way}")));
        }
        for (way, count) in self.sets.counts() {
            missing.extend((count == 0).then(|| format!("set {way}")));
        }
        missing
    }
}

/// Whether the removals right after a cross name this order.
fn removals_after(records: &[Record], id: u32) -> bool {
    let removals = records
        .iter()
        .take_while(|record| matches!(record, Record::Removed(gone) if gone.cause == 3));
    removals
        .into_iter()
        .any(|record| matches!(record, Record::Removed(gone) if gone.id == id))
}

impl Display for Coverage {
    fn fmt(&self, f: &mut fmt::Formatter) -> fmt::Result {
        writeln!(f, "{:>10}  sessions", self.sessions)?;
        writeln!(f, "{:>10}  messages", self.messages)?;
        for (kind, count) in RECORD_KINDS.iter().zip(self.records) {
            writeln!(f, "{count:>10}  record {kind}")?;
        }
        for (cause, count) in CAUSES.iter().zip(self.causes) {
            writeln!(f, "{count:>10}  cause {cause}")?;
        }
        for (number, count) in self.answers.iter().enumerate() {
            let name = if number == 0 { "accepted" } else { "refusal" };
            writeln!(f, "{count:>10}  {name} {number}")?;
        }
        for (name, count) in DECLINED.iter().zip(self.declined) {
            writeln!(f, "{count:>10}  generation declined: {name}")?;
        }
        for (rare, name) in Rare::ALL {
            writeln!(f, "{:>10}  {name}", self.rare(rare))?;
        }
        for (name, count) in self.moment_lines() {
            writeln!(f, "{count:>10}  {name}")?;
        }
        for (way, count) in self.feeds.counts() {
            writeln!(f, "{count:>10}  feed {way}")?;
        }
        for (way, count) in self.layers.counts() {
            writeln!(f, "{count:>10}  layer {way}")?;
        }
        for (way, count) in self.sets.counts() {
            writeln!(f, "{count:>10}  set {way}")?;
        }
        Ok(())
    }
}
