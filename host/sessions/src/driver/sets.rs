//! Sets written and read by both.

use super::check::Check;
use super::{Driver, Failed};
use crate::broken::{broken_generations, broken_rows};
use crate::corrupt::corrupt;
use crate::engine::{held, NUMBER_BYTES};
use crate::held::{to_bytes, VENUE_BYTES};
use crate::random::Random;
use crate::set::split_set;
use crate::set_generator::{short_of, spoiled, with_many, Many};
use reference::MOST_SET;

/// So many bytes more than a set has are tried.
const MORE: usize = 14;

/// Memory for any set and its length.
const ENOUGH: [usize; 2] = [MOST_SET, NUMBER_BYTES];

/// Memory for a venue and its message number.
const WHOLE: [usize; 2] = [VENUE_BYTES, NUMBER_BYTES];

type Checked = Result<(), Failed>;

/// The lengths of memory that are tried for a set.
#[derive(Clone, Copy)]
pub enum Lengths {
    Every,
    AboutEachRecord,
    AboutTheEnd,
}

/// A venue carried over by sets: written into memory of every length and read back, spoiled
/// in many ways, and written where it must not be.
pub struct Sets<'a, 'b, 'c> {
    pub driver: &'a mut Driver<'b>,
    pub random: &'c mut Random,
    pub lengths: Lengths,
    /// So many spoiled sets are read.
    pub spoiled: usize,
}

impl Sets<'_, '_, '_> {
    pub fn drive(&mut self, venue: &[u8], number: u32) -> Checked {
        let set = self.written(venue, number)?;
        self.refused(venue, number)?;
        self.read_back(venue, number, &set)?;
        self.read_spoiled(&set)
    }

    /// The set of the venue; memory of every length up to it and some more; memory of other
    /// lengths for what it tells.
    fn written(&mut self, venue: &[u8], number: u32) -> Result<Vec<u8>, Failed> {
        let check = Check::WriteSet;
        let set = self.driver.write_set(check, venue, number, ENOUGH)?;
        for length in self.lengths(&set).into_iter().rev() {
            let lengths = [length, NUMBER_BYTES];
            self.driver
                .write_set(Check::WriteSetShort, venue, number, lengths)?;
        }
        let check = Check::WriteSetLength;
        for told in [5, 3, 1, 0, 8] {
            self.driver
                .write_set(check, venue, number, [MOST_SET, told])?;
        }
        let odd = self.random.below(VENUE_BYTES as u64) as usize;
        let longer = [venue, &[0]].concat();
        for length in [0, 1, odd, VENUE_BYTES - 1, VENUE_BYTES + 1] {
            self.driver
                .write_set(check, &longer[..length], number, ENOUGH)?;
        }
        Ok(set)
    }

    /// The lengths of memory that are tried, up to some more than the set's.
    fn lengths(&self, set: &[u8]) -> Vec<usize> {
        let mut end = 0;
        let records = split_set(set).into_iter().map(|record| {
            end += record.len();
            end
        });
        let ends: Vec<usize> = match self.lengths {
            Lengths::Every => return (0..=set.len() + MORE).collect(),
            Lengths::AboutEachRecord => records.collect(),
            Lengths::AboutTheEnd => vec![set.len()],
        };
        let about = |length: &usize| ends.iter().any(|end| end.abs_diff(*length) < 2);
        (0..=set.len() + MORE).filter(about).collect()
    }

    /// Numbers about those kept, and venues that are not sound.
    fn refused(&mut self, venue: &[u8], number: u32) -> Checked {
        let Some(held) = held(venue) else {
            return Ok(());
        };
        let check = Check::WriteSetRefused;
        let editions = held.editions.iter().map(|entry| entry.number);
        let kept = held.generations.iter().flatten().copied().chain(editions);
        let highest = kept.max().unwrap_or(0);
        let about = highest.saturating_sub(1)..=highest.saturating_add(1);
        for number in about.chain([0, u32::MAX]) {
            for length in [MOST_SET, 100, 0] {
                let lengths = [length, NUMBER_BYTES];
                self.driver.write_set(check, venue, number, lengths)?;
            }
        }
        let at = self.random.below(8 * 17) as usize;
        let mut changed: Vec<_> = broken_rows(&held, at).into_iter().collect();
        changed.extend(broken_generations(&held, at));
        for (name, broken) in changed {
            let broken = to_bytes(&broken);
            let wrote = self.driver.write_set(check, &broken, u32::MAX, ENOUGH);
            wrote.map_err(|(check, what)| (check, format!("{name}: {what}")))?;
        }
        for _ in 0..8 {
            let changed = to_bytes(&corrupt(&held, self.random));
            self.driver.write_set(check, &changed, number, ENOUGH)?;
        }
        Ok(())
    }

    /// The set reads back as the venue and its number; at every length, as many zeros after
    /// it, and into memory of other lengths.
    fn read_back(&mut self, venue: &[u8], number: u32, set: &[u8]) -> Checked {
        let check = Check::ReadSet;
        let whole = [set, &[0; MORE]].concat();
        for length in self.lengths(set).into_iter().rev() {
            let (answer, left, told) = self.driver.read_set(check, &whole[..length], WHOLE)?;
            let same = answer == 0 && left == venue && told == number.to_le_bytes();
            if length >= set.len() && !same {
                return Err((check, "another venue was read back".to_string()));
            }
        }
        let check = Check::ReadSetLength;
        for told in [5, 3, 1, 0, 8] {
            let lengths = [VENUE_BYTES, told];
            self.driver.read_set(check, set, lengths)?;
            self.driver.read_set(check, &set[1..], lengths)?;
        }
        let odd = self.random.below(VENUE_BYTES as u64) as usize;
        for length in [0, 1, odd, VENUE_BYTES - 1, VENUE_BYTES + 1] {
            let lengths = [length, NUMBER_BYTES];
            self.driver.read_set(check, set, lengths)?;
            self.driver.read_set(check, &[], lengths)?;
        }
        Ok(())
    }

    fn read_spoiled(&mut self, set: &[u8]) -> Checked {
        let check = Check::ReadSetSpoiled;
        self.driver.read_set(check, &short_of(set), WHOLE)?;
        for part in Many::ALL {
            for count in [part.most(), part.most() + 1] {
                let set = with_many(set, part, count);
                self.driver.read_set(check, &set, WHOLE)?;
            }
        }
        for _ in 0..self.spoiled {
            let (name, changed) = spoiled(set, self.random);
            let read = self.driver.read_set(check, &changed, WHOLE);
            read.map_err(|(check, what)| (check, format!("{name}: {what}")))?;
        }
        Ok(())
    }
}
