//! The ways in which sets are written and read over random sessions.

use crate::driver::check::Check;

/// What a report over all profiles shows of sets.
const WAYS: [(Way, &str); 6] = [
    (Way::Written(0), "written and read back"),
    (Way::Written(9), "not written: 9"),
    (Way::Written(15), "not written: 15"),
    (Way::Read(0), "spoiled, and read"),
    (Way::Read(9), "spoiled, and not read: 9"),
    (Way::Read(16), "spoiled, and not read: 16"),
];

#[derive(Clone, Copy, Debug, PartialEq, Eq)]
enum Way {
    Written(u8),
    Read(u8),
}

/// How often each way came.
#[derive(Clone, Debug, Default)]
pub struct SetCoverage {
    counts: [u64; WAYS.len()],
}

impl SetCoverage {
    /// Every way with how often it came.
    pub fn counts(&self) -> impl Iterator<Item = (&'static str, u64)> + '_ {
        let names = WAYS.iter().map(|(_, name)| *name);
        names.zip(self.counts)
    }

    /// Takes note of a set written or read that was the same by both engines.
    pub fn observe(&mut self, check: Check, number: u8) {
        match check {
            Check::WriteSet | Check::WriteSetShort | Check::WriteSetRefused => {
                self.add(Way::Written(number));
            }
            Check::ReadSetSpoiled => self.add(Way::Read(number)),
            _ => {}
        }
    }

    fn add(&mut self, way: Way) {
        if let Some(at) = WAYS.iter().position(|(known, _)| *known == way) {
            self.counts[at] += 1;
        }
    }
}
