//! The profiles of random sessions.

#[derive(Clone, Copy, Debug, PartialEq, Eq)]
pub enum Profile {
    Mixed,
    FewSeries,
    Credit,
    BandEdges,
    Refusals,
    FullBooks,
    Sweeps,
    StatusFlips,
    Classes,
    Hits,
    CrossParties,
    PriceEdges,
    OddBytes,
    Settings,
    Reserve,
    Ratios,
    Ceiling,
}

impl Profile {
    pub const ALL: [Profile; 17] = [
        Profile::Mixed,
        Profile::FewSeries,
        Profile::Credit,
        Profile::BandEdges,
        Profile::Refusals,
        Profile::FullBooks,
        Profile::Sweeps,
        Profile::StatusFlips,
        Profile::Classes,
        Profile::Hits,
        Profile::CrossParties,
        Profile::PriceEdges,
        Profile::OddBytes,
        Profile::Settings,
        Profile::Reserve,
        Profile::Ratios,
        Profile::Ceiling,
    ];

    pub fn name(self) -> &'static str {
        match self {
            Profile::Mixed => "mixed",
            Profile::FewSeries => "few-series",
            Profile::Credit => "credit",
            Profile::BandEdges => "band-edges",
            Profile::Refusals => "refusals",
            Profile::FullBooks => "full-books",
            Profile::Sweeps => "sweeps",
            Profile::StatusFlips => "status-flips",
            Profile::Classes => "classes",
            Profile::Hits => "hits",
            Profile::CrossParties => "cross-parties",
            Profile::PriceEdges => "price-edges",
            Profile::OddBytes => "odd-bytes",
            Profile::Settings => "settings",
            Profile::Reserve => "reserve",
            Profile::Ratios => "ratios",
            Profile::Ceiling => "ceiling",
        }
    }

    pub fn from_name(name: &str) -> Option<Profile> {
        Profile::ALL
            .into_iter()
            .find(|profile| profile.name() == name)
    }

    /// What the profile prefers, as differences from a common base.
    pub(crate) fn shape(self) -> Shape {
        const THREE: &[u8] = &[0, 1, 2];
        let base = Shape::base();
        match self {
            Profile::Mixed => base.over(&[0, 1, 2, 3, 4, 5, 6, 7]),
            Profile::FewSeries => base.over(&[0, 1]).weighted([58, 18, 8, 4, 1, 9, 2]),
            Profile::Credit => base.over(&[0, 1, 7]).at(400, 6).reversing(90),
            Profile::BandEdges => base
                .over(THREE)
                .weighted([35, 32, 6, 17, 1, 8, 1])
                .at(1000, 6)
                .setting(2),
            Profile::Refusals => {
                let shape = base.weighted([25, 12, 5, 5, 8, 3, 42]);
                shape.closing(75).setting(8).reserving(25).weighing(25)
            }
            Profile::FullBooks => base
                .weighted([62, 24, 2, 2, 1, 4, 5])
                .at(100, 30)
                .crossing(3),
            Profile::Sweeps => base.over(THREE).weighted([33, 22, 5, 7, 1, 31, 1]),
            Profile::StatusFlips => {
                let shape = base.over(THREE).weighted([36, 24, 5, 4, 20, 10, 1]);
                shape.closing(75).setting(2)
            }
            Profile::Classes => base
                .over(THREE)
                .weighted([30, 42, 8, 3, 1, 15, 1])
                .at(100, 3),
            Profile::Hits => base
                .over(THREE)
                .weighted([55, 25, 4, 3, 1, 11, 1])
                .scripted(40),
            Profile::CrossParties => {
                let shape = base.over(THREE).weighted([32, 35, 4, 8, 1, 19, 1]);
                shape.crossing(45).scripted(40)
            }
            Profile::PriceEdges => base.over(&[0, 1, 6, 7]).at(0, 4).setting(2),
            Profile::OddBytes => {
                let shape = base.weighted([30, 15, 5, 5, 4, 6, 35]);
                shape.closing(50).setting(2).reserving(25).weighing(25)
            }
            Profile::Settings => base
                .over(&[0, 1, 2, 3, 6, 7])
                .weighted([42, 24, 14, 8, 2, 8, 2])
                .setting(8),
            Profile::Reserve => base
                .over(THREE)
                .weighted([54, 24, 5, 4, 1, 11, 1])
                .at(100, 3)
                .reserving(60),
            Profile::Ratios => base
                .over(THREE)
                .weighted([48, 32, 4, 3, 1, 11, 1])
                .at(100, 3)
                .sized(7)
                .weighing(50),
            Profile::Ceiling => base
                .over(THREE)
                .weighted([30, 30, 8, 9, 1, 30, 1])
                .at(100, 3)
                .limiting(60),
        }
    }
}

/// What a profile prefers. Weights are of order, complex, cancel, away, status,
/// sweep and messages to be refused.
pub(crate) struct Shape {
    pub series: &'static [u8],
    pub weights: [u64; 7],
    pub centre: i64,
    pub steps: i64,
    pub most_quantity: i64,
    /// Percent of complex orders with one leg bought and one sold.
    pub reversed_legs: u64,
    /// Percent of complex orders priced to cross with a resting one.
    pub crossing_limits: u64,
    /// Percent of sessions that close all series first.
    pub closed_first: u64,
    /// Messages between scripts; 0 for none.
    pub script_every: usize,
    /// Percent of messages before which something is set.
    pub settings: u64,
    /// Percent of orders that have a shown quantity; scripts have none.
    pub reserve: u64,
    /// Percent of complex orders, but of those made after a resting one, that have unequal
    /// ratios; scripts have none.
    pub ratios: u64,
    /// Percent of sweeps that are limited; scripts have none.
    pub limited: u64,
}

impl Shape {
    fn base() -> Self {
        Shape {
            series: &[0, 1, 2, 6],
            weights: [45, 22, 10, 8, 3, 8, 4],
            centre: 100,
            steps: 6,
            most_quantity: 20,
            reversed_legs: 50,
            crossing_limits: 20,
            closed_first: 10,
            script_every: 0,
            settings: 0,
            reserve: 8,
            ratios: 8,
            limited: 30,
        }
    }

    fn over(self, series: &'static [u8]) -> Self {
        Shape { series, ..self }
    }

    fn weighted(self, weights: [u64; 7]) -> Self {
        Shape { weights, ..self }
    }

    /// Prices up to so many increments away from a centre.
    fn at(self, centre: i64, steps: i64) -> Self {
        Shape {
            centre,
            steps,
            ..self
        }
    }

    fn reversing(self, reversed_legs: u64) -> Self {
        Shape {
            reversed_legs,
            ..self
        }
    }

    fn crossing(self, crossing_limits: u64) -> Self {
        Shape {
            crossing_limits,
            ..self
        }
    }

    fn closing(self, closed_first: u64) -> Self {
        Shape {
            closed_first,
            ..self
        }
    }

    fn scripted(self, script_every: usize) -> Self {
        Shape {
            script_every,
            ..self
        }
    }

    fn setting(self, settings: u64) -> Self {
        Shape { settings, ..self }
    }

    fn reserving(self, reserve: u64) -> Self {
        Shape { reserve, ..self }
    }

    fn weighing(self, ratios: u64) -> Self {
        Shape { ratios, ..self }
    }

    fn limiting(self, limited: u64) -> Self {
        Shape { limited, ..self }
    }

    /// Without what brings kinds above `last`.
    pub fn up_to(self, last: u16) -> Self {
        let drawn = |kind, percent| if last < kind { 0 } else { percent };
        Shape {
            settings: drawn(8, self.settings),
            reserve: drawn(9, self.reserve),
            ratios: drawn(10, self.ratios),
            limited: drawn(11, self.limited),
            ..self
        }
    }

    /// Quantities up to this, but for some at the ends of the range.
    fn sized(self, most_quantity: i64) -> Self {
        Shape {
            most_quantity,
            ..self
        }
    }
}
