//! The names of what is compared, and of the parts of an answer.

macro_rules! checks {
    ($($check:ident $name:literal $words:literal)+) => {
        /// A kind of call that is compared.
        #[derive(Clone, Copy, Debug, PartialEq, Eq)]
        pub enum Check {
            $($check,)+
        }

        impl Check {
            pub const ALL: &'static [Check] = &[$(Check::$check),+];

            pub fn name(self) -> &'static str {
                match self {
                    $(Check::$check => $name,)+
                }
            }

            /// What it is, in words.
            pub fn words(self) -> &'static str {
                match self {
                    $(Check::$check => $words,)+
                }
            }
        }
    };
}

checks! {
    RunWhole "run-whole" "a run with room for all"
    RunShort "run-short" "a run with report memory that ends near a message's records"
    RunEveryLength "run-every-length" "a run with report memory of every length"
    RunTorn "run-torn" "a run of a list cut off"
    RunChanged "run-changed" "a run of a list with changed bytes"
    RunNoise "run-noise" "a run of a list with random bytes after it"
    FeedWhole "feed-whole" "a feed of two lines that lost no message from both"
    FeedSpoiled "feed-spoiled" "a feed of two lines with lost or spoiled messages"
    FeedShort "feed-short" "a feed with report memory that ends near a message's records"
    Fresh "fresh" "a fresh venue, in venue memory of any length"
    Call "call" "a one-message call"
    Replay "replay" "the records of a one-message call, replayed"
    CallShort "call-short" "a one-message call with short report memory"
    CallNumber "call-number" "a one-message call with the last numbers"
    CallBytes "call-bytes" "a one-message call with torn, random or further bytes"
    CallVenue "call-venue" "a one-message call upon a changed venue"
    CallVenueLength "call-venue-length" "a one-message call upon venue memory of another length"
    CallEditions "call-editions" "a one-message call upon a broken row of editions, or with a number about the last"
    CallReserve "call-reserve" "a one-message call upon orders that show otherwise, or another part of them"
    CallRatios "call-ratios" "a one-message call upon complex orders of broken ratios, or of others"
    CallGenerations "call-generations" "a one-message call upon a broken row of generations, or about a ceiling's end"
    Settings "settings" "the settings of a venue at a message number"
    WriteSet "write-set" "the set of a venue"
    WriteSetShort "write-set-short" "the set of a venue in memory of every length about it"
    WriteSetLength "write-set-length" "the set of a venue, with other memory of another length"
    WriteSetRefused "write-set-refused" "the set of a changed venue, or with a number about the last one kept"
    ReadSet "read-set" "a set read back, cut at every byte"
    ReadSetLength "read-set-length" "a set read into memory of another length"
    ReadSetSpoiled "read-set-spoiled" "a set read that is short or spoiled"
    LayerFresh "layer-fresh" "a fresh layer, in layer memory of any length"
    Arrive "arrive" "an arrival"
    ArriveChanged "arrive-changed" "an arrival at a changed layer"
    ArriveLength "arrive-length" "an arrival at layer memory of another length"
    Turn "turn" "a turn"
    TurnShort "turn-short" "a turn with short report memory"
    TurnChanged "turn-changed" "a turn of a changed layer"
    TurnLength "turn-length" "a turn of layer memory of another length"
}

impl Check {
    pub fn from_name(name: &str) -> Option<Check> {
        Check::ALL
            .iter()
            .copied()
            .find(|check| check.name() == name)
    }

    /// Whether its answer has this part.
    pub fn has(self, part: Part) -> bool {
        let is = |kind: &str| self.name().starts_with(kind);
        let replay = self == Check::Replay;
        let set = is("write-set") || is("read-set");
        let venue = is("call") || is("settings") || set || self == Check::Fresh;
        let layer = is("arrive") || is("turn") || self == Check::LayerFresh;
        match part {
            Part::Number => !replay,
            Part::Report if replay => true,
            Part::Venue if replay => true,
            Part::Report | Part::BeforeReport | Part::AfterReport => {
                is("run") || is("feed") || is("call") || is("settings") || is("turn")
            }
            Part::Venue | Part::BeforeVenue | Part::AfterVenue => venue,
            Part::Main | Part::Spare => is("feed"),
            Part::Layer | Part::BeforeLayer | Part::AfterLayer => layer,
            Part::Served => is("turn"),
            Part::Set | Part::BeforeSet | Part::AfterSet => set,
            Part::Told | Part::BeforeTold | Part::AfterTold => set,
        }
    }
}

macro_rules! parts {
    ($($part:ident $name:literal)+) => {
        /// A part of an answer; settings memory goes by the name of report memory. What calls
        /// upon sets tell is the bytes written, or the message number.
        #[derive(Clone, Copy, Debug, PartialEq, Eq)]
        pub enum Part {
            $($part,)+
        }

        impl Part {
            pub const ALL: &'static [Part] = &[$(Part::$part),+];

            pub fn name(self) -> &'static str {
                match self {
                    $(Part::$part => $name,)+
                }
            }
        }
    };
}

parts! {
    Number "number"
    Report "report"
    BeforeReport "before-report"
    AfterReport "after-report"
    Venue "venue"
    BeforeVenue "before-venue"
    AfterVenue "after-venue"
    Main "main"
    Spare "spare"
    Layer "layer"
    BeforeLayer "before-layer"
    AfterLayer "after-layer"
    Served "served"
    Set "set"
    BeforeSet "before-set"
    AfterSet "after-set"
    Told "told"
    BeforeTold "before-told"
    AfterTold "after-told"
}

impl Part {
    pub fn from_name(name: &str) -> Option<Part> {
        Part::ALL.iter().copied().find(|part| part.name() == name)
    }
}

/// A part spoiled in every answer of a check, to see that it is found.
#[derive(Clone, Copy, Debug, PartialEq, Eq)]
pub struct Fault {
    pub check: Check,
    pub part: Part,
}

impl Fault {
    /// `CHECK:PART`.
    pub fn from_name(name: &str) -> Option<Fault> {
        let (check, part) = name.split_once(':')?;
        Some(Fault {
            check: Check::from_name(check)?,
            part: Part::from_name(part)?,
        })
    }
}
