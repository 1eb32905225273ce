//! `bench`: the engine timed beside the reference, on the same bytes in one
//! process. Tables go to standard output as Markdown.

mod calls;
mod clock;
mod feeds;
mod layers;
mod lists;
mod machine;
mod race;
mod runs;
mod sets;
mod spin;
mod table;
mod turns;

use layers::Layer;
use lists::{session, LAST_KIND};
use sessions::profile::Profile;
use sessions::progress::Progress;
use std::cell::RefCell;
use std::process::ExitCode;

const HELP: &str = "\
bench: the engine timed beside the reference, in ns

  bench [TABLE ...] [--rounds N] [--seeds N] [--sessions N] [--only NAME] [--kinds N] [--quick]
  bench spin NAME [--book N] [--times N] [--who engine|reference]

Tables: profiles, blocks, growing, books, layers, feeds, calls, call-layers, turns, sets;
all of them where none is named.
Each cell is the least and the median of the rounds (default 15), the ratio is
reference / engine of the least: above 1 the engine is faster.

  profiles   the generator's sessions of seeds 0 to N-1 (default 40), each one run
  blocks     the same lists in blocks of 16 messages: the least time of the run over
             the prefix that ends with the block, less that of the one before it
  growing    the same mixed sessions (default 2500) in lists of 1, 10, 100 and all
  books      an order that rests and its cancel, on books from 1 to 128 orders
  layers     one piece of work at a time on books of 8, 32 and 128 orders: the run of
             a prefix and 1,000 units, less the run without the units, by 1,000
  feeds      the sessions of `profiles` over two whole lines, each one feed, beside the
             engine's own run of the list
  calls      each message of the generator's sessions as a one-message call upon the
             venue before it, with report memory that holds any message's records: eight
             calls are timed together, least of the rounds for each message
  call-layers  the messages of a unit as such calls
  turns      the messages of `calls` that can wait, each as an arrival and as a turn upon
             four copies of its venue behind one line, beside the engine's own call
  sets       the set of a venue written into memory for the longest, and read: of a fresh
             venue, books of 8, 32 and 128 orders and a full venue; eight calls are timed
             together, in four times as many rounds. The last columns: the engine's reading
             by the set's bytes, and what is beyond the fresh one by the bytes beyond it

--only keeps the profiles and layers of that name. With --kinds 10 sessions have none of
the kinds above 10: they are those drawn before these came, for an engine of that time.
--quick is 5 rounds, 10 seeds and 200 sessions. Times are processor times of the thread. Both contenders run in turn,
each first in every other round, upon report memory with 16,384 bytes more than the
records; before anything is timed, their reports must be equal.

The row that is timed stands in one line on standard error, where that is a terminal.
`bench spin` repeats the run of a profile (seed 0) or layer, for a profiler.
";

/// What is timed, and how often.
pub struct Options {
    pub tables: Vec<String>,
    pub rounds: usize,
    pub seeds: u64,
    pub sessions: usize,
    pub only: Option<String>,
    pub kinds: u16,
    progress: RefCell<(String, Progress)>,
}

impl Options {
    fn wants(&self, name: &str) -> bool {
        self.only.as_deref().is_none_or(|only| only == name)
    }

    pub fn profiles(&self) -> impl Iterator<Item = Profile> + '_ {
        let all = Profile::ALL.into_iter();
        let wanted = all.filter(|profile| self.wants(profile.name()));
        wanted.inspect(|profile| self.show(profile.name()))
    }

    /// Shows the table and the row that are being timed.
    fn show(&self, row: &str) {
        let (table, progress) = &mut *self.progress.borrow_mut();
        progress.show(|| format!("{table}: {row}"));
    }

    /// The table that is timed next; its rows show themselves.
    fn begin(&self, table: &str) {
        self.progress.borrow_mut().0 = table.to_string();
        self.show("begins");
    }

    /// Takes the line away, for what is printed next.
    fn end(&self) {
        self.progress.borrow_mut().1.clear();
    }

    /// The messages of each session of a profile.
    pub fn sessions_of(&self, profile: Profile) -> impl Iterator<Item = Vec<Vec<u8>>> + '_ {
        (0..self.seeds).map(move |seed| session(profile, seed, self.kinds))
    }

    pub fn layers(&self) -> impl Iterator<Item = Layer> + '_ {
        let all = Layer::ALL.into_iter();
        let wanted = all.filter(|layer| self.wants(layer.name()));
        wanted.inspect(|layer| self.show(layer.name()))
    }

    fn parse(arguments: &[String]) -> Result<Options, String> {
        let mut options = Options {
            tables: Vec::new(),
            rounds: 15,
            seeds: 40,
            sessions: 2_500,
            only: None,
            kinds: LAST_KIND,
            progress: RefCell::new((String::new(), Progress::on_standard_error())),
        };
        let mut rest = arguments.iter();
        while let Some(word) = rest.next() {
            match word.as_str() {
                "--rounds" => options.rounds = value(word, rest.next())?,
                "--seeds" => options.seeds = value(word, rest.next())?,
                "--sessions" => options.sessions = value(word, rest.next())?,
                "--only" => options.only = rest.next().cloned(),
                "--kinds" => options.kinds = value(word, rest.next())?,
                "--quick" => {
                    (options.rounds, options.seeds, options.sessions) = (5, 10, 200);
                }
                name if TABLES.iter().any(|(known, ..)| *known == name) => {
                    options.tables.push(name.to_string());
                }
                other => return Err(format!("{other:?} is not known")),
            }
        }
        if options.rounds == 0 || options.seeds == 0 || options.sessions == 0 {
            return Err("rounds, seeds and sessions are 1 or more".to_string());
        }
        options.checked()
    }

    /// A name given with --only must be one.
    fn checked(self) -> Result<Options, String> {
        let Some(name) = &self.only else {
            return Ok(self);
        };
        if Profile::from_name(name).is_none() && Layer::from_name(name).is_none() {
            return Err(format!("{name:?} is no profile and no layer"));
        }
        Ok(self)
    }
}

/// The number after an option.
pub fn value<T: std::str::FromStr>(option: &str, word: Option<&String>) -> Result<T, String> {
    let parsed = word.and_then(|word| word.parse().ok());
    parsed.ok_or_else(|| format!("expected a number after {option}"))
}

type Make = fn(&Options) -> Result<String, String>;

const TABLES: &[(&str, &str, Make)] = &[
    (
        "profiles",
        "Run, ns for a message: whole sessions",
        runs::profiles,
    ),
    (
        "blocks",
        "Run, ns for a message: spread over blocks of 16",
        runs::blocks,
    ),
    (
        "growing",
        "Run, ns for a message: lists of growing length",
        runs::growing,
    ),
    (
        "books",
        "Run, ns for an order that rests and its cancel: books from empty to full",
        runs::books,
    ),
    ("layers", "Run, ns for a unit: layers", runs::layers),
    (
        "feeds",
        "Feed of two whole lines, ns for a message: whole sessions",
        feeds::profiles,
    ),
    (
        "calls",
        "One-message call, ns: each message of the sessions",
        calls::profiles,
    ),
    (
        "call-layers",
        "One-message calls, ns for a unit: layers",
        calls::layers,
    ),
    (
        "turns",
        "Arrival and turn beside the one-message call, ns: means of the least times",
        turns::profiles,
    ),
    (
        "sets",
        "A venue's set written and read, ns: venues from fresh to full",
        sets::venues,
    ),
];

fn perform(arguments: &[String]) -> Result<(), String> {
    if arguments
        .iter()
        .any(|word| word == "help" || word == "--help")
    {
        print!("{HELP}");
        return Ok(());
    }
    if arguments.first().is_some_and(|word| word == "spin") {
        return spin::spin(&arguments[1..]);
    }
    let options = Options::parse(arguments)?;
    println!("{}", machine::described());
    for (name, title, make) in TABLES {
        if options.tables.is_empty() || options.tables.iter().any(|table| table == name) {
            options.begin(name);
            let table = make(&options)?;
            options.end();
            println!("### {title}\n\n{table}");
        }
    }
    Ok(())
}

fn main() -> ExitCode {
    let arguments: Vec<String> = std::env::args().skip(1).collect();
    match perform(&arguments) {
        Ok(()) => ExitCode::SUCCESS,
        Err(what) => {
            eprintln!("bench: {what}\ntry: bench help");
            ExitCode::FAILURE
        }
    }
}
