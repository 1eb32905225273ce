//! The feed of two whole lines beside the run of the list that came over them.

use crate::clock::Clock;
use crate::race::{room_of, Both, Times};
use crate::table::{header, number, pair, ratio, row};
use crate::Options;
use sessions::line::{line_bytes, numbered};
use sessions::profile::Profile;
use std::hint::black_box;

/// A session as one list, and as a line that came twice: whole over main and spare.
struct Session {
    list: Vec<u8>,
    lines: [Vec<u8>; 2],
    room: usize,
}

impl Session {
    fn new(pieces: &[Vec<u8>]) -> Self {
        let line = line_bytes(&numbered(pieces));
        let list = pieces.concat();
        Session {
            room: room_of(&list),
            list,
            lines: [line.clone(), line],
        }
    }

    /// The engine's feed, its run and the reference's feed must give the same report.
    fn agrees(&self) -> Result<(), String> {
        let [main, spare] = &self.lines;
        let [mut run, mut feed, mut reference] = [(); 3].map(|()| vec![0xC3; self.room]);
        let number = legging::run(&self.list, &mut run).get();
        let same = legging::feed(main, spare, &mut feed).get() == number
            && reference::feed(main, spare, &mut reference).number == number;
        match same && run == feed && run == reference {
            true => Ok(()),
            false => Err("run and feed do not agree on a list to be timed".to_string()),
        }
    }
}

/// The times of the engine's run and feed, and of the reference's feed.
#[derive(Clone, Default)]
struct Three {
    run: Times,
    feed: Both<Times>,
}

struct Track {
    clock: Clock,
    report: Vec<u8>,
}

impl Track {
    fn run(&mut self, sessions: &[Session]) -> f64 {
        self.each(sessions, |session, report| {
            let _ = black_box(legging::run(black_box(&session.list), report));
        })
    }

    fn feed(&mut self, sessions: &[Session]) -> f64 {
        self.each(sessions, |session, report| {
            let [main, spare] = black_box(&session.lines);
            let _ = black_box(legging::feed(main, spare, report));
        })
    }

    fn reference(&mut self, sessions: &[Session]) -> f64 {
        self.each(sessions, |session, report| {
            let [main, spare] = black_box(&session.lines);
            black_box(reference::feed(main, spare, report));
        })
    }

    fn each(&mut self, sessions: &[Session], work: fn(&Session, &mut [u8])) -> f64 {
        let times = sessions.iter().map(|session| {
            let report = &mut self.report[..session.room];
            self.clock.time(|| work(session, report))
        });
        times.sum()
    }

    /// All three; who is first changes from round to round.
    fn race(&mut self, sessions: &[Session], round: usize, times: &mut Three) {
        if round.is_multiple_of(2) {
            times.run.add(self.run(sessions));
        }
        let engine = self.feed(sessions);
        if !round.is_multiple_of(2) {
            times.run.add(self.run(sessions));
        }
        let reference = self.reference(sessions);
        times.feed.add(Both { engine, reference });
    }
}

/// The sessions of a profile, and how many messages they have.
struct Group {
    profile: Profile,
    messages: usize,
    sessions: Vec<Session>,
}

impl Group {
    fn new(profile: Profile, options: &Options) -> Result<Self, String> {
        let pieces: Vec<Vec<Vec<u8>>> = options.sessions_of(profile).collect();
        let sessions: Vec<Session> = pieces.iter().map(|pieces| Session::new(pieces)).collect();
        sessions.iter().try_for_each(Session::agrees)?;
        Ok(Group {
            profile,
            messages: pieces.iter().map(Vec::len).sum(),
            sessions,
        })
    }

    /// Its row: ns for each message.
    fn told(&self, times: &Three) -> String {
        let run = times.run.each(0.0, self.messages);
        let feed = times.feed.each(&Both::default(), self.messages);
        let (least, median) = (feed.least(), feed.median());
        row(&[
            self.profile.name().to_string(),
            number(self.messages as f64),
            pair(run.least(), run.median()),
            pair(least.engine, median.engine),
            format!("{:.2}", least.engine / run.least()),
            pair(least.reference, median.reference),
            ratio(&least),
        ])
    }
}

/// Whole sessions over two lines.
pub fn profiles(options: &Options) -> Result<String, String> {
    let groups = options.profiles().map(|of| Group::new(of, options));
    let groups: Vec<Group> = groups.collect::<Result<_, _>>()?;
    let sessions = groups.iter().flat_map(|group| &group.sessions);
    let most = sessions.map(|session| session.room).max().unwrap_or(0);
    let mut track = Track {
        clock: Clock::new(),
        report: vec![0; most],
    };
    let mut times = vec![Three::default(); groups.len()];
    for round in 0..options.rounds {
        for (group, times) in groups.iter().zip(&mut times) {
            track.race(&group.sessions, round, times);
        }
    }
    let mut table = header(&[
        "profile",
        "messages",
        "run, ns",
        "feed, ns",
        "feed / run",
        "reference: feed, ns",
        "ratio",
    ]);
    for (group, times) in groups.iter().zip(&times) {
        table += &group.told(times);
    }
    Ok(table)
}
