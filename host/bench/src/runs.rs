//! The run: sessions of every profile, lists of growing length, books from empty
//! to full, and the layers.

use crate::layers::{Case, Layer};
use crate::lists::{closed_sessions, joined, messages_in};
use crate::race::{quantile, Both, List, Times, Track};
use crate::table::{header, number, pair, ratio, row};
use crate::Options;
use sessions::profile::Profile;

type Table = Result<String, String>;

pub const CONTENDERS: [&str; 3] = ["engine", "reference", "ratio"];

/// The cells of both contenders' least and median times, and the ratio of the
/// least.
pub fn cells(times: &Both<Times>) -> Vec<String> {
    let least = times.least();
    let median = times.median();
    vec![
        pair(least.engine, median.engine),
        pair(least.reference, median.reference),
        ratio(&least),
    ]
}

/// Whole sessions, each one run: messages a second, and ns for each message.
pub fn profiles(options: &Options) -> Table {
    let mut table = header(&[
        "profile",
        "messages",
        "engine, messages/s",
        "reference, messages/s",
        "engine, ns",
        "reference, ns",
        "ratio",
    ]);
    let mut track = Track::new();
    let mut groups = Vec::new();
    let mut counts = Vec::new();
    for profile in options.profiles() {
        let sessions: Vec<Vec<Vec<u8>>> = options.sessions_of(profile).collect();
        counts.push(sessions.iter().map(Vec::len).sum());
        groups.push(track.lists(sessions.iter().map(|pieces| pieces.concat()))?);
    }
    let all = track.race_groups(&groups, options.rounds);
    for ((profile, messages), times) in options.profiles().zip(counts).zip(all) {
        let times = times.each(&Both::default(), messages);
        let least = times.least();
        let mut line = vec![profile.name().to_string(), number(messages as f64)];
        line.push(number(1e9 / least.engine));
        line.push(number(1e9 / least.reference));
        line.extend(cells(&times));
        table += &row(&line);
    }
    Ok(table)
}

/// Messages in a block.
const BLOCK: usize = 16;

/// How the time for a message is spread over blocks of a list, by the difference
/// of runs over prefixes.
pub fn blocks(options: &Options) -> Table {
    let mut table = header(&[
        "profile",
        "blocks",
        "engine: median",
        "99 %",
        "worst",
        "reference: median",
        "99 %",
        "worst",
        "ratio of medians",
    ]);
    for profile in options.profiles() {
        let mut all = Both::<Vec<f64>>::default();
        for pieces in options.sessions_of(profile) {
            for both in block_times(&pieces, options.rounds)? {
                all.engine.push(both.engine);
                all.reference.push(both.reference);
            }
        }
        let mut line = vec![profile.name().to_string(), all.engine.len().to_string()];
        line.extend(spread(&all));
        table += &row(&line);
    }
    Ok(table)
}

/// Median, 99 percent and worst of both, and the ratio of the medians.
pub fn spread(all: &Both<Vec<f64>>) -> Vec<String> {
    let parts = |values: &[f64]| [0.5, 0.99, 1.0].map(|part| quantile(values, part));
    let (engine, reference) = (parts(&all.engine), parts(&all.reference));
    let medians = Both {
        engine: engine[0],
        reference: reference[0],
    };
    let times = engine.into_iter().chain(reference).map(number);
    times.chain([ratio(&medians)]).collect()
}

fn block_times(pieces: &[Vec<u8>], rounds: usize) -> Result<Vec<Both<f64>>, String> {
    let mut track = Track::new();
    let cuts = (0..=pieces.len()).step_by(BLOCK);
    let lists = track.lists(cuts.map(|cut| pieces[..cut].concat()))?;
    let groups: Vec<Vec<List>> = lists.into_iter().map(|list| vec![list]).collect();
    let times = track.race_groups(&groups, rounds);
    let least: Vec<Both<f64>> = times.iter().map(Both::least).collect();
    let pairs = least.windows(2);
    Ok(pairs.map(|pair| pair[1].less(&pair[0], BLOCK)).collect())
}

/// The same sessions in lists of growing length.
pub fn growing(options: &Options) -> Table {
    let mut table = header(&[&["messages in a list", "lists"], &CONTENDERS[..]].concat());
    let sessions = closed_sessions(Profile::Mixed, options.kinds, options.sessions);
    let messages = messages_in(&sessions);
    let mut track = Track::new();
    let mut groups = Vec::new();
    for part in [1, 10, 100, sessions.len()] {
        groups.push(track.lists(sessions.chunks(part).map(joined))?);
    }
    let all = track.race_groups(&groups, options.rounds);
    for (lists, times) in groups.iter().zip(all) {
        let each = messages / lists.len();
        let mut line = vec![number(each as f64), number(lists.len() as f64)];
        line.extend(cells(&times.each(&Both::default(), messages)));
        table += &row(&line);
    }
    Ok(table)
}

/// Units of a layer's list.
pub const UNITS: usize = 1_000;

/// The times for one unit of each case: the list's time less the least without its
/// units, by these.
fn unit_times(cases: Vec<Case>, rounds: usize) -> Result<Vec<Both<Times>>, String> {
    let mut track = Track::new();
    let mut groups = Vec::new();
    for case in cases {
        groups.push(vec![track.list(case.without_units)?]);
        groups.push(vec![track.list(case.list)?]);
    }
    let times = track.race_groups(&groups, rounds);
    let pairs = times.chunks(2);
    Ok(pairs
        .map(|pair| pair[1].each(&pair[0].least(), UNITS))
        .collect())
}

/// Every layer on books of 8, 32 and 128 orders.
pub fn layers(options: &Options) -> Table {
    let columns = ["unit", "messages", "book"];
    let mut table = header(&[&columns[..], &CONTENDERS[..]].concat());
    let chosen: Vec<(Layer, usize)> = options
        .layers()
        .flat_map(|layer| [8, 32, 128].map(|book| (layer, book)))
        .collect();
    let cases = chosen
        .iter()
        .map(|(layer, book)| Case::new(*layer, *book, UNITS));
    let cases: Vec<Case> = cases.collect();
    let messages: Vec<usize> = cases.iter().map(|case| case.messages_in_unit).collect();
    let all = unit_times(cases, options.rounds)?;
    for (((layer, book), messages), times) in chosen.iter().zip(messages).zip(all) {
        let mut line = vec![format!("{}: {}", layer.name(), layer.unit())];
        line.extend([messages.to_string(), book.to_string()]);
        line.extend(cells(&times));
        table += &row(&line);
    }
    Ok(table)
}

/// An order that rests and its cancel, from the empty book to the full one.
pub fn books(options: &Options) -> Table {
    let mut table = header(&[&["orders at rest"], &CONTENDERS[..]].concat());
    let books = [1, 4, 8, 16, 32, 64, 96, 128];
    let cases = books.map(|book| Case::new(Layer::Rests, book, UNITS));
    let all = unit_times(cases.into(), options.rounds)?;
    for (book, times) in books.iter().zip(all) {
        let mut line = vec![book.to_string()];
        line.extend(cells(&times));
        table += &row(&line);
    }
    Ok(table)
}
