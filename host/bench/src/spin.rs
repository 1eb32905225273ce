//! One contender alone, again and again, for a profiler.

use crate::layers::{Case, Layer};
use crate::lists::{session, LAST_KIND};
use crate::race::Track;
use crate::runs::UNITS;
use crate::value;
use sessions::profile::Profile;

pub fn spin(arguments: &[String]) -> Result<(), String> {
    let Some((name, rest)) = arguments.split_first() else {
        return Err("expected a profile or a layer to spin".to_string());
    };
    let (mut book, mut times, mut who) = (32, 1_000, "engine".to_string());
    let mut rest = rest.iter();
    while let Some(word) = rest.next() {
        match word.as_str() {
            "--book" => book = value(word, rest.next())?,
            "--times" => times = value(word, rest.next())?,
            "--who" => who = rest.next().cloned().unwrap_or_default(),
            other => return Err(format!("{other:?} is not known")),
        }
    }
    let messages = match (Profile::from_name(name), Layer::from_name(name)) {
        (Some(profile), _) => session(profile, 0, LAST_KIND).concat(),
        (None, Some(layer)) => Case::new(layer, book, UNITS).list,
        _ => return Err(format!("{name:?} is no profile and no layer")),
    };
    let mut track = Track::new();
    let list = track.list(messages)?;
    let run = match who.as_str() {
        "engine" => Track::engine,
        "reference" => Track::reference,
        other => return Err(format!("expected engine or reference, found {other:?}")),
    };
    let total: f64 = (0..times).map(|_| run(&mut track, &list)).sum();
    println!(
        "{name}: {times} runs by the {who}, {:.0} ns each",
        total / times as f64
    );
    Ok(())
}
