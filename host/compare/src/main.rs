//! `compare`: the engine against the reference.

#![forbid(unsafe_code)]

use compare::{in_words, Archive, Replay};
use sessions::counted::counted;
use sessions::driver::check::Fault;
use sessions::driver::{drive_own, drive_session, Counts, Driver, Effort};
use sessions::engine::Reference;
use sessions::profile::Profile;
use sessions::progress::Progress;
use sessions::stream::{Bytes, Form, Messages};
use std::ffi::OsString;
use std::fs::File;
use std::io::Read;
use std::path::PathBuf;
use std::process::ExitCode;
use std::time::{Duration, Instant};

const HELP: &str = "\
compare: the engine against the reference, byte for byte

  compare gate                                    a fixed set of sessions, every profile
  compare soak [--minutes M | --messages N] [--seed S]
                                                  sessions from seed S (default 0) on
  compare session --profile P --seed S            one session again
  compare session [--text] FILE                   a session of your own

Each session of the generator is run whole, with report memory that ends near each
message's records and of every short length, cut off, with changed and with random
bytes; over two lines, with messages lost, cut, doubled, swapped and spoiled; and
message by message, the first upon a fresh venue and each other upon the venue that
the last one left, with calls beside them upon short memory, the last message numbers,
torn bytes, changed venues and venue memory of other lengths, upon rows of editions
broken in every way, with numbers about the last edition's, upon orders that show
otherwise in every way or another part of them, upon complex orders of ratios broken in
every way or of others, a legging order of unequal ratios among them, upon rows of
generations broken in every way and where a ceiling ends; and the settings about each
edition. The engine's records of each message are replayed upon the venue before it: no
trade or cross passes a better price over, and they lead to the venue that the engine
left. Four sessions arrive at four venues behind one line and are done by
turns, with calls beside them upon short memory, changed layers and layer memory of
other lengths. Sets of venues on the way are written into memory of every length and
read back, cut at every byte; spoiled in every way, one too many of each part among them;
short; and written of changed venues and with numbers about the last one kept.
Compared are the number, every byte of the report, settings or set memory (lent full of
junk), of the venue, the layer and the lines, and the bytes around them.
The first difference ends it with exit status 1, and names what repeats it. A soak tries
report memory that ends near one in ten messages' records; the others try all of them.

A session of your own is message bytes, or text with --text; bytes that look like text are
an error, and --bytes takes them as bytes. It is taken message by message, each upon the
venue that the last one left, and whole by a run with report memory that just fits and with
more; and both sheets are compared line by line. - is standard input, and what follows --
is a file's name. `venue compare` starts this.

How far it is stands in one line on standard error, where that is a terminal.
";

/// When to stop.
enum Until {
    Sessions(u64),
    Messages(u64),
    Time(Duration),
}

/// What was asked for.
struct Request {
    profiles: Vec<Profile>,
    seed: u64,
    until: Until,
    /// Short report memory is tried at one in so many messages.
    one_in: u64,
    fault: Option<Fault>,
}

/// Seeds of each profile in the gate.
const GATE_SEEDS: u64 = 10;

/// A session of the user's own.
struct Own {
    form: Form,
    file: PathBuf,
    fault: Option<Fault>,
}

fn main() -> ExitCode {
    let arguments: Vec<OsString> = std::env::args_os().skip(1).collect();
    let is_help = |word: &OsString| word == "help" || word == "--help" || word == "-h";
    if arguments
        .iter()
        .take_while(|word| *word != "--")
        .any(is_help)
    {
        print!("{HELP}");
        return ExitCode::SUCCESS;
    }
    let compared = match parse_own(&arguments) {
        Ok(Some(own)) => compare_file(&own),
        Ok(None) => match parse(&arguments) {
            Ok(request) => compare_all(&request).map(|counts| told(&counts)),
            Err(what) => return wrong(&what),
        },
        Err(what) => return wrong(&what),
    };
    match compared {
        Ok(told) => {
            print!("{told}");
            ExitCode::SUCCESS
        }
        Err(difference) => {
            eprintln!("compare: {difference}");
            ExitCode::FAILURE
        }
    }
}

/// A wrong command line.
fn wrong(what: &str) -> ExitCode {
    eprintln!("compare: {what}\ntry: compare help");
    ExitCode::from(2)
}

/// A session in a file, where one is asked for.
fn parse_own(arguments: &[OsString]) -> Result<Option<Own>, String> {
    let drawn = |word: &&OsString| *word == "--profile" || *word == "--seed";
    let words = arguments.iter().skip(1);
    let is_drawn = words.clone().any(|word| drawn(&word));
    if arguments.first().is_none_or(|word| word != "session") || is_drawn {
        return Ok(None);
    }
    let mut form = Form::Bytes;
    let mut fault = None;
    let mut files: Vec<&OsString> = Vec::new();
    let mut rest = words;
    while let Some(word) = rest.next() {
        match word.to_str() {
            Some("--text") => form = Form::Text,
            Some("--bytes") => form = Form::AnyBytes,
            Some("--fault") => fault = Some(parse_fault(rest.next())?),
            Some("--") => files.extend(rest.by_ref()),
            Some(option) if option.starts_with("--") => {
                return Err(format!("option {option} is not known here"));
            }
            _ => files.push(word),
        }
    }
    match files[..] {
        [file] => Ok(Some(Own {
            form,
            file: file.into(),
            fault,
        })),
        [_, extra, ..] => Err(format!("argument {extra:?} is one too many")),
        [] => Err("expected --profile P and --seed S, or FILE".to_string()),
    }
}

fn parse_fault(name: Option<&OsString>) -> Result<Fault, String> {
    let found = name.and_then(|name| name.to_str()).unwrap_or("");
    Fault::from_name(found)
        .ok_or_else(|| format!("expected CHECK:PART after --fault, found {found:?}"))
}

/// Compares a session in a file.
fn compare_file(own: &Own) -> Result<String, String> {
    let is_standard = own.file.as_os_str() == "-";
    let name = match is_standard {
        true => "standard input".to_string(),
        false => own.file.display().to_string(),
    };
    let named = |what: String| format!("{name}: {what}");
    let input: Box<dyn Read> = match is_standard {
        true => Box::new(std::io::stdin()),
        false => Box::new(File::open(&own.file).map_err(|error| named(error.to_string()))?),
    };
    let list = Messages::new(Bytes::new(input, own.form)).rest();
    let list = list.map_err(named)?;
    let mut replay = Replay;
    let mut driver = Driver::new(&Archive, &Reference, &mut replay, own.fault);
    let compared = drive_own(&mut driver, &list).map_err(named)?;
    let messages = counted(compared.messages as u64, "message");
    let records = counted(compared.records as u64, "record");
    let ways = "by a run, by one-message calls and on the sheet";
    Ok(format!("no difference: {messages}, {records}, {ways}\n"))
}

fn parse(arguments: &[OsString]) -> Result<Request, String> {
    let mut request = Request {
        profiles: Profile::ALL.to_vec(),
        seed: 0,
        until: Until::Sessions(GATE_SEEDS * Profile::ALL.len() as u64),
        one_in: 1,
        fault: None,
    };
    let arguments: Vec<String> = arguments
        .iter()
        .map(|word| word.to_string_lossy().into_owned())
        .collect();
    let Some((command, rest)) = arguments.split_first() else {
        return Err("expected a command".to_string());
    };
    let options: &[&str] = match command.as_str() {
        "gate" => &["--fault"],
        "soak" => {
            request.until = Until::Messages(1_000_000);
            request.one_in = 10;
            &["--minutes", "--messages", "--seed", "--fault"]
        }
        "session" => {
            request.until = Until::Sessions(1);
            &["--profile", "--seed", "--fault"]
        }
        other => return Err(format!("command {other:?} is not known")),
    };
    for pair in rest.chunks(2) {
        let [option, value] = pair else {
            return Err(format!("expected a value after {}", pair[0]));
        };
        if !options.contains(&option.as_str()) {
            return Err(format!("option {option} is not known here"));
        }
        request.set(option, value)?;
    }
    if command == "session" && request.profiles.len() > 1 {
        return Err("expected --profile P and --seed S".to_string());
    }
    Ok(request)
}

impl Request {
    fn set(&mut self, option: &str, value: &str) -> Result<(), String> {
        let number = value.parse::<u64>();
        let number =
            number.map_err(|_| format!("expected a number after {option}, found {value:?}"));
        match option {
            "--seed" => self.seed = number?,
            "--messages" => self.until = Until::Messages(number?),
            "--minutes" => {
                self.until = Until::Time(Duration::from_secs(number?.saturating_mul(60)))
            }
            "--profile" => {
                let profile = Profile::from_name(value);
                let names = Profile::ALL.map(Profile::name).join(", ");
                let what = format!("expected a profile ({names}), found {value:?}");
                self.profiles = vec![profile.ok_or(what)?];
            }
            // Spoils a part of the answers of a check, to see that it is found.
            _ => self.fault = Some(parse_fault(Some(&value.into()))?),
        }
        Ok(())
    }
}

/// Compares session after session, and shows how far it is.
fn compare_all(request: &Request) -> Result<Counts, String> {
    let start = Instant::now();
    let mut progress = Progress::on_standard_error();
    let mut replay = Replay;
    let mut driver = Driver::new(&Archive, &Reference, &mut replay, request.fault);
    let (one_in, few) = (request.one_in, false);
    while !request.until.is_reached(&driver.counts, start) {
        let count = request.profiles.len() as u64;
        let profile = request.profiles[(driver.counts.sessions % count) as usize];
        let seed = request.seed.wrapping_add(driver.counts.sessions / count);
        let compared = drive_session(&mut driver, profile, seed, Effort { one_in, few });
        compared.map_err(|difference| in_words(&difference))?;
        progress.show(|| request.until.progress(&driver.counts, start));
    }
    Ok(driver.counts)
}

impl Until {
    fn is_reached(&self, counts: &Counts, start: Instant) -> bool {
        match self {
            Until::Sessions(sessions) => counts.sessions >= *sessions,
            Until::Messages(messages) => counts.messages >= *messages,
            Until::Time(time) => start.elapsed() >= *time,
        }
    }

    /// How far it is, of how much.
    fn progress(&self, counts: &Counts, start: Instant) -> String {
        let of = |whole: u64| format!(" of {whole}");
        let [mut time, mut sessions, mut messages] = [const { String::new() }; 3];
        match self {
            Until::Sessions(whole) => sessions = of(*whole),
            Until::Messages(whole) => messages = of(*whole),
            Until::Time(whole) => time = of(whole.as_secs()),
        }
        format!(
            "{}{time} s: {}{sessions} sessions, {}{messages} messages, no difference",
            start.elapsed().as_secs(),
            counts.sessions,
            counts.messages
        )
    }
}

fn told(counts: &Counts) -> String {
    let mut text = String::from("no difference\n");
    let lines = [
        (counts.sessions, "sessions"),
        (counts.messages, "messages"),
        (counts.runs, "runs"),
        (counts.feeds, "feeds of two lines"),
        (counts.calls, "one-message calls"),
        (counts.moments, "trades and crosses replayed"),
        (counts.settings, "settings told"),
        (counts.sets, "sets written and read"),
        (counts.arrivals, "arrivals"),
        (counts.turns, "turns"),
        (counts.bytes, "bytes of reports, venues, layers and sets"),
    ];
    for (count, name) in lines {
        text += &format!("{count:>14}  {name}\n");
    }
    for number in 0..=21 {
        let count = counts.numbers[number];
        text += &format!("{count:>14}  number {number}\n");
    }
    text
}
