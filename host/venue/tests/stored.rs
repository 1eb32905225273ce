//! The sessions that the proved printing program, crates/sheet, is run on in the gate: the bytes
//! stored there are these, and the sheets that it must print are the reference's.
//!
//! With STORE set the files are written anew: `STORE=1 cargo test -p venue --test stored`.

use sessions::message::Message;
use sessions::profile::Profile;
use sessions::record::print_sheet;
use sessions::sheet::{sheet_of, MOST_INPUT};
use sessions::soak::generate;
use sessions::text::encode_session;
use std::fs;
use std::path::{Path, PathBuf};

const SEED: u64 = 1;
const MESSAGES: usize = 100;

struct Session {
    name: String,
    bytes: Vec<u8>,
}

fn program() -> PathBuf {
    Path::new(env!("CARGO_MANIFEST_DIR")).join("../../crates/sheet")
}

fn session(name: &str, bytes: Vec<u8>) -> Session {
    let name = name.to_string();
    Session { name, bytes }
}

fn from_text(name: &str, text: &str) -> Session {
    session(name, encode_session(text).unwrap())
}

/// An example that the filing works out in its Item 3.
macro_rules! filed {
    ($name:literal) => {
        from_text(
            concat!("filing-", $name),
            include_str!(concat!("sessions/filing-", $name, ".txt")),
        )
    };
}

/// "the 129th resting", of each kind: 128 regular and 32 complex orders rest already.
fn full() -> Session {
    let mut text = String::from("open 0\nopen 1\n");
    for id in 1..=129 {
        text += &format!("order {id} sell 1 series 0 at 100\n");
    }
    for id in 130..=162 {
        text += &format!("complex {id} buy 0 buy 1 class 1 net 100 quantity 1\n");
    }
    from_text("full", &text)
}

/// Settings, and then percentages up to the 32nd edition and one that finds no place.
fn editions() -> Session {
    let mut text = String::from(include_str!("sessions/editions.txt"));
    for edition in 4..=33 {
        text += &format!("percent {} {edition}\n", edition + 17);
    }
    from_text("editions", &text)
}

/// The ceiling: 20 generations of each of two series by messages 3 to 41, none by message 43
/// nor 258, some by 259, and those of a better order by 261, when the next oldest is of
/// message 5.
fn traffic() -> Session {
    let complex = |id: usize, limit: usize| {
        format!("complex {id} buy 0 buy 1 class 1 net {limit} quantity 8\n")
    };
    let mut text =
        String::from("order 1 sell 15 series 0 at 130\norder 2 sell 12 series 1 at 90\n");
    for id in 3..23 {
        text += &complex(id, 205);
        text += &format!("cancel {id}\n");
    }
    text += &complex(23, 205);
    text += &"raw 04 00 63 00\n".repeat(214);
    text += &format!("sweep\nlimited 1\n{}limited 2\n", complex(24, 206));
    from_text("traffic", &text)
}

/// A message up to the last byte but one of those that are read, and a sweep: its first byte is
/// read, and its other three are not.
fn beyond() -> Session {
    let length = (MOST_INPUT - 1) as u16;
    let mut bytes = vec![0; usize::from(length)];
    bytes[..2].copy_from_slice(&length.to_le_bytes());
    bytes[2] = 99;
    bytes.extend(Message::Sweep.encode());
    session("beyond", bytes)
}

fn generated(profile: Profile) -> Session {
    session(profile.name(), generate(profile, SEED, MESSAGES).concat())
}

fn all() -> Vec<Session> {
    let mut sessions = vec![
        from_text("printed", include_str!("sessions/printed.txt")),
        from_text("displayed", include_str!("sessions/displayed.txt")),
        from_text("hidden", include_str!("sessions/hidden.txt")),
        from_text("together", include_str!("sessions/together.txt")),
        from_text("credit-band", include_str!("sessions/credit-band.txt")),
        filed!("1-generating"),
        filed!("2-execution"),
        filed!("3-removal-i-ii"),
        filed!("4-removal-v"),
        filed!("5-removal-vi"),
        filed!("6-removal-vii"),
        filed!("7-removal-viii"),
        filed!("8-removal-viii-revised"),
        filed!("9-removal-ix"),
        filed!("10-removal-x"),
        from_text("refused", include_str!("sessions/refused.txt")),
        editions(),
        from_text("shown", include_str!("sessions/shown.txt")),
        from_text("units", include_str!("sessions/units.txt")),
        from_text("limited", include_str!("sessions/limited.txt")),
        traffic(),
        from_text("empty", ""),
        full(),
        beyond(),
    ];
    sessions.extend(Profile::ALL.map(generated));
    sessions
}

/// What the program is to print, given the sessions as files: each one's name and its sheet.
fn expected(sessions: &[Session]) -> String {
    let sheets = sessions.iter().map(|session| {
        let records = sheet_of(&session.bytes).unwrap();
        format!("# {}\n{}", session.name, print_sheet(&records))
    });
    sheets.collect()
}

fn arguments(sessions: &[Session]) -> String {
    let names = sessions.iter().map(|session| format!("{}\n", session.name));
    names.collect()
}

fn store(sessions: &[Session]) {
    let data = program().join("data");
    let _ = fs::remove_dir_all(&data);
    fs::create_dir(&data).unwrap();
    for session in sessions {
        fs::write(data.join(&session.name), &session.bytes).unwrap();
    }
    fs::write(program().join("args"), arguments(sessions)).unwrap();
    fs::write(program().join("stdout"), expected(sessions)).unwrap();
}

#[test]
fn stored_sessions_and_sheets_are_the_references() {
    let sessions = all();
    if std::env::var_os("STORE").is_some() {
        store(&sessions);
    }
    let data = program().join("data");
    for session in &sessions {
        let stored = fs::read(data.join(&session.name)).unwrap();
        assert!(stored == session.bytes, "{} is another", session.name);
    }
    assert_eq!(fs::read_dir(&data).unwrap().count(), sessions.len());
    let read = |name: &str| fs::read_to_string(program().join(name)).unwrap();
    assert_eq!(read("args"), arguments(&sessions));
    assert_eq!(read("stdout"), expected(&sessions));
}
