//! Four venues behind one line, carried over an upgrade with what waits for them.

use super::programs::{built, empty_folder, file, run};
use sessions::checked_file::verify;
use sessions::profile::Profile;
use sessions::record::{print_sheet, read_report};
use sessions::sheet::run_whole;
use sessions::soak::generate;
use std::path::{Path, PathBuf};
use std::sync::OnceLock;

const SWEEP: [u8; 4] = [4, 0, 6, 0];

fn upgrade_layer(arguments: &[&str]) -> (i32, String, String) {
    static PROGRAM: OnceLock<PathBuf> = OnceLock::new();
    run(
        PROGRAM.get_or_init(|| built("upgrade_layer")),
        arguments,
        &[],
    )
}

/// The program with the lists of four venues, as files of this name.
fn with_lists(name: &str, options: &[&str], lists: &[Vec<u8>; 4]) -> (i32, String, String) {
    let files = [0, 1, 2, 3].map(|venue| file(&format!("{name}-{venue}"), &lists[venue]));
    let files = files.each_ref().map(String::as_str);
    upgrade_layer(&[options, &files].concat())
}

/// A path for what is carried.
fn noon(name: &str) -> String {
    let file = empty_folder(name).join("noon.layer");
    file.to_str().expect("text").to_string()
}

/// The lines of one venue.
fn of_venue(told: &str, venue: usize) -> String {
    let prefix = format!("{venue}: ");
    let own = told.lines().filter_map(|line| line.strip_prefix(&prefix));
    own.map(|line| format!("{line}\n")).collect()
}

#[test]
fn four_venues_go_on_with_the_lines_of_a_whole_day() {
    let profiles = [
        Profile::Mixed,
        Profile::Hits,
        Profile::Reserve,
        Profile::Ratios,
    ];
    let lists = profiles.map(|profile| {
        let mut list = generate(profile, 7, 150);
        list.retain(|message| message.len() <= 32);
        list
    });
    let noon = noon("layer-day");
    for cuts in [[0, 0, 0, 0], [40, 3, 100, 0], [9, 75, 8, 150]] {
        let part = |from_cut: bool| {
            [0, 1, 2, 3].map(|venue: usize| {
                let (morning, afternoon) =
                    lists[venue].split_at(cuts[venue].min(lists[venue].len()));
                if from_cut { afternoon } else { morning }.concat()
            })
        };
        let (status, morning, errors) = with_lists("morning", &["--write", &noon], &part(false));
        assert_eq!((status, errors.as_str()), (0, ""));
        let carried = std::fs::read(&noon).expect("what is carried");
        assert_eq!(verify(Path::new(&noon), &carried), Ok(()));
        let (status, rest, errors) = with_lists("afternoon", &["--read", &noon], &part(true));
        assert_eq!((status, errors.as_str()), (0, ""));
        for (venue, list) in lists.iter().enumerate() {
            let report = run_whole(&list.concat()).1;
            let sheet = print_sheet(&read_report(&report).expect("whole records"));
            assert_eq!(
                of_venue(&format!("{morning}{rest}"), venue),
                sheet,
                "{cuts:?} {venue}"
            );
        }
    }
}

/// Nine messages wait for venues 0 and 1 in turn, so that 0 and then 1 is served before all
/// have arrived: what waits, and that the next turn is venue 2's, is carried.
#[test]
fn what_waits_and_the_venue_served_last_are_carried() {
    let noon = noon("layer-wait");
    let nine = SWEEP.repeat(9);
    let lists = [nine.clone(), nine, SWEEP.to_vec(), SWEEP.to_vec()];
    let (status, morning, _) = with_lists("nine", &["--write", &noon], &lists);
    assert_eq!(
        (status, morning.as_str()),
        (0, "0: 64 1 0 0 0\n1: 64 1 0 0 0\n")
    );
    let none = [const { Vec::new() }; 4];
    // Carried once more with no turn taken it is the same.
    let again = format!("{noon}-again");
    let (status, told, _) = with_lists("none", &["--read", &noon, "--write", &again], &none);
    assert_eq!((status, told.as_str()), (0, ""));
    let bytes = [&noon, &again].map(|file| std::fs::read(file).expect("what is carried"));
    assert_eq!(bytes[0], bytes[1]);
    let (status, rest, _) = with_lists("none", &["--read", &noon], &none);
    assert_eq!(status, 0);
    let first = "2: 64 1 0 0 0\n3: 64 1 0 0 0\n0: 64 2 0 0 0\n1: 64 2 0 0 0\n0: 64 3 0 0 0\n";
    assert!(rest.starts_with(first), "{rest}");
    assert_eq!(rest.lines().count(), 18);
}

/// Where the parts of what is carried begin: of each venue its set and its wait.
fn parts(carried: &[u8]) -> Vec<usize> {
    let mut at = 1;
    let mut starts = Vec::new();
    for _ in 0..4 {
        starts.push(at);
        at += 2 + usize::from(u16::from_le_bytes([carried[at], carried[at + 1]]));
        starts.push(at);
        let waiting = carried[at];
        at += 1;
        for _ in 0..waiting {
            at += 1 + usize::from(carried[at]);
        }
    }
    assert_eq!(at, carried.len());
    starts
}

#[test]
fn what_is_no_layer_is_refused() {
    let noon = noon("layer-refused");
    let eight = SWEEP.repeat(8);
    let lists = [eight.clone(), Vec::new(), eight, Vec::new()];
    let (status, ..) = with_lists("eight", &["--write", &noon], &lists);
    assert_eq!(status, 0);
    let carried = std::fs::read(&noon).expect("what is carried");
    let starts = parts(&carried);
    let changed = |at: usize, byte: u8| {
        let mut bytes = carried.clone();
        bytes[at] = byte;
        bytes
    };
    let ninth = starts[2]; // where the wait of venue 0 ends
    let mut nine = changed(starts[1], 9);
    nine.splice(ninth..ninth, [4, 4, 0, 6, 0]);
    for (bytes, told) in [
        (
            changed(0, 4),
            "venue 4: no venue was served last by this number: number 18",
        ),
        (
            changed(starts[4] + 4, 9),
            "venue 2: the set was not read: number 16",
        ),
        (
            nine,
            "venue 0: a message that waited did not arrive: number 17",
        ),
        (
            [&carried[..], &[0]].concat(),
            "has bytes after the last venue",
        ),
        (carried[..carried.len() - 1].to_vec(), "within a venue"),
        (changed(starts[0] + 1, 255), "within a venue"),
        (
            Vec::new(),
            "what was carried ends at byte 0, within a venue",
        ),
    ] {
        std::fs::write(&noon, bytes).expect("written");
        let (status, printed, checked) = with_lists("refused", &["--read", &noon], &lists);
        assert_eq!((status, printed.as_str()), (3, ""));
        let start = format!("upgrade_layer: {noon} is not what {noon}.sha256 tells: its ");
        assert!(checked.starts_with(&start), "{checked}");
        let options = ["--read", &noon, "--unchecked"];
        let (status, printed, errors) = with_lists("refused", &options, &lists);
        assert_eq!((status, printed.as_str()), (3, ""), "{told}");
        assert!(errors.contains(told), "{told}: {errors}");
    }
}

#[test]
fn wrong_command_lines_of_four_are_told() {
    for (arguments, word) in [
        (&[][..], "expected four lists: too few"),
        (&["a", "b", "c", "d", "e"], "too many: e"),
        (&["-", "a", "-", "b"], "one list only: -"),
        (&["--read"], "after: --read"),
        (&["--read", "-"], "no standard input after: --read"),
        (&["--unchecked"], "only with --read: --unchecked"),
        (&["--what"], "--what"),
    ] {
        let (status, told, error) = upgrade_layer(arguments);
        assert_eq!((status, told.as_str()), (2, ""), "{error}");
        assert!(error.contains(word), "{error}");
    }
    let (status, told, _) = upgrade_layer(&["--help"]);
    assert!(status == 0 && told.starts_with("usage: upgrade_layer "));
}
