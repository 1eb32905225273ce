//! A day carried over an upgrade: the set, its file, and what a crash leaves.

use super::programs::{built, crash, empty_folder, file, is_installed, run};
use sessions::checked_file::{checksum_file, verify};
use sessions::profile::Profile;
use sessions::record::{print_sheet, read_report};
use sessions::sha256::sha256;
use sessions::sheet::run_whole;
use sessions::soak::generate;
use std::path::{Path, PathBuf};
use std::process::Command;
use std::sync::OnceLock;

fn program() -> &'static Path {
    static PROGRAM: OnceLock<PathBuf> = OnceLock::new();
    PROGRAM.get_or_init(|| built("upgrade"))
}

fn upgrade(arguments: &[&str], input: &[u8]) -> (i32, String, String) {
    run(program(), arguments, input)
}

const SWEEP: [u8; 4] = [4, 0, 6, 0];

/// A folder with a set of so many sweeps, and the set's path.
fn noon(name: &str, sweeps: usize) -> (PathBuf, String) {
    let folder = empty_folder(name);
    let set = folder.join("noon.set").to_str().expect("text").to_string();
    let (status, _, errors) = upgrade(&["--write", &set], &SWEEP.repeat(sweeps));
    assert_eq!((status, errors.as_str()), (0, ""));
    (folder, set)
}

/// The names in a folder, in order.
fn names(folder: &Path) -> Vec<String> {
    let found = std::fs::read_dir(folder).expect("the folder");
    let names = found.map(|entry| entry.expect("an entry").file_name());
    let mut names: Vec<String> = names.filter_map(|name| name.into_string().ok()).collect();
    names.sort();
    names
}

/// What the next message upon a set is answered with.
fn next_line(set: &str) -> String {
    let (status, told, errors) = upgrade(&["--read", set], &SWEEP);
    assert_eq!((status, errors.as_str()), (0, ""));
    told
}

#[test]
fn an_upgrade_at_noon_writes_the_lines_of_a_whole_day() {
    let list = generate(Profile::Mixed, 3, 200);
    let whole = print_sheet(&read_report(&run_whole(&list.concat()).1).expect("records"));
    for cut in [0, 1, 100, list.len()] {
        let noon = file(&format!("noon-{cut}"), &[]);
        let (status, morning, _) = upgrade(&["--write", &noon], &list[..cut].concat());
        assert_eq!(status, 0);
        let (status, rest, _) = upgrade(&["--read", &noon, "-"], &list[cut..].concat());
        assert_eq!(status, 0);
        assert_eq!(format!("{morning}{rest}"), whole, "{cut}");
        let set = std::fs::read(&noon).expect("a set");
        let (venue, done) = sessions::set_reader::look_at(&set).expect("it reads back");
        assert_eq!(done as usize, cut);
        assert!(reference::is_sound(&venue));
        // Carried once more without a message it is the same.
        let again = file(&format!("again-{cut}"), &[]);
        let (status, told, _) = upgrade(&["--read", &noon, "--write", &again], &[]);
        assert_eq!((status, told.as_str()), (0, ""));
        assert_eq!(std::fs::read(&again).expect("a set"), set);
    }
}

#[test]
fn the_length_and_checksum_stand_beside_a_set() {
    let (folder, noon) = noon("beside", 3);
    let set = std::fs::read(&noon).expect("a set");
    let lines = std::fs::read_to_string(checksum_file(Path::new(&noon))).expect("text");
    let expected = format!("# {} bytes\n{}  noon.set\n", set.len(), sha256(&set));
    assert_eq!(lines, expected);
    assert_eq!(verify(Path::new(&noon), &set), Ok(()));
    assert_eq!(names(&folder), ["noon.set", "noon.set.sha256"]);
    if !is_installed("sha256sum") {
        return;
    }
    let mut sums = Command::new("sha256sum");
    sums.current_dir(&folder).args(["-c", "noon.set.sha256"]);
    let checked = sums.output().expect("sha256sum starts");
    assert!(checked.status.success() && checked.stderr.is_empty());
}

/// Every length of a message's end: one block more, or not.
#[test]
fn checksums_of_sets_of_many_lengths() {
    for messages in [0, 7, 20, 33, 46, 60, 75, 90, 120, 150] {
        let list = generate(Profile::Reserve, 2, messages).concat();
        let noon = file(&format!("length-{messages}"), &[]);
        let (status, ..) = upgrade(&["--write", &noon], &list);
        assert_eq!(status, 0);
        let set = std::fs::read(&noon).expect("a set");
        assert_eq!(verify(Path::new(&noon), &set), Ok(()), "{}", set.len());
    }
}

/// A set that is refused: what is told, and that nothing is printed.
fn refused(noon: &str) -> String {
    let (status, told, errors) = upgrade(&["--read", noon], &SWEEP);
    assert_eq!((status, told.as_str()), (3, ""), "{errors}");
    let start = format!("upgrade: {noon} is not what {noon}.sha256 tells: ");
    assert!(errors.starts_with(&start), "{errors}");
    errors[start.len()..].to_string()
}

#[test]
fn a_set_that_differs_from_what_stands_beside_it_is_refused() {
    let (_, noon) = noon("differs", 3);
    let set = std::fs::read(&noon).expect("a set");
    let sums = checksum_file(Path::new(&noon));
    let unchecked = "\nupgrade: --unchecked takes it as it is\n";
    let cut = &set[..set.len() - 1];
    let longer = [&set[..], &[0]].concat();
    let mut changed = set.clone();
    changed[5] ^= 1;
    for (bytes, what) in [
        (cut, "its length is another one"),
        (&longer, "its length is another one"),
        (&[], "its length is another one"),
        (&changed, "its checksum is another one"),
    ] {
        std::fs::write(&noon, bytes).expect("written");
        assert_eq!(refused(&noon), format!("{what}{unchecked}"));
    }
    // That number alone was another one: the engine could not tell.
    let (status, told, _) = upgrade(&["--read", &noon, "--unchecked"], &SWEEP);
    assert_eq!((status, told.as_str()), (0, "64 260 0 0 0\n"));
    std::fs::write(&noon, &set).expect("written");
    assert_eq!(next_line(&noon), "64 4 0 0 0\n");
    for lines in ["", "# 152 bytes\n", "# many\nabc\n", "noon.set\n"] {
        std::fs::write(&sums, lines).expect("written");
        assert_eq!(
            refused(&noon),
            format!("no checksum stands there{unchecked}")
        );
    }
    // What sha256sum writes by itself is enough.
    std::fs::write(&sums, format!("{}  noon.set\n", sha256(&set))).expect("written");
    assert_eq!(next_line(&noon), "64 4 0 0 0\n");
    std::fs::remove_file(&sums).expect("removed");
    assert_eq!(refused(&noon), format!("that file is missing{unchecked}"));
}

#[test]
fn a_crash_leaves_the_old_set_or_the_new_one() {
    let (folder, noon) = noon("crash", 3);
    crash(program(), &["--write", &noon], &SWEEP.repeat(5));
    assert_eq!(
        names(&folder),
        ["noon.set", "noon.set.new", "noon.set.sha256"]
    );
    assert_eq!(next_line(&noon), "64 4 0 0 0\n");
    // What is left of it is written over.
    let old_sums = std::fs::read(folder.join("noon.set.sha256")).expect("a file");
    let (status, ..) = upgrade(&["--write", &noon], &SWEEP.repeat(5));
    assert_eq!(status, 0);
    assert_eq!(names(&folder), ["noon.set", "noon.set.sha256"]);
    assert_eq!(next_line(&noon), "64 6 0 0 0\n");
    // Between the two renamings: the new set, and the old checksum.
    let sums = folder.join("noon.set.sha256");
    let left = folder.join("noon.set.sha256.new");
    std::fs::rename(&sums, &left).expect("renamed");
    std::fs::write(&sums, old_sums).expect("written");
    let told = refused(&noon);
    let step = format!(
        "the writing was cut off before its last step, to rename that file to {}\n",
        sums.display()
    );
    assert!(told.ends_with(&step), "{told}");
    std::fs::rename(&left, &sums).expect("renamed");
    assert_eq!(next_line(&noon), "64 6 0 0 0\n");
}

#[test]
fn a_set_is_not_written_over_what_is_no_file() {
    let (folder, noon) = noon("no-file", 1);
    let link = folder.join("link").to_str().expect("text").to_string();
    std::os::unix::fs::symlink(&noon, &link).expect("a link");
    for place in [folder.to_str().expect("text"), &link] {
        let (status, told, errors) = upgrade(&["--write", place], &[]);
        assert_eq!((status, told.as_str()), (1, ""));
        let what = format!("upgrade: {place} was not written: it is there, and no regular file\n");
        assert_eq!(errors, what);
    }
    assert_eq!(names(&folder), ["link", "noon.set", "noon.set.sha256"]);
}

#[test]
fn an_upgrade_with_what_is_no_set_is_told() {
    let torn = file("torn", &[12, 0, 80]);
    for (arguments, status, word) in [
        (
            &["--read", &torn, "--unchecked"][..],
            3,
            "the set was not read: number 16",
        ),
        (&["--read", "-", "a"], 3, "standard input has no checksum"),
        (&["--read", "no-such-file"], 1, "no-such-file"),
        (&["--read", "-"], 2, "one file only: -"),
        (&["--read"], 2, "after: --read"),
        (&["--unchecked"], 2, "only with --read: --unchecked"),
        (&["--what"], 2, "--what"),
        (&["a", "b"], 2, "too many: b"),
        (&["--write", "/no/such/folder"], 1, "was not written"),
    ] {
        let (found, told, error) = upgrade(arguments, &[]);
        assert_eq!((found, told.as_str()), (status, ""), "{error}");
        assert!(error.contains(word), "{error}");
    }
    let (status, told, _) = upgrade(&["--help"], &[]);
    assert_eq!(status, 0);
    assert!(told.starts_with("usage: upgrade "));
}
