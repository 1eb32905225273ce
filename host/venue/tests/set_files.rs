//! Set files as an operator meets them: written whole or not at all, checked before they
//! are read.

use sessions::checked_file::{checksum_file, verify};
use std::ffi::{OsStr, OsString};
use std::io::Write;
use std::os::unix::ffi::OsStringExt;
use std::path::{Path, PathBuf};
use std::process::{Command, Output, Stdio};

const DAY: &str = include_str!("sessions/limited.txt");

/// A folder that is gone when the test ends.
struct Folder(PathBuf);

impl Folder {
    fn new(name: &str) -> Self {
        let folder = std::env::temp_dir().join(format!("set-files-{}-{name}", std::process::id()));
        std::fs::create_dir_all(&folder).unwrap();
        Folder(folder)
    }

    fn file(&self, name: &str) -> PathBuf {
        self.0.join(name)
    }

    /// The names in it, in order.
    fn names(&self) -> Vec<String> {
        let entries = std::fs::read_dir(&self.0).unwrap();
        let names = entries.map(|entry| entry.unwrap().file_name());
        let mut names: Vec<String> = names.map(|name| name.to_string_lossy().into()).collect();
        names.sort();
        names
    }
}

impl Drop for Folder {
    fn drop(&mut self) {
        let _ = std::fs::remove_dir_all(&self.0);
    }
}

/// Runs a command that reads this input.
fn run(command: &mut Command, input: &[u8]) -> Output {
    let mut child = command
        .stdin(Stdio::piped())
        .stdout(Stdio::piped())
        .stderr(Stdio::piped())
        .spawn()
        .unwrap();
    // A command that refuses its arguments does not read its input.
    let _ = child.stdin.take().unwrap().write_all(input);
    child.wait_with_output().unwrap()
}

fn venue<S: AsRef<OsStr>>(words: &[S], input: &[u8]) -> Output {
    run(Command::new(env!("CARGO_BIN_EXE_venue")).args(words), input)
}

/// The output of a command that succeeds and says nothing beside it.
fn good<S: AsRef<OsStr>>(words: &[S], input: &[u8]) -> Vec<u8> {
    let output = venue(words, input);
    let errors = String::from_utf8_lossy(&output.stderr);
    assert_eq!((output.status.code(), &*errors), (Some(0), ""));
    output.stdout
}

/// The error of a command that fails and writes nothing.
fn bad<S: AsRef<OsStr>>(words: &[S], input: &[u8], status: i32) -> String {
    let output = venue(words, input);
    assert_eq!(output.status.code(), Some(status));
    assert!(output.stdout.is_empty());
    String::from_utf8(output.stderr).unwrap()
}

/// The words of a command, files among them.
fn words(words: &[&dyn AsRef<OsStr>]) -> Vec<OsString> {
    words
        .iter()
        .map(|word| word.as_ref().to_os_string())
        .collect()
}

/// Writes the set of a day's first messages.
fn write_set(file: &Path, messages: &str) {
    let asked = words(&[&"set", &"--text", &"--after", &messages, &"--output", &file]);
    assert!(good(&asked, DAY.as_bytes()).is_empty());
}

/// The number that a sweep upon a set is answered with.
fn next_number(file: &Path) -> String {
    let sheet = good(&words(&[&"resume", &"--text", &file, &"-"]), b"sweep\n");
    let sheet = String::from_utf8(sheet).unwrap();
    sheet.split(' ').nth(1).unwrap().to_string()
}

#[test]
fn a_day_is_carried_by_a_file_in_text_and_in_bytes() {
    let folder = Folder::new("carried");
    let day = good(&["encode"], DAY.as_bytes());
    for (text, session) in [(true, DAY.as_bytes()), (false, &day)] {
        let form: &[&str] = if text { &["--text"] } else { &[] };
        let noon = folder.file("noon");
        let set = good(&[&["set"], form].concat(), session);
        let asked = words(&[&"set", &"--output", &noon, &"-"]);
        let form: Vec<OsString> = form.iter().map(OsString::from).collect();
        assert!(good(&[&asked[..], &form].concat(), session).is_empty());
        assert_eq!(std::fs::read(&noon).unwrap(), set);
        assert_eq!(verify(&noon, &set), Ok(()));
        assert_eq!(folder.names(), ["noon", "noon.sha256"]);
        let resumed = words(&[&"resume", &noon, &"/dev/null"]);
        assert!(good(&[&resumed[..], &form].concat(), b"").is_empty());
    }
}

#[test]
fn sha256sum_reads_what_stands_beside_a_set() {
    let folder = Folder::new("sums");
    write_set(&folder.file("noon.set"), "5");
    let mut sums = Command::new("sha256sum");
    sums.current_dir(&folder.0).args(["-c", "noon.set.sha256"]);
    match sums.output() {
        Ok(output) => assert!(output.status.success() && output.stderr.is_empty()),
        Err(error) => eprintln!("sha256sum is not asked: {error}"),
    }
}

#[test]
fn a_set_that_differs_is_refused_unless_it_is_insisted_on() {
    let folder = Folder::new("differs");
    let noon = folder.file("noon.txt");
    let sums = checksum_file(&noon);
    write_set(&noon, "5");
    let set = std::fs::read_to_string(&noon).unwrap();
    let asked = words(&[&"resume", &"--text", &noon, &"-"]);
    let insisted = words(&[&"resume", &"--text", &"--unchecked", &noon, &"-"]);
    let start = format!(
        "venue resume: {}: it is not what {} tells: ",
        noon.display(),
        sums.display()
    );
    let end = "; --unchecked takes it as it is\n";
    let later = set.replace("set 5 ", "set 7 ");
    let length = set.len();
    for (changed, what) in [
        (later.clone(), "its checksum is another one".to_string()),
        (
            set[..length - 1].to_string(),
            format!("it has {} bytes, and {length} bytes are told", length - 1),
        ),
    ] {
        std::fs::write(&noon, changed).unwrap();
        assert_eq!(bad(&asked, b"sweep\n", 1), format!("{start}{what}{end}"));
    }
    std::fs::write(&noon, later).unwrap();
    let sheet = String::from_utf8(good(&insisted, b"sweep\n")).unwrap();
    assert!(sheet.starts_with("64 8 0 "), "{sheet}");
    std::fs::write(&noon, set).unwrap();
    assert_eq!(next_number(&noon), "6");
    std::fs::remove_file(&sums).unwrap();
    let missing = format!("{start}that file is missing{end}");
    assert_eq!(bad(&asked, b"sweep\n", 1), missing);
    assert!(!good(&insisted, b"sweep\n").is_empty());
}

#[test]
fn a_set_from_standard_input_is_taken_where_it_is_insisted_on() {
    let folder = Folder::new("input");
    let set = good(&["set", "--text"], DAY.as_bytes());
    let session = folder.file("session");
    std::fs::write(&session, "sweep\n").unwrap();
    let error = bad(&words(&[&"resume", &"--text", &"-", &session]), &set, 1);
    let told = "venue resume: standard input: there is no checksum beside it; --unchecked takes it as it is\n";
    assert_eq!(error, told);
    let insisted = words(&[&"resume", &"--text", &"--unchecked", &"-", &session]);
    assert!(!good(&insisted, &set).is_empty());
}

#[test]
fn a_crash_leaves_the_old_set_or_the_new_one() {
    let folder = Folder::new("crash");
    let noon = folder.file("noon.set");
    write_set(&noon, "5");
    // It may write no byte to a file: the system ends it at the first one.
    let mut shell = Command::new("sh");
    shell.args(["-c", "ulimit -c 0; ulimit -f 0; exec \"$0\" \"$@\""]);
    shell.arg(env!("CARGO_BIN_EXE_venue"));
    let asked = words(&[&"set", &"--text", &"--output", &noon]);
    let output = run(shell.args(asked), DAY.as_bytes());
    assert_eq!(output.status.code(), None, "it was not ended by a signal");
    let left = ["noon.set", "noon.set.new", "noon.set.sha256"];
    assert_eq!(folder.names(), left);
    assert_eq!(next_number(&noon), "6");
    // What is left of it is written over.
    write_set(&noon, "7");
    assert_eq!(folder.names(), ["noon.set", "noon.set.sha256"]);
    assert_eq!(next_number(&noon), "8");
}

#[test]
fn bad_input_and_bad_places_leave_what_there_was() {
    let folder = Folder::new("places");
    let noon = folder.file("noon.set");
    write_set(&noon, "5");
    let before = folder.names();
    let asked = words(&[&"set", &"--text", &"--output", &noon]);
    bad(&asked, b"order\n", 1);
    let asked_after = words(&[&"set", &"--text", &"--after", &"999", &"--output", &noon]);
    bad(&asked_after, DAY.as_bytes(), 1);
    let link = folder.file("link");
    std::os::unix::fs::symlink(&noon, &link).unwrap();
    for (place, told) in [
        (folder.0.clone(), "it is there, and no regular file"),
        (link.clone(), "it is there, and no regular file"),
        (folder.file("no/noon.set"), "noon.set.new was not written: "),
        (noon.join("below"), "below.new was not written: "),
        (PathBuf::new(), "is no name of a file"),
    ] {
        let error = bad(&words(&[&"set", &"--output", &place]), b"", 1);
        assert!(error.starts_with("venue set: "), "{error}");
        assert!(error.contains(told), "{error}");
    }
    let error = bad(&["set", "--output", "-"], b"", 2);
    assert!(
        error.contains("expected a file after --output, found -"),
        "{error}"
    );
    std::fs::remove_file(link).unwrap();
    assert_eq!(folder.names(), before);
    assert_eq!(next_number(&noon), "6");
}

#[test]
fn a_name_that_is_no_text_is_a_name() {
    let folder = Folder::new("name");
    let noon = folder
        .file("x")
        .with_file_name(OsString::from_vec(b"noon-\xff".to_vec()));
    write_set(&noon, "5");
    assert_eq!(next_number(&noon), "6");
    let lines = std::fs::read(checksum_file(&noon)).unwrap();
    assert!(lines.ends_with(b"  noon-\xff\n"));
}
