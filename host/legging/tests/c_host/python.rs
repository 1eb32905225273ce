//! The example in Python: over ctypes, a shared library made of the archive.

use super::programs::{archives, expect_silence, file, run, scratch, top};
use super::SESSION;
use sessions::profile::Profile;
use sessions::record::{print_sheet, read_report};
use sessions::sheet::run_whole;
use sessions::soak::generate;
use sessions::text::encode_session;
use std::path::{Path, PathBuf};
use std::process::Command;
use std::sync::OnceLock;

/// The engine's calls as a shared library.
fn library() -> &'static str {
    static LIBRARY: OnceLock<PathBuf> = OnceLock::new();
    let made = LIBRARY.get_or_init(|| {
        let library = scratch("liblegging.so");
        let mut linker = Command::new("cc");
        linker.args(["-shared", "-o"]).arg(&library);
        linker.arg("-Wl,--whole-archive").arg(&archives()[0]);
        expect_silence(linker.arg("-Wl,--no-whole-archive"));
        library
    });
    made.to_str().expect("a name in text")
}

fn sheet(arguments: &[&str]) -> (i32, String, String) {
    let program = top().join("examples/python/sheet.py");
    let program = program.to_str().expect("a name in text");
    run(Path::new("python3"), &[&[program], arguments].concat(), &[])
}

#[test]
fn python_prints_the_sheets_of_sessions() {
    let printed = encode_session(SESSION).expect("the stored session is good");
    // The second report is longer than the memory that is lent first.
    let long = [4, 0, 6, 0].repeat(10_000);
    let mixed = generate(Profile::Mixed, 5, 300).concat();
    for (name, list) in [("printed", printed), ("long", long), ("mixed", mixed)] {
        let messages = file(&format!("python-{name}"), &list);
        let (status, told, errors) = sheet(&[library(), &messages]);
        let report = run_whole(&list).1;
        let expected = print_sheet(&read_report(&report).expect("whole records"));
        assert_eq!((status, errors.as_str()), (0, ""), "{name}");
        assert_eq!(told, expected, "{name}");
    }
}

#[test]
fn python_tells_a_torn_end_by_its_status_and_how_it_is_used() {
    let torn = file("python-torn", &[4, 0, 6, 0, 9, 0, 6]);
    let (status, told, _) = sheet(&[library(), &torn]);
    assert_eq!((status, told.as_str()), (1, "64 1 0 0 0\n64 2 1 0 0\n"));
    let (status, told, _) = sheet(&["--help"]);
    assert!(status == 0 && told.starts_with("Runs a session"), "{told}");
    let (status, told, errors) = sheet(&[]);
    assert_eq!((status, told.as_str()), (2, ""));
    assert!(
        errors.contains("sheet.py ./liblegging.so session.bin"),
        "{errors}"
    );
}
