//! Programs in C, built and run; and files for them.

use std::io::Write;
use std::path::{Path, PathBuf};
use std::process::{Command, Output, Stdio};

/// The top of the repository.
pub fn top() -> PathBuf {
    Path::new(env!("CARGO_MANIFEST_DIR")).join("../..")
}

/// The archives that the wrapper links: one venue's, and that of four venues.
pub fn archives() -> Vec<PathBuf> {
    std::env::split_paths(env!("ARCHIVES")).collect()
}

/// A program of examples/c, built.
pub fn built(name: &str) -> PathBuf {
    let program = scratch(name);
    let mut compiler = Command::new("cc");
    compiler
        .args(["-std=c11", "-Wall", "-Wextra", "-Werror", "-O2", "-I"])
        .arg(top().join("include"))
        .arg(source(name))
        .args(archives())
        .arg("-o")
        .arg(&program);
    expect_silence(&mut compiler);
    program
}

/// The source of a program.
pub fn source(name: &str) -> PathBuf {
    top().join("examples/c").join(name).with_extension("c")
}

/// A command that has to succeed and to say nothing on standard error.
pub fn expect_silence(command: &mut Command) {
    let output = command.output().expect("the program starts");
    let told = String::from_utf8_lossy(&output.stderr);
    assert!(output.status.success() && told.is_empty(), "{told}");
}

/// Starts a program, hands it its input and waits for its end.
pub fn output_of(command: &mut Command, input: &[u8]) -> Output {
    let mut child = command
        .stdin(Stdio::piped())
        .stdout(Stdio::piped())
        .stderr(Stdio::piped())
        .spawn()
        .expect("the program starts");
    let written = child.stdin.take().expect("a pipe").write_all(input);
    let output = child.wait_with_output().expect("the program ends");
    // A program that ended without success may not have read all.
    assert!(written.is_ok() || !output.status.success());
    output
}

/// The status, output and errors of a program.
pub fn run(program: &Path, arguments: &[&str], input: &[u8]) -> (i32, String, String) {
    let output = output_of(Command::new(program).args(arguments), input);
    let text = |bytes: Vec<u8>| String::from_utf8(bytes).expect("text");
    let status = output.status.code().expect("a status");
    (status, text(output.stdout), text(output.stderr))
}

/// Runs a program that may write no byte to a file: the system ends it at the first one. A
/// crash in the middle of a writing.
pub fn crash(program: &Path, arguments: &[&str], input: &[u8]) {
    let mut shell = Command::new("sh");
    shell.args(["-c", "ulimit -c 0; ulimit -f 0; exec \"$0\" \"$@\""]);
    let output = output_of(shell.arg(program).args(arguments), input);
    assert_eq!(output.status.code(), None, "it was not ended by a signal");
}

/// A path for a test's own use.
pub fn scratch(name: &str) -> PathBuf {
    Path::new(env!("CARGO_TARGET_TMPDIR")).join(name)
}

/// A file of these bytes.
pub fn file(name: &str, bytes: &[u8]) -> String {
    let file = scratch(name);
    std::fs::write(&file, bytes).expect("the file is written");
    file.to_str().expect("a name in text").to_string()
}

/// An empty folder.
pub fn empty_folder(name: &str) -> PathBuf {
    let folder = scratch(name);
    let _ = std::fs::remove_dir_all(&folder);
    std::fs::create_dir_all(&folder).expect("the folder is made");
    folder
}

/// Whether a program is installed here; where it is not, that is told.
pub fn is_installed(program: &str) -> bool {
    let found = Command::new(program)
        .arg("--version")
        .stdout(Stdio::null())
        .stderr(Stdio::null())
        .status();
    if found.is_err() {
        eprintln!("{program} is not installed: what it would check is passed over");
    }
    found.is_ok()
}
