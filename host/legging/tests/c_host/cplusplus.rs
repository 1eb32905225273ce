//! The hosts in C are C++ as well.

use super::programs::{archives, expect_silence, is_installed, run, scratch, source, top};
use super::SESSION;
use sessions::text::encode_session;
use std::path::PathBuf;
use std::process::Command;

/// A program of examples/c, built as C++ by a standard.
fn built_as(name: &str, standard: &str) -> PathBuf {
    let program = scratch(&format!("{name}-{}", standard.trim_start_matches('-')));
    let mut compiler = Command::new("c++");
    compiler
        .args([standard, "-Wall", "-Wextra", "-Wpedantic", "-Werror", "-I"])
        .arg(top().join("include"))
        .args(["-x", "c++"])
        .arg(source(name))
        .args(["-x", "none"])
        .args(archives())
        .arg("-o")
        .arg(&program);
    expect_silence(&mut compiler);
    program
}

/// The names of all programs of examples/c.
fn all_names() -> Vec<String> {
    let found = std::fs::read_dir(top().join("examples/c")).expect("the folder");
    let paths = found.map(|entry| entry.expect("an entry").path());
    let sources = paths.filter(|path| path.extension().is_some_and(|ending| ending == "c"));
    let name = |path: PathBuf| {
        path.file_stem()
            .and_then(|name| name.to_str())
            .map(String::from)
    };
    sources.filter_map(name).collect()
}

#[test]
fn every_host_is_built_as_cplusplus_without_a_warning() {
    if !is_installed("c++") {
        return;
    }
    let names = all_names();
    assert!(names.len() >= 5, "{names:?}");
    for name in &names {
        built_as(name, "-std=c++11");
    }
    let messages = encode_session(SESSION).expect("the stored session is good");
    let (status, told, _) = run(&built_as("host", "-std=c++17"), &[], &messages);
    assert_eq!(status, 0);
    assert!(told.contains("66 3 205 5\n"), "{told}");
}
