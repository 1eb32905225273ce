//! Where and of what the figures are.

use std::fs::read_to_string;
use std::process::Command;

/// Processor, compiler and commit, one to a line.
pub fn described() -> String {
    let cores = std::thread::available_parallelism().map_or(0, usize::from);
    let profile = if cfg!(debug_assertions) {
        "debug build: the figures say nothing"
    } else {
        "release build (opt-level 3)"
    };
    format!(
        "- machine: {}, {cores} cores\n- reference: {}, {profile}; engine: the archive of the crate c_api_c\n- commit: {}\n",
        processor(),
        said_by("rustc", &["--version"]),
        said_by("git", &["describe", "--always", "--dirty"]),
    )
}

fn processor() -> String {
    let text = read_to_string("/proc/cpuinfo").unwrap_or_default();
    let model = text.lines().find(|line| line.starts_with("model name"));
    let name = model.and_then(|line| line.split(':').nth(1));
    name.map_or("not known".to_string(), |name| name.trim().to_string())
}

fn said_by(program: &str, arguments: &[&str]) -> String {
    let output = Command::new(program).args(arguments).output();
    let text = output.map(|output| String::from_utf8_lossy(&output.stdout).trim().to_string());
    match text {
        Ok(text) if !text.is_empty() => text,
        _ => "not known".to_string(),
    }
}
