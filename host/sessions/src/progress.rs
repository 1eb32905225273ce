//! How far long work is: one line on standard error that is rewritten, where standard
//! error is a terminal. Elsewhere nothing is written.

use std::io::{self, IsTerminal, Stderr, Write};
use std::process::{Command, Output};
use std::time::{Duration, Instant};

/// A line is shown no sooner after the last one.
const PAUSE: Duration = Duration::from_millis(100);

/// Erases a terminal's line from the cursor on.
const ERASE: &str = "\x1b[K";

/// The line on a terminal, gone when this is dropped.
pub struct Progress<W: Write = Stderr> {
    terminal: Option<W>,
    shown: Option<Instant>,
}

impl Progress {
    /// On standard error, where that is a terminal.
    pub fn on_standard_error() -> Self {
        let stderr = io::stderr();
        Progress::on(stderr.is_terminal().then_some(stderr))
    }
}

impl<W: Write> Progress<W> {
    /// On a terminal, or nowhere.
    pub fn on(terminal: Option<W>) -> Self {
        Progress {
            terminal,
            shown: None,
        }
    }

    /// Shows the line in place of the last one, but at most ten a second.
    pub fn show(&mut self, line: impl FnOnce() -> String) {
        if self.shown.is_some_and(|shown| shown.elapsed() < PAUSE) {
            return;
        }
        if self.terminal.is_some() {
            self.write(&line());
            self.shown = Some(Instant::now());
        }
    }

    /// Takes the line away.
    pub fn clear(&mut self) {
        if self.shown.take().is_some() {
            self.write("");
        }
    }

    /// A terminal that is gone is no reason to end the work.
    fn write(&mut self, line: &str) {
        if let Some(terminal) = &mut self.terminal {
            let _ = write!(terminal, "\r{line}{ERASE}").and_then(|()| terminal.flush());
        }
    }
}

impl<W: Write> Drop for Progress<W> {
    fn drop(&mut self) {
        self.clear();
    }
}

/// Runs a program with standard error on a terminal, for tests: what it writes there stands
/// in standard output. A terminal is made by Python, which the gate needs anyway.
pub fn run_on_terminal(program: &str, arguments: &[&str]) -> io::Result<Output> {
    let script = "import os, pty, subprocess, sys\n\
        ours, its = pty.openpty()\n\
        child = subprocess.Popen(sys.argv[1:], stdout=subprocess.DEVNULL, stderr=its)\n\
        os.close(its)\n\
        said = part = b''\n\
        while True:\n    \
            try: part = os.read(ours, 4096)\n    \
            except OSError: break\n    \
            if not part: break\n    \
            said += part\n\
        sys.stdout.buffer.write(said)\n\
        sys.exit(child.wait())\n";
    let python = ["-c", script, program];
    Command::new("python3")
        .args(python)
        .args(arguments)
        .output()
}

#[cfg(test)]
mod tests {
    use super::*;

    #[test]
    fn one_line_is_rewritten_and_taken_away() {
        let mut said = Vec::new();
        let mut progress = Progress::on(Some(&mut said));
        progress.show(|| "1 of 2".to_string());
        progress.show(|| panic!("a second line at once"));
        std::thread::sleep(PAUSE);
        progress.show(|| "2 of 2".to_string());
        drop(progress);
        assert_eq!(said, b"\r1 of 2\x1b[K\r2 of 2\x1b[K\r\x1b[K");
    }

    #[test]
    fn nothing_is_written_where_there_is_no_terminal() {
        let mut progress = Progress::on(None::<Vec<u8>>);
        progress.show(|| panic!("a line for no terminal"));
        progress.clear();
        let mut said = Vec::new();
        drop(Progress::on(Some(&mut said)));
        assert_eq!(said, b"");
    }
}
