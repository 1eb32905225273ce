//! A browser without a window, driven over its own protocol: messages through two pipes, a
//! zero byte after each.

use std::io::{BufRead, BufReader, Write};
use std::path::{Path, PathBuf};
use std::process::{Child, ChildStdin, ChildStdout, Command, Stdio};
use std::thread::sleep;
use std::time::{Duration, Instant};

const NAMES: [&str; 4] = [
    "chromium",
    "chromium-browser",
    "google-chrome",
    "google-chrome-stable",
];

/// The browser of this machine: what VENUE_BROWSER names, or one on the path.
pub fn found() -> Option<PathBuf> {
    if let Some(named) = std::env::var_os("VENUE_BROWSER") {
        return Some(named.into());
    }
    let path = std::env::var_os("PATH")?;
    let mut folders = std::env::split_paths(&path);
    folders.find_map(|folder| {
        let files = NAMES.iter().map(|name| folder.join(name));
        files.into_iter().find(|file| file.is_file())
    })
}

pub struct Browser {
    child: Child,
    input: ChildStdin,
    output: BufReader<ChildStdout>,
    sent: u32,
    /// The session of the tab, once there is one.
    tab: String,
    complaints: Vec<String>,
}

/// What the browser tells of errors.
const COMPLAINTS: [&str; 3] = [
    "Runtime.exceptionThrown",
    "Runtime.consoleAPICalled",
    "Log.entryAdded",
];

impl Browser {
    /// Starts it with an empty tab.
    pub fn start(program: &Path, profile: &Path) -> Self {
        // It reads from descriptor 3 and writes to 4.
        let through = "exec \"$0\" \"$@\" 3<&0 4>&1 </dev/null >/dev/null 2>&1";
        let mut child = Command::new("sh")
            .args(["-c", through])
            .arg(program)
            .args([
                "--headless",
                "--no-sandbox",
                "--disable-gpu",
                "--no-first-run",
            ])
            .args(["--disable-dev-shm-usage", "--window-size=1400,900"])
            .arg("--remote-debugging-pipe")
            .arg(format!("--user-data-dir={}", profile.display()))
            .arg("about:blank")
            .stdin(Stdio::piped())
            .stdout(Stdio::piped())
            .spawn()
            .unwrap();
        let mut browser = Browser {
            input: child.stdin.take().unwrap(),
            output: BufReader::new(child.stdout.take().unwrap()),
            child,
            sent: 0,
            tab: String::new(),
            complaints: Vec::new(),
        };
        let made = browser.call("Target.createTarget", "{\"url\":\"about:blank\"}");
        let target = text_after(&made, "\"targetId\":").unwrap();
        let attach = format!("{{\"targetId\":\"{target}\",\"flatten\":true}}");
        let attached = browser.call("Target.attachToTarget", &attach);
        browser.tab = text_after(&attached, "\"sessionId\":").unwrap();
        for domain in ["Runtime.enable", "Log.enable", "Page.enable"] {
            browser.call(domain, "{}");
        }
        browser
    }

    /// Errors that the pages or the browser told.
    pub fn complaints(&self) -> Vec<String> {
        self.complaints.clone()
    }

    /// Sends a command; tells the answer.
    fn call(&mut self, method: &str, parameters: &str) -> String {
        self.sent += 1;
        let session = match self.tab.as_str() {
            "" => String::new(),
            tab => format!(",\"sessionId\":\"{tab}\""),
        };
        let id = self.sent;
        let command =
            format!("{{\"id\":{id},\"method\":\"{method}\",\"params\":{parameters}{session}}}\0");
        self.input.write_all(command.as_bytes()).unwrap();
        loop {
            let told = self.next();
            if told.starts_with(&format!("{{\"id\":{id},")) {
                assert!(
                    !told.contains("\"exceptionDetails\""),
                    "{parameters}: {told}"
                );
                return told;
            }
            if COMPLAINTS.iter().any(|event| told.contains(event)) {
                self.complaints.push(told);
            }
        }
    }

    fn next(&mut self) -> String {
        let mut told = Vec::new();
        let read = self.output.read_until(0, &mut told).unwrap();
        assert!(read > 0, "the browser ended");
        told.pop();
        String::from_utf8(told).unwrap()
    }

    /// Opens a file, and waits until its script has drawn.
    pub fn open(&mut self, file: &str) {
        let url = format!("{{\"url\":\"file://{file}\"}}");
        // Another address of the same page does not load it anew.
        self.call("Page.navigate", "{\"url\":\"about:blank\"}");
        self.call("Page.navigate", &url);
        let began = Instant::now();
        let drawn = "document.readyState === 'complete' && !!document.querySelector('.m.on')";
        while self.value(drawn) != "true" {
            assert!(
                began.elapsed() < Duration::from_secs(60),
                "{file} was not drawn"
            );
            sleep(Duration::from_millis(5));
        }
    }

    /// Runs a script in the page.
    pub fn run(&mut self, script: &str) {
        self.value(&format!("{{{script}}}"));
    }

    /// The value of an expression, as a string.
    pub fn value(&mut self, expression: &str) -> String {
        let expression = match expression.starts_with('{') {
            true => expression.to_string(),
            false => format!("String({expression})"),
        };
        let quoted = expression.replace('\\', "\\\\").replace('"', "\\\"");
        let asked = format!("{{\"expression\":\"{quoted}\"}}");
        let told = self.call("Runtime.evaluate", &asked);
        text_after(&told, "\"value\":").unwrap_or_default()
    }

    /// The text that an element shows.
    pub fn text(&mut self, selector: &str) -> String {
        self.value(&format!("document.querySelector(`{selector}`).innerText"))
    }

    pub fn click(&mut self, selector: &str) {
        self.run(&format!("document.querySelector(`{selector}`).click()"));
    }

    /// Presses and lets go a key; a capital with Shift.
    pub fn press(&mut self, key: &str) {
        let shift = 8 * u8::from(key.len() == 1 && key.chars().all(char::is_uppercase));
        for kind in ["rawKeyDown", "keyUp"] {
            let event = format!("{{\"type\":\"{kind}\",\"key\":\"{key}\",\"modifiers\":{shift}}}");
            self.call("Input.dispatchKeyEvent", &event);
        }
    }

    /// Enters text where the page's focus is.
    pub fn enter(&mut self, text: &str) {
        self.call("Input.insertText", &format!("{{\"text\":\"{text}\"}}"));
    }
}

impl Drop for Browser {
    fn drop(&mut self) {
        let _ = self
            .input
            .write_all(b"{\"id\":0,\"method\":\"Browser.close\"}\0");
        let began = Instant::now();
        while matches!(self.child.try_wait(), Ok(None)) {
            if began.elapsed() > Duration::from_secs(10) {
                let _ = self.child.kill();
            }
            sleep(Duration::from_millis(20));
        }
    }
}

/// The text that stands after a key in an answer.
fn text_after(told: &str, key: &str) -> Option<String> {
    let (_, rest) = told.split_once(key)?;
    let mut letters = rest.strip_prefix('"')?.chars();
    let mut text = String::new();
    loop {
        match letters.next()? {
            '"' => return Some(text),
            '\\' => text.extend(escaped(&mut letters)),
            letter => text.push(letter),
        }
    }
}

/// The letter after a backslash.
fn escaped(letters: &mut std::str::Chars) -> Option<char> {
    match letters.next()? {
        'n' => Some('\n'),
        't' => Some('\t'),
        'r' => Some('\r'),
        'u' => {
            let digits: String = letters.take(4).collect();
            char::from_u32(u32::from_str_radix(&digits, 16).ok()?)
        }
        letter => Some(letter),
    }
}
