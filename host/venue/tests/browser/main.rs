//! Pages in a browser without a window. Where none is installed that is said, and nothing
//! else is done.

mod driver;

use driver::{found, Browser};
use std::io::Write;
use std::path::PathBuf;
use std::process::{Command, Stdio};
use std::time::{Duration, Instant};

const PRINTED: &str = include_str!("../sessions/printed.txt");

/// A folder that is gone when the test ends.
struct Folder(PathBuf);

impl Folder {
    fn new() -> Self {
        let name = format!("venue-pages-{}", std::process::id());
        let path = std::env::temp_dir().join(name);
        std::fs::create_dir_all(&path).unwrap();
        Folder(path)
    }

    /// Writes a file; tells its path.
    fn write(&self, name: &str, contents: &[u8]) -> String {
        let path = self.0.join(name);
        std::fs::write(&path, contents).unwrap();
        path.to_str().unwrap().to_string()
    }

    /// Writes the page of a session given as text; tells its path.
    fn page(&self, name: &str, session: &[u8], more: &[&str]) -> String {
        let arguments = [&["page"][..], more, &["-"]].concat();
        let page = venue(&arguments, session);
        self.write(name, &page)
    }
}

impl Drop for Folder {
    fn drop(&mut self) {
        let _ = std::fs::remove_dir_all(&self.0);
    }
}

fn venue(arguments: &[&str], input: &[u8]) -> Vec<u8> {
    let mut child = Command::new(env!("CARGO_BIN_EXE_venue"))
        .args(arguments)
        .stdin(Stdio::piped())
        .stdout(Stdio::piped())
        .spawn()
        .unwrap();
    child.stdin.take().unwrap().write_all(input).unwrap();
    let output = child.wait_with_output().unwrap();
    assert!(output.status.success(), "{arguments:?}");
    output.stdout
}

#[test]
fn pages_are_walked_searched_and_followed() {
    let Some(program) = found() else {
        // Not by the macro, whose output is shown of failures only.
        let what = "no browser is installed: the pages were not looked at in one\n";
        std::io::stderr().write_all(what.as_bytes()).unwrap();
        return;
    };
    let folder = Folder::new();
    let profile = folder.0.join("profile");
    let mut browser = Browser::start(&program, &profile);
    walks(&mut browser, &folder);
    finds(&mut browser, &folder);
    follows(&mut browser, &folder);
    compares(&mut browser, &folder);
    shows_books(&mut browser, &folder);
    shows_parts_and_nothing(&mut browser, &folder);
    opens_large_pages(&mut browser, &folder);
    assert_eq!(browser.complaints(), Vec::<String>::new());
}

/// The message shown, as the page tells it.
fn position(browser: &mut Browser) -> String {
    browser.text("#pos")
}

fn walks(browser: &mut Browser, folder: &Folder) {
    let page = folder.page("walks.html", PRINTED.as_bytes(), &["--text"]);
    browser.open(&page);
    assert_eq!(position(browser), "1 of 6");
    for (button, expected) in [
        ("#last", "6 of 6"),
        ("#next", "6 of 6"),
        ("#prev", "5 of 6"),
        ("#first", "0 of 6"),
        ("#prev", "0 of 6"),
        ("#next", "1 of 6"),
    ] {
        browser.click(button);
        assert_eq!(position(browser), expected, "after {button}");
    }
    for (key, expected) in [
        ("ArrowRight", "2 of 6"),
        ("ArrowLeft", "1 of 6"),
        ("End", "6 of 6"),
        ("Home", "0 of 6"),
        ("l", "5 of 6"),
        ("p", "6 of 6"),
        ("L", "5 of 6"),
        ("r", "5 of 6"),
    ] {
        browser.press(key);
        assert_eq!(position(browser), expected, "after key {key}");
    }
    browser.run("$('#at').value = 3; $('#at').oninput({target: $('#at')})");
    assert_eq!(position(browser), "3 of 6");
    browser.click(".m[data-at='6']");
    assert_eq!(browser.value("location.hash"), "#6");
    let told = browser.text(".msg");
    for expected in [
        "order 4 sell 5 series 0 at 115",
        "trade: 4 sell series 0, 5 at 115, maker 3",
        "pair: 3, 5 at net 205",
        "115 + 90 = 205, limit 205",
        "removed the legging order of 3, buy series 0: cause 3",
    ] {
        assert!(told.contains(expected), "{expected}: {told}");
    }
}

/// The rows of the list that are shown.
fn listed(browser: &mut Browser) -> String {
    browser.value("[...all('.m')].filter(e => e.offsetHeight).map(e => e.dataset.at).join(' ')")
}

fn finds(browser: &mut Browser, folder: &Folder) {
    let page = folder.page("finds.html", PRINTED.as_bytes(), &["--text"]);
    browser.open(&page);
    for (query, expected) in [
        ("66", "6"),
        ("67", "5"),
        ("order 3", "5 6"),
        ("cause 3", "6"),
        ("status", "1 2"),
        ("no such words", ""),
    ] {
        browser.press("/");
        browser.enter(query);
        assert_eq!(listed(browser), expected, "{query}");
        browser.press("Escape");
    }
    assert_eq!(listed(browser), "0 1 2 3 4 5 6");
    browser.press("/");
    browser.enter("status");
    browser.press("Enter");
    assert_eq!(position(browser), "2 of 6");
    browser.press("Escape");
}

fn follows(browser: &mut Browser, folder: &Folder) {
    let page = folder.page("follows.html", PRINTED.as_bytes(), &["--text"]);
    browser.open(&format!("{page}#6"));
    browser.click("main [data-id='3']");
    assert_eq!(browser.value("location.hash"), "#6:3");
    let life = browser.text("#life");
    assert!(life.contains("complex 3 buy 0 buy 1"), "{life}");
    assert!(life.contains("pair: 3, 5 at net 205"), "{life}");
    let marked = browser.value("all('main .id.focus').length > 3");
    assert_eq!(marked, "true");
    browser.press("Escape");
    assert_eq!(browser.value("location.hash"), "#6");
    browser.open(&format!("{page}#5:2"));
    assert_eq!(position(browser), "5 of 6");
    let life = browser.text("#life");
    assert!(life.contains("order 2 sell 12 series 1 at 90"), "{life}");
}

fn compares(browser: &mut Browser, folder: &Folder) {
    let sheet = String::from_utf8(venue(&["sheet", "--text"], PRINTED.as_bytes())).unwrap();
    let same = folder.write("same.sheet", sheet.as_bytes());
    let page = folder.page(
        "same.html",
        PRINTED.as_bytes(),
        &["--text", "--sheet", &same],
    );
    browser.open(&page);
    let banner = browser.text(".banner");
    assert!(banner.contains("same.sheet agrees"), "{banner}");
    let false_sheet = sheet.replace("66 3 205 5", "66 3 205 6");
    let given = folder.write("false.sheet", false_sheet.as_bytes());
    let page = folder.page(
        "false.html",
        PRINTED.as_bytes(),
        &["--text", "--sheet", &given],
    );
    browser.open(&page);
    let banner = browser.text(".banner");
    assert!(
        banner.contains("differs from the rules in 1 of 6 messages: 6"),
        "{banner}"
    );
    browser.press("e");
    assert_eq!(position(browser), "6 of 6");
    let row = browser.text(".both tr.no");
    assert!(
        row.contains("66 3 205 6") && row.contains("66 3 205 5"),
        "{row}"
    );
    assert_eq!(browser.value("all('.both tr.no').length"), "1");
    let sums = browser.text("#sums");
    assert!(sums.contains("entered 8 but traded 6"), "{sums}");
    assert_eq!(browser.text(".m.on .tag.f"), "sheet differs");
}

fn shows_books(browser: &mut Browser, folder: &Folder) {
    let page = folder.page("books.html", PRINTED.as_bytes(), &["--text"]);
    browser.open(&format!("{page}#6"));
    let gone = browser.text(".row.leg.gone");
    assert!(gone.contains("115") && gone.contains("cause 3"), "{gone}");
    let changed = browser.text(".row.chg");
    assert!(changed.contains("was 12"), "{changed}");
    let book = browser.text("main > .card table");
    for figure in ["205", "220", "231"] {
        assert!(book.contains(figure), "{figure}: {book}");
    }
    assert_eq!(browser.value("all('.lg .ck').length >= 22"), "true");
    browser.press("b");
    assert_eq!(browser.value("all('.row.leg').length"), "2");
    assert_eq!(browser.value("all('.row.gone').length"), "0");
    browser.press("b");
    browser
        .run("$('#lines [data-r^=\"66\"]').dispatchEvent(new Event('mouseover', {bubbles: true}))");
    let field = browser.text("#field");
    assert!(field.contains("net") && field.contains("205"), "{field}");
}

fn shows_parts_and_nothing(browser: &mut Browser, folder: &Folder) {
    let page = folder.page(
        "part.html",
        PRINTED.as_bytes(),
        &["--text", "--from", "5", "--to", "5"],
    );
    browser.open(&page);
    assert_eq!(position(browser), "5 of 6");
    browser.press("Home");
    assert_eq!(position(browser), "4 of 6");
    assert_eq!(browser.value("all('.row.sell, .sell .row').length"), "2");
    let page = folder.page("empty.html", b"", &["--text"]);
    browser.open(&page);
    assert_eq!(position(browser), "0 of 0");
    let odd = "generate --profile odd-bytes --seed 3 --messages 60 --text";
    let odd = venue(&odd.split(' ').collect::<Vec<_>>(), b"");
    let page = folder.page("odd.html", &odd, &["--text"]);
    browser.open(&page);
    for _ in 0..60 {
        browser.press("ArrowRight");
    }
    assert_eq!(position(browser), "60 of 60");
}

/// A page of 1,000 busy messages opens in a second, here with time to spare for a machine
/// that does other things too.
fn opens_large_pages(browser: &mut Browser, folder: &Folder) {
    let busy = "generate --profile sweeps --seed 1 --messages 1000 --text";
    let busy = venue(&busy.split(' ').collect::<Vec<_>>(), b"");
    let page = folder.page("busy.html", &busy, &["--text"]);
    let size = std::fs::metadata(&page).unwrap().len();
    assert!(size < 2_000_000, "{size} bytes");
    let began = Instant::now();
    browser.open(&page);
    let opened = began.elapsed();
    assert!(opened < Duration::from_secs(5), "{opened:?}");
    let began = Instant::now();
    browser.press("End");
    assert_eq!(position(browser), "1000 of 1000");
    let walked = began.elapsed();
    assert!(walked < Duration::from_secs(5), "{walked:?}");
    let told = format!("a page of {size} bytes opened in {opened:?}, its end in {walked:?}\n");
    std::io::stderr().write_all(told.as_bytes()).unwrap();
}
