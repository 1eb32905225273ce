//! `venue page` as a user meets it: the file that it writes, its errors and exit status.

#[path = "common/kept.rs"]
mod kept;
#[path = "common/run.rs"]
mod run;

use kept::Kept;
use run::venue;

const PRINTED: &str = include_str!("sessions/printed.txt");

/// What a command writes that succeeds.
fn good(arguments: &[&str], input: &str) -> String {
    let output = venue(arguments, input.as_bytes());
    let errors = String::from_utf8_lossy(&output.stderr);
    assert_eq!(output.status.code(), Some(0), "{arguments:?}: {errors}");
    String::from_utf8(output.stdout).unwrap()
}

/// What a command tells that fails with this status and writes nothing.
fn bad(arguments: &[&str], input: &str, status: i32) -> String {
    let output = venue(arguments, input.as_bytes());
    assert_eq!(output.status.code(), Some(status), "{arguments:?}");
    assert!(output.stdout.is_empty(), "{arguments:?} wrote output");
    String::from_utf8(output.stderr).unwrap()
}

#[test]
fn page_is_one_file_that_asks_for_nothing_from_outside() {
    let page = good(&["page", "--text"], PRINTED);
    assert!(page.starts_with("<!doctype html>"));
    assert!(page.trim_end().ends_with("</html>"));
    assert!(page.contains("\"pair\",\"3, 5 at net 205\""), "{page}");
    let outside = [
        "http:", "https:", "src=", "<link", "@import", "url(", "import(", "fetch(",
    ];
    for from_outside in outside {
        assert!(!page.contains(from_outside), "{from_outside}");
    }
    assert!(
        !page.contains("{{"),
        "a part of the template was not filled"
    );
}

#[test]
fn page_of_bytes_is_that_of_their_text() {
    let bytes = venue(&["encode"], PRINTED.as_bytes()).stdout;
    let kept = Kept::new("bytes", &bytes);
    let of_bytes = good(&["page", kept.path()], "");
    let without_comments: String = PRINTED
        .lines()
        .filter(|line| !line.starts_with('#'))
        .map(|line| format!("{line}\n"))
        .collect();
    let of_text = good(&["page", "--text"], &without_comments);
    let data = |page: &str| page.split("\"name\":").nth(1).unwrap().len();
    let name = kept.0.file_name().unwrap().len();
    assert_eq!(
        data(&of_bytes) - name,
        data(&of_text) - "standard input".len()
    );
}

#[test]
fn names_and_comments_end_no_script() {
    let named = Kept::new("a<b>&c.txt", "# </script><b>\nsweep\n");
    let page = good(&["page", "--text", named.path()], "");
    assert!(page.contains("a&lt;b>&amp;c.txt</h1>"));
    assert!(page.contains("\"note\":\"\\u003c/script>\\u003cb>\""));
    assert_eq!(page.matches("</script>").count(), 2);
}

#[test]
fn part_of_a_session_is_shown() {
    let page = good(&["page", "--text", "--from", "5", "--to", "99"], PRINTED);
    assert!(page.contains("\"first\":5,"));
    assert!(page.contains("complex 3 buy 0") && !page.contains("\"status 0 open\""));
}

#[test]
fn wrong_parts_are_told() {
    let errors = bad(&["page", "--text", "--from", "9"], PRINTED, 1);
    assert!(
        errors.contains("the session has 6 messages, not 9"),
        "{errors}"
    );
    let errors = bad(&["page", "--text", "--from", "0"], PRINTED, 2);
    assert!(errors.contains("messages are numbered from 1"), "{errors}");
    let errors = bad(&["page", "--text", "--from", "3", "--to", "2"], PRINTED, 2);
    assert!(errors.contains("--from 3 is after --to 2"), "{errors}");
}

#[test]
fn wrong_input_is_told_with_its_line() {
    let errors = bad(&["page", "--text"], "sweep\nswep\n", 1);
    assert!(
        errors.contains("standard input: line 2: expected a message"),
        "{errors}"
    );
    let sheet = Kept::new("wrong.sheet", "64 1 0 0 0\n66 3\n");
    let errors = bad(&["page", "--text", "--sheet", sheet.path()], PRINTED, 1);
    assert!(
        errors.contains("wrong.sheet: line 2: expected 3 fields"),
        "{errors}"
    );
    let errors = bad(&["page", "--text", "--sheet", "-"], PRINTED, 2);
    assert!(
        errors.contains("only one of SESSION and SHEET can be -"),
        "{errors}"
    );
}

#[test]
fn help_tells_of_pages() {
    assert!(good(&["help"], "").contains("venue page"));
    assert!(good(&["help", "page"], "").contains("--sheet SHEET"));
}
