//! `venue page`: a session as one HTML file that shows it message by message.

use super::Command;
use crate::arguments::{usage, Arguments};
use crate::input::Input;
use crate::output::{tell, Out};
use crate::{Failure, Outcome};
use sessions::counted::counted;
use sessions::message::split;
use sessions::page::{notes, page, Json, Session};
use sessions::record::{parse_sheet, Record};
use sessions::stream::Form;
use sessions::text::encode_session;
use std::collections::BTreeMap;
use std::ffi::OsStr;
use std::io::Write;
use std::path::Path;

pub static COMMAND: Command = Command {
    name: "page",
    form: "[--text] [--sheet SHEET] [--from N] [--to M] [SESSION]",
    about: "a page for a browser, message by message",
    flags: &["--text", "--bytes"],
    valued: &["--sheet", "--from", "--to"],
    words: 1,
    help: || HELP.to_string(),
    perform: write_page,
};

const HELP: &str = "\
Writes one HTML file that shows the session message by message in a browser:

  venue page --text session.txt > session.html

It needs nothing from outside, and holds every figure that it shows: what explain tells of
each message, the books after it, the conditions of each leg of the complex book, the sheet
and the sums of every complex order. The page's own ? tells its keys. An address that ends
with #6 opens message 6, one with #6:3 also follows order 3.

SESSION is message bytes, or text with --text, whose comments are shown too; bytes that look
like text are an error, and --bytes takes them as bytes. With --sheet the lines of SHEET
stand beside what the rules say at each message where they differ, and the sums are those of
SHEET. --from and --to show a part of a long session: a page of 1,000 busy messages has
about a megabyte.
";

/// The page without its name and its data.
const TEMPLATE: &str = include_str!("page.html");

/// How large a page may be before its size is told.
const LARGE: usize = 20_000_000;

fn write_page(arguments: &Arguments, out: &mut Out) -> Outcome {
    let input = arguments.input(0);
    let sheet = read_sheet(arguments, input)?;
    let (list, notes) = read_session(arguments.form()?, input)?;
    let name = name_of(arguments.word(0).unwrap_or(OsStr::new("-")));
    let session = Session {
        name: &name,
        list: &list,
        notes,
        sheet: sheet
            .as_ref()
            .map(|(name, records)| (name.as_str(), records.as_slice())),
        shown: shown(arguments, input, split(&list).len() as u64)?,
    };
    let data = page(&session).map_err(|what| input.fault(what))?;
    let html = html(&name, &data);
    if html.len() > LARGE {
        let megabytes = html.len() / 1_000_000;
        let what = format!("the page has {megabytes} MB; --from and --to show a part");
        tell(&arguments.name(), &what);
    }
    Ok(out.write_all(html.as_bytes())?)
}

type Notes = BTreeMap<usize, String>;

/// The bytes of a session, and the comments of its text.
fn read_session(form: Form, input: Input) -> Result<(Vec<u8>, Notes), Failure> {
    if form != Form::Text {
        return Ok((input.session(form)?, Notes::new()));
    }
    let text = input.text()?;
    let list = encode_session(&text).map_err(|error| input.fault(error))?;
    let notes = notes(&text).map_err(|error| input.fault(error))?;
    Ok((list, notes))
}

/// The first and the last message to show, of so many.
fn shown(arguments: &Arguments, input: Input, messages: u64) -> Result<(u32, u32), Failure> {
    let (from, to) = arguments.messages()?;
    if from > messages.max(1) {
        let messages = counted(messages, "message");
        return Err(input.fault(format!("the session has {messages}, not {from}")));
    }
    Ok((from as u32, to.min(messages) as u32))
}

/// The sheet to compare with: its name and its records.
fn read_sheet(
    arguments: &Arguments,
    session: Input,
) -> Result<Option<(String, Vec<Record>)>, Failure> {
    let Some(file) = arguments.option("--sheet") else {
        return Ok(None);
    };
    let sheet = Input::new(file);
    if sheet.is_standard() && session.is_standard() {
        let what = "only one of SESSION and SHEET can be -";
        return Err(usage(what.to_string()));
    }
    let records = parse_sheet(&sheet.text()?).map_err(|what| sheet.fault(what))?;
    Ok(Some((name_of(file), records)))
}

/// A file's own name, without the folders that it is in.
fn name_of(file: &OsStr) -> String {
    match Path::new(file).file_name() {
        Some(name) if file != "-" => name.to_string_lossy().into_owned(),
        _ => "standard input".to_string(),
    }
}

/// The template with a name and data in it.
fn html(name: &str, data: &Json) -> String {
    let escaped = name.replace('&', "&amp;").replace('<', "&lt;");
    let (before, after) = TEMPLATE.split_once("{{data}}").unwrap_or((TEMPLATE, ""));
    format!("{}{data}{after}", before.replace("{{name}}", &escaped))
}
