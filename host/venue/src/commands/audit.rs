//! `venue audit`: a session and its sheet, held to each other and to the rules.

use super::Command;
use crate::arguments::{usage, Arguments};
use crate::input::Reader;
use crate::output::Out;
use crate::{Failure, Outcome};
use sessions::audit::{Auditor, Disagreement, Source, Told};
use sessions::audit_lines::{summary, table_head};
use sessions::counted::counted;
use sessions::progress::Progress;
use sessions::sheet_lines::Sheet;
use std::io::{self, BufReader, Write};

pub static COMMAND: Command = Command {
    name: "audit",
    form: "[--text] [--most N] [--json] SESSION [SHEET]",
    about: "every line of a sheet held to the rules, sums of\nevery complex order, better prices passed over",
    flags: &["--text", "--bytes", "--json"],
    valued: &["--most"],
    words: 2,
    help: || HELP.to_string(),
    perform: audit_sheet,
};

const HELP: &str = "\
SESSION is message bytes, or text with --text; bytes that look like text are an error,
and --bytes takes them as bytes. SHEET is the lines of a sheet of it; left out, the
reference's own sheet is taken. Both are read as the audit goes, however long they are.

The last line is the verdict, and the exit status is 0 only where it agrees:

  agrees: 6 messages, 13 records
  does not agree: 2 of 6 messages differ; the sheet ends after message 4 of 6

Each message is held to the rules by itself. Answers (64) are brought to their messages by
their numbers, so a line that is false, missing, doubled or moved hides none of those after
it. Of each message whose records differ the first line that differs is told, with what the
rules say there and why. So are answers that are missing or one too many, lines that are no
records, and where the sheet ends or is cut. Up to 20 messages are told, or with --most
up to N, and then they are counted; so are orders and answers.

Each 66 is held to arithmetic of its own, whatever the comparison says: the 65s of its
order before it have its quantity, by the ratios, in both series and on its sides, they come
to its net, and its net is not above N. A complex order's 65s without a 66 are told.

Before that every complex order is printed, once it is gone or at the end: entered (from its
message), paired, crossed, cancelled and contracts in each series (from the sheet), open
(from the venue that the reference leaves). Each order whose sums do not agree is told.
Sums of an order of unequal ratios are in units, and its contracts in each series are
listed beside ratio x paired units. Orders that were to show a part of them are listed
with what is left and what that shows. The settings that the session entered are listed.
Of each series the legging orders are counted, and the most of them in 256 consecutive
messages; the lines that bring more than 20 are told.

The sheet is also replayed: the books are kept record by record, and each trade and cross is
looked at upon the books just before it. It is told, with the best of what it passed over,
where

  - a trade takes a side of a series while a strictly better price is shown there, or a
    legging order stands there at one; if its taker is a regular order, while there is
    reserve at a better price;
  - a legging order is taken while a regular order, shown or reserve, is at its price;
  - in a cross a party's net is above what the best regular prices of both its legs
    would give it, where both have one.

Told too are records of what the books do not have, and messages after which they are not
those of the reference, from whose books the replay then goes on.

With --json each of these is an object on a line: venue help json. Where standard error is
a terminal, it shows how many messages were done.
";

fn audit_sheet(arguments: &Arguments, out: &mut Out) -> Outcome {
    let form = arguments.form()?;
    let most = arguments.number("--most", Some(20))?;
    let session = arguments.input(0);
    let sheet = match (arguments.word(0), arguments.word(1)) {
        (None, _) => return Err(usage("expected a session to audit".to_string())),
        (_, None) => None,
        _ => Some(arguments.two_inputs("SESSION and SHEET")?[1]),
    };
    let mut messages = session.messages(form)?;
    let source = match sheet {
        Some(sheet) => Source::Given(Sheet::new(BufReader::new(sheet.open()?))),
        None => Source::Own,
    };
    let mut teller = Teller::new(Auditor::new(source, most), arguments.has("--json"));
    teller.begin(out)?;
    let name = arguments.name();
    let mut progress = Progress::on_standard_error();
    let mut next = || {
        let message = messages.next().map_err(|what| session.fault(what))?;
        Ok::<_, Failure>(message.map(<[u8]>::to_vec))
    };
    let read = |error: io::Error| sheet.unwrap_or(session).fault(error);
    let mut message = next()?;
    while let Some(bytes) = message {
        message = next()?;
        let audited = teller.auditor.message(&bytes, message.is_none());
        audited.map_err(read)?;
        teller.tell(out)?;
        progress.show(|| {
            let done = u64::from(teller.auditor.counts().messages);
            format!("{name}: {}", counted(done, "message"))
        });
    }
    teller.auditor.finish().map_err(read)?;
    progress.clear();
    teller.end(out)
}

/// Writes what an audit tells: as lines, the disagreements last, or as objects.
struct Teller {
    auditor: Auditor<BufReader<Reader>>,
    is_json: bool,
    disagreements: Vec<Disagreement>,
}

impl Teller {
    fn new(auditor: Auditor<BufReader<Reader>>, is_json: bool) -> Self {
        Teller {
            auditor,
            is_json,
            disagreements: Vec::new(),
        }
    }

    fn begin(&self, out: &mut Out) -> Outcome {
        match self.is_json {
            true => Ok(()),
            false => Ok(write!(out, "{}", table_head())?),
        }
    }

    /// What was told since.
    fn tell(&mut self, out: &mut Out) -> Outcome {
        for told in self.auditor.told() {
            match told {
                told if self.is_json => write!(out, "{}", told.object().line())?,
                Told::Order(row) => writeln!(out, "{row}")?,
                Told::Reserve(order) => writeln!(out, "{order}")?,
                Told::Disagreement(disagreement) => self.disagreements.push(disagreement),
            }
        }
        Ok(())
    }

    /// What was counted, the disagreements, and the verdict.
    fn end(mut self, out: &mut Out) -> Outcome {
        self.tell(out)?;
        let counts = self.auditor.counts();
        if self.is_json {
            for object in counts.objects(self.auditor.editions()) {
                write!(out, "{}", object.line())?;
            }
            write!(out, "{}", counts.object().line())?;
        } else {
            for line in summary(counts, self.auditor.editions()) {
                writeln!(out, "{line}")?;
            }
            for disagreement in &self.disagreements {
                writeln!(out, "disagreement: {disagreement}")?;
            }
            writeln!(out, "{counts}")?;
        }
        match counts.agrees() {
            true => Ok(()),
            false => Err(Failure::Disagreement(counts.to_string())),
        }
    }
}
