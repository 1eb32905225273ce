//! `venue explain`: what happened, message by message.

use super::Command;
use crate::arguments::{usage, Arguments};
use crate::output::Out;
use crate::{Failure, Outcome};
use sessions::counted::counted;
use sessions::explain::{Explained, Explainer};
use sessions::follow::Followed;
use sessions::progress::Progress;
use std::io::Write;

pub static COMMAND: Command = Command {
    name: "explain",
    form: "[--text] [--from N] [--to M] [--order ID] [--json] [FILE]",
    about: "what happened, message by message",
    flags: &["--text", "--bytes", "--json"],
    valued: &["--from", "--to", "--order"],
    words: 1,
    help: || HELP.to_string(),
    perform: explain_session,
};

const HELP: &str = "\
Tells for each message what happened and, for each leg for which no legging order
was made, the first condition of generation that failed. A removal by a settling is told
with its figures, as they were in the state that was tested:

  cause 1  the displayed price and the best regular price of its side
  cause 5  N, O and the highest net in band, or the side whose market best is missing
  cause 2  which of the three conditions failed: no clear price, and the legging order that
           hides it; the net and N; the size and the quantity
  cause 6  the series that are not open

Refusal 4 is told with the field, its value and its range. Where a band, an increment
or refusal 4 depends on a setting, its edition is told with the message that entered
it; edition 0 are the figures of document 01. Of an order with reserve it is told
whether a trade took what it shows or its reserve, and what it shows after the trades.
Quantities of an order of unequal ratios are units, told with their contracts, and so is
which side could not fill a further unit. Of a limited sweep the orders that it looks at
are named.

With --from and --to only messages N to M are told; those before are done and checked. With
--order only what touched that order is told: its own messages, and each line that names
it. After each message where that changes it is told, of each of its legs, why it has no
legging order: the first condition of generation that fails then, or that a sweep would
make one.

With --json each message is an object on a line: venue help json. The session is read as
it is told, however long it is. Every check is made meanwhile; a violation ends it with
an error. Bytes that look like text are an error; --bytes takes them as bytes.
";

/// Which messages are told, and of which order.
struct Asked {
    from: u64,
    to: u64,
    order: Option<u32>,
    is_json: bool,
}

impl Asked {
    fn of(arguments: &Arguments) -> Result<Self, Failure> {
        let (from, to) = arguments.messages()?;
        let order = match arguments.has("--order") {
            true => Some(order_id(arguments.number("--order", None)?)?),
            false => None,
        };
        Ok(Asked {
            from,
            to,
            order,
            is_json: arguments.has("--json"),
        })
    }

    fn write(&self, explained: &Explained, out: &mut Out) -> Outcome {
        match self.is_json {
            true => Ok(write!(out, "{}", explained.object().line())?),
            false => Ok(write!(out, "{explained}")?),
        }
    }
}

fn order_id(id: u64) -> Result<u32, Failure> {
    let what = "expected an id from 1 to 4294967295 after --order";
    let id = u32::try_from(id).ok().filter(|id| *id > 0);
    id.ok_or_else(|| usage(what.to_string()))
}

fn explain_session(arguments: &Arguments, out: &mut Out) -> Outcome {
    let asked = Asked::of(arguments)?;
    let input = arguments.input(0);
    let mut messages = input.messages(arguments.form()?)?;
    let name = arguments.name();
    let mut progress = Progress::on_standard_error();
    let mut explainer = Explainer::default();
    let mut followed = asked.order.map(Followed::new);
    while messages.taken() < asked.to {
        let Some(message) = messages.next().map_err(|what| input.fault(what))? else {
            break;
        };
        if u64::from(explainer.done()) + 1 < asked.from {
            explainer.pass(message).map_err(|what| input.fault(what))?;
            continue;
        }
        let explained = explainer.explain(message);
        let explained = explained.map_err(|what| input.fault(what))?;
        let told = match &mut followed {
            Some(followed) => followed.touched(explained, explainer.venue()),
            None => Some(explained),
        };
        if let Some(explained) = told {
            asked.write(&explained, out)?;
        }
        progress.show(|| {
            let done = u64::from(explainer.done());
            format!("{name}: {}", counted(done, "message"))
        });
    }
    let done = messages.taken();
    if done < asked.from && asked.from > 1 {
        let messages = counted(done, "message");
        return Err(input.fault(format!("the session has {messages}, not {}", asked.from)));
    }
    match followed {
        Some(followed) if !followed.was_touched => {
            let id = asked.order.unwrap_or_default();
            Err(input.fault(format!("no message that is told touches order {id}")))
        }
        _ => Ok(()),
    }
}
