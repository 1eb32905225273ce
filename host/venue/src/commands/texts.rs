//! `venue encode` and `venue decode`: from text to bytes and back.

use super::Command;
use crate::arguments::Arguments;
use crate::help::{SET_FORM, TEXT_FORM};
use crate::output::Out;
use crate::Outcome;
use sessions::message::Message;
use sessions::set::{decode_set, encode_set};
use sessions::stream::Form;
use sessions::text::{decode_line, encode_line};
use std::io::Write;

pub static ENCODE: Command = Command {
    name: "encode",
    form: "[--line | --set] [FILE]",
    about: "text to message bytes",
    flags: &["--line", "--set"],
    valued: &[],
    words: 1,
    help: || format!("{ENCODE_HELP}\n{TEXT_FORM}\n{SET_FORM}"),
    perform: encode,
};

pub static DECODE: Command = Command {
    name: "decode",
    form: "[--line | --set] [FILE]",
    about: "message bytes to text",
    flags: &["--line", "--set", "--bytes"],
    valued: &[],
    words: 1,
    help: || format!("{DECODE_HELP}\n{TEXT_FORM}\n{SET_FORM}"),
    perform: decode,
};

const ENCODE_HELP: &str = "\
Writes message bytes; with --line those of a line of a feed, with --set those of a set.
";

const DECODE_HELP: &str = "\
Writes one message a line; bytes that are no message of kinds 1 to 11 at its length become
raw. With --line the bytes are a line of a feed, with --set a set, up to its end. Bytes
that look like text are an error; --bytes takes them as bytes.
";

fn encode(arguments: &Arguments, out: &mut Out) -> Outcome {
    let input = arguments.input(0);
    match arguments.either("--line", "--set")? {
        (true, _) => return Ok(out.write_all(&input.given(Form::Text, encode_line)?)?),
        (_, true) => return Ok(out.write_all(&input.given(Form::Text, encode_set)?)?),
        _ => {}
    }
    let mut bytes = input.bytes(Form::Text)?;
    let mut held = Vec::new();
    while bytes.more(&mut held).map_err(|what| input.fault(what))? {
        out.write_all(&held)?;
        held.clear();
    }
    Ok(())
}

fn decode(arguments: &Arguments, out: &mut Out) -> Outcome {
    let input = arguments.input(0);
    let form = arguments.form()?;
    match arguments.either("--line", "--set")? {
        (true, _) => {
            return Ok(write!(
                out,
                "{}",
                decode_line(&input.given(form, encode_line)?)
            )?)
        }
        (_, true) => {
            return Ok(write!(
                out,
                "{}",
                decode_set(&input.given(form, encode_set)?)
            )?)
        }
        _ => {}
    }
    let mut messages = input.messages(form)?;
    while let Some(message) = messages.next().map_err(|what| input.fault(what))? {
        writeln!(out, "{}", Message::decode(message))?;
    }
    Ok(())
}
