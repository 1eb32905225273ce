//! How the records of a sheet are printed.

use crate::arguments::Arguments;
use crate::output::Out;
use crate::{Failure, Outcome};
use sessions::json::{csv_head, csv_line, sheet_line};
use sessions::record::Record;
use std::io::Write;

/// How records are printed, one after another.
pub enum Printed {
    Lines,
    /// With the number of the message whose records they are.
    Json(u32),
    Csv(u32),
}

impl Printed {
    /// As `--json` or `--csv` ask for; the columns of the latter are named first.
    pub fn begin(arguments: &Arguments, out: &mut Out) -> Result<Self, Failure> {
        Ok(match arguments.either("--json", "--csv")? {
            (true, _) => Printed::Json(0),
            (_, true) => {
                write!(out, "{}", csv_head())?;
                Printed::Csv(0)
            }
            _ => Printed::Lines,
        })
    }

    pub fn print(&mut self, record: &Record, out: &mut Out) -> Outcome {
        if let (Printed::Json(message) | Printed::Csv(message), Record::Answer(answer)) =
            (&mut *self, record)
        {
            *message = answer.number;
        }
        match self {
            Printed::Lines => writeln!(out, "{record}")?,
            Printed::Json(message) => write!(out, "{}", sheet_line(*message, record))?,
            Printed::Csv(message) => write!(out, "{}", csv_line(*message, record))?,
        }
        Ok(())
    }
}
