//! A run whose report memory never fills, and the sheet of it.

use crate::asked::ENOUGH;
use crate::record::{read_report, read_report_into, Record};
use reference::{feed, one_message, run, Returned, Venue};

/// The most bytes that the printing program reads.
pub const MOST_INPUT: usize = 65_536;

const ENDED_EARLY: u8 = 10;

/// Runs a list with report memory enough for all its records.
pub fn run_whole(list: &[u8]) -> (Returned, Vec<u8>) {
    with_room(list.len(), |report| run(list, report))
}

/// Runs what two lines hand out with report memory enough for all its records.
pub fn feed_whole(main: &[u8], spare: &[u8]) -> (Returned, Vec<u8>) {
    with_room(main.len() + spare.len(), |report| feed(main, spare, report))
}

/// A run that takes its messages one by one.
pub struct Running {
    venue: Venue,
    before: u32,
    report: Vec<u8>,
    records: Vec<Record>,
}

impl Running {
    pub fn fresh() -> Self {
        Running::upon(Venue::fresh(), 0)
    }

    /// A run that goes on upon a venue, `before` messages of which were done.
    pub fn upon(venue: Venue, before: u32) -> Self {
        Running {
            venue,
            before,
            report: vec![0; ENOUGH as usize],
            records: Vec::new(),
        }
    }

    /// The records of the next message; nothing where the message numbers are used up.
    pub fn take(&mut self, message: &[u8]) -> Result<Option<&[Record]>, String> {
        let returned = one_message(&self.venue, self.before, message, &mut self.report);
        if returned.done == 0 {
            return Ok(None);
        }
        read_report_into(&self.report[..returned.written], &mut self.records)?;
        self.venue = returned.venue;
        self.before += returned.done;
        Ok(Some(&self.records))
    }
}

/// A call upon message bytes, made again with more report memory until it is enough.
fn with_room(bytes: usize, mut call: impl FnMut(&mut [u8]) -> Returned) -> (Returned, Vec<u8>) {
    let mut report = vec![0; 64 * 1024 + 16 * bytes];
    loop {
        let returned = call(&mut report);
        if returned.number != ENDED_EARLY {
            report.truncate(returned.written);
            return (returned, report);
        }
        let doubled = 2 * report.len();
        report.resize(doubled, 0);
    }
}

/// The records that the printing program prints for this input.
pub fn sheet_of(input: &[u8]) -> Result<Vec<Record>, String> {
    let list = &input[..input.len().min(MOST_INPUT)];
    let (_, report) = run_whole(list);
    read_report(&report)
}
