//! A session of the user's own: each message by a call, all of it by a run, and the sheets.

use super::check::Check;
use super::{Driver, Failed};
use crate::asked::ENOUGH;
use crate::held::VENUE_BYTES;
use crate::message::split;
use crate::record::read_report;
use crate::sheet::Running;

/// Report memory beyond what just fits.
const MORE: [usize; 3] = [1, 2, 500];

/// What was compared.
#[derive(Debug, PartialEq, Eq)]
pub struct Compared {
    pub messages: usize,
    pub records: usize,
}

/// Drives both engines over a list of messages, and holds the sheet to the reference's. An
/// error tells the first difference.
pub fn drive_own(driver: &mut Driver, list: &[u8]) -> Result<Compared, String> {
    let told = |(check, what): Failed| format!("{}: {what}", check.words());
    driver.observer.begin();
    let report = calls(driver, list).map_err(told)?;
    run(driver, list, &report).map_err(told)?;
    sheet(list, &report)
}

/// The messages one by one, the first upon a fresh venue and each other upon the venue that
/// the last one left. Tells the engine's records.
fn calls(driver: &mut Driver, list: &[u8]) -> Result<Vec<u8>, Failed> {
    let mut venue = driver.fresh(VENUE_BYTES)?;
    let mut report = Vec::new();
    for (message, before) in split(list).into_iter().zip(0..) {
        let (both, left) = driver.call(Check::Call, &venue, before, message, ENOUGH as usize)?;
        report.extend_from_slice(&driver.found.report.memory()[..both.written]);
        venue = left;
    }
    Ok(report)
}

/// The run of all messages, with report memory that just fits and with more; its records are
/// those of the calls.
fn run(driver: &mut Driver, list: &[u8], report: &[u8]) -> Result<(), Failed> {
    for more in MORE.into_iter().chain([0]) {
        driver.run(Check::RunWhole, list, report.len() + more)?;
    }
    match driver.found.report.memory() == report {
        true => Ok(()),
        false => {
            let what = "the records of the run are not those of its calls";
            Err((Check::RunWhole, what.to_string()))
        }
    }
}

/// The engine's sheet, line by line beside the reference's.
fn sheet(list: &[u8], report: &[u8]) -> Result<Compared, String> {
    let records = read_report(report)?;
    let mut lines = records.iter();
    let mut running = Running::fresh();
    let mut number = 0;
    let pieces = split(list);
    for message in &pieces {
        let wanted = running.take(message)?.unwrap_or_default();
        for wanted in wanted {
            number += 1;
            let found = lines.next().map(|record| record.to_string());
            let found = found.unwrap_or("no line".to_string());
            if found != wanted.to_string() {
                return Err(format!(
                    "the sheet, line {number}: \"{found}\", expected \"{wanted}\""
                ));
            }
        }
    }
    match lines.next() {
        Some(record) => Err(format!("the sheet, line {}: \"{record}\"", number + 1)),
        None => Ok(Compared {
            messages: pieces.len(),
            records: records.len(),
        }),
    }
}

#[cfg(test)]
mod tests {
    use super::*;
    use crate::driver::Observer;
    use crate::engine::Reference;
    use crate::sheet::run_whole;
    use crate::text::encode_session;

    /// Looks at nothing.
    struct Nobody;

    impl Observer for Nobody {}

    fn printed() -> Vec<u8> {
        let text = include_str!("../../../venue/tests/sessions/printed.txt");
        encode_session(text).expect("good text")
    }

    #[test]
    fn the_reference_does_not_differ_from_itself() {
        let mut nobody = Nobody;
        let mut driver = Driver::new(&Reference, &Reference, &mut nobody, None);
        let compared = drive_own(&mut driver, &printed());
        let expected = Compared {
            messages: 6,
            records: 13,
        };
        assert_eq!(compared, Ok(expected));
    }

    #[test]
    fn another_sheet_is_told_with_its_line() {
        let list = printed();
        let (_, report) = run_whole(&list);
        let mut other = report.clone();
        other[12 * 4 + 4] = 9;
        let told = sheet(&list, &other).expect_err("the fifth answer is another's");
        assert_eq!(
            told,
            "the sheet, line 5: \"64 9 0 5 2\", expected \"64 5 0 5 2\""
        );
        let cut = sheet(&list, &report[..12]).expect_err("one answer alone");
        assert_eq!(
            cut,
            "the sheet, line 2: \"no line\", expected \"64 2 0 0 0\""
        );
        let more = [&report[..], &report[..12]].concat();
        let told = sheet(&list, &more).expect_err("an answer too many");
        assert_eq!(told, "the sheet, line 14: \"64 1 0 0 0\"");
    }

    #[test]
    fn a_run_of_other_records_than_the_calls_is_told() {
        let list = printed();
        let (_, mut report) = run_whole(&list);
        report[4] = 9;
        let mut nobody = Nobody;
        let mut driver = Driver::new(&Reference, &Reference, &mut nobody, None);
        let told = run(&mut driver, &list, &report);
        let expected = "the records of the run are not those of its calls";
        assert_eq!(told, Err((Check::RunWhole, expected.to_string())));
    }
}
