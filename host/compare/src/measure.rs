//! Measuring a whole text, against the reference's `parse_script`.

use library::Measured;

use crate::coverage::{class, Coverage};
use crate::reference::reading;
use crate::report::{Finding, Report, Tally};
use crate::texts;

pub fn compare(seed: u64, report: &mut Report) {
    let mut tally = Tally::new("measure");
    let mut coverage = Coverage::new();
    texts::each(seed, &mut |text| {
        let reading = reading(text);
        let measured = reading.measured();
        coverage.count(measured.numbers()[0], reading.operations());
        tally.count(text, agree(text, measured), check);
    });
    report.add(tally);
    coverage.ask(&[0, 1, 2, 3, 4, 5, 6, 7, 8, 9, 10, 11], report);
}

fn check(text: &[u8]) -> Finding {
    agree(text, reading(text).measured())
}

pub fn agree(text: &[u8], expected: Measured) -> Finding {
    let (ours, expected) = (library::measure_numbers(text), expected.numbers());
    if ours == expected {
        return Ok(class(expected[0]));
    }
    Err(format!("ours {ours:?}, the reference's {expected:?} (refusal, line, entries, items, expectations, store)"))
}
