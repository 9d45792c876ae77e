//! Reading a whole text into lent tables, against the reference's `parse_script`.

use std::str::from_utf8;

use library::{Counts, Measured};
use nix_wire::script::Script;

use crate::agreement::differences;
use crate::coverage::{class, Coverage, LEAST};
use crate::decode::{pattern, BESIDE};
use crate::dump::{self, Dump};
use crate::gen::Rng;
use crate::layout::Tables;
use crate::lending::Lending;
use crate::places::Source;
use crate::reference::{reading, Beginnings, Reading};
use crate::report::{Finding, Report, Tally};
use crate::texts;

#[cfg(test)]
mod tests;

/// The longest text of which it is seen from where exactly the reference takes each value.
const TRACED: usize = 2_000;

pub fn compare(seed: u64, report: &mut Report) {
    let mut tally = Tally::new("read");
    let mut coverage = Coverage::new();
    let mut several_short = 0;
    // Other numbers than those that the texts come from.
    let mut rng = Rng::new(!seed);
    texts::each(seed, &mut |text| {
        let lending = Lending::random(&mut rng);
        let case = Case::of(text, lending);
        let number = case.number();
        coverage.count(number, if number == 0 { case.reading.operations() } else { 0 });
        several_short += u64::from(number > 20 && dump::shortages(case.needed, case.lent).len() > 1);
        tally.count(text, case.check(), |text| Case::of(text, lending).check());
    });
    report.add(tally);
    coverage.ask(&[0, 1, 2, 3, 4, 5, 6, 7, 8, 9, 10, 11, 21, 22, 23, 24], report);
    println!("{:<8}several tables too short: {several_short}", "");
    report.ask_for("several tables too short", several_short, LEAST);
}

/// A text, what the reference says of it, and what is lent.
pub struct Case<'a> {
    text: &'a [u8],
    pub reading: Reading,
    lending: Lending,
    /// What the text takes; nothing where it is refused.
    pub needed: Counts,
    /// What is asked for, and so much of it as there is.
    pub asked: Counts,
    pub lent: Counts,
}

impl<'a> Case<'a> {
    pub fn of(text: &'a [u8], lending: Lending) -> Case<'a> {
        let reading = reading(text);
        let needed = match reading.measured() {
            Measured::Read(counts) => counts,
            Measured::Refused { .. } => Counts::default(),
        };
        let asked = lending.asked(needed);
        Case {
            text,
            reading,
            lending,
            needed,
            asked,
            lent: dump::lent(asked),
        }
    }

    /// What is expected: a refusal's number and line, or the script.
    pub fn expected(&self) -> Result<&Script, (u64, usize)> {
        match &self.reading {
            Reading::Refused { number, line } => Err((*number, *line)),
            Reading::Read(script) => match dump::shortages(self.needed, self.lent).first() {
                Some(number) => Err((*number, 0)),
                None => Ok(script),
            },
        }
    }

    /// The refusal's number, or 0.
    fn number(&self) -> u64 {
        self.expected().err().map_or(0, |(number, _)| number)
    }

    fn check(&self) -> Finding {
        let differences = self.differences(self.text.len() <= TRACED);
        match differences.first() {
            None => Ok(class(self.number())),
            Some(first) => Err(format!("{first} ({} differences; asked for {:?})", differences.len(), self.asked)),
        }
    }

    /// How ours differs. If traced, also in the place of a part that stands in the text more than once.
    pub fn differences(&self, is_traced: bool) -> Vec<String> {
        match self.dumped() {
            Ok(bytes) => self.differences_of(&bytes, is_traced),
            Err(difference) => vec![difference],
        }
    }

    fn differences_of(&self, bytes: &[u8], is_traced: bool) -> Vec<String> {
        let dump = Dump::decoded(bytes, self.lent);
        match self.expected() {
            Err((number, line)) => differences(self.text, &dump, &Tables::refused(number, line), None),
            Ok(script) => traced(self.text, script, |tables, source| {
                differences(self.text, &dump, tables, is_traced.then_some(source))
            }),
        }
    }

    /// Our dump. Where there are too few bytes for it, none is written.
    fn dumped(&self) -> Result<Vec<u8>, String> {
        let len = dump::len(self.lent);
        if let Some(too_few) = self.lending.room.too_few(len) {
            self.dumped_into(too_few)?;
        }
        self.dumped_into(len + self.lending.spare)
    }

    /// What is written, with so many bytes lent for the dump.
    fn dumped_into(&self, room: usize) -> Result<Vec<u8>, String> {
        let before = pattern(room + 2 * BESIDE);
        let mut bytes = before.clone();
        let answer = library::read(self.text, self.asked, &mut bytes[BESIDE..BESIDE + room]);
        let len = dump::len(self.lent);
        if answer != len {
            return Err(format!("the dump has {len} bytes, and ours says {answer}"));
        }
        let end = if room < len { BESIDE } else { BESIDE + len };
        if bytes[..BESIDE] != before[..BESIDE] || bytes[end..] != before[end..] {
            return Err(format!("with {room} bytes for a dump of {len}, ours writes outside of it"));
        }
        Ok(bytes[BESIDE..end].to_vec())
    }
}

/// The tables that a script comes to, and the source of their values, shown to `see`.
pub fn traced<T>(text: &[u8], script: &Script, see: impl FnOnce(&Tables, &Source) -> T) -> T {
    let text = Beginnings::of(from_utf8(text).expect("a text that is read is UTF-8"));
    let lines = text.lines();
    let tables = Tables::read(&text, &lines, script);
    let source = Source {
        text: &text,
        lines: &lines,
        texts: tables.texts(),
    };
    see(&tables, &source)
}
