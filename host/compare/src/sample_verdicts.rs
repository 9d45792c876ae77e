//! The sample's expectations for Message. One line for each,
//!
//!     judged AGAINST VERDICT EXPECTATION.. SUBJECT.. PLACE.. N TEXT BYTES MESSAGE
//!
//! with 0 for the handshake or 1 for an entry; the verdict's number; the rows of the expectation, 6 numbers, and of what
//! it is judged against, 19; 6 places of the table; the matcher's number; and the text, the bytes and the message, each
//! an `x` and hex. Verdict and message are the reference's, or the paper's where the reference has none.

use std::collections::HashMap;

use library::Against;

use crate::sample::hex;
use crate::verdicts::{self, Case};

/// The longest text, value and message, and the longest line.
const LONGEST: usize = 256;
const LINE: usize = 800;

/// The places of the table.
const PLACES: usize = 6;

/// How many cases of each kind there are at least.
const LEAST: usize = 12;

pub fn print(seed: u64) {
    let mut sample = Sample::new();
    let mut number = 0;
    while !sample.is_whole() {
        sample.add(&Case::new(seed, number));
        number += 1;
    }
}

struct Sample {
    /// How many cases of a kind are lacking.
    lacking: HashMap<String, usize>,
}

impl Sample {
    /// A case of some kinds has no line.
    fn new() -> Sample {
        let has_line = |kind: &String| !kind.starts_with("refused") && !kind.starts_with("a ");
        Sample {
            lacking: verdicts::kinds().into_iter().filter(has_line).map(|kind| (kind, LEAST)).collect(),
        }
    }

    fn is_whole(&self) -> bool {
        self.lacking.values().all(|lacking| *lacking == 0)
    }

    /// Prints the case's line, if it is of a kind that is lacking.
    fn add(&mut self, case: &Case) {
        let shown = case.shows();
        if !shown.iter().any(|kind| self.lacking.get(kind).is_some_and(|lacking| *lacking > 0)) {
            return;
        }
        let Some(line) = line(case) else { return };
        for kind in shown {
            if let Some(lacking) = self.lacking.get_mut(&kind) {
                *lacking = lacking.saturating_sub(1);
            }
        }
        println!("{line}");
    }
}

/// The case's line, unless it is refused or too long.
fn line(case: &Case) -> Option<String> {
    let (laid, answer) = (&case.laid, &case.answer);
    let value = answer.value.as_ref().map_or(0, String::len);
    let longest = [laid.text.len(), laid.bytes.len(), value, answer.message.len()].into_iter().max();
    if case.refusal > 0 || longest > Some(LONGEST) || laid.lists.len() > PLACES {
        return None;
    }
    let against = match laid.against {
        Against::Handshake => 0,
        Against::Response => 1,
    };
    let mut numbers = vec![against, u64::from(answer.verdict)];
    numbers.extend(row(&laid.expect, 6));
    numbers.extend(row(&laid.subject, 19));
    let places: Vec<u64> = laid.lists.iter().flatten().map(|number| *number as u64).collect();
    numbers.extend(row(&places, 2 * PLACES));
    let numbers: Vec<String> = numbers.iter().map(u64::to_string).collect();
    let texts = [&laid.text, &laid.bytes, answer.message.as_bytes()].map(|text| format!("x{}", hex(text)));
    let line = format!("judged {} {} {}", numbers.join(" "), laid.n, texts.join(" "));
    (line.len() <= LINE).then_some(line)
}

/// A row with so many numbers: those that are missing are 0, and nothing asks for more.
fn row(numbers: &[u64], len: usize) -> Vec<u64> {
    let mut row = numbers.to_vec();
    row.resize(len, 0);
    row
}
