//! Whether the dump of Read is what the reference's script comes to, value by value.

use std::ops::Range;
use std::slice::ChunksExact;

use nix_wire::ops::Op;

use crate::decode::shown;
use crate::dump::{Dump, BLANK_ENTRY, BLANK_EXPECTATION, BLANK_ITEM};
use crate::layout::Tables;
use crate::places::Source;
use crate::row::{Row, Stamp, Value};

/// All differences. Where the source is given, also between places at which the same part of the text stands.
pub fn differences(text: &[u8], dump: &Dump, expected: &Tables, source: Option<&Source>) -> Vec<String> {
    let mut comparing = Comparing {
        text,
        source,
        texts: 0,
        found: Vec::new(),
    };
    comparing.row("answer", dump.head(), &expected.head);
    comparing.table("entry", dump.entries(), &expected.entries, &BLANK_ENTRY);
    comparing.table("item", dump.items(), &expected.items, &BLANK_ITEM);
    comparing.table("expectation", dump.expectations(), &expected.expectations, &BLANK_EXPECTATION);
    comparing.store(dump.store, &expected.store);
    comparing.found
}

struct Comparing<'a> {
    text: &'a [u8],
    source: Option<&'a Source<'a>>,
    /// How many values were seen that are parts of the text.
    texts: usize,
    found: Vec<String>,
}

impl Comparing<'_> {
    /// The records of a table; behind the used ones each is to be as it was.
    fn table(&mut self, kind: &str, ours: ChunksExact<u64>, expected: &[Row], blank: &[u64]) {
        if ours.len() < expected.len() {
            self.found
                .push(format!("{} of a kind ({kind}) are lent, and {} needed", ours.len(), expected.len()));
        }
        for (number, record) in ours.enumerate() {
            match expected.get(number) {
                Some(row) => self.row(&format!("{kind} {number}"), record, row),
                None if record != blank => {
                    self.found.push(format!("{kind} {number}: ours {record:?}, and it is to be left alone"))
                }
                None => {}
            }
        }
    }

    fn row(&mut self, name: &str, ours: &[u64], expected: &Row) {
        let mut used = 0;
        for (at, field, value) in expected.placed() {
            used = at + value.width();
            if let Err(difference) = self.value(&ours[at..used], value, &expected.within) {
                self.found.push(format!("{name}, {field}: {difference}"));
            }
        }
        if ours[used..].iter().any(|number| *number != 0) {
            self.found.push(format!("{name}: ours {:?} behind its values, and it is to be 0", &ours[used..]));
        }
    }

    fn value(&mut self, ours: &[u64], expected: Value, within: &Range<usize>) -> Result<(), String> {
        match expected {
            Value::Number(number) => same(ours[0], number),
            Value::Operation(op) => same(operation(ours[0]), op.map_or("none", Op::name)),
            Value::Stamp(stamp) => check_stamp(ours, stamp),
            Value::Text(text) => {
                self.texts += 1;
                self.part(ours[0] as usize, ours[1] as usize, text, within)
            }
        }
    }

    /// A part of the text: the right bytes, where they may stand. One with no bytes is at 0.
    fn part(&self, start: usize, len: usize, expected: &str, within: &Range<usize>) -> Result<(), String> {
        if expected.is_empty() {
            return same((start, len), (0, 0));
        }
        let Some(part) = start.checked_add(len).and_then(|end| self.text.get(start..end)) else {
            return Err(format!("ours start {start}, length {len}: no part of {} bytes", self.text.len()));
        };
        if part != expected.as_bytes() {
            return Err(format!("ours {} at {start}, the reference's {}", shown(part), shown(expected.as_bytes())));
        }
        let is_elsewhere = |source: &Source| !source.is_taken_from(self.texts - 1, start, within);
        if start < within.start || within.end < start + len || self.source.is_some_and(is_elsewhere) {
            return Err(format!("ours {} at {start}, and the reference takes another one", shown(part)));
        }
        Ok(())
    }

    fn store(&mut self, ours: &[u8], expected: &[u8]) {
        let Some((used, behind)) = ours.split_at_checked(expected.len()) else {
            return self.found.push(format!(
                "{} bytes of the store are lent, and {} needed",
                ours.len(),
                expected.len()
            ));
        };
        if used != expected {
            self.found.push(format!("store: ours {}, the reference's {}", shown(used), shown(expected)));
        }
        if behind.iter().any(|byte| *byte != 0) {
            self.found
                .push(format!("store: ours {} behind its values, and it is to be left alone", shown(behind)));
        }
    }
}

fn same<T: PartialEq + std::fmt::Debug>(ours: T, expected: T) -> Result<(), String> {
    if ours == expected {
        return Ok(());
    }
    Err(format!("ours {ours:?}, the reference's {expected:?}"))
}

/// The name of the operation with this code; 0 is none.
fn operation(code: u64) -> &'static str {
    match code {
        0 => "none",
        _ => Op::from_u64(code).map_or("a code of no operation", Op::name),
    }
}

/// The number that ours comes to is the reference's to the bit; and digits and decimals are those that are written.
fn check_stamp(ours: &[u64], expected: Option<Stamp>) -> Result<(), String> {
    let ours: [u64; 4] = ours.try_into().expect("a timestamp has four numbers");
    let ms = |stamp: Stamp| stamp.ms.to_bits();
    same(milliseconds(ours).map(f64::to_bits), expected.map(ms))?;
    same(ours, Stamp::numbers(expected))
}

/// The f64 that is nearest.
fn milliseconds([is_there, is_negative, digits, decimals]: [u64; 4]) -> Option<f64> {
    let sign = if is_negative == 0 { "" } else { "-" };
    let nearest = || format!("{sign}{digits}e{}", -i128::from(decimals as i64)).parse().expect("this is an f64");
    (is_there != 0).then(nearest)
}
