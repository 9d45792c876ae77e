//! Functions that decode a value into lent bytes, against private functions of the reference. These are reached by a
//! script whose entries carry the values.

use nix_wire::script::parse::parse_script;
use nix_wire::script::OpCall;

use crate::report::{Finding, Tally};

pub struct Decoder {
    pub name: &'static str,
    pub len: fn(&[u8]) -> usize,
    pub decode: fn(&[u8], &mut [u8]) -> usize,
    /// Whether this value is to be compared.
    pub admits: fn(&[u8]) -> bool,
    /// The entry of a script that carries the value.
    pub entry: fn(&str) -> String,
    /// What the reference decoded, in that entry.
    pub decoded: fn(&OpCall) -> Option<&[u8]>,
    /// The reference's algorithm on bytes, for values that no script carries.
    pub restated: fn(&[u8]) -> Vec<u8>,
    /// The class of a value that a script carries, given what it decodes to.
    pub class: fn(&[u8], &[u8]) -> &'static str,
}

/// A value that a script can carry: a text without LF.
fn carried(value: &[u8]) -> Option<&str> {
    let text = std::str::from_utf8(value).ok()?;
    (!text.contains('\n')).then_some(text)
}

impl Decoder {
    /// What the reference decodes the values to, all read in one script.
    fn read(&self, values: &[&str]) -> Vec<Vec<u8>> {
        let entries: Vec<String> = values.iter().map(|value| (self.entry)(value)).collect();
        let script = parse_script(&("---\n".to_string() + &entries.concat())).expect("the entries are a script");
        assert_eq!(script.entries.len(), values.len(), "each value is an entry");
        let decoded = |call: &OpCall| (self.decoded)(call).expect("the entry is of its kind").to_vec();
        script.entries.iter().map(|entry| decoded(&entry.op_call)).collect()
    }

    fn check(&self, value: &[u8]) -> Finding {
        if !(self.admits)(value) {
            return Ok("not compared");
        }
        match carried(value) {
            Some(text) => self.check_carried(value, &self.read(&[text])[0]),
            None => self.check_restated(value),
        }
    }

    fn check_carried(&self, value: &[u8], expected: &[u8]) -> Finding {
        // Seen on these values, the restatement can be believed on the others.
        let restated = (self.restated)(value);
        if restated != expected {
            return Err(format!("the host's restatement {}, the reference's {}", shown(&restated), shown(expected)));
        }
        self.check_answers(value, expected)?;
        Ok((self.class)(value, expected))
    }

    fn check_restated(&self, value: &[u8]) -> Finding {
        self.check_answers(value, &(self.restated)(value))?;
        Ok("only restated")
    }

    /// Ours, with as many bytes lent as are needed, with some more, and with one too few.
    fn check_answers(&self, value: &[u8], expected: &[u8]) -> Result<(), String> {
        let needed = expected.len();
        let len = (self.len)(value);
        if len != needed {
            return Err(format!("our length {len}, expected {needed}"));
        }
        self.check_lent(value, expected, needed)?;
        self.check_lent(value, expected, needed + 3)?;
        match needed.checked_sub(1) {
            Some(too_few) => self.check_lent(value, expected, too_few),
            None => Ok(()),
        }
    }

    fn check_lent(&self, value: &[u8], expected: &[u8], lent: usize) -> Result<(), String> {
        let mut bytes = pattern(lent + 2 * BESIDE);
        let mut after = bytes.clone();
        if expected.len() <= lent {
            after[BESIDE..BESIDE + expected.len()].copy_from_slice(expected);
        }
        let answer = (self.decode)(value, &mut bytes[BESIDE..BESIDE + lent]);
        if answer != expected.len() {
            return Err(format!("with {lent} bytes lent, our answer {answer}, expected {}", expected.len()));
        }
        if bytes != after {
            let (ours, expected) = (shown(&bytes), shown(&after));
            return Err(format!(
                "with {lent} bytes lent (and {BESIDE} beside them at each end), ours {ours}, expected {expected}"
            ));
        }
        Ok(())
    }
}

/// Bytes kept on both sides of those that are lent, to see a write beside them.
pub const BESIDE: usize = 4;

/// What stands in lent bytes before a call: neighbours differ, and no byte is a frequent one.
pub fn pattern(len: usize) -> Vec<u8> {
    (0..len).map(|i| 0xA1 + (i % 89) as u8).collect()
}

pub fn shown(bytes: &[u8]) -> String {
    format!("\"{}\"", bytes.escape_ascii())
}

/// Values on their way to the reference: many are read in one script, since one script for each takes far longer.
pub struct Batch<'a> {
    decoder: &'a Decoder,
    tally: Tally,
    waiting: Vec<String>,
}

const TOGETHER: usize = 4_000;

impl<'a> Batch<'a> {
    pub fn new(decoder: &'a Decoder) -> Batch<'a> {
        Batch {
            decoder,
            tally: Tally::new(decoder.name),
            waiting: Vec::new(),
        }
    }

    pub fn add(&mut self, value: &[u8]) {
        if !(self.decoder.admits)(value) {
            return;
        }
        match carried(value) {
            None => self.tally.check(value, |value| self.decoder.check(value)),
            Some(text) => {
                self.waiting.push(text.to_string());
                if self.waiting.len() == TOGETHER {
                    self.read();
                }
            }
        }
    }

    fn read(&mut self) {
        let waiting = std::mem::take(&mut self.waiting);
        let values: Vec<&str> = waiting.iter().map(String::as_str).collect();
        for (value, expected) in values.iter().zip(self.decoder.read(&values)) {
            let found = self.decoder.check_carried(value.as_bytes(), &expected);
            self.tally.count(value.as_bytes(), found, |value| self.decoder.check(value));
        }
    }

    pub fn finish(mut self) -> Tally {
        self.read();
        self.tally
    }
}
