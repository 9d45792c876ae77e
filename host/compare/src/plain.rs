//! The plain judge of document 01 in Rust, over the script that the reference parses: none of our records.

use nix_wire::script::{Expect, Script};

use crate::decisions::{FAILED, PASSED};
use crate::judged::{self, Subject};

/// What a call is: its kind and, but for a close, its number, what it is handed and how many bytes of scratch it has.
pub enum Call<'a> {
    Close,
    Judge(Judging<'a>),
}

pub struct Judging<'a> {
    pub number: u64,
    pub subject: &'a Subject,
    /// A part of the subject lies outside its bytes.
    pub is_outside: bool,
    pub scratch: usize,
}

/// Answers as numbers: a refusal's, 0 for judged, these for what closing says.
pub const JUDGED: u64 = 0;
pub const CLOSED_PASSED: u64 = 101;
pub const CLOSED_FAILED: u64 = 102;
pub const CLOSED_UNDECIDED: u64 = 103;
pub const CLOSED_NOTHING: u64 = 104;

pub struct Judge<'a> {
    script: &'a Script,
    /// How many places the verdict list has.
    places: usize,
    pub next: u64,
    /// A slot for each expectation, in line order.
    pub slots: Vec<Option<u8>>,
    /// How many passed, failed and are undecided.
    pub counts: [usize; 3],
    /// The scratch, as the calls leave it.
    pub scratch: Vec<u8>,
}

impl<'a> Judge<'a> {
    pub fn new(script: &'a Script, places: usize, scratch: Vec<u8>) -> Judge<'a> {
        let below: usize = script.entries.iter().map(|entry| entry.expects.len()).sum();
        Judge {
            script,
            places,
            next: 0,
            slots: vec![None; script.preamble.expects.len() + below],
            counts: [0; 3],
            scratch,
        }
    }

    pub fn answer(&mut self, call: &Call) -> u64 {
        match call {
            Call::Close => self.close(),
            Call::Judge(judging) => self.refusal(judging).unwrap_or_else(|| self.judge(judging)),
        }
    }

    /// Those that belong to a number, and the place of the first.
    fn belonging(&self, number: u64) -> (usize, &'a [Expect]) {
        let preamble = &self.script.preamble.expects;
        let Some(entry) = number.checked_sub(1).map(|entry| entry as usize) else {
            return (0, preamble);
        };
        let above: usize = self.script.entries[..entry].iter().map(|entry| entry.expects.len()).sum();
        (preamble.len() + above, &self.script.entries[entry].expects)
    }

    /// 33, 32, 35 or 34, in this order.
    fn refusal(&self, judging: &Judging) -> Option<u64> {
        let Judging {
            number,
            subject,
            is_outside,
            scratch,
        } = *judging;
        let is_wrong = match subject {
            Subject::Handshake(_) => number != 0,
            Subject::Response(_) => number == 0 || number > self.script.entries.len() as u64,
        };
        if number != self.next || is_wrong {
            Some(33)
        } else if is_outside {
            Some(32)
        } else if self.places < self.slots.len() {
            Some(35)
        } else if self.longest(number, subject) > scratch {
            Some(34)
        } else {
            None
        }
    }

    /// How long the longest present value of a number's lines is.
    fn longest(&self, number: u64, subject: &Subject) -> usize {
        let values = self.belonging(number).1.iter().filter_map(|expect| judged::value(expect, subject));
        values.map(|value| value.len()).max().unwrap_or(0)
    }

    fn judge(&mut self, judging: &Judging) -> u64 {
        let (first, expects) = self.belonging(judging.number);
        for (at, expect) in expects.iter().enumerate() {
            let answer = judged::answer(expect, judging.subject);
            self.slots[first + at] = Some(answer.verdict);
            self.counts[match answer.verdict {
                PASSED => 0,
                FAILED => 1,
                _ => 2,
            }] += 1;
            if let Some(value) = answer.value {
                self.scratch[..value.len()].copy_from_slice(value.as_bytes());
            }
        }
        self.next += 1;
        JUDGED
    }

    fn close(&self) -> u64 {
        if self.next != self.script.entries.len() as u64 + 1 {
            return 37;
        }
        let [passed, failed, undecided] = self.counts;
        if failed > 0 {
            CLOSED_FAILED
        } else if undecided > 0 {
            CLOSED_UNDECIDED
        } else if passed == 0 {
            CLOSED_NOTHING
        } else {
            CLOSED_PASSED
        }
    }
}

/// How many bytes of scratch a judging of a number takes, where the script has that number.
pub fn needed(script: &Script, number: u64, subject: &Subject) -> usize {
    if number > script.entries.len() as u64 {
        return 0;
    }
    Judge::new(script, 0, Vec::new()).longest(number, subject)
}
