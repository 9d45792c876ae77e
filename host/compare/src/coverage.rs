//! What the texts of a comparison cover: each refusal, and each operation in texts that are read.

use crate::report::Report;
use crate::written;

/// So many texts at least there are to be of each refusal, and with each operation that are read.
pub const LEAST: u64 = 1_000;

/// What is found of a text, by the number of its refusal.
const CLASSES: [(u64, &str); 16] = [
    (0, "read"),
    (1, "refused 1"),
    (2, "refused 2"),
    (3, "refused 3"),
    (4, "refused 4"),
    (5, "refused 5"),
    (6, "refused 6"),
    (7, "refused 7"),
    (8, "refused 8"),
    (9, "refused 9"),
    (10, "refused 10"),
    (11, "refused 11"),
    (21, "refused 21"),
    (22, "refused 22"),
    (23, "refused 23"),
    (24, "refused 24"),
];

pub fn class(number: u64) -> &'static str {
    let known = CLASSES.iter().find(|(known, _)| *known == number);
    known.unwrap_or_else(|| panic!("no text is refused with {number}")).1
}

pub struct Coverage {
    /// Texts by the number of their refusal.
    refusals: [u64; 32],
    /// Texts that are read, by the code of an operation in them.
    operations: [u64; 64],
}

impl Coverage {
    pub fn new() -> Coverage {
        Coverage {
            refusals: [0; 32],
            operations: [0; 64],
        }
    }

    /// A text with this refusal (0 if it is read) and these operations, by the bits of their codes.
    pub fn count(&mut self, number: u64, operations: u64) {
        self.refusals[number as usize] += 1;
        for (code, count) in self.operations.iter_mut().enumerate() {
            *count += operations >> code & 1;
        }
    }

    /// Prints how often each operation was met, and asks for enough of each, and of each of the refusals.
    pub fn ask(&self, refusals: &[u64], report: &mut Report) {
        for number in refusals {
            report.ask_for(class(*number), self.refusals[*number as usize], LEAST);
        }
        let operations: Vec<(&str, u64)> =
            written::operations().map(|op| (op.name(), self.operations[op as usize])).collect();
        let shown: Vec<String> = operations.iter().map(|(name, count)| format!("{count} {name}")).collect();
        println!("{:<8}in texts that are read: {}", "", shown.join(", "));
        for (name, count) in operations {
            report.ask_for(name, count, LEAST);
        }
    }
}
