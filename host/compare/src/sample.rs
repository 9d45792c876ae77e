//! A sample of texts with the reference's answers, for a program that has no reference at hand. One line for each text,
//!
//!     measure NUMBER LINE ENTRIES ITEMS EXPECTATIONS STORE HEX
//!
//! with the refusal's number (0 if the text is read), its line, the four counts, and the text's bytes in hex. All the
//! texts written by hand, then random ones until each refusal has its share. A text that is too long is not among them.

use std::collections::HashSet;

use crate::gen::Rng;
use crate::reference::reading;
use crate::{changes, scripts, written};

/// The longest text of the sample, and the longest one that is random.
const LONGEST: usize = 900;
const LONGEST_RANDOM: usize = 200;

/// How many texts of each refusal there are at least, and how many that are read.
const REFUSED: usize = 70;
const READ: usize = 800;

pub fn print(seed: u64) {
    let mut sample = Sample::default();
    written::each(&mut |text| sample.add(text));
    let mut each_operation = Vec::new();
    written::each_operation(&mut |text| each_operation.push(text.to_vec()));
    let mut rng = Rng::new(seed);
    while !sample.is_whole() {
        let text = match rng.below(3) {
            0 => each_operation[rng.below(each_operation.len())].clone(),
            _ => random(&mut rng),
        };
        if text.len() <= LONGEST_RANDOM && sample.needs(&text) {
            sample.add(&text);
        }
    }
    for op in written::operations() {
        assert!(sample.operations >> op as u64 & 1 == 1, "the sample has a text with {op} that is read");
    }
}

/// A random script, or one with a change.
pub fn random(rng: &mut Rng) -> Vec<u8> {
    let script = scripts::script(rng);
    match rng.below(2) {
        0 => script.into_bytes(),
        _ => changes::random(rng, script.as_bytes()),
    }
}

pub fn hex(bytes: &[u8]) -> String {
    bytes.iter().map(|byte| format!("{byte:02x}")).collect()
}

#[derive(Default)]
struct Sample {
    seen: HashSet<Vec<u8>>,
    /// How many texts there are, by the number of their refusal.
    refusals: [usize; 12],
    /// The operations of texts that are read, by the bit of their code.
    operations: u64,
}

impl Sample {
    fn is_whole(&self) -> bool {
        self.refusals[0] >= READ && self.refusals[2..].iter().all(|count| *count >= REFUSED)
    }

    fn needs(&self, text: &[u8]) -> bool {
        let [number, ..] = reading(text).measured().numbers();
        self.refusals[number as usize] < if number == 0 { READ } else { REFUSED }
    }

    /// Prints the text's line, if there is none yet.
    fn add(&mut self, text: &[u8]) {
        if text.len() > LONGEST || !self.seen.insert(text.to_vec()) {
            return;
        }
        let reading = reading(text);
        let numbers = reading.measured().numbers();
        self.refusals[numbers[0] as usize] += 1;
        self.operations |= reading.operations();
        let numbers: Vec<String> = numbers.iter().map(u64::to_string).collect();
        println!("measure {} {}", numbers.join(" "), hex(text));
    }
}
