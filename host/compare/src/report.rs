//! Counts the cases of each function and shows where ours and Rust's differ.

use std::process::ExitCode;

/// What is found of one case: its class, or how the two sides differ.
pub type Finding = Result<&'static str, String>;

/// Differences shown for each function.
const SHOWN: usize = 10;

/// Failed cases that are shrunk; the others are only counted. More than are shown, since many shrink to the same.
const SHRUNK: u64 = 200;

/// The cases of one function.
pub struct Tally {
    name: &'static str,
    /// How many passed, by class.
    passed: Vec<(&'static str, u64)>,
    failed: u64,
    shown: Vec<Vec<u8>>,
}

impl Tally {
    pub fn new(name: &'static str) -> Tally {
        Tally {
            name,
            passed: Vec::new(),
            failed: 0,
            shown: Vec::new(),
        }
    }

    /// Checks an input and counts what is found.
    pub fn check(&mut self, input: &[u8], check: impl Fn(&[u8]) -> Finding) {
        self.count(input, check(input), check);
    }

    /// Counts what was found of an input. Where the sides differ the check is asked again, for shorter inputs.
    pub fn count(&mut self, input: &[u8], found: Finding, check: impl Fn(&[u8]) -> Finding) {
        match found {
            Ok(class) => self.pass(class),
            Err(_) => {
                self.failed += 1;
                if self.failed <= SHRUNK && self.shown.len() < SHOWN {
                    self.show(input, check);
                }
            }
        }
    }

    fn pass(&mut self, class: &'static str) {
        match self.passed.iter_mut().find(|(known, _)| *known == class) {
            Some((_, count)) => *count += 1,
            None => self.passed.push((class, 1)),
        }
    }

    fn show(&mut self, input: &[u8], check: impl Fn(&[u8]) -> Finding) {
        let least = shrunk(input, |s| check(s).is_err());
        if self.shown.contains(&least) {
            return;
        }
        let difference = check(&least).err().unwrap_or_default();
        println!("{}: different on \"{}\": {difference}", self.name, least.escape_ascii());
        self.shown.push(least);
    }

    fn all_passed(&self) -> u64 {
        self.passed.iter().map(|(_, count)| count).sum()
    }

    fn print(&self) {
        let cases = self.all_passed() + self.failed;
        let classes: Vec<String> = self.passed.iter().map(|(class, count)| format!("{count} {class}")).collect();
        println!("{:<8}{cases:>9} cases, {} different: {}", self.name, self.failed, classes.join(", "));
    }
}

/// s without the bytes that are not needed for the two sides to differ.
fn shrunk(s: &[u8], differs: impl Fn(&[u8]) -> bool) -> Vec<u8> {
    let mut least = s.to_vec();
    let mut size = s.len();
    while size > 0 {
        let mut at = 0;
        while at < least.len() {
            let end = least.len().min(at + size);
            let shorter = [&least[..at], &least[end..]].concat();
            if differs(&shorter) {
                least = shorter;
            } else {
                at = end;
            }
        }
        size /= 2;
    }
    least
}

/// The functions compared so far.
#[derive(Default)]
pub struct Report {
    tallies: Vec<Tally>,
    /// Kinds of cases that were too few.
    scarce: u64,
}

impl Report {
    /// Prints a function's line.
    pub fn add(&mut self, tally: Tally) {
        tally.print();
        self.tallies.push(tally);
    }

    /// Counts a failed case, and says so, if fewer cases of a kind were met than there are to be.
    pub fn ask_for(&mut self, kind: &str, met: u64, least: u64) {
        if met < least {
            println!("too few cases: {met} {kind}, and there are to be {least}");
            self.scarce += 1;
        }
    }

    /// Prints the last line and gives the exit status.
    pub fn finish(self) -> ExitCode {
        let passed: u64 = self.tallies.iter().map(Tally::all_passed).sum();
        let failed = self.scarce + self.tallies.iter().map(|tally| tally.failed).sum::<u64>();
        println!("{passed} passed, {failed} failed");
        ExitCode::from(u8::from(failed > 0))
    }
}
