//! Compares the functions of the proved library with Rust's, on the same inputs.
//!
//!     compare [SEED]
//!     compare folder PATH
//!     compare runs [SEED]
//!     compare sample [SEED]
//!
//! A line for each function, then `N passed, M failed`. Exit status 1 if any case failed. Of a folder's files the whole
//! texts are compared. A sample is only printed.

mod agreement;
mod changes;
mod coverage;
mod decisions;
mod decode;
mod dump;
mod folder;
mod forged;
mod gen;
mod guarded;
mod hex;
mod judged;
mod laid;
mod layout;
mod lending;
mod limits;
mod measure;
mod numbers;
mod places;
mod plain;
mod read;
mod reference;
mod report;
mod row;
mod runs;
mod sample;
mod sample_read;
mod sample_verdicts;
mod scripts;
mod subjects;
mod text;
mod texts;
mod unquote;
mod verdicts;
mod words;
mod written;

use std::ffi::OsString;
use std::path::Path;
use std::process::ExitCode;

use report::Report;

/// Each area makes its own random inputs from the seed, so that a change in one leaves the others as they were.
const AREAS: [fn(u64, &mut Report); 9] = [
    text::compare,
    numbers::compare,
    hex::compare,
    unquote::compare,
    measure::compare,
    read::compare,
    decisions::compare,
    verdicts::compare,
    runs::compare,
];

const SEED: u64 = 20_240_229;

fn main() -> ExitCode {
    let words: Vec<OsString> = std::env::args_os().skip(1).collect();
    // Only a path may be no UTF-8.
    let shown: Vec<&str> = words.iter().map(|word| word.to_str().unwrap_or_default()).collect();
    match shown[..] {
        ["folder", _] => folder::compare(Path::new(&words[1])),
        ["runs"] => compare_runs(SEED),
        ["runs", word] => seed(word).map_or(ExitCode::from(2), compare_runs),
        ["sample"] => print_sample(SEED),
        ["sample", word] => seed(word).map_or(ExitCode::from(2), print_sample),
        [] => compare(SEED),
        [word] => seed(word).map_or(ExitCode::from(2), compare),
        _ => usage(),
    }
}

fn usage() -> ExitCode {
    eprintln!("compare: usage: compare [SEED], compare runs [SEED], compare folder PATH or compare sample [SEED]");
    ExitCode::from(2)
}

fn seed(word: &str) -> Option<u64> {
    let seed = word.parse().ok();
    if seed.is_none() {
        eprintln!("compare: the seed is a number, and {word:?} is none.");
    }
    seed
}

fn print_sample(seed: u64) -> ExitCode {
    sample::print(seed);
    sample_read::print(seed);
    sample_verdicts::print(seed);
    ExitCode::SUCCESS
}

/// Only the lists of calls.
fn compare_runs(seed: u64) -> ExitCode {
    println!("seed {seed}");
    let mut report = Report::default();
    runs::compare(seed, &mut report);
    report.finish()
}

fn compare(seed: u64) -> ExitCode {
    println!("seed {seed}");
    let mut report = Report::default();
    for compare in AREAS {
        compare(seed, &mut report);
    }
    report.finish()
}
