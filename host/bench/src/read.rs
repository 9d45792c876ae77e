//! Read beside the reference's `parse_script`, on the texts of Measure. A call of ours makes its tables and then reads
//! as often as it is told: one reading takes what a call with more of them takes longer, shared among these.

use std::hint::black_box;
use std::time::{Duration, Instant};

use nix_wire::script::parse::parse_script;

use crate::{measure, timing};

pub fn print() {
    println!("read{:<55}bytes  ours ns/B  Rust ns/B   ratio", "");
    for (name, text) in measure::named_texts() {
        print_row(name, &text);
    }
}

fn print_row(name: &str, text: &str) {
    let (bytes, more) = (text.len(), readings(text));
    let mut once = || read(text, 1);
    let mut again = || read(text, more + 1);
    let mut rust = || {
        black_box(parse_script(black_box(text)).is_ok());
    };
    let [once, again, rust] = timing::best([&mut once, &mut again, &mut rust]);
    let ours = (again - once) / more as f64;
    let (our_share, rust_share) = (ours / bytes as f64, rust / bytes as f64);
    print!("{name:<56}{bytes:>8}{our_share:>11.3}{rust_share:>11.3}{:>8.2}", ours / rust);
    match library::read_times(text.as_bytes(), 1) {
        0 => println!(),
        number => println!("  ours refused with {number}: its tables are too short for this text"),
    }
}

fn read(text: &str, times: u64) {
    black_box(library::read_times(black_box(text.as_bytes()), times));
}

/// So many readings take some spans, so that making the tables matters little.
fn readings(text: &str) -> u64 {
    let mut times = 1;
    while elapsed(text, times + 1).saturating_sub(elapsed(text, 1)) < 4 * timing::SPAN {
        times *= 2;
    }
    times
}

fn elapsed(text: &str, times: u64) -> Duration {
    let start = Instant::now();
    read(text, times);
    start.elapsed()
}
