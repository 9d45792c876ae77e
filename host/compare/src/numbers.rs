//! Numbers, against Rust's `str::parse`.

use std::num::{IntErrorKind, ParseIntError};

use crate::gen::{each_word, letters, Rng};
use crate::report::{Finding, Report, Tally};

/// A kind of number: the ends of its range, and how each side reads it. Every value fits an i128.
struct Kind {
    name: &'static str,
    limits: [i128; 2],
    rust: fn(&str) -> Result<i128, ParseIntError>,
    ours: fn(&[u8]) -> Result<Option<i128>, String>,
}

const KINDS: [Kind; 4] = [
    Kind {
        name: "u64",
        limits: [u64::MIN as i128, u64::MAX as i128],
        rust: |s| s.parse::<u64>().map(i128::from),
        ours: |s| read_unsigned(s, library::parse_u64),
    },
    Kind {
        name: "u16",
        limits: [u16::MIN as i128, u16::MAX as i128],
        rust: |s| s.parse::<u16>().map(i128::from),
        ours: |s| read_unsigned(s, library::parse_u16),
    },
    Kind {
        name: "u8",
        limits: [u8::MIN as i128, u8::MAX as i128],
        rust: |s| s.parse::<u8>().map(i128::from),
        ours: |s| read_unsigned(s, library::parse_u8),
    },
    Kind {
        name: "i64",
        limits: [i64::MIN as i128, i64::MAX as i128],
        rust: |s| s.parse::<i64>().map(i128::from),
        ours: read_signed,
    },
];

/// Stands in the value before each call: it must stand there after a refusal.
const BEFORE: i64 = 0x5A5A_A5A5_1234_4321;

fn read_unsigned(s: &[u8], read: fn(&[u8], &mut u64) -> bool) -> Result<Option<i128>, String> {
    let mut value = BEFORE as u64;
    answer(read(s, &mut value), value.into())
}

fn read_signed(s: &[u8]) -> Result<Option<i128>, String> {
    let mut value = BEFORE;
    answer(library::parse_i64(s, &mut value), value.into())
}

fn answer(read: bool, value: i128) -> Result<Option<i128>, String> {
    if !read && value != BEFORE.into() {
        return Err(format!("ours refuses and writes {value}"));
    }
    Ok(read.then_some(value))
}

fn check(kind: &Kind, s: &[u8]) -> Finding {
    let ours = (kind.ours)(s)?;
    let rust = std::str::from_utf8(s).map(kind.rust);
    let (value, class) = match rust {
        Ok(Ok(value)) => (Some(value), "read"),
        Ok(Err(error)) => (None, refusal(error.kind())),
        Err(_) => (None, "not UTF-8"),
    };
    if ours == value {
        Ok(class)
    } else {
        Err(format!("ours {ours:?}, Rust's {value:?}"))
    }
}

fn refusal(kind: &IntErrorKind) -> &'static str {
    match kind {
        IntErrorKind::PosOverflow | IntErrorKind::NegOverflow => "out of range",
        _ => "no number",
    }
}

/// Digits, those of the limits of u8 and u16 among them, signs, and the bytes beside `0` and `9`.
const LETTERS: &str = "012569+- a/:";

const SIGNS: &[&str] = &["", "", "+", "-"];

const RANDOM: usize = 1_000_000;

pub fn compare(seed: u64, report: &mut Report) {
    for kind in &KINDS {
        report.add(compare_kind(kind, seed));
    }
}

fn compare_kind(kind: &Kind, seed: u64) -> Tally {
    let mut tally = Tally::new(kind.name);
    let mut see = |s: &[u8]| tally.check(s, |s| check(kind, s));
    each_word(&letters(LETTERS), 5, &mut see);
    near_limits(kind, &mut see);
    let mut rng = Rng::new(seed);
    for _ in 0..RANDOM {
        see(&random(kind, &mut rng));
    }
    tally
}

/// Every number near a limit, behind each sign and some zeros.
fn near_limits(kind: &Kind, see: &mut impl FnMut(&[u8])) {
    for limit in kind.limits {
        for value in limit - 300..=limit + 300 {
            for sign in ["", "+", "-"] {
                for zeros in [0, 1, 2, 3, 5, 8, 17, 18, 19, 20, 21, 40, 1000] {
                    see(&spelled(sign, zeros, &value.unsigned_abs().to_string()));
                }
            }
        }
    }
}

fn spelled(sign: &str, zeros: usize, digits: &str) -> Vec<u8> {
    format!("{sign}{}{digits}", "0".repeat(zeros)).into_bytes()
}

/// A number, good or nearly; every third one is damaged.
fn random(kind: &Kind, rng: &mut Rng) -> Vec<u8> {
    let sign = rng.pick(SIGNS);
    let zeros = if rng.below(2) == 0 { 0 } else { rng.length() };
    let number = spelled(sign, zeros, &random_digits(kind, rng));
    match rng.below(3) {
        0 => rng.damaged(&number),
        _ => number,
    }
}

/// Digits of any count up to 25, or those of a limit with one of them changed, or with the last ones changed.
fn random_digits(kind: &Kind, rng: &mut Rng) -> String {
    let limit = rng.pick(&kind.limits).unsigned_abs().to_string();
    let at = rng.below(limit.len());
    match rng.below(4) {
        0 => limit[..at].to_string() + &any_digits(rng, 1) + &limit[at + 1..],
        1 => limit[..at].to_string() + &any_digits(rng, limit.len() - at),
        2 => limit[..at].to_string() + &any_digits(rng, limit.len() + 1 - at),
        _ => {
            let count = rng.below(26);
            any_digits(rng, count)
        }
    }
}

fn any_digits(rng: &mut Rng, count: usize) -> String {
    (0..count).map(|_| char::from(rng.pick(b"0123456789"))).collect()
}
