//! What each matcher decides of a value, against the reference's `expect daemon: <matcher>` on a handshake whose daemon
//! gave that value.

use nix_wire::handshake::ProtocolVersion;
use nix_wire::protocol::HandshakeInfo;
use nix_wire::script::expect::evaluate_handshake_expects;
use nix_wire::script::{Expect, Matcher};

use library::Order;

use crate::gen::{each_word, letters, Rng};
use crate::report::{Finding, Report, Tally};

/// A pattern with one of these is no plain one.
const SIGNS: &[char] = &['\\', '.', '+', '*', '?', '(', ')', '|', '[', ']', '{', '}', '^', '$'];

pub fn is_plain(pattern: &str) -> bool {
    !pattern.contains(SIGNS)
}

pub const PASSED: u8 = 1;
pub const FAILED: u8 = 2;
pub const UNDECIDED: u8 = 3;

/// The word for a verdict; ours may give a number that is none.
pub fn class(verdict: u8) -> &'static str {
    match verdict {
        PASSED => "passed",
        FAILED => "failed",
        UNDECIDED => "undecided",
        _ => "no verdict",
    }
}

/// A handshake of which nothing is known.
pub fn silent() -> HandshakeInfo {
    let version = ProtocolVersion::new(1, 38);
    HandshakeInfo {
        client_version: version,
        server_version: version,
        negotiated_version: version,
        client_features: Vec::new(),
        server_features: Vec::new(),
        daemon_nix_version: None,
        trust_status: None,
    }
}

fn rust(matcher: Matcher, value: &str) -> u8 {
    let info = HandshakeInfo {
        daemon_nix_version: Some(value.to_string()),
        ..silent()
    };
    let results = evaluate_handshake_expects(&[Expect::Daemon { matcher }], &info);
    if results[0].passed {
        PASSED
    } else {
        FAILED
    }
}

fn same(ours: u8, rust: u8) -> Finding {
    if ours == rust {
        Ok(class(rust))
    } else {
        Err(format!("ours {}, Rust's {}", class(ours), class(rust)))
    }
}

/// Stands between the two texts of an input: no UTF-8 has this byte.
const BETWEEN: u8 = 0xFF;

fn paired(first: &str, second: &str) -> Vec<u8> {
    [first.as_bytes(), &[BETWEEN], second.as_bytes()].concat()
}

/// The two texts of an input, where it is such a pair.
fn pair(input: &[u8]) -> Option<(&str, &str)> {
    let at = input.iter().position(|byte| *byte == BETWEEN)?;
    let text = |bytes| std::str::from_utf8(bytes).ok();
    Some((text(&input[..at])?, text(&input[at + 1..])?))
}

/// A part of a pair that was made shorter is no case.
const NO_CASE: Finding = Ok("no case");

fn check_exact(input: &[u8]) -> Finding {
    let Some((text, value)) = pair(input) else {
        return NO_CASE;
    };
    let ours = library::exact(text.as_bytes(), value.as_bytes());
    same(ours, rust(Matcher::Exact(text.to_string()), value))
}

fn check_pattern(input: &[u8]) -> Finding {
    let Some((pattern, value)) = pair(input) else {
        return NO_CASE;
    };
    let ours = library::pattern(pattern.as_bytes(), value.as_bytes());
    if is_plain(pattern) {
        same(ours, rust(Matcher::Regex(pattern.to_string()), value))
    } else {
        // Document 01: with one of the signs the verdict is undecided.
        same(ours, UNDECIDED)
    }
}

const ORDERS: [(Order, fn(i64) -> Matcher); 4] = [
    (Order::GreaterThan, Matcher::GreaterThan),
    (Order::LessThan, Matcher::LessThan),
    (Order::GreaterOrEqual, Matcher::GreaterOrEqual),
    (Order::LessOrEqual, Matcher::LessOrEqual),
];

/// The order and the number stand in front of the value, the number in decimal.
fn check_order(input: &[u8]) -> Finding {
    let Some((front, value)) = pair(input) else {
        return NO_CASE;
    };
    let Some((order, n)) = front.split_once(' ') else {
        return NO_CASE;
    };
    let (Ok(order), Ok(n)) = (order.parse::<usize>(), n.parse::<i64>()) else {
        return NO_CASE;
    };
    let Some((order, matcher)) = ORDERS.get(order) else {
        return NO_CASE;
    };
    same(library::ordering(*order, n, value.as_bytes()), rust(matcher(n), value))
}

/// Letters that a plain pattern may have, and that other editions of regular expressions, or parts of this one, take
/// for more; and what is long or odd in UTF-8.
const PLAIN: &str = "ab AZ09-/#&~!\"'%,:;<=>@_`\t\r\n\0\u{7F}é\u{301}\u{3000}日😀\u{FEFF}\u{202E}ßſKİ";

const SOME_SIGNS: &str = "\\.+*?()|[]{}^$";

/// For every short pair: an overlap within a pattern is `aa` and `aba`.
const FEW: &str = "ab é";

const RANDOM: usize = 1_000_000;

pub fn compare(seed: u64, report: &mut Report) {
    report.add(compare_exact(seed));
    report.add(compare_patterns(seed));
    report.add(compare_orders(seed));
}

/// Shows `see` every pair of short texts.
fn each_pair(see: &mut impl FnMut(&[u8])) {
    each_word(&letters(FEW), 3, &mut |first| {
        each_word(&letters(FEW), 4, &mut |second| see(&[first, &[BETWEEN], second].concat()));
    });
}

fn random_text(rng: &mut Rng, letters: &[&[u8]]) -> String {
    let count = rng.length();
    String::from_utf8(rng.word(letters, count)).expect("letters are UTF-8")
}

/// A part of the text that begins and ends between characters.
pub fn random_part(rng: &mut Rng, text: &str) -> String {
    let places: Vec<usize> = (0..=text.len()).filter(|at| text.is_char_boundary(*at)).collect();
    let (one, other) = (rng.pick(&places), rng.pick(&places));
    text[one.min(other)..one.max(other)].to_string()
}

fn compare_exact(seed: u64) -> Tally {
    let mut tally = Tally::new("exact");
    each_pair(&mut |input| tally.check(input, check_exact));
    let mut rng = Rng::new(seed);
    let all = letters(PLAIN);
    for _ in 0..RANDOM {
        let value = random_text(&mut rng, &all);
        let text = match rng.below(3) {
            0 => value.clone(),
            1 => random_part(&mut rng, &value),
            _ => String::from_utf8(rng.damaged(value.as_bytes())).unwrap_or_else(|_| value.clone()),
        };
        tally.check(&paired(&text, &value), check_exact);
    }
    tally
}

fn compare_patterns(seed: u64) -> Tally {
    let mut tally = Tally::new("pattern");
    let mut see = |pattern: &str, value: &str| tally.check(&paired(pattern, value), check_pattern);
    // Every character as a pattern: those that are no sign are plain to the reference as well.
    for character in '\0'..=char::MAX {
        let pattern = character.to_string();
        see(&pattern, &format!("a{character}b"));
        if character.is_ascii() {
            see(&pattern, "");
            each_ascii(&mut |other| {
                see(&format!("{character}{other}"), &format!("{character}{other}"));
                see(&format!("{character}{other}"), &format!("{other}{character}a"));
            });
        }
    }
    each_pair(&mut |input| tally.check(input, check_pattern));
    random_patterns(seed, &mut tally);
    tally
}

fn each_ascii(see: &mut impl FnMut(char)) {
    for other in '\0'..='\x7F' {
        see(other);
    }
}

fn random_patterns(seed: u64, tally: &mut Tally) {
    let mut rng = Rng::new(seed);
    let all = letters(PLAIN);
    let more = PLAIN.to_string() + SOME_SIGNS;
    let with_signs = letters(&more);
    for _ in 0..RANDOM {
        let of = if rng.below(3) == 0 { &with_signs } else { &all };
        let value = random_text(&mut rng, of);
        let pattern = match rng.below(8) {
            0 => random_text(&mut rng, &with_signs),
            1 => random_text(&mut rng, &all),
            2 => String::from_utf8(rng.damaged(value.as_bytes())).unwrap_or_default(),
            3 => random_part(&mut rng, &value) + &random_part(&mut rng, &value),
            _ => random_part(&mut rng, &value),
        };
        tally.check(&paired(&pattern, &value), check_pattern);
    }
    for len in LONG {
        let value = "ab".repeat(len);
        for pattern in [&value[1..], &value[..len], &"b".repeat(len), &("ab".repeat(len / 2) + "c")] {
            tally.check(&paired(pattern, &value), check_pattern);
        }
    }
}

/// Lengths of long patterns, up to that of a whole text.
const LONG: [usize; 5] = [1_000, 5_000, 10_000, 16_384, 32_768];

/// Numbers near which the values and the matchers' numbers lie.
const NEAR: [i128; 6] = [0, i64::MAX as i128, i64::MIN as i128, u64::MAX as i128, 1_000_000_007, -10_000];

fn compare_orders(seed: u64) -> Tally {
    let mut tally = Tally::new("order");
    let mut see = |n: i64, value: &str| {
        for order in 0..ORDERS.len() {
            tally.check(&paired(&format!("{order} {n}"), value), check_order);
        }
    };
    for n in NEAR {
        let Ok(n) = i64::try_from(n) else { continue };
        each_word(&letters("019+- "), 4, &mut |value| see(n, std::str::from_utf8(value).expect("ASCII")));
    }
    let mut rng = Rng::new(seed);
    for _ in 0..RANDOM / 4 {
        let n = random_number(&mut rng);
        see(n, &random_value(&mut rng, n));
    }
    tally
}

/// A number near one of those above, or any.
pub fn random_number(rng: &mut Rng) -> i64 {
    match rng.below(4) {
        0 => rng.any() as i64,
        _ => {
            let near = rng.pick(&NEAR) + rng.below(5) as i128 - 2;
            near.clamp(i64::MIN.into(), i64::MAX.into()) as i64
        }
    }
}

/// The spelling of a number near n, perhaps with zeros and a sign; or nearly one.
fn random_value(rng: &mut Rng, n: i64) -> String {
    let value = match rng.below(3) {
        0 => i128::from(random_number(rng)),
        _ => i128::from(n) + rng.below(5) as i128 - 2,
    };
    let digits = value.unsigned_abs().to_string();
    let sign = match value {
        i128::MIN..=-1 => "-",
        _ => rng.pick(&["", "", "+", "-"]),
    };
    let zeros = "0".repeat(if rng.below(4) == 0 { rng.below(30) } else { 0 });
    let spelled = format!("{sign}{zeros}{digits}");
    match rng.below(8) {
        0 => spelled + rng.pick(&[" ", ".0", "e3", "x", "\n"]),
        1 => rng.pick(&[" ", "0x", "--", "+-", "\t"]).to_string() + &spelled,
        _ => spelled,
    }
}
