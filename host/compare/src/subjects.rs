//! Expectations, and responses and handshakes to judge them against.

use nix_wire::handshake::ProtocolVersion;
use nix_wire::protocol::HandshakeInfo;
use nix_wire::script::{DaemonResponse, ErrorInfo, Expect, Matcher, PathInfoResult, ResultData};

use crate::decisions::{random_number, random_part};
use crate::gen::{letters, Rng};
use crate::judged::{self, Subject};

/// What may stand in a text: letters, what a pattern takes for a sign, what joins a list, what is long in UTF-8.
const LETTERS: &str = "abz AZ019-/#&~!\"',:;<=>@_\t\r\n\0é\u{301}\u{3000}日😀\\.+*?()|[]{}^$";

/// Letters of paths: without any sign.
const SIMPLE: &str = "abcxyz0123456789-/_ ,";

/// Texts that mean something somewhere.
const WORDS: &[&str] = &[
    "Last",
    "Error",
    "unknown",
    "trusted",
    "not-trusted",
    "0",
    "1",
    "-1",
    "+7",
    "007",
    "-0",
    " 1",
    "1 ",
    "9223372036854775807",
    "9223372036854775808",
    "-9223372036854775808",
    "-9223372036854775809",
    "18446744073709551615",
    "[]",
    "{  }",
    "{}",
    ", ",
    "/nix/store/0c1h4nlkyc3ipqzr4vdnjgj3l9gq7f2x-sense-filter",
    "ca-derivations",
];

pub fn text(rng: &mut Rng) -> String {
    let of = if rng.below(3) == 0 { LETTERS } else { SIMPLE };
    match rng.below(8) {
        0 => String::new(),
        1 => rng.pick(WORDS).to_string(),
        2 => random_number(rng).to_string(),
        _ => {
            let count = rng.length();
            String::from_utf8(rng.word(&letters(of), count)).expect("letters are UTF-8")
        }
    }
}

/// A text, or none.
fn maybe(rng: &mut Rng) -> Option<String> {
    (rng.below(3) > 0).then(|| text(rng))
}

fn texts(rng: &mut Rng) -> Vec<String> {
    let count = match rng.below(50) {
        0 => rng.below(300),
        _ => rng.below(5),
    };
    (0..count).map(|_| text(rng)).collect()
}

/// A number: small, near a power of ten, near a limit, or any.
pub fn number(rng: &mut Rng) -> u64 {
    let near = |rng: &mut Rng, n: u64| n.wrapping_add(rng.below(5) as u64).wrapping_sub(2);
    match rng.below(6) {
        0 => rng.below(12) as u64,
        1 => {
            let power = 10u64.pow(rng.below(20) as u32);
            near(rng, power)
        }
        2 => near(rng, i64::MAX as u64),
        3 => near(rng, 0),
        4 => rng.any() >> rng.below(64),
        _ => rng.any(),
    }
}

fn maybe_number(rng: &mut Rng) -> Option<u64> {
    (rng.below(3) > 0).then(|| number(rng))
}

/// The kinds of results, as the rows number them.
pub const RESULTS: [&str; 12] = [
    "Absent",
    "U64",
    "Str",
    "PathInfo",
    "StringSet",
    "StringMap",
    "None",
    "CollectGarbage",
    "SubstitutablePathInfo",
    "Missing",
    "Framed",
    "Raw",
];

pub fn result(rng: &mut Rng, kind: usize) -> Option<ResultData> {
    Some(match RESULTS[kind] {
        "Absent" => return None,
        "U64" => ResultData::U64(number(rng)),
        "Str" => ResultData::Str(text(rng)),
        "PathInfo" => ResultData::PathInfo(PathInfoResult {
            valid: rng.below(2) == 0,
            deriver: maybe(rng),
            nar_hash: maybe(rng),
            references: (rng.below(3) > 0).then(|| texts(rng)),
            registration_time: maybe_number(rng),
            nar_size: maybe_number(rng),
            ultimate: Some(rng.below(2) == 0),
            sigs: None,
            ca: maybe(rng),
        }),
        "StringSet" => ResultData::StringSet(texts(rng)),
        "StringMap" => ResultData::StringMap(vec![(text(rng), text(rng))]),
        "None" => ResultData::None,
        "CollectGarbage" => ResultData::CollectGarbage {
            bytes_freed: number(rng),
        },
        "SubstitutablePathInfo" => ResultData::SubstitutablePathInfo {
            valid: rng.below(2) == 0,
            deriver: maybe(rng),
            refs: None,
            download_size: maybe_number(rng),
            nar_size: maybe_number(rng),
        },
        "Missing" => ResultData::Missing {
            will_build: texts(rng),
            will_substitute: Vec::new(),
            unknown: Vec::new(),
            download_size: number(rng),
            nar_size: number(rng),
        },
        "Framed" => ResultData::Framed(text(rng).into_bytes()),
        _ => ResultData::Raw(text(rng).into_bytes()),
    })
}

pub fn response(rng: &mut Rng, kind: usize) -> DaemonResponse {
    DaemonResponse {
        terminal: terminal(rng),
        stderr_count: number(rng),
        result: result(rng, kind),
        error: maybe(rng).map(|message| ErrorInfo {
            error_type: "Error".to_string(),
            level: 0,
            name: text(rng),
            message,
        }),
    }
}

fn terminal(rng: &mut Rng) -> String {
    match rng.below(4) {
        0 => text(rng),
        _ => rng.pick(&["Last", "Error", "last", "", "none"]).to_string(),
    }
}

pub fn info(rng: &mut Rng) -> HandshakeInfo {
    let mut version = || ProtocolVersion::new(rng.any() as u16, rng.any() as u8);
    let (client_version, server_version, negotiated_version) = (version(), version(), version());
    HandshakeInfo {
        client_version,
        server_version,
        negotiated_version,
        client_features: texts(rng),
        server_features: texts(rng),
        daemon_nix_version: maybe(rng),
        trust_status: match rng.below(6) {
            0 => None,
            1 => Some(0),
            2 => Some(1),
            3 => Some(2),
            4 => Some(3),
            _ => Some(number(rng)),
        },
    }
}

/// The names of fields that some result has.
pub const FIELDS: [&str; 7] = ["valid", "deriver", "narHash", "narSize", "references", "bytes_freed", "downloadSize"];

/// Names that no result has.
const OTHERS: &[&str] =
    &["", "Valid", "valid ", "narsize", "nar_size", "narSizes", "reference", "download_size", ":", "é"];

/// One of the names above, or any text.
fn other_field(rng: &mut Rng) -> String {
    match rng.below(3) {
        0 => text(rng),
        _ => rng.pick(OTHERS).to_string(),
    }
}

/// The kinds of expectations, from 1 on as the rows number them.
pub const EXPECTS: [&str; 8] =
    ["Terminal", "Result", "ResultField", "Error", "StderrCount", "Daemon", "Trust", "ServerFeatures"];

/// The kinds of matchers, from 1 on.
pub const MATCHERS: [&str; 6] = ["Exact", "Regex", "GreaterThan", "LessThan", "GreaterOrEqual", "LessOrEqual"];

/// An expectation of this kind with this kind of matcher, made to fit the value as often as not. A number of a field
/// beyond those above is another name.
pub fn expect(rng: &mut Rng, kind: usize, matcher: usize, field: usize, subject: &Subject) -> Expect {
    let placeholder = Matcher::LessThan(0);
    let expect = match EXPECTS[kind] {
        "Terminal" => return Expect::Terminal(terminal_for(rng, subject)),
        "Result" => Expect::Result {
            field: None,
            matcher: placeholder,
        },
        "ResultField" => Expect::Result {
            field: Some(FIELDS.get(field).map_or_else(|| other_field(rng), |name| name.to_string())),
            matcher: placeholder,
        },
        "Error" => Expect::Error { matcher: placeholder },
        "StderrCount" => Expect::StderrCount { matcher: placeholder },
        "Daemon" => Expect::Daemon { matcher: placeholder },
        "Trust" => Expect::Trust { matcher: placeholder },
        _ => Expect::ServerFeatures { matcher: placeholder },
    };
    let value = judged::value(&expect, subject).unwrap_or_else(|| text(rng));
    judged::with_matcher(&expect, random_matcher(rng, matcher, &value))
}

fn terminal_for(rng: &mut Rng, subject: &Subject) -> String {
    match subject {
        Subject::Response(response) if rng.below(2) == 0 => response.terminal.clone(),
        _ => terminal(rng),
    }
}

fn random_matcher(rng: &mut Rng, kind: usize, value: &str) -> Matcher {
    match MATCHERS[kind] {
        "Exact" => Matcher::Exact(match rng.below(4) {
            0 | 1 => value.to_string(),
            2 => random_part(rng, value),
            _ => text(rng),
        }),
        "Regex" => Matcher::Regex(match rng.below(4) {
            0 | 1 => random_part(rng, value),
            2 => value.chars().filter(|c| c.is_alphanumeric()).take(3).collect(),
            _ => text(rng),
        }),
        "GreaterThan" => Matcher::GreaterThan(number_for(rng, value)),
        "LessThan" => Matcher::LessThan(number_for(rng, value)),
        "GreaterOrEqual" => Matcher::GreaterOrEqual(number_for(rng, value)),
        _ => Matcher::LessOrEqual(number_for(rng, value)),
    }
}

/// A number near the value, if that is one.
fn number_for(rng: &mut Rng, value: &str) -> i64 {
    match value.parse::<i64>() {
        Ok(n) if rng.below(4) > 0 => n.saturating_add(rng.below(3) as i64 - 1),
        _ => random_number(rng),
    }
}
