//! Unquoting, against the reference's `unquote`.

use nix_wire::script::OpCall;

use crate::decode::{Batch, Decoder};
use crate::gen::{each_word, letters, Rng};
use crate::report::Report;

const UNQUOTE: Decoder = Decoder {
    name: "unquote",
    len: library::unquoted_len,
    decode: library::unquote,
    admits: is_trimmed,
    entry: |value| format!("AddTextToStore\n  text: {value}\n"),
    decoded: |call| match call {
        OpCall::AddTextToStore { text, .. } => Some(text.as_bytes()),
        _ => None,
    },
    restated,
    class: |value, _| if is_quoted(value) { "quoted" } else { "not quoted" },
};

/// The reference trims before it unquotes, so ours is asked for trimmed values only. Of bytes that are no UTF-8 the
/// ends are looked at alone.
fn is_trimmed(value: &[u8]) -> bool {
    let text = String::from_utf8_lossy(value);
    text.trim().len() == text.len()
}

fn is_quoted(value: &[u8]) -> bool {
    value.len() >= 2 && value.starts_with(b"\"") && value.ends_with(b"\"")
}

fn restated(value: &[u8]) -> Vec<u8> {
    if !is_quoted(value) {
        return value.to_vec();
    }
    let inner = value[1..value.len() - 1].to_vec();
    let replacements = [(b'n', b'\n'), (b'r', b'\r'), (b't', b'\t'), (b'"', b'"'), (b'\\', b'\\')];
    replacements.into_iter().fold(inner, |s, (letter, byte)| replaced(&s, letter, byte))
}

/// s with byte wherever a backslash and the letter stood.
fn replaced(s: &[u8], letter: u8, byte: u8) -> Vec<u8> {
    let mut result = Vec::new();
    let mut rest = s;
    while let Some((first, after)) = rest.split_first() {
        if *first == b'\\' && after.first() == Some(&letter) {
            result.push(byte);
            rest = &after[1..];
        } else {
            result.push(*first);
            rest = after;
        }
    }
    result
}

const LETTERS: &str = "\\nrt\"a\n";

/// For random values: backslashes are frequent, so that runs of them are.
const PIECES: &str = "\\\\\\\\\\\\\\\\nnrrtt\"\"\"aN' \t\ré\u{3000}";

const RANDOM: usize = 1_000_000;

pub fn compare(seed: u64, report: &mut Report) {
    let mut batch = Batch::new(&UNQUOTE);
    each_word(&letters(LETTERS), 6, &mut |value| {
        batch.add(value);
        batch.add(&quoted(value));
    });
    let mut rng = Rng::new(seed);
    let pieces = letters(PIECES);
    for _ in 0..RANDOM {
        let count = rng.length();
        let value = quoted(&rng.word(&pieces, count));
        batch.add(&value);
        if rng.below(4) == 0 {
            batch.add(&rng.damaged(&value));
        }
    }
    report.add(batch.finish());
}

fn quoted(value: &[u8]) -> Vec<u8> {
    [b"\"", value, b"\""].concat()
}
