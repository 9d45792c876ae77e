//! Hex, against the reference's `hex_decode`.

use nix_wire::script::OpCall;

use crate::decode::{Batch, Decoder};
use crate::gen::{all_bytes, each_word, letters, Rng};
use crate::report::Report;

const HEX: Decoder = Decoder {
    name: "hex",
    len: library::hex_len,
    decode: library::hex,
    admits: |_| true,
    // The closing quote keeps the value's own end from being trimmed. The reference takes away all quotes at the end,
    // the value's own too; that changes nothing, since a pair with a quote is no byte and an odd last one is dropped.
    entry: |value| format!("BuildDerivation\n  raw x\"{value}\"\n"),
    decoded: |call| match call {
        OpCall::RawBytes { data, .. } => Some(data),
        _ => None,
    },
    restated,
    class: |_, decoded| if decoded.is_empty() { "to no byte" } else { "to bytes" },
};

/// A character is told by its first byte; bytes 80 to BF begin none.
fn restated(value: &[u8]) -> Vec<u8> {
    let begins = |byte: &u8| !(0x80..=0xBF).contains(byte);
    let characters: Vec<u8> = value.iter().copied().filter(|byte| *byte != b' ' && begins(byte)).collect();
    let byte = |pair: &[u8]| u8::from_str_radix(std::str::from_utf8(pair).ok()?, 16).ok();
    characters.chunks_exact(2).filter_map(byte).collect()
}

/// Digits, what looks like one, and what shifts the pairs.
const LETTERS: &[&[u8]] = &[b"0", b"9", b"a", b"F", b"g", b"+", b"\"", b" ", "é".as_bytes(), b"\x80", b"\xC3"];

/// For random values: mostly digits, so that many pairs are bytes; then blanks, and the bytes beside the digits.
const DIGITS: &str = "0123456789abcdefABCDEF0f  +-/:@G`g\"\té\u{3000}";

const RANDOM: usize = 1_000_000;

pub fn compare(seed: u64, report: &mut Report) {
    let mut batch = Batch::new(&HEX);
    each_word(LETTERS, 5, &mut |value| batch.add(value));
    each_word(&all_bytes(), 2, &mut |value| batch.add(value));
    let mut rng = Rng::new(seed);
    let digits = letters(DIGITS);
    for _ in 0..RANDOM {
        let count = rng.length();
        let value = rng.word(&digits, count);
        batch.add(&value);
        if rng.below(4) == 0 {
            batch.add(&rng.damaged(&value));
        }
    }
    report.add(batch.finish());
}
