//! Changes of a text: cuts, lines moved, White_Space exchanged, line ends, bytes that are no UTF-8.

use crate::gen::{letters, Rng};
use crate::text::WHITE_SPACE;
use crate::written::BROKEN;

/// Shows `see` the text cut at every byte.
pub fn each_cut(text: &[u8], see: &mut impl FnMut(&[u8])) {
    for end in 0..text.len() {
        see(&text[..end]);
    }
}

/// Shows `see` the text with each of these changes at each of its places.
pub fn each(text: &[u8], see: &mut impl FnMut(&[u8])) {
    each_cut(text, see);
    let lines: Vec<&[u8]> = text.split_inclusive(|byte| *byte == b'\n').collect();
    for line in 0..lines.len() {
        see(&without(&lines, line));
        see(&doubled(&lines, line));
        see(&swapped(&lines, line, line + 1));
    }
    for white in letters(WHITE_SPACE) {
        each_white(text, white, see);
    }
    for ending in ENDINGS {
        see(&replaced(text, b'\n', ending));
    }
    see(&[BOM, text].concat());
}

/// What may stand at the end of a line.
const ENDINGS: &[&[u8]] = &[b"\r\n", b"\r\r\n", b"\n\r", b"\r", b"\n\n", b"\n\r\n", b" \n", b"\n  \n"];

const BOM: &[u8] = "\u{FEFF}".as_bytes();

/// The White_Space in place of each blank, and at the end of each line.
fn each_white(text: &[u8], white: &[u8], see: &mut impl FnMut(&[u8])) {
    for (at, byte) in text.iter().enumerate() {
        match byte {
            b' ' | b'\t' => see(&put(text, at, 1, white)),
            b'\n' => see(&put(text, at, 0, white)),
            _ => {}
        }
    }
}

/// The text with one random change.
pub fn random(rng: &mut Rng, text: &[u8]) -> Vec<u8> {
    let at = rng.below(text.len() + 1);
    match rng.below(12) {
        0 => text[..at].to_vec(),
        1 | 2 => rng.damaged(text),
        3 => put(text, at, 0, rng.pick(BROKEN)),
        4 => put(text, at, 0, BOM),
        5 => put(text, at, 1, sign(rng)),
        6 => put(text, at, 0, sign(rng)),
        7 => replaced(text, b'\n', rng.pick(ENDINGS)),
        8 | 9 => random_white(rng, text),
        _ => random_lines(rng, text),
    }
}

/// What has a meaning somewhere: characters, and longer pieces.
const SIGNS: &str = " \t\n\r:{},\"\\@#.-/><=+09aé\u{3000}";
const PIECES: &[&[u8]] = &[b"  ", b"\r\n", b"\n\n", b"\n  ", b"\n---\n", b"ms", b"x\"", b"expect"];

fn sign(rng: &mut Rng) -> &'static [u8] {
    match rng.below(3) {
        0 => rng.pick(PIECES),
        _ => rng.pick(&letters(SIGNS)),
    }
}

/// White_Space in place of one blank, or at the end of one line.
fn random_white(rng: &mut Rng, text: &[u8]) -> Vec<u8> {
    let is_place = |at: &usize| matches!(text[*at], b' ' | b'\t' | b'\n');
    let places: Vec<usize> = (0..text.len()).filter(is_place).collect();
    if places.is_empty() {
        return text.to_vec();
    }
    let at = rng.pick(&places);
    let taken = usize::from(text[at] != b'\n');
    put(text, at, taken, rng.pick(&letters(WHITE_SPACE)))
}

/// A line dropped, doubled, or exchanged with another.
fn random_lines(rng: &mut Rng, text: &[u8]) -> Vec<u8> {
    let lines: Vec<&[u8]> = text.split_inclusive(|byte| *byte == b'\n').collect();
    if lines.is_empty() {
        return text.to_vec();
    }
    let (line, other) = (rng.below(lines.len()), rng.below(lines.len()));
    match rng.below(3) {
        0 => without(&lines, line),
        1 => doubled(&lines, line),
        _ => swapped(&lines, line, other),
    }
}

/// The text with a piece in place of as many bytes as are taken, fewer at its end.
fn put(text: &[u8], at: usize, taken: usize, piece: &[u8]) -> Vec<u8> {
    [&text[..at], piece, &text[text.len().min(at + taken)..]].concat()
}

fn replaced(text: &[u8], old: u8, new: &[u8]) -> Vec<u8> {
    text.split(|byte| *byte == old).collect::<Vec<_>>().join(new)
}

fn without(lines: &[&[u8]], line: usize) -> Vec<u8> {
    [&lines[..line], &lines[line + 1..]].concat().concat()
}

fn doubled(lines: &[&[u8]], line: usize) -> Vec<u8> {
    [&lines[..line], &lines[line..=line], &lines[line..]].concat().concat()
}

/// Past the last line there is none to exchange with.
fn swapped(lines: &[&[u8]], line: usize, other: usize) -> Vec<u8> {
    let mut lines = lines.to_vec();
    if other < lines.len() {
        lines.swap(line, other);
    }
    lines.concat()
}
