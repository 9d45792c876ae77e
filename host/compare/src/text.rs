//! UTF-8, trimming and lines, against Rust's `str`.

use std::str::from_utf8;

use crate::gen::{all_bytes, each_word, letters, Rng};
use crate::report::{Finding, Report, Tally};

const RANDOM: usize = 1_300_000;

/// The 25 White_Space characters.
pub const WHITE_SPACE: &str =
    "\t\n\u{B}\u{C}\r \u{85}\u{A0}\u{1680}\u{2000}\u{2001}\u{2002}\u{2003}\u{2004}\u{2005}\u{2006}\
    \u{2007}\u{2008}\u{2009}\u{200A}\u{2028}\u{2029}\u{202F}\u{205F}\u{3000}";

/// Those just before and after them.
const NEIGHBOURS: &str =
    "\u{8}\u{E}\u{1F}!\u{84}\u{86}\u{9F}\u{A1}\u{167F}\u{1681}\u{1FFF}\u{200B}\u{2027}\u{202A}\u{202E}\
    \u{2030}\u{205E}\u{2060}\u{2FFF}\u{3001}";

/// Those that look blank, or are to other languages.
const LOOKALIKES: &str = "\u{1C}\u{1D}\u{1E}\u{180E}\u{2800}\u{FEFF}";

/// Others, of one to four bytes.
const OTHERS: &str = "aZ\0\u{7F}é\u{7FF}\u{800}\u{FFFD}\u{10000}\u{10FFFF}";

pub fn compare(seed: u64, report: &mut Report) {
    report.add(compare_utf8(seed));
    report.add(compare_trim(seed));
    report.add(compare_lines(seed));
}

fn each_character(see: &mut impl FnMut(char)) {
    ('\0'..=char::MAX).for_each(see);
}

/// All of the characters above.
fn pieces() -> Vec<&'static [u8]> {
    [WHITE_SPACE, NEIGHBOURS, LOOKALIKES, OTHERS].into_iter().flat_map(letters).collect()
}

/// Texts of random pieces; every third one is damaged, mostly so that it is no UTF-8.
fn random_texts(seed: u64, pieces: &[&[u8]], see: &mut impl FnMut(&[u8])) {
    let mut rng = Rng::new(seed);
    for _ in 0..RANDOM {
        let count = rng.length();
        let text = rng.word(pieces, count);
        match rng.below(3) {
            0 => see(&rng.damaged(&text)),
            _ => see(&text),
        }
    }
}

// UTF-8

/// The first and the last byte of each range of Unicode's table 3-7, and the bytes beside them.
const EDGES: [u8; 24] = [
    0x00, 0x7F, 0x80, 0x8F, 0x90, 0x9F, 0xA0, 0xBF, 0xC0, 0xC1, 0xC2, 0xDF, 0xE0, 0xE1, 0xEC, 0xED, 0xEE, 0xEF, 0xF0,
    0xF1, 0xF3, 0xF4, 0xF5, 0xFF,
];

fn check_utf8(s: &[u8]) -> Finding {
    match (library::utf8(s), from_utf8(s).is_ok()) {
        (true, true) => Ok("well-formed"),
        (false, false) => Ok("not well-formed"),
        (ours, rust) => Err(format!("ours {ours}, Rust's {rust}")),
    }
}

fn compare_utf8(seed: u64) -> Tally {
    let mut tally = Tally::new("utf8");
    let mut see = |s: &[u8]| tally.check(s, check_utf8);
    each_word(&all_bytes(), 3, &mut see);
    each_word(&EDGES.map(|edge| [edge]), 5, &mut see);
    each_character(&mut |character| see(character.encode_utf8(&mut [0; 4]).as_bytes()));
    in_ascii(&mut see);
    random_texts(seed, &pieces(), &mut see);
    tally
}

/// A few bytes at each place of a run of ASCII, since such runs may be tested many bytes at a time.
fn in_ascii(see: &mut impl FnMut(&[u8])) {
    let middles: [&[u8]; 9] = [
        b"\x80",
        b"\xBF",
        b"\xC3",
        b"\xFF",
        b"\xC3\xA9",
        b"\xE3\x80\x80",
        b"\xE3\x80",
        b"\xF0\x90\x80\x80",
        b"\xF0\x90\x80",
    ];
    for middle in middles {
        for before in 0..70 {
            for after in 0..70 {
                see(&[&vec![b'a'; before], middle, &vec![b'a'; after]].concat());
            }
        }
    }
}

// Trimming

/// White_Space of each length in bytes, and what is none.
const BLANKS: &str = " \t\u{85}\u{A0}\u{1680}\u{2003}\u{3000}aé\u{200B}";

/// White_Space whole and cut.
const BROKEN: &[&[u8]] =
    &[b" ", b"\xE3\x80\x80", b"a", b"\x80", b"\x85", b"\xA0", b"\xC2", b"\xE2\x80", b"\xE3", b"\x80\x80"];

/// The place of a text that is empty once trimmed is free, and so is the answer where the bytes are no UTF-8; both
/// must still be a part of s.
fn check_trim(s: &[u8]) -> Finding {
    let (start, len) = library::trim(s);
    if start > s.len() || len > s.len() - start {
        return Err(format!("ours start {start}, length {len}: no part of {} bytes", s.len()));
    }
    let Ok(text) = from_utf8(s) else {
        return Ok("not UTF-8");
    };
    let trimmed = text.trim();
    let rust = trimmed.as_ptr() as usize - text.as_ptr() as usize;
    if len != trimmed.len() || (len > 0 && start != rust) {
        return Err(format!("ours start {start}, length {len}; Rust's start {rust}, length {}", trimmed.len()));
    }
    Ok(match len {
        0 => "empty",
        _ if len == s.len() => "as it was",
        _ => "shorter",
    })
}

fn compare_trim(seed: u64) -> Tally {
    let mut tally = Tally::new("trim");
    let mut see = |s: &[u8]| tally.check(s, check_trim);
    each_word(&pieces(), 3, &mut see);
    each_word(&letters(BLANKS), 5, &mut see);
    each_word(BROKEN, 4, &mut see);
    each_character(&mut |c| see(format!("{c}{c}a{c}").as_bytes()));
    random_texts(seed, &pieces(), &mut see);
    tally
}

// Lines

/// What ends a line, what ends one elsewhere, and blanks.
const ENDINGS: &str = "\n\r \t\u{B}\u{85}\u{A0}\u{2028}\u{3000}a";

/// Where the bytes are no UTF-8 Rust has no answer: lines are then counted by their LF, and what trimming leaves is
/// no more than there was.
fn check_lines(s: &[u8]) -> Finding {
    let ours = (library::count_lines(s), library::trimmed_bytes(s));
    let (rust, class) = match from_utf8(s) {
        Ok(text) => ((text.lines().count(), text.lines().map(|line| line.trim().len()).sum()), line_class(s)),
        Err(_) => ((count_by_bytes(s), ours.1.min(s.len())), "not UTF-8"),
    };
    if ours == rust {
        Ok(class)
    } else {
        Err(format!("ours {} lines, {} bytes trimmed; Rust's {}, {}", ours.0, ours.1, rust.0, rust.1))
    }
}

fn line_class(s: &[u8]) -> &'static str {
    match s.last() {
        None => "empty",
        Some(b'\n') => "ending in LF",
        Some(_) => "ending otherwise",
    }
}

fn count_by_bytes(s: &[u8]) -> usize {
    let ended = s.iter().filter(|byte| **byte == b'\n').count();
    ended + usize::from(!s.is_empty() && !s.ends_with(b"\n"))
}

fn compare_lines(seed: u64) -> Tally {
    let mut tally = Tally::new("lines");
    let mut see = |s: &[u8]| tally.check(s, check_lines);
    each_word(&letters(ENDINGS), 5, &mut see);
    let mut pieces = pieces();
    // Ends of lines are few among the other pieces.
    pieces.extend([&b"\n"[..], b"\n", b"\r\n", b"\r\n", b"\n\n", b"\r\r\n", b"  word", b"word  "]);
    random_texts(seed, &pieces, &mut see);
    tally
}
