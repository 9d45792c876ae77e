//! Texts about as long as is carried.

use crate::gen::Rng;
use crate::reference::LONGEST;
use crate::{changes, scripts};

/// Shows `see` each text.
pub fn each(rng: &mut Rng, see: &mut impl FnMut(&[u8])) {
    for (before, filling, after) in FILLED {
        for len in LONGEST - 3..=LONGEST + 3 {
            see(&filled(before, filling.as_bytes(), after, len));
        }
    }
    for _ in 0..LONG {
        let len = rng.below(LONGEST);
        let script = scripts::long_script(rng, len);
        see(script.as_bytes());
        see(&changes::random(rng, script.as_bytes()));
    }
    for _ in 0..TOO_LONG {
        let len = LONGEST + 1 + rng.length();
        see(&too_long(rng, len));
    }
}

const LONG: usize = 400;

const TOO_LONG: usize = 1_500;

/// What is filled to the length, by what, and what stands behind it. A filling is cut where it ends: one of several
/// bytes to a character is no UTF-8 then.
const FILLED: &[(&str, &str, &str)] = &[
    ("", "\n", ""),
    ("", "\n", "x"),
    ("", " ", ""),
    ("", "\u{3000}", ""),
    ("#", "é", "\n"),
    ("", "#\n", ""),
    ("features:", " a", ""),
    ("", "expect:\n", ""),
    ("---\n", "FindRoots\n", ""),
    ("---\n", "FindRoots\n", "\n@1e3ms FindRoots"),
    ("---\nFindRoots\n", "\t\n", "\texpect: >"),
    ("---\nBuildPaths {", ",", "}"),
    ("---\nBuildPaths {", ",", ""),
    ("---\nSetOptions\n\toverrides:\n", "\t\"\"=\"\"\n", ""),
    ("---\nSetOptions\n", "\t:\n", ""),
    ("---\nAddTextToStore\n\ttext:", "a", ""),
    ("---\nAddTextToStore\n\ttext:\"", "\\\\n", "\""),
    ("---\nBuildDerivation\n\traw x\"", "0a", "\""),
    ("---\nAddBuildLog\n\tdata:x\"", "0a", "\"\n\tdata:"),
];

fn filled(before: &str, filling: &[u8], after: &str, len: usize) -> Vec<u8> {
    let room = len - before.len() - after.len();
    let filling: Vec<u8> = filling.iter().copied().cycle().take(room).collect();
    [before.as_bytes(), &filling, after.as_bytes()].concat()
}

/// A script, or any bytes, of this length.
fn too_long(rng: &mut Rng, len: usize) -> Vec<u8> {
    let piece = match rng.below(4) {
        0 => vec![0xFF],
        _ => scripts::script(rng).into_bytes(),
    };
    piece.iter().copied().chain([b'\n']).cycle().take(len).collect()
}
