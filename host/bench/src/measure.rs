//! Measure beside the reference's `parse_script`. Measure tests the text's length and its UTF-8 as well; the reference
//! builds the script.

use std::hint::black_box;

use library::Measured;
use nix_wire::script::parse::parse_script;
use nix_wire::script::Script;

use crate::{texts, timing};

pub fn print() {
    println!("measure{:<52}bytes  ours ns/B  Rust ns/B   ratio", "");
    for (name, text) in named_texts() {
        print_row(name, &text);
    }
}

/// A realistic script, then texts that are all of one thing.
pub fn named_texts() -> Vec<(&'static str, String)> {
    let mut texts = vec![("a realistic, 30 KB", texts::script(30_000))];
    for (name, counts, text) in cases() {
        assert_eq!(counted(&text), counts, "{name}: bytes, lines, entries, expectations");
        texts.push((name, text));
    }
    texts
}

fn print_row(name: &str, text: &str) {
    let [bytes, _, entries, expectations] = counted(text);
    match library::measure(text.as_bytes()) {
        Measured::Read(counts) => assert_eq!([counts.entries, counts.expectations], [entries, expectations], "{name}"),
        refused => panic!("{name}: {refused:?}"),
    }
    let mut ours = || {
        black_box(library::measure(black_box(text.as_bytes())));
    };
    let mut rust = || {
        black_box(parse_script(black_box(text)).is_ok());
    };
    let [ours, rust] = timing::best([&mut ours, &mut rust]);
    let (our_share, rust_share) = (ours / bytes as f64, rust / bytes as f64);
    println!("{name:<56}{bytes:>8}{our_share:>11.3}{rust_share:>11.3}{:>8.2}", ours / rust);
}

/// Bytes, lines, entries and expectations, by the reference.
fn counted(text: &str) -> [usize; 4] {
    let Script { preamble, entries } = parse_script(text).expect("only texts that are read are timed");
    let expectations: usize = entries.iter().map(|entry| entry.expects.len()).sum();
    [text.len(), text.lines().count(), entries.len(), preamble.expects.len() + expectations]
}

/// Texts that are all of one thing: many lines (b) or long ones (c).
fn cases() -> Vec<(&'static str, [usize; 4], String)> {
    let case = |name, counts: [usize; 4], before: &str, piece: &str, after: &str| {
        (name, counts, texts::filled(before, piece, after, counts[0]))
    };
    let options = "---\nSetOptions\n";
    vec![
        case("b1 32,768 empty lines (all LF)", [32768, 32768, 0, 0], "", "\n", ""),
        case("b2 `#` lines in the preamble", [32768, 16384, 0, 0], "", "#\n", ""),
        case("b3 one-blank lines below an entry's `---`", [32768, 16383, 0, 0], "---\n", " \n", ""),
        case("b4 tab lines below an entry", [32768, 16379, 1, 0], "---\nFindRoots\n", "\t\n", ""),
        case("b5 `\\tx` argument lines of SetOptions", [32766, 10919, 1, 0], options, "\tx\n", ""),
        case("b6 `\\t:` argument lines of SetOptions", [32766, 10919, 1, 0], options, "\t:\n", ""),
        case("b7 `expect:` lines", [32768, 4096, 0, 4096], "", "expect:\n", ""),
        case("b8 FindRoots lines", [32764, 3277, 3276, 0], "---\n", "FindRoots\n", ""),
        (
            "b9 `\\tN:` argument lines of SetOptions, keys all differ",
            [32761, 5304, 1, 0],
            texts::many_keys(options, 5302),
        ),
        case("c1 one comment line", [32768, 1, 0, 0], "#", "a", ""),
        case("c2 one line of blanks", [32768, 1, 0, 0], "", " ", ""),
        case("c3 one line of U+3000", [32766, 1, 0, 0], "", "\u{3000}", ""),
        case("c4 one path set of empty items", [32768, 2, 1, 0], "---\nBuildPaths {", ",", "}"),
        case("c5 one path set of `a` items", [32768, 2, 1, 0], "---\nBuildPaths {a", ",a", "}"),
        case("c6 one text of `\\\\n`", [32768, 3, 1, 0], "---\nAddTextToStore\n  text: \"", "\\\\n", "\""),
        case("c7 one hex value", [32767, 3, 1, 0], "---\nBuildDerivation\n  raw x\"", "0a", "\""),
        case("c8 one path", [32768, 2, 1, 0], "---\nIsValidPath ", "a", ""),
        case("c9 one expectation", [32768, 1, 0, 1], "expect: ", "a", ""),
        case("c10 one line of features", [32767, 1, 0, 0], "features:", " a", ""),
    ]
}
