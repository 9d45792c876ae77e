//! Texts to measure on. All but the script have exactly the length asked for.

/// A script of plausible operations, in ASCII: whole entries until the length is reached.
pub fn script(len: usize) -> String {
    let mut text = PREAMBLE.to_string();
    let mut number = 0;
    while text.len() < len {
        text += &entry(number);
        number += 1;
    }
    text
}

const PREAMBLE: &str = "\
# nwscript v1
# daemon: 2.33.3
# trust: trusted
# server_features: { ca-derivations, realisation-with-path }
protocol: 1.38
features: { ca-derivations, realisation-with-path }
expect daemon: /2.33/
expect trust: trusted
expect server_features: /ca-derivations/
---
";

/// The operation goes by the number, and so do time stamp, paths and sizes.
fn entry(number: usize) -> String {
    let call = call(number, &path(number), &path(number + 1));
    let expected = match number % 5 {
        0 => "  expect: Last\n  expect result: 1\n".to_string(),
        1 => format!("  # took a while\n  expect: Last\n  expect result.narSize: > {}\n", number * 1000),
        2 => "  expect: Error\n  expect error: /is not valid/\n".to_string(),
        3 => "  expect: Last\n  expect stderr.count: <= 3\n\n".to_string(),
        _ => "  expect: Last\n".to_string(),
    };
    format!("@{}.{:03}ms {call}\n{expected}", number * 3, number * 37 % 1000)
}

fn call(number: usize, path: &str, other: &str) -> String {
    let size = format!("max_freed: {}", number * 4096);
    let data = format!("data: x\"{number:064x}\"");
    match number % 14 {
        0 => format!("IsValidPath {path}"),
        1 => format!("QueryPathInfo {path}"),
        2 => format!("AddTempRoot {path}"),
        3 => format!("QueryValidPaths {{ {path}, {other} }} substitute"),
        4 => block("AddTextToStore", &["suffix: \"setup.sh\"", "text: \"set -e\\nexport out=a\\n\"", "refs: {}"]),
        5 => "SyncWithGC".to_string(),
        6 => format!("BuildPaths {{ {path}!out }} normal"),
        7 => block("AddToStore", &["name: \"source\"", "cam_str: \"fixed:r:sha256\"", "repair: 0", &data]),
        8 => format!("QueryMissing {{ {path}!out, {other}!dev }}"),
        9 => block("SetOptions", &["verbosity: 3", "max_build_jobs: 4", "overrides:", "  \"cores\" = \"2\""]),
        10 => format!("QueryDerivationOutputMap {path}"),
        11 => block("CollectGarbage", &["action: 2", "paths: {}", "ignore_liveness: 0", &size]),
        12 => format!("AddSignatures {path} {{ cache.example.org-1:{number:040x} }}"),
        _ => "FindRoots".to_string(),
    }
}

/// An operation with its argument lines.
fn block(operation: &str, arguments: &[&str]) -> String {
    format!("{operation}\n  {}", arguments.join("\n  "))
}

/// A store path with a hash made from the number.
fn path(number: usize) -> String {
    let names = ["hello-2.12.1", "glibc-2.40-66", "bash-5.2p37", "stdenv-linux", "openssl-3.4.1.drv", "source"];
    let mut state = number as u64 + 1;
    let hash: String = (0..32).map(|_| hash_letter(&mut state)).collect();
    format!("/nix/store/{hash}-{}", names[number % names.len()])
}

/// The next of a row of letters from Nix's alphabet, by Knuth's generator.
fn hash_letter(state: &mut u64) -> char {
    *state = state.wrapping_mul(6_364_136_223_846_793_005).wrapping_add(1_442_695_040_888_963_407);
    b"0123456789abcdfghijklmnpqrsvwxyz"[(*state >> 59) as usize] as char
}

/// A script cut at the length.
pub fn cut_script(len: usize) -> String {
    script(len)[..len].to_string()
}

/// Lines with many characters of two to four bytes.
pub fn beyond_ascii(len: usize) -> String {
    repeated("Größe κόσμος строка 日本語テキスト 한국어 😀🚀\n", len)
}

pub fn blank_lines(len: usize) -> String {
    repeated("    \n", len)
}

/// One line of U+3000.
pub fn wide_blanks(len: usize) -> String {
    repeated("\u{3000}", len)
}

/// One line, a quarter of it blanks at each end.
pub fn between_blanks(len: usize) -> String {
    let blanks = " ".repeat(len / 4);
    format!("{blanks}{}{blanks}", "x".repeat(len - 2 * blanks.len()))
}

pub fn hex_digits(len: usize) -> String {
    repeated("0d00000000000000 6e69782d61726368 6976652d31000000 0123456789abcDEF ", len)
}

/// A quoted text with an escape in every six bytes or so.
pub fn escaped(len: usize) -> String {
    quoted(&repeated("set -e\\nexport \\\"out\\\"\\n\\tcp a\\\\b c\\r\\n", len - 2))
}

pub fn quoted(text: &str) -> String {
    format!("\"{text}\"")
}

/// A u64 behind leading zeros.
pub fn digits(len: usize) -> String {
    format!("{:0>len$}", u64::MAX)
}

/// The piece again and again between two others; it fits a whole number of times.
pub fn filled(before: &str, piece: &str, after: &str, len: usize) -> String {
    let room = len - before.len() - after.len();
    assert_eq!(room % piece.len(), 0, "{piece:?} fills {room} bytes");
    format!("{before}{}{after}", piece.repeat(room / piece.len()))
}

/// Argument lines whose keys are the numbers from 0, in hex.
pub fn many_keys(before: &str, count: usize) -> String {
    let lines: String = (0..count).map(|key| format!("\t{key:x}:\n")).collect();
    before.to_string() + &lines
}

/// The piece again and again; blanks where a whole one no longer fits.
fn repeated(piece: &str, len: usize) -> String {
    let text = piece.repeat(len / piece.len());
    let rest = len - text.len();
    text + &" ".repeat(rest)
}
