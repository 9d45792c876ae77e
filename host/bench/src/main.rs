//! Times the functions of the proved library beside Rust's, in one run.
//!
//! First each function on several texts of about 30,000 bytes, then each on its own text at several lengths: an even
//! row says that the time for a byte does not depend on the length. Then Measure and Read, on texts of their own, and at
//! last verdicts and messages.

mod measure;
mod read;
mod reference;
mod texts;
mod timing;
mod verdicts;

use std::hint::black_box;

use nix_wire::script::parse::parse_script;

/// A function of each side. Ours has room for what it decodes; Rust's makes its own.
struct Function {
    name: &'static str,
    ours: fn(&[u8], &mut [u8]) -> usize,
    rust: fn(&str) -> usize,
    /// The text that it is for, of a length.
    text: fn(usize) -> String,
}

const FUNCTIONS: [Function; 7] = [
    Function {
        name: "utf8",
        ours: |s, _| library::utf8(s).into(),
        rust: |s| std::str::from_utf8(s.as_bytes()).is_ok().into(),
        text: texts::cut_script,
    },
    Function {
        name: "trim",
        ours: |s, _| library::trim(s).1,
        rust: |s| s.trim().len(),
        text: texts::between_blanks,
    },
    Function {
        name: "lines, counted",
        ours: |s, _| library::count_lines(s),
        rust: |s| s.lines().count(),
        text: texts::cut_script,
    },
    Function {
        name: "lines, trimmed",
        ours: |s, _| library::trimmed_bytes(s),
        rust: |s| s.lines().map(|line| line.trim().len()).sum(),
        text: texts::cut_script,
    },
    Function {
        name: "hex",
        ours: |s, out| library::hex(s, out),
        rust: |s| black_box(reference::hex_decode(s)).len(),
        text: texts::hex_digits,
    },
    Function {
        name: "unquote",
        ours: |s, out| library::unquote(s, out),
        rust: |s| black_box(reference::unquote(s)).len(),
        text: texts::escaped,
    },
    Function {
        name: "u64",
        ours: |s, _| {
            let mut value = 0;
            library::parse_u64(s, &mut value);
            value as usize
        },
        rust: |s| s.parse::<u64>().unwrap_or(0) as usize,
        text: texts::digits,
    },
];

/// Nanoseconds for a call, ours and Rust's.
fn measured(function: &Function, text: &str) -> (f64, f64) {
    let mut out = vec![0; text.len()];
    let our_answer = (function.ours)(text.as_bytes(), &mut out);
    assert_eq!(our_answer, (function.rust)(text), "{}: only equal answers are timed", function.name);
    let mut ours = || {
        black_box((function.ours)(black_box(text.as_bytes()), black_box(&mut out)));
    };
    let mut rust = || {
        black_box((function.rust)(black_box(text)));
    };
    let [ours, rust] = timing::best([&mut ours, &mut rust]);
    (ours, rust)
}

const ABOUT: usize = 30_000;

fn print_texts() {
    let script = texts::script(ABOUT);
    assert!(parse_script(&script).is_ok(), "the realistic script is a script");
    let common = [
        ("a realistic script", script),
        ("much beyond ASCII", texts::beyond_ascii(ABOUT)),
        ("blank lines", texts::blank_lines(ABOUT)),
        ("one line of U+3000", texts::wide_blanks(ABOUT)),
    ];
    println!("function        text                  bytes    ours ns    Rust ns  ours ns/B  Rust ns/B   ratio");
    for function in &FUNCTIONS {
        print_row(function, "its own", &(function.text)(ABOUT));
        for (name, text) in &common {
            match function.name {
                "u64" => {}
                "unquote" => print_row(function, name, &texts::quoted(text)),
                _ => print_row(function, name, text),
            }
        }
    }
}

fn print_row(function: &Function, name: &str, text: &str) {
    let (ours, rust) = measured(function, text);
    let (function, bytes, ratio) = (function.name, text.len(), ours / rust);
    let (our_share, rust_share) = (ours / bytes as f64, rust / bytes as f64);
    print!("{function:<16}{name:<19}{bytes:>8}{ours:>11.0}{rust:>11.0}");
    println!("{our_share:>11.3}{rust_share:>11.3}{ratio:>8.2}");
}

const KILOBYTES: [usize; 6] = [1, 2, 4, 8, 16, 32];

fn print_lengths() {
    let columns: String = KILOBYTES.iter().map(|size| format!("{size:>6} KB")).collect();
    println!("function        ns/B  {columns}");
    for function in &FUNCTIONS {
        let (mut ours, mut rust) = (String::new(), String::new());
        for size in KILOBYTES {
            let bytes = size * 1024;
            let (our_time, rust_time) = measured(function, &(function.text)(bytes));
            ours += &format!("{:>9.3}", our_time / bytes as f64);
            rust += &format!("{:>9.3}", rust_time / bytes as f64);
        }
        println!("{:<16}ours  {ours}\n{:<16}Rust  {rust}", function.name, "");
    }
}

fn main() {
    print_texts();
    println!();
    print_lengths();
    println!();
    measure::print();
    println!();
    read::print();
    println!();
    verdicts::print();
}
