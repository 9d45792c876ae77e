//! Random scripts by their grammar, right ones and wrong ones.

use nix_wire::ops::Op;

use crate::gen::Rng;
use crate::written::operations;

/// A random script of a few lines. Of three, two have no flaw on purpose.
pub fn script(rng: &mut Rng) -> String {
    let flaws = rng.pick(&[0, 0, 0, 0, 3, 12]);
    Scribe { rng, flaws }.script()
}

/// A random script without a flaw on purpose, of whole entries up to a length.
pub fn long_script(rng: &mut Rng, len: usize) -> String {
    let mut scribe = Scribe { rng, flaws: 0 };
    let mut lines = vec!["---".to_string()];
    let mut bytes = 0;
    while bytes < len {
        let first = lines.len();
        scribe.entry(&mut lines);
        bytes += lines[first..].iter().map(|line| line.len() + 2).sum::<usize>();
    }
    scribe.ended(&lines)
}

/// Writes a script. Of 100 choices between right and wrong, `flaws` are wrong.
struct Scribe<'a> {
    rng: &'a mut Rng,
    flaws: usize,
}

/// What the value of a key is.
#[derive(Clone, Copy)]
enum Kind {
    Number,
    Flag,
    Set,
    Text,
    Data,
    Overrides,
}

impl Scribe<'_> {
    fn one_in(&mut self, n: usize) -> bool {
        self.rng.below(n) == 0
    }

    fn is_flawed(&mut self) -> bool {
        self.rng.below(100) < self.flaws
    }

    fn one_of(&mut self, from: &[&str]) -> String {
        self.rng.pick(from).to_string()
    }

    /// One of the right ones, or, where there is to be a flaw, of the wrong ones.
    fn right_or_wrong(&mut self, right: &[&str], wrong: &[&str]) -> String {
        let from = if self.is_flawed() { wrong } else { right };
        self.one_of(from)
    }

    /// A word of fewer than `limit` of the letters.
    fn word(&mut self, letters: &str, limit: usize) -> String {
        let letters: Vec<char> = letters.chars().collect();
        (0..self.rng.below(limit)).map(|_| self.rng.pick(&letters)).collect()
    }

    // Lines

    fn script(&mut self) -> String {
        let mut lines = Vec::new();
        for _ in 0..self.rng.below(5) {
            lines.push(self.preamble_line());
        }
        if !self.one_in(20) {
            lines.push(self.right_or_wrong(DELIMITERS, &["----", "--", "", "#---", "---\u{FEFF}"]));
            for _ in 0..self.rng.below(4) {
                self.entry(&mut lines);
            }
        }
        self.ended(&lines)
    }

    /// The lines with their endings, all alike or not.
    fn ended(&mut self, lines: &[String]) -> String {
        let endings = self.rng.pick(ENDINGS);
        let mut text = String::new();
        for line in lines {
            text += line;
            text += self.rng.pick(endings);
        }
        if self.one_in(4) {
            text.truncate(text.trim_end_matches('\n').len());
        }
        text
    }

    fn indented(&mut self, line: &str) -> String {
        self.right_or_wrong(INDENTS, &["", " ", " \t", "\u{3000}\u{3000}", "\u{A0} ", "\u{2003}"]) + line
    }

    fn preamble_line(&mut self) -> String {
        if self.is_flawed() {
            return self.one_of(WRONG_PREAMBLE);
        }
        match self.rng.below(8) {
            0 | 1 => format!("features:{}", self.features()),
            2 => self.one_of(&["# ", "#", "## ", "#\u{3000}", "# # "]) + "server_features:" + &self.features(),
            3 | 4 => self.expectation(&["expect ", "expect ", "expect  ", "expect \t"]),
            _ => self.one_of(PREAMBLE),
        }
    }

    fn features(&mut self) -> String {
        let count = self.rng.below(5);
        let items: Vec<String> = (0..count).map(|_| self.item()).collect();
        match self.rng.below(4) {
            0 => format!(" {}", items.join(" ")),
            1 => format!(" {{{}", items.join(",")),
            2 => items.join("\u{3000}"),
            _ => format!(" {{ {} }}{}", items.join(", "), self.rng.pick(&["", "", "", "}", " a", " "])),
        }
    }

    /// A member of a list; it may be empty.
    fn item(&mut self) -> String {
        match self.rng.below(3) {
            0 => self.word("ab/ \u{3000}", 5),
            1 => self.word("/nixstore0-.!é{\"=:#", 9),
            _ => self.one_of(&["", " ", "a", "/nix/store/abc-x", "ca-derivations"]),
        }
    }

    fn entry(&mut self, lines: &mut Vec<String>) {
        let op = self.operation();
        let arguments = self.arguments(op);
        let name = self.right_or_wrong(&[op.name()], WRONG_NAMES);
        let line = self.stamp() + &name + &arguments;
        lines.push(if self.one_in(12) { self.indented(&line) } else { line });
        self.block(op, lines);
        for _ in 0..self.rng.below(4) {
            lines.push(self.line_of_entry());
        }
        while self.one_in(3) {
            lines.push(self.right_or_wrong(&["", "# c", " ", " # c", "\u{3000}", "#nwscript"], WRONG_NAMES));
        }
    }

    fn operation(&mut self) -> Op {
        let all: Vec<Op> = operations().collect();
        // Those with argument lines have more to try.
        match self.rng.below(3) {
            0 => self.rng.pick(BLOCKS),
            _ => self.rng.pick(&all),
        }
    }

    /// A blank, a comment or an expectation that belongs to the entry above.
    fn line_of_entry(&mut self) -> String {
        let line = match self.rng.below(6) {
            0 => self.right_or_wrong(&["", "# c", "# nwscript v1", "#expect", "\u{3000}"], &["foo: 1", "FindRoots"]),
            1 => self.expectation(&["expect", "expect\t", "expect\u{3000}"]),
            _ => self.expectation(&["expect "]),
        };
        self.indented(&line)
    }

    // The opening line

    /// A timestamp with what parts it from the operation, or nothing.
    fn stamp(&mut self) -> String {
        if !self.one_in(3) {
            return String::new();
        }
        let gap = self.rng.pick(&[" ", " ", "", "  ", "\t", "\u{3000}"]);
        if self.is_flawed() {
            return format!("@{}{gap}", self.wrong_stamp());
        }
        let sign = self.rng.pick(&["", "", "+", "-"]);
        let whole = 1 + self.rng.below(9);
        let digits = self.digits(whole);
        let end = self.rng.pick(&["", ".", ".5", ".000", ".123456789"]);
        format!("@{sign}{digits}{end}ms{gap}")
    }

    fn wrong_stamp(&mut self) -> String {
        match self.rng.below(6) {
            0 => self.one_of(&["", "1", "5s", "0.5 m s"]),
            1 => self.word("01.eE+-infa ", 7) + "ms",
            2 => self.one_of(&["infms", "-INFms", "nanms", "+infinityms", "1e3ms", "1.5E-7ms", ".5e+09ms"]),
            3 => {
                let count = 17 + self.rng.below(4);
                self.digits(count) + self.rng.pick(&["ms", ".ms", ".0ms", "e1ms"])
            }
            _ => self.one_of(&["ms", ".ms", "+ms", " 1ms", "1 ms", "1ems", "0x1ms", "1..0ms", "1_0ms", "1msms"]),
        }
    }

    fn digits(&mut self, count: usize) -> String {
        (0..count).map(|_| self.rng.pick(&['0', '1', '9', '5'])).collect()
    }

    fn arguments(&mut self, op: Op) -> String {
        match op {
            Op::BuildPaths
            | Op::BuildPathsWithResults
            | Op::QueryValidPaths
            | Op::QuerySubstitutablePaths
            | Op::QuerySubstitutablePathInfos
            | Op::QueryMissing => format!(" {}{}", self.set(), self.rng.pick(&["", " substitute", "repair", " } x"])),
            Op::AddSignatures => format!(" {} {}", self.rng.pick(&["/a", "{a", "{a,", "a}"]), self.set()),
            _ => match self.rng.below(3) {
                0 => String::new(),
                1 => self.one_of(&[" /nix/store/a", " a  b", " {a", " café", "  ", " \u{3000}x"]),
                _ => format!(" {}", self.item()),
            },
        }
    }

    /// A path set; a wrong one is not closed.
    fn set(&mut self) -> String {
        let count = self.rng.below(5);
        let items: Vec<String> = (0..count).map(|_| self.item().replace('{', "")).collect();
        let items = items.join(self.rng.pick(&[",", ", ", " ,"]));
        match self.rng.below(6) {
            0 => items,
            _ => format!("{{{items}{}", self.right_or_wrong(&["}", " }", "}}"], &["", " ", ")"])),
        }
    }

    // Argument lines

    fn block(&mut self, op: Op, lines: &mut Vec<String>) {
        if !BLOCKS.contains(&op) {
            return;
        }
        for _ in 0..self.rng.below(6) {
            let line = match op {
                Op::BuildDerivation | Op::AddToStoreNar => self.raw_line(),
                _ => self.argument_line(op),
            };
            let is_last = matches!(op, Op::AddBuildLog if line.starts_with("data")) || line.starts_with("raw x\"");
            lines.push(self.indented(&line));
            while line.starts_with("overrides") && !self.one_in(3) {
                let pair = self.pair();
                lines.push(self.indented(&pair));
            }
            // More lines would not be of the block, mostly a flaw.
            if is_last && !self.is_flawed() {
                return;
            }
        }
    }

    fn raw_line(&mut self) -> String {
        match self.rng.below(4) {
            0 => self.one_of(&["raw", "raw  x\"00\"", "raw: x\"00\"", "raw x'00'", "data: 1", "refs: {", "Raw x\"0\""]),
            _ => format!("raw x\"{}", self.hex()),
        }
    }

    fn argument_line(&mut self, op: Op) -> String {
        let colon = self.rng.pick(&[": ", ": ", ":", " : ", ":\t", ":\u{3000}"]);
        let from = match self.rng.below(24) {
            0 => return self.one_of(&["foo", "data", "{", "FindRoots", "\"a\" = \"b\""]),
            1..=3 => return self.right_or_wrong(UNKNOWN_KEYS, &["expected", "expects "]) + colon + &self.text(),
            // A key that another operation takes.
            4..=6 => self.rng.pick(BLOCKS),
            _ => op,
        };
        let (key, kind) = self.rng.pick(keys(from));
        format!("{key}{colon}{}", self.value(kind))
    }

    fn value(&mut self, kind: Kind) -> String {
        match kind {
            Kind::Number => self.one_of(&["0", "1", "+3", "x", "", "18446744073709551616", "007", "-0"]),
            Kind::Flag => self.one_of(&["0", "1", "00", "", "false"]),
            Kind::Set => self.set(),
            Kind::Text => self.text(),
            Kind::Data => self.data(),
            Kind::Overrides => self.one_of(&["", "", "\"a\" = \"b\""]),
        }
    }

    fn text(&mut self) -> String {
        let inner = self.word("\\\\\\nrt\"aé \u{3000}:", 9);
        match self.rng.below(4) {
            0 => inner,
            1 => format!("\"{inner}"),
            _ => format!("\"{inner}\""),
        }
    }

    fn data(&mut self) -> String {
        if self.is_flawed() {
            return self.one_of(&["", "00", "X\"00\"", "\"00\"", "x'00'", "@file", "@File:a", "x \"00\""]);
        }
        match self.rng.below(5) {
            0 => format!("@file:{}", self.item()),
            _ => format!("x\"{}", self.hex()),
        }
    }

    fn hex(&mut self) -> String {
        let digits = self.word("0123456789abcdefABCDEF  +-g\"\té\u{3000}", 14);
        digits + self.rng.pick(&["\"", "\"", "", "\"\"", " \""])
    }

    /// A line of the overrides, good or not.
    fn pair(&mut self) -> String {
        match self.rng.below(4) {
            0 => self.one_of(&["\"a\" = b", "\"a\" : \"b\"", "\"a", "\"a\" = \"", "foo", "verbosity: 1", "overrides:"]),
            1 => format!("\"{}\"=\"{}\" x", self.word("a =:\\é", 4), self.word("a =:\\é", 4)),
            _ => format!("\"{}\" = \"{}\"", self.word("abc", 4), self.word("abc", 4)),
        }
    }

    // Expectations

    /// An expectation behind one of these beginnings, or `expect:`.
    fn expectation(&mut self, beginnings: &[&str]) -> String {
        if self.is_flawed() {
            return self.one_of(WRONG_EXPECTATIONS);
        }
        let beginning = self.rng.pick(beginnings);
        match self.rng.below(6) {
            0 => format!("expect:{}", self.rng.pick(&["", " Last", " Error", " > x", " /a/"])),
            1 => format!("{beginning}result.{}:{}", self.word("ab. ", 4), self.matcher()),
            _ => format!("{beginning}{}{}", self.rng.pick(EXPECTED), self.matcher()),
        }
    }

    fn matcher(&mut self) -> String {
        match self.rng.below(4) {
            0 => self.word(" a1/é", 5),
            1 => format!(" /{}/", self.word("a./ é", 5)),
            _ => {
                let sign = self.one_of(&[" >", "<", " >=", "\u{3000}<="]);
                let gap = self.rng.pick(&["", " ", "\t"]);
                sign + gap + &self.right_or_wrong(NUMBERS, WRONG_NUMBERS)
            }
        }
    }
}

const DELIMITERS: &[&str] = &["---", "---", "---", " ---", "--- \t"];

/// Line ends of a text; where there are several, each line has any of them.
const ENDINGS: &[&[&str]] = &[&["\n"], &["\n"], &["\n"], &["\r\n"], &["\n", "\r\n", " \n", "\t\r\n"]];

const INDENTS: &[&str] = &["  ", "  ", "  ", "  ", "\t", "    ", "  \t", "\t ", "  \u{3000}"];

const PREAMBLE: &[&str] = &[
    "",
    "  ",
    "# nwscript v1",
    "#",
    "## c",
    "# daemon: 2.33.3",
    "# daemon:",
    "# trust: trusted",
    "# features: a b",
    "protocol: 1.38",
    "protocol:1.256",
    "  protocol: x",
    "features:",
];

const WRONG_PREAMBLE: &[&str] = &[
    "protocol : 1.3",
    "server_features: a",
    "----",
    "expect",
    "expectresult: 1",
    "expect\tresult: 1",
    "FindRoots",
    "IsValidPath /a",
    "\u{FEFF}# nwscript v1",
    "@1ms FindRoots",
    "foo",
    "  data: x\"00\"",
];

/// What is no operation.
const WRONG_NAMES: &[&str] = &["Nope", "findRoots", "IsValidPath\t/a", "# nwscript v1", "---", "expect: a", ":"];

/// Operations that take argument lines.
const BLOCKS: &[Op] = &[
    Op::SetOptions,
    Op::CollectGarbage,
    Op::VerifyStore,
    Op::AddTextToStore,
    Op::AddToStore,
    Op::AddMultipleToStore,
    Op::AddBuildLog,
    Op::BuildDerivation,
    Op::AddToStoreNar,
];

fn keys(op: Op) -> &'static [(&'static str, Kind)] {
    match op {
        Op::SetOptions => OPTIONS,
        Op::CollectGarbage => &[
            ("action", Kind::Number),
            ("paths", Kind::Set),
            ("paths", Kind::Set),
            ("ignore_liveness", Kind::Number),
            ("max_freed", Kind::Number),
        ],
        Op::VerifyStore => &[("check_contents", Kind::Flag), ("repair", Kind::Flag)],
        Op::AddTextToStore => &[("suffix", Kind::Text), ("text", Kind::Text), ("refs", Kind::Set)],
        Op::AddToStore => &[
            ("name", Kind::Text),
            ("cam_str", Kind::Text),
            ("refs", Kind::Set),
            ("repair", Kind::Flag),
            ("data", Kind::Data),
        ],
        Op::AddMultipleToStore => &[("repair", Kind::Flag), ("dont_check_sigs", Kind::Flag), ("data", Kind::Data)],
        _ => &[("data", Kind::Data), ("date", Kind::Text), ("data x", Kind::Text)],
    }
}

const OPTIONS: &[(&str, Kind)] = &[
    ("keep_failed", Kind::Number),
    ("keep_going", Kind::Number),
    ("try_fallback", Kind::Number),
    ("verbosity", Kind::Number),
    ("max_build_jobs", Kind::Number),
    ("max_silent_time", Kind::Number),
    ("use_build_hook", Kind::Number),
    ("verbose_build", Kind::Number),
    ("log_type", Kind::Number),
    ("print_build_trace", Kind::Number),
    ("build_cores", Kind::Number),
    ("use_substitutes", Kind::Number),
    ("overrides", Kind::Overrides),
    ("overrides", Kind::Overrides),
    ("overrides", Kind::Overrides),
    ("overrides", Kind::Overrides),
];

const UNKNOWN_KEYS: &[&str] =
    &["foo", "", "Data", "refs2", "ref", "name x", "texts", "@1ms", "{a", "é", "raw", "over rides"];

const EXPECTED: &[&str] =
    &["result:", "result :", "error:", "stderr.count:", "daemon:", "trust:", "server_features:", "result .a:"];

/// In the preamble some of them are refused as another kind of line.
const WRONG_EXPECTATIONS: &[&str] = &[
    "expect",
    "expected: 1",
    "expect foo: 1",
    "expect foo: > x",
    "expect result",
    "expect result.a",
    "expect resultx: 1",
    "expect error : x",
    "expect stderr.count : 1",
    "expect trust : x",
    "expect daemon",
    "expect Result: 1",
];

const NUMBERS: &[&str] = &["0", "5", "+7", "-3", "007", "9223372036854775807", "-9223372036854775808", "-0"];

const WRONG_NUMBERS: &[&str] =
    &["", "x", "= 5", "+", "--1", "1 2", "1.5", "0x1", "9223372036854775808", "-9223372036854775809", "١", "1e3"];
