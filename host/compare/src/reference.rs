//! What the reference says of a whole text, in the numbers of document 01.
//!
//! Its errors have no number and no line. The number goes by the message. The line is the smallest count of lines that
//! fail already: the reference walks the lines once, and the end of a text is never an error.

use std::ops::Range;
use std::str::from_utf8;

use library::{Counts, Measured};
use nix_wire::script::parse::parse_script;
use nix_wire::script::{FramedData, OpCall, Script};

/// The longest text that is carried; the reference has no limit.
pub const LONGEST: usize = 32_768;

const TOO_LONG: u64 = 1;
const NOT_UTF8: u64 = 2;
const NOT_CARRIED: u64 = 8;
const UNKNOWN_OPERATION: u64 = 9;
const UNCLOSED_BRACE: u64 = 10;

/// How the message of each refusal begins. The reference has none for a text that is too long, that is no UTF-8 or
/// that has a timestamp which is not carried.
const MESSAGES: [(&str, u64); 8] = [
    ("unexpected line in preamble (missing `---` delimiter?):", 3),
    ("unrecognized expect:", 4),
    ("bad number in", 5),
    ("malformed timestamp:", 6),
    ("bad timestamp", 7),
    ("unknown op:", UNKNOWN_OPERATION),
    ("unclosed path set brace", UNCLOSED_BRACE),
    ("unsupported data format:", 11),
];

/// What the reference says of a text: why it is refused and on which line (0 if on none), or its script.
pub enum Reading {
    Refused { number: u64, line: usize },
    Read(Script),
}

impl Reading {
    pub fn measured(&self) -> Measured {
        match self {
            Reading::Refused { number, line } => Measured::Refused {
                number: *number,
                line: *line,
            },
            Reading::Read(script) => Measured::Read(counts(script)),
        }
    }

    /// The operations of the entries: bit n is set if one has code n. None where the text is refused.
    pub fn operations(&self) -> u64 {
        match self {
            Reading::Refused { .. } => 0,
            Reading::Read(script) => script.entries.iter().fold(0, |bits, entry| bits | 1 << entry.op_call.op() as u64),
        }
    }
}

pub fn reading(bytes: &[u8]) -> Reading {
    if bytes.len() > LONGEST {
        return refused(TOO_LONG, 0);
    }
    match from_utf8(bytes) {
        Ok(text) => Beginnings::of(text).reading(),
        Err(_) => refused(NOT_UTF8, 0),
    }
}

fn refused(number: u64, line: usize) -> Reading {
    Reading::Refused { number, line }
}

fn number(message: &str) -> u64 {
    let known = MESSAGES.iter().find(|(beginning, _)| message.starts_with(beginning));
    known.unwrap_or_else(|| panic!("the reference fails with an unknown message: {message}")).1
}

/// A text of which the first lines are parsed, some or all.
pub struct Beginnings<'a> {
    pub text: &'a str,
    /// Where each line ends.
    ends: Vec<usize>,
}

impl<'a> Beginnings<'a> {
    pub fn of(text: &'a str) -> Beginnings<'a> {
        let mut end = 0;
        let past = |line: &str| {
            end += line.len();
            end
        };
        Beginnings {
            text,
            ends: text.split_inclusive('\n').map(past).collect(),
        }
    }

    fn reading(&self) -> Reading {
        let parsed = parse_script(self.text).map_err(|error| (number(&error.to_string()), self.failing_line()));
        if let Some(line) = self.not_carried(parsed.as_ref().err()) {
            return refused(NOT_CARRIED, line);
        }
        match parsed {
            Err((number, line)) => refused(number, line),
            Ok(script) => Reading::Read(script),
        }
    }

    fn failing_line(&self) -> usize {
        self.ends.partition_point(|end| parse_script(&self.text[..*end]).is_ok()) + 1
    }

    /// The first line that opens an entry with an f64 which is not carried, if none above it is refused.
    fn not_carried(&self, refusal: Option<&(u64, usize)>) -> Option<usize> {
        let last = refusal.map_or(self.ends.len(), |(_, line)| *line);
        let opens = |line: usize| match refusal {
            // A line with a timestamp is refused so only as an opening line.
            Some((number, refused)) if *refused == line => matches!(*number, UNKNOWN_OPERATION | UNCLOSED_BRACE),
            _ => self.entries(line - 1) < self.entries(line),
        };
        (1..=last).find(|line| stamp(self.line(*line)).is_some_and(is_not_carried) && opens(*line))
    }

    fn end(&self, lines: usize) -> usize {
        lines.checked_sub(1).map_or(0, |last| self.ends[last])
    }

    /// Where a line stands, its ending with it. Past the last one there is an empty line.
    pub fn range(&self, line: usize) -> Range<usize> {
        match self.ends.get(line - 1) {
            Some(end) => self.end(line - 1)..*end,
            None => self.text.len()..self.text.len(),
        }
    }

    pub fn line(&self, line: usize) -> &'a str {
        &self.text[self.range(line)]
    }

    /// How many entries so many lines have.
    fn entries(&self, lines: usize) -> usize {
        self.held(lines).entries
    }

    /// What so many lines hold; nothing where they are refused.
    fn held(&self, lines: usize) -> Held {
        parse_script(&self.text[..self.end(lines)]).map_or(Held::default(), |script| Held::by(&script))
    }

    /// The lines of a text that is read which open an entry or have an expectation.
    pub fn lines(&self) -> Lines {
        let mut lines = Lines::default();
        let last = self.ends.len();
        self.add_lines(&mut lines, (0, Held::default()), (last, self.held(last)));
        lines
    }

    /// Adds those below some lines and up to others, given what these and those hold.
    fn add_lines(&self, lines: &mut Lines, above: (usize, Held), last: (usize, Held)) {
        if above.1 == last.1 {
            return;
        }
        if last.0 - above.0 > 1 {
            let middle = above.0.midpoint(last.0);
            let middle = (middle, self.held(middle));
            self.add_lines(lines, above, middle);
            return self.add_lines(lines, middle, last);
        }
        if above.1.entries < last.1.entries {
            lines.entries.push(last.0);
        }
        if above.1.expectations < last.1.expectations {
            lines.expectations.push(last.0);
        }
    }
}

/// How many entries and expectations some lines have.
#[derive(Clone, Copy, Default, PartialEq, Eq)]
struct Held {
    entries: usize,
    expectations: usize,
}

impl Held {
    fn by(script: &Script) -> Held {
        let below: usize = script.entries.iter().map(|entry| entry.expects.len()).sum();
        Held {
            entries: script.entries.len(),
            expectations: script.preamble.expects.len() + below,
        }
    }
}

/// The lines of the entries and those of the expectations, in their order.
#[derive(Default)]
pub struct Lines {
    pub entries: Vec<usize>,
    pub expectations: Vec<usize>,
}

/// What stands between `@` and the first `ms`.
pub fn stamp(line: &str) -> Option<&str> {
    let (stamp, _) = line.trim().strip_prefix('@')?.split_once("ms")?;
    Some(stamp)
}

/// An f64 to Rust, but not an optional sign and 1 to 18 digits with at most one dot.
fn is_not_carried(stamp: &str) -> bool {
    let unsigned = stamp.strip_prefix(['+', '-']).unwrap_or(stamp);
    let digits = unsigned.bytes().filter(u8::is_ascii_digit).count();
    let dots = unsigned.bytes().filter(|byte| *byte == b'.').count();
    let is_carried = digits + dots == unsigned.len() && dots <= 1 && (1..=18).contains(&digits);
    !is_carried && stamp.parse::<f64>().is_ok()
}

pub fn counts(script: &Script) -> Counts {
    let preamble = &script.preamble;
    let server_features = preamble.server_features.as_ref().map_or(0, Vec::len);
    let all = |count: fn(&OpCall) -> usize| script.entries.iter().map(|entry| count(&entry.op_call)).sum::<usize>();
    let Held { entries, expectations } = Held::by(script);
    Counts {
        entries,
        items: preamble.client_features.len() + server_features + all(items),
        expectations,
        store: all(store_bytes),
    }
}

/// Members of lists; an override has a name and a value.
fn items(call: &OpCall) -> usize {
    match call {
        OpCall::PathSet { paths, .. }
        | OpCall::PathSetFlag { paths, .. }
        | OpCall::PathSetMode { paths, .. }
        | OpCall::CollectGarbage { paths, .. }
        | OpCall::QuerySubstitutablePathInfos { paths } => paths.len(),
        OpCall::AddTextToStore { refs, .. } | OpCall::AddToStore { refs, .. } => refs.len(),
        OpCall::AddSignatures { sigs, .. } => sigs.len(),
        OpCall::SetOptions { overrides, .. } => 2 * overrides.len(),
        OpCall::SinglePath { .. }
        | OpCall::SingleString { .. }
        | OpCall::NoArgs { .. }
        | OpCall::VerifyStore { .. }
        | OpCall::AddPermRoot { .. }
        | OpCall::AddMultipleToStore { .. }
        | OpCall::AddBuildLog { .. }
        | OpCall::RegisterDrvOutput { .. }
        | OpCall::QueryRealisation { .. }
        | OpCall::QuerySubstitutablePathInfo { .. }
        | OpCall::RawBytes { .. } => 0,
    }
}

/// Bytes of the values that were unquoted or hex.
fn store_bytes(call: &OpCall) -> usize {
    match call {
        OpCall::AddTextToStore { suffix, text, .. } => suffix.len() + text.len(),
        OpCall::AddToStore {
            name, cam_str, data, ..
        } => name.len() + cam_str.len() + inline_bytes(data),
        OpCall::AddMultipleToStore { data, .. } | OpCall::AddBuildLog { data, .. } => inline_bytes(data),
        OpCall::RawBytes { data, .. } => data.len(),
        OpCall::SinglePath { .. }
        | OpCall::SingleString { .. }
        | OpCall::PathSet { .. }
        | OpCall::PathSetFlag { .. }
        | OpCall::PathSetMode { .. }
        | OpCall::NoArgs { .. }
        | OpCall::SetOptions { .. }
        | OpCall::CollectGarbage { .. }
        | OpCall::VerifyStore { .. }
        | OpCall::AddPermRoot { .. }
        | OpCall::AddSignatures { .. }
        | OpCall::RegisterDrvOutput { .. }
        | OpCall::QueryRealisation { .. }
        | OpCall::QuerySubstitutablePathInfo { .. }
        | OpCall::QuerySubstitutablePathInfos { .. } => 0,
    }
}

fn inline_bytes(data: &FramedData) -> usize {
    match data {
        FramedData::Inline(bytes) => bytes.len(),
        FramedData::FileRef(_) => 0,
    }
}
