//! Rows of values, each for a record of the dump.

use std::ops::Range;

use nix_wire::ops::Op;
use nix_wire::script::Matcher;

/// A value of a record.
#[derive(Clone, Copy)]
pub enum Value<'a> {
    /// One number.
    Number(u64),
    /// One number: the operation's code, 0 where the case of its call says it.
    Operation(Option<Op>),
    /// Two numbers: start and length of a part of the text.
    Text(&'a str),
    /// Four numbers of a timestamp.
    Stamp(Option<Stamp<'a>>),
}

/// A timestamp, and how it is written in the text.
#[derive(Clone, Copy)]
pub struct Stamp<'a> {
    pub ms: f64,
    pub written: &'a str,
}

impl Value<'_> {
    /// How many numbers it takes.
    pub fn width(self) -> usize {
        match self {
            Value::Number(_) | Value::Operation(_) => 1,
            Value::Text(_) => 2,
            Value::Stamp(_) => 4,
        }
    }
}

impl Stamp<'_> {
    /// Whether there is one, whether it is negative, all digits as one number, and how many of them are decimals.
    pub fn numbers(stamp: Option<Stamp>) -> [u64; 4] {
        let Some(Stamp { written, .. }) = stamp else {
            return [0; 4];
        };
        let unsigned = written.strip_prefix(['+', '-']).unwrap_or(written);
        let (whole, decimals) = unsigned.split_once('.').unwrap_or((unsigned, ""));
        let digits = (whole.to_string() + decimals).parse().expect("a timestamp that is carried has 1 to 18 digits");
        [1, written.starts_with('-').into(), digits, decimals.len() as u64]
    }
}

/// The values of a record by their names; behind them all numbers are 0.
#[derive(Default)]
pub struct Row<'a> {
    pub values: Vec<(&'static str, Value<'a>)>,
    /// Where in the text the values stand that are parts of it.
    pub within: Range<usize>,
}

impl<'a> Row<'a> {
    pub fn within(within: Range<usize>) -> Row<'a> {
        Row {
            values: Vec::new(),
            within,
        }
    }

    /// The values with the places of their first numbers.
    pub fn placed(&self) -> impl Iterator<Item = (usize, &'static str, Value<'a>)> + '_ {
        let mut next = 0;
        self.values.iter().map(move |(name, value)| {
            let at = next;
            next += value.width();
            (at, *name, *value)
        })
    }

    pub fn number(mut self, name: &'static str, number: u64) -> Row<'a> {
        self.values.push((name, Value::Number(number)));
        self
    }

    pub fn flag(self, name: &'static str, flag: bool) -> Row<'a> {
        self.number(name, flag.into())
    }

    pub fn stamp(mut self, name: &'static str, stamp: Option<Stamp<'a>>) -> Row<'a> {
        self.values.push((name, Value::Stamp(stamp)));
        self
    }

    pub fn text(mut self, name: &'static str, text: &'a str) -> Row<'a> {
        self.values.push((name, Value::Text(text)));
        self
    }

    /// A text that may be missing: whether it is there, and its place.
    pub fn maybe(self, name: &'static str, text: &'a Option<String>) -> Row<'a> {
        self.flag(name, text.is_some()).text(name, text.as_deref().unwrap_or_default())
    }

    /// A range of a table, or a place of the store, behind what it has already; 0 and 0 if empty.
    pub fn behind(self, name: &'static str, before: usize, count: usize) -> Row<'a> {
        let first = if count == 0 { 0 } else { before };
        self.number(name, first as u64).number(name, count as u64)
    }

    /// The case of an operation's call, and the operation where the case has several.
    pub fn case(self, case: u64, op: Option<Op>) -> Row<'a> {
        let mut row = self.number("case", case);
        row.values.push(("operation", Value::Operation(op)));
        row
    }

    /// The case of a matcher, and its text or its number.
    pub fn matcher(self, matcher: &'a Matcher) -> Row<'a> {
        let ordering = |row: Row<'a>, case, number: i64| row.number("matcher", case).number("number", number as u64);
        match matcher {
            Matcher::Exact(text) => self.number("matcher", 1).text("exact", text),
            Matcher::Regex(pattern) => self.number("matcher", 2).text("regex", pattern),
            Matcher::GreaterThan(number) => ordering(self, 3, *number),
            Matcher::LessThan(number) => ordering(self, 4, *number),
            Matcher::GreaterOrEqual(number) => ordering(self, 5, *number),
            Matcher::LessOrEqual(number) => ordering(self, 6, *number),
        }
    }
}
