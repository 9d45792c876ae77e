//! Where the reference takes a value from. It gives strings only; but where a value stands more than once in the text,
//! a change of one of these places shows whether it is the one: the value changes with it.

use std::ops::Range;

use nix_wire::script::parse::parse_script;

use crate::layout::Tables;
use crate::reference::{counts, Beginnings, Lines};

/// A text that is read, and its values that are parts of it, in the order of the dump.
pub struct Source<'a> {
    pub text: &'a Beginnings<'a>,
    pub lines: &'a Lines,
    pub texts: Vec<&'a str>,
}

impl Source<'_> {
    /// Whether a value, which stands at this place, is taken from it. It is taken from within a part of the text.
    pub fn is_taken_from(&self, value: usize, start: usize, within: &Range<usize>) -> bool {
        self.places(value, within).len() == 1 || self.changes_with(value, start)
    }

    /// Where a value is taken from, if that can be seen.
    pub fn place(&self, value: usize, within: &Range<usize>) -> Option<usize> {
        match self.places(value, within)[..] {
            [only] => Some(only),
            ref places => places.iter().copied().find(|start| self.changes_with(value, *start)),
        }
    }

    /// All places where the value stands.
    fn places(&self, value: usize, within: &Range<usize>) -> Vec<usize> {
        let (text, value) = (self.text.text.as_bytes(), self.texts[value].as_bytes());
        within.clone().filter(|start| text[*start..within.end].starts_with(value)).collect()
    }

    /// Whether the value has another first character once there is another one at this place.
    fn changes_with(&self, value: usize, start: usize) -> bool {
        let text = self.text.text;
        let Some(first) = text[start..].chars().next() else {
            return false;
        };
        let (other, behind) = (other(first), first.len_utf8());
        let changed = [&text[..start], other, &text[start + behind..]].concat();
        let expected = [other, &self.texts[value][behind..]].concat();
        let Ok(script) = parse_script(&changed) else {
            return false;
        };
        let held = counts(&script);
        let is_alike = [held.entries, held.expectations] == [self.lines.entries.len(), self.lines.expectations.len()];
        let texts = || Tables::read(&Beginnings::of(&changed), self.lines, &script).texts().get(value).copied();
        is_alike && texts() == Some(&expected)
    }
}

/// Another character of the same length, a letter or a sign that means nothing in a script.
fn other(character: char) -> &'static str {
    let [one, another] = match character.len_utf8() {
        1 => ["q", "z"],
        2 => ["ß", "ø"],
        3 => ["€", "語"],
        _ => ["😀", "🚀"],
    };
    if one.starts_with(character) {
        another
    } else {
        one
    }
}
