//! The sample's texts for Read. One line for each,
//!
//!     read ENTRIES ITEMS EXPECTATIONS STORE TEXT BYTES NUMBER..
//!
//! with what is lent of each table; an `x` and the text in hex; an `x` and the lent bytes of the store in hex, as they
//! are after the call; and all numbers of the dump, in its order. All of it is the reference's: a text is left out where
//! it cannot be seen from where a value is taken.

use std::collections::{HashMap, HashSet};

use library::Counts;

use crate::dump::encoded;
use crate::gen::Rng;
use crate::layout::Tables;
use crate::lending::Lending;
use crate::read::{traced, Case};
use crate::row::{Row, Value};
use crate::{sample, written};

/// The longest text, and the most numbers of a dump.
const LONGEST: usize = 300;
const NUMBERS: usize = 500;

pub fn print(seed: u64) {
    let mut rng = Rng::new(seed);
    let mut sample = Sample::default();
    written::each(&mut |text| sample.add(text, Lending::random(&mut rng), true));
    while !sample.is_whole() {
        let text = sample::random(&mut rng);
        sample.add(&text, Lending::random(&mut rng), false);
    }
}

/// What a text shows: a refusal, an operation by its code, the case of an expectation or of a matcher.
#[derive(Clone, Copy, PartialEq, Eq, Hash)]
enum Shown {
    Refusal(u64),
    Operation(u64),
    Expectation(u64),
    Matcher(u64),
}

impl Shown {
    /// In so many texts it is to be seen.
    fn least(self) -> usize {
        match self {
            Shown::Refusal(21..) => 25,
            Shown::Refusal(_) | Shown::Operation(_) | Shown::Expectation(_) | Shown::Matcher(_) => 8,
        }
    }

    /// All that is to be seen; the text of refusal 1 is too long.
    fn all() -> impl Iterator<Item = Shown> {
        let operations = written::operations().map(|op| Shown::Operation(op as u64));
        let refusals = (2..=11).chain(21..=24).map(Shown::Refusal);
        refusals.chain(operations).chain((1..=8).map(Shown::Expectation)).chain((1..=6).map(Shown::Matcher))
    }

    /// What an expectation shows.
    fn by(expectation: &Row) -> Vec<Shown> {
        let shown = |(name, value): &(&str, Value)| match (*name, value) {
            ("case", Value::Number(case)) => Some(Shown::Expectation(*case)),
            ("matcher", Value::Number(case)) => Some(Shown::Matcher(*case)),
            _ => None,
        };
        expectation.values.iter().filter_map(shown).collect()
    }
}

#[derive(Default)]
struct Sample {
    seen: HashSet<Vec<u8>>,
    /// How many texts show something.
    shown: HashMap<Shown, usize>,
}

impl Sample {
    fn lacks(&self, shown: Shown) -> bool {
        self.shown.get(&shown).is_none_or(|texts| *texts < shown.least())
    }

    fn is_whole(&self) -> bool {
        !Shown::all().any(|shown| self.lacks(shown))
    }

    /// Prints the text's line, if it shows something that is lacking, or if it is read and by hand.
    fn add(&mut self, text: &[u8], lending: Lending, is_by_hand: bool) {
        if text.len() > LONGEST || self.seen.contains(text) {
            return;
        }
        let case = Case::of(text, lending);
        let (shown, Some((numbers, store))) = answer(text, &case) else {
            return;
        };
        let is_needed = is_by_hand && case.expected().is_ok() || shown.iter().any(|shown| self.lacks(*shown));
        if !is_needed || numbers.len() > NUMBERS || store.len() > NUMBERS {
            return;
        }
        self.seen.insert(text.to_vec());
        for shown in shown {
            *self.shown.entry(shown).or_default() += 1;
        }
        print_line(text, case.lent, &numbers, &store);
    }
}

/// What the text shows, and the dump.
fn answer(text: &[u8], case: &Case) -> (HashSet<Shown>, Option<(Vec<u64>, Vec<u8>)>) {
    match case.expected() {
        Err((number, line)) => {
            let dump = encoded(&Tables::refused(number, line), None, case.lent);
            (HashSet::from([Shown::Refusal(number)]), dump)
        }
        Ok(script) => traced(text, script, |tables, source| {
            let codes = script.entries.iter().map(|entry| Shown::Operation(entry.op_call.op() as u64));
            let shown = codes.chain(tables.expectations.iter().flat_map(Shown::by)).collect();
            (shown, encoded(tables, Some(source), case.lent))
        }),
    }
}

fn print_line(text: &[u8], lent: Counts, numbers: &[u64], store: &[u8]) {
    let sizes = [lent.entries, lent.items, lent.expectations, lent.store].map(|size| size.to_string());
    let numbers: Vec<String> = numbers.iter().map(u64::to_string).collect();
    println!("read {} x{} x{} {}", sizes.join(" "), sample::hex(text), sample::hex(store), numbers.join(" "));
}
