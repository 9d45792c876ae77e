//! The dump of Read: numbers of eight bytes, the lowest first, then the bytes of the store. In order: the answer, each
//! lent entry, each lent item, each lent expectation.

use std::ops::Range;
use std::slice::ChunksExact;

use library::{Counts, MOST};

use crate::layout::Tables;
use crate::places::Source;
use crate::row::{Row, Stamp, Value};

/// How many numbers each record takes.
const HEAD: usize = 20;
const ENTRY: usize = 23;
const ITEM: usize = 2;
const EXPECTATION: usize = 7;

/// Records as they are before the call: an entry is `IsValidPath` without arguments, an expectation an empty terminal.
pub const BLANK_ENTRY: [u64; ENTRY] = [0, 0, 0, 0, 0, 0, 0, 6, 1, 0, 0, 0, 0, 0, 0, 0, 0, 0, 0, 0, 0, 0, 0];
pub const BLANK_ITEM: [u64; ITEM] = [0, 0];
pub const BLANK_EXPECTATION: [u64; EXPECTATION] = [0, 1, 0, 0, 0, 0, 0];

/// What is lent where so much is asked for.
pub fn lent(asked: Counts) -> Counts {
    Counts {
        entries: asked.entries.min(MOST.entries),
        items: asked.items.min(MOST.items),
        expectations: asked.expectations.min(MOST.expectations),
        store: asked.store.min(MOST.store),
    }
}

/// The refusals of a text that needs more than is lent, in document 01's order: the first one counts.
pub fn shortages(needed: Counts, lent: Counts) -> Vec<u64> {
    let tables = [
        (21, needed.entries, lent.entries),
        (22, needed.items, lent.items),
        (23, needed.expectations, lent.expectations),
        (24, needed.store, lent.store),
    ];
    tables.into_iter().filter(|(_, needed, lent)| lent < needed).map(|(number, ..)| number).collect()
}

/// How many bytes the dump has.
pub fn len(lent: Counts) -> usize {
    8 * numbers(lent) + lent.store
}

fn numbers(lent: Counts) -> usize {
    HEAD + ENTRY * lent.entries + ITEM * lent.items + EXPECTATION * lent.expectations
}

/// A dump that has the right length for what is lent.
pub struct Dump<'a> {
    numbers: Vec<u64>,
    lent: Counts,
    pub store: &'a [u8],
}

impl<'a> Dump<'a> {
    pub fn decoded(bytes: &'a [u8], lent: Counts) -> Dump<'a> {
        let (front, store) = bytes.split_at(8 * numbers(lent));
        let number = |bytes: &[u8]| u64::from_le_bytes(bytes.try_into().expect("a number has eight bytes"));
        let numbers = front.chunks_exact(8).map(number).collect();
        Dump { numbers, lent, store }
    }

    pub fn head(&self) -> &[u64] {
        &self.numbers[..HEAD]
    }

    pub fn entries(&self) -> ChunksExact<'_, u64> {
        let behind = HEAD + ENTRY * self.lent.entries;
        self.numbers[HEAD..behind].chunks_exact(ENTRY)
    }

    pub fn items(&self) -> ChunksExact<'_, u64> {
        let first = HEAD + ENTRY * self.lent.entries;
        self.numbers[first..first + ITEM * self.lent.items].chunks_exact(ITEM)
    }

    pub fn expectations(&self) -> ChunksExact<'_, u64> {
        let first = self.numbers.len() - EXPECTATION * self.lent.expectations;
        self.numbers[first..].chunks_exact(EXPECTATION)
    }
}

/// The numbers of a dump of these tables, and the bytes of its store. None where it cannot be seen from where the
/// reference takes a value.
pub fn encoded(tables: &Tables, source: Option<&Source>, lent: Counts) -> Option<(Vec<u64>, Vec<u8>)> {
    let mut encoding = Encoding {
        source,
        texts: 0,
        numbers: Vec::new(),
    };
    encoding.row(&tables.head, HEAD)?;
    encoding.table(&tables.entries, &BLANK_ENTRY, lent.entries)?;
    encoding.table(&tables.items, &BLANK_ITEM, lent.items)?;
    encoding.table(&tables.expectations, &BLANK_EXPECTATION, lent.expectations)?;
    let mut store = tables.store.clone();
    store.resize(lent.store, 0);
    Some((encoding.numbers, store))
}

struct Encoding<'a> {
    source: Option<&'a Source<'a>>,
    /// How many values were seen that are parts of the text.
    texts: usize,
    numbers: Vec<u64>,
}

impl Encoding<'_> {
    fn table(&mut self, rows: &[Row], blank: &[u64], lent: usize) -> Option<()> {
        for row in rows {
            self.row(row, blank.len())?;
        }
        for _ in rows.len()..lent {
            self.numbers.extend_from_slice(blank);
        }
        Some(())
    }

    fn row(&mut self, row: &Row, width: usize) -> Option<()> {
        let end = self.numbers.len() + width;
        for (_, value) in &row.values {
            match value {
                Value::Number(number) => self.numbers.push(*number),
                Value::Operation(op) => self.numbers.push(op.map_or(0, |op| op as u64)),
                Value::Stamp(stamp) => self.numbers.extend(Stamp::numbers(*stamp)),
                Value::Text(text) => {
                    let start = self.start(text, &row.within)?;
                    self.numbers.extend([start as u64, text.len() as u64]);
                }
            }
        }
        self.numbers.resize(end, 0);
        Some(())
    }

    /// Where the next value that is a part of the text starts.
    fn start(&mut self, text: &str, within: &Range<usize>) -> Option<usize> {
        let number = self.texts;
        self.texts += 1;
        match text {
            "" => Some(0),
            _ => self.source?.place(number, within),
        }
    }
}
