//! The rules of refusals 31, 32, 34 and 38, restated on rows; and rows that are forged to meet them.

use library::Against;

use crate::gen::Rng;
use crate::laid::{Laid, RECORDS};

fn at(row: &[u64], at: usize) -> u64 {
    row.get(at).copied().unwrap_or(0)
}

/// A place (s, l) lies inside n bytes iff s <= n and l <= n - s.
fn inside(n: usize, start: u64, len: u64) -> bool {
    let n = n as u64;
    start <= n && len <= n - start
}

/// Where in a row a place stands, or the range of a list.
#[derive(Clone, Copy)]
pub enum Part {
    Place(usize),
    List(usize),
}

/// The places of an expectation.
fn expect_parts(row: &[u64]) -> Vec<Part> {
    let mut parts = Vec::new();
    let kind = at(row, 0);
    if kind == 1 || kind == 3 {
        parts.push(Part::Place(1));
    }
    if kind != 1 && (at(row, 3) == 1 || at(row, 3) == 2) {
        parts.push(Part::Place(4));
    }
    parts
}

/// Every part that a response or a handshake carries, looked up or not.
fn subject_parts(against: Against, row: &[u64]) -> Vec<Part> {
    let when = |flag: usize, part: Part| (at(row, flag) != 0).then_some(part);
    match against {
        Against::Handshake => {
            let mut parts = vec![Part::List(6), Part::List(8)];
            parts.extend(when(10, Part::Place(11)));
            parts
        }
        Against::Response => {
            let mut parts = vec![Part::Place(0)];
            parts.extend(when(3, Part::Place(4)));
            match at(row, 6) {
                2 => parts.push(Part::Place(7)),
                3 => {
                    parts.extend(when(8, Part::Place(9)));
                    parts.extend(when(11, Part::Place(12)));
                    parts.extend(when(14, Part::List(15)));
                }
                4 => parts.push(Part::List(7)),
                _ => {}
            }
            parts
        }
    }
}

fn lies_inside(part: Part, row: &[u64], bytes: &[u8], lists: &[[usize; 2]]) -> bool {
    match part {
        Part::Place(k) => inside(bytes.len(), at(row, k), at(row, k + 1)),
        Part::List(k) => {
            let (first, count) = (at(row, k), at(row, k + 1));
            inside(lists.len().min(RECORDS), first, count)
                && lists[first as usize..(first + count) as usize]
                    .iter()
                    .all(|[start, len]| inside(bytes.len(), *start as u64, *len as u64))
        }
    }
}

/// Whether a part of a response or a handshake lies outside its bytes or its table.
pub fn is_outside(against: Against, row: &[u64], bytes: &[u8], lists: &[[usize; 2]]) -> bool {
    !subject_parts(against, row).into_iter().all(|part| lies_inside(part, row, bytes, lists))
}

/// The first refusal that applies, or 0.
pub fn refusal(laid: &Laid, value: usize, message: usize, scratch: usize, buffer: usize) -> u64 {
    let Laid {
        text,
        expect,
        subject,
        bytes,
        lists,
        ..
    } = laid;
    let all_inside =
        |parts: Vec<Part>, row, bytes, lists| parts.into_iter().all(|part| lies_inside(part, row, bytes, lists));
    if !all_inside(expect_parts(expect), expect, text, &[]) {
        31
    } else if is_outside(laid.against, subject, bytes, lists) {
        32
    } else if value > scratch {
        34
    } else if message > buffer {
        38
    } else {
        0
    }
}

/// Puts a place of the expectation outside the text; false if it has none.
pub fn forge_expect(rng: &mut Rng, laid: &mut Laid) -> bool {
    let parts = expect_parts(&laid.expect);
    if parts.is_empty() {
        return false;
    }
    if let Part::Place(k) = rng.pick(&parts) {
        let [start, len] = outside(rng, laid.text.len());
        put(&mut laid.expect, k, [start, len]);
    }
    true
}

/// Puts a part of what it is judged against outside the bytes or the table.
pub fn forge_subject(rng: &mut Rng, laid: &mut Laid) {
    forge_row(rng, laid.against, &mut laid.subject, &laid.bytes, &mut laid.lists);
}

/// Puts a part of a row outside the bytes or the table.
pub fn forge_row(rng: &mut Rng, against: Against, row: &mut Vec<u64>, bytes: &[u8], lists: &mut Vec<[usize; 2]>) {
    let parts = subject_parts(against, row);
    match rng.pick(&parts) {
        Part::Place(k) => {
            let forged = outside(rng, bytes.len());
            put(row, k, forged);
        }
        Part::List(k) => forge_list(rng, row, bytes, lists, k),
    }
}

/// A range outside the table, one that ends beyond what counts of it, or a text of the list outside the bytes.
fn forge_list(rng: &mut Rng, row: &mut Vec<u64>, bytes: &[u8], lists: &mut Vec<[usize; 2]>, k: usize) {
    let (first, count) = (at(row, k), at(row, k + 1));
    // It may be forged already.
    let has_texts = count > 0 && inside(lists.len(), first, count);
    match rng.below(20) {
        0 => {
            lists.resize(RECORDS + 2, [0, 0]);
            let len = 1 + rng.below(2);
            put(row, k, [(RECORDS + 1 - len) as u64, len as u64]);
        }
        1..=9 if has_texts => {
            let forged = outside(rng, bytes.len());
            let text = first as usize + rng.below(count as usize);
            lists[text] = forged.map(|number| number as usize);
        }
        _ => {
            let forged = outside(rng, lists.len().min(RECORDS));
            put(row, k, forged);
        }
    }
}

/// A place outside n bytes, at times by one only, at times with a sum that is too large for 64 bits.
fn outside(rng: &mut Rng, n: usize) -> [u64; 2] {
    let start = rng.below(n + 1) as u64;
    let left = n as u64 - start;
    match rng.below(6) {
        0 => [start, left + 1],
        1 => [n as u64 + 1, 0],
        2 => [start, u64::MAX - rng.below(3) as u64],
        3 => [u64::MAX - rng.below(3) as u64, rng.below(4) as u64],
        4 => [u64::MAX - left, left + 1 + start],
        _ => [n as u64 + 1 + (rng.any() >> (1 + rng.below(60))), rng.any()],
    }
}

/// Writes a place into a row that may have been cut.
fn put(row: &mut Vec<u64>, k: usize, place: [u64; 2]) {
    row.resize(row.len().max(k + 2), 0);
    row[k..k + 2].copy_from_slice(&place);
}
