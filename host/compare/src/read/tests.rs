//! Dumps made by hand, and dumps of which one number is wrong.

use super::*;
use crate::dump::encoded;
use crate::written;

/// The text with so much lent.
fn case(text: &[u8], [entries, items, expectations, store]: [usize; 4]) -> Case<'_> {
    let lent = Counts {
        entries,
        items,
        expectations,
        store,
    };
    Case {
        asked: lent,
        lent,
        ..Case::of(text, Lending::MOST)
    }
}

fn bytes(numbers: &[u64], store: &[u8]) -> Vec<u8> {
    let numbers: Vec<[u8; 8]> = numbers.iter().map(|number| number.to_le_bytes()).collect();
    [numbers.concat(), store.to_vec()].concat()
}

#[track_caller]
fn agrees(text: &str, lent: [usize; 4], records: &[&[u64]], store: &[u8]) {
    let dump = bytes(&records.concat(), store);
    let case = case(text.as_bytes(), lent);
    assert_eq!(dump.len(), dump::len(case.lent), "the dump's length");
    assert_eq!(case.differences_of(&dump, true), Vec::<String>::new());
    each_alteration(&case, &records.concat(), store);
}

/// Every number and every byte counts.
#[track_caller]
fn each_alteration(case: &Case, numbers: &[u64], store: &[u8]) {
    for at in 0..numbers.len() {
        for other in [numbers[at].wrapping_add(1), numbers[at].wrapping_sub(1), numbers[at] ^ 1 << 63] {
            let mut altered = numbers.to_vec();
            altered[at] = other;
            let found = case.differences_of(&bytes(&altered, store), true);
            assert!(!found.is_empty(), "\"{}\": {other} at {at} of {numbers:?}", case.text.escape_ascii());
        }
    }
    for at in 0..store.len() {
        let mut altered = store.to_vec();
        altered[at] ^= 1;
        assert!(!case.differences_of(&bytes(numbers, &altered), true).is_empty(), "byte {at} of the store");
    }
}

const HEAD: [u64; 20] = [0, 1, 38, 0, 0, 0, 0, 0, 0, 0, 0, 0, 0, 0, 0, 0, 0, 0, 0, 0];
const BLANK: [u64; 23] = [0, 0, 0, 0, 0, 0, 0, 6, 1, 0, 0, 0, 0, 0, 0, 0, 0, 0, 0, 0, 0, 0, 0];

#[test]
fn nothing() {
    agrees("", [0, 0, 0, 0], &[&HEAD], b"");
    agrees("", [1, 1, 1, 2], &[&HEAD, &BLANK, &[0, 0], &[0, 1, 0, 0, 0, 0, 0]], b"\0\0");
}

/// The example of document 01, with an entry more than is needed.
#[test]
fn listing() {
    let text = "# nwscript v1\nprotocol: 1.38\nexpect trust: trusted\n---\n@0.5ms IsValidPath /nix/store/a\n  \
                expect: Last\n  expect result: 1\n\nSyncWithGC\n";
    let records: [&[u64]; 7] = [
        &[0, 1, 38, 0, 0, 0, 1, 0, 0, 0, 0, 0, 0, 0, 0, 0, 2, 0, 3, 0],
        &[5, 1, 0, 5, 1, 1, 2, 1, 1, 74, 12, 0, 0, 0, 0, 0, 0, 0, 0, 0, 0, 0, 0],
        &[9, 0, 0, 0, 0, 0, 0, 6, 13, 0, 0, 0, 0, 0, 0, 0, 0, 0, 0, 0, 0, 0, 0],
        &BLANK,
        &[3, 7, 0, 0, 1, 43, 7],
        &[6, 1, 97, 4, 0, 0, 0],
        &[7, 2, 0, 0, 1, 119, 1],
    ];
    agrees(text, [3, 0, 3, 0], &records, b"");
}

/// Items, an empty one too, and the store, with a byte more than is needed.
#[test]
fn stored() {
    let text = "features: a\n---\nAddToStore\n\tname: \"x\\n\"\n\trefs: {b,}\n\tdata: x\"00ff\"\n";
    let records: [&[u64]; 5] = [
        &[0, 1, 38, 0, 1, 0, 0, 0, 0, 0, 0, 0, 0, 0, 0, 0, 1, 3, 0, 4],
        &[3, 0, 0, 0, 0, 0, 0, 13, 0, 0, 2, 0, 0, 1, 2, 0, 0, 2, 2, 0, 0, 0, 0],
        &[10, 1],
        &[48, 1],
        &[0, 0],
    ];
    agrees(text, [1, 3, 0, 5], &records, b"x\n\x00\xFF\0");
}

/// Present and empty is not absent.
#[test]
fn present() {
    let text = "# trust:\n# server_features:\nexpect result.: <-1\n---\n@-0ms AddBuildLog\n\tdata: @file:\n";
    let records: [&[u64]; 3] = [
        &[0, 1, 38, 0, 0, 0, 1, 0, 0, 0, 1, 0, 0, 1, 0, 0, 1, 0, 1, 0],
        &[5, 1, 1, 0, 0, 0, 0, 15, 0, 0, 0, 1, 0, 0, 0, 0, 0, 0, 0, 0, 0, 0, 0],
        &[3, 3, 0, 0, 4, u64::MAX, 0],
    ];
    agrees(text, [1, 0, 1, 0], &records, b"");
}

/// A value is to be taken from its own place, even where it stands elsewhere too. A written `normal` is no missing one.
#[test]
fn places() {
    let text = "---\nBuildPaths {a,a} normal\nBuildPaths normal\n";
    let records: [&[u64]; 6] = [
        &[0, 1, 38, 0, 0, 0, 0, 0, 0, 0, 0, 0, 0, 0, 0, 0, 2, 3, 0, 0],
        &[2, 0, 0, 0, 0, 0, 0, 5, 9, 0, 2, 21, 6, 0, 0, 0, 0, 0, 0, 0, 0, 0, 0],
        &[3, 0, 0, 0, 0, 0, 0, 5, 9, 2, 1, 0, 0, 0, 0, 0, 0, 0, 0, 0, 0, 0, 0],
        &[16, 1],
        &[18, 1],
        &[39, 6],
    ];
    agrees(text, [2, 3, 0, 0], &records, b"");
    let mut exchanged = records.to_vec();
    exchanged.swap(3, 4);
    let case = case(text.as_bytes(), [2, 3, 0, 0]);
    assert_eq!(case.differences_of(&bytes(&exchanged.concat(), b""), true).len(), 2);
}

#[test]
fn refused() {
    let head = |number, line| [&[1, number, line], &[0; 17][..]].concat();
    agrees("---\nNope\n", [1, 0, 0, 1], &[&head(9, 2), &BLANK], b"\0");
    // Too few entries and too few expectations: the entries come first.
    agrees("expect:\n---\nFindRoots\n", [0, 0, 0, 0], &[&head(21, 0)], b"");
    agrees("expect:\n---\nFindRoots\n", [1, 0, 0, 0], &[&head(23, 0), &BLANK], b"");
    agrees("features: a\nexpect:\n", [0, 0, 0, 0], &[&head(22, 0)], b"");
    agrees("---\nAddToStoreNar\n\traw x\"00\"\n", [1, 0, 0, 0], &[&head(24, 0), &BLANK], b"");
}

/// All texts written by hand, with a record more than is needed of each table.
#[test]
fn altered() {
    written::each(&mut |text| {
        let Counts {
            entries,
            items,
            expectations,
            store,
        } = Case::of(text, Lending::MOST).needed;
        let case = case(text, [entries + 1, items + 1, expectations + 1, store + 1]);
        let encoded = match case.expected() {
            Err((number, line)) => encoded(&Tables::refused(number, line), None, case.lent),
            Ok(script) => traced(text, script, |tables, source| encoded(tables, Some(source), case.lent)),
        };
        let (numbers, store) = encoded.expect("it can be seen from where the values are taken");
        assert_eq!(case.differences_of(&bytes(&numbers, &store), true), Vec::<String>::new());
        each_alteration(&case, &numbers, &store);
    });
}
