//! Lays an expectation, and what it is judged against, out as bytes, places and rows of numbers
//! (`crates/rows/specs/Rows.antt`). Texts share bytes and have others between them; numbers that nothing asks for are
//! any.

use library::{Against, Asked};
use nix_wire::handshake::ProtocolVersion;
use nix_wire::protocol::HandshakeInfo;
use nix_wire::script::{DaemonResponse, Expect, Matcher, ResultData};

use crate::gen::Rng;
use crate::judged::Subject;

pub struct Laid {
    pub text: Vec<u8>,
    pub expect: Vec<u64>,
    pub n: i64,
    pub against: Against,
    pub subject: Vec<u64>,
    pub bytes: Vec<u8>,
    pub lists: Vec<[usize; 2]>,
}

/// Only so many records of a table count.
pub const RECORDS: usize = 32_768;

const FAR: usize = 300;

impl Laid {
    pub fn new(rng: &mut Rng, expect: &Expect, subject: &Subject) -> Laid {
        let mut text = filling(rng);
        let n = matcher_number(expect).unwrap_or_else(|| rng.any() as i64);
        let expect = expect_row(rng, &mut text, expect);
        let mut held = Held::new(rng, FAR);
        let (against, row) = held.row(subject);
        let Held { bytes, lists, .. } = held;
        Laid {
            text,
            expect,
            n,
            against,
            subject: row,
            bytes,
            lists,
        }
    }

    pub fn asked(&self) -> Asked<'_> {
        Asked {
            text: &self.text,
            expect: &self.expect,
            n: self.n,
            against: self.against,
            subject: &self.subject,
            bytes: &self.bytes,
            lists: &self.lists,
        }
    }
}

/// Some bytes that no place means, or means together with others.
fn filling(rng: &mut Rng) -> Vec<u8> {
    let count = rng.below(5);
    (0..count).map(|_| rng.any() as u8).collect()
}

/// A place for a text: where it stands already, behind what it begins with, or behind some other bytes. An empty text
/// may stand anywhere.
fn place(rng: &mut Rng, bytes: &mut Vec<u8>, text: &str) -> [usize; 2] {
    let text = text.as_bytes();
    if text.is_empty() {
        return [rng.below(bytes.len() + 1), 0];
    }
    if bytes.len() < 1_000 && rng.below(2) == 0 {
        if let Some(at) = bytes.windows(text.len()).position(|part| part == text) {
            return [at, text.len()];
        }
        let longest = bytes.len().min(text.len() - 1);
        let shared = (0..=longest).rev().find(|shared| bytes.ends_with(&text[..*shared])).unwrap_or(0);
        bytes.extend_from_slice(&text[shared..]);
    } else {
        bytes.extend(filling(rng));
        bytes.extend_from_slice(text);
    }
    [bytes.len() - text.len(), text.len()]
}

/// A row of numbers that nothing has asked for yet.
fn row(rng: &mut Rng, len: usize) -> Vec<u64> {
    (0..len).map(|_| any(rng)).collect()
}

fn any(rng: &mut Rng) -> u64 {
    match rng.below(3) {
        0 => rng.below(4) as u64,
        _ => rng.any(),
    }
}

/// More numbers than are asked for, or fewer: a number that is missing counts as 0.
fn cut(rng: &mut Rng, mut row: Vec<u64>) -> Vec<u64> {
    match rng.below(3) {
        0 => row.push(any(rng)),
        1 => {
            while row.last() == Some(&0) {
                row.pop();
            }
        }
        _ => {}
    }
    row
}

fn set(row: &mut [u64], at: usize, numbers: &[usize]) {
    for (slot, number) in row[at..].iter_mut().zip(numbers) {
        *slot = *number as u64;
    }
}

/// A flag that is on.
fn on(rng: &mut Rng) -> u64 {
    match rng.below(3) {
        0 => rng.any() | 1,
        _ => 1,
    }
}

fn matcher_number(expect: &Expect) -> Option<i64> {
    match crate::judged::matcher(expect)? {
        Matcher::Exact(_) | Matcher::Regex(_) => None,
        Matcher::GreaterThan(n) | Matcher::LessThan(n) | Matcher::GreaterOrEqual(n) | Matcher::LessOrEqual(n) => {
            Some(*n)
        }
    }
}

/// A number that stands for the last kind: its own, or one that stands for none.
fn last(rng: &mut Rng, own: u64) -> u64 {
    match rng.below(4) {
        0 => 0,
        1 => own.saturating_add(rng.any() >> rng.below(64)),
        _ => own,
    }
}

fn expect_row(rng: &mut Rng, text: &mut Vec<u8>, expect: &Expect) -> Vec<u64> {
    let mut row = row(rng, 6);
    row[0] = match expect {
        Expect::Terminal(name) => {
            set(&mut row, 1, &place(rng, text, name));
            1
        }
        Expect::Result { field: None, .. } => 2,
        Expect::Result { field: Some(field), .. } => {
            set(&mut row, 1, &place(rng, text, field));
            3
        }
        Expect::Error { .. } => 4,
        Expect::StderrCount { .. } => 5,
        Expect::Daemon { .. } => 6,
        Expect::Trust { .. } => 7,
        Expect::ServerFeatures { .. } => last(rng, 8),
    };
    if let Some(matcher) = crate::judged::matcher(expect) {
        row[3] = match matcher {
            Matcher::Exact(words) => {
                set(&mut row, 4, &place(rng, text, words));
                1
            }
            Matcher::Regex(pattern) => {
                set(&mut row, 4, &place(rng, text, pattern));
                2
            }
            Matcher::GreaterThan(_) => 3,
            Matcher::LessThan(_) => 4,
            Matcher::GreaterOrEqual(_) => 5,
            Matcher::LessOrEqual(_) => last(rng, 6),
        };
    }
    cut(rng, row)
}

/// The bytes and the table of places of responses and handshakes.
pub struct Held<'a> {
    rng: &'a mut Rng,
    pub bytes: Vec<u8>,
    pub lists: Vec<[usize; 2]>,
    /// Of so many lists one stands at the end of what counts of the table.
    far: usize,
}

impl Held<'_> {
    pub fn new(rng: &mut Rng, far: usize) -> Held<'_> {
        let bytes = filling(rng);
        Held {
            rng,
            bytes,
            lists: Vec::new(),
            far,
        }
    }

    /// What it is, and its row.
    pub fn row(&mut self, subject: &Subject) -> (Against, Vec<u64>) {
        match subject {
            Subject::Response(response) => (Against::Response, self.response_row(response)),
            Subject::Handshake(info) => (Against::Handshake, self.info_row(info)),
        }
    }

    fn place(&mut self, text: &str) -> [usize; 2] {
        place(self.rng, &mut self.bytes, text)
    }

    /// A range of the table, at times right at the end of what counts of it. Records that belong to no list are any.
    fn list(&mut self, texts: &[String]) -> [usize; 2] {
        let places: Vec<[usize; 2]> = texts.iter().map(|text| self.place(text)).collect();
        let between = match self.rng.below(self.far) {
            0 => RECORDS.saturating_sub(self.lists.len() + places.len()),
            _ => self.rng.below(3),
        };
        for _ in 0..between {
            self.lists.push([self.rng.any() as usize, self.rng.any() as usize]);
        }
        let first = self.lists.len();
        self.lists.extend(places);
        [first, texts.len()]
    }

    /// A flag and what it says is there, if it is.
    fn maybe(&mut self, row: &mut [u64], at: usize, numbers: Option<&[usize]>) {
        row[at] = 0;
        if let Some(numbers) = numbers {
            row[at] = on(self.rng);
            set(row, at + 1, numbers);
        }
    }

    fn maybe_text(&mut self, row: &mut [u64], at: usize, text: Option<&str>) {
        let place = text.map(|text| self.place(text));
        self.maybe(row, at, place.as_ref().map(|place| &place[..]));
    }

    fn maybe_number(&mut self, row: &mut [u64], at: usize, number: Option<u64>) {
        self.maybe(row, at, number.map(|number| [number as usize]).as_ref().map(|number| &number[..]));
    }

    fn flag(&mut self, row: &mut [u64], at: usize, flag: bool) {
        row[at] = if flag { on(self.rng) } else { 0 };
    }

    fn response_row(&mut self, response: &DaemonResponse) -> Vec<u64> {
        let mut row = row(self.rng, 19);
        set(&mut row, 0, &self.place(&response.terminal));
        row[2] = response.stderr_count;
        self.maybe_text(&mut row, 3, response.error.as_ref().map(|error| error.message.as_str()));
        row[6] = self.result_numbers(&mut row, response.result.as_ref());
        cut(self.rng, row)
    }

    /// What the result holds, from 7 on; its kind.
    fn result_numbers(&mut self, row: &mut [u64], result: Option<&ResultData>) -> u64 {
        let Some(result) = result else { return 0 };
        match result {
            ResultData::U64(n) => {
                row[7] = *n;
                1
            }
            ResultData::Str(text) => {
                set(row, 7, &self.place(text));
                2
            }
            ResultData::PathInfo(info) => {
                self.flag(row, 7, info.valid);
                self.maybe_text(row, 8, info.deriver.as_deref());
                self.maybe_text(row, 11, info.nar_hash.as_deref());
                let references = info.references.as_ref().map(|references| self.list(references));
                self.maybe(row, 14, references.as_ref().map(|range| &range[..]));
                self.maybe_number(row, 17, info.nar_size);
                3
            }
            ResultData::StringSet(texts) => {
                set(row, 7, &self.list(texts));
                4
            }
            ResultData::StringMap(_) => 5,
            ResultData::None => 6,
            ResultData::CollectGarbage { bytes_freed } => {
                row[7] = *bytes_freed;
                7
            }
            ResultData::SubstitutablePathInfo {
                valid,
                download_size,
                nar_size,
                ..
            } => {
                self.flag(row, 7, *valid);
                self.maybe_number(row, 8, *download_size);
                self.maybe_number(row, 10, *nar_size);
                8
            }
            ResultData::Missing {
                download_size,
                nar_size,
                ..
            } => {
                row[7] = *download_size;
                row[8] = *nar_size;
                9
            }
            ResultData::Framed(_) => 10,
            // 0 is no result at all.
            ResultData::Raw(_) => last(self.rng, 11).max(11),
        }
    }

    fn info_row(&mut self, info: &HandshakeInfo) -> Vec<u64> {
        let mut row = row(self.rng, 15);
        for (at, version) in [info.client_version, info.server_version, info.negotiated_version].into_iter().enumerate()
        {
            let ProtocolVersion { major, minor } = version;
            // What is beyond a u16 or a u8 does not count.
            row[2 * at] = u64::from(major) + (self.rng.any() << 16);
            row[2 * at + 1] = u64::from(minor) + (self.rng.any() << 8);
        }
        set(&mut row, 6, &self.list(&info.client_features));
        set(&mut row, 8, &self.list(&info.server_features));
        self.maybe_text(&mut row, 10, info.daemon_nix_version.as_deref());
        self.maybe_number(&mut row, 13, info.trust_status);
        cut(self.rng, row)
    }
}
