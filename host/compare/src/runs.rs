//! Lists of calls on a text: every answer, the tally, the verdict list and the scratch, against the plain judge.

use std::collections::BTreeMap;

use library::{Ran, Run, FEW_ANSWERS, MUCH_SCRATCH};
use nix_wire::script::{Expect, Matcher};

use crate::gen::Rng;
use crate::guarded::Guarded;
use crate::judged::Subject;
use crate::laid::Held;
use crate::plain::{self, Call, Judge, Judging};
use crate::reference::{reading, Reading};
use crate::report::{Finding, Report, Tally};
use crate::subjects::{self, EXPECTS, FIELDS, MATCHERS, RESULTS};
use crate::verdicts::{shorter, VALUED};
use crate::{coverage, forged, scripts};

const CASES: u64 = 1_000_000;

/// The longest list of calls.
const LONGEST: usize = 12;

/// Of so many lists in the table of places one stands at the end of what counts of it.
const FAR: usize = 30_000;

pub fn compare(seed: u64, report: &mut Report) {
    let mut tally = Tally::new("run");
    let mut met = Met::new();
    for number in 0..CASES {
        let case = Case::new(seed, number);
        let found = case.check(&mut met);
        let input = case.named(number);
        tally.count(&input, found, |input| match Named::read(input) {
            Some(named) => Case::new(seed, named.number).only(&named).check(&mut Met::new()),
            None => Ok("no case"),
        });
    }
    report.add(tally);
    met.ask(report);
}

/// A case by its number, seven digits, with a capital letter for each line that is kept and a small one for each call:
/// what is left out makes a shorter case.
struct Named {
    number: u64,
    lines: Vec<usize>,
    calls: Vec<usize>,
}

const DIGITS: usize = 7;

impl Named {
    fn read(input: &[u8]) -> Option<Named> {
        let (digits, letters) = input.split_at_checked(DIGITS)?;
        let letters_from = |first: u8| {
            let places = letters.iter().filter(|letter| (first..first + 26).contains(letter));
            places.map(|letter| usize::from(letter - first)).collect()
        };
        Some(Named {
            number: std::str::from_utf8(digits).ok()?.parse().ok()?,
            lines: letters_from(b'A'),
            calls: letters_from(b'a'),
        })
    }
}

/// A call: its subject, unless it is a close, and its row.
struct Asked {
    subject: Option<usize>,
    row: [u64; 22],
}

struct Case {
    lines: Vec<String>,
    subjects: Vec<Subject>,
    calls: Vec<Asked>,
    bytes: Vec<u8>,
    lists: Vec<[usize; 2]>,
    /// How many verdicts, bytes of scratch and answers there is room for.
    lent: [usize; 3],
}

impl Case {
    fn new(seed: u64, number: u64) -> Case {
        let mut rng = Rng::new(seed ^ number.wrapping_mul(0x9E37_79B9));
        let rng = &mut rng;
        let entries = rng.below(5);
        let mut subjects = vec![Subject::Handshake(subjects::info(rng))];
        for _ in 0..entries {
            let result = rng.below(RESULTS.len());
            subjects.push(Subject::Response(subjects::response(rng, result)));
        }
        let lines = if rng.below(8) == 0 {
            scripts::script(rng).split_inclusive('\n').map(str::to_string).collect()
        } else {
            lines(rng, &subjects)
        };
        let mut case = Case {
            lines,
            subjects,
            calls: Vec::new(),
            bytes: Vec::new(),
            lists: Vec::new(),
            lent: [0; 3],
        };
        case.ask(rng);
        case
    }

    /// Adds the calls, and lends what they take; now and then less.
    fn ask(&mut self, rng: &mut Rng) {
        let reading = reading(self.text().as_bytes());
        let (expectations, needed): (usize, &dyn Fn(u64, &Subject) -> usize) = match &reading {
            Reading::Refused { .. } => (2, &|_, _| 8),
            Reading::Read(script) => (Judge::new(script, 0, Vec::new()).slots.len(), &|number, subject| {
                plain::needed(script, number, subject)
            }),
        };
        let order = order(rng, self.subjects.len());
        let mut held = Held::new(rng, FAR);
        let rows: Vec<_> = order.iter().map(|(_, subject)| subject.map(|at| held.row(&self.subjects[at]))).collect();
        (self.bytes, self.lists) = (held.bytes, held.lists);
        for ((number, subject), row) in order.into_iter().zip(rows) {
            let mut numbers = [0; 22].map(|_: u64| rng.any());
            numbers[2] = rng.below(4) as u64;
            match (subject, row) {
                (Some(at), Some((against, mut row))) => {
                    if rng.below(16) == 0 {
                        forged::forge_row(rng, against, &mut row, &self.bytes, &mut self.lists);
                    }
                    let needed = needed(number, &self.subjects[at]);
                    let scratch = match rng.below(12) {
                        0 => shorter(rng, needed),
                        _ => needed + rng.below(2) * rng.below(20),
                    };
                    numbers[0] = kind(rng, &self.subjects[at]);
                    numbers[1] = number;
                    numbers[2] = scratch as u64;
                    // A number that is missing counts as 0.
                    let asked = if numbers[0] == 1 { 15 } else { 19 };
                    row.resize(asked, 0);
                    numbers[3..3 + asked].copy_from_slice(&row);
                }
                _ => numbers[0] = 0,
            }
            self.calls.push(Asked { subject, row: numbers });
        }
        let most = self.calls.iter().map(|call| call.row[2] as usize).max().unwrap_or(0);
        let lend = |rng: &mut Rng, needed: usize, seldom: usize| match rng.below(seldom) {
            0 => shorter(rng, needed),
            _ => needed + rng.below(2) * rng.below(4),
        };
        self.lent = [lend(rng, expectations, 10), lend(rng, most, 60), lend(rng, self.calls.len(), 60)];
    }

    fn text(&self) -> String {
        self.lines.concat()
    }

    /// The case's name, all of it kept.
    fn named(&self, number: u64) -> Vec<u8> {
        let letters = |first: u8, count: usize| (first..first + 26).take(count);
        let mut name = format!("{number:0DIGITS$}").into_bytes();
        name.extend(letters(b'A', self.lines.len()));
        name.extend(letters(b'a', self.calls.len()));
        name
    }

    /// The case with these lines and calls only; lines that have no letter stay.
    fn only(mut self, named: &Named) -> Case {
        let mut at = 0..;
        self.lines.retain(|_| at.next().is_some_and(|at| at >= 26 || named.lines.contains(&at)));
        let mut at = 0..;
        self.calls.retain(|_| at.next().is_some_and(|at| named.calls.contains(&at)));
        self
    }

    /// The call as the plain judge is given it.
    fn call(&self, asked: &Asked) -> Call<'_> {
        let Some(at) = asked.subject else {
            return Call::Close;
        };
        let subject = &self.subjects[at];
        let against = match subject {
            Subject::Response(_) => library::Against::Response,
            Subject::Handshake(_) => library::Against::Handshake,
        };
        Call::Judge(Judging {
            number: asked.row[1],
            subject,
            is_outside: forged::is_outside(against, &asked.row[3..], &self.bytes, &self.lists),
            scratch: asked.row[2] as usize,
        })
    }

    fn expected(&self, met: &mut Met) -> Expected {
        let [places, scratch, answers] = self.lent;
        let mut expected = Expected {
            ran: Ran::default(),
            verdicts: Guarded::before(places),
            scratch: Guarded::before(scratch),
            answers: untouched(answers),
        };
        if answers < self.calls.len() {
            expected.ran.status = FEW_ANSWERS;
            return expected;
        }
        if self.calls.iter().any(|call| call.row[2] > scratch as u64) {
            expected.ran.status = MUCH_SCRATCH;
            return expected;
        }
        match reading(self.text().as_bytes()) {
            Reading::Refused { number, line } => {
                expected.ran.status = number;
                expected.ran.line = line;
            }
            Reading::Read(script) => {
                let mut judge = Judge::new(&script, places, expected.scratch);
                for (slot, call) in expected.answers.iter_mut().zip(&self.calls) {
                    *slot = judge.answer(&self.call(call));
                    met.met(answer_name(*slot));
                }
                for (slot, verdict) in expected.verdicts.iter_mut().zip(&judge.slots) {
                    *slot = verdict.unwrap_or(*slot);
                }
                let [passed, failed, undecided] = judge.counts;
                expected.ran.tally = [judge.next as usize, passed, failed, undecided];
                expected.scratch = judge.scratch;
            }
        }
        expected
    }

    fn check(&self, met: &mut Met) -> Finding {
        let expected = self.expected(met);
        met.met(CALLS[self.calls.len().min(LONGEST)]);
        let [places, scratch_len, answers_len] = self.lent;
        let (mut verdicts, mut scratch) = (Guarded::new(places), Guarded::new(scratch_len));
        let mut answers = untouched(answers_len);
        let text = self.text();
        let rows: Vec<[u64; 22]> = self.calls.iter().map(|call| call.row).collect();
        let run = Run {
            text: text.as_bytes(),
            calls: &rows,
            bytes: &self.bytes,
            lists: &self.lists,
        };
        let ran = library::run(&run, verdicts.lent(), scratch.lent(), &mut answers);
        let differs = |what: String| Err(format!("{what}, of {text:?}, lent {:?}, {:?}", self.lent, self.shown()));
        if ran != expected.ran {
            return differs(format!("ours {ran:?}, Rust's {:?}", expected.ran));
        }
        if answers != expected.answers {
            return differs(format!("ours answers {answers:?}, Rust's {:?}", expected.answers));
        }
        for (name, guarded, bytes) in
            [("verdict list", verdicts, expected.verdicts), ("scratch", scratch, expected.scratch)]
        {
            if let Err(why) = guarded.holds(&bytes) {
                return differs(format!("the {name} {why}"));
            }
        }
        Ok(match expected.ran.status {
            0 => "done",
            FEW_ANSWERS => "few answers",
            MUCH_SCRATCH => "much scratch",
            number => coverage::class(number),
        })
    }

    /// The calls for a reader.
    fn shown(&self) -> Vec<String> {
        let shown = |call: &Asked| match call.subject {
            None => "close".to_string(),
            Some(at) => {
                format!("judge {} with {} bytes: {:?}, row {:?}", call.row[1], call.row[2], self.subjects[at], call.row)
            }
        };
        self.calls.iter().map(shown).collect()
    }
}

struct Expected {
    ran: Ran,
    verdicts: Vec<u8>,
    scratch: Vec<u8>,
    answers: Vec<u64>,
}

/// Answers before the run: no answer is one of them.
fn untouched(count: usize) -> Vec<u64> {
    (0..count as u64).map(|at| u64::MAX - at).collect()
}

/// 1 for a handshake; any number but 0 and 1 for an entry.
fn kind(rng: &mut Rng, subject: &Subject) -> u64 {
    match subject {
        Subject::Handshake(_) => 1,
        Subject::Response(_) if rng.below(4) == 0 => rng.any().max(2),
        Subject::Response(_) => 2,
    }
}

// The text

/// The lines of a script whose expectations fit the subjects as often as not: the first is the handshake's.
fn lines(rng: &mut Rng, subjects: &[Subject]) -> Vec<String> {
    let mut lines = Vec::new();
    for (at, subject) in subjects.iter().enumerate() {
        if at > 0 {
            lines.push(format!(
                "{}\n",
                rng.pick(&["SyncWithGC", "IsValidPath /nix/store/a", "@0.5ms FindRoots", "  FindRoots"])
            ));
        }
        let indent = if at > 0 { "  " } else { "" };
        for _ in 0..rng.pick(&[0, 0, 1, 1, 1, 2, 3]) {
            let expect = expect(rng, subject);
            lines.push(format!("{indent}{}\n", written(&expect).replace(['\n', '\r'], " ")));
        }
        if rng.below(6) == 0 {
            lines.push(rng.pick(&["\n", "# c\n", "  # c\n", "  \n"]).to_string());
        }
        if at == 0 {
            lines.push("---\n".to_string());
        }
    }
    lines
}

/// Mostly an expectation of a kind that has a value in this subject.
fn expect(rng: &mut Rng, subject: &Subject) -> Expect {
    let matcher = rng.below(MATCHERS.len());
    if rng.below(6) == 0 {
        let (kind, field) = (rng.below(EXPECTS.len()), rng.below(FIELDS.len() + 1));
        return subjects::expect(rng, kind, matcher, field, subject);
    }
    let is_entry = matches!(subject, Subject::Response(_));
    let fitting: Vec<(usize, usize)> = VALUED
        .iter()
        .filter(|(entry, kind, result, _)| {
            *entry == is_entry && (!*entry || [0, 3, 4].contains(kind) || *result == kind_of(subject))
        })
        .map(|(_, kind, _, field)| (*kind, *field))
        .collect();
    let (kind, field) = rng.pick(&fitting);
    subjects::expect(rng, kind, matcher, field, subject)
}

/// The place of a response's result in the list of results.
fn kind_of(subject: &Subject) -> usize {
    let Subject::Response(response) = subject else {
        return 0;
    };
    let shown = response.result.as_ref().map_or("Absent".to_string(), |result| format!("{result:?}"));
    RESULTS.iter().position(|name| shown.split(['(', ' ']).next() == Some(name)).unwrap_or(0)
}

fn written(expect: &Expect) -> String {
    match expect {
        Expect::Terminal(name) => format!("expect: {name}"),
        Expect::Result { field: None, matcher } => format!("expect result: {}", matching(matcher)),
        Expect::Result {
            field: Some(field),
            matcher,
        } => format!("expect result.{field}: {}", matching(matcher)),
        Expect::Error { matcher } => format!("expect error: {}", matching(matcher)),
        Expect::StderrCount { matcher } => format!("expect stderr.count: {}", matching(matcher)),
        Expect::Daemon { matcher } => format!("expect daemon: {}", matching(matcher)),
        Expect::Trust { matcher } => format!("expect trust: {}", matching(matcher)),
        Expect::ServerFeatures { matcher } => format!("expect server_features: {}", matching(matcher)),
    }
}

fn matching(matcher: &Matcher) -> String {
    match matcher {
        Matcher::Exact(text) => text.clone(),
        Matcher::Regex(pattern) => format!("/{pattern}/"),
        Matcher::GreaterThan(n) => format!("> {n}"),
        Matcher::LessThan(n) => format!("< {n}"),
        Matcher::GreaterOrEqual(n) => format!(">= {n}"),
        Matcher::LessOrEqual(n) => format!("<= {n}"),
    }
}

// The calls

/// Numbers with the places of their subjects; a close has none. The handshake, every entry and a close, or a list that
/// was made of it by leaving out, doubling, changing places and numbers, and adding.
fn order(rng: &mut Rng, subjects: usize) -> Vec<(u64, Option<usize>)> {
    let mut calls: Vec<(u64, Option<usize>)> = (0..subjects).map(|at| (at as u64, Some(at))).collect();
    calls.push((0, None));
    for _ in 0..rng.pick(&[0, 0, 1, 1, 2, 3, 6, 12]) {
        let at = rng.below(calls.len() + 1);
        let (number, subject) = (random_number(rng, subjects), Some(rng.below(subjects)));
        match rng.below(7) {
            0 | 1 => calls.insert(at, (0, None)),
            2 => calls.insert(at, (number, subject)),
            _ if at == calls.len() => calls.truncate(rng.below(at + 1)),
            3 => drop(calls.remove(at)),
            4 => calls.insert(at, calls[at]),
            5 => {
                let other = rng.below(calls.len());
                calls.swap(at, other);
            }
            _ => calls[at].0 = number,
        }
    }
    calls.truncate(LONGEST);
    calls
}

fn random_number(rng: &mut Rng, subjects: usize) -> u64 {
    match rng.below(5) {
        0 => rng.any(),
        _ => rng.below(subjects + 2) as u64,
    }
}

// What was met

/// How many answers of each kind, and lists of each length.
struct Met {
    counts: BTreeMap<&'static str, u64>,
}

const ANSWERS: [(u64, &str); 10] = [
    (plain::JUDGED, "judged"),
    (32, "refused 32"),
    (33, "refused 33"),
    (34, "refused 34"),
    (35, "refused 35"),
    (37, "refused 37"),
    (plain::CLOSED_PASSED, "closed passed"),
    (plain::CLOSED_FAILED, "closed failed"),
    (plain::CLOSED_UNDECIDED, "closed undecided"),
    (plain::CLOSED_NOTHING, "closed nothing checked"),
];

const CALLS: [&str; LONGEST + 1] = [
    "no call", "1 call", "2 calls", "3 calls", "4 calls", "5 calls", "6 calls", "7 calls", "8 calls", "9 calls",
    "10 calls", "11 calls", "12 calls",
];

fn answer_name(answer: u64) -> &'static str {
    let known = ANSWERS.iter().find(|(known, _)| *known == answer);
    known.unwrap_or_else(|| panic!("the plain judge does not answer {answer}")).1
}

impl Met {
    fn new() -> Met {
        let answers = ANSWERS.iter().map(|(_, name)| (*name, 0));
        Met {
            counts: answers.chain(CALLS.iter().map(|name| (*name, 0))).collect(),
        }
    }

    fn met(&mut self, kind: &'static str) {
        *self.counts.entry(kind).or_default() += 1;
    }

    fn ask(&self, report: &mut Report) {
        let shown: Vec<String> = self.counts.iter().map(|(kind, count)| format!("{count} {kind}")).collect();
        println!("{:<8}met: {}", "", shown.join(", "));
        for (kind, count) in &self.counts {
            report.ask_for(kind, *count, coverage::LEAST);
        }
    }
}
