//! The verdict of one expectation, alone and with its message, against the reference's `evaluate_expects` and
//! `evaluate_handshake_expects`; refusals by rules that are restated in `forged`.

use std::collections::BTreeMap;

use library::Told;
use nix_wire::script::{DaemonResponse, Expect};

use crate::decisions::{class, UNDECIDED};
use crate::gen::Rng;
use crate::guarded::Guarded;
use crate::judged::{self, Answer, Subject};
use crate::laid::Laid;
use crate::report::{Finding, Report, Tally};
use crate::subjects::{self, EXPECTS, FIELDS, MATCHERS, RESULTS};
use crate::{coverage, forged};

const CASES: u64 = 2_000_000;

pub fn compare(seed: u64, report: &mut Report) {
    let mut tally = Tally::new("message");
    let mut met = Met::new();
    for number in 0..CASES {
        let case = Case::new(seed, number);
        let found = case.check();
        met.count(&case);
        // A shorter input is the number of no case.
        tally.count(&number.to_le_bytes(), found, |input| match <[u8; 8]>::try_from(input) {
            Ok(number) => Case::new(seed, u64::from_le_bytes(number)).check(),
            Err(_) => Ok("no case"),
        });
    }
    report.add(tally);
    met.ask(report);
}

pub struct Case {
    expect: Expect,
    subject: Subject,
    pub answer: Answer,
    pub laid: Laid,
    /// How long the scratch and the buffer are.
    lent: [usize; 2],
    pub refusal: u64,
    /// For the labels: the kinds of expectation, matcher and result, and the field.
    kinds: [usize; 4],
}

impl Case {
    /// The case of a number: the kinds go round with it, the rest is random.
    pub fn new(seed: u64, number: u64) -> Case {
        let mut rng = Rng::new(seed ^ number.wrapping_mul(0x9E37_79B9));
        let (entry, kinds) = kinds_of(number);
        let [kind, matcher, result, field] = kinds;
        let subject = if entry {
            Subject::Response(subjects::response(&mut rng, result))
        } else {
            Subject::Handshake(subjects::info(&mut rng))
        };
        let expect = subjects::expect(&mut rng, kind, matcher, field, &subject);
        let answer = judged::answer(&expect, &subject);
        let laid = Laid::new(&mut rng, &expect, &subject);
        let mut case = Case {
            expect,
            subject,
            answer,
            laid,
            lent: [0; 2],
            refusal: 0,
            kinds,
        };
        case.lend(&mut rng);
        case
    }

    fn sizes(&self) -> [usize; 2] {
        [self.answer.value.as_ref().map_or(0, String::len), self.answer.message.len()]
    }

    /// Lends enough, exactly enough as often as not; every fourth case is spoilt in one way or more.
    fn lend(&mut self, rng: &mut Rng) {
        self.lent = self.sizes().map(|size| size + rng.below(2) * rng.below(40));
        if rng.below(4) == 0 {
            for _ in 0..1 + rng.below(2) {
                self.spoil(rng);
            }
        }
        let [value, message] = self.sizes();
        let [scratch, buffer] = self.lent;
        self.refusal = forged::refusal(&self.laid, value, message, scratch, buffer);
    }

    fn spoil(&mut self, rng: &mut Rng) {
        let [value, message] = self.sizes();
        match rng.below(4) {
            0 => drop(forged::forge_expect(rng, &mut self.laid)),
            1 => forged::forge_subject(rng, &mut self.laid),
            2 => self.lent[0] = shorter(rng, value),
            _ => self.lent[1] = shorter(rng, message),
        }
    }

    fn check(&self) -> Finding {
        let [scratch_len, buffer_len] = self.lent;
        let mut scratch = Guarded::new(scratch_len);
        let mut buffer = Guarded::new(buffer_len);
        let told = library::message(&self.laid.asked(), scratch.lent(), buffer.lent());
        let Answer {
            verdict,
            message,
            value,
        } = &self.answer;
        let expected = match self.refusal {
            0 => Told {
                refusal: 0,
                verdict: *verdict,
                len: message.len(),
            },
            refusal => Told {
                refusal,
                verdict: 0,
                len: 0,
            },
        };
        let read = self.refusal == 0;
        let value = value.as_deref().unwrap_or_default();
        let written =
            [("scratch", scratch, if read { value } else { "" }), ("buffer", buffer, if read { message } else { "" })];
        if told != expected {
            return Err(format!("ours {told:?}, Rust's {expected:?} {message:?}, of {self:?}"));
        }
        // 34 and 38 speak of what Message writes.
        let expected = match self.refusal {
            31 | 32 => self.refusal,
            _ => u64::from(*verdict),
        };
        let alone = library::verdict(&self.laid.asked());
        if alone != expected {
            return Err(format!("ours {alone} for the verdict alone, Rust's {expected}, of {self:?}"));
        }
        for (name, guarded, bytes) in written {
            guarded.holds(bytes.as_bytes()).map_err(|why| format!("the {name} {why}, of {self:?}"))?;
        }
        Ok(match self.refusal {
            0 => class(*verdict),
            refusal => refused(refusal),
        })
    }

    /// The kinds of cases that it is one of.
    pub fn shows(&self) -> Vec<String> {
        if self.refusal > 0 {
            return vec![refused(self.refusal).to_string()];
        }
        let [kind, matcher, result, _] = self.kinds;
        let Answer { verdict, value, .. } = &self.answer;
        let (kind, matcher) = (EXPECTS[kind], MATCHERS[matcher]);
        let mut shown = match &self.subject {
            Subject::Response(_) => vec![format!("entry {kind}"), format!("{} met", RESULTS[result])],
            Subject::Handshake(_) => vec![format!("handshake {kind}")],
        };
        shown.extend(self.shown_field());
        if kind == "Terminal" {
            shown.push(format!("terminal {}", class(*verdict)));
            return shown;
        }
        shown.push(match value {
            None => format!("{matcher} missing"),
            Some(_) => format!("{matcher} {}", class(*verdict)),
        });
        match value.as_ref().map(String::len) {
            Some(_) if *verdict == UNDECIDED => {}
            Some(0) => shown.push("an empty value".to_string()),
            Some(1_000..) => shown.push("a value of 1,000 bytes or more".to_string()),
            _ => {}
        }
        if self.laid.lists.len() >= crate::laid::RECORDS {
            shown.push("a table of 32,768 records".to_string());
        }
        shown
    }

    /// A field of a result that has it, there or missing.
    fn shown_field(&self) -> Option<String> {
        let Expect::Result { field: Some(field), .. } = &self.expect else {
            return None;
        };
        let Subject::Response(DaemonResponse { result: Some(_), .. }) = &self.subject else {
            return None;
        };
        let name = RESULTS[self.kinds[2]];
        let has = FIELDS_OF.iter().any(|(result, fields)| *result == name && fields.contains(&field.as_str()));
        let absent = if self.answer.value.is_none() { " missing" } else { "" };
        has.then(|| format!("{name}.{field}{absent}"))
    }
}

/// Whether it is an entry's case, and its kinds. Every third case is one of all that there are, most of which have no
/// value; the others are of kinds that may have one.
fn kinds_of(number: u64) -> (bool, [usize; 4]) {
    let mut left = number / 3;
    let mut next = |kinds: usize| {
        let kind = (left % kinds as u64) as usize;
        left /= kinds as u64;
        kind
    };
    let matcher = next(MATCHERS.len());
    if number % 3 > 0 {
        let (entry, kind, result, field) = VALUED[next(VALUED.len())];
        return (entry, [kind, matcher, result, field]);
    }
    let entry = next(2) > 0;
    (entry, [next(EXPECTS.len()), matcher, next(RESULTS.len()), next(FIELDS.len() + 1)])
}

/// Whether it is an entry's, and the places of the expectation, the result and the field in their lists.
pub const VALUED: &[(bool, usize, usize, usize)] = &[
    (true, 0, 1, 0),
    (true, 1, 1, 0),
    (true, 1, 2, 0),
    (true, 1, 4, 0),
    (true, 2, 3, 0),
    (true, 2, 3, 1),
    (true, 2, 3, 2),
    (true, 2, 3, 3),
    (true, 2, 3, 4),
    (true, 2, 7, 5),
    (true, 2, 8, 0),
    (true, 2, 8, 3),
    (true, 2, 8, 6),
    (true, 2, 9, 3),
    (true, 2, 9, 6),
    (true, 3, 0, 0),
    (true, 4, 0, 0),
    (false, 5, 0, 0),
    (false, 6, 0, 0),
    (false, 7, 0, 0),
];

impl std::fmt::Debug for Case {
    fn fmt(&self, f: &mut std::fmt::Formatter<'_>) -> std::fmt::Result {
        write!(
            f,
            "{:?} judged against {:?}, lent {:?}, asked {:?}",
            self.expect,
            self.subject,
            self.lent,
            self.laid.asked()
        )
    }
}

pub fn shorter(rng: &mut Rng, size: usize) -> usize {
    match rng.below(3) {
        0 => rng.below(size + 1),
        _ => size.saturating_sub(1),
    }
}

fn refused(number: u64) -> &'static str {
    match number {
        31 => "refused 31",
        32 => "refused 32",
        34 => "refused 34",
        _ => "refused 38",
    }
}

/// Every kind of case that is to be met.
pub fn kinds() -> Vec<String> {
    let mut kinds: Vec<String> = Vec::new();
    for kind in EXPECTS {
        kinds.push(format!("entry {kind}"));
        kinds.push(format!("handshake {kind}"));
    }
    for matcher in MATCHERS {
        kinds.push(format!("{matcher} passed"));
        kinds.push(format!("{matcher} failed"));
        kinds.push(format!("{matcher} missing"));
    }
    kinds.push("Regex undecided".to_string());
    for result in RESULTS {
        kinds.push(format!("{result} met"));
    }
    for (result, fields) in FIELDS_OF {
        for field in *fields {
            kinds.push(format!("{result}.{field}"));
        }
    }
    kinds.extend(OTHERS.iter().map(|other| other.to_string()));
    kinds
}

/// How many cases of each kind were met.
struct Met {
    counts: BTreeMap<String, u64>,
}

impl Met {
    /// Every kind, not met yet.
    fn new() -> Met {
        Met {
            counts: kinds().into_iter().map(|kind| (kind, 0)).collect(),
        }
    }

    fn count(&mut self, case: &Case) {
        for kind in case.shows() {
            *self.counts.get_mut(&kind).unwrap_or_else(|| panic!("{kind} is no kind")) += 1;
        }
    }

    fn ask(&self, report: &mut Report) {
        let shown: Vec<String> = self.counts.iter().map(|(kind, count)| format!("{count} {kind}")).collect();
        println!("{:<8}met: {}", "", shown.join(", "));
        for (kind, count) in &self.counts {
            report.ask_for(kind, *count, coverage::LEAST);
        }
    }
}

/// The results that have fields, with the fields that each has; a field that may be missing is there twice.
const FIELDS_OF: &[(&str, &[&str])] = &[
    (
        "PathInfo",
        &[
            "valid",
            "deriver",
            "deriver missing",
            "narHash",
            "narHash missing",
            "narSize",
            "narSize missing",
            "references",
            "references missing",
        ],
    ),
    ("CollectGarbage", &["bytes_freed"]),
    ("SubstitutablePathInfo", &["valid", "downloadSize", "downloadSize missing", "narSize", "narSize missing"]),
    ("Missing", &["downloadSize", "narSize"]),
];

const OTHERS: &[&str] = &[
    "terminal passed",
    "terminal failed",
    "an empty value",
    "a value of 1,000 bytes or more",
    "a table of 32,768 records",
    "refused 31",
    "refused 32",
    "refused 34",
    "refused 38",
];
