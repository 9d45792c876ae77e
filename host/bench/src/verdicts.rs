//! The verdict of one expectation, with its message and alone, beside the reference's `evaluate_expects` and
//! `evaluate_handshake_expects`, which make both. Only equal answers are timed. At last the decisions alone, beside the
//! reference's whole answer, since its own decision is private.

use std::hint::black_box;

use library::{Against, Asked, Order};
use nix_wire::handshake::ProtocolVersion;
use nix_wire::protocol::HandshakeInfo;
use nix_wire::script::expect::{evaluate_expects, evaluate_handshake_expects, ExpectResult};
use nix_wire::script::{DaemonResponse, ErrorInfo, Expect, Matcher, PathInfoResult, ResultData};

use crate::timing;

pub fn print() {
    println!("verdict and message{:<45}ours ns    Rust ns  times as fast   verdict alone", "");
    // Of others and of plain patterns: with the message, and alone.
    let mut least = [[f64::INFINITY; 2]; 2];
    for case in cases() {
        let faster = print_row(&case);
        let pattern = usize::from(matches!(case.matcher(), Some(Matcher::Regex(_))));
        for (least, faster) in least[pattern].iter_mut().zip(faster) {
            *least = least.min(faster);
        }
    }
    for (kinds, [whole, alone]) in [("plain patterns", least[1]), ("all others", least[0])] {
        println!("least: {whole:.2} times as fast on {kinds}, {alone:.2} times for the verdict alone");
    }
    print_copies();
    println!();
    print_decisions();
}

/// What Message cannot take less than on a long value: it stands in the scratch and in the message.
fn print_copies() {
    let value = "ab".repeat(15_000);
    let (mut scratch, mut buffer) = (vec![0; 40_000], vec![0; 40_000]);
    let copy = |to: &mut [u8]| black_box(to)[..value.len()].copy_from_slice(black_box(value.as_bytes()));
    let [both] = timing::best([&mut || {
        copy(&mut scratch);
        copy(&mut buffer[32..]);
    }]);
    println!("two copies alone of a text of 30,000 bytes, by the C library: {both:.1} ns");
}

enum Subject {
    Response(DaemonResponse),
    Handshake(HandshakeInfo),
}

struct Case {
    name: String,
    expect: Expect,
    subject: Subject,
}

impl Case {
    fn matcher(&self) -> Option<&Matcher> {
        match &self.expect {
            Expect::Terminal(_) => None,
            Expect::Result { matcher, .. }
            | Expect::Error { matcher }
            | Expect::StderrCount { matcher }
            | Expect::Daemon { matcher }
            | Expect::Trust { matcher }
            | Expect::ServerFeatures { matcher } => Some(matcher),
        }
    }

    fn rust(&self) -> Vec<ExpectResult> {
        let expects = std::slice::from_ref(&self.expect);
        match &self.subject {
            Subject::Response(response) => evaluate_expects(black_box(expects), black_box(response)),
            Subject::Handshake(info) => evaluate_handshake_expects(black_box(expects), black_box(info)),
        }
    }
}

/// Prints a row, and gives how many times as fast ours is, with the message and alone.
fn print_row(case: &Case) -> [f64; 2] {
    let laid = Laid::new(case);
    let asked = laid.asked();
    let (mut scratch, mut buffer) = (vec![0; 40_000], vec![0; 40_000]);
    let told = library::message(&asked, &mut scratch, &mut buffer);
    let ExpectResult { passed, message } = case.rust().remove(0);
    let ours = (told.refusal, told.verdict == 1, String::from_utf8_lossy(&buffer[..told.len]));
    let shown = message.strip_suffix(&format!("{:?}", case.expect)).unwrap_or(&message);
    assert_eq!(ours, (0, passed, shown.into()), "{}: only equal answers are timed", case.name);
    assert_eq!(library::verdict(&asked), u64::from(told.verdict), "{}: the verdict alone is the same", case.name);
    let mut ours = || {
        black_box(library::message(black_box(&asked), black_box(&mut scratch), black_box(&mut buffer)));
    };
    let mut rust = || {
        black_box(case.rust());
    };
    let mut alone = || {
        black_box(library::verdict(black_box(&asked)));
    };
    let [ours, rust, alone] = timing::best([&mut ours, &mut rust, &mut alone]);
    let faster = [rust / ours, rust / alone];
    let [whole, of_verdict] = faster;
    println!("{:<64}{ours:>7.1}{rust:>11.1}{whole:>15.2}{alone:>8.1}{of_verdict:>8.2}", case.name);
    faster
}

/// The rows, bytes and places of a case (`crates/rows/specs/Rows.antt`).
struct Laid {
    text: String,
    expect: [u64; 6],
    n: i64,
    against: Against,
    subject: [u64; 19],
    bytes: String,
    lists: Vec<[usize; 2]>,
}

/// Appends a text and writes its place.
fn put(bytes: &mut String, text: &str, row: &mut [u64], at: usize) {
    row[at] = bytes.len() as u64;
    row[at + 1] = text.len() as u64;
    bytes.push_str(text);
}

impl Laid {
    fn new(case: &Case) -> Laid {
        let against = match case.subject {
            Subject::Response(_) => Against::Response,
            Subject::Handshake(_) => Against::Handshake,
        };
        let mut laid = Laid {
            text: String::new(),
            expect: [0; 6],
            n: 0,
            against,
            subject: [0; 19],
            bytes: String::new(),
            lists: Vec::new(),
        };
        laid.put_expect(&case.expect);
        if let Some(matcher) = case.matcher() {
            laid.put_matcher(matcher);
        }
        match &case.subject {
            Subject::Response(response) => laid.put_response(response),
            Subject::Handshake(info) => laid.put_info(info),
        }
        laid
    }

    fn asked(&self) -> Asked<'_> {
        Asked {
            text: self.text.as_bytes(),
            expect: &self.expect,
            n: self.n,
            against: self.against,
            subject: &self.subject,
            bytes: self.bytes.as_bytes(),
            lists: &self.lists,
        }
    }

    fn put_expect(&mut self, expect: &Expect) {
        self.expect[0] = match expect {
            Expect::Terminal(name) => {
                put(&mut self.text, name, &mut self.expect, 1);
                1
            }
            Expect::Result { field: None, .. } => 2,
            Expect::Result { field: Some(field), .. } => {
                put(&mut self.text, field, &mut self.expect, 1);
                3
            }
            Expect::Error { .. } => 4,
            Expect::StderrCount { .. } => 5,
            Expect::Daemon { .. } => 6,
            Expect::Trust { .. } => 7,
            Expect::ServerFeatures { .. } => 8,
        };
    }

    fn put_matcher(&mut self, matcher: &Matcher) {
        let kind = match matcher {
            Matcher::Exact(text) => {
                put(&mut self.text, text, &mut self.expect, 4);
                1
            }
            Matcher::Regex(pattern) => {
                put(&mut self.text, pattern, &mut self.expect, 4);
                2
            }
            Matcher::GreaterThan(n) => self.numbered(3, *n),
            Matcher::LessThan(n) => self.numbered(4, *n),
            Matcher::GreaterOrEqual(n) => self.numbered(5, *n),
            Matcher::LessOrEqual(n) => self.numbered(6, *n),
        };
        self.expect[3] = kind;
    }

    fn numbered(&mut self, kind: u64, n: i64) -> u64 {
        self.n = n;
        kind
    }

    fn put_text(&mut self, text: &str, at: usize) {
        put(&mut self.bytes, text, &mut self.subject, at);
    }

    /// A flag, and the text behind it.
    fn put_maybe(&mut self, text: Option<&String>, at: usize) {
        if let Some(text) = text {
            self.subject[at] = 1;
            self.put_text(text, at + 1);
        }
    }

    fn put_list(&mut self, texts: &[String], at: usize) {
        self.subject[at] = self.lists.len() as u64;
        self.subject[at + 1] = texts.len() as u64;
        for text in texts {
            self.lists.push([self.bytes.len(), text.len()]);
            self.bytes.push_str(text);
        }
    }

    fn put_response(&mut self, response: &DaemonResponse) {
        self.put_text(&response.terminal, 0);
        self.subject[2] = response.stderr_count;
        self.put_maybe(response.error.as_ref().map(|error| &error.message), 3);
        self.subject[6] = match &response.result {
            Some(ResultData::U64(n)) => {
                self.subject[7] = *n;
                1
            }
            Some(ResultData::Str(text)) => {
                self.put_text(text, 7);
                2
            }
            Some(ResultData::PathInfo(info)) => {
                self.subject[7] = info.valid.into();
                self.put_maybe(info.deriver.as_ref(), 8);
                self.put_maybe(info.nar_hash.as_ref(), 11);
                self.subject[14] = 1;
                self.put_list(info.references.as_deref().unwrap_or_default(), 15);
                self.subject[17] = 1;
                self.subject[18] = info.nar_size.unwrap_or_default();
                3
            }
            Some(ResultData::StringSet(texts)) => {
                self.put_list(texts, 7);
                4
            }
            Some(ResultData::CollectGarbage { bytes_freed }) => {
                self.subject[7] = *bytes_freed;
                7
            }
            Some(ResultData::Missing {
                download_size,
                nar_size,
                ..
            }) => {
                self.subject[7] = *download_size;
                self.subject[8] = *nar_size;
                9
            }
            Some(other) => panic!("{other:?} is not timed"),
            None => 0,
        };
    }

    fn put_info(&mut self, info: &HandshakeInfo) {
        self.put_list(&info.client_features, 6);
        self.put_list(&info.server_features, 8);
        self.put_maybe(info.daemon_nix_version.as_ref(), 10);
        if let Some(trust) = info.trust_status {
            self.subject[13] = 1;
            self.subject[14] = trust;
        }
    }
}

const PATH: &str = "/nix/store/0c1h4nlkyc3ipqzr4vdnjgj3l9gq7f2x-sense-filter-2.1";

fn paths(count: usize) -> Vec<String> {
    (0..count).map(|number| format!("{PATH}-{number}")).collect()
}

fn response(result: Option<ResultData>) -> Subject {
    Subject::Response(DaemonResponse {
        terminal: "Last".to_string(),
        stderr_count: 12,
        result,
        error: Some(ErrorInfo {
            error_type: "Error".to_string(),
            level: 0,
            name: String::new(),
            message: format!("path '{PATH}' is not valid"),
        }),
    })
}

fn path_info() -> Subject {
    response(Some(ResultData::PathInfo(PathInfoResult {
        valid: true,
        deriver: Some(format!("{PATH}.drv")),
        nar_hash: Some("sha256:1b8m03r63zqhnjf7l5wnldhh7c134ap5vpj0850ymkq1iyzicy5s".to_string()),
        references: Some(paths(5)),
        registration_time: None,
        nar_size: Some(1_234_567),
        ultimate: None,
        sigs: None,
        ca: None,
    })))
}

fn handshake() -> Subject {
    let version = ProtocolVersion::new(1, 38);
    Subject::Handshake(HandshakeInfo {
        client_version: version,
        server_version: version,
        negotiated_version: version,
        client_features: Vec::new(),
        server_features: vec!["ca-derivations".to_string(), "realisation-with-path".to_string()],
        daemon_nix_version: Some("2.33.3".to_string()),
        trust_status: Some(1),
    })
}

/// Each expectation with each sort of matcher that is used with it.
fn cases() -> Vec<Case> {
    let exact = |text: &str| Matcher::Exact(text.to_string());
    let plain = |pattern: &str| Matcher::Regex(pattern.to_string());
    let result = |field: Option<&str>, matcher| Expect::Result {
        field: field.map(str::to_string),
        matcher,
    };
    let number = || response(Some(ResultData::U64(1)));
    let text = || response(Some(ResultData::Str(PATH.to_string())));
    let set = |count| response(Some(ResultData::StringSet(paths(count))));
    let freed = || response(Some(ResultData::CollectGarbage { bytes_freed: 1 << 40 }));
    let missing = || {
        response(Some(ResultData::Missing {
            will_build: Vec::new(),
            will_substitute: Vec::new(),
            unknown: Vec::new(),
            download_size: 123_456,
            nar_size: u64::MAX,
        }))
    };
    let long = || response(Some(ResultData::Str("ab".repeat(15_000))));
    let joined = |count| format!("[{}]", paths(count).join(", "));
    let case = |name: &str, expect, subject| Case {
        name: name.to_string(),
        expect,
        subject,
    };
    vec![
        case("terminal, passed", Expect::Terminal("Last".to_string()), number()),
        case("terminal, failed", Expect::Terminal("Error".to_string()), number()),
        case("result, a number, exact", result(None, exact("1")), number()),
        case("result, a number, >", result(None, Matcher::GreaterThan(0)), number()),
        case("result, a number, <=, failed", result(None, Matcher::LessOrEqual(0)), number()),
        case("result, a text, exact", result(None, exact(PATH)), text()),
        case("result, a text, exact, failed", result(None, exact("/nix/store")), text()),
        case("result, a text, plain pattern", result(None, plain("sense-filter")), text()),
        case("result, a text, plain pattern, failed", result(None, plain("sense-filler")), text()),
        case("result, a text of 30,000 bytes, plain pattern, failed", result(None, plain("abba")), long()),
        case("result, a set of 5, exact", result(None, exact(&joined(5))), set(5)),
        case("result, a set of 5, plain pattern", result(None, plain("-3, /nix")), set(5)),
        case("result, a set of 200, exact, failed", result(None, exact("[]")), set(200)),
        case("result.valid, exact", result(Some("valid"), exact("1")), path_info()),
        case("result.deriver, exact, failed", result(Some("deriver"), exact(PATH)), path_info()),
        case("result.narHash, plain pattern", result(Some("narHash"), plain("sha256:")), path_info()),
        case("result.narSize, >=", result(Some("narSize"), Matcher::GreaterOrEqual(1_000_000)), path_info()),
        case("result.references, plain pattern", result(Some("references"), plain("filter-2")), path_info()),
        case("result.references, exact", result(Some("references"), exact(&joined(5))), path_info()),
        case("result.bytes_freed, >", result(Some("bytes_freed"), Matcher::GreaterThan(1 << 30)), freed()),
        case("result.downloadSize, <", result(Some("downloadSize"), Matcher::LessThan(1 << 30)), missing()),
        case("result.narSize above i64, >, failed", result(Some("narSize"), Matcher::GreaterThan(0)), missing()),
        case("result.nothing, not found", result(Some("nothing"), exact("1")), path_info()),
        case("error, exact, failed", Expect::Error { matcher: exact("no") }, number()),
        case(
            "error, plain pattern",
            Expect::Error {
                matcher: plain("is not valid"),
            },
            number(),
        ),
        case("stderr.count, exact", Expect::StderrCount { matcher: exact("12") }, number()),
        case(
            "stderr.count, <",
            Expect::StderrCount {
                matcher: Matcher::LessThan(20),
            },
            number(),
        ),
        case(
            "daemon in an entry",
            Expect::Daemon {
                matcher: exact("2.33.3"),
            },
            number(),
        ),
        case(
            "daemon, exact",
            Expect::Daemon {
                matcher: exact("2.33.3"),
            },
            handshake(),
        ),
        case("daemon, plain pattern", Expect::Daemon { matcher: plain("2") }, handshake()),
        case(
            "trust, exact",
            Expect::Trust {
                matcher: exact("trusted"),
            },
            handshake(),
        ),
        case(
            "trust, plain pattern",
            Expect::Trust {
                matcher: plain("trust"),
            },
            handshake(),
        ),
        case("server_features, exact, failed", Expect::ServerFeatures { matcher: exact("{}") }, handshake()),
        case(
            "server_features, plain pattern",
            Expect::ServerFeatures {
                matcher: plain("ca-derivations"),
            },
            handshake(),
        ),
        case("result in the preamble", result(None, exact("1")), handshake()),
    ]
}

/// The exported decisions, on a value of the daemon's version.
fn print_decisions() {
    println!("decision{:<56}ours ns    Rust ns  times as fast", "");
    let value = PATH;
    let long = "ab".repeat(15_000);
    print_decision("exact", Matcher::Exact(value.to_string()), value, &|| {
        library::exact(PATH.as_bytes(), value.as_bytes())
    });
    for (name, pattern, value) in [
        ("plain pattern", "sense-filter", value),
        ("plain pattern, failed", "sense-filler", value),
        ("plain pattern, failed, on 30,000 bytes", "abba", &long),
    ] {
        let ours = || library::pattern(black_box(pattern.as_bytes()), black_box(value.as_bytes()));
        print_decision(name, Matcher::Regex(pattern.to_string()), value, &ours);
    }
    let ours = || library::ordering(Order::GreaterThan, black_box(5), black_box(b"9223372036854775807"));
    print_decision(">", Matcher::GreaterThan(5), "9223372036854775807", &ours);
}

fn print_decision(name: &str, matcher: Matcher, value: &str, ours: &dyn Fn() -> u8) {
    let Subject::Handshake(mut info) = handshake() else {
        unreachable!()
    };
    info.daemon_nix_version = Some(value.to_string());
    let expects = [Expect::Daemon { matcher }];
    let evaluate = || evaluate_handshake_expects(black_box(&expects), black_box(&info));
    assert_eq!(ours() == 1, evaluate()[0].passed, "{name}: only equal answers are timed");
    let [ours, rust] = timing::best([
        &mut || {
            black_box(ours());
        },
        &mut || {
            black_box(evaluate());
        },
    ]);
    println!("{name:<64}{ours:>7.1}{rust:>11.1}{:>15.2}", rust / ours);
}
