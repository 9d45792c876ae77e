//! What the reference says of one expectation, with what document 01 adds to it.

use nix_wire::protocol::HandshakeInfo;
use nix_wire::script::expect::{evaluate_expects, evaluate_handshake_expects, ExpectResult};
use nix_wire::script::{DaemonResponse, Expect, Matcher};

use crate::decisions::{is_plain, FAILED, PASSED, UNDECIDED};

/// What an expectation is judged against.
#[derive(Debug)]
pub enum Subject {
    Response(DaemonResponse),
    Handshake(HandshakeInfo),
}

pub struct Answer {
    pub verdict: u8,
    pub message: String,
    /// The value looked up, unless it is missing; the terminal name is none.
    pub value: Option<String>,
}

/// A message that ends in what `Debug` prints ends here with us.
const MISPLACED: &str = "non-handshake expect in preamble: ";

pub fn answer(expect: &Expect, subject: &Subject) -> Answer {
    let value = value(expect, subject);
    if let (Some(_), Some(Matcher::Regex(pattern))) = (&value, matcher(expect)) {
        if !is_plain(pattern) {
            return Answer {
                verdict: UNDECIDED,
                message: format!("undecided: /{pattern}/"),
                value,
            };
        }
    }
    let ExpectResult { passed, message } = evaluate(expect, subject);
    let misplaced = matches!(subject, Subject::Handshake(_)) && message.starts_with(MISPLACED);
    Answer {
        verdict: if passed { PASSED } else { FAILED },
        message: if misplaced { MISPLACED.to_string() } else { message },
        value,
    }
}

fn evaluate(expect: &Expect, subject: &Subject) -> ExpectResult {
    let expects = std::slice::from_ref(expect);
    let mut results = match subject {
        Subject::Response(response) => evaluate_expects(expects, response),
        Subject::Handshake(info) => evaluate_handshake_expects(expects, info),
    };
    results.pop().expect("a result for each expectation")
}

pub fn matcher(expect: &Expect) -> Option<&Matcher> {
    match expect {
        Expect::Terminal(_) => None,
        Expect::Result { matcher, .. }
        | Expect::Error { matcher }
        | Expect::StderrCount { matcher }
        | Expect::Daemon { matcher }
        | Expect::Trust { matcher }
        | Expect::ServerFeatures { matcher } => Some(matcher),
    }
}

/// The expectation with another matcher.
pub fn with_matcher(expect: &Expect, matcher: Matcher) -> Expect {
    match expect {
        Expect::Terminal(name) => Expect::Terminal(name.clone()),
        Expect::Result { field, .. } => Expect::Result {
            field: field.clone(),
            matcher,
        },
        Expect::Error { .. } => Expect::Error { matcher },
        Expect::StderrCount { .. } => Expect::StderrCount { matcher },
        Expect::Daemon { .. } => Expect::Daemon { matcher },
        Expect::Trust { .. } => Expect::Trust { matcher },
        Expect::ServerFeatures { .. } => Expect::ServerFeatures { matcher },
    }
}

/// The value that the reference looks up: it is shown by a matcher that no value passes.
pub fn value(expect: &Expect, subject: &Subject) -> Option<String> {
    let key = match expect {
        Expect::Terminal(_) => return None,
        Expect::Result { field: None, .. } => "result".to_string(),
        Expect::Result { field: Some(field), .. } => format!("result.{field}"),
        Expect::Error { .. } => "error".to_string(),
        Expect::StderrCount { .. } => "stderr.count".to_string(),
        Expect::Daemon { .. } => "daemon".to_string(),
        Expect::Trust { .. } => "trust".to_string(),
        Expect::ServerFeatures { .. } => "server_features".to_string(),
    };
    let shown = evaluate(&with_matcher(expect, Matcher::LessThan(i64::MIN)), subject).message;
    shown.strip_prefix(&format!("{key}: expected < {}, got ", i64::MIN)).map(str::to_string)
}
