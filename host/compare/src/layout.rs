//! What Read is to leave in the tables, by the reference's script. The script has strings, so where a part of the text
//! stands is not in it; ranges of tables and places in the store follow from the order in which they are filled.

use nix_wire::script::parse::parse_script;
use nix_wire::script::{Entry, Expect, FramedData, OpCall, Preamble, Script};

use crate::reference::{counts, stamp, Beginnings, Lines};
use crate::row::{Row, Stamp, Value};

/// The answer, and the used front of each table.
#[derive(Default)]
pub struct Tables<'a> {
    pub head: Row<'a>,
    pub entries: Vec<Row<'a>>,
    pub items: Vec<Row<'a>>,
    pub expectations: Vec<Row<'a>>,
    pub store: Vec<u8>,
}

impl<'a> Tables<'a> {
    /// Nothing but a refusal.
    pub fn refused(number: u64, line: usize) -> Tables<'a> {
        let head = Row::default().number("answer", 1).number("refusal", number).number("line", line as u64);
        Tables {
            head,
            ..Tables::default()
        }
    }

    /// The script of a text, whose lines these are.
    pub fn read(text: &Beginnings<'a>, lines: &Lines, script: &'a Script) -> Tables<'a> {
        let tables = Tables::default();
        Laying { text, lines, tables }.script(script)
    }

    /// All values that are parts of the text, in the order of the dump.
    pub fn texts(&self) -> Vec<&'a str> {
        let text = |(_, value): &(&str, Value<'a>)| match value {
            Value::Text(text) => Some(*text),
            Value::Number(_) | Value::Operation(_) | Value::Stamp(_) => None,
        };
        let rows = [&self.head].into_iter().chain(&self.entries).chain(&self.items).chain(&self.expectations);
        rows.flat_map(|row| row.values.iter().filter_map(text)).collect()
    }
}

/// Fills the tables, from their fronts.
struct Laying<'a, 't> {
    text: &'t Beginnings<'a>,
    lines: &'t Lines,
    tables: Tables<'a>,
}

impl<'a> Laying<'a, '_> {
    fn script(mut self, script: &'a Script) -> Tables<'a> {
        let head = self.preamble(&script.preamble);
        for entry in &script.entries {
            let row = self.entry(entry);
            self.tables.entries.push(row);
        }
        let needed = counts(script);
        let head = head.number("entries", needed.entries as u64).number("items", needed.items as u64);
        self.tables.head = head.number("expectations", needed.expectations as u64).number("store", needed.store as u64);
        self.tables
    }

    /// The answer, but for the counts.
    fn preamble(&mut self, preamble: &'a Preamble) -> Row<'a> {
        let version = preamble.protocol_version;
        let row = Row::within(0..self.start(0))
            .number("answer", 0)
            .number("protocol major", version.major.into())
            .number("protocol minor", version.minor.into());
        let row = self.list(row, "client_features", &preamble.client_features);
        let row = self
            .expects(row, &preamble.expects)
            .maybe("daemon_version", &preamble.daemon_version)
            .maybe("trust", &preamble.trust)
            .flag("server_features", preamble.server_features.is_some());
        self.list(row, "server_features", preamble.server_features.as_deref().unwrap_or_default())
    }

    fn entry(&mut self, entry: &'a Entry) -> Row<'a> {
        let number = self.tables.entries.len();
        let line = self.lines.entries[number];
        let opening = self.text.line(line);
        let spelled = |ms| Stamp {
            ms,
            written: stamp(opening).unwrap_or_default(),
        };
        let row = Row::within(self.start(number)..self.start(number + 1))
            .number("line", line as u64)
            .stamp("timestamp", entry.timestamp_ms.map(spelled));
        let row = self.expects(row, &entry.expects);
        self.call(row, opening, &entry.op_call)
    }

    /// Where an entry starts in the text; past the last one, the text's end.
    fn start(&self, entry: usize) -> usize {
        let line = self.lines.entries.get(entry);
        line.map_or(self.text.text.len(), |line| self.text.range(*line).start)
    }

    fn call(&mut self, row: Row<'a>, opening: &str, call: &'a OpCall) -> Row<'a> {
        match call {
            OpCall::SinglePath { op, path } => row.case(1, Some(*op)).text("path", path),
            OpCall::SingleString { op, value } => row.case(2, Some(*op)).text("value", value),
            OpCall::PathSet { op, paths } => self.list(row.case(3, Some(*op)), "paths", paths),
            OpCall::PathSetFlag { op, paths, substitute } => {
                self.list(row.case(4, Some(*op)), "paths", paths).flag("substitute", *substitute)
            }
            OpCall::PathSetMode { op, paths, mode } => {
                self.list(row.case(5, Some(*op)), "paths", paths).text("mode", mode_written(opening, mode))
            }
            OpCall::NoArgs { op } => row.case(6, Some(*op)),
            OpCall::SetOptions {
                keep_failed,
                keep_going,
                try_fallback,
                verbosity,
                max_build_jobs,
                max_silent_time,
                use_build_hook,
                verbose_build,
                log_type,
                print_build_trace,
                build_cores,
                use_substitutes,
                overrides,
            } => {
                let row = row
                    .case(7, None)
                    .number("keep_failed", *keep_failed)
                    .number("keep_going", *keep_going)
                    .number("try_fallback", *try_fallback)
                    .number("verbosity", *verbosity)
                    .number("max_build_jobs", *max_build_jobs)
                    .number("max_silent_time", *max_silent_time)
                    .number("use_build_hook", *use_build_hook)
                    .number("verbose_build", *verbose_build)
                    .number("log_type", *log_type)
                    .number("print_build_trace", *print_build_trace)
                    .number("build_cores", *build_cores)
                    .number("use_substitutes", *use_substitutes);
                self.overrides(row, overrides)
            }
            OpCall::CollectGarbage {
                action,
                paths,
                ignore_liveness,
                max_freed,
            } => self
                .list(row.case(8, None).number("action", *action), "paths", paths)
                .number("ignore_liveness", *ignore_liveness)
                .number("max_freed", *max_freed),
            OpCall::VerifyStore { check_contents, repair } => {
                row.case(9, None).flag("check_contents", *check_contents).flag("repair", *repair)
            }
            OpCall::AddPermRoot { path, gc_root } => row.case(10, None).text("path", path).text("gc_root", gc_root),
            OpCall::AddSignatures { path, sigs } => self.list(row.case(11, None).text("path", path), "sigs", sigs),
            OpCall::AddTextToStore { suffix, text, refs } => {
                let row = self.stored(row.case(12, None), "suffix", suffix.as_bytes());
                let row = self.stored(row, "text", text.as_bytes());
                self.list(row, "refs", refs)
            }
            OpCall::AddToStore {
                name,
                cam_str,
                refs,
                repair,
                data,
            } => {
                let row = self.stored(row.case(13, None), "name", name.as_bytes());
                let row = self.stored(row, "cam_str", cam_str.as_bytes());
                let row = self.list(row, "refs", refs).flag("repair", *repair);
                self.data(row, data)
            }
            OpCall::AddMultipleToStore {
                repair,
                dont_check_sigs,
                data,
            } => {
                let row = row.case(14, None).flag("repair", *repair).flag("dont_check_sigs", *dont_check_sigs);
                self.data(row, data)
            }
            OpCall::AddBuildLog { path, data } => self.data(row.case(15, None).text("path", path), data),
            OpCall::RegisterDrvOutput { value } => row.case(16, None).text("value", value),
            OpCall::QueryRealisation { value } => row.case(17, None).text("value", value),
            OpCall::QuerySubstitutablePathInfo { path } => row.case(18, None).text("path", path),
            OpCall::QuerySubstitutablePathInfos { paths } => self.list(row.case(19, None), "paths", paths),
            OpCall::RawBytes { op, data } => self.stored(row.case(20, Some(*op)), "data", data),
        }
    }

    /// A list: the next items.
    fn list(&mut self, row: Row<'a>, name: &'static str, members: &'a [String]) -> Row<'a> {
        let row = row.behind(name, self.tables.items.len(), members.len());
        for member in members {
            self.tables.items.push(item(&row, member));
        }
        row
    }

    /// The overrides: two items for each.
    fn overrides(&mut self, row: Row<'a>, overrides: &'a [(String, String)]) -> Row<'a> {
        let row = row.behind("overrides", self.tables.items.len(), 2 * overrides.len());
        for (name, value) in overrides {
            self.tables.items.extend([item(&row, name), item(&row, value)]);
        }
        row
    }

    /// The next bytes of the store.
    fn stored(&mut self, row: Row<'a>, name: &'static str, bytes: &[u8]) -> Row<'a> {
        let row = row.behind(name, self.tables.store.len(), bytes.len());
        self.tables.store.extend_from_slice(bytes);
        row
    }

    fn data(&mut self, row: Row<'a>, data: &'a FramedData) -> Row<'a> {
        match data {
            FramedData::Inline(bytes) => self.stored(row.number("data", 0), "data", bytes),
            FramedData::FileRef(name) => row.number("data", 1).text("data", name),
        }
    }

    /// The next expectations.
    fn expects(&mut self, row: Row<'a>, expects: &'a [Expect]) -> Row<'a> {
        let row = row.behind("expects", self.tables.expectations.len(), expects.len());
        for expect in expects {
            let line = self.lines.expectations[self.tables.expectations.len()];
            let expectation = Row::within(self.text.range(line)).number("line", line as u64);
            self.tables.expectations.push(expected(expectation, expect));
        }
        row
    }
}

/// A member of a list in this record.
fn item<'a>(owner: &Row, member: &'a str) -> Row<'a> {
    Row::within(owner.within.clone()).text("place", member)
}

fn expected<'a>(row: Row<'a>, expect: &'a Expect) -> Row<'a> {
    let (case, name, matcher) = match expect {
        Expect::Terminal(terminal) => return row.number("case", 1).text("terminal", terminal),
        Expect::Result { field: None, matcher } => (2, "", matcher),
        Expect::Result {
            field: Some(field),
            matcher,
        } => (3, field.as_str(), matcher),
        Expect::Error { matcher } => (4, "", matcher),
        Expect::StderrCount { matcher } => (5, "", matcher),
        Expect::Daemon { matcher } => (6, "", matcher),
        Expect::Trust { matcher } => (7, "", matcher),
        Expect::ServerFeatures { matcher } => (8, "", matcher),
    };
    row.number("case", case).text("field", name).matcher(matcher)
}

/// The mode as it stands on the opening line. To the reference one that is missing and a written `normal` are the same,
/// but more behind it shows which it is.
fn mode_written<'a>(opening: &str, mode: &'a str) -> &'a str {
    if mode != NORMAL {
        return mode;
    }
    let longer = parse_script(&format!("---\n{} q\n", opening.trim())).ok();
    match longer.as_ref().and_then(|script| script.entries.first()).map(|entry| &entry.op_call) {
        Some(OpCall::PathSetMode { mode: longer, .. }) if *longer == format!("{NORMAL} q") => mode,
        _ => "",
    }
}

const NORMAL: &str = "normal";
