//! The functions of the proved library. Each is total: its contract has no `requires`, so any bytes may be passed.

/// A `&[u8]` or `&mut [u8]` of Rattle is two C arguments, its pointer and its length.
mod exports {
    extern "C" {
        pub fn nwscript_utf8(s: *const u8, s_len: usize) -> bool;
        pub fn nwscript_trim(s: *const u8, s_len: usize, start: *mut usize, len: *mut usize);
        pub fn nwscript_count_lines(text: *const u8, text_len: usize) -> usize;
        pub fn nwscript_trimmed_bytes(text: *const u8, text_len: usize) -> usize;
        pub fn nwscript_hex_len(s: *const u8, s_len: usize) -> usize;
        pub fn nwscript_hex(s: *const u8, s_len: usize, out: *mut u8, out_len: usize) -> usize;
        pub fn nwscript_unquoted_len(s: *const u8, s_len: usize) -> usize;
        pub fn nwscript_unquote(s: *const u8, s_len: usize, out: *mut u8, out_len: usize) -> usize;
        pub fn nwscript_u64(s: *const u8, s_len: usize, value: *mut u64) -> bool;
        pub fn nwscript_u16(s: *const u8, s_len: usize, value: *mut u64) -> bool;
        pub fn nwscript_u8(s: *const u8, s_len: usize, value: *mut u64) -> bool;
        pub fn nwscript_i64(s: *const u8, s_len: usize, value: *mut i64) -> bool;
        pub fn nwscript_measure(
            text: *const u8,
            text_len: usize,
            line: *mut usize,
            entries: *mut usize,
            items: *mut usize,
            expectations: *mut usize,
            store: *mut usize,
        ) -> u64;
        pub fn nwscript_read(
            text: *const u8,
            text_len: usize,
            entries: usize,
            items: usize,
            expectations: usize,
            store: usize,
            out: *mut u8,
            out_len: usize,
        ) -> usize;
        pub fn nwscript_read_times(text: *const u8, text_len: usize, times: u64) -> u64;
        pub fn nwscript_exact(text: *const u8, text_len: usize, value: *const u8, value_len: usize) -> u8;
        pub fn nwscript_pattern(pattern: *const u8, pattern_len: usize, value: *const u8, value_len: usize) -> u8;
        pub fn nwscript_ordering(kind: u8, n: i64, value: *const u8, value_len: usize) -> u8;
        pub fn nwscript_entry_message(
            text: *const u8,
            text_len: usize,
            expect: *const u64,
            expect_len: usize,
            n: i64,
            response: *const u64,
            response_len: usize,
            bytes: *const u8,
            bytes_len: usize,
            lists: *const [usize; 2],
            lists_len: usize,
            scratch: *mut u8,
            scratch_len: usize,
            buffer: *mut u8,
            buffer_len: usize,
            verdict: *mut u8,
            len: *mut usize,
        ) -> u64;
        pub fn nwscript_handshake_message(
            text: *const u8,
            text_len: usize,
            expect: *const u64,
            expect_len: usize,
            n: i64,
            info: *const u64,
            info_len: usize,
            bytes: *const u8,
            bytes_len: usize,
            lists: *const [usize; 2],
            lists_len: usize,
            scratch: *mut u8,
            scratch_len: usize,
            buffer: *mut u8,
            buffer_len: usize,
            verdict: *mut u8,
            len: *mut usize,
        ) -> u64;
        pub fn nwscript_entry_verdict(
            text: *const u8,
            text_len: usize,
            expect: *const u64,
            expect_len: usize,
            n: i64,
            response: *const u64,
            response_len: usize,
            bytes: *const u8,
            bytes_len: usize,
            lists: *const [usize; 2],
            lists_len: usize,
        ) -> u64;
        pub fn nwscript_handshake_verdict(
            text: *const u8,
            text_len: usize,
            expect: *const u64,
            expect_len: usize,
            n: i64,
            info: *const u64,
            info_len: usize,
            bytes: *const u8,
            bytes_len: usize,
            lists: *const [usize; 2],
            lists_len: usize,
        ) -> u64;
        pub fn nwscript_run(
            text: *const u8,
            text_len: usize,
            calls: *const [u64; 22],
            calls_len: usize,
            bytes: *const u8,
            bytes_len: usize,
            lists: *const [usize; 2],
            lists_len: usize,
            verdicts: *mut u8,
            verdicts_len: usize,
            scratch: *mut u8,
            scratch_len: usize,
            answers: *mut u64,
            answers_len: usize,
            line: *mut usize,
            next: *mut usize,
            passed: *mut usize,
            failed: *mut usize,
            undecided: *mut usize,
        ) -> u64;
    }
}

/// Whether s is well-formed UTF-8.
pub fn utf8(s: &[u8]) -> bool {
    unsafe { exports::nwscript_utf8(s.as_ptr(), s.len()) }
}

/// Start and length of s once trimmed.
pub fn trim(s: &[u8]) -> (usize, usize) {
    // Values that no answer has: one that is not written is seen.
    let (mut start, mut len) = (usize::MAX, usize::MAX);
    unsafe { exports::nwscript_trim(s.as_ptr(), s.len(), &mut start, &mut len) };
    (start, len)
}

/// How many lines the text has.
pub fn count_lines(text: &[u8]) -> usize {
    unsafe { exports::nwscript_count_lines(text.as_ptr(), text.len()) }
}

/// How many bytes all lines of the text have together once trimmed.
pub fn trimmed_bytes(text: &[u8]) -> usize {
    unsafe { exports::nwscript_trimmed_bytes(text.as_ptr(), text.len()) }
}

/// How many bytes s is as hex.
pub fn hex_len(s: &[u8]) -> usize {
    unsafe { exports::nwscript_hex_len(s.as_ptr(), s.len()) }
}

/// Writes the bytes that s is as hex to the front of out, if they fit. Gives their number either way.
pub fn hex(s: &[u8], out: &mut [u8]) -> usize {
    unsafe { exports::nwscript_hex(s.as_ptr(), s.len(), out.as_mut_ptr(), out.len()) }
}

/// How many bytes s is once unquoted.
pub fn unquoted_len(s: &[u8]) -> usize {
    unsafe { exports::nwscript_unquoted_len(s.as_ptr(), s.len()) }
}

/// Writes s, unquoted, to the front of out, if it fits. Gives the number of bytes either way.
pub fn unquote(s: &[u8], out: &mut [u8]) -> usize {
    unsafe { exports::nwscript_unquote(s.as_ptr(), s.len(), out.as_mut_ptr(), out.len()) }
}

/// Reads s as a u64. If it is none, value is left as it is; so too below.
pub fn parse_u64(s: &[u8], value: &mut u64) -> bool {
    unsafe { exports::nwscript_u64(s.as_ptr(), s.len(), value) }
}

/// Reads s as a u16.
pub fn parse_u16(s: &[u8], value: &mut u64) -> bool {
    unsafe { exports::nwscript_u16(s.as_ptr(), s.len(), value) }
}

/// Reads s as a u8.
pub fn parse_u8(s: &[u8], value: &mut u64) -> bool {
    unsafe { exports::nwscript_u8(s.as_ptr(), s.len(), value) }
}

/// Reads s as an i64.
pub fn parse_i64(s: &[u8], value: &mut i64) -> bool {
    unsafe { exports::nwscript_i64(s.as_ptr(), s.len(), value) }
}

/// What a script takes: records of three tables, and bytes of the store.
#[derive(Debug, Clone, Copy, Default, PartialEq, Eq)]
pub struct Counts {
    pub entries: usize,
    pub items: usize,
    pub expectations: usize,
    pub store: usize,
}

/// What is said of a text: why it is refused and on which line (0 if on none), or what it takes.
#[derive(Debug, Clone, Copy, PartialEq, Eq)]
pub enum Measured {
    Refused { number: u64, line: usize },
    Read(Counts),
}

impl Measured {
    /// The six numbers of `measure_numbers`: those that do not apply are 0.
    pub fn numbers(self) -> [u64; 6] {
        match self {
            Measured::Refused { number, line } => [number, line as u64, 0, 0, 0, 0],
            Measured::Read(counts) => {
                let counts = [counts.entries, counts.items, counts.expectations, counts.store];
                let [entries, items, expectations, store] = counts.map(|count| count as u64);
                [0, 0, entries, items, expectations, store]
            }
        }
    }
}

/// Measures a text.
pub fn measure(text: &[u8]) -> Measured {
    let (number, [line, entries, items, expectations, store]) = measured(text);
    match number {
        0 => Measured::Read(Counts {
            entries,
            items,
            expectations,
            store,
        }),
        _ => Measured::Refused { number, line },
    }
}

/// Measures a text: the refusal's number (0 if it is read), its line, entries, items, expectations and store bytes,
/// each as the library gives it.
pub fn measure_numbers(text: &[u8]) -> [u64; 6] {
    let (number, written) = measured(text);
    let [line, entries, items, expectations, store] = written.map(|written| written as u64);
    [number, line, entries, items, expectations, store]
}

fn measured(text: &[u8]) -> (u64, [usize; 5]) {
    // Values that no answer has: one that is not written is seen.
    let mut written = [usize::MAX; 5];
    let [line, entries, items, expectations, store] = &mut written;
    let number =
        unsafe { exports::nwscript_measure(text.as_ptr(), text.len(), line, entries, items, expectations, store) };
    (number, written)
}

/// The most that `read` lends of each table; a larger number counts as this.
pub const MOST: Counts = Counts {
    entries: 256,
    items: 1_024,
    expectations: 1_024,
    store: 32_768,
};

/// Reads a text into tables of which so much is lent, and writes what they hold after that to the front of out, if it
/// fits. Gives the number of bytes either way.
pub fn read(text: &[u8], lent: Counts, out: &mut [u8]) -> usize {
    let Counts {
        entries,
        items,
        expectations,
        store,
    } = lent;
    let (text, text_len, out, out_len) = (text.as_ptr(), text.len(), out.as_mut_ptr(), out.len());
    unsafe { exports::nwscript_read(text, text_len, entries, items, expectations, store, out, out_len) }
}

/// Reads a text so many times into tables of its own. Gives the number of the last refusal, 0 if it is read.
pub fn read_times(text: &[u8], times: u64) -> u64 {
    unsafe { exports::nwscript_read_times(text.as_ptr(), text.len(), times) }
}

/// What an exact matcher decides of a value: 1 passed, 2 failed, 3 undecided; so too below.
pub fn exact(text: &[u8], value: &[u8]) -> u8 {
    unsafe { exports::nwscript_exact(text.as_ptr(), text.len(), value.as_ptr(), value.len()) }
}

/// What a pattern decides of a value.
pub fn pattern(pattern: &[u8], value: &[u8]) -> u8 {
    unsafe { exports::nwscript_pattern(pattern.as_ptr(), pattern.len(), value.as_ptr(), value.len()) }
}

/// How an ordering matcher compares a value with its number.
#[derive(Debug, Clone, Copy, PartialEq, Eq)]
#[repr(u8)]
pub enum Order {
    GreaterThan = 1,
    LessThan = 2,
    GreaterOrEqual = 3,
    LessOrEqual = 4,
}

/// What an ordering matcher with the number n decides of a value.
pub fn ordering(order: Order, n: i64, value: &[u8]) -> u8 {
    unsafe { exports::nwscript_ordering(order as u8, n, value.as_ptr(), value.len()) }
}

/// What an expectation is judged against.
#[derive(Debug, Clone, Copy, PartialEq, Eq)]
pub enum Against {
    Response,
    Handshake,
}

/// An expectation and what it is judged against, as numbers: its row, the number of its matcher and the row of the
/// response or of the handshake's information (`crates/rows/specs/Rows.antt` says which number is what). The places in
/// the first row are places in the text, those in the other in the bytes; lists are ranges of a table of places.
#[derive(Debug, Clone, Copy)]
pub struct Asked<'a> {
    pub text: &'a [u8],
    pub expect: &'a [u64],
    pub n: i64,
    pub against: Against,
    pub subject: &'a [u64],
    pub bytes: &'a [u8],
    pub lists: &'a [[usize; 2]],
}

/// What Message answers: the refusal's number or 0, the verdict's number and the message's length, both 0 on a refusal.
#[derive(Debug, Clone, Copy, PartialEq, Eq)]
pub struct Told {
    pub refusal: u64,
    pub verdict: u8,
    pub len: usize,
}

/// The message of an expectation, at the front of the buffer; a present value stands at the front of the scratch.
pub fn message(asked: &Asked, scratch: &mut [u8], buffer: &mut [u8]) -> Told {
    let call = match asked.against {
        Against::Response => exports::nwscript_entry_message,
        Against::Handshake => exports::nwscript_handshake_message,
    };
    // Values that no answer has: one that is not written is seen.
    let (mut verdict, mut len) = (u8::MAX, usize::MAX);
    let refusal = unsafe {
        call(
            asked.text.as_ptr(),
            asked.text.len(),
            asked.expect.as_ptr(),
            asked.expect.len(),
            asked.n,
            asked.subject.as_ptr(),
            asked.subject.len(),
            asked.bytes.as_ptr(),
            asked.bytes.len(),
            asked.lists.as_ptr(),
            asked.lists.len(),
            scratch.as_mut_ptr(),
            scratch.len(),
            buffer.as_mut_ptr(),
            buffer.len(),
            &mut verdict,
            &mut len,
        )
    };
    Told { refusal, verdict, len }
}

/// The verdict's number alone, or 31 or 32 where it is refused. Nothing is written.
pub fn verdict(asked: &Asked) -> u64 {
    let call = match asked.against {
        Against::Response => exports::nwscript_entry_verdict,
        Against::Handshake => exports::nwscript_handshake_verdict,
    };
    unsafe {
        call(
            asked.text.as_ptr(),
            asked.text.len(),
            asked.expect.as_ptr(),
            asked.expect.len(),
            asked.n,
            asked.subject.as_ptr(),
            asked.subject.len(),
            asked.bytes.as_ptr(),
            asked.bytes.len(),
            asked.lists.as_ptr(),
            asked.lists.len(),
        )
    }
}

/// A list of calls on a text, as numbers: each call is a row (`crates/calls/specs/CallRows.antt` says which number is
/// what), whose places are places in the bytes and whose lists are ranges of the table of places.
#[derive(Debug, Clone, Copy)]
pub struct Run<'a> {
    pub text: &'a [u8],
    pub calls: &'a [[u64; 22]],
    pub bytes: &'a [u8],
    pub lists: &'a [[usize; 2]],
}

/// What a run answers: 0, or the number of Read's refusal and its line, or one of the two below; the tally's next
/// number and its counts of passed, failed and undecided, all 0 unless the run is done.
#[derive(Debug, Clone, Copy, Default, PartialEq, Eq)]
pub struct Ran {
    pub status: u64,
    pub line: usize,
    pub tally: [usize; 4],
}

/// There are fewer places for answers than calls.
pub const FEW_ANSWERS: u64 = 201;

/// A call asks for more bytes of the scratch than are lent.
pub const MUCH_SCRATCH: u64 = 202;

/// Reads a text into tables of the library's own and makes every call in turn, from a fresh tally. The answers are
/// numbers: a refusal's, 0 for judged, 101 and above for what closing says.
pub fn run(run: &Run, verdicts: &mut [u8], scratch: &mut [u8], answers: &mut [u64]) -> Ran {
    // Values that no answer has: one that is not written is seen.
    let (mut line, mut tally) = (usize::MAX, [usize::MAX; 4]);
    let [next, passed, failed, undecided] = &mut tally;
    let status = unsafe {
        exports::nwscript_run(
            run.text.as_ptr(),
            run.text.len(),
            run.calls.as_ptr(),
            run.calls.len(),
            run.bytes.as_ptr(),
            run.bytes.len(),
            run.lists.as_ptr(),
            run.lists.len(),
            verdicts.as_mut_ptr(),
            verdicts.len(),
            scratch.as_mut_ptr(),
            scratch.len(),
            answers.as_mut_ptr(),
            answers.len(),
            &mut line,
            next,
            passed,
            failed,
            undecided,
        )
    };
    Ran { status, line, tally }
}
