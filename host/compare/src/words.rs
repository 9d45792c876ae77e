//! Every short text over some pieces: of lines, and of what single lines are made of.

use crate::gen::each_word;

/// Words of at most so many pieces, between two parts of a text.
struct Words {
    before: &'static str,
    pieces: &'static [&'static str],
    longest: usize,
    after: &'static str,
}

/// Shows `see` each text.
pub fn each(see: &mut impl FnMut(&[u8])) {
    for words in WORDS {
        each_word(words.pieces, words.longest, &mut |word| {
            see(&[words.before.as_bytes(), word, words.after.as_bytes()].concat())
        });
    }
}

const WORDS: &[Words] = &[
    Words {
        before: "",
        pieces: PREAMBLE,
        longest: 3,
        after: "",
    },
    Words {
        before: "---\n",
        pieces: BELOW,
        longest: 4,
        after: "",
    },
    Words {
        before: "---\nAddToStore\n",
        pieces: STORED,
        longest: 4,
        after: "",
    },
    Words {
        before: "---\nSetOptions\n  overrides:\n  \"",
        pieces: &["\"", "=", " ", "a", ":"],
        longest: 6,
        after: "\n",
    },
    Words {
        before: "expect",
        pieces: EXPECTED,
        longest: 4,
        after: "",
    },
    Words {
        before: "---\nFindRoots\n  expect",
        pieces: EXPECTED,
        longest: 4,
        after: "",
    },
    Words {
        before: "expect result:",
        pieces: &["/", "<", ">", "=", "+", "-", "1", "9223372036854775807", " ", "a"],
        longest: 4,
        after: "",
    },
    Words {
        before: "---\n@",
        pieces: &["0", "12345678", ".", "e", "E", "+", "-", "inf", "nan", "in", "ity", "ms", " "],
        longest: 4,
        after: "ms FindRoots",
    },
    Words {
        before: "---\nBuildPaths ",
        pieces: SETS,
        longest: 5,
        after: "",
    },
    Words {
        before: "---\nAddSignatures ",
        pieces: SETS,
        longest: 5,
        after: "",
    },
    Words {
        before: "features:",
        pieces: SETS,
        longest: 5,
        after: "",
    },
    Words {
        before: "---\nAddBuildLog /a\n\tdata:x\"",
        pieces: &["0", "a", "+", "g", " ", "\"", "é"],
        longest: 4,
        after: "\n",
    },
    Words {
        before: "---\nAddTextToStore\n\ttext: \"",
        pieces: &["\\", "n", "\"", "a"],
        longest: 6,
        after: "\n",
    },
];

/// Lines of the preamble.
const PREAMBLE: &[&str] = &[
    "---\n",
    "\n",
    "# c\n",
    "# nwscript v1\n",
    "# server_features: a b\n",
    "# server_features:\n",
    "features: { a, , b }\n",
    "features: c\n",
    "protocol: 1.2\n",
    "expect trust: trusted\n",
    "  expect: Last\n",
    "expectresult: 1\n",
    "expect foo: 1\n",
    "expect daemon: > x\n",
    "FindRoots\n",
    "@1e3ms FindRoots\n",
    "x\n",
];

/// Lines below `---`.
const BELOW: &[&str] = &[
    "\n",
    "  \n",
    "# c\n",
    "  # nwscript v1\n",
    "  expect: Last\n",
    " expect: Last\n",
    "  expect result: > x\n",
    "FindRoots\n",
    "  @1ms BuildPaths {a, b}\n",
    "@1e3ms FindRoots\n",
    "SetOptions\n",
    "  overrides:\n",
    "  \"a\" = \"b\"\n",
    "  foo\n",
    "CollectGarbage\n",
    "  paths: {a\n",
    "AddBuildLog /a\n",
    "  data: x\"00\"\n",
    "BuildDerivation\n",
    "  raw x\"0001\"\n",
];

/// Lines below AddToStore.
const STORED: &[&str] = &[
    "  name: abc\n",
    "  name: \"\\n\"\n",
    "  cam_str: de\n",
    "  refs: { a, , b }\n",
    "  refs: a, b\n",
    "  refs: {\n",
    "  data: x\"0001\"\n",
    "  data: @file:f\n",
    "  data:\n",
    "  text: fgh\n",
    "  expect: Last\n",
    "\n",
];

/// What follows `expect`.
const EXPECTED: &[&str] =
    &["result", "error", "stderr.count", "daemon", "trust", ".", ":", " ", "\u{3000}", "a", ">", "<=", "1", "/"];

const SETS: &[&str] = &["{", "}", ",", "a", " ", "\u{3000}"];
