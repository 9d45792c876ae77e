#!/usr/bin/env python3
"""Spells this repository's own definitions and lemmas as today's Rattle does: words in snake case, a dash only between two names, `'` for a prime.

usage: tools/respell.py [--check]          at the top of the repository, once, after /opt/rattle/port/port.py
       tools/respell.py --constructors     once, later: the names of CONSTRUCTORS, in must-fail edits too

It reads what specs/ and the lemma files of proofs/ declare and writes the new spellings in every .antt file and in the clauses and `ghost` lines of every .rt
file. Functions of src/, exported names, strings, inputs and outputs keep theirs. It prints names that would fall together and stops before it writes then.
"""
import glob
import os
import re
import sys

STD = set("length take drop reverse map append get_or set replicate sum min max filter concat flatten some none true false cond nat list".split())
# A lemma that would have its function's name gets `_lem`.
LEMMAS = """all_digits by-sign bytes-in cam-str comment-in entry-items entry-store entry-told expect-in frame-length items-by key_in laid-entry matcher-in
nothing-checked of-handshake one-of pair-in piece-length place-in preamble-expect ran-as same_key set-by white-space with-name""".split()
OTHER = {n: n.replace("-", "_") + "_lem" for n in LEMMAS}
# A field of a lemma's record, beside the definition `allWhite`.
OTHER["all_white"] = "is_all_white"
# Constructors and fields that stand several on a line, and local names: no declaration of a line shows them.
CONSTRUCTORS = """aFeatureSet aFlag aHex aList aQuoted aSet aText aVersion addBuildLog addMultipleToStore addPermRoot addSignatures addTextToStore addToStore
behindColon behindDot behindResult bytesFreed downloadSize greaterOrEqual greaterThan inBraces inList lessOrEqual lessThan listOpen oneSet oneText pathSetFlag
pathSetMode pathThenSet pathThenText queryRealisation querySubstitutablePathInfo querySubstitutablePathInfos rawBytes registerDrvOutput setOptions singlePath
singleString someData verifyStore""".split()
TOKEN = re.compile(r"[^\s(){}.;,@\"«»]+")
DECLARED = re.compile(r"^( *)(?:(?:unfoldable|abbrev|pub|data|record|ruleset|open) +)*([^\s(){}.;,@\"«»:=]+)(?: +\{[^{}\n]*\})*\s*(?::(?!:)|=)")
QUIET = re.compile(r'--[^\n]*|"(?:[^"\\\n]|\\.)*"')
RUST_SKIP = re.compile(r'//[^\n]*|[bc]?"(?:\\.|[^"\\])*"|b?\'(?:\\u\{[0-9a-fA-F_]+\}|\\x..|\\.|[^\'\\])\'', re.S)
CLAUSE = re.compile(r"\b(?:requires|ensures)\*?\s*(?:\w+\s*)?\{|\bghost\s+(?:invariant\s*)?\w*\s*:?\s*=?\s*\{")


def read(p):
    with open(p, encoding="utf-8") as f:
        return f.read()


def texts(kind):
    return sorted(p for p in glob.glob(f"crates/*/**/*.{kind}", recursive=True) if "/out/" not in p)


def is_lemma_file(p):
    """A file of definitions or lemmas: not the proof of one function, which Rattle's own names fill."""
    parts = p.split("/")
    return parts[2] == "specs" or parts[2] == "proofs" and len(parts) == 4


def declared():
    names = {}
    for p in texts("antt"):
        if not is_lemma_file(p):
            continue
        for line in QUIET.sub(" ", read(p)).split("\n"):
            m = DECLARED.match(line)
            if m and not line.lstrip().startswith("use ") and re.search(r"[A-Za-z]", m[2]):
                names.setdefault(m[2], set()).add(p)
    return names


def snake(word):
    return re.sub(r"(?<=[a-z0-9])([A-Z])", lambda m: "_" + m[1].lower(), word)


def spelling(name, words):
    """The new spelling. words: the names that a dash may stand between."""
    name = name.replace("′", "'")
    if name[:1].isupper() or name[:1] in "◌+-":
        return name
    parts = [snake(p) for p in name.split("-")]
    for i in range(1, len(parts)):
        left, right = "_".join(parts[:i]), "_".join(parts[i:])
        if left in words and right in words:
            return left + "-" + right
    return "_".join(parts)


def table():
    names = declared()
    words = STD | {snake(n) for n in names if "-" not in n and any("/specs/" in p for p in names[n])}
    rows = {n: OTHER.get(n) or spelling(n, words) for n in names}
    return {o: n for o, n in rows.items() if o != n}, names


def ghost_spans(text):
    """The parts of a Rust file that clauses and `ghost use` lines are."""
    blank = RUST_SKIP.sub(lambda m: re.sub(r"[^\n]", " ", m[0]), text)
    for m in re.finditer(r"\bghost use\b[^;]*;", blank):
        yield m.span()
    for m in CLAUSE.finditer(blank):
        depth, i = 0, m.end() - 1
        while i < len(blank):
            depth += (blank[i] == "{") - (blank[i] == "}")
            i += 1
            if depth == 0:
                break
        yield m.end(), i - 1


def spell(text, rows):
    def of(m):
        # Behind a dot `same_key` is a function of src/, or a step of a proof.
        behind_dot = text[m.start() - 1 : m.start()] == "." and m[0] != "all_white"
        return m[0] if behind_dot and m[0] in OTHER and "-" not in m[0] else rows.get(m[0], m[0])

    return TOKEN.sub(of, text)


def turned(p, rows):
    text = read(p)
    if p.endswith(".rt"):
        out, at = [], 0
        for a, b in sorted(ghost_spans(text)):
            out += [text[at:a], spell(text[a:b], rows)]
            at = b
        return "".join(out) + text[at:]
    out, at = [], 0
    for m in QUIET.finditer(text):
        out += [spell(text[at : m.start()], rows), re.sub(r"`([^`\s]+)`", lambda k: "`" + rows.get(k[1], k[1]) + "`", m[0])]
        at = m.end()
    return "".join(out) + spell(text[at:], rows)


def tokens(p):
    text = read(p)
    if p.endswith(".rt"):
        return set(TOKEN.findall(" ".join(text[a:b] for a, b in ghost_spans(text)))) | set(re.findall(r"\b(\w+):(?!:)", text))
    # Behind a dot stand fields and functions' folders, which are no names of this file; a `use` line brings in what its braces hold.
    code = QUIET.sub(" ", text)
    code = re.sub(r"(?m)^(\s*(?:pub )?use )[^\s{]*", r"\1", code)
    code = re.sub(r"\.\s*[^\s(){}.;,@\"«»]+", " ", code)
    return set(TOKEN.findall(code))


def clashes(rows):
    found = {}
    for p in texts("antt") + texts("rt"):
        if "/Made/" in p or p.endswith("/Tie.antt"):
            continue
        here = tokens(p)
        turning = {}
        for o in here & set(rows):
            turning.setdefault(rows[o], []).append(o)
        for n, olds in turning.items():
            if n in here - set(rows) or len(olds) > 1:
                found.setdefault((n, tuple(sorted(olds))), []).append(p)
    return found


def constructors():
    rows = {n: snake(n) for n in CONSTRUCTORS}
    found = clashes(rows)
    for (n, olds), where in sorted(found.items()):
        print(f"falls together: {n} <- {', '.join(olds)}: {' '.join(where[:4])}")
    if found or "--check" in sys.argv:
        return 1 if found else 0
    for p in texts("antt") + texts("rt") + sorted(glob.glob("crates/*/must-fail/*.edit")):
        new = spell(read(p), rows) if p.endswith(".edit") else turned(p, rows)
        if new != read(p):
            with open(p, "w", encoding="utf-8") as f:
                f.write(new)
    return 0


def main():
    if "--constructors" in sys.argv:
        return constructors()
    rows, names = table()
    found = clashes(rows)
    for (n, olds), where in sorted(found.items()):
        print(f"falls together: {n} <- {', '.join(olds)}: {' '.join(where[:4])}")
    declared_twice = {}
    for n in names:
        declared_twice.setdefault(rows.get(n, n), []).append(n)
    if "--check" in sys.argv:
        print(len(rows), "names;", len(found), "clashes")
        return 1 if found else 0
    if found:
        return 1
    for p in texts("antt") + texts("rt"):
        new = turned(p, rows)
        if new != read(p):
            with open(p, "w", encoding="utf-8") as f:
                f.write(new)
    print(len(rows), "names")
    return 0


if __name__ == "__main__":
    raise SystemExit(main())
