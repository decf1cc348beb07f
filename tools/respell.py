#!/usr/bin/env python3
"""Brings the repository's own definitions and lemmas to the spelling of today's Rattle: words in snake case, `anyBelow` as `any_below`.

usage: python3 tools/respell.py            at the top of the repository, once, after port.py
       python3 tools/respell.py --list     lists the names alone

It turns each name that the files of specs/ and proofs/ use, begins with a small letter and has a capital behind a small letter or a digit, in
specs/, proofs/, the clauses and `ghost use` lines of src/, the must-fail edits, README.md and docs/. Names of Rust functions are in snake case
already, and types and modules keep their capitals. It stops where two names would fall together.
"""

import glob
import re
import sys

WORD = re.compile(r"[^\s(){}\[\].;,@\"`«»λ→×⊎|:]+")
CAMEL = re.compile(r"(?<=[a-z0-9])[A-Z]+")
NUMBER = re.compile(r"0x\w+$")
OPERATOR = "◌"
# Lemmas that a definition would fall together with, and lemmas on the library's `getD`, which is now `get_or`: in these files, or in all where none is named.
LEMMAS = [
    ("get_d_past", "get_or-past", ""),
    ("get_d_part", "get_or-part", ""),
    ("get_d_tabulate", "get_or-tabulate", ""),
    ("getD-grid", "get_or-grid", ""),
    ("open_by", "open_by_lem", "(chains|lengths)/proofs/(OpenStepLaws|is_open/Proof)"),
    ("row_word", "row_word_lem", "proofs/(ModelLaws|CertificateLaws|RelationLaws)"),
    ("start_word", "start_word_lem", "proofs/(TableCauseLaws|ReadBackLaws)"),
]


def snake(name):
    return CAMEL.sub(lambda m: "_" + m[0].lower(), name)


def whole(word):
    return re.compile(rf"(?<![\w'.-]){re.escape(word)}(?![\w'-])")


def antt_files():
    return sorted(glob.glob("crates/*/specs/**/*.antt", recursive=True) + glob.glob("crates/*/proofs/**/*.antt", recursive=True))


def code(text, line_comment):
    return re.sub(rf"{line_comment}[^\n]*", "", text)


def read(path):
    with open(path, encoding="utf-8") as f:
        return f.read()


def main():
    texts = {p: read(p) for p in antt_files()}
    for old, new, where in LEMMAS:
        for p in texts:
            if re.search(where, p):
                texts[p] = whole(old).sub(new, texts[p])
    words = {p: set(WORD.findall(code(t, "--"))) for p, t in texts.items()}
    every = set().union(*words.values())
    table = {}
    for w in every:
        bare = w.strip(OPERATOR)
        if bare and not bare[0].isupper() and CAMEL.search(bare) and not NUMBER.match(bare):
            table[bare] = snake(bare)
    # Two names may not become one. A name of Rust's functions, and of the folder of such a function's proof, may be that of the definition that it meets.
    functions = set()
    for p in sorted(glob.glob("crates/*/src/**/*.rt", recursive=True)):
        functions.update(re.findall(r"\bfn (\w+)", read(p)))
    back = {}
    bad = []
    for old, new in sorted(table.items()):
        if back.setdefault(new, old) != old:
            bad.append(f"{old} and {back[new]} would both be {new}")
    for p, ws in words.items():
        for old in ws & set(table):
            if table[old] in ws and table[old] not in functions:
                bad.append(f"{p}: {old} would be {table[old]}, which stands there")
    pattern = re.compile(r"(?<![\w'-])(" + "|".join(re.escape(w) for w in sorted(table, key=len, reverse=True)) + r")(?![\w'-])")
    sources = sorted(glob.glob("crates/*/src/**/*.rt", recursive=True))
    for p in sources:
        ws = set(re.findall(r"\w+", code(read(p), "//")))
        for old in ws & set(table):
            if table[old] in ws and table[old] not in functions:
                bad.append(f"{p}: {old} would be {table[old]}, which stands there")
    if "--list" in sys.argv:
        print("\n".join(f"{old} {new}" for old, new in sorted(table.items())))
    if bad:
        print("\n".join(bad))
        return 1
    if "--list" in sys.argv:
        return 0
    others = sorted(glob.glob("crates/*/must-fail/*.edit") + glob.glob("docs/**/*.md", recursive=True) + ["README.md"])
    for p in list(texts) + sources + others:
        old = read(p)
        new = pattern.sub(lambda m: table[m[1]], texts.get(p, old))
        if new != old:
            with open(p, "w", encoding="utf-8") as f:
                f.write(new)
    print(f"{len(table)} names")
    return 0


if __name__ == "__main__":
    sys.exit(main())
