#!/usr/bin/env python3
"""Spells the repository's own definitions, constructors, fields and lemmas as today's Rattle does: words in snake case.

usage: tools/spelling.py [--check]     at the top of the repository, once, after the kit's port.py; --check lists and writes nothing

- A name in camel case that begins small (`wordIn`) becomes `word_in`, in specs/, proofs/, must-fail/ and in the clauses and comments of src/.
- A dash in a name that stands in specs/ (`by-rows`, a field or a constructor) becomes an underscore. Lemmas keep theirs: there a dash joins two names.
- Names that Rust's code has, in code or strings, and names that a file brings in from a library stay.
- OTHER has the names that would fall together with another one. A lemma that would fall together with a definition gets `_lem`.
"""
import collections
import glob
import re
import sys

WORD = re.compile(r"[A-Za-z_][A-Za-z0-9_'₀-₉→≢≡≤↔×-]*")
CAMEL = re.compile(r"(?<=[a-z0-9])([A-Z])")
USE = re.compile(r"^\s*(?:ghost )?use ([^\s{]+?)(?:\.\{([^}]*)\}|\.(\S+) as \S+|);?\s*$", re.M)
COMMENT = re.compile(r"--.*|//.*")
OTHER = {
    "by-columns": "by_columns",
    "byColumns": "bytes_by_columns",
    "byRows": "bytes_by_rows",
    "first-singles": "first_singles_ordered",
    "second-singles": "second_singles_ordered",
    "is-number": "number_kind",
    "is-truth": "truth_kind",
    "is-table": "table_kind",
}


def files(kind):
    return sorted(glob.glob(f"crates/*/{kind}", recursive=True))


def read(path):
    with open(path, encoding="utf-8") as f:
        return f.read()


def brought(text, crates):
    """The names that a file brings in from libraries."""
    names = set()
    for path, group, one in USE.findall(text):
        steps = path.split(".")
        if not (steps[0] == "Rattle" and len(steps) > 1 and steps[1] in crates):
            names |= set(WORD.findall(group))
    return names


def free(text):
    """The words of a file's terms that no dot stands before, its `use` lines aside."""
    body = USE.sub("", COMMENT.sub("", text))
    return set(re.findall(r"(?<![\w'.)])" + WORD.pattern, body))


def snake(name):
    return CAMEL.sub(lambda m: "_" + m[1].lower(), name)


def table():
    specs, proofs, codes = files("specs/**/*.antt"), files("proofs/**/*.antt"), files("src/**/*.rt")
    crates = {p.split("/")[1] for p in specs + proofs + codes}
    antt = {p: read(p) for p in specs + proofs}
    library = set().union(*(brought(t, crates) for t in antt.values()))
    rows, words = {}, collections.defaultdict(set)
    for p, t in antt.items():
        for w in free(t):
            words[w].add(p)
        # a field is seen behind a dot alone, a name of another crate in a `use` line
        seen = set(WORD.findall(COMMENT.sub("", t)))
        for w in seen - library:
            if w[0].islower() and CAMEL.search(w):
                rows[w] = snake(w)
    for p in specs:
        for w in free(antt[p]) - library:
            if "-" in w and w[0].islower():
                rows[w] = snake(w).replace("-", "_")
    rows.update(OTHER)
    return rows, words, library


def collisions(rows, words, library):
    by_new = collections.defaultdict(set)
    for old, new in rows.items():
        by_new[new].add(old)
    for new, olds in sorted(by_new.items()):
        if len(olds) > 1:
            yield f"{sorted(olds)} -> {new}"
        if new in library:
            yield f"{sorted(olds)} -> {new}: a library's"
        for old in olds:
            both = words[old] & words[new] if new not in rows else set()
            if both or (words[new] and new not in rows):
                yield f"{old} -> {new}: {len(words[new])} files have it, {len(both)} both: {sorted(both or words[new])[:3]}"


def main():
    rows, words, library = table()
    bad = list(collisions(rows, words, library))
    if "--check" in sys.argv:
        print(len(rows), "names")
        print("\n".join(bad))
        return
    lemmas = [new for old, new in rows.items() if old not in OTHER and words[old] & words[new]]
    lemma = re.compile(r"(?<![\w'₀-₉.-])(?:" + "|".join(sorted(lemmas, key=len, reverse=True)) + r")(?![\w'₀-₉-])")
    for p in files("specs/**/*.antt") + files("proofs/**/*.antt"):
        old = read(p)
        new = lemma.sub(lambda m: m[0] + "_lem", old)
        if new != old:
            with open(p, "w", encoding="utf-8") as f:
                f.write(new)
    # a constructor has no dot before it: behind a dot the name is a call's
    word = re.compile(r"(?<![\w'₀-₉])(?<!\.(?=is-))(?:" + "|".join(sorted(map(re.escape, rows), key=len, reverse=True)) + r")(?![\w'₀-₉]|-[A-Za-z0-9])")
    for p in files("specs/**/*.antt") + files("proofs/**/*.antt") + files("src/**/*.rt") + files("must-fail/*.edit"):
        old = read(p)
        new = word.sub(lambda m: rows[m[0]], old)
        if new != old:
            with open(p, "w", encoding="utf-8") as f:
                f.write(new)


main()
