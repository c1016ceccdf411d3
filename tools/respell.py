#!/usr/bin/env python3
"""Brings this repository's own definitions and lemmas to the library's spelling: words in snake case, types and facts in camel case.

usage: tools/respell.py [--check]     at the top of the repository, once, after the kit's port.py; --check writes nothing and prints the table

A dash stays where it joins the names of two functions, as in `length-spelled`, the lemma about `length (spelled ..)`. Functions of src/,
strings, inputs and outputs keep their names: in a .rt file only the lines of clauses, ghost items and ghost imports are read, in a page
of docs/ only words in backticks. Two names that would fall together in one file stop it before anything is written.
"""

import glob
import os
import re
import sys

# Lemmas about the outer call of one function over another, and those that name a fact.
BY_HAND = {
    # the survey has a variant AsBefore
    "As-before": "IsAsBefore",
    "length-bytes": "length-bytes",
    "length-each": "length-each",
    "length-extended": "length-extended",
    "length-posts": "length-posts",
    "length-rewritten": "length-rewritten",
    "length-spelled": "length-spelled",
    "length-stores": "length-stores",
    "length_part": "length-part",  # port.py had turned it
    "length-with-top": "length-with_top",
    "length-line": "length-with_line",
    "length-frame": "length-frame_bytes",
    "length-pad": "length-pad_bytes",
    "length-fresh": "length-fresh_bytes",
    "number_spelled": "number-spelled",  # port.py had turned it
    "spelled-number": "spelled-number",
    "plain-after": "plain-after",
    "plain-extended": "plain-extended",
    "plain-with-top": "plain-with_top",
    "plain-without": "plain-without_top",
    "getD-each": "get_or-each",
    "getD-each-from": "get_or-each_from",
    "getD-posts": "get_or-posts",
    "getD-stores": "get_or-stores",
    "get_d_part": "get_or-part",  # port.py had turned it
    "bytes-getD": "Bytes-get_or",
    "bytes-part": "Bytes-part",
    "bytes-spelled": "Bytes-spelled",
}

WORD = re.compile(r"(?<![\w'-])[^\W\d][\w'-]*", re.U)
DEFINED = re.compile(r"^\s*(?:(?:abbrev|unfoldable|pub|record|data)\s+)*([^\W\d][\w'-]*)(?:\s*\(.*)?\s*:\s(.*)", re.U)
ALIAS = re.compile(r"[\w'-]+ as ([^\W\d][\w'-]*)", re.U)
CLAUSE = re.compile(r"^\s*(pub )?(ghost|requires|ensures)\b")


def files(pattern):
    return [p for p in sorted(glob.glob(pattern, recursive=True)) if "/out/" not in p and "/target/" not in p]


def spelled(name):
    if name in BY_HAND:
        return BY_HAND[name]
    if name in BY_HAND.values():
        return name
    if name[0].isupper():
        first, *rest = name.split("-")
        return first + "".join(w[:1].upper() + w[1:] for w in rest)
    return name.replace("-", "_")


def table():
    """Each defined name, or alias of an import, that is spelled otherwise now. The goals that Rattle makes are not this repository's."""
    names = set()
    for p in files("crates/*/specs/**/*.antt") + files("crates/*/proofs/**/*.antt"):
        with open(p, encoding="utf-8") as f:
            for line in f:
                line = line.split("--")[0]
                m = DEFINED.match(line)
                if m and not m.group(2).startswith("goal."):
                    names.add(m.group(1))
                if line.startswith("use "):
                    names.update(ALIAS.findall(line))
    return {n: spelled(n) for n in sorted(names) if spelled(n) != n}


def turn_words(text, names):
    return WORD.sub(lambda m: names.get(m.group(0), m.group(0)), text)


def turned(path, text, names):
    if path.endswith(".antt"):
        return turn_words(text, names)
    lines = text.splitlines(keepends=True)
    if path.endswith(".rt"):
        return "".join(turn_words(l, names) if CLAUSE.match(l) else l for l in lines)
    return re.sub(r"`[^`\n]*`", lambda m: turn_words(m.group(0), names), text)


def words(text):
    return set(WORD.findall(text))


def main(argv):
    names = table()
    changed, clashes = {}, []
    every = files("crates/*/src/**/*.rt") + files("crates/*/specs/**/*.antt") + files("crates/*/proofs/**/*.antt")
    every += files("README.md") + files("docs/**/*.md")
    for p in every:
        with open(p, encoding="utf-8") as f:
            text = f.read()
        new = turned(p, text, names)
        if new == text:
            continue
        changed[p] = new
        if p.endswith(".antt"):
            here = words(text)
            for old in sorted(here & set(names)):
                if names[old] in here:
                    clashes.append(f"{p}: {old} falls together with {names[old]}")
    if "--check" in argv:
        print("\n".join(f"{a} {b}" for a, b in names.items()))
    if clashes:
        print("\n".join(clashes))
        return 1
    if "--check" in argv:
        return 0
    for p, text in changed.items():
        with open(p, "w", encoding="utf-8") as f:
            f.write(text)
    print(f"{len(names)} names, {len(changed)} files")
    return 0


if __name__ == "__main__":
    os.chdir(os.path.join(os.path.dirname(os.path.abspath(__file__)), ".."))
    raise SystemExit(main(sys.argv[1:]))
