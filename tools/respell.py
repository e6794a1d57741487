#!/usr/bin/env python3
"""Respells the repository's own definitions and lemmas: words in snake case, types in camel case.

usage: python3 tools/respell.py [--dry]      at the top of the repository, once, right behind port.py

A name is respelled in the file that defines it and in each file that imports it; a field of a record everywhere.
The functions of src/, exported names, strings and the names that the library gives keep theirs.
"""

import glob
import os
import re
import sys

# names that would fall together, or that the rule would garble
BY_HAND = {
    "getD": "get_or",
    "get_d_part": "get_or_part",
    "V1only": "V1Only",
    # a lemma that would have its definition's name
    "set-up": "set_up_lem",
    "set-up-number": "set_up_number_lem",
    "row-view": "row_view_lem",
    "row-start": "row_start_lem",
    "rows_before": "rows_before_lem",
    "client-tests": "client_tests_lem",
    "server-tests": "server_tests_lem",
    "database-tests": "database_tests_lem",
    "at-result": "at_result_lem",
    "event-of": "event_of_lem",
    "client-cells": "client_cells_lem",
    "party-cells": "party_cells_lem",
    "committed-decided": "committed_decided_lem",
    "none_open": "none_open_lem",
    "put-back": "put_back_lem",
    # the record of six numbers, beside the record of an event
    "record_of": "record_of_numbers",
}
LETTER = r"[^\s(){}\[\].,;:=|]"
NAME = re.compile(LETTER + "+")
SIGNATURE = re.compile(r"(?m)^( *)((?:(?:pub|abbrev|unfoldable|pattern) )*)(" + LETTER + r"+(?: " + LETTER + r"+)*) : ")
DATA = re.compile(r"(?m)^ *(?:pub )?(?:data|record) (" + LETTER + r"+)")
FIELD = re.compile(r"(?m)^ +(" + LETTER + r"+) : .*;$")
USE = re.compile(r"(?m)^( *(?:ghost |pub )*use )(Rattle\.[^\s{}]+)\.\{([^}]*)\}")
# a file of the repository's own, named as a module
ALIAS = re.compile(r"(?m)^ *(?:pub )?use Rattle\.(\w+)\.(?:specs|proofs)\.([A-Z]\w*) as (" + LETTER + r"+)$")
WORDS = {"pub", "abbrev", "unfoldable", "data", "record", "module", "use", "let", "in", "where", "unfolding", "elim", "λ"}


def files():
    for pattern in ("crates/*/specs/**/*.antt", "crates/*/proofs/**/*.antt", "crates/*/src/*.rt"):
        yield from sorted(glob.glob(pattern, recursive=True))


def of_function(path):
    """Whether the file is the proof of one function, whose names are goals."""
    parts = path.split("/")
    return parts[2] == "proofs" and len(parts) > 4


def crates():
    return {p.split("/")[1] for p in glob.glob("crates/*/src")}


def spelled(name):
    if name in BY_HAND:
        return BY_HAND[name]
    name = name.replace("getD", "get_or")
    if name[:1].isupper() and "-" not in name and "_" not in name:
        return name
    name = re.sub(r"([a-z0-9])([A-Z])(?=[a-z])", lambda m: m[1] + "_" + m[2].lower(), name)
    return name.replace("-", "_").replace("′", "'")


def defined(text):
    """The names that a file of definitions or lemmas gives, and among them the fields of its records."""
    names, fields = set(), set()
    in_record = None
    for line in text.split("\n"):
        head = re.match(r"^( *)(?:pub |abbrev |unfoldable )*record (" + LETTER + r"+).*where$", line)
        if head:
            in_record = len(head[1])
            names.add(head[2])
            continue
        if in_record is not None and line.strip() and not line.strip().startswith("--") and len(line) - len(line.lstrip()) <= in_record:
            in_record = None
        found = SIGNATURE.match(line)
        if found:
            for name in found[3].split():
                if name not in WORDS:
                    (fields if in_record is not None else names).add(name)
    for m in DATA.finditer(text):
        names.add(m[1])
    # a record type without a name: a line for each field, ended by a semicolon
    for m in FIELD.finditer(text):
        fields.add(m[1])
        names.discard(m[1])
    return names, fields


def imported(text, own):
    """The names that a file imports from the repository's own files; an `as` keeps its second word."""
    names = set()
    for m in USE.finditer(text):
        if m[2].split(".")[1] in own and ".declared" not in m[2]:
            for part in m[3].split(","):
                names.add(part.split(" as ")[0].strip())
    return names


def library(text, own):
    """The names that a file imports from elsewhere."""
    names = set()
    for m in re.finditer(r"(?m)^ *(?:ghost |pub )*use ([^\s{}]+)\.\{([^}]*)\}", text):
        path = m[1].split(".")
        if not (path[0] == "Rattle" and path[1] in own and ".declared" not in m[1]):
            for part in m[2].split(","):
                names.add(part.split(" as ")[-1].strip())
    return names


def main(dry):
    own = crates()
    texts = {p: open(p, encoding="utf-8").read() for p in files()}
    every_field, every_name = set(), set()
    for p, t in texts.items():
        if p.endswith(".antt") and not of_function(p):
            names, fields = defined(t)
            every_field |= fields
            every_name |= names
    moved = {n: spelled(n) for n in every_name | every_field if spelled(n) != n}
    bad = 0
    for p, t in texts.items():
        names = imported(t, own)
        if p.endswith(".antt") and not of_function(p):
            names |= defined(t)[0]
        theirs = library(t, own)
        here = {n: moved[n] for n in names if n in moved and n not in theirs}
        for n in every_field & set(moved):
            here.setdefault(n, moved[n])
        present = set(NAME.findall(t))
        taken = {}
        for old, new in here.items():
            if old in present:
                taken.setdefault(new, []).append(old)
        for new, olds in taken.items():
            if len(olds) > 1 or (new in present and new not in here):
                print(f"falls together: {p}: {new} of {' '.join(olds)}{' and one that stands' if new in present else ''}")
                bad += 1

        through = {a for m in ALIAS.finditer(t) if m[1] in own for a in [m[3]]}

        def turn(m):
            word = m[0]
            before = re.search(r"(" + LETTER + r"+)\.$", t[max(0, m.start() - 80) : m.start()])
            if before and before[1] in through:
                return moved.get(word, word)
            if m.start() and t[m.start() - 1] == "." and word not in every_field and not t[: m.start()].rsplit("\n", 1)[-1].lstrip().startswith(("use ", "ghost use ", "pub use ")):
                return word
            return here.get(word, word)

        new = NAME.sub(turn, t)
        if new != t and not dry:
            with open(p, "w", encoding="utf-8") as f:
                f.write(new)
    print(f"{len(moved)} names respelled, {bad} places where names fall together")
    if dry:
        for n in sorted(moved):
            print(n, "→", moved[n])
    return 1 if bad else 0


if __name__ == "__main__":
    os.chdir(os.path.join(os.path.dirname(os.path.abspath(__file__)), ".."))
    raise SystemExit(main("--dry" in sys.argv))
