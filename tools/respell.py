#!/usr/bin/env python3
"""Brings the repository's own definitions and lemmas to the spelling of the language's library, once.

usage: python3 tools/respell.py      at the top of the repository, after the toolchain's own script

A definition, a lemma or a record's field that the files of specs/ and proofs/ declare with hyphens gets
underscores, or, where it begins with a capital as a type does, camel case. Names of goals, which the check
makes from the code, stay, and so do names, strings and comments of src/. The crate `log` becomes
`sender_log`, since the toolchain has a library of the first name.
"""

import os
import re
import subprocess

CRATES = "crates"
OLD_CRATE, NEW_CRATE = "log", "sender_log"
WORD = re.compile(r"[A-Za-z_][A-Za-z0-9_'-]*")
TOP = re.compile(
    r"^\s*(?:(?:abbrev|unfoldable|mutual|pub|record|data) )*"
    r"([A-Za-z][A-Za-z0-9'_-]*)(?: [({][^:=\n]*)?\s*(?:[({].*)?:(?!=)\s*(.*)$"
)
FIELD = re.compile(r"^\s+(?:pub )?([a-z][A-Za-z0-9'_-]*) :")
CLAUSE = re.compile(r"^\s*(?:ghost use |ghost |pub ghost |requires|ensures|#!?\[tactic)")


def files(*endings):
    for folder, dirs, names in os.walk(CRATES):
        dirs[:] = sorted(d for d in dirs if d != "out")
        for name in sorted(names):
            if name.endswith(endings):
                yield os.path.join(folder, name)


def read(path):
    with open(path, encoding="utf-8") as f:
        return f.read()


def write(path, text):
    with open(path, "w", encoding="utf-8") as f:
        f.write(text)


def declared():
    """The names that specs/ and proofs/ declare themselves, and the fields of their records."""
    tops, fields = set(), set()
    for path in files(".antt"):
        for line in read(path).splitlines():
            if line.startswith(("use ", "--")):
                continue
            m = TOP.match(line)
            if m and "goal." not in m.group(2):
                tops.add(m.group(1))
            m = FIELD.match(line)
            if m:
                fields.add(m.group(1))
    return tops, fields


def spelled(name):
    if name[0].isupper():
        return "".join(part[0].upper() + part[1:] for part in name.split("-"))
    return re.sub(r"(?<=[a-z])(?=[A-Z])", "-", name).replace("-", "_").lower()


def is_own(name):
    return "-" in name and not name.startswith(("returns-", "loop-", "invariant-", "decreases-"))


def renamed(text, tops, fields):
    out, last = [], 0
    for m in WORD.finditer(text):
        name = m.group(0)
        before = text[: m.start()]
        dotted = before.endswith(".")
        known = name in fields if dotted else name in tops or name in fields
        if dotted and re.search(r"(?<![\w.'-])(?!goal\b)[a-z]\w+\.$", before) and name in tops:
            known = True
        if known and is_own(name):
            out.append(text[last : m.start()])
            out.append(spelled(name))
            last = m.end()
    return "".join(out) + text[last:]


def code_renamed(text, tops, fields):
    """Of a source file the clauses and ghost items alone: from a line that begins one to the end of its braces."""
    out, depth, inside = [], 0, False
    for line in text.splitlines(keepends=True):
        if not inside and CLAUSE.match(line):
            inside, depth = True, 0
        if inside:
            depth += line.count("{") - line.count("}")
            out.append(renamed(line, tops, fields))
            inside = depth > 0
        else:
            out.append(line)
    return "".join(out)


def crate_renamed(text):
    text = text.replace(f"Rattle.{OLD_CRATE}.", f"Rattle.{NEW_CRATE}.")
    return re.sub(rf"\buse {OLD_CRATE}::", f"use {NEW_CRATE}::", text)


def main():
    tops, fields = declared()
    own = sorted(n for n in tops | fields if is_own(n))
    together = {}
    for name in tops | fields:
        together.setdefault(spelled(name) if is_own(name) else name, set()).add(name)
    for new, old in sorted(together.items()):
        if len(old) > 1:
            print("falls together:", new, sorted(old))
    for path in files(".antt"):
        write(path, crate_renamed(renamed(read(path), tops, fields)))
    for path in files(".rt"):
        write(path, crate_renamed(code_renamed(read(path), tops, fields)))
    subprocess.run(["git", "mv", f"{CRATES}/{OLD_CRATE}", f"{CRATES}/{NEW_CRATE}"], check=True)
    write("crates.txt", re.sub(rf"\b{OLD_CRATE}\b", NEW_CRATE, read("crates.txt")))
    print(f"{len(own)} names respelled")


main()
