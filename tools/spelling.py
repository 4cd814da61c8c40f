#!/usr/bin/env python3
"""Brings the dashed names of this repository's own definitions and lemmas to the spelling of the library: words in snake case, types in camel case.

    tools/spelling.py          at the top of the repository, once, after the kit's port.py

Names that the check makes (of goals, invariants and steps) and names of the library stay as they are. It lists each name that it turns, and stops
where two names would fall together.
"""
import collections
import pathlib
import re
import sys

TOP = pathlib.Path(".")
NAME = r"[A-Za-z][\w'₂]*(?:-[\w'₂]+)+"
TOKEN = re.compile(rf"(?<![\w'₂-])({NAME})(?![\w'₂-])")
SIGNATURE = re.compile(rf"^\s*(?:pub\s+)?({NAME})\s*:(?!:)")
MARKED = re.compile(rf"^\s*(?:(?:pub|abbrev|unfoldable|ruleset|data|record)\s+)+({NAME})(?![\w'₂-])")


# Definitions whose turned name a function of src/ has.
APART = {
    "added-record": "record_of_fault",
    "fault-line": "line_of_fault",
    "answer-number": "number_of_answer",
    "call-head": "head_of_call",
}


def proof_of_function(path):
    parts = path.parts
    return "proofs" in parts and len(parts) > parts.index("proofs") + 2


def antt_files():
    return sorted(path for path in TOP.glob("crates/*/*/**/*.antt") if "out" not in path.parts)


def texts():
    return antt_files() + sorted(path for path in TOP.glob("crates/*/src/**/*.rt"))


def declared():
    names = collections.defaultdict(set)
    for path in antt_files():
        for line in path.read_text().splitlines():
            found = SIGNATURE.match(line) or MARKED.match(line)
            if found and not (proof_of_function(path) and "goal." in line):
                names[found.group(1)].add(path)
    return names


def spelled(name):
    if name in APART:
        return APART[name]
    if name[0].isupper():
        first, *rest = name.split("-")
        return first + "".join(part[:1].upper() + part[1:] for part in rest)
    return name.replace("-", "_")


def imported():
    """The names that files bring in from the library, which stay."""
    names = set()
    for path in texts():
        for found in re.finditer(r"use (Rattle\.(?:std|core)|lib|native|mathlib|Prim)[\w.'-]*\.\{([^}]*)\}", path.read_text()):
            names.update(word.strip() for word in found.group(2).split(","))
    return names


def main():
    own = declared()
    turn = {name: spelled(name) for name in own if name not in imported()}
    fallen = collections.defaultdict(set)
    for old, new in turn.items():
        fallen[new].add(old)
    together = {new: olds for new, olds in fallen.items() if len(olds) > 1}
    if together:
        sys.exit(f"spelling: names fall together: {together}")
    words = collections.defaultdict(set)
    for path in texts():
        for word in re.findall(r"[A-Za-z][\w']*", path.read_text()):
            words[path].add(word)
    for path in texts():
        text = path.read_text()
        for old in sorted({word for word in TOKEN.findall(text) if word in turn}):
            if turn[old] in words[path]:
                print(f"look: {path}: {old} becomes {turn[old]}, which stands there already")
        path.write_text(TOKEN.sub(lambda found: turn.get(found.group(1), found.group(1)), text))
    for old in sorted(turn):
        print(f"turned: {old} -> {turn[old]}")


main()
