#!/usr/bin/env python3
"""Tries each misuse of tests/misuses on a copy of the repository, and wants the check to refuse it for the reason named.

Run from the top of the repository after a check of bench_tests: the check in the copy begins with what that one kept.
"""
import pathlib
import shutil
import subprocess
import sys
import tempfile

TOP = pathlib.Path(__file__).resolve().parent.parent


def refused(edit):
    parts = dict(line.split(": ", 1) for line in edit.read_text().splitlines())
    with tempfile.TemporaryDirectory() as folder:
        copy = pathlib.Path(folder) / "copy"
        shutil.copytree(TOP, copy, ignore=shutil.ignore_patterns("must-fail", "out", ".git"))
        source = copy / parts["file"]
        text = source.read_text()
        if text.count(parts["old"]) != 1:
            sys.exit(f"misuses: {edit.name}: '{parts['old']}' does not stand once in {parts['file']}")
        source.write_text(text.replace(parts["old"], parts["new"]))
        crate = copy / "crates" / parts["file"].split("/")[1]
        done = subprocess.run(["rt", "check"], cwd=crate, capture_output=True, text=True)
        said = done.stdout + done.stderr
        if done.returncode == 0 or parts["want"] not in said:
            sys.exit(f"misuses: {edit.name} was not refused with {parts['want']}:\n{said[-3000:]}")
        print(f"misuses: {edit.stem} refused with {parts['want']} ({parts['why']})")


for edit in sorted((TOP / "tests" / "misuses").glob("*.edit")):
    refused(edit)
