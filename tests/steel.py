#!/usr/bin/env python3
"""Takes the worked tile of steel from its pictures to its figures, and fails where a step gives something else.

    tests/steel.py crates/filter_calls/out/filter_calls crates/inclusions/out/inclusions
"""
import pathlib
import subprocess
import sys
import tempfile

TOOLS = pathlib.Path(__file__).resolve().parent.parent / "tools"
FIGURES = "O 1 0 0\nresidue 20516\npixels 149\n"


def output(command, given=b""):
    return subprocess.run(command, input=given, stdout=subprocess.PIPE, check=True, timeout=60).stdout


def main():
    filter_calls, inclusions = sys.argv[1:]
    with tempfile.TemporaryDirectory() as folder:
        output([TOOLS / "steel.py", folder])
        tile, ground = (pathlib.Path(folder) / name for name in ("tile.pgm", "map.pgm"))
        job = output([TOOLS / "pgm.py", "job", ground, tile, "step", "3", "8", "O1"])
        figures = output([inclusions], job).decode()
        if figures != FIGURES:
            sys.exit(f"steel: expected {FIGURES!r}, printed {figures!r}")
        opened = output([TOOLS / "pgm.py", "rows"], output([filter_calls], job))
        before, after = tile.read_bytes(), opened
        differing = sum(a != b for a, b in zip(before, after))
        residue = sum(max(a - b, 0) for a, b in zip(before, after))
        if len(before) != len(after) or (residue, differing) != (20516, 149):
            sys.exit(f"steel: the pictures have residue {residue} and {differing} pixels that differ")
    print("steel: the worked tile gives its figures")


main()
