#!/usr/bin/env python3
"""Runs a built filter_calls on jobs whose text is known, and fails on the first that differs.

    tests/job_calls.py crates/filter_calls/out/filter_calls
"""
import sys

sys.dont_write_bytecode = True

from job_cases import ROWS, SOUND, call, cases_of_both, cut_jobs, head, pixel, try_jobs

# On the flat map of SOUND a dilation gives every pixel the greatest value.
FLAT = "255 255\n255 255\n"


def worked():
    values, greys = (0, 10, 20, 30, 100), (9, 2, 2, 2, 4)
    tile = b"".join(pixel(n, values[n], greys[n]) for n in range(5))
    return head(5, 1) + tile + call("D", 1) + call("E", 2) + call("O", 0) + call("C", 1)


def cases():
    yield "a dilate and a close", SOUND + call() + call("C", 9), "D 1 0 1\nC 9 0 1\n" + FLAT + "note 1 0 10 2\n"
    yield "an erode, then an open", SOUND + call("E", 3) + call("O", 2), "E 3 0 -3\nO 2 0 -3\n0 0\n0 0\nnote -3 -5 0 2\n"
    refused = call("D", 0) + call("E", 17) + call("O", 255)
    yield "sizes refused, and the job goes on", SOUND + refused, "D 0 7 0\nE 17 7 0\nO 255 7 0\n" + ROWS
    climb = SOUND + call("D", 15) * 4 + call("D", 5) + call("C", 5) + call("O", 16) + call("D", 4)
    lines = "".join(f"D 15 0 {level}\n" for level in (15, 30, 45, 60))
    yield "levels near 64", climb, lines + "D 5 8 60\nC 5 8 60\nO 16 0 60\nD 4 0 64\n" + FLAT + "note 64 0 64 6\n"
    yield "the worked job", worked(), "D 1 0 1\nE 2 0 -1\nO 0 7 -1\nC 1 0 -1\n2 2 2 2 4\nnote -1 -1 1 3\n"
    yield "torn after a call", SOUND + call() + b"\n", "D 1 0 1\nfault J 11 6\n"
    yield from cases_of_both()
    yield from cut_jobs(made=["", "D 1 0 1\n", "D 1 0 1\nE 2 0 -1\n"], ends=[ROWS, FLAT + "note 1 0 1 1\n", FLAT + "note -1 -1 1 2\n"])


try_jobs(sys.argv[1], cases())
