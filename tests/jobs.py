#!/usr/bin/env python3
"""Runs a built filterbench on jobs whose text is known, and fails on the first that differs.

    tests/jobs.py crates/filterbench/out/filterbench
"""
import sys

sys.dont_write_bytecode = True

from job_cases import ROWS, SOUND, call, cases_of_both, cut_jobs, try_jobs


def cases():
    yield "two calls, not made yet", SOUND + call() + call("C", 9), "calls not made: 2\n"
    yield "torn after a call", SOUND + call() + b"\n", "calls not made: 1\nfault J 11 6\n"
    yield from cases_of_both()
    yield from cut_jobs(made=["", "calls not made: 1\n", "calls not made: 2\n"], ends=[ROWS, "", ""])


try_jobs(sys.argv[1], cases())
