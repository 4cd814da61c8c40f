#!/usr/bin/env python3
"""Reads a job from standard input and prints its text."""

import sys

sys.dont_write_bytecode = True

from bench import job_text

if __name__ == "__main__":
    sys.stdout.write(job_text(sys.stdin.buffer.read()))
