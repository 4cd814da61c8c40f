#!/usr/bin/env python3
"""Compares a job program and a trial program with this implementation.

    compare.py PROGRAM TRIAL [JOBS]

PROGRAM reads a job from standard input and prints its text; TRIAL prints the
lines of the trial. JOBS is the number of random jobs.
"""

import os
import random
import subprocess
import sys
from collections import Counter
from itertools import zip_longest

sys.dont_write_bytecode = True

from bench import (
    KINDS,
    MOST_CALLS,
    OPERATIONS,
    RECORD_LENGTH,
    call_record,
    head_record,
    job_text,
    pixel_record,
)
from trial import trial_lines, worked_job

SEED = 20261118
RANDOM_JOBS = 4000
LONGEST_RUN = 60  # seconds

EXPECTED = [
    *(f"fault M {number}" for number in (1, 2, 3, 5)),
    *(f"fault J {number}" for number in (11, 12, 13, 14)),
    *(f"answer {answer} to {letter}" for letter in OPERATIONS for answer in (0, 7, 8, 9)),
]


# Values of maps and pictures. All are reduced to 0 .. span - 1 in the end.


def ramp(rng, width, height, span):
    start, right, down = rng.randrange(span), rng.randint(-12, 12), rng.randint(-12, 12)
    return [
        start + right * column + down * row
        for row in range(height)
        for column in range(width)
    ]


def blocks(rng, width, height, span):
    side, jitter = rng.randint(1, 5), rng.choice((0, 0, 1, 4))
    base = {}
    values = []
    for row in range(height):
        for column in range(width):
            block = base.setdefault((row // side, column // side), rng.randrange(span))
            values.append(block + rng.randint(0, jitter))
    return values


def noise(rng, width, height, span):
    return [rng.randrange(span) for _ in range(width * height)]


def low_noise(rng, width, height, span):
    start, spread = rng.randrange(span), rng.randint(1, 40)
    return [start + rng.randint(0, spread) for _ in range(width * height)]


def few_values(rng, width, height, span):
    choices = [rng.randrange(span) for _ in range(rng.randint(1, 4))]
    return [rng.choice(choices) for _ in range(width * height)]


def about_the_ends(rng, width, height, span):
    """Values just above 0 and just below the span."""
    reach = rng.randint(1, 9)
    return [rng.randint(-reach, reach) for _ in range(width * height)]


def walk(rng, width, height, span):
    stride = rng.randint(1, 15)
    value, values = rng.randrange(span), []
    for _ in range(width * height):
        value += rng.randint(-stride, stride)
        values.append(value)
    return values


def spikes(rng, width, height, span):
    """One value with a few others in it."""
    values = [rng.randrange(span)] * (width * height)
    for _ in range(rng.randint(1, 3)):
        values[rng.randrange(width * height)] = rng.randrange(span)
    return values


FIELDS = (ramp, blocks, noise, low_noise, few_values, about_the_ends, walk, spikes)


def field(rng, width, height, span, make):
    return [value % span for value in make(rng, width, height, span)]


# Sound jobs.


def random_tolerance(rng, shape):
    greatest = 90 if shape == "R" else 255
    return rng.choice((0, 1, *(rng.randint(0, most) for most in (12, 40, greatest)), greatest))


def seating(rng, width, height, make_map=None, shapes="STR"):
    """The head and the pixels of a sound job."""
    shape, joining = rng.choice(shapes), rng.choice((4, 8))
    span = 180 if shape == "R" else 256
    map_bytes = field(rng, width, height, span, make_map or rng.choice(FIELDS))
    greys = field(rng, width, height, 256, rng.choice(FIELDS))
    head = head_record(width, height, joining, shape, random_tolerance(rng, shape))
    pixels = (pixel_record(*entry) for entry in zip(range(width * height), map_bytes, greys))
    return head + b"".join(pixels)


def random_size(rng):
    lot = rng.random()
    if lot < 0.65:
        return rng.randint(1, 4)
    return rng.randint(0, 20) if lot < 0.97 else 255


def random_calls(rng, count):
    calls = (call_record(rng.choice("DEOC"), random_size(rng)) for _ in range(count))
    return b"".join(calls)


def sound_job(rng):
    width, height = rng.randint(1, 9), rng.randint(1, 9)
    return seating(rng, width, height) + random_calls(rng, rng.randint(0, 10))


def long_job(rng):
    sides = [rng.randint(1, 2), rng.randint(10, 255)]
    rng.shuffle(sides)
    return seating(rng, *sides) + random_calls(rng, rng.randint(1, 4))


def bounds_job(rng):
    """Runs of calls up to and beyond one level bound, then the other."""
    calls = []
    for main in rng.sample("DE", 2):
        for _ in range(rng.randint(8, 30)):
            letter = rng.choice((main, main, main, *OPERATIONS))
            calls.append(call_record(letter, rng.randint(1, 17)))
    return seating(rng, rng.randint(1, 4), rng.randint(1, 4)) + b"".join(calls)


def small_job(rng):
    """A job with few pixels, to be damaged."""
    sides = rng.randint(1, 4), rng.randint(1, 4)
    return seating(rng, *sides) + random_calls(rng, rng.randint(1, 8))


# Damage. Each function takes a sound job and gives the damaged one.


def with_byte(job, position, byte):
    return job[:position] + bytes([byte]) + job[position + 1 :]


def with_head(job, **fields):
    """The job with fields of its head altered."""
    positions = {"width": 1, "height": 2, "joining": 3, "shape": 4, "tolerance": 5}
    for name, byte in fields.items():
        job = with_byte(job, positions[name], byte)
    return job


def records_of(job):
    return [job[start : start + RECORD_LENGTH] for start in range(0, len(job), RECORD_LENGTH)]


def starts_of(job, letter):
    """Where the whole records with this letter start."""
    starts = range(0, len(job) - RECORD_LENGTH + 1, RECORD_LENGTH)
    return [start for start in starts if job[start] == ord(letter)]


def cut(rng, job):
    return job[: rng.randrange(len(job))]


def change_byte(rng, job):
    return with_byte(job, rng.randrange(len(job)), rng.randrange(256))


def drop_record(rng, job):
    records = records_of(job)
    del records[rng.randrange(len(records))]
    return b"".join(records)


def double_record(rng, job):
    records = records_of(job)
    place = rng.randrange(len(records))
    return b"".join(records[: place + 1] + records[place:])


def swap_records(rng, job):
    records = records_of(job)
    a, b = rng.randrange(len(records)), rng.randrange(len(records))
    records[a], records[b] = records[b], records[a]
    return b"".join(records)


def insert_record(rng, job):
    records = records_of(job)
    records.insert(rng.randint(0, len(records)), loose_record(rng))
    return b"".join(records)


def wrong_letter(rng, job):
    """A record, shape or operation letter that is not in its list."""
    letter = rng.choice([letter for letter in KINDS if starts_of(job, letter)])
    start, kind = rng.choice(starts_of(job, letter)), KINDS[letter]
    offsets = {0: "".join(KINDS)}
    if kind.letter_at is not None:
        offsets[kind.letter_at] = kind.letters
    offset, listed = rng.choice(list(offsets.items()))
    candidates = [*b"HPCSTRDEOhpcstrdeo\n\0 \xc3\xd0\xff", rng.randrange(256)]
    byte = rng.choice([byte for byte in candidates if chr(byte) not in listed])
    return with_byte(job, start + offset, byte)


def wrong_pixel(rng, job):
    start = rng.choice(starts_of(job, "P"))
    pixel = int.from_bytes(job[start + 1 : start + 3], "little")
    wrong = (pixel + rng.choice((1, -1, 256, 0x8000, rng.randint(1, 0xFFFF)))) % 0x10000
    return job[: start + 1] + wrong.to_bytes(2, "little") + job[start + 3 :]


def nonzero_filler(rng, job):
    letter = rng.choice([letter for letter in KINDS if starts_of(job, letter)])
    offset = rng.randrange(KINDS[letter].filler_from, RECORD_LENGTH)
    return with_byte(job, rng.choice(starts_of(job, letter)) + offset, rng.randint(1, 255))


def bad_tile(rng, job):
    side = rng.randint(1, 255)
    none = ((0, side), (side, 0), (0, 0))
    too_many = ((64, 65), (65, 64), (255, 17), (17, 241), (255, 255))
    width, height = rng.choice(none + too_many)
    return with_head(job, width=width, height=height)


def bad_joining(rng, job):
    return with_head(job, joining=rng.choice((0, 1, 3, 5, 6, 7, 9, 12, 48, 52, 56, 255)))


def bad_turn(rng, job):
    tolerance = rng.choice((91, 179, 180, 255, rng.randint(91, 255)))
    return with_head(job, shape=ord("R"), tolerance=tolerance)


def bad_heading(rng, job):
    job = with_head(job, shape=ord("R"), tolerance=rng.randint(0, 90))
    heading = rng.choice((180, 181, 255, rng.randint(180, 255)))
    return with_byte(job, rng.choice(starts_of(job, "P")) + 3, heading)


def bad_shape(rng, job):
    return with_head(job, shape=rng.choice(b"DEOCHPstr\0\xd3"))


def head_filler(rng, job):
    return with_byte(job, rng.choice((6, 7)), rng.randint(1, 255))


def troubled_head(rng, job):
    """Several faults in the head at once."""
    damages = (bad_tile, bad_joining, bad_turn, bad_shape, head_filler)
    for damage in rng.sample(damages, rng.randint(2, 3)):
        job = damage(rng, job)
    return job


def bytes_after(rng, job):
    return job + bytes(rng.choice(b"\n\0HPCD\x01\xff") for _ in range(rng.randint(1, 20)))


DAMAGES = (
    cut,
    change_byte,
    drop_record,
    double_record,
    swap_records,
    insert_record,
    wrong_letter,
    wrong_pixel,
    nonzero_filler,
    bad_tile,
    bad_joining,
    bad_turn,
    bad_heading,
    troubled_head,
    bytes_after,
)


def damaged_job(damage):
    return lambda rng: damage(rng, small_job(rng))


def twice_damaged_job(rng):
    """Two damages at once; the second is one that suits any bytes."""
    first = rng.choice([damage for damage in DAMAGES if damage is not cut])
    second = rng.choice((cut, change_byte, drop_record, swap_records, insert_record, bytes_after))
    return second(rng, first(rng, small_job(rng)))


# Jobs of loose pieces.


def loose_record(rng):
    width, height, joining = rng.randint(1, 3), rng.randint(1, 3), rng.choice((4, 8))
    return rng.choice(
        (
            head_record(width, height, joining, rng.choice("STR"), rng.randint(0, 90)),
            pixel_record(rng.randint(0, 4), rng.randrange(180), rng.randrange(256)),
            call_record(rng.choice("DEOC"), random_size(rng)),
        )
    )


def loose_records_job(rng):
    records = [loose_record(rng) for _ in range(rng.randint(0, 8))]
    if rng.random() < 0.5:
        records.insert(0, head_record(1, 1, 4, "S", 0))
    return b"".join(records)


def loose_bytes_job(rng):
    letters = b"HPCSTRDEO\0\0\0\0\x01\x04\x08"
    return bytes(rng.choice(letters) for _ in range(rng.randint(0, 60)))


# The mixture of random jobs, taken in turn, and the jobs that are always run.

MIXTURE = (
    *(sound_job,) * 10,
    *(bounds_job,) * 3,
    long_job,
    *(damaged_job(damage) for damage in DAMAGES),
    damaged_job(troubled_head),
    *(twice_damaged_job,) * 3,
    loose_records_job,
    loose_bytes_job,
)

GREAT_TILES = (
    (64, 64, spikes),
    (64, 64, noise),
    (64, 64, ramp),
    (64, 64, low_noise),
    (255, 16, blocks),
    (16, 255, walk),
    (1, 255, about_the_ends),
    (255, 1, ramp),
)


GREAT_DAMAGES = (bad_heading, wrong_pixel, drop_record, nonzero_filler, cut)


def great_job(rng, width, height, make_map):
    calls = (call_record(letter, 1) for letter in rng.sample("DEOC", 2))
    return seating(rng, width, height, make_map) + b"".join(calls)


def great_damaged_job(rng, damage):
    """A fault far behind in a job, where pixel numbers need both their bytes."""
    return damage(rng, seating(rng, 64, 64, noise, "R"))


def book_job(rng, up, down, touch_up, touch_down):
    """Calls that fill the book close to a level bound, and calls after that.

    Four calls lead to 60 levels off the start, in the direction of `up`. The
    others come in fours that end where they began, all of them accepted.
    """
    calls = [(up, 15)] * 4
    while len(calls) < MOST_CALLS:
        out, touch, back = rng.randint(1, 4), rng.randint(1, 4), rng.randint(1, 16)
        calls += [(up, out), (down, out), (touch_up, touch), (touch_down, back)]
    calls += [(letter, size) for size in (1, 0, 4, 5, 16, 17) for letter in OPERATIONS]
    return seating(rng, 1, 1) + b"".join(call_record(*call) for call in calls)


def lasting_jobs(rng):
    """The jobs that every run has, whatever the number of random ones."""
    yield b""
    yield worked_job()
    for entry in GREAT_TILES:
        yield great_job(rng, *entry)
    for damage in GREAT_DAMAGES:
        yield great_damaged_job(rng, damage)
    yield book_job(rng, "D", "E", "C", "O")
    yield book_job(rng, "E", "D", "O", "C")


def all_jobs(rng, random_jobs):
    yield from lasting_jobs(rng)
    for number in range(random_jobs):
        yield MIXTURE[number % len(MIXTURE)](rng)


# The comparison.


def run(program, data):
    """What the program prints, its status (None if it goes on too long), its errors."""
    try:
        done = subprocess.run([program], input=data, capture_output=True, timeout=LONGEST_RUN)
    except subprocess.TimeoutExpired as stopped:
        return stopped.stdout or b"", None, stopped.stderr or b""
    return done.stdout, done.returncode, done.stderr


def compare_trial(trial):
    """The number of lines in which both trials agree."""
    lines = trial_lines()
    printed, status, _ = run(trial, b"")
    after_last_newline = ""
    pairs = zip_longest(
        printed.decode("ascii", "replace").split("\n"), [*lines, after_last_newline]
    )
    for number, (theirs, ours) in enumerate(pairs):
        if theirs != ours:
            sys.exit(f"second: trial line {number} differs\ntrial:  {theirs!r}\nsecond: {ours!r}")
    if status != 0:
        sys.exit(f"second: the trial ended with status {status}")
    return len(lines)


def compare_job(program, number, job):
    """The text of the job, on which both implementations agree."""
    text = job_text(job)
    ours, theirs = (text.encode(), 0, b""), run(program, job)
    if theirs != ours:
        print(f"second: job {number} differs")
        print(f"job: {job.hex()}")
        for name, (printed, status, errors) in (("program", theirs), ("second", ours)):
            print(f"{name}: status {status}, printed {printed!r}, errors {errors!r}")
        sys.exit(1)
    return text


def events_in(text):
    """The faults and answers that a job's text tells of."""
    for line in text.splitlines():
        fields = line.split()
        if fields[0] == "fault":
            yield f"fault {fields[1]} {fields[2]}"
        elif fields[0] in OPERATIONS:
            yield f"answer {fields[2]} to {fields[0]}"


def compare(program, trial, random_jobs):
    print(f"second: seed {SEED}", flush=True)
    line_count = compare_trial(trial)
    job_count, events = 0, Counter()
    for job in all_jobs(random.Random(SEED), random_jobs):
        events.update(events_in(compare_job(program, job_count, job)))
        job_count += 1
    missing = [event for event in EXPECTED if not events[event]]
    if missing:
        sys.exit(f"second: never met: {', '.join(missing)}")
    print(f"second: {job_count} jobs and {line_count} lines agree")


def main(arguments):
    if len(arguments) not in (2, 3):
        sys.exit("usage: compare.py PROGRAM TRIAL [JOBS]")
    program, trial = (os.path.abspath(path) for path in arguments[:2])
    compare(program, trial, int(arguments[2]) if len(arguments) == 3 else RANDOM_JOBS)


if __name__ == "__main__":
    main(sys.argv[1:])
