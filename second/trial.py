#!/usr/bin/env python3
"""Prints the answers of the bench to a fixed set of small trials."""

import sys

sys.dont_write_bytecode = True

from bench import (
    Bench,
    Fault,
    Map,
    Neighbourhoods,
    Reflectance,
    Step,
    Tile,
    bits_of,
    call_record,
    head_record,
    job_text,
    pixel_record,
)


def worked_job():
    """A short job that meets acceptance and refusal."""
    map_bytes, greys = (0, 10, 20, 30, 100), (9, 2, 2, 2, 4)
    records = [head_record(5, 1, 4, "S", 10)]
    for pixel, (map_byte, grey) in enumerate(zip(map_bytes, greys)):
        records.append(pixel_record(pixel, map_byte, grey))
    for letter, size in (("D", 1), ("E", 2), ("O", 0), ("C", 1)):
        records.append(call_record(letter, size))
    return b"".join(records)


def reach_line(name, joining, pixel, neighbourhood, count):
    marks = " ".join("1" if other in neighbourhood else "0" for other in range(count))
    return f"{name} {joining} {pixel}: {marks}"


def reach_lines():
    """Two equal corners that only joining 8 brings together."""
    for joining in (4, 8):
        tile = Tile(2, 2, joining)
        neighbourhoods = Neighbourhoods(Map(tile, [0, 50, 50, 0]), Step(0))
        for pixel in range(tile.count):
            for name, neighbourhood in (
                ("weak", neighbourhoods.weak[pixel]),
                ("symmetric", neighbourhoods.symmetric(pixel)),
            ):
                yield reach_line(name, joining, pixel, neighbourhood, tile.count)


def tile_lines():
    for width, height in ((64, 64), (255, 16), (64, 65), (256, 1)):
        try:
            answer = Tile(width, height, 4).count
        except Fault as fault:
            answer = fault
        yield f"tile {width} {height}: {answer}"


def level_lines():
    """Calls close to the upper level bound."""
    bench = Bench(Map(Tile(1, 1, 4), [0]), Step(0), [7])
    for _ in range(4):
        bench.call("D", 15)
    for letter, size in (("D", 5), ("C", 5), ("O", 16), ("D", 4)):
        try:
            answer = bench.call(letter, size)
        except Fault as fault:
            answer = fault
        yield f"{letter} {size}: {answer}"


def limits_lines():
    criterion = Reflectance(0.25, 0)
    centre = (1.5, 0)
    for value in ((1.75, 0), (1.75, 0.5)):
        value_bits = tuple(bits_of(number) for number in value)
        centre_bits = tuple(bits_of(number) for number in centre)
        answer = "near" if criterion.near(value_bits, centre_bits) else "not near"
        yield f"limits {centre[0]} {centre[1]} and {value[0]} {value[1]}: {answer}"


def trial_lines():
    """All lines of the trial, in order."""
    return [
        *job_text(worked_job()).splitlines(),
        *reach_lines(),
        *tile_lines(),
        *level_lines(),
        *limits_lines(),
    ]


if __name__ == "__main__":
    print("\n".join(trial_lines()))
