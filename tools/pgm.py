#!/usr/bin/env python3
"""Turns PGM pictures into jobs for filter_calls, and what filter_calls prints into pictures.

    tools/pgm.py job MAP.pgm TILE.pgm SHAPE TOLERANCE JOINING CALL.. > OUT.job
    tools/pgm.py rows < OUT.txt > OUT.pgm
    tools/pgm.py png IN.pgm OUT.png [SCALE]

job   writes a job to standard output. Both pictures are PGM (P2 or P5, maxval 255)
      with the same sides, at most 255. SHAPE is step, tone or turn; TOLERANCE is its
      number, JOINING 4 or 8. A CALL is a letter and a size: D1 dilates once, E2
      erodes twice, O3 opens by 3, C2 closes by 2. Calls are made in order; without
      any, the tile comes back as it is.
rows  reads what filter_calls printed and writes the tile in it as a P5 picture.
png   enlarges a picture SCALE times (1 to 64, by default 8) and writes it as PNG.

For example:

    tools/pgm.py job map.pgm tile.pgm step 3 8 O1 > tile.job
    crates/filter_calls/out/filter_calls < tile.job | tools/pgm.py rows > opened.pgm
    tools/pgm.py png opened.pgm opened.png

What cannot be converted is refused with one line on standard error and status 1.
Whether the numbers make sense (a size of 0, a turn above 90) is for filter_calls to say.
"""
import re
import struct
import sys
import zlib
from typing import NamedTuple

SHAPES = {"step": "S", "tone": "T", "turn": "R"}
HIGHEST_NUMBER = 999_999_999

# White space and comments, then a word. A comment must end, so that it can be passed in one way only.
WORD = re.compile(rb"(?:\s|#[^\r\n]*[\r\n])*([^\s#]+)")
END_OF_HEADER = re.compile(rb"(?:#[^\r\n]*)?\s")
COMMENT = re.compile(rb"#[^\r\n]*")
CALL = re.compile(r"([DEOC])([0-9]+)")
ROW = re.compile(r"[0-9]+( [0-9]+)*")


class Refused(Exception):
    pass


class Picture(NamedTuple):
    width: int
    height: int
    greys: bytes


def number(text, what, lowest, highest):
    digits = text.isascii() and text.isdigit() and len(text) <= len(str(HIGHEST_NUMBER))
    if not digits or not lowest <= int(text) <= highest:
        raise Refused(f"{what} must be a whole number from {lowest} to {highest}, not {text!r}")
    return int(text)


def parse_pgm(data, source):
    words, place = [], 0
    for what in ("magic number", "width", "height", "maxval"):
        word = WORD.match(data, place)
        if not word:
            raise Refused(f"{source}: the picture ends before its {what}")
        words.append(word[1].decode("ascii", "replace"))
        place = word.end()
        if words[0] not in ("P2", "P5"):
            raise Refused(f"{source}: not a PGM picture, it begins with neither P2 nor P5")
    width = number(words[1], f"{source}: width", 1, HIGHEST_NUMBER)
    height = number(words[2], f"{source}: height", 1, HIGHEST_NUMBER)
    maxval = number(words[3], f"{source}: maxval", 1, HIGHEST_NUMBER)
    if maxval != 255:
        raise Refused(f"{source}: maxval is {maxval}, and only 255 is taken: rescale the picture first")
    greys = plain_greys(data[place:], source) if words[0] == "P2" else raw_greys(data, place, source)
    if len(greys) != width * height:
        raise Refused(f"{source}: {width} x {height} is {width * height} pixels, but the picture has {len(greys)}")
    return Picture(width, height, greys)


def plain_greys(data, source):
    words = COMMENT.sub(b"", data).decode("ascii", "replace").split()
    return bytes(number(word, f"{source}: a grey value", 0, 255) for word in words)


def raw_greys(data, place, source):
    end = END_OF_HEADER.match(data, place)
    if not end:
        raise Refused(f"{source}: the picture ends before its pixels")
    return data[end.end() :]


def read_pgm(path):
    with open(path, "rb") as file:
        return parse_pgm(file.read(), path)


def p5(picture):
    return b"P5\n%d %d\n255\n" % (picture.width, picture.height) + picture.greys


def parse_call(text):
    call = CALL.fullmatch(text)
    if not call:
        raise Refused(f"a call is D, E, O or C and a size, as O3, not {text!r}")
    return call[1], number(call[2], f"the size of {text}", 0, 255)


def record(letter, *fields):
    return bytes([ord(letter), *fields]).ljust(8, b"\0")


def job(map_picture, tile, shape, tolerance, joining, calls):
    sides = tile.width, tile.height
    if (map_picture.width, map_picture.height) != sides:
        raise Refused(
            f"the map is {map_picture.width} x {map_picture.height}, but the tile is {tile.width} x {tile.height}"
        )
    if max(sides) > 255:
        raise Refused(f"the tile is {tile.width} x {tile.height}, but a job has sides of at most 255")
    records = [record("H", *sides, joining, ord(SHAPES[shape]), tolerance)]
    for place, values in enumerate(zip(map_picture.greys, tile.greys)):
        records.append(record("P", place % 256, place // 256, *values))
    for letter, size in calls:
        records.append(record("C", ord(letter), size))
    return b"".join(records)


def picture_in_text(text):
    lines = text.splitlines()
    for line in lines:
        if line.startswith("fault"):
            raise Refused(f"the job is at fault, so there is no tile: {line}")
    rows = [line.split(" ") for line in lines if ROW.fullmatch(line)]
    if not rows:
        raise Refused(f"no rows in this text; its last line is {lines[-1]!r}" if lines else "no rows: the text is empty")
    if not any(line.startswith("note ") for line in lines):
        raise Refused("the text is cut short: the note after the rows is missing")
    width = len(rows[0])
    if any(len(row) != width for row in rows):
        raise Refused("the rows differ in length")
    greys = bytes(number(value, "a grey value", 0, 255) for row in rows for value in row)
    return Picture(width, len(rows), greys)


def chunk(name, data):
    return struct.pack(">I", len(data)) + name + data + struct.pack(">I", zlib.crc32(name + data))


def png(picture, scale):
    lines = []
    for start in range(0, len(picture.greys), picture.width):
        row = picture.greys[start : start + picture.width]
        line = b"".join(bytes([grey]) * scale for grey in row)
        lines.append((b"\0" + line) * scale)
    header = struct.pack(">IIBBBBB", picture.width * scale, picture.height * scale, 8, 0, 0, 0, 0)
    pixels = zlib.compress(b"".join(lines), 9)
    return b"\x89PNG\r\n\x1a\n" + chunk(b"IHDR", header) + chunk(b"IDAT", pixels) + chunk(b"IEND", b"")


def run_job(arguments):
    if len(arguments) < 5:
        raise Refused("job needs MAP.pgm TILE.pgm SHAPE TOLERANCE JOINING and calls; -h shows how")
    map_path, tile_path, shape, tolerance, joining, *calls = arguments
    if shape not in SHAPES:
        raise Refused(f"the shape is step, tone or turn, not {shape!r}")
    written = job(
        read_pgm(map_path),
        read_pgm(tile_path),
        shape,
        number(tolerance, "the tolerance", 0, 255),
        number(joining, "the joining", 0, 255),
        [parse_call(call) for call in calls],
    )
    sys.stdout.buffer.write(written)


def run_rows(arguments):
    if arguments:
        raise Refused("rows takes no arguments: it reads standard input and writes standard output")
    text = sys.stdin.buffer.read().decode("ascii", "replace")
    sys.stdout.buffer.write(p5(picture_in_text(text)))


def run_png(arguments):
    if len(arguments) not in (2, 3):
        raise Refused("png needs IN.pgm OUT.png and perhaps SCALE; -h shows how")
    source, target, scale = (*arguments, "8")[:3]
    written = png(read_pgm(source), number(scale, "the scale", 1, 64))
    with open(target, "wb") as file:
        file.write(written)


COMMANDS = {"job": run_job, "rows": run_rows, "png": run_png}


def main(arguments):
    if not arguments or "-h" in arguments or "--help" in arguments:
        print(__doc__.strip())
        return 0
    command, *rest = arguments
    try:
        if command not in COMMANDS:
            raise Refused(f"the command is job, rows or png, not {command!r}; -h shows how")
        COMMANDS[command](rest)
    except (Refused, OSError) as error:
        print(f"pgm.py: {error}", file=sys.stderr)
        return 1
    return 0


if __name__ == "__main__":
    sys.exit(main(sys.argv[1:]))
