"""An adaptive filter bench for grey tiles, in plain Python.

A tile carries a map (one criterion value for each pixel) and a picture (one
grey for each pixel). The map and a criterion fix the neighbourhoods; dilations
and erosions over them alter the picture; a bench keeps levels and a book of
the calls it accepted. `job_text` reads a whole job and gives the text of it.
"""

import math
import struct
from functools import cached_property
from itertools import accumulate
from typing import Callable, NamedTuple

GREATEST_SIDE = 255
MOST_PIXELS = 4096
GREATEST_SIZE = 16
LEVEL_BOUND = 64
MOST_CALLS = 60_000
RECORD_LENGTH = 8

TILE, JOINING, TOLERANCE, MISFIT, INADMISSIBLE = 1, 2, 3, 4, 5
SIZE, LEVEL, BOOK = 7, 8, 9
TORN, LETTER, ORDER, FILLER = 11, 12, 13, 14


class Fault(Exception):
    """A refusal: the letter of the layer that found it, its number, its place."""

    def __init__(self, layer, number, place):
        super().__init__(layer, number, place)
        self.layer = layer
        self.number = number
        self.place = place

    def __str__(self):
        return f"fault {self.layer} {self.number} {self.place}"


# Criteria: which values are admitted, and which are near a centre value.


class Step:
    """Bytes that differ by at most the tolerance are near."""

    def __init__(self, tolerance):
        self.tolerance = tolerance

    def admits(self, value):
        return True

    def near(self, value, centre):
        return abs(value - centre) <= self.tolerance


class Tone:
    """Bytes taken as grey tones, compared by their logarithmic difference."""

    def __init__(self, tolerance):
        self.tolerance = tolerance

    def admits(self, value):
        return True

    def near(self, value, centre):
        greater, lesser = max(value, centre), min(value, centre)
        return 256 * (greater - lesser) <= self.tolerance * (256 - lesser)


class Turn:
    """Headings without direction, in whole degrees: 179 and 0 are one apart."""

    def __init__(self, tolerance):
        if tolerance > 90:
            raise Fault("M", TOLERANCE, 0)
        self.tolerance = tolerance

    def admits(self, value):
        return value < 180

    def near(self, value, centre):
        difference = abs(value - centre)
        return min(difference, 180 - difference) <= self.tolerance


def binary32(number):
    """The number rounded to a 32-bit float; one that is too great is infinite."""
    try:
        packed = struct.pack("<f", number)
    except OverflowError:
        return math.copysign(math.inf, number)
    return struct.unpack("<f", packed)[0]


def bits_of(number):
    """The bits of the number as a 32-bit float."""
    return struct.unpack("<I", struct.pack("<f", number))[0]


def float_of(bits):
    """The 32-bit float that has these bits."""
    return struct.unpack("<f", struct.pack("<I", bits))[0]


class Reflectance:
    """Pairs of mean and slope, each pair given as the bits of two 32-bit floats.

    Python subtracts in 64 bits. That is precise enough for the step down to 32
    bits to give what rounding the exact difference once would give.
    """

    def __init__(self, mean_limit, slope_limit):
        self.limits = (binary32(mean_limit), binary32(slope_limit))
        if not all(math.isfinite(limit) and limit >= 0 for limit in self.limits):
            raise Fault("M", TOLERANCE, 0)

    def admits(self, value):
        return all(math.isfinite(float_of(bits)) for bits in value)

    def near(self, value, centre):
        return all(
            abs(binary32(float_of(a) - float_of(b))) <= limit
            for a, b, limit in zip(value, centre, self.limits)
        )


CRITERIA = {"S": Step, "T": Tone, "R": Turn}


# Tiles, maps and neighbourhoods.


class Tile:
    """The pixels of a rectangle, numbered row by row, and how they are joined."""

    def __init__(self, width, height, joining):
        sides_fit = 1 <= width <= GREATEST_SIDE and 1 <= height <= GREATEST_SIDE
        if not sides_fit or width * height > MOST_PIXELS:
            raise Fault("M", TILE, 0)
        if joining not in (4, 8):
            raise Fault("M", JOINING, joining)
        self.width = width
        self.height = height
        self.joining = joining
        self.count = width * height

    @cached_property
    def joined(self):
        """For each pixel the pixels that are joined to it."""
        return [self._joined_to(pixel) for pixel in range(self.count)]

    def _joined_to(self, pixel):
        row, column = divmod(pixel, self.width)
        moves = [(-1, 0), (0, -1), (0, 1), (1, 0)]
        if self.joining == 8:
            moves += [(-1, -1), (-1, 1), (1, -1), (1, 1)]
        return [
            (row + down) * self.width + column + right
            for down, right in moves
            if 0 <= row + down < self.height and 0 <= column + right < self.width
        ]


class Map:
    """One criterion value for each pixel of a tile."""

    def __init__(self, tile, values):
        if len(values) != tile.count:
            raise Fault("M", MISFIT, 1)
        self.tile = tile
        self.values = values

    def first_not_admitted(self, criterion):
        """The first pixel whose value is not admitted, or None."""
        for pixel, value in enumerate(self.values):
            if not criterion.admits(value):
                return pixel
        return None


class Neighbourhoods:
    """The weak and symmetric neighbourhoods of a map under a criterion."""

    def __init__(self, tile_map, criterion):
        self.tile = tile_map.tile
        self.values = tile_map.values
        self.criterion = criterion

    @cached_property
    def weak(self):
        """For each pixel as centre its weak neighbourhood.

        A pixel of one that has the centre's own value has the same weak
        neighbourhood: the same pixels are near, and chains run both ways.
        """
        weak = [None] * self.tile.count
        for centre in range(self.tile.count):
            if weak[centre] is None:
                reached = self._flood(centre)
                for pixel in reached:
                    if self.values[pixel] == self.values[centre]:
                        weak[pixel] = reached
        return weak

    def _flood(self, centre):
        """The pixels that chains reach from the centre, each near its value."""
        near, centre_value = self.criterion.near, self.values[centre]
        reached, front = {centre}, [centre]
        while front:
            for pixel in self.tile.joined[front.pop()]:
                if pixel not in reached and near(self.values[pixel], centre_value):
                    reached.add(pixel)
                    front.append(pixel)
        return frozenset(reached)

    @cached_property
    def distinct_weak(self):
        """Every weak neighbourhood, those that are equal once."""
        return set(self.weak)

    def symmetric(self, pixel):
        """Every pixel that lies with this one in some weak neighbourhood."""
        holding = (weak for weak in self.distinct_weak if pixel in weak)
        return frozenset().union(*holding)

    def filtered_once(self, picture, bound):
        """One dilation (bound is the join) or one erosion (it is the meet).

        The symmetric neighbourhood of a pixel is the union of the weak ones
        that hold the pixel, so the bound over it is that of their bounds.
        """
        result = list(picture)
        for weak in self.distinct_weak:
            weak_bound = bound(picture[pixel] for pixel in weak)
            for pixel in weak:
                result[pixel] = bound(result[pixel], weak_bound)
        return result

    def filtered(self, picture, bound, times):
        """So many dilations or erosions; a picture that stays ends them early."""
        for _ in range(times):
            result = self.filtered_once(picture, bound)
            if result == picture:
                break
            picture = result
        return picture


# Operations and the bench.


class Part(NamedTuple):
    """A dilate or erode: what it takes over a neighbourhood, where the level goes."""

    bound: Callable
    direction: int


DILATE = Part(bound=max, direction=1)
ERODE = Part(bound=min, direction=-1)

OPERATIONS = {
    "D": (DILATE,),
    "E": (ERODE,),
    "O": (ERODE, DILATE),
    "C": (DILATE, ERODE),
}


class Bench:
    """A seated picture, its present, lowest and highest level, and its book."""

    def __init__(self, tile_map, criterion, picture):
        if len(picture) != tile_map.tile.count:
            raise Fault("B", MISFIT, 2)
        pixel = tile_map.first_not_admitted(criterion)
        if pixel is not None:
            raise Fault("M", INADMISSIBLE, pixel)
        self.neighbourhoods = Neighbourhoods(tile_map, criterion)
        self.picture = picture
        self.present = self.lowest = self.highest = 0
        self.accepted = 0

    def call(self, letter, size):
        """Run the operation and answer the present level, or refuse by a fault."""
        parts = OPERATIONS[letter]
        touched = self._levels_touched(parts, size)
        self._check(size, touched)
        for part in parts:
            self.picture = self.neighbourhoods.filtered(self.picture, part.bound, size)
        self.present = touched[-1]
        self.lowest = min(self.lowest, *touched)
        self.highest = max(self.highest, *touched)
        self.accepted += 1
        return self.present

    def _levels_touched(self, parts, size):
        """The level after each part, the last of them the level reached."""
        moves = (part.direction * size for part in parts)
        return list(accumulate(moves, initial=self.present))[1:]

    def _check(self, size, touched):
        if not 1 <= size <= GREATEST_SIZE:
            raise Fault("B", SIZE, size)
        outside = max(abs(level) for level in touched) - LEVEL_BOUND
        if outside > 0:
            raise Fault("B", LEVEL, outside)
        if self.accepted == MOST_CALLS:
            raise Fault("B", BOOK, 0)


# Jobs: their records, written and read, and their text.


def head_record(width, height, joining, shape, tolerance):
    return bytes([ord("H"), width, height, joining, ord(shape), tolerance, 0, 0])


def pixel_record(pixel, map_byte, grey):
    return b"P" + pixel.to_bytes(2, "little") + bytes([map_byte, grey, 0, 0, 0])


def call_record(letter, size):
    return bytes([ord("C"), ord(letter), size, 0, 0, 0, 0, 0])


class Kind(NamedTuple):
    """A kind of record: its second letter, if it has one, and its filler."""

    letter_at: int | None
    letters: str
    filler_from: int


KINDS = {
    "H": Kind(letter_at=4, letters="".join(CRITERIA), filler_from=6),
    "P": Kind(letter_at=None, letters="", filler_from=5),
    "C": Kind(letter_at=1, letters="".join(OPERATIONS), filler_from=3),
}


def letters_listed(record):
    kind = KINDS.get(chr(record[0]))
    if kind is None:
        return False
    return kind.letter_at is None or chr(record[kind.letter_at]) in kind.letters


class Records:
    """The records of a job, taken one by one."""

    def __init__(self, data):
        self.data = data
        self.taken = 0

    def bytes_remain(self):
        return len(self.data) > self.taken * RECORD_LENGTH

    def take(self, due):
        """The next record, which must begin with the bytes that are due."""
        start = self.taken * RECORD_LENGTH
        record = self.data[start : start + RECORD_LENGTH]
        if 0 < len(record) < RECORD_LENGTH:
            raise Fault("J", TORN, self.taken)
        if record and not letters_listed(record):
            raise Fault("J", LETTER, self.taken)
        if not record.startswith(due):
            raise Fault("J", ORDER, self.taken)
        if any(record[KINDS[chr(record[0])].filler_from :]):
            raise Fault("J", FILLER, self.taken)
        self.taken += 1
        return record


def seat_by(records):
    """Read the head and the pixels of a job, and seat its bench."""
    _, width, height, joining, shape, tolerance, _, _ = records.take(b"H")
    tile = Tile(width, height, joining)
    criterion = CRITERIA[chr(shape)](tolerance)
    map_values, picture = [], []
    for pixel in range(tile.count):
        record = records.take(b"P" + pixel.to_bytes(2, "little"))
        map_values.append(record[3])
        picture.append(record[4])
    return Bench(Map(tile, map_values), criterion, picture)


def call_line(bench, record):
    letter, size = chr(record[1]), record[2]
    try:
        bench.call(letter, size)
        answer = 0
    except Fault as refusal:
        answer = refusal.number
    return f"{letter} {size} {answer} {bench.present}"


def row_lines(bench):
    width = bench.neighbourhoods.tile.width
    for start in range(0, len(bench.picture), width):
        yield " ".join(str(grey) for grey in bench.picture[start : start + width])


def note_line(bench):
    return f"note {bench.present} {bench.lowest} {bench.highest} {bench.accepted}"


def job_lines(records):
    bench = seat_by(records)
    while records.bytes_remain():
        yield call_line(bench, records.take(b"C"))
    yield from row_lines(bench)
    yield note_line(bench)


def fault_line(fault, records):
    """The line of a fault; one from below the reader gets the record it came by."""
    if fault.layer == "J":
        return str(fault)
    return f"{fault} at {records.taken - 1}"


def job_text(data):
    """The whole text of the job: its lines, as far as no fault ends them."""
    records, lines = Records(data), []
    try:
        for line in job_lines(records):
            lines.append(line)
    except Fault as fault:
        lines.append(fault_line(fault, records))
    return "".join(line + "\n" for line in lines)
