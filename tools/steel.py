#!/usr/bin/env python3
"""Makes a worked tile of polished steel with inclusions, always the same one.

    tools/steel.py FOLDER

writes FOLDER/tile.pgm and FOLDER/map.pgm, 64 x 64 each, and prints how many pixels are
inclusion and how far they stand above the steel around them, all levels added up.

The tile is a negative, as is usual where inclusions are measured: ferrite grains are dark
and differ a little, grain boundaries are brighter, inclusions (dark in the microscope) are
brightest. So an opening removes them, and the residue of the tile over the opened tile
weighs them. The analyser keeps 64 greys: every byte is a multiple of 4, and fine noise
moves about every fifth pixel by one such step.

The map is the tile without what stands out: a pixel that is more than 70 above the most
common grey of the 9 x 9 pixels around it is given that grey, any other is kept. So the map
decides what counts as an inclusion: these vanish from it, boundaries and noise stay. Under
step 3, less than one grey of the analyser, joined pixels of equal map byte are one
neighbourhood. In the steel the tile is even over it, and an opening alters nothing; where
an inclusion was, it reaches out to the steel beside it, and an opening takes the inclusion
down to that grey. (On a map of even grains an opening would take each whole grain down to
its darkest pixel, and the residue would weigh the noise as well.)
"""
import math
import os
import random
import statistics
import sys
from typing import NamedTuple

sys.dont_write_bytecode = True
from pgm import Picture, p5

SEED = 20261118
SIDE = 64
GREY_STEP = 4
GRAINS = 11
GRAIN_GREYS = (40, 68)
GRAIN_SPACING = 12
BOUNDARY_GREY = 92
BOUNDARY_WIDTH = 1.6
INCLUSIONS = 8
INCLUSION_GREYS = (164, 216)
INCLUSION_SPACING = 13
NOISE = 3
WINDOW_REACH = 4
STANDING_OUT = 70


class Point(NamedTuple):
    row: float
    column: float

    def distance(self, other):
        return math.hypot(self.row - other.row, self.column - other.column)


class Grain(NamedTuple):
    centre: Point
    grey: int


class Inclusion(NamedTuple):
    centre: Point
    length: float
    breadth: float
    angle: float
    grey: float

    def covers(self, point):
        down, right = point.row - self.centre.row, point.column - self.centre.column
        along = right * math.cos(self.angle) + down * math.sin(self.angle)
        across = down * math.cos(self.angle) - right * math.sin(self.angle)
        return math.hypot(along / self.length, across / self.breadth) <= 1


def scatter(chance, count, rim, spacing):
    points = []
    while len(points) < count:
        point = Point(chance.uniform(rim, SIDE - rim), chance.uniform(rim, SIDE - rim))
        if all(point.distance(other) >= spacing for other in points):
            points.append(point)
    return points


def analyser_grey(value):
    return round(value / GREY_STEP) * GREY_STEP


def make_grains(chance):
    centres = scatter(chance, GRAINS, 0, GRAIN_SPACING)
    return [Grain(centre, analyser_grey(chance.uniform(*GRAIN_GREYS))) for centre in centres]


def make_inclusions(chance):
    """Round and elongated ones in turn."""
    made = []
    for number, centre in enumerate(scatter(chance, INCLUSIONS, 6, INCLUSION_SPACING)):
        length = breadth = chance.uniform(1.2, 2.8)
        if number % 2:
            length, breadth = chance.uniform(4, 7), chance.uniform(1, 1.6)
        made.append(Inclusion(centre, length, breadth, chance.uniform(0, math.pi), chance.uniform(*INCLUSION_GREYS)))
    return made


def distance_to_boundary(point, home, other):
    """From a point in one grain to the line midway between its centre and another's."""
    return (point.distance(other) ** 2 - point.distance(home) ** 2) / (2 * home.distance(other))


def steel_grey(grains, point):
    home = min(grains, key=lambda grain: point.distance(grain.centre))
    others = [grain for grain in grains if grain is not home]
    nearest = min(distance_to_boundary(point, home.centre, other.centre) for other in others)
    return BOUNDARY_GREY if nearest < BOUNDARY_WIDTH / 2 else home.grey


def with_noise(chance, grey):
    return analyser_grey(grey + NOISE * (chance.random() + chance.random() + chance.random() - 1.5))


def most_common_around(greys, place):
    """The most common grey of the window around a pixel; of several, the lowest."""
    row, column = divmod(place, SIDE)
    rows = range(max(0, row - WINDOW_REACH), min(SIDE, row + WINDOW_REACH + 1))
    left, right = max(0, column - WINDOW_REACH), min(SIDE, column + WINDOW_REACH + 1)
    return statistics.mode(sorted(grey for near in rows for grey in greys[near * SIDE + left : near * SIDE + right]))


def without_what_stands_out(greys):
    around = [most_common_around(greys, place) for place in range(len(greys))]
    return [common if grey - common > STANDING_OUT else grey for grey, common in zip(greys, around)]


def make_scene():
    """The tile's greys, and for each inclusion pixel how far it stands above the steel."""
    chance = random.Random(SEED)
    grains, inclusions = make_grains(chance), make_inclusions(chance)
    greys, heights = [], []
    for place in range(SIDE * SIDE):
        point = Point(*divmod(place, SIDE))
        steel = steel_grey(grains, point)
        covering = [inclusion.grey for inclusion in inclusions if inclusion.covers(point)]
        greys.append(with_noise(chance, covering[0] if covering else steel))
        if covering:
            heights.append(greys[-1] - steel)
    return greys, heights


def write_picture(folder, name, greys):
    with open(os.path.join(folder, name), "wb") as file:
        file.write(p5(Picture(SIDE, SIDE, bytes(greys))))


def main(arguments):
    if len(arguments) != 1 or arguments[0] in ("-h", "--help"):
        print(__doc__.strip())
        return 0
    folder = arguments[0]
    greys, heights = make_scene()
    try:
        os.makedirs(folder, exist_ok=True)
        write_picture(folder, "tile.pgm", greys)
        write_picture(folder, "map.pgm", without_what_stands_out(greys))
    except OSError as error:
        print(f"steel.py: {error}", file=sys.stderr)
        return 1
    print(f"{INCLUSIONS} inclusions, {len(heights)} pixels, {sum(heights)} levels above the steel")
    return 0


if __name__ == "__main__":
    sys.exit(main(sys.argv[1:]))
