"""How answers are measured: points of the maps that offices use, the same formulas in 50 digits (reference.py), distances in
metres, and rows of a table. It needs mpmath."""

import functools
import math
import random
import sys
from typing import NamedTuple

import offices
import sheet

try:
    import reference
except ModuleNotFoundError as error:
    sys.exit(f"{sys.argv[0]} needs {error.name}: on Debian, apt install python3-{error.name}")

from mpmath import mpf

POINTS = 2100  # of a kind and way, which the offices of a kind share evenly
SEED = 1
MICROMETRE = 1e-6
NANOMETRE = 1e-9
NOTHING = 1e-30
NAMES = {
    "L": "Lambert",
    "S": "Lambert, spherical",
    "A": "Albers",
    "E": "Equal Earth",
    "C": "Cassini-Soldner",
    "P": "polyconic",
    "G": "Guam",
}
WAYS = {"F": "forward", "I": "inverse"}
OTHER_WAY = {"F": "I", "I": "F"}


class Point(NamedTuple):
    """A point of a map: a place in radians, or an easting and a northing."""

    kind: str
    settings: sheet.Settings
    u: float
    v: float

    def pair(self):
        return mpf(self.u), mpf(self.v)


def ask(command, way, points):
    """A program's answers, as points. A realistic point is on the map, so none may be refused."""
    answers = sheet.ask(command, (sheet.line(way, *point) for point in points))
    for point, answer in zip(points, answers):
        if answer.number != 0:
            sys.exit(f"{command[0]} refused {sheet.line(way, *point)} by {answer.number}")
    return [point._replace(u=answer.p, v=answer.q) for point, answer in zip(points, answers)]


@functools.cache
def exact_map(kind, settings):
    return reference.KINDS[kind](settings)


def exact(way, point, pair):
    """What the formula of the point's map gives for a pair."""
    m = exact_map(point.kind, point.settings)
    return m.forward(*pair) if way == "F" else m.inverse(*pair)


# ---- distances


def ground(settings, d_lon, d_lat, lat):
    """Metres on the ellipsoid, by its radii in the meridian and in the prime vertical."""
    e2 = settings.f * (2 - settings.f)
    w = math.sqrt(1 - e2 * math.sin(lat) ** 2)
    return math.hypot(d_lat * settings.a * (1 - e2) / w**3, d_lon * math.cos(lat) * settings.a / w)


def distance(way, point, pair):
    """Metres between what a way answers and a pair: on the plane, or on the ground."""
    du, dv = point.u - pair[0], point.v - pair[1]
    if way == "F":
        return math.hypot(du, dv)
    return ground(point.settings, reference.normalized(du), dv, point.v)


# ---- the points


def maps_of(kind, radius=None):
    """The offices' maps of a kind; on a sphere where a radius is named."""
    maps = [office for office in offices.read() if office.kind == kind]
    if radius is None:
        return maps
    return [office._replace(settings=office.settings._replace(a=radius, f=0.0)) for office in maps]


def place(office, lon, lat):
    """At degrees of seven decimals, about a centimetre."""
    lon, lat = math.remainder(round(lon, 7), 360), round(lat, 7)
    return Point(office.kind, office.settings, math.radians(lon), math.radians(lat))


def places(maps, count):
    """As many in the area of each map."""
    chance = random.Random(f"{SEED}{maps[0].kind}")
    for office in maps:
        west, south, east, north = office.area
        for _ in range(math.ceil(count / len(maps))):
            yield place(office, chance.uniform(west, east), chance.uniform(south, north))


def whole_millimetres(point):
    return point._replace(u=round(point.u, 3), v=round(point.v, 3))


def both_ways(program, maps, count):
    """The points of each way: places of the maps' areas, and their images."""
    there = list(places(maps, count))
    return [("F", there), ("I", [whole_millimetres(point) for point in ask(program, "F", there)])]


# ---- what is measured


class Errors(NamedTuple):
    """Metres: from the formula's answer to a program's, and from a point to where it is after the way there and back."""

    off: list
    trip: list


def errors(command, way, points, wanted):
    other = OTHER_WAY[way]
    answers = ask(command, way, points)
    back = ask(command, other, answers)
    return Errors(
        [distance(way, answer, pair) for answer, pair in zip(answers, wanted)],
        [distance(other, end, start.pair()) for end, start in zip(back, points)],
    )


# ---- the tables


def digits(x, unit):
    """A length in a unit, to two digits; what 50 digits leave open is 0."""
    return f"{float(f'{x / unit:.2g}'):,.10g}" if x > NOTHING else "0"


def table_row(cells, unit=NANOMETRE):
    return "| " + " | ".join(cell if isinstance(cell, str) else digits(cell, unit) for cell in cells) + " |"


def positive(text):
    """A count that was asked for on the command line."""
    count = int(text)
    if count < 1:
        raise ValueError
    return count
