"""The maps that offices use, read from the oracle's table of them, so that there is one table."""

import math
import re
from typing import NamedTuple

import sheet

OFFICES = sheet.TOP / "oracle/src/offices.rs"
ELLIPSOIDS = sheet.TOP / "docs/src/proj-core/src/ellipsoid.rs"


class Office(NamedTuple):
    kind: str
    settings: sheet.Settings
    area: list  # west, south, east, north, in degrees


def quotient(text):
    """A number, or one over another."""
    above, *below = map(float, text.split("/"))
    return above / below[0] if below else above


def numbers(text):
    """The numbers of Rust's `[1.0, 2.0]` or `[0.0; 4]`."""
    if ";" in text:
        value, count = text.split(";")
        return [float(value)] * int(count)
    return [quotient(word) for word in text.split(",")]


def named_axes(text, source):
    """a and f by the table's names: its own, and those that it takes from the source."""
    in_source = {}
    for name, values in re.findall(r"const (\w+): Ellipsoid = \w+::\w+_unchecked\((.*)\);", source):
        a, *rf = numbers(values)
        in_source[name] = [a, 1.0 / rf[0] if rf else 0.0]
    taken = {name: in_source[other] for name, other in re.findall(r"const (\w+): \[f64; 2\] = axes\(ellipsoid::(\w+)\);", text)}
    own = {name: numbers(values) for name, values in re.findall(r"const (\w+): \[f64; 2\] = \[(.*)\];", text)}
    return taken | own


def read():
    """Every office, in the table's order."""
    text = OFFICES.read_text(encoding="utf-8")
    axes = named_axes(text, ELLIPSOIDS.read_text(encoding="utf-8"))
    (count,) = re.findall(r"OFFICES: \[Office; (\d+)\]", text)
    found = []
    for kind, name, *lists in re.findall(r"office\(b'(\w)', (\w+), \[(.*?)\], \[(.*?)\], \[(.*?)\]\)", text):
        origin, offsets, area = map(numbers, lists)
        found.append(Office(kind, sheet.Settings(*axes[name], *map(math.radians, origin), *offsets), area))
    if len(found) != int(count):
        raise ValueError(f"{OFFICES.name} has {count} offices, and {len(found)} were read")
    return found
