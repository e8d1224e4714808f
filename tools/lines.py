"""Lines of points: thinned, and the file of coastlines."""

import math

import sheet

COASTLINES = sheet.TOP / "tools/coastlines.txt"


def off_line(point, first, last):
    """The distance of a point from the line between two others."""
    (x, y), (x1, y1), (x2, y2) = point, first, last
    length = math.hypot(x2 - x1, y2 - y1)
    if length == 0:
        return math.hypot(x - x1, y - y1)
    return abs((x2 - x1) * (y - y1) - (y2 - y1) * (x - x1)) / length


def thinned(points, slack):
    """The points without those that the line between their neighbours passes this near (Douglas and Peucker)."""
    if len(points) < 3:
        return points
    first, last = points[0], points[-1]
    far = max(range(1, len(points) - 1), key=lambda i: off_line(points[i], first, last))
    if off_line(points[far], first, last) <= slack:
        return [first, last]
    return thinned(points[: far + 1], slack)[:-1] + thinned(points[far:], slack)


def coastlines():
    """The file's lines under each of its headings, as lists of longitude and latitude in degrees."""
    found = {}
    for text in COASTLINES.read_text(encoding="ascii").splitlines():
        if text.startswith("["):
            found[text.strip("[]")] = pieces = []
        elif text and not text.startswith("#"):
            pieces.append([tuple(map(float, pair.split(","))) for pair in text.split()])
    return found
