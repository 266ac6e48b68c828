"""Reads paths of SVG into polygons, and tells what lies in them."""
import cmath
import math
import re
from typing import List, Tuple

Place = Tuple[float, float]
PART = re.compile(r"([MLHVAC])([^MLHVACZ]*)|(Z)")


def numbers(text: str) -> List[float]:
    """The numbers of a part of a path."""
    return [float(each) for each in re.findall(r"-?[\d.]+", text)]


def polygons(path: str, steps: int = 64) -> "List[List[Place]]":
    """The closed parts of a path with large letters, curves and arcs as a number of steps."""
    out: List[List[Place]] = []
    for letter, rest, _ in PART.findall(path):
        values = numbers(rest)
        if letter == "M":
            out.append([(values[0], values[1])])
        elif letter:
            out[-1] += _gone(letter, values, out[-1][-1], steps)
    return out


def _gone(letter: str, values: List[float], at: Place, steps: int) -> List[Place]:
    if letter == "H":
        return [(values[0], at[1])]
    if letter == "V":
        return [(at[0], values[0])]
    if letter == "L":
        return [(values[0], values[1])]
    shares = [step / steps for step in range(1, steps + 1)]
    if letter == "A":
        return [_on_arc(at, values, share) for share in shares]
    places = [at, *zip(values[::2], values[1::2])]
    return [bezier(places, share) for share in shares]


def bezier(places: List[Place], share: float) -> Place:
    """A place on the curve of four places."""
    parts = [math.comb(3, number) * share ** number * (1 - share) ** (3 - number) for number in range(4)]
    return sum(part * x for part, (x, _) in zip(parts, places)), sum(part * y for part, (_, y) in zip(parts, places))


def _on_arc(at: Place, values: List[float], share: float) -> Place:
    """A place on an arc of a circle, by the way in which SVG finds its centre."""
    radius, _, _, large, sweep, *end = values
    start, stop = complex(*at), complex(*end)
    half = (stop - start) / 2
    radius = max(radius, abs(half))
    to_centre = math.sqrt(max(radius ** 2 - abs(half) ** 2, 0.0)) * (half / abs(half) if half else 0) * 1j
    centre = (start + stop) / 2 + (to_centre if large != sweep else -to_centre)
    turn = cmath.phase((stop - centre) / (start - centre)) if start != centre else 0.0
    if sweep and turn < 0:
        turn += 2 * math.pi
    if not sweep and turn > 0:
        turn -= 2 * math.pi
    place = centre + (start - centre) * cmath.rect(1, turn * share)
    return place.real, place.imag


def area(polygon: List[Place]) -> float:
    """The area of a polygon, positive if its corners go round as the hands of a clock, where y goes down."""
    return sum(a * d - b * c for (a, b), (c, d) in zip(polygon, polygon[1:] + polygon[:1])) / 2


def holds(some: "List[List[Place]]", place: Place) -> bool:
    """Whether a place lies in the area of some polygons, by the rule nonzero."""
    x, y = place
    winding = 0
    for polygon in some:
        for (a, b), (c, d) in zip(polygon, polygon[1:] + polygon[:1]):
            if (b > y) != (d > y) and a + (y - b) / (d - b) * (c - a) > x:
                winding += 1 if d > b else -1
    return winding != 0


def hull(places: List[Place]) -> List[Place]:
    """The corners of the smallest polygon without dents around these places, by Andrew's chain."""
    def half(some: List[Place]) -> List[Place]:
        out: List[Place] = []
        for x, y in some:
            while len(out) > 1 and ((out[-1][0] - out[-2][0]) * (y - out[-2][1])
                                    - (out[-1][1] - out[-2][1]) * (x - out[-2][0])) <= 1e-9:
                out.pop()
            out.append((x, y))
        return out[:-1]
    ordered = sorted(set(places))
    return half(ordered) + half(ordered[::-1]) if len(ordered) > 1 else ordered
