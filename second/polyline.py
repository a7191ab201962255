"""The foam cutter's polyline, by the words of request Q-3.

    polyline(used, tables, element, tolerance, points, at)

Refusals: the sampler's 17, 15, 18; 19 for a negative tolerance; 16 where the
points lack room.  Nothing lent is changed; the answer has the point table as it
would stand afterwards.
"""

from math import floor
from fractions import Fraction
from typing import NamedTuple

from records import CURV, CURV2
from rules import body_of, control_numbers
from sampler import RefusedPoint, curve_point, refusal

DEPTH = 12


class Polyline(NamedTuple):
    count: int
    points: list


def middle_of(start, end):
    """The middle, rounded down."""
    return floor(Fraction(start + end, 2))


def is_straight(tolerance, first, middle, last):
    """The sampled middle times two is within twice the tolerance of the sum of
    the two end points on each axis."""
    return all(
        abs(2 * m - (a + b)) <= 2 * tolerance for a, m, b in zip(first, middle, last, strict=True)
    )


def polyline_parameters(point, tolerance, start, end):
    """The start, then the end of each chord; the intervals still to be looked at
    lie on a stack, the next one on top."""
    found, waiting = [start], [(start, end, DEPTH)]
    while waiting:
        a, b, depth = waiting.pop()
        middle = middle_of(a, b)
        if depth == 0 or b - a <= 1 or is_straight(tolerance, point(a), point(middle), point(b)):
            found.append(b)
        else:
            waiting.append((middle, b, depth - 1))
            waiting.append((a, middle, depth - 1))
    return found


def polyline(used, tables, element, tolerance, points, at):
    refused = refusal(used, tables, element, (CURV, CURV2))
    if refused:
        return refused
    if tolerance < 0:
        return RefusedPoint(19)
    body, axes, known = body_of(tables, element), control_numbers(tables, element), {}

    def point(t):
        if t not in known:
            known[t] = curve_point(body, axes, t)
        return known[t]

    parameters = polyline_parameters(point, tolerance, *body.range[:2])
    filled = [number for t in parameters for number in point(t)]
    if at + len(filled) > len(points):
        return RefusedPoint(16)
    return Polyline(len(parameters), points[:at] + filled + points[at + len(filled):])
