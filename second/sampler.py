"""Points on curves and surfaces, and the exact value they are held against.

    point_on_curve(used, tables, element, t)
    point_on_surface(used, tables, element, u, v)
    run_on_curve(used, tables, element, steps, points, at)
    cubic_at(used, tables, element, segment, j)

The tables are arbitrary: whatever lies in them is answered, refusals in the
order 17, 15, 18, 19, 16.  Nothing lent is changed; a run gives back the point
table as it would stand afterwards.
"""

from fractions import Fraction
from math import comb
from typing import NamedTuple

from records import BEZIER, BSPLINE, CURV, CURV2, SURF, TABLES
from rules import body_of, control_numbers, obeys


class Space(NamedTuple):
    x: int
    y: int
    z: int


class Plane(NamedTuple):
    u: int
    v: int


class Filled(NamedTuple):
    numbers: int
    points: list


class RefusedPoint(NamedTuple):
    number: int


MOST_STEPS = 65_536


def nearest(sum_, d):
    """sum / D to the nearest whole number, ties away from zero."""
    size = (2 * abs(sum_) + d) // (2 * d)
    return -size if sum_ < 0 else size


def between(a, b, p, d):
    """(a(D-p) + bp)/D, rounded."""
    return nearest(a * (d - p) + b * p, d)


def place_of(type_, degree, parameters, t):
    """The segment or span chosen for t: the index of the parameter it starts at.

    Bezier: the last segment whose start is <= t.  B-spline: the last non-empty
    span from x_n to x_k whose start is <= t.
    """
    if type_ == BEZIER:
        candidates = range(0, len(parameters) - 1)
    else:
        candidates = range(degree, len(parameters) - degree - 1)
    chosen = None
    for i in candidates:
        if parameters[i] <= t and (type_ == BEZIER or parameters[i] < parameters[i + 1]):
            chosen = i
    return chosen


def first_control(type_, degree, place):
    """The first of the degree + 1 controls that the chosen place works on."""
    return place * degree if type_ == BEZIER else place - degree


def de_casteljau(row, t, start, end):
    while len(row) > 1:
        row = [between(a, b, t - start, end - start) for a, b in zip(row, row[1:])]
    return row[0]


def de_boor(row, knots, span, degree, t):
    """Level r makes controls span-degree+r to span, each between its neighbour
    below and itself."""
    for r in range(1, degree + 1):
        level = []
        for i, (a, b) in enumerate(zip(row, row[1:]), span - degree + r):
            level.append(between(a, b, t - knots[i], knots[i + degree - r + 1] - knots[i]))
        row = level
    return row[0]


def along(type_, degree, parameters, place, t, row):
    """One number from the degree + 1 numbers of one axis."""
    if type_ == BEZIER:
        return de_casteljau(row, t, parameters[place], parameters[place + 1])
    return de_boor(row, parameters, place, degree, t)


# Refusals

def refusal(used, tables, element, kinds):
    """17, 15, 18, or None."""
    if not 1 <= element <= used.elements:
        return RefusedPoint(17)
    elements = tables[TABLES.index("elements")]
    if 9 * element > len(elements):
        return RefusedPoint(15)
    if elements[9 * (element - 1)] not in kinds:
        return RefusedPoint(17)
    if not obeys(used, tables, element):
        return RefusedPoint(15)
    body = body_of(tables, element)
    if body.rational or body.type not in (BEZIER, BSPLINE):
        return RefusedPoint(18)
    return None


# Points

def curve_point(body, axes, t):
    """`axes` holds the controls' numbers, one list for each axis."""
    n, parameters = body.degrees[0], body.u_parameters
    place = place_of(body.type, n, parameters, t)
    first = first_control(body.type, n, place)
    return [
        along(body.type, n, parameters, place, t, numbers[first:first + n + 1])
        for numbers in axes
    ]


def surface_point(body, axes, u, v):
    """u first along each row, then v."""
    m, n = body.degrees
    u_place = place_of(body.type, m, body.u_parameters, u)
    v_place = place_of(body.type, n, body.v_parameters, v)
    u_first = first_control(body.type, m, u_place)
    v_first = first_control(body.type, n, v_place)
    point = []
    for numbers in axes:
        column = []
        for j in range(v_first, v_first + n + 1):
            at = j * body.u_controls + u_first
            row = numbers[at:at + m + 1]
            column.append(along(body.type, m, body.u_parameters, u_place, u, row))
        point.append(along(body.type, n, body.v_parameters, v_place, v, column))
    return point


def point_on_curve(used, tables, element, t):
    refused = refusal(used, tables, element, (CURV, CURV2))
    if refused:
        return refused
    body = body_of(tables, element)
    start, end = body.range[:2]
    if not start <= t <= end:
        return RefusedPoint(19)
    point = curve_point(body, control_numbers(tables, element), t)
    return Space(*point) if len(point) == 3 else Plane(*point)


def point_on_surface(used, tables, element, u, v):
    refused = refusal(used, tables, element, (SURF,))
    if refused:
        return refused
    body = body_of(tables, element)
    u_start, u_end, v_start, v_end = body.range
    if not (u_start <= u <= u_end and v_start <= v <= v_end):
        return RefusedPoint(19)
    return Space(*surface_point(body, control_numbers(tables, element), u, v))


def run_parameters(start, end, steps):
    return [start + j * (end - start) // steps for j in range(steps + 1)]


def run_on_curve(used, tables, element, steps, points, at):
    refused = refusal(used, tables, element, (CURV, CURV2))
    if refused:
        return refused
    if not 1 <= steps <= MOST_STEPS:
        return RefusedPoint(19)
    axes = control_numbers(tables, element)
    needed = len(axes) * (steps + 1)
    if at + needed > len(points):
        return RefusedPoint(16)
    body = body_of(tables, element)
    filled = []
    for t in run_parameters(*body.range[:2], steps):
        filled += curve_point(body, axes, t)
    return Filled(needed, points[:at] + filled + points[at + needed:])


# Cubics in 64 steps

CUBIC_TABLE = [[comb(3, i) * j ** i * (64 - j) ** (3 - i) for i in range(4)] for j in range(65)]


def cubic_at(used, tables, element, segment, j):
    """The point at j/64 of a segment, segments counted from 0; the sum is divided once."""
    refused = refusal(used, tables, element, (CURV, CURV2))
    if refused:
        return refused
    body = body_of(tables, element)
    if body.type != BEZIER or body.degrees[0] != 3:
        return RefusedPoint(18)
    if j > 64 or segment >= len(body.u_parameters) - 1:
        return RefusedPoint(19)
    first, last = body.u_parameters[segment:segment + 2]
    start, end = body.range[:2]
    if not start <= first + Fraction(j, 64) * (last - first) <= end:
        return RefusedPoint(19)
    point = [
        nearest(sum(w * c for w, c in zip(CUBIC_TABLE[j], numbers[3 * segment:])), 262_144)
        for numbers in control_numbers(tables, element)
    ]
    return Space(*point) if len(point) == 3 else Plane(*point)
