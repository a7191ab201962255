"""Refusal 15: one element's records, in tables of any contents, held against
the rules that reading keeps.

    obeys(used, tables, element) -> bool
    element_obeys(named, used, element, curves) -> bool   curves: the curv2 before it

Looked at are all records of the element (names aside) and the v, vt, vn, vp
that its corners name.  A used count past its slice is no fault by itself; a
record that the element needs and that is past the used or lent entries is.
"""

from typing import NamedTuple

from records import (
    CARDINAL, CARDINAL_DEGREE, CURV, CURV2, F, HOLE, L, LARGEST, ONE, P, SURF,
    TABLES, TRIM, TYPES, WIDTHS, continuous, controls, in_order, widest,
)

LEAST_CORNERS = {P: 1, L: 2, F: 3, CURV: 2, CURV2: 2, SURF: 1}
MOST_SMOOTHING = 65_535
MOST_DEGREE = 20


class Body(NamedTuple):
    type: int
    rational: int
    degrees: tuple
    u_parameters: list
    v_parameters: list
    u_controls: int
    range: list


def by_name(tables):
    return dict(zip(TABLES, tables))


def element_record(tables, element):
    return by_name(tables)["elements"][9 * (element - 1):9 * element]


def body_of(tables, element):
    """The body of an element that obeys the rules."""
    named = by_name(tables)
    at = element_record(tables, element)[3] - 1
    type_, rational, m, n, first, u_count, v_count = named["bodies"][9 * at:9 * at + 7]
    parameters = named["parameters"]
    middle = first + u_count
    return Body(
        type_, rational, (m, n), parameters[first:middle],
        parameters[middle:middle + v_count], controls(type_, m, u_count),
        named["ranges"][4 * at:4 * at + 4],
    )


def control_numbers(tables, element):
    """The controls' numbers, one list for each axis: x y z, or u v of a curv2."""
    named = by_name(tables)
    kind, first, count = element_record(tables, element)[:3]
    numbers = [named["corners"][first + 3 * k] for k in range(count)]
    table, axes = ("vp", (1, 2)) if kind == CURV2 else ("v", (0, 1, 2))
    return [[named[table][4 * (k - 1) + axis] for k in numbers] for axis in axes]


def in_range(numbers):
    return all(-LARGEST <= number <= LARGEST for number in numbers)


def there(named, used, table, first, count):
    """Records first .. first+count-1 (from 0) are within used and lent."""
    past = first + count
    return past <= getattr(used, table) and WIDTHS[table] * past <= len(named[table])


def obeys(used, tables, element):
    """Whether nothing that 15 names is wrong for that element (from 1)."""
    named = by_name(tables)
    curves = named["elements"][0:9 * (element - 1):9].count(CURV2)
    return element_obeys(named, used, element, curves)


def element_obeys(named, used, element, curves):
    """The same where the curv2 elements before it were counted already: asking
    it of every element must not count them anew each time."""
    if not there(named, used, "elements", element - 1, 1):
        return False
    kind, first, count, body, smoothing = named["elements"][9 * (element - 1):9 * element][:5]
    if kind not in LEAST_CORNERS or smoothing > MOST_SMOOTHING:
        return False
    if count < LEAST_CORNERS[kind]:
        return False
    past = first + 3 * count
    if past > used.corners or past > len(named["corners"]):
        return False
    numbers = named["corners"][first:past]
    corners = [numbers[at:at + 3] for at in range(0, 3 * count, 3)]
    if not corners_obey(named, used, kind, corners):
        return False
    if kind in (P, L, F):
        return body == 0
    return body_obeys(named, used, kind, count, body, curves)


# Corners and the vertices they name

def corners_obey(named, used, kind, corners):
    if kind == CURV2:
        return all(
            control_obeys(named, used, vp) and second == third == 0
            for vp, second, third in corners
        )
    pattern = corners[0][1] != 0, corners[0][2] != 0
    if pattern[0] and kind in (P, CURV) or pattern[1] and kind in (P, CURV, L):
        return False
    return all(
        (vt != 0, vn != 0) == pattern
        and vertex_obeys(named, used, "v", v)
        and (vt == 0 or vertex_obeys(named, used, "vt", vt))
        and (vn == 0 or vertex_obeys(named, used, "vn", vn))
        for v, vt, vn in corners
    )


def vertex_obeys(named, used, table, k):
    width = WIDTHS[table]
    return (
        k >= 1
        and there(named, used, table, k - 1, 1)
        and record_obeys(table, named[table][width * (k - 1):width * k])
    )


def record_obeys(table, record):
    """A v, vt, vn or vp by itself; of a vp an absent v is 0 and an absent w one."""
    if not in_range(record):
        return False
    if table != "vp":
        return True
    given, _, v, w = record
    return 1 <= given <= 3 and (given >= 2 or v == 0) and (given == 3 or w == ONE)


def control_obeys(named, used, k):
    """A control of a curv2 has at least two coordinates given."""
    return vertex_obeys(named, used, "vp", k) and named["vp"][4 * (k - 1)] >= 2


# Bodies

def body_obeys(named, used, kind, count, body, curves):
    if body < 1 or not there(named, used, "bodies", body - 1, 1):
        return False
    if 4 * body > len(named["ranges"]):
        return False
    type_, rational, m, n, first, u_count, v_count, first_loop, loops = (
        named["bodies"][9 * (body - 1):9 * body]
    )
    limits = named["ranges"][4 * (body - 1):4 * body]
    surface = kind == SURF
    if type_ not in TYPES or rational not in (0, 1) or not in_range(limits):
        return False
    if not degree_obeys(type_, m) or not (degree_obeys(type_, n) if surface else n == 0):
        return False
    if u_count < 2 or (v_count < 2 if surface else v_count != 0):
        return False
    if not there(named, used, "parameters", first, u_count + v_count):
        return False
    middle = first + u_count
    runs = [named["parameters"][first:middle]]
    if surface:
        runs.append(named["parameters"][middle:middle + v_count])
    elif limits[2] != 0 or limits[3] != 0:
        return False
    return (
        all(in_range(run) for run in runs)
        and counts_agree(type_, (m, n), runs, count)
        and ranges_obey(kind, type_, (m, n), runs, limits)
        and loops_obey(named, used, surface, first_loop, loops, curves)
    )


def degree_obeys(type_, degree):
    if type_ == CARDINAL:
        return degree == CARDINAL_DEGREE
    return 1 <= degree <= MOST_DEGREE


def counts_agree(type_, degrees, runs, count):
    product = 1
    for degree, run in zip(degrees, runs):
        k = controls(type_, degree, len(run))
        if k is None:
            return False
        product *= k
    return product == count


def ranges_obey(kind, type_, degrees, runs, limits):
    for direction, (degree, run) in enumerate(zip(degrees, runs)):
        start, end = limits[2 * direction:2 * direction + 2]
        if not in_order(type_, run) or not continuous(type_, degree, run):
            return False
        low, high = widest(type_, degree, run)
        if not low <= start < end <= high:
            return False
        if kind == CURV2 and (start, end) != (low, high):
            return False
    return True


def loops_obey(named, used, surface, first, count, curves):
    """A surface's loop parts; a body without them has first loop part 0."""
    if count == 0:
        return first == 0
    if not surface or not there(named, used, "loops", first, count):
        return False
    if 2 * (first + count) > len(named["spans"]):
        return False
    parts = named["loops"][2 * first:2 * (first + count)]
    if parts[0] not in (TRIM, HOLE):
        return False
    return (
        all(begins in (0, TRIM, HOLE) for begins in parts[0::2])
        and all(1 <= curve <= curves for curve in parts[1::2])
        and in_range(named["spans"][2 * first:2 * (first + count)])
    )
