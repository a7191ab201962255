"""The eleven lent tables: their names, the width of a record, their order.

Every number of a table counts as one entry; a room is a table's length in
entries.  Used counts are in records, corners in numbers.
"""

from collections import Counter
from typing import NamedTuple

WIDTHS = {
    "v": 4,           # x y z w
    "vt": 3,          # u v w
    "vn": 3,          # i j k
    "vp": 4,          # how many were given, u v w
    "corners": 3,     # v vt vn, 0 for none; of a curv2 the vp number, 0, 0
    "elements": 9,    # kind, first corner, corner count, body number, smoothing,
                      # group place, group length, material place, material length
    "bodies": 9,      # type, rational, u degree, v degree, first parameter,
                      # u parameter count, v parameter count, first loop part, count
    "ranges": 4,      # u start, u end, v start, v end
    "parameters": 1,
    "loops": 2,       # 1 a trim begins, 2 a hole, 0 goes on; the curv2's number
    "spans": 2,       # the two numbers of the loop part
}
TABLES = tuple(WIDTHS)
SIGNED = ("v", "vt", "vn", "vp", "ranges", "parameters", "spans")

P, L, F, CURV, CURV2, SURF = 1, 2, 3, 4, 5, 6
KINDS = {P: "p", L: "l", F: "f", CURV: "curv", CURV2: "curv2", SURF: "surf"}

BEZIER, BSPLINE, CARDINAL, TAYLOR = 1, 2, 3, 4
TYPES = {BEZIER: "bezier", BSPLINE: "bspline", CARDINAL: "cardinal", TAYLOR: "taylor"}

TRIM, HOLE = 1, 2

ONE = 1_000_000
LARGEST = 2_000_000_000
TEXT_LIMIT = 16_777_216
CARDINAL_DEGREE = 3


class Used(NamedTuple):
    """Used counts: records, but corners in numbers."""

    v: int
    vt: int
    vn: int
    vp: int
    corners: int
    elements: int
    bodies: int
    parameters: int
    loops: int


class Read(NamedTuple):
    used: Used
    tables: list


class Refused(NamedTuple):
    number: int
    place: int


class Fault(Exception):
    """The first fault of a line, on its way out of the reader."""

    def __init__(self, number, place):
        super().__init__(number, place)
        self.refused = Refused(number, place)


def lengths(rooms):
    """The rooms by table name, from a dict or a list in the order of TABLES."""
    if isinstance(rooms, dict):
        return {name: rooms[name] for name in TABLES}
    rooms = list(rooms)
    if len(rooms) != len(TABLES):
        raise ValueError("eleven rooms are needed")
    return dict(zip(TABLES, rooms))


def zeros(rooms):
    """What a refusal leaves in the lent tables."""
    return [[0] * room for room in lengths(rooms).values()]


def controls(type_, degree, count):
    """Controls along one direction with `count` parameters; None where a
    bspline would have fewer than degree + 1."""
    if type_ == BEZIER:
        return degree * (count - 1) + 1
    if type_ == BSPLINE:
        k = count - degree - 1
        return k if k >= degree + 1 else None
    if type_ == CARDINAL:
        return count + 2
    return (degree + 1) * (count - 1)


def widest(type_, degree, parameters):
    """The widest range the parameters allow: first to last, or x_n to x_k."""
    if type_ == BSPLINE:
        return parameters[degree], parameters[len(parameters) - degree - 1]
    return parameters[0], parameters[-1]


def in_order(type_, parameters):
    """Parameters strictly increase; knots never decrease."""
    pairs = zip(parameters, parameters[1:])
    if type_ == BSPLINE:
        return all(a <= b for a, b in pairs)
    return all(a < b for a, b in pairs)


def continuous(type_, degree, parameters):
    """02, Q-5: a knot value strictly between x_n and x_k stands at most n times."""
    if type_ != BSPLINE:
        return True
    low, high = widest(type_, degree, parameters)
    times = Counter(value for value in parameters if low < value < high)
    return all(count <= degree for count in times.values())
