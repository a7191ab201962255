"""Every statement: what may stand where, what is refused, what is stored.

Within a line the faults are looked for in the order 2, 3, 4, 10, 5, then word
by word (4 for a type, 6, 7, 8), then 9, 11, 12, 13, 14.
"""

from math import prod

from records import (
    BEZIER, BSPLINE, CARDINAL, CARDINAL_DEGREE, CURV, CURV2, F, HOLE, L, ONE, P,
    SURF, TABLES, TAYLOR, TRIM, WIDTHS,
    Fault, Read, Used, continuous, controls, in_order, widest,
)
from words import corner, degree, name, number, reference, smoothing

PASSED_OVER = frozenset(
    b"o mg mtllib usemap bevel c_interp d_interp lod shadow_obj trace_obj"
    b" ctech stech".split()
)
KNOWN_REFUSED = frozenset(
    b"call csh con scrv sp bmat step fo bsp bzp cdc cdp res".split()
)
TYPE_WORDS = {b"bezier": BEZIER, b"bspline": BSPLINE, b"cardinal": CARDINAL, b"taylor": TAYLOR}

# A pattern is (has vt, has vn).
PLAIN = frozenset({(False, False)})
LINE_PATTERNS = frozenset({(False, False), (True, False)})
ALL_PATTERNS = frozenset({(False, False), (True, False), (False, True), (True, True)})

NO_NAME = (0, 0)


class Body:
    """What a body between its element's line and `end` has said so far."""

    def __init__(self, kind, corner_count, type_, rational, degrees, given_range):
        self.kind = kind
        self.corner_count = corner_count
        self.type = type_
        self.rational = rational
        self.degrees = degrees              # u, v; v 0 on a curve
        self.range = given_range            # u start, u end, v start, v end
        self.parameters = {b"u": None, b"v": None}
        self.first_loop = 0
        self.loop_count = 0

    def directions(self):
        return (b"u", b"v") if self.kind == SURF else (b"u",)


class Reader:
    """The tables so far, what is in force, and the body that is open."""

    def __init__(self, rooms):
        self.rooms = rooms
        self.tables = {table: [] for table in TABLES}
        self.curv2_count = 0
        self.group = NO_NAME
        self.material = NO_NAME
        self.smoothing = 0
        self.type = None
        self.rational = 0
        self.degree_u = None
        self.degree_v = None
        self.body = None

    def count(self, table):
        return len(self.tables[table]) // WIDTHS[table]

    def ask_room(self, place, **entries):
        """14 exactly when the entries needed pass the lent length."""
        for table, needed in entries.items():
            if len(self.tables[table]) + needed > self.rooms[table]:
                raise Fault(14, place)

    # The line

    def line(self, words):
        place, keyword = words[0]
        rest = words[1:]
        row = STATEMENTS.get(keyword)
        if row is None and keyword not in PASSED_OVER:
            raise Fault(4 if keyword in KNOWN_REFUSED else 3, place)
        if not self.may_stand(keyword, rest):
            raise Fault(10, place)
        if row is None:
            return
        counted, statement = row
        if not counted(len(rest)):
            raise Fault(5, place)
        statement(self, place, rest)

    def may_stand(self, keyword, rest):
        if self.body is None:
            return keyword not in (b"parm", b"trim", b"hole", b"end")
        if keyword == b"end":
            return True
        on_surface = self.body.kind == SURF
        if keyword == b"parm":
            return on_surface or not (rest and rest[0][1] == b"v")
        return on_surface and keyword in (b"trim", b"hole")

    # Vertices

    def vertex(self, place, rest):
        values = [number(word) for word in rest]
        self.ask_room(place, v=4)
        self.tables["v"] += values + [ONE] * (4 - len(values))

    def texture_vertex(self, place, rest):
        values = [number(word) for word in rest]
        self.ask_room(place, vt=3)
        self.tables["vt"] += values + [0] * (3 - len(values))

    def normal(self, place, rest):
        values = [number(word) for word in rest]
        self.ask_room(place, vn=3)
        self.tables["vn"] += values

    def parameter_vertex(self, place, rest):
        values = [number(word) for word in rest]
        self.ask_room(place, vp=4)
        self.tables["vp"] += [len(values)] + values + [0, 0, ONE][len(values):]

    # Attributes in force

    def set_type(self, place, rest):
        if len(rest) == 2 and rest[0][1] != b"rat":
            raise Fault(6, rest[0][0])
        type_place, letters = rest[-1]
        if letters == b"bmatrix":
            raise Fault(4, type_place)
        if letters not in TYPE_WORDS:
            raise Fault(6, type_place)
        self.type = TYPE_WORDS[letters]
        self.rational = len(rest) - 1

    def set_degree(self, place, rest):
        values = [degree(word) for word in rest]
        self.degree_u = values[0]
        self.degree_v = values[1] if len(values) == 2 else None

    def set_group(self, place, rest):
        runs = [name(word) for word in rest]
        if runs:
            first, last = runs[0], runs[-1]
            self.group = (first[0], last[0] + last[1] - first[0])
        else:
            self.group = NO_NAME

    def set_smoothing(self, place, rest):
        self.smoothing = smoothing(rest[0])

    def set_material(self, place, rest):
        self.material = name(rest[0])

    # Elements

    def corners(self, rest, patterns):
        """The corners of a line; 9 only after every word's own faults."""
        counts = self.count("v"), self.count("vt"), self.count("vn")
        found = [corner(word, patterns, counts) for word in rest]
        first = found[0][1] != 0, found[0][2] != 0
        for word, (_, vt, vn) in zip(rest, found):
            if (vt != 0, vn != 0) != first:
                raise Fault(9, word[0])
        return found

    def add_element(self, kind, place, corners, body):
        entries = {"corners": 3 * len(corners), "elements": 9}
        if body is not None:
            entries.update(bodies=9, ranges=4)
        self.ask_room(place, **entries)
        self.tables["elements"] += [
            kind, len(self.tables["corners"]), len(corners),
            0 if body is None else self.count("bodies") + 1,
            self.smoothing, *self.group, *self.material,
        ]
        for numbers in corners:
            self.tables["corners"] += numbers
        self.body = body

    def point(self, place, rest):
        self.add_element(P, place, self.corners(rest, PLAIN), None)

    def polyline(self, place, rest):
        self.add_element(L, place, self.corners(rest, LINE_PATTERNS), None)

    def face(self, place, rest):
        self.add_element(F, place, self.corners(rest, ALL_PATTERNS), None)

    def open_body(self, kind, place, corner_count, given_range):
        """Type and degree in force at the element's line, or 11."""
        if self.type is None:
            raise Fault(11, place)
        if self.type == CARDINAL:
            u, v = CARDINAL_DEGREE, CARDINAL_DEGREE
        else:
            u, v = self.degree_u, self.degree_v
        if u is None or (kind == SURF and v is None):
            raise Fault(11, place)
        degrees = (u, v if kind == SURF else 0)
        return Body(kind, corner_count, self.type, self.rational, degrees, given_range)

    def curve(self, place, rest):
        start, end = number(rest[0]), number(rest[1])
        corners = self.corners(rest[2:], PLAIN)
        body = self.open_body(CURV, place, len(corners), [start, end, 0, 0])
        self.add_element(CURV, place, corners, body)

    def curve_2d(self, place, rest):
        count = self.count("vp")
        numbers = [reference(word, count) for word in rest]
        body = self.open_body(CURV2, place, len(numbers), None)
        for word, k in zip(rest, numbers):
            if self.tables["vp"][4 * (k - 1)] < 2:
                raise Fault(12, word[0])
        self.add_element(CURV2, place, [(k, 0, 0) for k in numbers], body)
        self.curv2_count += 1

    def surface(self, place, rest):
        given_range = [number(word) for word in rest[:4]]
        corners = self.corners(rest[4:], ALL_PATTERNS)
        body = self.open_body(SURF, place, len(corners), given_range)
        self.add_element(SURF, place, corners, body)

    # Bodies

    def parameter_values(self, place, rest):
        direction_place, direction = rest[0]
        if direction not in (b"u", b"v"):
            raise Fault(6, direction_place)
        self.body.parameters[direction] = [number(word) for word in rest[1:]]

    def trim(self, place, rest):
        self.loop(TRIM, place, rest)

    def hole(self, place, rest):
        self.loop(HOLE, place, rest)

    def loop(self, begins, place, rest):
        loops, spans = [], []
        for i in range(0, len(rest), 3):
            spans += [number(rest[i]), number(rest[i + 1])]
            loops += [begins if i == 0 else 0, reference(rest[i + 2], self.curv2_count)]
        self.ask_room(place, loops=len(loops), spans=len(spans))
        if self.body.loop_count == 0:
            self.body.first_loop = self.count("loops")
        self.body.loop_count += len(loops) // 2
        self.tables["loops"] += loops
        self.tables["spans"] += spans

    def end(self, place, rest):
        body = self.body
        runs = [body.parameters[direction] for direction in body.directions()]
        if None in runs:
            raise Fault(11, place)

        along = [controls(body.type, n, len(run)) for n, run in zip(body.degrees, runs)]
        if None in along or prod(along) != body.corner_count:
            raise Fault(12, place)

        if not all(in_order(body.type, run) for run in runs):
            raise Fault(13, place)
        if not all(continuous(body.type, n, run) for n, run in zip(body.degrees, runs)):
            raise Fault(13, place)
        limits = [widest(body.type, n, run) for n, run in zip(body.degrees, runs)]
        if body.range is None:
            body.range = [*limits[0], 0, 0]
        for (low, high), start, end in zip(limits, body.range[0::2], body.range[1::2]):
            if not low <= start < end <= high:
                raise Fault(13, place)

        self.ask_room(place, parameters=sum(len(run) for run in runs))
        self.tables["bodies"] += [
            body.type, body.rational, *body.degrees,
            len(self.tables["parameters"]), len(runs[0]),
            len(runs[1]) if len(runs) == 2 else 0,
            body.first_loop, body.loop_count,
        ]
        self.tables["ranges"] += body.range
        for run in runs:
            self.tables["parameters"] += run
        self.body = None

    # The answer

    def answer(self):
        used = Used(
            v=self.count("v"), vt=self.count("vt"), vn=self.count("vn"),
            vp=self.count("vp"), corners=len(self.tables["corners"]),
            elements=self.count("elements"), bodies=self.count("bodies"),
            parameters=self.count("parameters"), loops=self.count("loops"),
        )
        tables = [
            numbers + [0] * (self.rooms[table] - len(numbers))
            for table, numbers in self.tables.items()
        ]
        return Read(used, tables)


def between(least, most):
    return lambda count: least <= count <= most


def at_least(least):
    return lambda count: count >= least


def threes(count):
    return count > 0 and count % 3 == 0


# How many words may follow the keyword, and what the statement does.
STATEMENTS = {
    b"v": (between(3, 4), Reader.vertex),
    b"vt": (between(1, 3), Reader.texture_vertex),
    b"vn": (between(3, 3), Reader.normal),
    b"vp": (between(1, 3), Reader.parameter_vertex),
    b"cstype": (between(1, 2), Reader.set_type),
    b"deg": (between(1, 2), Reader.set_degree),
    b"p": (at_least(1), Reader.point),
    b"l": (at_least(2), Reader.polyline),
    b"f": (at_least(3), Reader.face),
    b"curv": (at_least(4), Reader.curve),
    b"curv2": (at_least(2), Reader.curve_2d),
    b"surf": (at_least(5), Reader.surface),
    b"parm": (at_least(3), Reader.parameter_values),
    b"trim": (threes, Reader.trim),
    b"hole": (threes, Reader.hole),
    b"end": (between(0, 0), Reader.end),
    b"g": (at_least(0), Reader.set_group),
    b"s": (between(1, 1), Reader.set_smoothing),
    b"usemtl": (between(1, 1), Reader.set_material),
}
