"""Seeded valid texts that use every statement, and how many entries of each
table they need.

    text(rng) -> Text(lines, needs)          lines are lists of words
"""

from typing import NamedTuple

from records import BSPLINE, TABLES, continuous
from spelling import coordinate, letters

VERTICES = {"v": (3, 4, 4), "vt": (1, 3, 3), "vn": (3, 3, 3), "vp": (1, 3, 4)}
TYPE_NAMES = (b"bezier", b"bspline", b"cardinal", b"taylor")
PASSED = (
    b"o part", b"mg 1 .5", b"mtllib a.mtl b.mtl", b"usemap wood", b"bevel on", b"c_interp off",
    b"d_interp on", b"lod 100", b"shadow_obj x.obj", b"trace_obj y.obj", b"ctech cparm 1.0",
    b"stech cparma 1 1", b"o", b"usemap off 1 2 3", b"lod 1/2//#",
)
NAMES = (b"top", b"left", b"a/b", b"x#1", b"default", b"!~", b"1", b"off", b"g", b"n" * 255)


class Text(NamedTuple):
    lines: list
    needs: dict


def increasing(rng, count):
    """Strictly increasing values; now and then only a millionth apart."""
    values = set()
    spread = rng.choice((count + 2, 1_000_000, 40_000_000, 2_000_000_000))
    while len(values) < count:
        values.add(rng.randint(-spread, spread))
    if rng.random() < 0.5:
        return [i * 1_000_000 for i in range(count)]
    return sorted(values)


def knots(rng, degree, count):
    """Values that never decrease, x_n below x_k, inner ones at most n times."""
    k = count - degree - 1
    style = rng.random()
    if style < 0.3:
        inner = increasing(rng, count - 2 * degree)
        return [inner[0]] * degree + inner + [inner[-1]] * degree
    if style < 0.6:
        return increasing(rng, count)
    distinct = increasing(rng, rng.randint(2, 4))
    while True:
        found = sorted(rng.choice(distinct) for _ in range(count))
        if found[degree] < found[k] and continuous(BSPLINE, degree, found):
            return found
        if rng.random() < 0.1:
            return increasing(rng, count)


class Maker:
    def __init__(self, rng):
        self.rng = rng
        self.lines = []
        self.needs = dict.fromkeys(TABLES, 0)
        self.count = {"v": 0, "vt": 0, "vn": 0, "vp": 0, "curv2": 0}
        self.plane = []                     # vp numbers with two coordinates or three
        self.in_force = (None, None, None, None)

    def line(self, *words):
        self.lines.append([w if isinstance(w, bytes) else str(w).encode() for w in words])

    def need(self, **entries):
        for table, more in entries.items():
            self.needs[table] += more

    def numbers(self, count):
        return [letters(self.rng, coordinate(self.rng)) for _ in range(count)]

    def reference(self, kind, k=None):
        count = self.count[kind]
        if k is None:
            k = self.rng.randint(1, count)
        if self.rng.random() < 0.3:
            return str(k - count - 1).encode()
        style = self.rng.random()
        return (str(k).zfill(10) if style < 0.02 else str(k)).encode()

    # Vertices and attributes

    def vertex(self, kind=None):
        kind = kind or self.rng.choice(("v", "v", "v", "vt", "vn", "vp"))
        least, most, width = VERTICES[kind]
        given = self.rng.randint(least, most)
        if kind == "vp" and not self.plane:
            given = max(given, 2)
        self.line(kind, *self.numbers(given))
        self.need(**{kind: width})
        self.count[kind] += 1
        if kind == "vp" and given >= 2:
            self.plane.append(self.count["vp"])

    def attribute(self):
        rng = self.rng
        style = rng.randrange(4)
        if style == 0:
            self.line("g", *(rng.choice(NAMES[:9]) for _ in range(rng.choice((0, 1, 1, 2, 4)))))
        elif style == 1:
            self.line("s", rng.choice((b"off", b"0", b"1", b"65535", b"00007", b"12")))
        elif style == 2:
            self.line("usemtl", rng.choice(NAMES))
        else:
            self.line(*rng.choice(PASSED).split())

    # Elements

    def corners(self, count, patterns):
        usable = [
            (t, n) for t, n in patterns
            if (not t or self.count["vt"]) and (not n or self.count["vn"])
        ]
        has_vt, has_vn = self.rng.choice(usable)
        found = []
        for _ in range(count):
            word = self.reference("v")
            if has_vt:
                word += b"/" + self.reference("vt")
            if has_vn:
                word += (b"/" if has_vt else b"//") + self.reference("vn")
            found.append(word)
        self.need(corners=3 * count, elements=9)
        return found

    def flat(self):
        if not self.count["v"]:
            return
        kind = self.rng.choice("plff")
        least = {"p": 1, "l": 2, "f": 3}[kind]
        patterns = {
            "p": [(0, 0)], "l": [(0, 0), (1, 0)],
            "f": [(0, 0), (1, 0), (0, 1), (1, 1)],
        }[kind]
        count = least + self.rng.choice((0, 0, 1, 1, 3, 9))
        self.line(kind, *self.corners(count, patterns))

    def attributes_in_force(self, type_, rational, degrees):
        """cstype and deg lines, left out at times where nothing changed."""
        rng = self.rng
        has_type, has_rational, has_u, has_v = self.in_force
        if (has_type, has_rational) != (type_, rational) or rng.random() < 0.2:
            self.line("cstype", *([b"rat"] if rational else []), type_)
        u, v = degrees
        if type_ == b"cardinal":
            if rng.random() < 0.7:
                self.in_force = (type_, rational, has_u, has_v)
                return
            u, v = rng.randint(1, 20), rng.choice((None, rng.randint(1, 20)))
        elif has_u == u and (v is None or has_v == v) and rng.random() < 0.7:
            self.in_force = (type_, rational, has_u, has_v)
            return
        if v is None and rng.random() < 0.2:
            v = rng.randint(1, 20)
        spelling = [str(d).zfill(rng.choice((1, 1, 1, 3))) for d in (u, v) if d is not None]
        self.line("deg", *spelling)
        self.in_force = (type_, rational, u, v)

    def direction(self, type_, degree, largest):
        """Parameters along one direction, their controls, and the widest range."""
        rng = self.rng
        if type_ == b"bspline":
            k = degree + 1 + rng.choice((0, 0, 1, 2, 5))
            if k > largest:
                k = degree + 1
            values = knots(rng, degree, k + degree + 1)
            return values, k, values[degree], values[k]
        count = rng.choice((2, 2, 3, 5))
        k = {b"bezier": degree * (count - 1) + 1, b"cardinal": count + 2,
             b"taylor": (degree + 1) * (count - 1)}[type_]
        if k > largest:
            count = 2
            k = {b"bezier": degree + 1, b"cardinal": 4, b"taylor": degree + 1}[type_]
        values = increasing(rng, count)
        return values, k, values[0], values[-1]

    def limits(self, low, high):
        rng = self.rng
        if rng.random() < 0.5:
            return low, high
        start = rng.randint(low, high - 1)
        return start, rng.randint(start + 1, high)

    def degree(self, most):
        if most == 20:
            return self.rng.choice((most, self.rng.randint(1, most)))
        return self.rng.choice((1, 1, 2, 2, 3, 3, 3, 4, 5))

    def parm(self, direction, values):
        rng = self.rng
        if rng.random() < 0.1:              # replaced by the later one
            self.line("parm", direction, *self.numbers(rng.randint(2, 6)))
        self.line("parm", direction, *(letters(rng, value) for value in values))
        self.need(parameters=len(values))

    def loops(self):
        rng = self.rng
        if not self.count["curv2"]:
            return
        for _ in range(rng.choice((0, 1, 1, 2, 3))):
            parts = rng.choice((1, 1, 2, 3))
            words = []
            for _ in range(parts):
                words += self.numbers(2) + [self.reference("curv2")]
            self.line(rng.choice((b"trim", b"hole")), *words)
            self.need(loops=2 * parts, spans=2 * parts)

    def free_form(self, kind=None):
        rng = self.rng
        kind = kind or rng.choice(("curv", "curv", "curv2", "curv2", "surf"))
        if not self.count["v"] and kind != "curv2" or not self.plane and kind == "curv2":
            return
        type_ = rng.choice(TYPE_NAMES + TYPE_NAMES[:2])
        rational = rng.random() < 0.25
        most = 20 if rng.random() < 0.2 else 4
        cardinal = type_ == b"cardinal"
        u = 3 if cardinal else self.degree(most)
        v = (3 if cardinal else self.degree(most)) if kind == "surf" else None
        self.attributes_in_force(type_, rational, (u, v))
        if rng.random() < 0.1:
            self.attribute()
        largest = 12 if kind == "surf" else 61
        u_values, u_controls, *u_limits = self.direction(type_, u, largest)
        self.need(bodies=9, ranges=4)
        if kind == "surf":
            v_values, v_controls, *v_limits = self.direction(type_, v, largest)
            given = [*self.limits(*u_limits), *self.limits(*v_limits)]
            corners = self.corners(u_controls * v_controls, [(0, 0), (1, 0), (0, 1), (1, 1)])
        elif kind == "curv":
            given = self.limits(*u_limits)
            corners = self.corners(u_controls, [(0, 0)])
        else:
            given = []
            corners = [self.reference("vp", rng.choice(self.plane)) for _ in range(u_controls)]
            self.need(corners=3 * u_controls, elements=9)
        self.line(kind, *(letters(rng, value) for value in given), *corners)
        if kind == "curv2":
            self.count["curv2"] += 1
        statements = [lambda: self.parm(b"u", u_values)]
        if kind == "surf":
            statements += [lambda: self.parm(b"v", v_values), self.loops]
        rng.shuffle(statements)
        for statement in statements:
            statement()
        self.line("end")


def mixed(rng, maker):
    for _ in range(rng.choice((0, 3, 6, 10))):
        maker.vertex()
    makers = (maker.vertex, maker.vertex, maker.attribute, maker.flat, maker.flat, maker.free_form)
    for _ in range(rng.choice((1, 4, 8, 12))):
        rng.choice(makers)()


def trimmed(rng, maker):
    """Trimming curves first, then surfaces that can name them."""
    for kind in ("vp", "v", "vp", "v", "vt", "vn"):
        maker.vertex(kind)
    for _ in range(rng.randint(1, 3)):
        maker.free_form("curv2")
    for _ in range(rng.randint(1, 2)):
        maker.free_form("surf")
        rng.choice((maker.attribute, maker.vertex, maker.flat))()


def text(rng):
    maker = Maker(rng)
    rng.choice((mixed, mixed, mixed, mixed, trimmed))(rng, maker)
    return Text(maker.lines, maker.needs)
