"""What is asked of the library about one text: reading and tidying it with awkward
lengths lent, then points, runs, corners and names of the tables that this leaves
and of tables broken on purpose, and a sweep of both.
"""

from kinds import buffer, needed, rooms
from stream import ELEMENTS, RANGES

from check import CASES, broken, changed, rows
from polyline import polyline as second_polyline
from reader import read
from records import CURV, CURV2, SIGNED, SURF, TABLES, Refused, Used
from sampler import RefusedPoint
from tidier import tidy

AMPLE = 1 << 24
INT32 = (-(1 << 31), (1 << 31) - 1)
UINT32 = (1 << 32) - 1


def parameter(rng, start, end):
    inside = rng.randint(start, end) if start <= end else start
    return rng.choice((start, end, *[inside] * 5, start - 1, end + 1, rng.choice((0, *INT32))))


def held(t):
    return max(INT32[0], min(INT32[1], t))


def polyline(rng, stream, element, axes):
    """A polyline in just its room, in one entry less, or from any place; a tolerance below the size of
    the curve takes second/ some thousand points, so those are rare."""
    tolerance = rng.choice((-1, INT32[0], INT32[1], 1_000_000_000, 100_000_000, *[10_000_000] * 3, 1_000_000))
    if rng.random() < 0.03:
        tolerance = rng.choice((0, 1, 1_000))
    whole = second_polyline(stream.used, stream.tables, element, tolerance, [0] * 12_296, 0)
    needs = 9 if isinstance(whole, RefusedPoint) else axes * whole.count
    at = rng.choice((0, 0, 1, 5))
    length = max(0, at + needs + rng.choice((-needs, -1, 0, 0, 0, 4)))
    place = rng.choice((at, at, at, at, length, (1 << 64) - 1, 1 << 62))
    stream.polyline(element, tolerance, length, place)


def ask(rng, stream, most):
    """Questions of the elements that the stream's tables have, and of none."""
    count = min(stream.used.elements, len(stream.tables[ELEMENTS]) // 9)
    there = rng.sample(range(1, count + 1), min(count, most))
    for element in (*there, rng.choice((0, count + 1, stream.used.elements, UINT32))):
        record = [0] * 9
        if 1 <= element <= count:
            record = stream.tables[ELEMENTS][9 * (element - 1):9 * element]
        kind, corners, body = record[0], record[2], record[3]
        limits = stream.tables[RANGES][4 * (body - 1):4 * body] if body else []
        start, end, v_start, v_end = limits if len(limits) == 4 else (0, 1_000_000, 0, 1_000_000)
        s, t = held(parameter(rng, start, end)), held(parameter(rng, v_start, v_end))
        if kind in (CURV, CURV2) or rng.random() < 0.3:
            stream.curve(element, s)
            stream.cubic(element, rng.choice((0, 0, 0, 1, 2, 7, UINT32 - 1, UINT32)), rng.choice((0, 64, *[rng.randint(0, 64)] * 5, 65, UINT32)))
            axes = 2 if kind == CURV2 else 3
            steps = rng.choice((0, 1, 2, 7, 30, 65_537, UINT32))
            needs = axes * (steps + 1) if steps < 65_536 else 9
            at = rng.choice((0, 0, 1, 5))
            length = max(0, at + needs + rng.choice((-needs, -1, 0, 0, 0, 4)))
            place = rng.choice((at, at, at, at, length, (1 << 64) - 1, 1 << 62))
            stream.run(element, steps, length, place)
            polyline(rng, stream, element, axes)
        if kind == SURF or rng.random() < 0.3:
            stream.surface(element, s, t)
        for k in {0, corners - 1, corners, rng.choice((1, UINT32, rng.randrange(1 << 32)))}:
            stream.corner(element, k & UINT32)
        stream.element(element)
        stream.body(rng.choice((body, body, element, stream.used.bodies, UINT32)))
        stream.curv2(rng.choice((0, 1, 2, element, UINT32)))
        stream.group(element)
        stream.material(element)


def listed(stream):
    """How many records of v, vt, vn and vp are used and lent: a count that passes its table is 15 whatever the list."""
    return sum(min(used, len(table)) for used, table in zip(stream.used[:4], stream.tables))


def swept(rng, stream):
    """A sweep with a list of just its room, of less or of more; then the swept tables are asked after, and swept again."""
    needs = listed(stream)
    stream.sweep(max(0, needs + rng.choice((-needs, -1, 0, 0, 0, 3))))
    ask(rng, stream, 2)
    stream.sweep(listed(stream))


def shaken(rng, used, tables):
    """Tables broken as second/ breaks them, then at times far beyond."""
    if any(map(any, tables)):
        used, tables = broken(rng, used, tables)
    used, tables = used._asdict(), [list(table) for table in tables]
    if rng.random() < 0.4:
        for _ in range(rng.randint(1, 4)):
            table = rng.choice(tables)
            if table:
                far = (UINT32, *INT32, -1, 0, 1, 3, 1 << 30, rng.randrange(1 << 32))
                table[rng.randrange(len(table))] = rng.choice(far)
    if rng.random() < 0.2:
        used[rng.choice(Used._fields)] = rng.choice((UINT32, 0, 1 << 31))
    if rng.random() < 0.2:
        table = rng.choice(tables)
        del table[rng.randint(0, len(table)):]
    if rng.random() < 0.1:
        rng.choice(tables).extend(rng.choices((0, 1, 2, 77), k=rng.randint(1, 9)))
    for name, table in zip(TABLES, tables):
        low = INT32[0] if name in SIGNED else 0
        table[:] = [(number - low) % (1 << 32) + low for number in table]
    return Used(**used), tables


def one(rng, stream, data):
    needs = needed(data)
    stream.in_rooms(data, needs)
    if isinstance(read(data, needs), Refused):
        stream.explain(needs)
    stream.read(data, rooms(rng, needs))
    if stream.used.elements:
        ask(rng, stream, 3)
    for weights in (rng.choice((0, 0, 2, 0xFFFF_FFFF)), 1):
        wide = tidy(data, needs, AMPLE, weights == 1)
        length = 0 if isinstance(wide, Refused) else len(wide.text)
        stream.tidy(data, rooms(rng, needs), buffer(rng, length), weights)
        stream.tidy(data, needs, length, weights)
    if isinstance(wide, Refused):
        return
    ask(rng, stream, 3)
    swept(rng, stream)
    for _ in range(2):
        stream.set(data, *shaken(rng, wide.used, wide.tables))
        ask(rng, stream, 4)
        swept(rng, stream)


def stored_calls(stream):
    """The calls of second/cases/points.txt, of tables changed as its lines say; `obeys` shows in what sampling refuses."""
    for name, call, changes, _, _ in rows(CASES / "points.txt"):
        data = (CASES / name).read_bytes()
        stream.label = f"{name} | {call} | {changes}"
        stream.set(data, *changed(read(data, dict.fromkeys(TABLES, 2_000)), changes))
        word, *given = call.split()
        element, *rest = map(int, given)
        if word == "run":
            steps, room, at = rest
            stream.run(element, steps, room, at)
        elif word == "polyline":
            stream.polyline(element, *rest)
        elif word == "corner":
            stream.corner(element, rest[0] - 1)
        elif word == "obeys":
            stream.curve(element, 0)
            stream.surface(element, 0, 0)
        else:
            getattr(stream, word)(element, *rest)
