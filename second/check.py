"""Runs the cases and a short seeded self-check.  Exit code 1 on a failure."""

import random
import sys
from fractions import Fraction
from pathlib import Path

from damage import cases
from exact import exact_in_segment, exact_on_curve, exact_on_surface, within
from packed import ROOMS, files, sampled_cases
from outline import inside
from polyline import DEPTH, is_straight, middle_of, polyline, polyline_parameters
from reader import corner_of, group_of, material_of, read
from records import BEZIER, CURV, CURV2, SURF, TABLES, TEXT_LIMIT, WIDTHS, Read, Refused, Used
from rules import body_of, element_record, obeys
from sampler import (
    CUBIC_TABLE, RefusedPoint, cubic_at, point_on_curve, point_on_surface, run_on_curve, run_parameters,
)
from spelling import spelled
from sweep import VERTICES, RefusedSweep, sweep, used_entries, whole
from texts import text
from tidier import PROGRAM_ROOM, TooLong, Written, agreement, printed, tidy, tidy_text
from witness import witnessed, wholly_witnessed

CASES = Path(__file__).resolve().parent / "cases"
EXAMPLES = Path(__file__).resolve().parent.parent / "examples"
SELF_CHECKS = 2_000


class Tally:
    def __init__(self):
        self.passed = 0
        self.failed = 0

    def hold(self, label, found, wanted):
        if found == wanted:
            self.passed += 1
        else:
            self.failed += 1
            print(f"FAILED {label}\n  wanted {wanted}\n  found  {found}")


def rows(path):
    for line in path.read_text(encoding="ascii").splitlines():
        if line and not line.startswith("#"):
            yield [part.strip() for part in line.split(" | ")]


def rooms_of(column):
    rooms = dict.fromkeys(TABLES, PROGRAM_ROOM)
    if column != "-":
        for part in column.split(","):
            table, room = part.split()
            rooms[table] = int(room)
    return rooms


def shown(answer):
    if isinstance(answer, Refused):
        return f"refused {answer.number} at {answer.place}"
    counts = [f"{name} {count}" for name, count in answer.used._asdict().items() if count]
    return " ".join(["read", *counts])


def check_cases(tally):
    listed = set()
    for name, rooms, wanted, tables, _ in rows(CASES / "expected.txt"):
        listed.add(name)
        lent = rooms_of(rooms)
        answer = read((CASES / name).read_bytes(), lent)
        tally.hold(name, shown(answer), wanted)
        if tables != "-" and isinstance(answer, Read):
            by_name = dict(zip(TABLES, answer.tables))
            for part in tables.split(";"):
                table, *numbers = part.split()
                numbers = [int(number) for number in numbers]
                filled = numbers + [0] * (lent[table] - len(numbers))
                tally.hold(f"{name} {table}", by_name[table] == filled, True)
    stored = {str(path.relative_to(CASES)) for path in CASES.rglob("*.obj")}
    points = {row[0] for name in ("points.txt", "sweep.txt") for row in rows(CASES / name)}
    tidied = {name for name in stored if name.startswith("tidy/")}
    tally.hold("files without a row", sorted(stored - listed - points - tidied), [])


def check_packed(tally):
    """What the proved programs are run on, and what they must write."""
    for path, data in files(rows):
        tally.hold(f"{path.parent.name}/{path.name}", path.read_bytes() == data, True)


def check_sampled(tally):
    """What the sampling program must write lies within its bound of the exact value."""
    for label, data, _, first, s, t, _ in sampled_cases():
        answer = read(data, ROOMS)
        for element in range(max(first, 1), min(first + 2, answer.used.elements) + 1):
            kind = element_record(answer.tables, element)[0]
            if kind not in (CURV, CURV2, SURF):
                continue
            if kind == SURF:
                point = point_on_surface(answer.used, answer.tables, element, s, t)
            else:
                point = point_on_curve(answer.used, answer.tables, element, s)
            if isinstance(point, RefusedPoint):
                continue
            degrees = body_of(answer.tables, element).degrees
            if kind == SURF:
                near = within(point, exact_on_surface(answer.tables, element, s, t), sum(degrees))
            else:
                near = within(point, exact_on_curve(answer.tables, element, s), degrees[0])
            tally.hold(f"exact value of {label}", near, True)


def check_size(tally):
    """Refusal 1 needs a text too large to store."""
    rooms = [0] * 11
    tally.hold("16,777,216 bytes", shown(read(b"#" * 16_777_216, rooms)), "read")
    tally.hold("one byte more", shown(read(b"#" * 16_777_217, rooms)), "refused 1 at 0")
    tally.hold("1 before 2", shown(read(b"\x01" * 16_777_217, rooms)), "refused 1 at 0")


VERTEX = b"v 0 0 0\n"
TIDY_VERTEX = b"v 0.000000 0.000000 0.000000\n"
NAMES = b"v 0 0 0\ng " + b" ".join([b"n" * 255] * 255)
# what the program prints at its own limits
PROGRAM_TEXTS = (
    ("nothing", b"", b""),
    ("a refusal", b"v 0 0 0\nf 1 1 2\n", b"refused 8 at 14\n"),
    ("65,536 bytes", VERTEX + b"#" * (65_536 - len(VERTEX)), TIDY_VERTEX),
    ("65,537 bytes", VERTEX + b"#" * (65_537 - len(VERTEX)), b"refused 1 at 0\n"),
    ("65,537 bad bytes", b"\x01" * 65_537, b"refused 1 at 0\n"),
    ("4,097 vertices", VERTEX * 4_097, b"refused 14 at 32768\n"),
    ("a text of 64 KiB", VERTEX * 2_259, TIDY_VERTEX * 2_259),
    ("a text too long", VERTEX * 2_260, b"refused 16 at 0\n"),
    ("a long group", NAMES + b"\np 1\n", TIDY_VERTEX + NAMES[8:] + b"\np 1\n"),
)


def check_program(tally):
    for label, data, wanted in PROGRAM_TEXTS:
        tally.hold(f"the program on {label}", printed(data), wanted)


# Points, on tables as read or changed on purpose

def changed(answer, column):
    """`v[3] 7` sets an entry, `used v 7` a count, `lent v 7` a length."""
    used, tables = answer.used._asdict(), dict(zip(TABLES, answer.tables))
    if column == "-":
        return answer.used, answer.tables
    for part in column.split(","):
        words = part.split()
        if words[0] == "used":
            used[words[1]] = int(words[2])
        elif words[0] == "lent":
            tables[words[1]] = tables[words[1]][:int(words[2])]
        else:
            table, index = words[0].rstrip("]").split("[")
            tables[table] = list(tables[table])
            tables[table][int(index)] = int(words[1])
    return Used(**used), list(tables.values())


def called(data, used, tables, call):
    name, *numbers = call.split()
    numbers = [int(number) for number in numbers]
    elements, corners = tables[TABLES.index("elements")], tables[TABLES.index("corners")]
    if name in ("group", "material"):
        ask = group_of if name == "group" else material_of
        part = ask(data, elements, used.elements, *numbers).decode("ascii")
        return part.replace("\\", "\\\\").replace("\n", "\\n")
    if name == "corner":
        found = corner_of(corners, elements, used.corners, used.elements, *numbers)
        return " ".join(map(str, found))
    if name == "obeys":
        return str(obeys(used, tables, *numbers)).lower()
    if name == "run":
        element, steps, room, at = numbers
        before = list(range(-1, -room - 1, -1))
        answer = run_on_curve(used, tables, element, steps, list(before), at)
        if isinstance(answer, RefusedPoint):
            return f"refused {answer.number}"
        return " ".join(map(str, ["filled", answer.numbers, *answer.points]))
    if name == "polyline":
        element, tolerance, room, at = numbers
        before = list(range(-1, -room - 1, -1))
        answer = polyline(used, tables, element, tolerance, list(before), at)
        if isinstance(answer, RefusedPoint):
            return f"refused {answer.number}"
        return " ".join(map(str, ["filled", answer.count, *answer.points]))
    if name == "sweep":
        answer = sweep(used, tables, list(range(901, 901 + numbers[0])))
        if isinstance(answer, RefusedSweep):
            return f"refused {answer.number}"
        return "; ".join(swept_words(used, tables, answer))
    ask = {"curve": point_on_curve, "surface": point_on_surface, "cubic": cubic_at}[name]
    answer = ask(used, tables, *numbers)
    if isinstance(answer, RefusedPoint):
        return f"refused {answer.number}"
    return " ".join(map(str, answer))


def swept_words(used, tables, answer):
    """What was dropped, the list, and each table whose used entries changed."""
    parts = [("dropped", *answer.dropped), ("numbers", *answer.numbers)]
    for table, before, after in zip(TABLES, tables, answer.tables):
        past = used_entries(answer.used, table)
        if after[past:] != [0] * (len(before) - past):
            parts.append(("the rest of", table))
        if after[:past] != before[:used_entries(used, table)]:
            parts.append((table, *after[:past]))
    return [" ".join(map(str, part)) for part in parts]


def check_calls(tally, cases):
    for name, call, changes, wanted, _ in rows(CASES / cases):
        rooms = dict.fromkeys(TABLES, 2_000)
        data = (CASES / name).read_bytes()
        used, tables = changed(read(data, rooms), changes)
        tally.hold(f"{name} {call} {changes}", called(data, used, tables, call), wanted)


def check_points(tally):
    check_calls(tally, "points.txt")


def check_sweeps(tally):
    check_calls(tally, "sweep.txt")


def check_depth(tally):
    """Where nothing is straight the depth of 12 ends it: 4,096 chords."""
    answer = read((CASES / "points/parabola.obj").read_bytes(), dict.fromkeys(TABLES, 2_000))
    line = polyline(answer.used, answer.tables, 1, 0, [7] * 12_291, 0)
    tally.hold("points where the depth is used up", line.count, 4_097)
    ends = [-2_000_000_000, 0, 0], [2_000_000_000, 0, 0]
    tally.hold("their first and last", (line.points[:3], line.points[-3:]), ends)
    parameters = polyline_parameters(lambda t: [t * t], 0, -8_191, 8_193)
    tally.hold("parameters 12 deep", parameters, list(range(-8_191, 8_194, 4)))


# The seeded self-check

def check_bounds(rng, used, tables):
    """Every point sampled is within half a millionth a degree of the exact value."""
    for element in range(1, used.elements + 1):
        if not obeys(used, tables, element):
            return f"element {element} breaks a rule"
        kind = element_record(tables, element)[0]
        if kind not in (CURV, CURV2, SURF):
            continue
        body = body_of(tables, element)
        u_start, u_end, v_start, v_end = body.range
        known = [u_start, u_end, *(x for x in body.u_parameters if u_start <= x <= u_end)]
        u = rng.choice([rng.randint(u_start, u_end), rng.choice(known)])
        if kind == SURF:
            v = rng.choice([v_start, v_end, rng.randint(v_start, v_end)])
            point, degree = point_on_surface(used, tables, element, u, v), sum(body.degrees)
        else:
            point, degree = point_on_curve(used, tables, element, u), body.degrees[0]
        if body.rational or body.type > 2:
            if point != RefusedPoint(18):
                return f"element {element}: 18 wanted"
            continue
        if kind == SURF:
            value = exact_on_surface(tables, element, u, v)
        else:
            value = exact_on_curve(tables, element, u)
        if not within(point, value, degree):
            return f"element {element}: {point} is not within {degree}/2 of {value}"
        if not inside(tables, element, (u, v) if kind == SURF else (u,), point):
            return f"element {element}: {point} leaves the outline of its controls"
        if kind != SURF and not run_agrees(rng, used, tables, element, body):
            return f"element {element}: a run differs from its points"
        if kind != SURF and not polyline_holds(rng, used, tables, element, body):
            return f"element {element}: a polyline breaks a rule"
        cubic = kind != SURF and body.type == BEZIER and body.degrees[0] == 3
        if cubic and not cubics_agree(used, tables, element, body):
            return f"element {element}: a step of a cubic is wrong"
        if not cubic and cubic_at(used, tables, element, 0, 0) != RefusedPoint(17 if kind == SURF else 18):
            return f"element {element}: a step of no cubic"
    return None


def cubics_agree(used, tables, element, body):
    """Every step of a cubic: 19 exactly outside the range; within half a millionth of the exact value; at
    a whole millionth that value is the other path's, and the other path's point at most two millionths off."""
    start, end = body.range[:2]
    for segment, (first, last) in enumerate(zip(body.u_parameters, body.u_parameters[1:])):
        for j in range(65):
            t = first + Fraction(j * (last - first), 64)
            point = cubic_at(used, tables, element, segment, j)
            if not start <= t <= end:
                if point != RefusedPoint(19):
                    return False
                continue
            value = exact_in_segment(tables, element, segment, Fraction(j, 64))
            if isinstance(point, RefusedPoint) or not within(point, value, 1):
                return False
            if t.denominator == 1:
                other = point_on_curve(used, tables, element, int(t))
                if value != exact_on_curve(tables, element, int(t)) or max(map(abs, (a - b for a, b in zip(point, other)))) > 2:
                    return False
    past = len(body.u_parameters) - 1
    return all(cubic_at(used, tables, element, *asked) == RefusedPoint(19) for asked in ((0, 65), (past, 0)))


def check_table(tally):
    """Each row of the 65 sums to 262,144."""
    tally.hold("rows of cubics", [sum(row) for row in CUBIC_TABLE], [262_144] * 65)


def run_agrees(rng, used, tables, element, body):
    steps, at, past = rng.randint(1, 5), rng.randint(0, 3), rng.randint(0, 3)
    points = []
    for t in run_parameters(*body.range[:2], steps):
        points += point_on_curve(used, tables, element, t)
    table = [7] * (at + len(points) + past)
    run = run_on_curve(used, tables, element, steps, table, at)
    short = run_on_curve(used, tables, element, steps, table[:at + len(points) - 1], at)
    return run == (len(points), [7] * at + points + [7] * past) and short == RefusedPoint(16)


def polyline_holds(rng, used, tables, element, body):
    """Its parameters rise from start to end, every chord has its reason, its points
    are those sampled alone, and they fill just their room."""
    tolerance, at = rng.choice((100_000_000, 1_000_000, 50_000)), rng.randint(0, 3)
    start, end = body.range[:2]

    def point(t):
        return list(point_on_curve(used, tables, element, t))

    parameters = polyline_parameters(point, tolerance, start, end)
    if (parameters[0], parameters[-1]) != (start, end):
        return False
    for a, b in zip(parameters, parameters[1:]):
        deep = halvings(start, end, a, b)
        straight = is_straight(tolerance, point(a), point(middle_of(a, b)), point(b))
        if not (a < b and (straight or b - a <= 1 or deep == DEPTH)):
            return False
    points = [number for t in parameters for number in point(t)]
    table = [7] * (at + len(points))
    line = polyline(used, tables, element, tolerance, table, at)
    short = polyline(used, tables, element, tolerance, table[1:], at)
    wanted = (len(parameters), [7] * at + points)
    return line == wanted and short == RefusedPoint(16)


def halvings(start, end, a, b):
    """How often start..end was halved to come to a..b."""
    depth = 0
    while (start, end) != (a, b) and depth <= DEPTH:
        middle = middle_of(start, end)
        start, end = (start, middle) if b <= middle else (middle, end)
        depth += 1
    return depth


def check_one(rng, data, rooms):
    """None, or what is wrong with the reader's answer to this text."""
    answer = read(data, rooms)
    if isinstance(answer, Refused):
        if not 2 <= answer.number <= 14 or not 0 <= answer.place <= len(data):
            return f"odd refusal {answer}"
        if any(tidy(data, rooms, TEXT_LIMIT, every_w) != answer for every_w in (False, True)):
            return "tidying refuses otherwise"
        return None
    used, tables = answer
    if [len(numbers) for numbers in tables] != list(rooms):
        return "a table's length changed"
    for every_w in (False, True):
        wrong = check_form(data, rooms, answer, every_w)
        if wrong:
            return wrong
    return check_bounds(rng, used, tables) or check_swept(used, tables)


def check_form(data, rooms, answer, every_w):
    """None, or what is wrong with the tidy text in one of its two forms."""
    used, tables = answer
    text = tidy(data, rooms, TEXT_LIMIT, every_w).text
    again = read(text, rooms)
    if isinstance(again, Refused):
        return f"the tidy text is refused: {again}"
    if agreement(data, used, tables) != agreement(text, *again):
        return "the tidy text reads to other tables"
    if any(tidy_text(text, *again, form) != tidy_text(data, used, tables, form) for form in (False, True)):
        return "the tidy text of the tidy text differs"
    if not isinstance(tidy(data, rooms, len(text), every_w), Written):
        return "a text that just fits is not written"
    if text and tidy(data, rooms, len(text) - 1, every_w) != TooLong(len(text), used, tables):
        return "a text that does not fit is written"
    return None


# The sweep, held against what its request says of it

def check_swept(used, tables):
    """None, or what is wrong with the sweep of tables as read."""
    before, counts = [list(numbers) for numbers in tables], used[:4]
    needed = sum(counts)
    if needed and sweep(used, tables, [7] * (needed - 1)) != RefusedSweep(16):
        return "a list too short is no 16"
    swept = sweep(used, tables, [7] * (needed + 2))
    if isinstance(swept, RefusedSweep):
        return f"the sweep of tables as read is {swept.number}"
    if tables != before:
        return "the sweep changes what it was handed"
    if swept.numbers[needed:] != [7, 7]:
        return "the list's rest changed"
    new = [swept.numbers[sum(counts[:i]):sum(counts[:i + 1])] for i in range(4)]
    return (
        wrong_in_counts(used, tables, swept, new)
        or wrong_in_records(used, tables, swept, new)
        or wrong_in_elements(used, tables, swept)
        or wrong_in_second_sweep(swept)
    )


def shown_corners(used, tables):
    """Every element's kind and its corners."""
    elements, corners = tables[TABLES.index("elements")], tables[TABLES.index("corners")]
    for element in range(1, used.elements + 1):
        kind, _, count = element_record(tables, element)[:3]
        yield kind, [corner_of(corners, elements, used.corners, used.elements, element, k + 1) for k in range(count)]


def references(used, tables):
    """What the corners name: the place of its table among the eleven, and its number."""
    for kind, corners in shown_corners(used, tables):
        for corner in corners:
            for table, k in zip(("vp" if kind == CURV2 else "v", "vt", "vn"), corner):
                if k:
                    yield TABLES.index(table), k


def wrong_in_counts(used, tables, swept, new):
    """Dropped is counted from the references alone; the kept ones count on from 1."""
    named = set(references(used, tables))
    for i, table in enumerate(VERTICES):
        kept = sum(place == i for place, _ in named)
        if (swept.used[i], swept.dropped[i]) != (kept, used[i] - kept):
            return f"{table}: kept or dropped is wrong"
        if [k for k in new[i] if k] != list(range(1, kept + 1)):
            return f"{table}: order is not kept"
        if {k for k, number in enumerate(new[i], 1) if number} != {k for place, k in named if place == i}:
            return f"{table}: not those are kept that a corner names"
    return None if swept.used[4:] == used[4:] else "another used count changed"


def wrong_in_records(used, tables, swept, new):
    """Each kept record stands at its new number, and zeros after the last."""
    for i, table in enumerate(VERTICES):
        width, wanted = WIDTHS[table], [0] * len(tables[i])
        for k, number in enumerate(new[i]):
            if number:
                wanted[width * (number - 1):width * number] = tables[i][width * k:width * (k + 1)]
        if swept.tables[i] != wanted:
            return f"{table}: other records"
    return None if swept.tables[5:] == tables[5:] else "a table without references changed"


def wrong_in_elements(used, tables, swept):
    """Every corner shows the same record, every curve and surface the same points."""
    after = swept.used, swept.tables
    if coordinates(used, tables) != coordinates(*after):
        return "a corner shows another record"
    for element in range(1, used.elements + 1):
        kind = element_record(tables, element)[0]
        if kind in (CURV, CURV2):
            if run_on_curve(used, tables, element, 2, [7] * 9, 0) != run_on_curve(*after, element, 2, [7] * 9, 0):
                return f"element {element}: another run"
        elif kind == SURF:
            start = body_of(tables, element).range[0::2]
            if point_on_surface(used, tables, element, *start) != point_on_surface(*after, element, *start):
                return f"element {element}: another point"
    return None


def coordinates(used, tables):
    """Kind and corner pattern of each element, and the records that its corners name, in order."""
    patterns = [(kind, [[k != 0 for k in corner] for corner in corners]) for kind, corners in shown_corners(used, tables)]
    records = []
    for i, k in references(used, tables):
        width = WIDTHS[TABLES[i]]
        records.append(tables[i][width * (k - 1):width * k])
    return patterns, records


def wrong_in_second_sweep(swept):
    kept = swept.used[:4]
    again = sweep(swept.used, swept.tables, [7] * sum(kept))
    numbers = [k for count in kept for k in range(1, count + 1)]
    same = swept._replace(dropped=(0, 0, 0, 0), numbers=numbers)
    return None if again == same else "a second sweep changes something"


def relaid(rng, used, tables):
    """Tables whose elements may each obey the rules, though reading never lays them so."""
    counts, named = used._asdict(), {table: list(numbers) for table, numbers in zip(TABLES, tables)}
    style = rng.randrange(9)
    if style < 3:
        with_gap(rng, counts, named, *GAPS[style])
    elif style == 3:
        exchange(rng, named["elements"], counts["elements"], range(9))
    elif style == 4:
        exchange(rng, named["bodies"], counts["bodies"], range(9))
    elif style == 5:
        exchange(rng, named["elements"], counts["elements"], [rng.choice((1, 3))])
    elif style == 6:
        exchange(rng, named["bodies"], counts["bodies"], [rng.choice((4, 7))])
    elif style == 7:
        renumber_bodies(rng, counts, named)
    else:
        for numbers in named.values():      # after the used ones, so no fault
            numbers += [rng.randint(1, 9)] * 9
    return Used(**counts), list(named.values())


# A table of runs, where its first fields stand, and what fills a gap in it.
GAPS = (
    ("corners", "elements", 1, [1, 0, 0]),
    ("parameters", "bodies", 4, [0]),
    ("loops", "bodies", 7, [1, 1]),
)


def with_gap(rng, counts, named, table, holder, field, filler):
    """One record more before some run or after the last; runs from there on move."""
    firsts = range(field, 9 * counts[holder], 9)
    place = rng.choice([named[holder][at] for at in firsts] + [counts[table]])
    step = 3 if table == "corners" else 1
    for at in firsts:
        if named[holder][at] >= place and named[holder][at + 1]:
            named[holder][at] += step
    entry = 2 * place if table == "loops" else place
    named[table][entry:entry] = filler
    if table == "loops":
        named["spans"][entry:entry] = [0, 0]
    counts[table] += step


def exchange(rng, numbers, count, fields):
    """The fields of two records of nine."""
    if count < 2:
        return
    a, b = (9 * k for k in rng.sample(range(count), 2))
    for field in fields:
        numbers[a + field], numbers[b + field] = numbers[b + field], numbers[a + field]


def renumber_bodies(rng, counts, named):
    """Two bodies change places, and their elements' numbers with them: all runs still follow on."""
    if counts["bodies"] < 2:
        return
    a, b = rng.sample(range(counts["bodies"]), 2)
    for table, width in (("bodies", 9), ("ranges", 4)):
        numbers = named[table]
        first, second = slice(width * a, width * (a + 1)), slice(width * b, width * (b + 1))
        numbers[first], numbers[second] = numbers[second], numbers[first]
    new = {a + 1: b + 1, b + 1: a + 1}
    for at in range(3, 9 * counts["elements"], 9):
        named["elements"][at] = new.get(named["elements"][at], named["elements"][at])


def check_whole(tally, seed, count):
    """In broken and relaid tables 15 of the sweep agrees with the other way to find it."""
    rng = random.Random(seed)
    found = {True: 0, False: 0}
    for i in range(count):
        lines, needs = text(rng)
        answer = read(spelled(rng, lines), {table: room + rng.randint(0, 9) for table, room in needs.items()})
        if not any(map(any, answer.tables)):
            continue
        for style in (broken, relaid, relaid):
            used, tables = style(rng, *answer)
            holds = whole(used, tables)
            found[holds] += 1
            tally.hold(f"seed {seed} text {i} whole, {style.__name__}", holds, wholly_witnessed(used, tables))
            refused = sweep(used, tables, [0] * sum(map(len, tables))) == RefusedSweep(15)
            tally.hold(f"seed {seed} text {i} swept, {style.__name__}", refused, not holds)
    tally.hold("both answers are met often", min(found.values()) * 4 >= count, True)


def broken(rng, used, tables):
    """Tables, lengths or used counts changed in one or two places."""
    counts, tables = used._asdict(), [list(numbers) for numbers in tables]
    for _ in range(rng.choice((1, 1, 2))):
        style = rng.random()
        numbers = rng.choice([numbers for numbers in tables if any(numbers)])
        last = max(at for at, number in enumerate(numbers) if number)
        if style < 0.1:
            del numbers[rng.randint(0, last + 1):]
        elif style < 0.2:
            name = rng.choice(list(counts))
            counts[name] = rng.choice((max(counts[name] - 1, 0), counts[name] + 1, 0))
        else:
            at = rng.randint(0, last)
            near = (numbers[at] + 1, max(numbers[at] - 1, 0), numbers[at] + 3)
            far = (0, 0, 1, 2, 3, 4, 5, 7, 20, 21, 65_536, 1_000_000, 2_000_000_001, 2**31 - 1)
            numbers[at] = rng.choice(rng.choice((near, far)))
        if not any(map(any, tables)):
            break
    return Used(**counts), tables


def check_broken(rng, answer):
    """Broken tables are answered; refusal 15 agrees with the other way to find
    it; what is no refusal is a point that the exact value bounds."""
    if answer.used.elements == 0:
        return None
    used, tables = broken(rng, answer.used, answer.tables)
    all_obey = True
    for element in range(1, used.elements + 1):
        obeyed = obeys(used, tables, element)
        all_obey = all_obey and obeyed
        if obeyed != witnessed(used, tables, element):
            return f"element {element}: obeys is {obeyed}, its witness says otherwise"
        point_on_curve(used, tables, element, 0)
        point_on_surface(used, tables, element, 0, 0)
        run_on_curve(used, tables, element, 2, [0] * 9, 0)
        polyline(used, tables, element, 100_000_000, [0] * 9, 0)
        cubic_at(used, tables, element, 0, 32)
    return check_bounds(rng, used, tables) if all_obey else None


def check_seeded(tally, seed, count):
    rng = random.Random(seed)
    numbers = {}
    for i, (data, rooms) in enumerate(cases(seed, count)):
        wrong = check_one(rng, data, rooms)
        tally.hold(f"seed {seed} case {i}", wrong, None)
        answer = read(data, rooms)
        if isinstance(answer, Read):
            tally.hold(f"seed {seed} case {i} broken", check_broken(rng, answer), None)
        number = answer.number if isinstance(answer, Refused) else 0
        numbers[number] = numbers.get(number, 0) + 1
    tally.hold("refusals met", sorted(numbers), [0, *range(2, 15)])
    tally.hold("at least 40 % are read", numbers[0] * 10 >= count * 4, True)


def check_valid(tally, seed, count):
    """An undamaged text is read in just the room its maker counted, and is 14 in
    one entry less."""
    rng = random.Random(seed)
    for i in range(count):
        lines, needs = text(rng)
        data = spelled(rng, lines)
        tally.hold(f"valid {i}", isinstance(read(data, needs), Read), True)
        needed = [table for table in TABLES if needs[table]]
        if needed:
            table = rng.choice(needed)
            short = read(data, needs | {table: needs[table] - 1})
            tally.hold(f"valid {i} short of {table}", short[0], 14)


def check_tidied(tally, folder):
    """Texts that are read, each with its tidy text beside it where one is kept, and with the form that has every w."""
    rng = random.Random(0)
    rooms = [PROGRAM_ROOM] * len(TABLES)
    for path in sorted(folder.glob("*.obj")):
        data = path.read_bytes()
        tally.hold(f"{path.name} is read", isinstance(read(data, rooms), Read), True)
        tally.hold(path.name, check_one(rng, data, rooms), None)
        for every_w, ending in ((False, ".tidy"), (True, "-every-w.tidy")):
            wanted = path.with_name(path.stem + ending)
            if wanted.exists():
                tally.hold(wanted.name, tidy(data, rooms, 65_536, every_w).text, wanted.read_bytes())


def main():
    tally = Tally()
    check_cases(tally)
    check_packed(tally)
    check_sampled(tally)
    check_size(tally)
    check_program(tally)
    check_points(tally)
    check_sweeps(tally)
    check_depth(tally)
    check_table(tally)
    check_tidied(tally, CASES / "tidy")
    check_tidied(tally, CASES / "sweep")
    check_tidied(tally, EXAMPLES)
    check_valid(tally, 2, SELF_CHECKS // 4)
    check_whole(tally, 3, SELF_CHECKS // 2)
    check_seeded(tally, 1, SELF_CHECKS)
    print(f"{tally.passed} passed, {tally.failed} failed")
    return 1 if tally.failed else 0


if __name__ == "__main__":
    sys.exit(main())
