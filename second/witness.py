"""A second way to find out whether an element obeys the rules: write a text
that says what its records say, read it, and see whether the same records come
back.  Nothing of rules.py is used; only that records lie within used and lent
has to be asked here, since a text cannot say it.

    witnessed(used, tables, element) -> bool
    wholly_witnessed(used, tables) -> bool      of all records together, as the sweep asks it
"""

from reader import read
from records import CURV, CURV2, HOLE, KINDS, SURF, TABLES, TRIM, TYPES, WIDTHS, Refused
from tidier import corner_word, decimal

ROOMS = [4_000] * len(TABLES)


class Unsayable(Exception):
    """A record that no text can give."""


def taken(named, used, table, first, count, share=None):
    """`count` records from `first` on, within used and lent."""
    width = WIDTHS[table]
    past = first + count
    if first < 0 or past > getattr(used, share or table) or width * past > len(named[table]):
        raise Unsayable
    return named[table][width * first:width * past]


def element_records(used, tables, element):
    """All that the element's records say, in an order of their own."""
    named = dict(zip(TABLES, tables))
    kind, first, count, body, smoothing = taken(named, used, "elements", element - 1, 1)[:5]
    past = first + 3 * count
    if past > min(used.corners, len(named["corners"])) or kind not in KINDS:
        raise Unsayable
    corners = named["corners"][first:past]
    vertices = set()
    for at in range(0, 3 * count, 3):
        for table, k in zip(("v", "vt", "vn"), corners[at:at + 3]):
            table = "vp" if kind == CURV2 and table == "v" else table
            if k:
                vertices.add((table, k, tuple(taken(named, used, table, k - 1, 1))))
    said = {"kind": kind, "smoothing": smoothing, "corners": corners, "vertices": vertices}
    said["has body"] = body != 0
    if body:
        record = taken(named, used, "bodies", body - 1, 1)
        parameters = taken(named, used, "parameters", record[4], record[5] + record[6])
        said["body"] = record[:4] + record[5:7] + [record[8], record[7] if record[8] == 0 else 0]
        said["range"] = taken(named, used, "ranges", body - 1, 1, "bodies")
        said["parameters"] = parameters
        said["loops"], said["spans"] = [], []
        if record[8]:
            said["loops"] = taken(named, used, "loops", record[7], record[8])
            said["spans"] = taken(named, used, "spans", record[7], record[8], "loops")
    return said


def vertex_lines(used, tables, vertices):
    """Every vertex there is, those not named as zeros, so that numbers stay."""
    named = dict(zip(TABLES, tables))
    numbers = {(table, k): record for table, k, record in vertices}
    for table, absent in (("v", (0, 0, 0)), ("vt", (0,)), ("vn", (0, 0, 0)), ("vp", (2, 0, 0))):
        for k in range(1, min(getattr(used, table), len(named[table]) // WIDTHS[table]) + 1):
            record = numbers.get((table, k), absent)
            if table == "vp":
                record = record[1:1 + max(record[0], 0)]
            yield " ".join([table, *map(decimal, record)])


def body_lines(said):
    """What stands before a body's element, its range, and the body itself."""
    kind, record = said["kind"], said["body"]
    type_, rational, u_degree, v_degree, u_count = record[:5]
    if type_ not in TYPES:
        raise Unsayable
    degrees = [u_degree, v_degree] if kind == SURF else [u_degree]
    before = ["cstype " + ("rat " if rational else "") + TYPES[type_]]
    before.append("deg " + " ".join(map(str, degrees)))
    limits = {CURV: said["range"][:2], CURV2: [], SURF: said["range"]}.get(kind)
    if limits is None:
        raise Unsayable
    u_values, v_values = said["parameters"][:u_count], said["parameters"][u_count:]
    after = [" ".join(["parm u", *map(decimal, u_values)])]
    if kind == SURF:
        after.append(" ".join(["parm v", *map(decimal, v_values)]))
    line = ""
    for at in range(0, len(said["loops"]), 2):
        begins, curve = said["loops"][at:at + 2]
        if begins not in (0, TRIM, HOLE):
            raise Unsayable
        if begins:
            after.append(line)
            line = "trim" if begins == TRIM else "hole"
        line += " " + " ".join([*map(decimal, said["spans"][at:at + 2]), str(curve)])
    return before, list(map(decimal, limits)), [*after, line, "end"]


def witness(used, tables, element, said):
    elements = tables[TABLES.index("elements")]
    curves = elements[0:9 * (element - 1):9].count(CURV2)
    lines = list(vertex_lines(used, tables, said["vertices"]))
    for _ in range(curves):
        lines += ["vp 0 0", "cstype bezier", "deg 1", "curv2 -1 -1", "parm u 0 1", "end"]
    return joined([*lines, *element_lines(said)])


def element_lines(said):
    before, limits, after = body_lines(said) if said["has body"] else ([], [], [])
    numbers = said["corners"]
    corners = [corner_word(*numbers[at:at + 3]) for at in range(0, len(numbers), 3)]
    line = " ".join([KINDS[said["kind"]], *limits, *corners])
    return [f"s {said['smoothing']}", *before, line, *after]


def joined(lines):
    return "\n".join(lines).encode("ascii")


def witnessed(used, tables, element):
    try:
        said = element_records(used, tables, element)
        text = witness(used, tables, element, said)
    except Unsayable:
        return False
    answer = read(text, ROOMS)
    if isinstance(answer, Refused):
        return False
    return element_records(*answer, answer.used.elements) == said


# All records in one text

def every_vertex(used, tables):
    """Those that nothing names too: a rule that they break shows in the text."""
    named = dict(zip(TABLES, tables))
    for table in ("v", "vt", "vn", "vp"):
        width, numbers = WIDTHS[table], named[table]
        for k in range(min(getattr(used, table), len(numbers) // width)):
            yield table, k + 1, tuple(numbers[width * k:width * (k + 1)])


def whole_text(used, tables):
    lines = list(vertex_lines(used, tables, every_vertex(used, tables)))
    for element in range(1, used.elements + 1):
        lines += element_lines(element_records(used, tables, element))
    return joined(lines)


def nameless(used, tables):
    """The used entries without names; short of entries where fewer were lent."""
    found = []
    for table, numbers in zip(TABLES, tables):
        count = getattr(used, {"ranges": "bodies", "spans": "loops"}.get(table, table))
        numbers = numbers[:count if table == "corners" else WIDTHS[table] * count]
        if table == "elements":
            numbers = [number for at, number in enumerate(numbers) if at % 9 < 5]
        found.append((count, numbers))
    return found


def wholly_witnessed(used, tables):
    """Reading lays runs and body numbers as it must, so only tables that were laid
    so come back.  The lent lengths are room enough for those."""
    try:
        text = whole_text(used, tables)
    except Unsayable:
        return False
    answer = read(text, list(map(len, tables)))
    return not isinstance(answer, Refused) and nameless(*answer) == nameless(used, tables)
