"""The cases as the proved programs take them: `python3 second/packed.py` writes
stdin and stdout of crates/reader_cases anew from cases/expected.txt and from
seeded texts, valid and damaged, of crates/sampler_cases from seeded curves and
surfaces and document 000's examples, and of crates/points from one of the
files in examples/; and stdout of crates/word_cases for the words of its stdin.

A case is a line (the text's length, the file's name and why) and then the
text.  The answer to it is that name and reason, the answer, and one number for
each table.  The program lends tables of 16,384 entries; cases with other rooms
are not in it.
"""

from pathlib import Path

from curves import requests, words
from damage import cases
from polyline import polyline
from reader import read
from records import CURV, CURV2, SURF, TABLES, Fault, Read, Refused, zeros
from rules import body_of, element_record
from sampler import RefusedPoint, cubic_at, point_on_curve, point_on_surface, run_on_curve
from statements import ALL_PATTERNS, LINE_PATTERNS, PLAIN
from tidier import corner_word, decimal
from words import corner, degree, name, number, reference, smoothing

SECOND = Path(__file__).resolve().parent
CASES = SECOND / "cases"
CRATES = SECOND.parent / "crates"
PRIME = 1_000_000_007
SEED, SEEDED, SAMPLED = 2026, 400, 240
POINTS, PLACE = 64, 2
RUN_FILE, RUN_ELEMENT, RUN_STEPS = "chair-rail.obj", 1, 16
ROOMS = dict.fromkeys(TABLES, 16_384)


def unsigned(number):
    return -2 * number + 1 if number < 0 else 2 * number


def in_one(table, form):
    """A table's numbers in one; 0 where all are 0."""
    used = len(table)
    while used and not any(table[max(0, used - 256):used]):
        used = max(0, used - 256)
    total = 0
    for number in table[:used]:
        total = (total * 31 + form(number)) % PRIME
    return total * pow(31, len(table) - used, PRIME) % PRIME


SIGNED = {"v", "vt", "vn", "vp", "ranges", "parameters", "spans"}


def numbers_of(tables):
    return [
        in_one(table, unsigned if name in SIGNED else int)
        for name, table in zip(TABLES, tables)
    ]


def shown(answer):
    if isinstance(answer, Refused):
        return f"refused {answer.number} at {answer.place}"
    return " ".join(["read", *map(str, answer.used)])


def packed(cases):
    """stdin and stdout of the program for (label, data) cases."""
    given, wanted = [], []
    for label, data in cases:
        answer = read(data, ROOMS)
        tables = answer.tables if isinstance(answer, Read) else zeros(ROOMS)
        given.append(f"{len(data)} {label}\n".encode() + data)
        numbers = " ".join(map(str, numbers_of(tables)))
        wanted.append(f"{label} | {shown(answer)} | {numbers}\n".encode())
    return b"".join(given), b"".join(wanted)


def stored_cases(rows):
    for name, rooms, _, _, why in rows(CASES / "expected.txt"):
        if rooms == "-":
            yield f"{name} | {why}", (CASES / name).read_bytes()


def seeded_cases():
    for number, (data, _) in enumerate(cases(SEED, SEEDED), 1):
        yield f"seeded {number}", data


def filled(answer, written, table):
    """What the program writes of a run or a polyline, and of its table."""
    shown = f"refused {answer.number}" if isinstance(answer, RefusedPoint) else str(written(answer))
    points = table if isinstance(answer, RefusedPoint) else answer.points
    return f"{shown}: " + " ".join(map(str, points))


def answers(used, tables, element, steps, s, t, tolerance):
    """What the program writes of one element."""
    curve = point_on_curve(used, tables, element, s)
    cubic = cubic_at(used, tables, element, 0, steps)
    surface = point_on_surface(used, tables, element, s, t)
    table = [7] * POINTS
    run = run_on_curve(used, tables, element, steps, table, PLACE)
    line = polyline(used, tables, element, tolerance, table, PLACE)
    points = [
        f"refused {point.number}" if isinstance(point, RefusedPoint) else " ".join(map(str, point))
        for point in (curve, cubic, surface)
    ]
    return (
        f" | curve {points[0]} | cubic {points[1]} | surface {points[2]}"
        f" | run {filled(run, lambda r: r.numbers, table)}"
        f" | polyline {filled(line, lambda r: r.count, table)}"
    )


def examples():
    """The examples of document 000 that have a curve or a surface, at both ends and
    the middle of its range; (label, text, steps, first element, s, t, tolerance)."""
    for path in sorted((CASES / "000").glob("*.obj")):
        data = path.read_bytes()
        answer = read(data, ROOMS)
        if not isinstance(answer, Read):
            continue
        for element in range(1, answer.used.elements + 1):
            if element_record(answer.tables, element)[0] not in (CURV, CURV2, SURF):
                continue
            start, end, start_v, end_v = body_of(answer.tables, element).range
            for name, s, t, tolerance in (
                ("start", start, start_v, 1_000_000),
                ("middle", (start + end) // 2, (start_v + end_v) // 2, 100_000),
                ("end", end, end_v, 20_000),
            ):
                asked = f"vn {words((s, t, tolerance))}\n".encode()
                label = f"000/{path.name} element {element} {name}"
                yield label, asked + data, 7, element, s, t, tolerance


def sampled_cases():
    """(label, text, steps, first element, s, t, tolerance) of what the program samples."""
    yield from examples()
    for label, data, steps, s, t, tolerance in requests(SEED, SAMPLED):
        yield label, data, steps, 0, s, t, tolerance


def sampled():
    """stdin and stdout of the program that samples."""
    given, wanted = [], []
    for label, data, steps, first, s, t, tolerance in sampled_cases():
        answer = read(data, ROOMS)
        given.append(f"{len(data)} {steps} {first} {label}\n".encode() + data)
        lines = [
            answers(answer.used, answer.tables, element, steps, s, t, tolerance)
            for element in range(first, first + 3)
        ]
        wanted.append(f"{label}{''.join(lines)}\n".encode())
    return b"".join(given), b"".join(wanted)


def run_of_points():
    """stdin, args and stdout of the program that writes a run's points."""
    data = (SECOND.parent / "examples" / RUN_FILE).read_bytes()
    answer = read(data, ROOMS)
    run = run_on_curve(answer.used, answer.tables, RUN_ELEMENT, RUN_STEPS, [0] * 51, 0)
    axes = run.numbers // (RUN_STEPS + 1)
    lines = [
        words(run.points[at:at + axes]) + "\n" for at in range(0, run.numbers, axes)
    ]
    return data, f"{RUN_ELEMENT}\n{RUN_STEPS}\n".encode(), "".join(lines).encode()


# millionths that word_cases writes whatever words it is given: those about zero and about the range's ends
WRITTEN = (
    -2_147_483_648, 2_147_483_647, -2_000_000_001, 2_000_000_001, -2_000_000_000, 2_000_000_000,
    -1, 0, 1, -999_999, 1_000_000, -10_000_000,
)


def written(value):
    """A number as it is written, and what that word is."""
    word = decimal(value)
    try:
        back = "read back" if number((0, word.encode())) == value else "another number"
    except Fault as fault:
        back = f"back {fault.refused.number}"
    return f"{word}, {back}"


def corner_shown(word, patterns):
    """A corner of 4 v, 3 vt and 2 vn, and as it is written."""
    found = corner(word, patterns, (4, 3, 2))
    return f"{' '.join(map(str, found))}, {corner_word(*found)}"


# by the letters of word_cases
FORMS = {
    "n": lambda word: written(number(word)),
    "r": lambda word: reference(word, 4),
    "R": lambda word: reference(word, 4_294_967_295),
    "p": lambda word: corner_shown(word, PLAIN),
    "l": lambda word: corner_shown(word, LINE_PATTERNS),
    "f": lambda word: corner_shown(word, ALL_PATTERNS),
    "d": degree,
    "s": smoothing,
    "g": lambda word: name(word) and "a name",
}


def said(form, letters):
    """What the word is in that form."""
    try:
        return FORMS[form]((0, letters.encode()))
    except Fault as fault:
        return f"refused {fault.refused.number}"


def word_answers():
    """stdout of the program that reads words; at last its answers where no word is."""
    pairs = [line.split() for line in (CRATES / "word_cases" / "stdin").read_text().splitlines()]
    lines = [f"{form} {word}: {said(form, word)}" for form, word in pairs]
    return "\n".join([*lines, *map(written, WRITTEN), "refused 6" * 6, ""]).encode()


def files(rows):
    """Each stored file with what it must hold."""
    programs = {
        "reader_cases": packed([*stored_cases(rows), *seeded_cases()]),
        "sampler_cases": sampled(),
    }
    for program, (given, wanted) in programs.items():
        yield CRATES / program / "stdin", given
        yield CRATES / program / "stdout", wanted
    for stored, data in zip(("stdin", "args", "stdout"), run_of_points()):
        yield CRATES / "points" / stored, data
    yield CRATES / "word_cases" / "stdout", word_answers()


if __name__ == "__main__":
    from check import rows

    for path, data in files(rows):
        path.write_bytes(data)
