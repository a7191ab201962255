"""Writes expected/*.txt: what the command has to write for each call of calls.txt, by the second reader, tidier and sampler.

    python3 host/tests/expected.py

Nothing of the proved crates or of the Rust crate is used, so that equal outputs say something.
"""

from expected_elements import elements, loop_parts, names_of, record, show
from expected_points import cubic, cut, points
from expected_words import HERE, ROOT, decimal, point, refused, runs_of
from reader import group_of, material_of, read
from records import CURV2, KINDS, TABLES, TYPES, Refused
from rules import body_of, element_record
from sweep import sweep
from tidier import tidy

ROOMS = [65_536] * 11


def check(name, text, used, tables):
    kinds = [element_record(tables, k)[0] for k in range(1, used.elements + 1)]
    counts = [("v", used.v), ("vt", used.vt), ("vn", used.vn), ("vp", used.vp)]
    counts += [(KINDS[kind], kinds.count(kind)) for kind in KINDS]
    lines = [f"{word:>8} {many:,}\n" for word, many in counts if many]
    return f"{name}: read, {len(text):,} bytes\n" + "".join(lines + unsampled(used, tables))


def unsampled(used, tables):
    """The curves and surfaces of which no point is given, by the reason."""
    reasons = {}
    for number in range(1, used.elements + 1):
        if element_record(tables, number)[3]:
            body = body_of(tables, number)
            words = ["rational"] * bool(body.rational) + [TYPES[body.type]] * (TYPES[body.type] not in ("bezier", "bspline"))
            if words:
                reasons.setdefault(" and ".join(words), []).append(number)
    return [
        f"         not sampled, since {reason}: element{'s' * (len(numbers) > 1)} {runs_of(numbers)}\n"
        for reason, numbers in sorted(reasons.items())
    ]


def swept(name, text, used, tables):
    answer = sweep(used, tables, [0] * sum(used[:4]))
    lines, at = [], 0
    for word, many, dropped in zip(("v", "vt", "vn", "vp"), used[:4], answer.dropped):
        gone = [k + 1 for k in range(many) if answer.numbers[at + k] == 0]
        at += many
        if many:
            lines.append(f"{word:>8} {dropped:,} of {many:,} dropped" + (f": {runs_of(gone)}" if gone else "") + "\n")
    return "".join(lines)


def tidied(name, text, used, tables, *flags):
    return tidy(text, ROOMS, 65_536, "--weights" in flags).text.decode()


COMMANDS = {"tidy": tidied, "elements": elements, "show": show, "points": points, "polyline": cut, "cubic": cubic, "sweep": swept}


def holding(name):
    """What reading answers of a file, and its text."""
    text = (ROOT / name).read_bytes()
    return read(text, ROOMS), text


def written(command, *words):
    if command == "check":
        return checked(words)
    name, *rest = sorted(words, key=lambda word: word.startswith("--"))
    answer, text = holding(name)
    if isinstance(answer, Refused):
        return refused(name, text, answer)
    return COMMANDS[command](name, text, answer.used, answer.tables, *rest)


def expanded(words):
    """The files that a shell makes of the words, in the order of their bytes; -- is none."""
    for word in words:
        yield from sorted(str(path.relative_to(ROOT)) for path in ROOT.glob(word)) if "*" in word else [word] * (word != "--")


def checked(words):
    names, lines = list(expanded(words)), []
    for name in names:
        if not (ROOT / name).exists():
            lines.append(f"kuhlabires: {name}: No such file or directory (os error 2)\n")
            continue
        answer, text = holding(name)
        lines.append(refused(name, text, answer) if isinstance(answer, Refused) else check(name, text, answer.used, answer.tables))
    return "".join(lines) + (summary(names) if len(names) > 1 else "")


def summary(names):
    """How many files are read, and each refusal with the first file that has it."""
    by_number, read_ones, closed = {}, 0, 0
    for name in names:
        if not (ROOT / name).exists():
            closed += 1
            continue
        answer, text = holding(name)
        if not isinstance(answer, Refused):
            read_ones += 1
            continue
        place, _, reason = refused(name, text, answer).splitlines()[0].partition(": refused ")
        by_number.setdefault(answer.number, []).append(f"{reason.partition(': ')[2]}; the first is {place}")
    many = sum(map(len, by_number.values()))
    lines = [f"{len(names)} files: {read_ones} read, {many} refused, {closed} not opened"]
    for number, each in sorted(by_number.items(), key=lambda pair: (-len(pair[1]), pair[0])):
        lines.append(f"refused {number}: {len(each)}, {each[0]}")
    return "\n".join(lines) + "\n"


def database(name):
    """What parts.sql prints of a file that was loaded; the columns of a line are apart by |, one that lacks is empty."""
    answer, text = holding(name)
    used, tables = answer.used, answer.tables
    counts = used._asdict() | {"corners": used.corners // 3, "ranges": used.bodies, "spans": used.loops}
    in_space, in_plane, bodies, parameters, parts = [], [], [], [], []
    for number in range(1, used.elements + 1):
        kind, first, many, body, smoothing = element_record(tables, number)[:5]
        names = [names_of(asked, text, used, tables, number) for asked in (group_of, material_of)]
        for k in range(many):
            corner = record(tables, "corners", first // 3 + k + 1)
            if kind == CURV2:
                given, *numbers = record(tables, "vp", corner[0])
                in_plane.append([number, KINDS[kind], k, given, point(numbers)])
            else:
                shown = [point(record(tables, which, own)) if own else "" for which, own in zip(("v", "vt", "vn"), corner)]
                in_space.append([number, KINDS[kind], smoothing, *names, k, *shown])
        if body:
            basis, rational, u_degree, v_degree, start, along_u, along_v = record(tables, "bodies", body)[:7]
            bodies.append([number, TYPES[basis], rational, u_degree, v_degree, point(record(tables, "ranges", body))])
            values = dict(zip(TABLES, tables))["parameters"][start:start + along_u + along_v]
            parameters += [[number, "v" if along_u <= k else "u", decimal(value)] for k, value in enumerate(values)]
            parts += [[number, begins, curve, KINDS[CURV2], point(span)] for begins, curve, span in loop_parts(used, tables, body)]
    lines = [[word, counts[word]] for word in TABLES] + in_space + in_plane + bodies + parameters + parts
    return "".join("|".join(map(str, line)) + "\n" for line in lines)


def rows_in(name):
    return [line.split() for line in (HERE / name).read_text().splitlines() if not line.startswith("#")]


def main():
    for name, file in rows_in("databases.txt"):
        (HERE / "expected" / f"{name}.txt").write_text(database(file))
    for name, _, *call in rows_in("calls.txt"):
        (HERE / "expected" / f"{name}.txt").write_text(written(*call))


if __name__ == "__main__":
    main()
