"""What `points`, `polyline` and `cubic` write."""

import json
from decimal import Decimal

from expected_words import WORDS, decimal, message_of, point
from polyline import polyline
from records import CURV, CURV2, KINDS, SURF
from rules import body_of, element_record
from sampler import MOST_STEPS, Filled, RefusedPoint, cubic_at, point_on_curve, point_on_surface, run_on_curve, run_parameters


def grid(used, tables, element, along_u, along_v):
    """The rows of a surface: of each its points, with their parameters."""
    u_start, u_end, v_start, v_end = body_of(tables, element).range
    corner = point_on_surface(used, tables, element, u_start, v_start)
    if isinstance(corner, RefusedPoint):
        return corner
    if not (1 <= along_u <= MOST_STEPS and 1 <= along_v <= MOST_STEPS):
        return RefusedPoint(19)
    return [
        [((s, t), point_on_surface(used, tables, element, s, t)) for s in run_parameters(u_start, u_end, along_u)]
        for t in run_parameters(v_start, v_end, along_v)
    ]


def run(used, tables, element, steps):
    """One row, that of the curve."""
    answer = run_on_curve(used, tables, element, steps, [0] * (3 * (steps + 1)), 0)
    if not isinstance(answer, Filled):
        return answer
    axes, numbers = answer.numbers // (steps + 1), answer.points[:answer.numbers]
    start, end = body_of(tables, element).range[:2]
    found = [numbers[k:k + axes] for k in range(0, len(numbers), axes)]
    return [[((t,), each) for t, each in zip(run_parameters(start, end, steps), found)]]


def at(used, tables, element, surface, parameters):
    answer = (point_on_surface if surface else point_on_curve)(used, tables, element, *parameters)
    return answer if isinstance(answer, RefusedPoint) else [[(parameters, answer)]]


def rows_of(used, tables, element, numbers, flags):
    """The rows of an element, or its refusal; and the words for what was asked."""
    surface = element <= used.elements and element_record(tables, element)[0] == SURF
    if "--at" in flags:
        numbers = tuple(round(Decimal(number) * 1_000_000) for number in numbers)
        return at(used, tables, element, surface, numbers), f" at {point(numbers)}"
    steps = [int(number) for number in numbers]
    rows = grid(used, tables, element, steps[0], steps[-1]) if surface else run(used, tables, element, *steps)
    return rows, f", {' by '.join(map(str, steps))} steps"


def points(name, text, used, tables, *words):
    flags = [word for word in words if word.startswith("--")]
    which, *numbers = [word for word in words if word not in flags]
    kinds = {k: element_record(tables, k)[0] for k in range(1, used.elements + 1)}
    several = which == "all"
    asked = [k for k in kinds if kinds[k] in (CURV, CURV2)] if several else [int(which)]
    told, plain, found = "", "", []
    for element in asked:
        rows, words_of_call = rows_of(used, tables, element, numbers, flags)
        if isinstance(rows, RefusedPoint):
            key = f"{name}: element {element}{words_of_call}"
            refusal = f"{key}: refused {rows.number}: {WORDS[rows.number]}\n{message_of(key)}"
            plain, told = plain + refusal, told + refusal
            continue
        shown = [[parameters * ("--parameter" in flags) + tuple(each) for parameters, each in row] for row in rows]
        plain += f"# element {element} {KINDS[kinds[element]]}\n" if several else ""
        plain += "\n".join("".join(point(each) + "\n" for each in row) for row in shown)
        names = (["u", "v"] if kinds[element] == SURF else ["t"]) * ("--parameter" in flags)
        names += ["u", "v"] if kinds[element] == CURV2 else ["x", "y", "z"]
        for row in shown:
            found += [dict(zip(["element"] * several + names, [str(element)] * several + [*map(decimal, each)])) for each in row]
    if "--json" in flags:
        return told + as_json(found)
    if "--csv" in flags:
        header = ["element"] + ["t"] * ("--parameter" in flags) + ["x", "y", "z", "u", "v"] if several else list(found[0])
        return told + "".join(",".join(row) + "\n" for row in [header] + [[each.get(name, "") for name in header] for each in found])
    return plain


def as_json(objects):
    lines = [" {" + ", ".join(f'"{name}": {value}' for name, value in each.items()) + "}" for each in objects]
    shown = "[\n" + ",\n".join(lines) + "\n]\n" if lines else "[]\n"
    json.loads(shown)
    return shown


def cut(name, text, used, tables, element, tolerance):
    element, millionths = int(element), round(Decimal(tolerance) * 1_000_000)
    answer = polyline(used, tables, element, millionths, [0] * 12_291, 0)
    if isinstance(answer, RefusedPoint):
        key = f"{name}: element {element}, tolerance {decimal(millionths)}"
        return f"{key}: refused {answer.number}: {WORDS[answer.number]}\n{message_of(key)}"
    axes = 2 if element_record(tables, element)[0] == CURV2 else 3
    numbers = answer.points[:axes * answer.count]
    return "".join(point(numbers[k:k + axes]) + "\n" for k in range(0, len(numbers), axes))


def cubic(name, text, used, tables, element):
    element = int(element)
    body = element <= used.elements and element_record(tables, element)[3]
    segments = max(1, len(body_of(tables, element).u_parameters) - 1) if body else 1
    asked = [(g, j, cubic_at(used, tables, element, g, j)) for g in range(segments) for j in range(65)]
    given = [f"{g} {j} {point(answer)}\n" for g, j, answer in asked if not isinstance(answer, RefusedPoint)]
    number = asked[-1][2].number if not given else 0
    key = f"{name}: element {element}"
    return "".join(given) or f"{key}: refused {number}: {WORDS[number]}\n{message_of(key)}"
