"""What `elements` and `show` write, and the records that they are made from."""

from expected_words import counted, decimal, point
from reader import group_of, material_of
from records import CURV2, F, KINDS, L, P, SURF, TABLES, TYPES, WIDTHS
from rules import body_of, control_numbers, element_record


def record(tables, which, number):
    return dict(zip(TABLES, tables))[which][WIDTHS[which] * (number - 1):WIDTHS[which] * number]


def names_of(asked, text, used, tables, number):
    return " ".join(asked(text, dict(zip(TABLES, tables))["elements"], used.elements, number).replace(b"\\", b" ").decode().split())


def loop_parts(used, tables, body):
    """Of each loop part of a body: what begins, the element of its curve, and its two numbers."""
    planes = [number for number in range(1, used.elements + 1) if element_record(tables, number)[0] == CURV2]
    part, many = record(tables, "bodies", body)[7:]
    for each in range(part + 1, part + many + 1):
        begins, curve = record(tables, "loops", each)
        yield ["", "trim", "hole"][begins], planes[curve - 1], record(tables, "spans", each)


def body_words(tables, element, kind):
    body = body_of(tables, element)
    index = element_record(tables, element)[3] - 1
    parts = dict(zip(TABLES, tables))["bodies"][9 * index + 8]
    surface = kind == SURF
    words = ("rational " if body.rational else "") + f"{TYPES[body.type]} of degree {body.degrees[0]}"
    words += f" by {body.degrees[1]}" if surface else ""
    words += f", from {decimal(body.range[0])} to {decimal(body.range[1])}"
    words += f" by {decimal(body.range[2])} to {decimal(body.range[3])}" if surface else ""
    return words + (", " + counted(parts, "loop part") if parts else "")


def outline_words(tables, element):
    axes = control_numbers(tables, element)
    return f"controls from {point(map(min, axes))} to {point(map(max, axes))}"


def element_line(text, used, tables, number):
    kind, _, corners, body, smoothing = element_record(tables, number)[:5]
    parts = [f"{number} {KINDS[kind]}", counted(corners, "corner")]
    parts += [body_words(tables, number, kind), outline_words(tables, number)] if body else []
    parts += [f"smoothing {smoothing}"] if smoothing else []
    for word, asked in (("group", group_of), ("material", material_of)):
        names = names_of(asked, text, used, tables, number)
        parts += [word + " " + names] if names else []
    return ", ".join(parts) + "\n"


def elements(name, text, used, tables):
    return "".join(element_line(text, used, tables, number) for number in range(1, used.elements + 1))


def show(name, text, used, tables):
    lines = []
    for number in range(1, used.elements + 1):
        lines.append(element_line(text, used, tables, number))
        kind, first, many, body = element_record(tables, number)[:4]
        for k in range(many if kind in (P, L, F) else 0):
            named = zip(("v", "vt", "vn"), record(tables, "corners", first // 3 + k + 1))
            lines.append("    " + ", ".join(f"{word} {own}: {point(record(tables, word, own)[:3])}" for word, own in named if own) + "\n")
        for begins, curve, (start, end) in loop_parts(used, tables, body) if body else ():
            lines.append(f"    {begins or 'and'} from {decimal(start)} to {decimal(end)} of element {curve}\n")
    return "".join(lines)
