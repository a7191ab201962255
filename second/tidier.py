"""The tidy text of an accepted file.

    tidy(data, rooms, buffer, every_w) -> Written | TooLong | Refused
    printed(data) -> bytes                  what the program `tidy` prints

A v is written without its w where that is 1.000000, or by the caller's choice,
`every_w`, with it.

Run as a script it is that program, from standard input to standard output.
"""

import sys
from typing import NamedTuple

from reader import group_of, material_of, read
from records import (
    CURV, CURV2, HOLE, KINDS, ONE, SURF, TABLES, TEXT_LIMIT, TRIM, TYPES, Refused, Used,
)
from words import names_in


PROGRAM_BYTES = 65_536
PROGRAM_ROOM = 16_384


class Written(NamedTuple):
    text: bytes
    used: Used
    tables: list


class TooLong(NamedTuple):
    """16 at place 0, and the length that is needed: one over the limit for all that pass it. The tables stay filled and the buffer as it was."""

    needed: int
    used: Used
    tables: list


def decimal(millionths):
    """Six places, no plus, and no minus on zero."""
    whole, rest = divmod(abs(millionths), ONE)
    return f"{'-' if millionths < 0 else ''}{whole}.{rest:06d}"


def corner_word(v, vt, vn):
    if vn:
        return f"{v}/{vt if vt else ''}/{vn}"
    return f"{v}/{vt}" if vt else f"{v}"


class Tidier:
    def __init__(self, text, used, tables, every_w):
        self.text = text
        self.every_w = every_w
        self.used = used
        self.tables = dict(zip(TABLES, tables))
        self.lines = []

    def line(self, *words):
        self.lines.append(" ".join(words))

    def numbers(self, keyword, *millionths):
        self.line(keyword, *map(decimal, millionths))

    def records(self, table, width, count):
        numbers = self.tables[table]
        for at in range(0, width * count, width):
            yield numbers[at:at + width]

    def whole(self):
        for *xyz, w in self.records("v", 4, self.used.v):
            self.numbers("v", *xyz, *([w] if self.every_w or w != ONE else []))
        for uvw in self.records("vt", 3, self.used.vt):
            self.numbers("vt", *uvw)
        for ijk in self.records("vn", 3, self.used.vn):
            self.numbers("vn", *ijk)
        for given, *uvw in self.records("vp", 4, self.used.vp):
            self.numbers("vp", *uvw[:given])
        before = ([], 0, [])
        for element, record in enumerate(self.records("elements", 9, self.used.elements), 1):
            before = self.attributes(element, record[4], before)
            self.element(record)
        return "".join(line + "\n" for line in self.lines).encode("ascii")

    def attributes(self, element, smoothing, before):
        """g, s, usemtl lines where they differ from the element before."""
        elements, used = self.tables["elements"], self.used.elements
        group = names_in(group_of(self.text, elements, used, element))
        material = names_in(material_of(self.text, elements, used, element))
        if group != before[0]:
            self.line("g", *(word.decode("ascii") for word in group))
        if smoothing != before[1]:
            self.line("s", str(smoothing))
        if material != before[2]:
            self.line("usemtl", *(word.decode("ascii") for word in material))
        return group, smoothing, material

    def element(self, record):
        kind, first, count, body_number = record[:4]
        numbers = self.tables["corners"][first:first + 3 * count]
        corners = [corner_word(*numbers[at:at + 3]) for at in range(0, 3 * count, 3)]
        if body_number == 0:
            self.line(KINDS[kind], *corners)
            return
        at = body_number - 1
        type_, rational, u_degree, v_degree, *runs = self.tables["bodies"][9 * at:9 * at + 9]
        self.line("cstype", *(["rat"] if rational else []), TYPES[type_])
        self.line("deg", *map(str, [u_degree, v_degree] if kind == SURF else [u_degree]))
        limits = self.tables["ranges"][4 * at:4 * at + 4]
        shown = {CURV: limits[:2], CURV2: [], SURF: limits}[kind]
        self.line(KINDS[kind], *map(decimal, shown), *corners)
        self.body(kind, runs)

    def body(self, kind, runs):
        first, u_count, v_count, first_loop, loop_count = runs
        parameters = self.tables["parameters"]
        middle = first + u_count
        self.line("parm", "u", *map(decimal, parameters[first:middle]))
        if kind == SURF:
            self.line("parm", "v", *map(decimal, parameters[middle:middle + v_count]))
        words = []
        for part in range(first_loop, first_loop + loop_count):
            begins, curve = self.tables["loops"][2 * part:2 * part + 2]
            if begins:
                if words:
                    self.line(*words)
                words = [{TRIM: "trim", HOLE: "hole"}[begins]]
            words += map(decimal, self.tables["spans"][2 * part:2 * part + 2])
            words.append(str(curve))
        if words:
            self.line(*words)
        self.line("end")


def tidy_text(text, used, tables, every_w=False):
    """The tidy text of tables that `read` made of that same text."""
    return Tidier(text, used, tables, every_w).whole()


def tidy(data, rooms, buffer, every_w=False):
    """`buffer` is the length of the buffer that the text must find room in."""
    answer = read(data, rooms)
    if isinstance(answer, Refused):
        return answer
    text = tidy_text(data, answer.used, answer.tables, every_w)
    if len(text) > buffer or len(text) > TEXT_LIMIT:
        return TooLong(min(len(text), TEXT_LIMIT + 1), answer.used, answer.tables)
    return Written(text, answer.used, answer.tables)


def printed(data):
    """The program takes 65,536 bytes; longer is `refused 1 at 0`, unread."""
    if len(data) > PROGRAM_BYTES:
        return b"refused 1 at 0\n"
    answer = tidy(data, [PROGRAM_ROOM] * len(TABLES), PROGRAM_BYTES)
    if isinstance(answer, Written):
        return answer.text
    number, place = (16, 0) if isinstance(answer, TooLong) else answer
    return b"refused %d at %d\n" % (number, place)


def agreement(data, used, tables):
    """The tables with each name run replaced by its words: two readings agree,
    apart from where names stand and the blanks between them, when this is equal."""
    elements = tables[TABLES.index("elements")]
    shown = []
    for element in range(1, used.elements + 1):
        record = elements[9 * (element - 1):9 * element]
        shown.append((
            tuple(record[:5]),
            tuple(names_in(group_of(data, elements, used.elements, element))),
            tuple(names_in(material_of(data, elements, used.elements, element))),
        ))
    rest = [numbers for table, numbers in zip(TABLES, tables) if table != "elements"]
    return used, shown, rest


if __name__ == "__main__":
    sys.stdout.buffer.write(printed(sys.stdin.buffer.read(PROGRAM_BYTES + 1)))
