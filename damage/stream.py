"""Requests to drive.c as bytes, each with the answer that second/ gives to it.

A Stream holds the text, the used counts and the tables that the last read, tidy
or set left, as drive.c does, and asks of them.
"""

from array import array
from collections import Counter
from pathlib import Path
import sys

SECOND = Path(__file__).resolve().parent.parent / "second"
sys.path.append(str(SECOND))

from outline import inside
from polyline import polyline
from reader import corner_of, group_of, material_of, read
from records import CURV2, SIGNED, TABLES, Fault, Refused, Used, lengths, zeros
from sampler import RefusedPoint, cubic_at, point_on_curve, point_on_surface, run_on_curve
from statements import Reader
from sweep import RefusedSweep, sweep
from tidier import TooLong, tidy
from words import joined_lines

FILLER = b"\xa5"
NONE = Used(*[0] * len(Used._fields))
ELEMENTS, CORNERS, BODIES, RANGES = map(TABLES.index, ("elements", "corners", "bodies", "ranges"))


def numbers(*values):
    return array("Q", [value & 0xFFFF_FFFF_FFFF_FFFF for value in values]).tobytes()


def entries(tables):
    """The tables' bytes."""
    return b"".join(
        array("i" if name in SIGNED else "I", table).tobytes()
        for name, table in zip(TABLES, tables)
    )


def before_fault(text, needs):
    """Of a text that is refused the place, and what was counted and open before the line at fault."""
    reader, opened = Reader(lengths(needs)), 0

    def tally():
        """A curv2 counts from its end on: no line in its body can name it."""
        kind, place = (reader.body.kind, opened) if reader.body else (0, 0)
        return *(reader.count(table) for table in TABLES[:4]), reader.curv2_count - (kind == CURV2), kind, place

    before = tally()
    try:
        for words in joined_lines(text):
            before = tally()
            was_open = reader.body is not None
            reader.line(words)
            if reader.body and not was_open:
                opened = words[0][0]
            before = tally()
    except Fault as fault:
        return fault.refused.place, before
    return len(text), before


class Stream:
    def __init__(self):
        self.tally = Counter()              # of (letter, number of refusal)
        self.requests = []
        self.answers = []                   # (what was asked, the bytes wanted)
        self.label = ""
        self.text, self.used, self.tables = b"", NONE, zeros([0] * len(TABLES))

    def ask(self, letter, number, request, *answer):
        self.tally[letter, number] += 1
        self.requests += [letter.encode(), *request]
        wanted = b"".join((letter.encode(), b"\0", *answer))
        self.answers.append((f"{self.label}: {letter}", wanted))

    def read(self, text, rooms):
        answer = read(text, rooms)
        number, place = answer if isinstance(answer, Refused) else (0, 0)
        self.text = text
        self.used, self.tables = (NONE, zeros(rooms)) if number else answer
        self.ask(
            "R", number, (numbers(len(text), *rooms), text),
            numbers(number, place, *self.used), entries(self.tables),
        )

    def in_rooms(self, text, needs):
        """Reading in the rooms that the library finds is reading in ample ones: what is used is what the text needs."""
        answer = read(text, needs)
        number, place = answer if isinstance(answer, Refused) else (0, 0)
        self.text = text
        self.used, self.tables = (NONE, zeros([0] * len(TABLES))) if number else answer
        self.ask(
            "O", number, (numbers(len(text)), text),
            numbers(number, place, *self.used), entries(self.tables),
        )

    def explain(self, needs):
        """Of a text that reading in ample rooms refuses, at its place."""
        place, before = before_fault(self.text, needs)
        self.ask("X", 0, (numbers(place),), numbers(*before))

    def tidy(self, text, rooms, room, weights):
        """Of the weights' numbers 1 is always; any other is when needed."""
        answer = tidy(text, rooms, room, weights == 1)
        written, number, place, needed = b"", 0, 0, 0
        self.text = text
        if isinstance(answer, Refused):
            number, place = answer
            self.used, self.tables = NONE, zeros(rooms)
        else:
            self.used, self.tables = answer.used, answer.tables
            if isinstance(answer, TooLong):
                number, needed = 16, answer.needed
            else:
                written = answer.text
        self.ask(
            "T", number, (numbers(len(text), *rooms, room, weights), text),
            numbers(number, place, len(written), needed, *self.used), entries(self.tables),
            written, FILLER * (room - len(written)),
        )

    def set(self, text, used, tables):
        self.text, self.used, self.tables = text, used, tables
        lengths = [len(table) for table in tables]
        self.requests += [b"S", numbers(len(text), *used, *lengths), text, entries(tables)]

    def sweep(self, length):
        """The tables and used counts are then those that the sweep leaves."""
        filler = array("I", FILLER * 4)[0]
        answer = sweep(self.used, self.tables, [filler] * length)
        number, used, dropped, after = 0, NONE, (0, 0, 0, 0), [filler] * length
        if isinstance(answer, RefusedSweep):
            number = answer.number
        else:
            used, dropped, after = answer.used, answer.dropped, answer.numbers
            self.used, self.tables = answer.used, answer.tables
        self.ask(
            "W", number, (numbers(length),),
            numbers(number, *used, *dropped), entries(self.tables), array("I", after).tobytes(),
        )

    def point(self, letter, request, point):
        number, axes, coordinates = 0, len(point), tuple(point)
        if isinstance(point, RefusedPoint):
            number, axes, coordinates = point.number, 0, ()
        padded = [c & 0xFFFF_FFFF for c in (*coordinates, 0, 0, 0)[:3]]
        self.ask(letter, number, (numbers(*request),), numbers(number, axes, *padded))

    def outlined(self, element, parameters, point):
        """The point wanted keeps to the outline of its controls, so that the library's does where it is the same."""
        if not isinstance(point, RefusedPoint) and not inside(self.tables, element, parameters, point):
            raise ValueError(f"{self.label}: the point of element {element} at {parameters} leaves its controls' outline")
        return point

    def curve(self, element, t):
        point = point_on_curve(self.used, self.tables, element, t)
        self.point("C", (element, t), self.outlined(element, (t,), point))

    def surface(self, element, s, t):
        point = point_on_surface(self.used, self.tables, element, s, t)
        self.point("F", (element, s, t), self.outlined(element, (s, t), point))

    def cubic(self, element, segment, j):
        self.point("B", (element, segment, j), cubic_at(self.used, self.tables, element, segment, j))

    def run(self, element, steps, length, at):
        filler = array("i", FILLER * 4)[0]
        points = [filler] * length
        answer = run_on_curve(self.used, self.tables, element, steps, points, at)
        refused = isinstance(answer, RefusedPoint)
        number, written = (answer.number, 0) if refused else (0, answer.numbers)
        after = array("i", points if refused else answer.points).tobytes()
        self.ask("N", number, (numbers(element, steps, length, at),), numbers(number, written), after)

    def polyline(self, element, tolerance, length, at):
        filler = array("i", FILLER * 4)[0]
        points = [filler] * length
        answer = polyline(self.used, self.tables, element, tolerance, points, at)
        refused = isinstance(answer, RefusedPoint)
        number, written = (answer.number, 0) if refused else (0, answer.count)
        after = array("i", points if refused else answer.points).tobytes()
        request = (numbers(element, tolerance, length, at),)
        self.ask("P", number, request, numbers(number, written), after)

    def corner(self, element, k):
        """Corner k counts from 0, as the library counts."""
        found = corner_of(
            self.tables[CORNERS], self.tables[ELEMENTS], self.used.corners, self.used.elements,
            element, k + 1,
        )
        self.ask("K", 0, (numbers(element, k),), numbers(*found))

    def record(self, number, used, table, width):
        """The record of that number; zeros where it is not used or not whole."""
        found = self.tables[table][width * (number - 1):width * number] if 1 <= number <= used else []
        return found if len(found) == width else None

    def element(self, element):
        found = self.record(element, self.used.elements, ELEMENTS, 9) or [0] * 9
        self.ask("E", 0, (numbers(element),), array("I", found).tobytes())

    def body(self, body):
        found, limits = self.record(body, self.used.bodies, BODIES, 9), self.record(body, self.used.bodies, RANGES, 4)
        if not found or not limits:
            found, limits = [0] * 9, [0] * 4
        self.ask("Y", 0, (numbers(body),), array("I", found).tobytes(), array("i", limits).tobytes())

    def curv2(self, curve):
        """The number of the element that is the curv2 of that number."""
        kinds = self.tables[ELEMENTS][0:9 * self.used.elements:9][:len(self.tables[ELEMENTS]) // 9]
        curves = [number for number, kind in enumerate(kinds, 1) if kind == CURV2]
        self.ask("U", 0, (numbers(curve),), numbers(curves[curve - 1] if 1 <= curve <= len(curves) else 0))

    def part(self, letter, element, field, part):
        place = self.tables[ELEMENTS][9 * (element - 1) + field] if part else 0
        shown = (numbers(place), part) if part else ()
        self.ask(letter, 0, (numbers(element),), numbers(len(part)), *shown)

    def group(self, element):
        part = group_of(self.text, self.tables[ELEMENTS], self.used.elements, element)
        self.part("G", element, 5, part)

    def material(self, element):
        part = material_of(self.text, self.tables[ELEMENTS], self.used.elements, element)
        self.part("M", element, 7, part)
