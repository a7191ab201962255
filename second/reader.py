"""Reading a text into the eleven tables, or refusing it; asking of the tables.

    read(data, rooms) -> Read(used, tables) | Refused(number, place)
    group_of, material_of (text, elements, used, element) -> part of text
    corner_of(corners, elements, used_corners, used, element, k) -> (v, vt, vn)
"""

from records import TEXT_LIMIT, Fault, Refused, lengths
from statements import Reader
from words import joined_lines


def read(data, rooms):
    """The tables of an accepted text, or the number and place of its refusal.

    `rooms` is a dict by table name or a list in the order of TABLES.  A
    refusal leaves `records.zeros(rooms)` in the tables.
    """
    if len(data) > TEXT_LIMIT:
        return Refused(1, 0)
    reader = Reader(lengths(rooms))
    try:
        for words in joined_lines(data):
            reader.line(words)
    except Fault as fault:
        return fault.refused
    if reader.body is not None:
        return Refused(10, len(data))
    return reader.answer()


# Asking of the tables.  Elements and corners count from 1.

def run_of(text, elements, used, element, field):
    if not 1 <= element <= used or 9 * element > len(elements):
        return b""
    at = 9 * (element - 1) + field
    place, length = elements[at], elements[at + 1]
    if place + length > len(text):
        return b""
    return text[place:place + length]


def group_of(text, elements, used, element):
    """The element's group run in the caller's own text; `used` counts elements."""
    return run_of(text, elements, used, element, 5)


def material_of(text, elements, used, element):
    return run_of(text, elements, used, element, 7)


def corner_of(corners, elements, used_corners, used, element, k):
    """(v, vt, vn) of the element's k-th corner, three zeros for no such corner."""
    if not 1 <= element <= used or 9 * element > len(elements):
        return 0, 0, 0
    record = 9 * (element - 1)
    first, count = elements[record + 1], elements[record + 2]
    at = first + 3 * (k - 1)
    if not 1 <= k <= count or at + 3 > min(used_corners, len(corners)):
        return 0, 0, 0
    return tuple(corners[at:at + 3])
