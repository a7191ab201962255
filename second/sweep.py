"""The retention sweep, by the words of request Q-6.

    whole(used, tables) -> bool             refusal 15 of all records together
    sweep(used, tables, numbers) -> Swept | RefusedSweep

Refusals: 15 where the tables are not whole, then 16 where the list of new
numbers lacks room.  Nothing lent is changed; the answer has the tables and the
list as they would stand afterwards.
"""

from typing import NamedTuple

from records import CURV2, TABLES, WIDTHS, Used
from rules import by_name, element_obeys, record_obeys

VERTICES = ("v", "vt", "vn", "vp")
# tables without a used count of their own
COUNTED_WITH = {"ranges": "bodies", "spans": "loops"}


class Swept(NamedTuple):
    used: Used
    dropped: tuple          # v, vt, vn, vp
    tables: list
    numbers: list


class RefusedSweep(NamedTuple):
    number: int


def used_entries(used, table):
    """How many numbers of the table are used; corners are counted in numbers."""
    count = getattr(used, COUNTED_WITH.get(table, table))
    return count if table == "corners" else WIDTHS[table] * count


# Refusal 15

def whole(used, tables):
    """Every record obeys the rules, named or not, and the runs follow on to the
    last used entry as reading lays them.  Lengths come first, so that what is
    looked at afterwards is never more than what was lent."""
    named = by_name(tables)
    return (
        all(used_entries(used, table) <= len(named[table]) for table in TABLES)
        and all(vertices_obey(used, named, table) for table in VERTICES)
        and elements_follow(used, named)
    )


def vertices_obey(used, named, table):
    return all(record_obeys(table, record) for record in records_of(used, named, table))


def records_of(used, named, table):
    width = WIDTHS[table]
    for at in range(0, used_entries(used, table), width):
        yield named[table][at:at + width]


def elements_follow(used, named):
    """Each run is asked where it begins before the element's own rules are, so
    that no two elements look at the same corners or parameters."""
    laid = Laid(named["bodies"])
    for element, record in enumerate(records_of(used, named, "elements"), 1):
        kind, first, count, body = record[:4]
        if first != laid.corners or body and not laid.body_follows(used, body):
            return False
        if not element_obeys(named, used, element, laid.curves):
            return False
        laid.corners += 3 * count
        laid.curves += kind == CURV2
    reached = laid.corners, laid.bodies, laid.parameters, laid.loops
    return reached == (used.corners, used.bodies, used.parameters, used.loops)


class Laid:
    """How far the elements so far have come in the tables that they share."""

    def __init__(self, records):
        self.records = records
        self.corners = self.bodies = self.parameters = self.loops = self.curves = 0

    def body_follows(self, used, body):
        """The next body, its parameters and loop parts from the next free ones on.
        What stands as first loop part where there is none, the body's own rules say."""
        if body != self.bodies + 1 or body > used.bodies:
            return False
        first, u_count, v_count, first_loop, loops = self.records[9 * body - 5:9 * body]
        if first != self.parameters or loops and first_loop != self.loops:
            return False
        self.bodies = body
        self.parameters += u_count + v_count
        self.loops += loops
        return True


# The repair, of tables that are whole

def sweep(used, tables, numbers):
    if not whole(used, tables):
        return RefusedSweep(15)
    named = by_name(tables)
    kept = named_by_corners(used, named)
    new = {table: new_numbers(getattr(used, table), kept[table]) for table in VERTICES}
    listed = [number for table in VERTICES for number in new[table]]
    if len(listed) > len(numbers):
        return RefusedSweep(16)
    left = {table: named[table][:used_entries(used, table)] for table in TABLES}
    left["corners"] = renumbered(used, named, new)
    for table in VERTICES:
        pairs = zip(records_of(used, named, table), new[table])
        left[table] = [entry for record, number in pairs if number for entry in record]
    return Swept(
        used._replace(**{table: len(kept[table]) for table in VERTICES}),
        tuple(getattr(used, table) - len(kept[table]) for table in VERTICES),
        [left[table] + [0] * (len(named[table]) - len(left[table])) for table in TABLES],
        listed + numbers[len(listed):],
    )


def columns(kind):
    """What the three numbers of a corner name; the last two of a curv2's are 0."""
    return ("vp", "vt", "vn") if kind == CURV2 else ("v", "vt", "vn")


def named_by_corners(used, named):
    kept = {table: set() for table in VERTICES}
    for kind, first, count, *_ in records_of(used, named, "elements"):
        for offset, table in enumerate(columns(kind)):
            kept[table].update(named["corners"][first + offset:first + 3 * count:3])
    return {table: numbers - {0} for table, numbers in kept.items()}


def new_numbers(count, kept):
    """For each old record, from 1 on, its new number, or 0 if dropped."""
    found, last = [], 0
    for k in range(1, count + 1):
        last += k in kept
        found.append(last if k in kept else 0)
    return found


def renumbered(used, named, new):
    """The corners with new numbers; 0 stays none."""
    corners = named["corners"][:used.corners]
    for kind, first, count, *_ in records_of(used, named, "elements"):
        for offset, table in enumerate(columns(kind)):
            for at in range(first + offset, first + 3 * count, 3):
                if corners[at]:
                    corners[at] = new[table][corners[at] - 1]
    return corners
