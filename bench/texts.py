"""Seeded texts to read: a text of a kind is a row of blocks, and a shorter one is the same row, cut earlier."""

import random


def _numbers(rng, count, most, places, form="f"):
    return " ".join(f"{rng.uniform(-most, most):.{places}{form}}" for _ in range(count))


def _mesh(rng, corner, kinds, form="f"):
    """Patches of 32 by 32 vertices with two triangles to a vertex, as exporters write them: each table, then the faces."""
    side, first = 32, 1
    while True:
        lines = [f"{kind} {_numbers(rng, count, most, places, form)}" for kind, count, most, places in kinds for _ in range(side * side)]
        for row in range(side - 1):
            for at in range(first + row * side, first + row * side + side - 1):
                lines.append(f"f {corner(at)} {corner(at + 1)} {corner(at + side)}")
                lines.append(f"f {corner(at + 1)} {corner(at + side + 1)} {corner(at + side)}")
        first += side * side
        yield "\n".join(lines) + "\n"


def plain(rng):
    return _mesh(rng, str, [("v", 3, 900, 6)])


def full(rng, form="f"):
    return _mesh(rng, lambda at: f"{at}/{at}/{at}", [("v", 3, 900, 6), ("vt", 2, 1, 6), ("vn", 3, 1, 4)], form)


def exponents(rng):
    """The same mesh, an exponent on every number."""
    return full(rng, "e")


def half_named(rng):
    """Triangles that name every other vertex of each kind."""
    count = 0
    while True:
        kinds = [("v", 3, 900, 6), ("vt", 2, 1, 6), ("vn", 3, 1, 4)]
        lines = [f"{kind} {_numbers(rng, numbers, most, places)}" for kind, numbers, most, places in kinds for _ in range(1000)]
        for at in range(count + 1, count + 995, 2):
            lines.append("f " + " ".join(f"{k}/{k}/{k}" for k in (at, at + 2, at + 4)))
        count += 1000
        yield "\n".join(lines) + "\n"


def long_lines(rng):
    """Polygons of 4,000 corners."""
    count = 0
    while True:
        lines = [f"v {_numbers(rng, 3, 900, 6)}" for _ in range(1000)]
        count += 1000
        lines.append("f " + " ".join(str(rng.randint(1, count)) for _ in range(4000)))
        yield "\n".join(lines) + "\n"


def one_line(_):
    """A point element of all corners there are: one line from the second on, two bytes a corner."""
    yield "v 0 0 0\np 1"
    while True:
        yield " 1" * 500


def free_form(rng):
    """Cubic Bezier and B-spline curves of 13 controls, bicubic surfaces of 7 by 7."""
    first = 1

    def body(basis, keyword, side, directions):
        nonlocal first
        count = side**directions
        lines = [f"v {_numbers(rng, 3, 900, 6)}" for _ in range(count)]
        pieces = (side - 1) // 3 if basis == "bezier" else side - 3
        knots = list(range(pieces + 1)) if basis == "bezier" else [0] * 3 + list(range(pieces + 1)) + [pieces] * 3
        lines.append(f"cstype {basis}")
        lines.append("deg" + " 3" * directions)
        lines.append(keyword + f" 0 {pieces}" * directions + "".join(f" {first + k}" for k in range(count)))
        lines += [f"parm {'uv'[k]} " + " ".join(f"{knot:.6f}" for knot in knots) for k in range(directions)]
        lines.append("end")
        first += count
        return "\n".join(lines) + "\n"

    while True:
        for basis in ("bezier", "bspline"):
            yield body(basis, "curv", 13, 1)
            yield body(basis, "surf", 7, 2)


KINDS = {
    "v and f": plain,
    "v, vt, vn and f": full,
    "v, vt, vn and f, exponents": exponents,
    "polygons of 4,000 corners": long_lines,
    "curves and surfaces": free_form,
    "one single line": one_line,
    "half of them named": half_named,
}


MESH = "v 0 0 0\nv 1 0 0\nv 1 1 0\nv 0 1 0\n"
BROKEN = {
    "a word that is no number": "v 0 x 0\n" + MESH + "f 1 2 3\n",
    "a number missing": "v 0 0\n" + MESH + "f 1 2 3\n",
    "a number out of range": "v 0 0 123456789012345678901234567890\n" + MESH + "f 1 2 3\n",
    "a reference to nothing": MESH + "f 1 2 99\n",
    "an unknown keyword": MESH + "face 1 2 3\nf 1 2 3\n",
    "a curve with too few controls": MESH + "cstype bezier\ndeg 3\ncurv 0 2 1 2 3 4\nparm u 0 1 2\nend\nf 1 2 3\n",
    "a curve that does not end": MESH + "cstype bezier\ndeg 3\ncurv 0 1 1 2 3 4\nparm u 0 1\n",
}


def texts(kind, sizes):
    """For each size, least first, the longest row of whole blocks that it holds."""
    blocks, length, sizes = [], 0, sorted(sizes)
    for block in KINDS[kind](random.Random(1)):
        block = block.encode()
        while sizes and sizes[0] <= length + len(block) + 1:
            yield sizes.pop(0), b"".join(blocks).rstrip(b"\n") + b"\n"
        if not sizes:
            return
        blocks.append(block)
        length += len(block)
