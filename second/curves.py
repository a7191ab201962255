"""Seeded curves and surfaces with what is asked of them, for the program that
samples: degrees 1 to 20, both types, multiple knots, ends of ranges, extreme
coordinates.  `requests(seed, count)` yields (label, text, steps, s, t, tolerance);
the text says s, t and the tolerance too, as its first vn."""

import random

from records import BSPLINE, continuous

LEAST, MOST = -2_000_000_000, 2_000_000_000


def millionths(number):
    sign, size = "-" if number < 0 else "", abs(number)
    return f"{sign}{size // 1_000_000}.{size % 1_000_000:06}"


def coordinate(rng):
    return rng.choice([LEAST, MOST, 0, 1, -1, rng.randint(LEAST, MOST), rng.randint(-999, 999)])


def rising(rng, count):
    step = rng.choice([1, 7, 1_000_000, 3_999_999_999 // count])
    first = rng.randint(LEAST, MOST - step * (count - 1))
    return [first + step * i for i in range(count)]


def knots(rng, degree, count):
    """Never falling, with multiple knots, x_n under x_k, inner ones at most n times."""
    distinct = rising(rng, rng.randint(2, count))
    for _ in range(100):
        found = sorted(distinct + rng.choices(distinct, k=count - len(distinct)))
        if found[degree] < found[count - degree - 1] and continuous(BSPLINE, degree, found):
            return found
    return [distinct[0]] * (count // 2) + [distinct[-1]] * (count - count // 2)


def direction(rng, type_, degree, most):
    """Parameters, the number of controls and the widest range."""
    if type_ == "bezier":
        segments = max(1, min(most, rng.randint(1, 3)))
        found = rising(rng, segments + 1)
        return found, degree * segments + 1, (found[0], found[-1])
    controls = degree + 1 + rng.randint(0, most)
    found = knots(rng, degree, controls + degree + 1)
    return found, controls, (found[degree], found[controls])


def part(rng, low, high):
    """The widest range, or a part of it."""
    if high - low < 3 or rng.random() < 0.5:
        return low, high
    start = rng.randint(low, high - 1)
    return start, rng.randint(start + 1, high)


def asked(rng, parameters, start, end):
    """A parameter: an end, a knot, one between or one outside."""
    inside = [x for x in parameters if start <= x <= end]
    return rng.choice([start, end, *inside[:2], rng.randint(start, end), rng.randint(start, end),
                       max(LEAST, min(MOST, rng.choice([start - 1, end + 1])))])


def words(numbers):
    return " ".join(map(millionths, numbers))


def text(rng, kind, type_, degrees, tolerance=0):
    most = 4 if kind != "surf" else 1
    sides = [direction(rng, type_, degree, most) for degree in degrees]
    limits = [part(rng, *side[2]) if kind != "curv2" else side[2] for side in sides]
    controls = 1
    for side in sides:
        controls *= side[1]
    vertex = "vp" if kind == "curv2" else "v"
    axes = 2 if kind == "curv2" else 3
    distinct = min(controls, rng.randint(1, 60))
    lines = [f"{vertex} " + words(coordinate(rng) for _ in range(axes)) for _ in range(distinct)]
    lines += [f"cstype {type_}", "deg " + " ".join(map(str, degrees))]
    references = [str(rng.randint(1, distinct)) for _ in range(controls)]
    lines.append(" ".join(filter(None, [
        kind, "" if kind == "curv2" else words(end for limit in limits for end in limit), *references])))
    lines += [f"parm {name} {words(side[0])}" for name, side in zip("uv", sides)]
    lines += ["end", ""]
    s, t = (asked(rng, sides[i][0], *limits[i]) for i in (0, -1))
    lines.insert(0, f"vn {words((s, t, tolerance))}")
    return "\n".join(lines).encode(), s, t


def requests(seed, count):
    rng, tolerances = random.Random(seed), random.Random(seed + 1)
    for number in range(count):
        kind = ("curv", "curv2", "surf")[number % 3]
        degree = number // 3 % 20 + 1
        degrees = [degree] if kind != "surf" else rng.choice([[degree, 1], [1, degree], [2, 3], [3, 2]])
        type_ = rng.choice(("bezier", "bspline"))
        tolerance = tolerances.choice([-1, 0, 1, 999_999, *[2 * MOST // 2 ** k for k in range(1, 8)]])
        data, s, t = text(rng, kind, type_, degrees, tolerance)
        label = f"{number + 1} {kind} {type_} {' '.join(map(str, degrees))}"
        yield label, data, rng.choice([0, 1, 2, 3, 7, 19, 20, 30]), s, t, tolerance
