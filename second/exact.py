"""The exact value at a parameter: a fraction, from the tables alone, by the
Bernstein and Cox-de Boor sums.  Nothing here is shared with the rounded rule
but the choice of segment or span, which the two have in common by rule."""

from fractions import Fraction
from math import comb

from records import BEZIER
from rules import body_of, control_numbers
from sampler import place_of


def weights(type_, degree, parameters, t):
    """The weight of every control along one direction."""
    place = place_of(type_, degree, parameters, t)
    if type_ == BEZIER:
        start, end = parameters[place], parameters[place + 1]
        return bernstein(degree, len(parameters) - 1, place, Fraction(t - start, end - start))
    return cox_de_boor(degree, parameters, place, t)


def bernstein(n, segments, g, q):
    """Segment g has controls gn to gn+n; controls outside it weigh 0."""
    found = [Fraction(0)] * (n * segments + 1)
    for i in range(n + 1):
        found[g * n + i] = comb(n, i) * q ** i * (1 - q) ** (n - i)
    return found


def cox_de_boor(n, x, span, t):
    """N(i,n) for each control i; a part whose divisor is 0 counts as 0."""
    basis = [Fraction(int(i == span)) for i in range(len(x) - 1)]
    for r in range(1, n + 1):
        level = []
        for i in range(len(x) - 1 - r):
            sum_ = Fraction(0)
            if x[i + r] != x[i]:
                sum_ += basis[i] * Fraction(t - x[i], x[i + r] - x[i])
            if x[i + r + 1] != x[i + 1]:
                sum_ += basis[i + 1] * Fraction(x[i + r + 1] - t, x[i + r + 1] - x[i + 1])
            level.append(sum_)
        basis = level
    return basis


def exact_on_curve(tables, element, t):
    """One fraction for each axis, of an element that obeys the rules."""
    body = body_of(tables, element)
    weight = weights(body.type, body.degrees[0], body.u_parameters, t)
    return [
        sum(w * number for w, number in zip(weight, numbers) if w)
        for numbers in control_numbers(tables, element)
    ]


def exact_in_segment(tables, element, segment, q):
    """The same at q of a given segment of a Bezier curve."""
    body = body_of(tables, element)
    weight = bernstein(body.degrees[0], len(body.u_parameters) - 1, segment, q)
    return [
        sum(w * number for w, number in zip(weight, numbers) if w)
        for numbers in control_numbers(tables, element)
    ]


def exact_on_surface(tables, element, u, v):
    """The control at i along u and j along v weighs i's u weight times j's v
    weight; u varies fastest."""
    body = body_of(tables, element)
    m, n = body.degrees
    u_weight = weights(body.type, m, body.u_parameters, u)
    v_weight = weights(body.type, n, body.v_parameters, v)
    pairs = [
        (j * len(u_weight) + i, b * a)
        for j, b in enumerate(v_weight) if b
        for i, a in enumerate(u_weight) if a
    ]
    return [
        sum(w * numbers[at] for at, w in pairs)
        for numbers in control_numbers(tables, element)
    ]


def within(point, exact, degree):
    """Each coordinate differs by at most half a millionth for each degree."""
    return len(point) == len(exact) and all(
        2 * abs(number - value) <= degree for number, value in zip(point, exact)
    )
