"""02, Q-8: the head stays inside the block.

Each coordinate of a point lies between the least and the greatest value on that
axis among the controls that its de Casteljau or de Boor starts from, and a
parameter at the start or end of a Bezier segment (on a surface, both) gives that
control exactly.
"""

from itertools import product

from records import BEZIER
from rules import body_of, control_numbers
from sampler import first_control, place_of


def along(body, t, degree, parameters):
    """The controls along one direction that the point at t is made from, and the
    one that it is, where t is one of a Bezier's parameters."""
    first = first_control(body.type, degree, place_of(body.type, degree, parameters, t))
    exact = None
    if body.type == BEZIER and t in parameters:
        exact = parameters.index(t) * degree
    return range(first, first + degree + 1), exact


def inside(tables, element, parameters, point):
    """Whether the point at these parameters, one of a curve or two of a surface,
    keeps to Q-8; so it keeps to the block of all controls too."""
    body = body_of(tables, element)
    lists = zip(body.degrees, (body.u_parameters, body.v_parameters))
    directions = [along(body, t, *rest) for t, rest in zip(parameters, lists)]
    strides = (1, body.u_controls)

    def control(places):
        return sum(stride * place for stride, place in zip(strides, places))

    rows = [control(places) for places in product(*(row for row, _ in directions))]
    exact = [place for _, place in directions]
    for numbers, number in zip(control_numbers(tables, element), point):
        values = [numbers[at] for at in rows]
        if not min(values) <= number <= max(values):
            return False
        if None not in exact and number != numbers[control(exact)]:
            return False
    return True
