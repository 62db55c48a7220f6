"""Points, lines and crossings over exact numbers: a point is a pair, a line a pair of points."""

import math
from fractions import Fraction


def plus(p, q, times=1):
    return p[0] + times * q[0], p[1] + times * q[1]


def minus(p, q):
    return plus(p, q, -1)


def delta_of(line):
    start, end = line
    return minus(end, start)


def determinant(u, v):
    return u[0] * v[1] - u[1] * v[0]


def dot(u, v):
    return u[0] * v[0] + u[1] * v[1]


def nearest(value):
    """The nearest whole number, halves away from zero."""
    size = math.floor(abs(value) + Fraction(1, 2))
    return -size if value < 0 else size


def division_of(value):
    """How a coordinate comes out: E a whole number, H half way between two, R neither."""
    return {1: "E", 2: "H"}.get(Fraction(value).denominator, "R")


def distance_of(line, point):
    """Twice the signed area of the triangle start, end, point; negative on the left."""
    return determinant(delta_of(line), minus(point, line[0]))


def crossing_of(first, second):
    """The true crossing as two fractions and the determinant of the deltas; None if parallel."""
    delta, other = delta_of(first), delta_of(second)
    turn = determinant(delta, other)
    if turn == 0:
        return None
    t = Fraction(determinant(minus(second[0], first[0]), other), turn)
    return *plus(first[0], delta, t), turn


def rounded_crossing(first, second):
    """The crossing in whole numbers, its outer side, and a letter for each coordinate's division; None if parallel."""
    found = crossing_of(first, second)
    if found is None:
        return None
    x, y, turn = found
    return (nearest(x), nearest(y)), "Left" if turn < 0 else "Right", division_of(x) + division_of(y)


def nearly_colinear(first, second):
    delta, other = delta_of(first), delta_of(second)
    return determinant(delta, other) ** 2 < abs(dot(delta, other))
