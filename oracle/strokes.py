"""Thick lines over exact numbers, in closed form: no error is carried from step to step.

By W2 a walk stands after k moves along its larger delta a and m along its smaller delta b at the
error 2bk - 2am. So the m of each k is a quotient, and the error follows from both.
"""

from itertools import count
from math import isqrt
from typing import NamedTuple

from plane import delta_of, dot, minus, plus

LEFT, RIGHT = "Left", "Right"
OFFSETS = ("None", LEFT, RIGHT)


class Walk(NamedTuple):
    a: int
    b: int
    major: tuple
    minor: tuple

    def minor_moves(self, k, error=0):
        """The least m for which error + 2bk - 2am is not above a."""
        return -((self.a - error - 2 * self.b * k) // (2 * self.a))

    def minor_moves_back(self, k):
        """The least m for which -2bk + 2am is above -a."""
        return (2 * self.b * k - self.a) // (2 * self.a) + 1

    def place(self, start, k, m, sign=1):
        return plus(plus(start, self.major, sign * k), self.minor, sign * m)


def walk_of(delta):
    """W2; x is major on a tie, and a zero delta counts as direction +1."""
    x, y = ((-1, 1)[d >= 0] for d in delta)
    wide, high = map(abs, delta)
    if wide >= high:
        return Walk(wide, high, (x, 0), (0, y))
    return Walk(high, wide, (0, y), (x, 0))


class Parallel(NamedTuple):
    side: str
    point: tuple
    error: int
    extra: bool


def parallels_on(side, start, delta):
    """The parallels of one side, without end, the line itself first (W3, W4).

    They start on a walk across the line, forwards on the left, backwards on the right. The points
    beside its minor moves are starts too if the walk along the line carries there.
    """
    along, across = walk_of(delta), walk_of((delta[1], -delta[0]))
    flip = across.minor == (-along.major[0], -along.major[1])
    falling = flip == (side == LEFT)
    moves, sign = (across.minor_moves, 1) if side == LEFT else (across.minor_moves_back, -1)
    carries = along.minor_moves_back if falling else along.minor_moves

    def error(extras):
        rising = 2 * along.b * extras - 2 * along.a * carries(extras)
        return -rising if falling else rising

    extras = 0
    for k in count():
        if moves(k) > extras:
            if carries(extras + 1) > carries(extras):
                start_error = error(extras if falling else extras + 1)
                yield Parallel(side, across.place(start, k, extras, sign), start_error, True)
            extras += 1
        yield Parallel(side, across.place(start, k, extras, sign), error(extras), False)


def in_turn(right, left):
    """Right first; the line itself is not handed out again on the left."""
    next(left)
    while True:
        yield next(right)
        yield next(left)


def direction_of(line):
    """The delta; a line that is a point takes (1, 0)."""
    start, end = line
    return (1, 0) if start == end else minus(end, start)


def parallels(line, width, offset):
    """The parallels of a thick line in their order."""
    delta = direction_of(line)
    right, left = (parallels_on(side, line[0], delta) for side in (RIGHT, LEFT))
    offered = {"None": in_turn(right, left), LEFT: left, RIGHT: right}[offset]
    a, b, *_ = walk_of(delta)
    most = isqrt(4 * width**2 * dot(delta, delta))
    reached = a + b
    while reached <= most:
        parallel = next(offered)
        reached += 2 * b if parallel.extra else 2 * a
        yield parallel


def extents(line, width, offset):
    """The left and the right edge (W5)."""
    last = {side: Parallel(side, line[0], 0, False) for side in (LEFT, RIGHT)}
    last |= {parallel.side: parallel for parallel in parallels(line, width, offset)}
    walk = walk_of(direction_of(line))

    def edge(side):
        start = last[side].point
        end = plus(start, delta_of(line))
        return start, walk.place(end, 1, 1, -1) if last[side].extra else end

    return edge(LEFT), edge(RIGHT)


def thick_points(line, width):
    """The points of all parallels, each as long as the line; an extra one is a point shorter."""
    walk = walk_of(direction_of(line))
    length = walk_of(delta_of(line)).a + 1
    for parallel in parallels(line, width, "None"):
        for k in range(length - parallel.extra):
            yield walk.place(parallel.point, k, walk.minor_moves(k, parallel.error))
