"""Joins of thick lines over exact numbers, from document 01, module 4, with K4 and K9 of document 02."""

from typing import NamedTuple

from plane import distance_of, dot, minus, nearly_colinear, rounded_crossing
from strokes import LEFT, RIGHT, extents

# In the order of their numbers.
KINDS = (
    "Miter",
    "Bevel Left",
    "Bevel Right",
    "Degenerate Left",
    "Degenerate Right",
    "Colinear",
    "Start",
    "End",
)


# In the place of a crossing's divisions, where an edge's end was taken.
NOT_A_CROSSING = "-"


class Corners(NamedTuple):
    left: tuple
    right: tuple


class Origins(NamedTuple):
    left: str = NOT_A_CROSSING
    right: str = NOT_A_CROSSING


class Join(NamedTuple):
    """The position is the place of its middle point in the list; whoever has the list sets it."""

    kind: str
    first_edge_end: Corners
    second_edge_start: Corners
    origins: Origins = Origins()
    position: int = 0

    def corners(self):
        return *self.first_edge_end, *self.second_edge_start


def start(a, b, width, offset):
    corners = Corners(*(edge[0] for edge in extents((a, b), width, offset)))
    return Join("Start", corners, corners)


def end(a, b, width, offset):
    corners = Corners(*(edge[1] for edge in extents((a, b), width, offset)))
    return Join("End", corners, corners)


def meeting(first_edge, second_edge):
    """Where two edges of one side meet, the outer side, and the origin of that point; None if they are parallel."""
    found = rounded_crossing(second_edge, first_edge)
    if found is None:
        return None
    point, outer, divisions = found
    if nearly_colinear(second_edge, first_edge):
        return first_edge[1], outer, NOT_A_CROSSING
    return point, outer, divisions


def overlap(outer, first, second):
    """The second line's inner edge ends inside the first line."""
    if outer == RIGHT:
        return distance_of(first.left, second.left[1]) >= 0
    return distance_of(first.right, second.right[1]) <= 0


def edges(a, b, c, width, offset):
    """The left and right edge of the first line, and those of the second."""
    return [Corners(*extents(line, width, offset)) for line in ((a, b), (b, c))]


def between(a, b, c, width, offset):
    first, second = edges(a, b, c, width, offset)
    ends = Corners(first.left[1], first.right[1])
    starts = Corners(second.left[0], second.right[0])
    on_left, on_right = map(meeting, first, second)
    if on_left is None or on_right is None:
        return Join("Colinear", ends, starts)
    met, outer = Corners(on_left[0], on_right[0]), on_left[1]
    if overlap(outer, first, second):
        return Join(f"Degenerate {outer}", ends, starts)
    miter = minus(met.left if outer == LEFT else met.right, b)
    if dot(miter, miter) <= (2 * width) ** 2:
        return Join("Miter", met, met, Origins(on_left[2], on_right[2]))
    if outer == LEFT:
        corners = ends._replace(right=met.right), starts._replace(right=met.right)
        return Join("Bevel Left", *corners, Origins(right=on_right[2]))
    corners = ends._replace(left=met.left), starts._replace(left=met.left)
    return Join("Bevel Right", *corners, Origins(left=on_left[2]))


def filler_line(join):
    """From the end of the first line to the start of the second, on the outer side."""
    if join.kind.endswith(LEFT):
        return join.first_edge_end.left, join.second_edge_start.left
    if join.kind.endswith(RIGHT):
        return join.first_edge_end.right, join.second_edge_start.right
    return None


def midpoint(line):
    """W5: a half is rounded towards the start."""

    def middle(s, e):
        return (s + e) // 2 if s <= e else -((-s - e) // 2)

    return tuple(map(middle, *line))


def cap(join, corners):
    """Lines from left to right, by the middle of the filler line if there is one."""
    filler = filler_line(join)
    if filler is None:
        return [(corners.left, corners.right)]
    middle = midpoint(filler)
    return [(corners.left, middle), (middle, corners.right)]


def start_cap_lines(join):
    return cap(join, join.second_edge_start)


def end_cap_lines(join):
    return cap(join, join.first_edge_end)


def is_degenerate(join):
    return join.kind.startswith("Degenerate")
