"""Spans of rows and thick segments over exact numbers, from document 01, modules 5 and 7, and W6.

A span is a pair start, end, the end not included; it is empty when its end is not above its start.
"""

from typing import NamedTuple

from joins import Join, end_cap_lines, start_cap_lines
from plane import delta_of
from strokes import walk_of

NEW = (0, 0)


def is_empty(span):
    start, end = span
    return end <= start


def points_of(line):
    """The line's points by W2, in closed form."""
    walk = walk_of(delta_of(line))
    if walk.a == 0:
        return [line[0]]
    return [walk.place(line[0], k, walk.minor_moves(k)) for k in range(walk.a + 1)]


def columns_on(line, row):
    return [x for x, y in points_of(line) if y == row]


def extended(span, columns):
    """The least span that holds the span and the columns."""
    if not columns:
        return span
    least, most = min(columns), max(columns) + 1
    if is_empty(span):
        return least, most
    return min(span[0], least), max(span[1], most)


def meet(span, row, line):
    return extended(span, columns_on(line, row))


def try_extend(span, other):
    """W6: whether it was extended, and the span after."""
    if is_empty(span):
        return True, other
    if is_empty(other):
        return True, span
    if other[0] <= span[1] and span[0] <= other[1]:
        return True, (min(span[0], other[0]), max(span[1], other[1]))
    return False, span


class Segment(NamedTuple):
    start: Join
    end: Join

    def is_skeleton(self):
        return self.start.first_edge_end.left == self.start.first_edge_end.right

    def right_edge(self):
        return self.start.second_edge_start.right, self.end.first_edge_end.right

    def left_edge(self):
        return self.end.first_edge_end.left, self.start.second_edge_start.left

    def perimeter(self):
        """The lines that are drawn, in the Rust's order; at most six."""
        if self.is_skeleton():
            return [self.right_edge()]
        caps = start_cap_lines(self.start) + end_cap_lines(self.end)
        return [*caps, self.right_edge(), self.left_edge()]

    def drawn_rows(self):
        """The first and the last row of the points that are drawn."""
        rows = [y for line in self.perimeter() for _, y in points_of(line)]
        return min(rows), max(rows)

    def edges_bounding_box(self):
        """Top left corner and size; of a skeleton the left edge's."""
        edges = self.left_edge()
        if not self.is_skeleton():
            edges += self.right_edge()
        columns, rows = zip(*edges)
        left, top = min(columns), min(rows)
        return left, top, max(columns) - left + 1, max(rows) - top + 1

    def span(self, row):
        span = NEW
        for line in self.perimeter():
            span = meet(span, row, line)
        return span
