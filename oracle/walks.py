"""Walks, merged spans and rows of a route over exact numbers: 01's module 6 and "The board", and K6 and K9 of 02.

A walk is the list of its segments, each made from the points around its own place.
"""

import joins
from board import runs_of
from segments import NEW, Segment, extended, is_empty, meet, points_of, try_extend

MOST_POINTS = 256
MOST_RUNS = 32


def is_doubled(points, closed):
    """Whether a point follows an equal one; on a closed route the first follows the last."""
    following = points[1:] + points[:1] if closed else points[1:]
    return any(a == b for a, b in zip(points, following))


def in_their_places(found):
    """The joins at all points of a list, in its order, each with the position of its point."""
    return [join._replace(position=place) for place, join in enumerate(found)]


def open_segments(points, width):
    """n points have n - 1 segments: a start, the bends, an end; no offset."""
    if len(points) < 2:
        return []
    bends = [joins.between(*three, width, "None") for three in zip(points, points[1:], points[2:])]
    start = joins.start(points[0], points[1], width, "None")
    end = joins.end(points[-2], points[-1], width, "None")
    found = in_their_places([start, *bends, end])
    return [Segment(*pair) for pair in zip(found, found[1:])]


def closed_segments(points, width, offset="None"):
    """n points have n segments; two points have a start in the place of their first bend."""
    if not points:
        return []
    around = [points[-1], *points, points[0]]
    bends = [joins.between(*three, width, offset) for three in zip(around, points, around[2:])]
    if len(points) == 2:
        bends[0] = joins.start(*points, width, offset)
    found = in_their_places(bends)
    return [Segment(*pair) for pair in zip(found, found[1:] + found[:1])]


def span_on(segment, row):
    """The segment's span; lines that do not come to the row are passed over."""
    span = NEW
    for line in segment.perimeter():
        (_, first), (_, last) = line
        if min(first, last) <= row <= max(first, last):
            span = meet(span, row, line)
    return span


def merged(spans):
    """The merged spans by W6: empty ones change nothing; one apart from the last begins anew."""
    found = []
    for span in spans:
        if is_empty(span):
            continue
        joined, hull = try_extend(found[-1], span) if found else (False, None)
        if joined:
            found[-1] = hull
        else:
            found.append(span)
    return found


def merged_as_printed(spans):
    """The same by the printed body: an empty span neither extends another nor is extended."""
    found, current = [], NEW
    for span in spans:
        joined, hull = try_extend(current, span)
        if joined and not is_empty(current) and not is_empty(span):
            current = hull
        else:
            found.append(current)
            current = span
    return found if is_empty(current) else [*found, current]


def columns_of(spans):
    return {column for start, end in spans for column in range(start, end)}


def spans_by_row(segment):
    """The segment's span on every row that it comes to."""
    columns = {}
    for line in segment.perimeter():
        for x, y in points_of(line):
            columns.setdefault(y, []).append(x)
    return {row: extended(NEW, found) for row, found in columns.items()}


def rows_of(segments):
    """From the first to the last row that has a drawn point."""
    rows = [row for segment in segments for row in segment.drawn_rows()]
    return range(min(rows), max(rows) + 1) if rows else range(0)


def runs_by_row(segments):
    """Of each row: the row, the most runs that there are after some segment, the runs."""
    spans = [spans_by_row(segment) for segment in segments]
    for row in rows_of(segments):
        lit, most = set(), 0
        for offered in spans:
            if row in offered:
                lit.update(range(*offered[row]))
                most = max(most, len(runs_of(lit)))
        yield row, most, runs_of(lit)
