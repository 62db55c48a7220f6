#!/usr/bin/env python3
"""oracle/corners.py: what the program test_corners must write, by the independent calculation.

The questions are those of crates/test_corners/src/main.rt: document 01's corners marked "Run only", a skeleton whose box has
other rows than its drawn line, and routes with joins that are too far where corners may go no farther than 45.
"""

import sys

sys.dont_write_bytecode = True

import exact
import walks
from board import Replay
from exact import words
from joins import edges, meeting
from plane import dot, minus
from strokes import LEFT

# Bends found by a search of small ones, and what 01 says of their miters.
MITERS = (
    (15, 9, 20, 10, 13, 11),
    (15, 11, 20, 10, 13, 9),
    (17, 9, 20, 10, 13, 10),
    (17, 11, 20, 10, 13, 10),
)
KEPT, CUT = "squared miter 36 at width 3: kept", "squared miter 37 at width 3: cut"
RIGHT_ANGLE = (0, 0, 60, 0, 60, 60)
AT_LIMITS = (511, -511, -511, -511, -511, 511)
# A closed route whose second segment is a skeleton with the offset Right, at width 2; its edges differ.
TRIANGLE = (-5, -3, -1, -1, 3, -5)
# Of each whether it is closed, and its coordinates. Its joins that are too far, at width 5: the end; the start, and the end; the bends
# behind the first; none; all, and a doubled point; the bend at 0, where the closing segment ends; the second point alone; the last two.
FAR = (
    (False, (0, 0, 40, 0, 40, 30, 60, 0)),
    (False, (50, 0, 0, 0, 60, 0)),
    (False, (0, 0, 20, 0, 20, 44, 0, 44)),
    (False, (0, 0, 40, 0)),
    (False, (60, 0, 60, 0, 0, 0)),
    (True, (46, 0, 0, 20, 0, 0)),
    (True, (0, 0, 0, 50)),
    (True, (0, 0, 20, 0, 20, 44, 0, 44)),
)
FAR_LIMIT = 45
# What stands in a lent list before.
UNTOUCHED = -7


def squared_miter(width, bend):
    """Squared distance of the outer corner from the middle point, kept or not."""
    a, middle, c = exact.paired(bend)
    left, right = map(meeting, *edges(a, middle, c, width, "None"))
    miter = minus((left if left[1] == LEFT else right)[0], middle)
    return dot(miter, miter)


def miter_line(width, bend):
    join = exact.answer(words("j", *bend, width, 0))
    fate = {"Miter": "kept", "Bevel": "cut"}[join.split()[0]]
    square = squared_miter(width, bend)
    return f"squared miter {square} at width {width}: {fate}; points {words(*bend)}, {join}"


def miter_lines():
    found = [miter_line(3, bend) for bend in MITERS]
    assert [line.partition(";")[0] for line in found] == [KEPT, KEPT, CUT, CUT]
    return found


def one_beyond():
    """Each coordinate at its limit, one of them one beyond, on either side."""
    for place in range(len(AT_LIMITS)):
        for beyond in (512, -512):
            yield *AT_LIMITS[:place], beyond, *AT_LIMITS[place + 1 :]


def listed(refusal, runs, room):
    if refusal:
        return f"list of {room}: refused {refusal}"
    numbers = [*exact.flat(runs), *[UNTOUCHED] * (room - 2 * len(runs))]
    total = sum(end - start for start, end in runs)
    return f"list of {room}: runs {len(runs)}, columns {total}: {words(*numbers)}"


def row_words(coordinates, width, row, room):
    """The runs of an open route's row, in a list of so many numbers."""
    try:
        found = segments_of(coordinates, width)
        rows = {number: (most, runs) for number, most, runs in walks.runs_by_row(found)}
        most, runs = rows[row]
        exact.refuse(8, most > walks.MOST_RUNS or 2 * len(runs) > room)
        return f"row {row}, {listed(0, runs, room)}"
    except exact.Refused as refusal:
        return f"row {row}, {listed(refusal, [], room)}"


def segments_of(coordinates, width):
    found = walks.open_segments(exact.route(width, len(coordinates), coordinates), width)
    exact.refuse_corners(*(join for segment in found for join in segment))
    return found


def bend_lines(width, bend):
    yield "edges " + exact.answer(words("x", *bend[:4], width, 0))
    yield "join " + exact.answer(words("j", *bend, width, 0))
    yield row_words(bend, width, bend[3], 2)


def bends():
    yield 64, RIGHT_ANGLE
    yield 65, RIGHT_ANGLE
    yield 1, AT_LIMITS
    yield 1, tuple(-number for number in AT_LIMITS)
    for bend in one_beyond():
        yield 1, bend


def verdict(refusal):
    return f"refused {refusal}" if refusal else "accepted"


def board_lines():
    """One column more than there is room for; two runs joined; the column again."""
    replay = Replay()
    replay.fresh(0)

    def offer(start, end):
        refusal = replay.offered(0, start, end)
        return f"offer {start} {end}: {verdict(refusal)}, runs {replay.board.count}"

    def listing(room):
        runs = replay.board.live()
        return f"board, {listed(8 if room < 2 * len(runs) else 0, runs, room)}"

    for column in range(0, 66, 2):
        yield offer(column, column + 1)
    yield listing(64)
    yield listing(63)
    yield offer(1, 2)
    yield offer(64, 65)
    yield listing(64)


def route_refusal(coordinates, width):
    try:
        exact.runs_of_route(coordinates, width, closed=False)
    except exact.Refused as refusal:
        return refusal
    return 0


def zigzag_lines(strokes):
    points = [(4 * i, 4 * (i % 2)) for i in range(strokes + 1)]
    coordinates = exact.flat(points)
    for room in (64, 63, 66):
        yield row_words(coordinates, 1, 2, room)
    yield f"all rows {verdict(route_refusal(coordinates, 1))}"


def skeleton_lines():
    found = walks.closed_segments(exact.paired(TRIANGLE), 2, "Right")
    for place, segment in enumerate(found):
        _, top, _, height = segment.edges_bounding_box()
        boxed, drawn = words(top, top + height - 1), words(*segment.drawn_rows())
        skeleton = exact.truth(segment.is_skeleton())
        yield f"segment {place}: skeleton {skeleton}, rows of the box {boxed}, of what is drawn {drawn}"


def told(refuse, *asked):
    """What is refused, or nothing."""
    try:
        refuse(*asked)
    except exact.Refused as refusal:
        return refusal
    return None


def far_line(closed, coordinates):
    """What the route is refused with as a whole, and each of its first four steps."""

    def segments():
        points = exact.route(5, len(coordinates), coordinates, closed)
        return (walks.closed_segments if closed else walks.open_segments)(points, 5)

    def step(place):
        found = segments()
        if place < len(found):
            exact.refuse_corners(*found[place])
        return "segment" if place < len(found) else "end"

    whole = told(lambda: exact.refuse_corners(*(join for segment in segments() for join in segment)))
    steps = [told(step, place) for place in range(4)]
    words_of = [f"refused {refusal}" if refusal else step(place) for place, refusal in enumerate(steps)]
    name = "closed" if closed else "open"
    return f"corners within {FAR_LIMIT}, {name} {words(*coordinates)}: {verdict(whole)}; {', '.join(words_of)}"


def far_lines():
    limit, exact.CORNER_LIMIT = exact.CORNER_LIMIT, FAR_LIMIT
    yield from [far_line(*asked) for asked in FAR]
    exact.CORNER_LIMIT = limit


def lines():
    yield from miter_lines()
    for width, bend in bends():
        for line in bend_lines(width, bend):
            yield f"width {width}, points {words(*bend)}: {line}"
    yield from board_lines()
    for strokes in (32, 33):
        for line in zigzag_lines(strokes):
            yield f"zigzag of {strokes} strokes: {line}"
    for line in skeleton_lines():
        yield f"closed {words(*TRIANGLE)}, Right, {line}"
    yield from far_lines()


if __name__ == "__main__":
    print("\n".join(lines()))
