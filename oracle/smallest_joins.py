#!/usr/bin/env python3
"""oracle/smallest_joins.py [SRC]: where joins leave i32 in the Rust, a small input for each place.

Five operations do: the two of the thick lines (`smallest_strokes.py`), the squares of the left and of
the right edges' determinant, and the squared miter. Within the box |coordinate| <= 107 two
joined lines have a determinant of at most 4 * 107^2 = 45,796; edges that are a step shorter in both
parts add no 545 to one so large, so that the square leaves i32 from the box 108 on. For the right
determinant and the miter, whose earlier squares must fit, the inputs are the smallest ones that
random searches met.
"""

import sys

sys.dont_write_bytecode = True

import driver
import exact
import joins
import smallest_strokes
from plane import delta_of, determinant, dot, minus
from strokes import OFFSETS

I32 = smallest_strokes.I32

WITNESSES = {
    "threshold": "j -128 -128 128 128 128 -128 64 0",
    "accumulator": "j -127 -127 128 128 128 -127 64 0",
    "square of the left determinant": "j -108 -108 108 -108 108 108 3 0",
    "square of the right determinant": "j -139 -23 64 -100 139 100 9 0",
    "squared miter": "j 118 -134 -119 134 115 -132 64 1",
}
# P10 of document 01.
RIGHT_ANGLE = "j 0 0 216 0 216 216 3 0"


def values(a, b, c, width, offset):
    """The squares of a join in the Rust's order, as far as it comes."""
    first, second = joins.edges(a, b, c, width, offset)
    turns = [determinant(delta_of(s), delta_of(f)) for f, s in zip(first, second)]
    for side, turn in zip(("left", "right"), turns):
        if turn == 0:
            return
        yield f"square of the {side} determinant", turn**2
    (left, outer, _), (right, _, _) = map(joins.meeting, first, second)
    if not joins.overlap(outer, first, second):
        miter = minus(left if outer == "Left" else right, b)
        yield "squared miter", dot(miter, miter)


def first_leaving(a, b, c, width, offset):
    for line in ((a, b), (b, c)):
        delta = delta_of(line)
        place = delta != (0, 0) and smallest_strokes.first_leaving(delta, width, offset)
        if place:
            return place
    found = values(a, b, c, width, offset)
    return next((place for place, value in found if value not in I32), None)


def place_of(question):
    *numbers, width, offset = map(int, question.split()[1:])
    return first_leaving(*exact.paired(numbers), width, OFFSETS[offset])


def main():
    source = sys.argv[1] if len(sys.argv) > 1 else driver.SOURCE
    for variant in ("checked", "release"):
        driver.build(source, variant)
    for place, question in WITNESSES.items():
        assert place_of(question) == place, question
    for question in (RIGHT_ANGLE, *WITNESSES.values()):
        print(f"{place_of(question)}: {question}")
        print(f"  checked {driver.ask([question], mode=('places',))[0]}")
        print(f"  release {driver.ask_release(question)}")
        print(f"  exact   {exact.answer(question)}")


if __name__ == "__main__":
    main()
