#!/usr/bin/env python3
"""Writes what the program test_in_place has to print, crates/test_in_place/stdout, from exact joins, segments and sets of lit columns.

A route is here the list of its segments, made at once; a walk is a place in that list. The form of the lines is told at the top
of crates/test_in_place/src/main.rt.
"""

from pathlib import Path

from board import runs_of
from strokes import LEFT, RIGHT
from walks import closed_segments, open_segments

ZIGZAG = [(0, 0), (10, 40), (20, 0), (30, 40), (40, 0), (50, 40)]
NUMBERS, RECORDS = 12, 4


def numbers(*groups):
    return " ".join(str(x) for group in groups for x in group)


def listing(lit):
    """To lists of -7 and of -8 -9, which stay as they are beyond the runs, and where they are too short."""
    runs = runs_of(lit)
    short = NUMBERS < 2 * len(runs) or RECORDS < len(runs)
    answer, listed = ((8, 0, 0), []) if short else ((0, len(runs), len(lit)), runs)
    told = [x for run in listed for x in run]
    in_numbers = told + [-7] * (NUMBERS - len(told))
    in_records = told + [-8, -9] * (RECORDS - len(listed))
    return f"{numbers(answer)} | {numbers(in_numbers)} | {numbers(in_records)}"


def route(segments, row):
    """Each segment, twice the end, and the runs of the row."""
    lit = set()
    for place, segment in enumerate(segments, 1):
        span = segment.span(row)
        lit.update(range(*span))
        of_joins = [(*join.origins, join.position) for join in segment]
        yield f"{place} {numbers(*segment.right_edge(), *segment.left_edge(), span, *of_joins)}"
    for _ in range(2):
        yield f"{len(segments)} end"
    yield listing(lit)


def lines():
    yield from route(open_segments(ZIGZAG[:5], 3), 20)
    yield from route(open_segments(ZIGZAG[:5], 7), 3)
    yield from route(closed_segments(ZIGZAG, 3, LEFT), 20)
    yield from route(closed_segments(ZIGZAG[:3], 5, RIGHT), 11)
    # two steps at place 2, and nothing is lit: width 65, a point twice on end, and a closed route that ends where it begins
    for refusal in (3, 12, 12):
        yield from [f"2 refused {refusal}"] * 2
        yield listing(set())


if __name__ == "__main__":
    target = Path(__file__).resolve().parent.parent / "crates" / "test_in_place" / "stdout"
    target.write_text("".join(line + "\n" for line in lines()))
