#!/usr/bin/env python3
"""oracle/smallest_strokes.py [SRC]: where thick lines leave i32 in the Rust, and how early.

Two operations do: the threshold (2 * width)^2 * squared length, and the square of the accumulator
that is compared with it. Both depend on the line's delta alone; a delta fits into a box
|coordinate| <= M exactly if its larger part is at most 2M. So boxes of growing M are searched, in
each the deltas that no smaller box has.
"""

import sys
from itertools import product
from math import isqrt

sys.dont_write_bytecode = True

import driver
import exact
import strokes
from plane import dot

I32 = range(-(2**31), 2**31)


def threshold(delta, width):
    return (2 * width) ** 2 * dot(delta, delta)


def last_accumulator(delta, width, offset):
    """The accumulator that ends the parallels."""
    a, b, *_ = strokes.walk_of(delta)
    found = strokes.parallels(((0, 0), delta), width, offset)
    return a + b + sum(2 * b if parallel.extra else 2 * a for parallel in found)


def first_leaving(delta, width, offset):
    if threshold(delta, width) not in I32:
        return "threshold"
    if last_accumulator(delta, width, offset) ** 2 not in I32:
        return "accumulator"
    return None


def deltas_of_box(size):
    """All deltas whose smallest box this is, the axes and the first octants first."""
    larger = (2 * size - 1, 2 * size)
    for a, b in product(larger, range(2 * size + 1)):
        if b <= a:
            yield from ((a, b), (b, a), (a, -b), (b, -a), (-a, b), (-b, a), (-a, -b), (-b, -a))


def placed_in_box(delta):
    """The line of this delta around the origin: its coordinates are the least."""
    start = tuple(-(d // 2) for d in delta)
    return *start, *(s + d for s, d in zip(start, delta))


def may_leave(delta, width):
    """The accumulator passes the root of the threshold by at most a step of the larger part."""
    return isqrt(threshold(delta, width)) + 2 * max(map(abs, delta)) > isqrt(I32[-1])


def smallest_box(place, width):
    """The first input that leaves i32 at the place, in boxes of growing size, or None."""
    for size in range(1, exact.ROUTE_LIMIT + 1):
        if not may_leave((2 * size, 2 * size), width):
            continue
        for delta, offset in product(deltas_of_box(size), strokes.OFFSETS):
            if may_leave(delta, width) and first_leaving(delta, width, offset) == place:
                return exact.words("x", *placed_in_box(delta), width, strokes.OFFSETS.index(offset))
    return None


def witnesses():
    """For each place an input of the smallest box and one of the smallest width."""
    for place in ("threshold", "accumulator"):
        widths = range(exact.WIDTH_LIMIT + 1)
        yield place, "smallest box", smallest_box(place, widths[-1])
        found = (smallest_box(place, width) for width in widths)
        yield place, "smallest width", next(question for question in found if question)


def main():
    source = sys.argv[1] if len(sys.argv) > 1 else driver.SOURCE
    for variant in ("checked", "release"):
        driver.build(source, variant)
    for place, by, question in witnesses():
        print(f"{place}, {by}: {question}")
        print(f"  checked {driver.ask([question], mode=('places',))[0]}")
        print(f"  release {driver.ask_release(question)}")
        print(f"  exact   {exact.answer(question)}")


if __name__ == "__main__":
    main()
