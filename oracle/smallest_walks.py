#!/usr/bin/env python3
"""oracle/smallest_walks.py [SRC]: where walks and merged spans differ from the Rust, small inputs.

The walks have no arithmetic of their own: they leave i32 where their joins do. A column painted
twice needs three spans, so four points; the routes of four points within the box 1 are tried in
order, from width 0 on.
"""

import subprocess
import sys
from itertools import product

sys.dont_write_bytecode = True

import driver
import exact
import walks

WITNESSES = {
    "the printed body hands out an empty span": "M 0 0 0 4 0 0 1 0",
    "the same on a row that the route does not come to": "M 0 0 1 4 0 0 1 0",
    "painted twice by the printed body alone": "M 0 0 0 8 0 0 0 1 1 1 0 0",
    "painted twice": "M 0 0 0 8 1 0 0 1 -1 0 1 0",
    "threshold": "O 64 0 0 4 -128 -128 128 128",
    "accumulator": "O 64 0 0 4 -127 -127 128 128",
    "square of the left determinant": "O 0 0 0 6 -108 -108 108 -108 108 108",
    "the same, where the answer is another": "O 2 0 0 6 -108 -108 108 -108 108 108",
}
# Routes that are refused here and what the Rust makes of them; the last is not, and stands beside the one before.
REFUSED = {
    "a closed route of one point": "C 0 0 0 2 0 0",
    "a point twice": "M 3 0 0 4 0 0 0 0",
    "a bend with its point twice": "M 3 0 -1 8 0 0 6 0 6 0 6 6",
    "the same bend with its point once": "M 3 0 -1 6 0 0 6 0 6 6",
}


def routes_of_four(size):
    """Those with a coordinate of this size and no two equal points on end, small sums of sizes first."""
    around = range(-size, size + 1)
    numbers = [n for n in product(around, repeat=8) if max(map(abs, n)) == size]
    numbers.sort(key=lambda n: (sum(map(abs, n)), [(abs(c), -c) for c in n]))
    return (points for points in map(exact.paired, numbers) if not walks.is_doubled(points, closed=False))


def rows_of(found):
    rows = [y for segment in found for line in segment.perimeter() for _, y in line]
    return range(min(rows), max(rows) + 1)


def painted_twice(spans):
    return sum(max(0, end - start) for start, end in spans) > len(walks.columns_of(spans))


def first_painted_twice(by_printed_body_alone):
    for size, width in product(range(2), range(65)):
        for points in routes_of_four(size):
            found = walks.open_segments(points, width)
            for row in rows_of(found):
                spans = [walks.span_on(segment, row) for segment in found]
                here = painted_twice(walks.merged(spans))
                printed = painted_twice(walks.merged_as_printed(spans))
                if (printed and not here) if by_printed_body_alone else here:
                    return exact.words("M", width, 0, row, 8, *exact.flat(points))
    return None


def told(question, variant):
    """What a build says; the reason where it stops for another cause than an operation's range."""
    try:
        return driver.ask([question], variant, mode=("places",), errors=subprocess.PIPE)[0]
    except subprocess.CalledProcessError as stop:
        return f"stops, {stop.stderr.strip()}"


def main():
    source = sys.argv[1] if len(sys.argv) > 1 else driver.SOURCE
    for variant in ("checked", "release"):
        driver.build(source, variant)
    assert first_painted_twice(True) == WITNESSES["painted twice by the printed body alone"]
    assert first_painted_twice(False) == WITNESSES["painted twice"]
    for place, question in (WITNESSES | REFUSED).items():
        print(f"{place}: {question}")
        print(f"  checked {told(question, 'checked')}")
        print(f"  release {told(question, 'release')}")
        print(f"  exact   {exact.answer(question)}")


if __name__ == "__main__":
    main()
