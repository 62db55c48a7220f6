"""The questions of the list `crossings`: kinds e, d, s, c and n.

`questions` answers pairs (class, question), always the same ones.
"""

import random
from itertools import product
from math import gcd

import exact
import smallest
from asking import DIRECTIONS, FAR, listed, one_changed, point_within, scaled
from asking import placed as placed_within
from plane import crossing_of, determinant, division_of, dot, plus

SEED = 8556422127
LIMIT = exact.CROSSING_LIMIT
# The points that each kind takes.
KINDS = {"e": 2, "d": 3, "s": 3, "c": 4, "n": 4}
TWO_LINES = "cn"

# From document 01, "Corners with numbers". P7 asks for any second line: three are taken.
WORKED = [
    ("c 0 0 4 0 2 -2 2 2", "2 0 Right EE"),
    ("c 2 -2 2 2 0 0 4 0", "2 0 Left EE"),
    ("c 0 0 1 1 0 1 1 0", "1 1 Left HH"),
    ("c 0 0 -1 -1 0 -1 -1 0", "-1 -1 Left HH"),
    ("c 0 0 4 0 0 1 4 1", "Colinear"),
    ("c 3 3 3 3 0 0 4 0", "Colinear"),
    ("c 3 3 3 3 3 3 -1023 1023", "Colinear"),
    ("c 3 3 3 3 3 3 3 3", "Colinear"),
    ("n 0 0 1 0 0 0 1 1", "false"),
    ("n 0 0 1 0 0 0 2 1", "true"),
    ("s 0 0 10 0 5 -1", "true false"),
    ("s 0 0 10 0 5 0", "true true"),
    # By hand, for K4 of document 02: (3/4, 1/4), (-3, -1/2) and (1/3, -1/2).
    ("c 0 0 3 1 0 1 1 0", "1 0 Left RR"),
    ("c -3 0 -3 -4 -4 0 -2 -1", "-3 -1 Right EH"),
    ("c 0 0 2 -3 0 -1 2 2", "0 -1 Right RH"),
]


def ask(kind, *points):
    return exact.words(kind, *exact.flat(points))


def placed(rng, delta, size=LIMIT):
    return placed_within(rng, delta, size)


def reach(p):
    return max(map(abs, p))


def mirrored(points):
    """x and y exchanged."""
    return [(y, x) for x, y in points]


def random_within(rng, size):
    counts = {"e": 25, "d": 40, "s": 40, "c": 120, "n": 60}
    for kind in KINDS:
        for _ in range(counts[kind]):
            yield ask(kind, *(point_within(rng, size) for _ in range(KINDS[kind])))


def at_the_limits(rng):
    values = (-LIMIT, 1 - LIMIT, 0, 1, LIMIT - 1, LIMIT)
    counts = {"e": 30, "d": 50, "s": 50, "c": 150, "n": 80}
    for kind in KINDS:
        for _ in range(counts[kind]):
            points = [(rng.choice(values), rng.choice(values)) for _ in range(KINDS[kind])]
            yield ask(kind, *points)


def near_the_border(rng):
    """All coordinates large, so that numerators of the crossing leave i32 now and then."""
    for kind, times in (("c", 120), ("n", 40)):
        for _ in range(times):
            numbers = [rng.choice((-1, 1)) * rng.randint(600, LIMIT) for _ in range(8)]
            yield exact.words(kind, *numbers)


def zero_deltas(rng):
    for size in (3, LIMIT):
        for _ in range(6):
            p, q, r, s = (point_within(rng, size) for _ in range(4))
            yield ask("e", p, p)
            for kind in "ds":
                yield ask(kind, p, p, q)
                yield ask(kind, p, p, p)
            for kind in TWO_LINES:
                yield ask(kind, p, p, r, s)
                yield ask(kind, r, s, p, p)
                yield ask(kind, p, p, q, q)
                yield ask(kind, p, p, p, p)


def parallel_lines(rng):
    """Deltas that are multiples of one; the same line; the same line reversed."""
    for size in (2, 20, 200):
        for _ in range(12):
            base = point_within(rng, size)
            p, q = placed(rng, scaled(base, rng.randint(1, 5)))
            r, s = placed(rng, scaled(base, rng.choice((-5, -3, -2, -1, 1, 2, 4))))
            for kind in TWO_LINES:
                yield ask(kind, p, q, r, s)
                yield ask(kind, p, q, p, q)
                yield ask(kind, p, q, q, p)


def coprime_delta(rng, size):
    """A delta of a line inside the box, its two numbers without common factor and above 1."""
    while True:
        x, y = rng.randint(2, 2 * size), rng.randint(2, 2 * size)
        if gcd(x, y) == 1:
            return rng.choice((-x, x)), y


def partner(rng, delta, turn, size):
    """A second delta inside the box, for which the determinant is `turn`."""
    x, y = delta
    height = turn * pow(x, -1, y) % y
    least = (x * height - turn) // y, height
    found = [plus(least, delta, times) for times in range(-4, 5)]
    return rng.choice([other for other in found if reach(other) <= 2 * size])


def small_determinants(rng):
    """Long lines nearly parallel: most cross far away, at determinant 2 or -2 often at halves."""
    far = [(-LIMIT, LIMIT - 1), (LIMIT, LIMIT), (-LIMIT, -LIMIT), (LIMIT - 1, 1 - LIMIT)]
    p, q, r, s = far
    for kind in TWO_LINES:
        yield ask(kind, p, q, r, s)
        yield ask(kind, r, s, p, q)
        yield ask(kind, q, p, r, s)
        yield ask(kind, *mirrored(far))
    for kind, times in (("c", 16), ("n", 5)):
        for size, turn in product((60, 300, LIMIT), (1, -1, 2, -2)):
            for _ in range(times):
                delta = coprime_delta(rng, size)
                other = partner(rng, delta, turn, size)
                yield ask(kind, *placed(rng, delta, size), *placed(rng, other, size))


def line_through(rng, doubled, size):
    """A line of the box through the point that `doubled` is twice of; its ends are whole."""
    start = tuple(rng.randint(max(-size, m - size), min(size, m + size)) for m in doubled)
    way = plus(doubled, start, -2)
    if way == (0, 0):
        return start, start
    step = way[0] // gcd(*way), way[1] // gcd(*way)
    ends = [plus(start, step, times) for times in range(-2 * size, 2 * size + 1) if times != 0]
    return start, rng.choice([end for end in ends if reach(end) <= size])


def lines_crossing_at(rng, doubled, turn, size):
    """Two lines that cross at half of `doubled`, with a determinant of the sign of `turn`."""
    while True:
        first = line_through(rng, doubled, size)
        second = line_through(rng, doubled, size)
        found = crossing_of(first, second)
        if found is not None and found[2] * turn > 0:
            return *first, *second


def doubled_coordinate(rng, form, size):
    """Twice a coordinate that is zero, or a half or a whole number of the given sign."""
    sign, kind = form
    if kind == "half":
        return sign * rng.randrange(1, 2 * size, 2)
    return sign * 2 * rng.randint(1, size - 1)


def halves_and_zeros(rng):
    """Crossings exactly at halves, at zero, and one of each, for both signs of the determinant."""
    special = [(1, "half"), (-1, "half"), (0, "whole")]
    forms = [*special, (1, "whole"), (-1, "whole")]
    for size, of_x, of_y, turn in product((4, 60, LIMIT), forms, forms, (1, -1)):
        if of_x in special or of_y in special:
            for _ in range(2):
                doubled = tuple(doubled_coordinate(rng, form, size) for form in (of_x, of_y))
                yield ask("c", *lines_crossing_at(rng, doubled, turn, size))


def beside_halves(rng):
    """Crossings at k + 1/2 + 1/2m and k + 1/2 - 1/2m, where a line of odd height m meets a row."""
    for _ in range(12):
        odd = rng.randrange(3, LIMIT, 2)
        for beside in (-1, 1):
            start, end = placed(rng, ((odd + beside) // 2, odd))
            row = start[1] + 1
            points = ((rng.randint(-LIMIT, 0), row), (rng.randint(1, LIMIT), row), start, end)
            for flip in (1, -1):
                flipped = [scaled(point, flip) for point in points]
                yield ask("c", *flipped)
                yield ask("c", *mirrored(flipped))


def ways_out(rng):
    """Each pair of ways in which the coordinates come out, with each sign of both and of the determinant."""
    asked = set()
    while len(asked) < 72:
        points = [point_within(rng, 9) for _ in range(4)]
        found = crossing_of(points[:2], points[2:])
        if found is None or 0 in found:
            continue
        way = *map(division_of, found[:2]), *(number < 0 for number in found)
        if way not in asked:
            asked.add(way)
            yield ask("c", *points)


def right_angle_legs():
    """Corners on both sides of the determinant whose square leaves i32: 46,340 and 46,341."""
    legs = [(leg, leg) for leg in range(214, 219)] + list(smallest.LEGS_AT_THE_EDGE)
    signs = product((1, -1), repeat=2)
    for (s, t), (width, height), kind in product(signs, legs, TWO_LINES):
        corner = [(0, 0), (s * width, 0), (s * width, 0), (s * width, t * height)]
        yield ask(kind, *corner)
        yield ask(kind, *mirrored(corner))


def deltas_with(turn, dot, size):
    """Pairs of deltas, the first one within the size, of this determinant and dot product."""
    for x, y in product(range(1, size + 1), range(-size, size + 1)):
        square = x * x + y * y
        other = dot * x - turn * y, dot * y + turn * x
        if other[0] % square == 0 and other[1] % square == 0:
            other = other[0] // square, other[1] // square
            if reach(other) <= 2 * LIMIT:
                yield (x, y), other


def near_colinear_boundary(rng):
    """Squared determinant one below, equal to and one above the absolute dot product."""
    turns = [*range(1, 12), *rng.sample(range(12, 2000), 60)]
    for above, sign, dot_sign in product((-1, 0, 1), (1, -1), (1, -1)):
        found = []
        for turn in turns:
            pairs = list(deltas_with(sign * turn, dot_sign * (turn * turn - above), 40))
            found += rng.sample(pairs, min(2, len(pairs)))
        for delta, other in rng.sample(found, min(12, len(found))):
            yield ask("n", *placed(rng, delta), *placed(rng, other))
    # The longest lines whose squared determinant equals the dot product, and their neighbours.
    start = (-LIMIT, 0)
    for length, other in product((2 * LIMIT - 1, 2 * LIMIT), repeat=2):
        yield ask("n", start, plus(start, (length, 0)), start, plus(start, (other, 1)))


def beside(delta):
    """The steps from a line of this delta to the next row of whole points, left and right."""
    steps = product(range(-reach(delta), reach(delta) + 1), repeat=2)
    left = [step for step in steps if determinant(delta, step) < 0]
    step = min(left, key=lambda s: (-determinant(delta, s), dot(s, s)))
    return step, scaled(step, -1)


def sides_of_lines(rng):
    """On the line, before its start, past its end, just left and right, one pixel away."""
    for delta in DIRECTIONS:
        start, end = placed(rng, delta, 100)
        on_line = [start, end, plus(start, delta, -3), plus(end, delta, 4)]
        next_to_it = [plus(point, step) for point in on_line for step in beside(delta)]
        around = [plus(end, step) for step in ((1, 0), (-1, 0), (0, 1), (0, -1))]
        for point in on_line + next_to_it + around:
            yield ask("s", start, end, point)
        for point in on_line[:1] + next_to_it[:2] + around[:2]:
            yield ask("d", start, end, point)


def sides_of_long_lines():
    """A line through the whole box, and points by which it passes closely, in all directions."""
    points = [(-LIMIT, 1 - LIMIT), (LIMIT, LIMIT), (0, 0), (0, 1), (-1, 0), (-1, -1)]
    for x, y, swap in product((1, -1), (1, -1), (False, True)):
        turned = [(x * a, y * b) for a, b in points]
        start, end, *near = mirrored(turned) if swap else turned
        for point in (end, *near):
            yield ask("s", start, end, point)
            yield ask("d", start, end, point)


def single_positions():
    """Each coordinate alone at the limit, one beyond it, and far beyond."""
    base = {
        "e": (3, -5, 17, 11),
        "d": (3, -5, 17, 11, -6, 8),
        "s": (3, -5, 17, 11, -6, 8),
        "c": (3, -5, 17, 11, -6, 8, 12, -9),
        "n": (3, -5, 17, 11, -6, 8, 12, -9),
    }
    values = (LIMIT, -LIMIT, LIMIT + 1, -LIMIT - 1, *FAR)
    for kind in KINDS:
        for numbers in one_changed(base[kind], values):
            yield exact.words(kind, *numbers)


def all_positions():
    """All coordinates far beyond the limit, also such that products vanish in 64 bits."""
    for kind, value in product(KINDS, (LIMIT + 1, 4294967296, 999999999999999999)):
        numbers = [value if i % 3 else -value for i in range(2 * KINDS[kind])]
        yield exact.words(kind, *numbers)


def first_overflows():
    """The smallest inputs that leave i32 in the Rust, for each operation that does."""
    for (kind, _, _), numbers in smallest.witnesses().items():
        yield exact.words(kind, *numbers)


def questions():
    rng = random.Random(SEED)
    classes = {
        "worked examples": (question for question, _ in WORKED),
        "at the limits": at_the_limits(rng),
        "near the border": near_the_border(rng),
        "zero deltas": zero_deltas(rng),
        "parallel, equal, reversed": parallel_lines(rng),
        "determinant 1, -1, 2, -2": small_determinants(rng),
        "halves and zeros": halves_and_zeros(rng),
        "beside halves": beside_halves(rng),
        "right-angle legs": right_angle_legs(),
        "near-colinear boundary": near_colinear_boundary(rng),
        "sides, all directions": sides_of_lines(rng),
        "sides of long lines": sides_of_long_lines(),
        "one position at or past the limit": single_positions(),
        "all positions past the limit": all_positions(),
        "first overflows": first_overflows(),
    }
    for size in (3, 10, 100, LIMIT):
        classes[f"random within {size}"] = random_within(rng, size)
    classes["ways out, all signs"] = ways_out(random.Random(SEED))
    return listed(classes)


def random_question(rng):
    kind = rng.choice(list(KINDS))
    least, most = rng.choice(((0, 3), (0, 10), (0, 30), (0, 100), (0, LIMIT), (600, LIMIT)))
    sizes = (rng.randint(least, most) for _ in range(2 * KINDS[kind]))
    return exact.words(kind, *(rng.choice((-1, 1)) * size for size in sizes))
