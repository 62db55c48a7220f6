"""The questions of the list `strokes`: kinds x, p and t.

`questions` answers pairs (class, question), always the same ones.
"""

import random
from itertools import count, islice, product

import exact
from asking import DIRECTIONS, FAR, listed, one_changed, placed, point_within, scaled
from plane import delta_of
from strokes import parallels, walk_of

SEED = 115977969
LIMIT = exact.ROUTE_LIMIT
KINDS = "xpt"
OFFSETS = range(3)
WIDTHS = range(exact.WIDTH_LIMIT + 1)

# From document 01: a line whose rows it prints, W5, and the direction of a point.
WORKED = [
    ("x 0 0 3 0 3 0", "0 -1 3 -1 0 1 3 1"),
    ("t 0 0 3 0 3", "12 0 0 1 0 2 0 3 0 0 -1 1 -1 2 -1 3 -1 0 1 1 1 2 1 3 1"),
    ("x 0 0 3 0 0 0", "0 0 3 0 0 0 3 0"),
    ("p 5 7 5 7 2 0", "2 5 7 0 0 5 6 0 0"),
]

# Found by `smallest_strokes.py`.
FIRST_OVERFLOWS = (
    "x -128 -128 128 128 64 0",
    "x -482 -482 482 482 17 0",
    "x -127 -127 128 128 64 0",
    "x -504 -503 504 504 16 0",
)

# Lines on which the wrapping Rust runs on for many parallels before it ends.
RUNNING_ON = ((0, 0, 392, 77, 58), (-450, -412, 449, 412, 19), (0, 0, 422, 315, 44))


def ask(kind, line, width, offset=0):
    (ax, ay), (bx, by) = line
    told = () if kind == "t" else (offset,)
    return exact.words(kind, ax, ay, bx, by, width, *told)


def random_line(rng, size):
    return point_within(rng, size), point_within(rng, size)


def all_widths(rng):
    """Every width with every offset; the length of the lines is of every order."""
    for width, offset in product(WIDTHS, OFFSETS):
        for size in (2, 8, 60, LIMIT):
            yield ask("x", random_line(rng, size), width, offset)
        yield ask("p", random_line(rng, rng.choice((2, 8, 60, LIMIT))), width, offset)
    for width in WIDTHS:
        yield ask("t", random_line(rng, 3), width)


def all_directions(rng):
    for direction, offset in product(DIRECTIONS, OFFSETS):
        for width in (0, 1, 2, 3, 4, 5, 16, 63, 64):
            for times in (1, rng.randint(2, 20), 70):
                yield ask("x", placed(rng, scaled(direction, times), LIMIT), width, offset)
        for width in (1, 2, 5, 16, 64):
            yield ask("p", placed(rng, scaled(direction, rng.randint(1, 70)), LIMIT), width, offset)
    for direction, width in product(DIRECTIONS, (1, 2, 3, 6)):
        yield ask("t", placed(rng, scaled(direction, rng.randint(1, 4)), LIMIT), width)


def short_lines():
    """All deltas within 3, the zero delta among them."""
    for dx, dy in product(range(-3, 4), repeat=2):
        line = (10, -20), (10 + dx, -20 + dy)
        for width, offset in product((0, 1, 2, 3, 7), OFFSETS):
            yield ask("x", line, width, offset)
        for offset in OFFSETS:
            yield ask("p", line, 5, offset)
        yield ask("t", line, 1)
        yield ask("t", line, 4)


def points_as_lines(rng):
    for width in WIDTHS:
        p = point_within(rng, LIMIT)
        yield ask("x", (p, p), width, width % 3)
    for width, offset in product((0, 1, 2, 3, 64), OFFSETS):
        p = point_within(rng, LIMIT)
        yield ask("p", (p, p), width, offset)
        yield ask("t", (p, p), width)


def through_the_box():
    """Lines whose coordinates are 511, 510, 0 or 1 in size: the edges that reach farthest."""
    values = (-LIMIT, LIMIT)
    for ax, ay, bx, by in product(values, repeat=4):
        for width, offset in product((0, 1, 63, 64), OFFSETS):
            yield ask("x", ((ax, ay), (bx, by)), width, offset)
    for by, width, offset in product((-LIMIT, -1, 0, 510), (16, 17, 63, 64), OFFSETS):
        yield ask("x", ((-LIMIT, by), (LIMIT, -by)), width, offset)
        yield ask("x", ((by, LIMIT), (-by, -LIMIT)), width, offset)
    for width, by in product((1, 2, 64), (-LIMIT, 0, 1, 510)):
        yield ask("p", ((-LIMIT, by), (LIMIT, -by)), width)
    for by in (-LIMIT, 0, 510):
        yield ask("t", ((-LIMIT, by), (LIMIT, -by)), 1)


def point_count(line, width):
    length = walk_of(delta_of(line)).a + 1
    return sum(length - parallel.extra for parallel in parallels(line, width, "None"))


def around_the_room(rng):
    """Thick points of which a list of 4,096 numbers just holds all, or just does not."""
    most = exact.LENT_LIST // 2
    yield ask("t", ((0, 0), (LIMIT, 0)), 4)
    yield ask("t", ((0, 0), (LIMIT, 0)), 5)
    yield ask("t", ((-LIMIT, -LIMIT), (LIMIT, LIMIT)), 64)

    def lines_of(points):
        for _ in count():
            width = rng.randint(4, 64)
            length = most / width
            dx = rng.randint(0, int(length))
            dy = int((length**2 - dx**2) ** 0.5) + rng.randint(-2, 2)
            line = placed(rng, (rng.choice((-dx, dx)), rng.choice((-dy, dy))), LIMIT)
            if point_count(line, width) == points:
                yield ask("t", line, width)

    for points in (most - 1, most, most + 1):
        yield from islice(lines_of(points), 5)


def single_positions():
    """Each number alone at its limit, one beyond it, and far beyond."""
    coordinates = (LIMIT, -LIMIT, LIMIT + 1, -LIMIT - 1, *FAR)
    widths = (0, 64, 65, -1, 128, -64, *FAR)
    line = (3, -5, 17, 11)
    for kind, rest in (("x", (5, 0)), ("p", (5, 2)), ("t", (2,))):
        for numbers in one_changed(line, coordinates):
            yield exact.words(kind, *numbers, *rest)
        for width in widths:
            yield exact.words(kind, *line, width, *rest[1:])


def two_refusals():
    """Width and coordinates beyond their limits: the width is told."""
    for kind, width, value in product(KINDS, (65, -1, *FAR), (LIMIT + 1, *FAR[-3:])):
        line = (value, 0), (0, -value)
        yield ask(kind, line, width)
        yield ask(kind, line, 64)


def leaving_i32(rng):
    """Widths and lengths on both sides of the first threshold that leaves i32."""
    for width in range(16, 65):
        half = round(2**14.5 / width)
        for _ in range(8):
            dx = min(rng.randint(0, half), 2 * LIMIT)
            dy = min(int(max(0, half * half - dx * dx) ** 0.5) + rng.randint(-3, 3), 2 * LIMIT)
            delta = (rng.choice((-1, 1)) * dx, rng.choice((-1, 1)) * dy)
            yield ask("x", placed(rng, delta, LIMIT), width, rng.choice(OFFSETS))
    for ax, ay, bx, by, width in RUNNING_ON:
        for offset in OFFSETS:
            yield ask("x", ((ax, ay), (bx, by)), width, offset)
        yield ask("p", ((ax, ay), (bx, by)), width)


def random_within(rng, size):
    for kind, times in (("x", 60), ("p", 25), ("t", 8)):
        for _ in range(times):
            yield random_asked(rng, kind, size)


def random_asked(rng, kind, size):
    line = random_line(rng, size)
    width = rng.choice(WIDTHS)
    if kind == "t" and size > 60:
        width = rng.randint(0, 3)
    return ask(kind, line, width, rng.choice(OFFSETS))


def questions():
    rng = random.Random(SEED)
    classes = {
        "worked examples": (question for question, _ in WORKED),
        "first overflows": FIRST_OVERFLOWS,
        "all widths": all_widths(rng),
        "all directions": all_directions(rng),
        "all deltas within 3": short_lines(),
        "points as lines": points_as_lines(rng),
        "through the whole box": through_the_box(),
        "around the room of a list": around_the_room(rng),
        "one position at or past the limit": single_positions(),
        "width and coordinate past the limit": two_refusals(),
        "around the overflow": leaving_i32(rng),
    }
    for size in (3, 10, 60, LIMIT):
        classes[f"random within {size}"] = random_within(rng, size)
    return listed(classes)


def random_question(rng):
    kind = rng.choice("xxxxppppt")
    return random_asked(rng, kind, rng.choice((3, 10, 60, 150, LIMIT)))
