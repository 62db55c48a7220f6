"""The questions of the list `walks`: kinds O, C, N and M.

`questions` answers pairs (class, question), always the same ones.
"""

import random
from itertools import islice, product

import exact
import smallest_walks
import walks
from asking import DIRECTIONS, FAR, doubled_at, listed, one_changed, point_within, scaled
from plane import plus

SEED = 256257
LIMIT = exact.ROUTE_LIMIT
ROWS = exact.CORNER_LIMIT
MOST = walks.MOST_POINTS
KINDS = "OCNM"
OFFSETS = range(3)
WIDTHS = (0, 1, 2, 3, 5, 16, 64)

# By hand: a line of width 3; P10 of document 01; a W of width 1 and its rows.
FLAT_START, FLAT_END = "Start 0 -1 0 1 0 -1 0 1 - - 0", "End 3 -1 3 1 3 -1 3 1 - - 1"
WORKED = [
    ("O 3 0 0 4 0 0 3 0", f"{FLAT_START} / {FLAT_END} | end"),
    ("N 3 0 0 4 0 0 3 0", f"{FLAT_START} / {FLAT_END} | end"),
    (
        "O 3 0 0 6 0 0 216 0 216 216",
        f"{FLAT_START} / Miter 217 -1 215 1 217 -1 215 1 EE EE 1 | "
        "Miter 217 -1 215 1 217 -1 215 1 EE EE 1 / End 217 216 215 216 217 216 215 216 - - 2 | end",
    ),
    ("O 3 0 0 0", "end"),
    ("O 3 0 0 2 5 5", "end"),
    ("C 3 0 0 0", "end"),
    ("C 3 0 0 2 5 5", "refused 2"),
    ("M 3 0 1 4 0 0 3 0", "0 4 end"),
    ("M 3 0 2 4 0 0 3 0", "end"),
    ("M 1 0 0 10 0 0 2 4 4 0 6 4 8 0", "0 1 4 5 8 9 end"),
    ("M 1 0 4 10 0 0 2 4 4 0 6 4 8 0", "2 3 6 7 end"),
]


def ask(kind, points, width, offset=0, row=0):
    return exact.words(kind, width, offset, row, 2 * len(points), *exact.flat(points))


def asked_of(points, width):
    """Each walk along the points, the closed one with each offset."""
    yield ask("O", points, width)
    yield ask("N", points, width)
    for offset in OFFSETS:
        yield ask("C", points, width, offset)


def one_walk_of(rng, points, width):
    kind = rng.choice("OCCN")
    return ask(kind, points, width, rng.choice(OFFSETS) if kind in "OC" else 0)


def rows_of(points, width):
    """The rows of the lines drawn, and one beyond at both ends."""
    lines = [line for s in walks.open_segments(points, width) for line in s.perimeter()]
    rows = [y for line in lines for _, y in line] or [0]
    return range(min(rows) - 1, max(rows) + 2)


def merged_of(rng, points, width, most_rows):
    rows = rows_of(points, width)
    for row in rows if len(rows) <= most_rows else rng.sample(rows, most_rows):
        yield ask("M", points, width, 0, row)


def random_route(rng, count, size):
    return [point_within(rng, size) for _ in range(count)]


def few_points(rng):
    """0 to 3 points, all directions, all widths."""
    for width, count in product((0, 1, 3, 64), range(4)):
        points = random_route(rng, count, 12)
        yield from asked_of(points, width)
        yield from merged_of(rng, points, width, 3)
    for direction, width in product(DIRECTIONS, (1, 4)):
        line = [(0, 0), scaled(direction, rng.randint(1, 9))]
        yield from asked_of(line, width)
    for width in range(65):
        points = random_route(rng, 3, rng.choice((20, 100, LIMIT)))
        yield one_walk_of(rng, points, width)
        yield from merged_of(rng, points, width, 1)


def offsets(rng):
    """The open walk takes no offset, whatever it is asked with; the closed one takes each."""
    for width in (2, 3, 7, 20):
        points = random_route(rng, 5, 40)
        for kind, offset in product("OC", OFFSETS):
            yield ask(kind, points, width, offset)


def doubled(rng):
    """A point that follows an equal one: the first, the last, one between, all; the first at the end."""
    for width, size in product((0, 1, 3, 8), (5, 60)):
        a, b, c = random_route(rng, 3, size)
        for points in (
            [a, a],
            [a, a, a],
            [a, a, b],
            [a, b, b],
            [a, b, b, c],
            [a, a, b, b, c, c],
            [a, b, c, a],
            [a, b, c, a, a],
        ):
            yield one_walk_of(rng, points, width)
            yield ask("C", points, width, rng.choice(OFFSETS))
            yield from merged_of(rng, points, width, 1)


def doubled_places():
    """Each place of short routes and of long ones; and near misses, which are drawn: neighbours that share one coordinate, a point
    that comes again later."""
    stairs = [(0, 0), (6, 0), (6, 5), (1, 9), (1, -3), (-7, -3), (-4, 8)]
    long = [(i % 64 - 32, 4 * (i // 64) + i % 3) for i in range(MOST - 1)]
    for kind in KINDS:
        yield ask(kind, stairs, 2)
        yield ask(kind, [*stairs[:3], *stairs[:3]], 2)
        for place in range(len(stairs)):
            yield ask(kind, doubled_at(stairs, place), 2)
        yield ask(kind, [*stairs, stairs[0]], 2)
        for place in (0, 1, 126, 127, MOST - 3, MOST - 2):
            yield ask(kind, doubled_at(long, place), 0)
        yield ask(kind, [*long, long[0]], 0)


def spikes(rng):
    """Out and back, wholly, in part and too far, alone and inside a route."""
    for width, direction in product((0, 1, 3, 9), DIRECTIONS):
        a, out = (0, 0), scaled(direction, 4)
        back = scaled(direction, rng.choice((-2, 0, 1, 3)))
        for points in ([a, out, back], [plus(a, (9, -2)), a, out, back, plus(back, (2, 9))]):
            yield one_walk_of(rng, points, width)
        yield from merged_of(rng, points, width, 1)
    for width in (0, 1, 2, 3, 16, 64):
        a, b = random_route(rng, 2, LIMIT)
        yield from asked_of([a, b, a], width)
        yield from asked_of([a, b, a, b], width)


def zigzag(legs, step, height):
    return [(step * i, height * (i % 2)) for i in range(legs + 1)]


def many_points(rng):
    for count, size in product((4, 5, 8, 13, 21, 40), (9, 60, LIMIT)):
        points = random_route(rng, count, size)
        width = rng.choice(WIDTHS)
        yield one_walk_of(rng, points, width)
        yield from merged_of(rng, points, width, 6)
    for width in (0, 1, 2, 3):
        yield from asked_of(zigzag(9, 3, 5), width)


def most_points(rng):
    """255, 256, 257 and more points."""
    walk = [(i % 64 - 32, 4 * (i // 64) + i % 3) for i in range(MOST)]
    wild = random_route(rng, MOST, 60)
    for points in (walk, wild):
        for kind in "OCN":
            yield ask(kind, points, 2)
    yield ask("C", wild[1:], 3, 1)
    yield ask("C", wild, 3, 2)
    for points in (zigzag(MOST - 1, 2, 6), zigzag(MOST - 1, -4, 9), walk, wild):
        for width in (0, 1, 3):
            yield from merged_of(rng, points, width, 3)
    for kind, count in product(KINDS, (MOST + 1, MOST + 4)):
        yield ask(kind, [(0, 1)] * count, 1)


def of_numbers(kind, numbers, width, offset=0, row=0):
    return exact.words(kind, width, offset, row, len(numbers), *numbers)


def odd_lists(rng):
    """1 before 2, 3, 4 and 6."""
    for kind in KINDS:
        for count in (1, 3, 5, 2 * MOST - 1, 2 * MOST + 1):
            yield of_numbers(kind, [rng.randint(0, 9) for _ in range(count)], 3)
        yield of_numbers(kind, [LIMIT + 1], 3)
        yield of_numbers(kind, [1, 2, 3], 65)
        yield of_numbers(kind, [1, 2, 3], 65, 0, ROWS + 1)


def limits():
    """Each number at its limit, one beyond, and far beyond."""
    edges = (LIMIT, -LIMIT, LIMIT + 1, -LIMIT - 1)
    for kind in KINDS:
        base = (3, -4, 9, 2, 1, 30)
        for numbers in one_changed(base, edges):
            yield of_numbers(kind, numbers, 3)
        for value in FAR:
            yield of_numbers(kind, (*base[:-1], value), 3)
        for width in (63, 64, 65, -1, *FAR):
            yield of_numbers(kind, base, width)
        for numbers in ([LIMIT, -LIMIT], [LIMIT + 1, 0], [0, -LIMIT - 1]):
            yield of_numbers(kind, numbers, 3)
    for row in (ROWS, -ROWS, ROWS + 1, -ROWS - 1, *FAR):
        yield of_numbers("M", base, 3, 0, row)
        yield of_numbers("M", [], 3, 0, row)
        yield of_numbers("M", [7, 7], 3, 0, row)


def orders():
    """Two or more refusals at once: the first is told, in the order of 01's table with 12 after 4."""
    too_many = [0, 1] * (MOST + 1)
    for kind in KINDS:
        row = ROWS + 1 if kind == "M" else 0
        yield of_numbers(kind, too_many, 65, 0, row)
        yield of_numbers(kind, [*too_many[:-2], LIMIT + 1, 0], 3, 0, row)
        yield of_numbers(kind, [0, 0, LIMIT + 1, 0], 65, 0, row)
        yield of_numbers(kind, [0, 0, LIMIT + 1, 0], 3, 0, row)
        yield of_numbers(kind, [0, LIMIT + 1], 65, 0, row)
        yield of_numbers(kind, [0, LIMIT + 1], 3, 0, row)
        yield of_numbers(kind, [], 65, 0, row)
        yield of_numbers(kind, [], 64, 0, row)
        yield of_numbers(kind, [5, 5, 5, 5, 5], 3, 0, row)
        yield of_numbers(kind, [5, 5, 5, 5], 65, 0, row)
        yield of_numbers(kind, [5, 5, 5, 5, 0, LIMIT + 1], 3, 0, row)
        yield of_numbers(kind, [LIMIT + 1, 5] * 2, 3, 0, row)
        yield of_numbers(kind, [5, 5, 5, 5], 3, 0, row)


def comings_back(rng):
    """All rows of small routes that come back to a row: painted twice, or left apart."""
    kinds = ((4, 2, 0), (4, 3, 1), (5, 4, 1), (6, 5, 2), (7, 6, 3), (9, 7, 0), (12, 9, 1))
    for count, size, width in kinds * 5:
        yield from merged_of(rng, random_route(rng, count, size), width, 12)


def across_the_box(rng):
    """Long lines: most of them leave i32 in the Rust where the width is large."""
    for width in range(0, 65, 4):
        for count in (2, 3, 6):
            points = random_route(rng, count, LIMIT)
            points[0], points[-1] = (-LIMIT, points[0][1]), (LIMIT, points[-1][1])
            yield one_walk_of(rng, points, width)
            yield from merged_of(rng, points, width, 2)


def random_question(rng):
    size, width = rng.choice((2, 4, 10, 60, LIMIT)), rng.choice((*WIDTHS, rng.randint(0, 64)))
    points = random_route(rng, rng.randint(0, 7), size)
    if rng.random() < 0.2 and points:
        points.insert(rng.randrange(len(points)), rng.choice(points))
    kind = rng.choice(KINDS)
    if kind == "M":
        return ask(kind, points, width, 0, rng.choice(rows_of(points, width)))
    if kind == "C" and len(points) == 1:
        points *= 2
    return ask(kind, points, width, rng.choice(OFFSETS) if kind in "OC" else 0)


def undoubled(rng):
    """Random questions whose route has no doubled point, so that the Rust is asked."""
    while True:
        question = random_question(rng)
        if exact.whole_answer(question) != "refused 12":
            yield question


def questions():
    rng = random.Random(SEED)
    classes = {
        "worked examples": (question for question, _ in WORKED),
        "smallest inputs": smallest_walks.WITNESSES.values(),
        "0 to 3 points": few_points(rng),
        "three offsets": offsets(rng),
        "doubled points": doubled(rng),
        "doubled at each place": doubled_places(),
        "spikes": spikes(rng),
        "many points": many_points(rng),
        "255 points and more": most_points(rng),
        "odd lists": odd_lists(rng),
        "at or past a limit": limits(),
        "two refusals at once": orders(),
        "rows come back to": comings_back(rng),
        "across the box": across_the_box(rng),
        "random": (random_question(rng) for _ in range(500)),
        "random, no point doubled": islice(undoubled(rng), 300),
    }
    return listed(classes)
