"""The questions of the list `joins`: kinds a, z, j and f.

`questions` answers pairs (class, question), always the same ones.
"""

import random
from itertools import cycle, product

import exact
import joins
import smallest_joins
from asking import ANY_POSITIONS, DIRECTIONS, FAR, POSITIONS, listed, one_changed, placed, point_within, scaled
from plane import plus
from strokes import OFFSETS as NAMED_OFFSETS

SEED = 216217215
LIMIT = exact.ROUTE_LIMIT
CORNERS = exact.CORNER_LIMIT
KINDS = "azjf"
OFFSETS = range(3)
WIDTHS = (0, 1, 2, 3, 16, 63, 64)
# Of points that may fall into a rare class.
TRIES = 6000
JOIN_KINDS = range(len(joins.KINDS))

# P10 of document 01, and the miter of a right angle by hand.
WORKED = [
    ("j 0 0 216 0 216 216 3 0", "Miter 217 -1 215 1 217 -1 215 1 EE EE 1"),
    ("a 0 0 3 0 3 0", "Start 0 -1 0 1 0 -1 0 1 - - 0"),
    ("z 0 0 3 0 3 0", "End 3 -1 3 1 3 -1 3 1 - - 1"),
    ("f 7 1 3 -1 3 1 3 -1 3 1", "none | 1 3 -1 3 1 | 1 3 -1 3 1 | false"),
]


def ask(kind, points, width, offset):
    return exact.words(kind, *exact.flat(points), width, offset)


def within(point, size=LIMIT):
    return tuple(max(-size, min(size, coordinate)) for coordinate in point)


def any_width(rng):
    return rng.choice((*WIDTHS, rng.randint(0, 64)))


def random_points(rng, count, size):
    return [point_within(rng, size) for _ in range(count)]


def ends(rng):
    """Start and end joins of lines in all directions, of all widths."""
    for direction, offset in product(DIRECTIONS, OFFSETS):
        for width in WIDTHS:
            line = placed(rng, scaled(direction, rng.randint(1, 30)), LIMIT)
            yield ask(rng.choice("az"), line, width, offset)
    for width in range(65):
        yield ask("a", random_points(rng, 2, LIMIT), width, rng.choice(OFFSETS))
        yield ask("z", random_points(rng, 2, LIMIT), width, rng.choice(OFFSETS))


def right_angles():
    for leg, (s, t), width in product(range(214, 219), product((1, -1), repeat=2), (1, 3, 16)):
        for offset in OFFSETS:
            corner = (0, 0), (s * leg, 0), (s * leg, t * leg)
            yield ask("j", corner, width, offset)
            yield ask("j", [(y, x) for x, y in corner], width, offset)


def directions(rng):
    """From each direction to each other: turns, reversals, and straight on."""
    for first, second in product(DIRECTIONS, repeat=2):
        a, b = placed(rng, scaled(first, rng.randint(1, 20)), LIMIT // 2)
        c = plus(b, second, rng.randint(1, 20))
        yield ask("j", (a, b, c), any_width(rng), rng.choice(OFFSETS))


def spikes(rng):
    """The second line returns nearly the way that the first came, wholly or in part."""
    for width, offset, size in product(WIDTHS, OFFSETS, (8, 60, LIMIT)):
        for _ in range(3):
            a, b = random_points(rng, 2, size)
            yield ask("j", (a, b, within(plus(a, point_within(rng, 3)))), width, offset)
            part = rng.random()
            back = tuple(round(y + part * (x - y)) for x, y in zip(a, b))
            yield ask("j", (a, b, within(plus(back, point_within(rng, 2)))), width, offset)


def reversals(rng):
    for width, offset in product(WIDTHS, OFFSETS):
        a, b = random_points(rng, 2, LIMIT)
        yield ask("j", (a, b, a), width, offset)


def nearly_straight(rng):
    for width, offset, size in product(WIDTHS, OFFSETS, (8, 60, LIMIT)):
        for _ in range(3):
            a, c = random_points(rng, 2, size)
            part = rng.random()
            middle = tuple(round(x + part * (y - x)) for x, y in zip(a, c))
            yield ask("j", (a, within(plus(middle, point_within(rng, 1))), c), width, offset)


def doubled_points(rng):
    for width, offset in product(WIDTHS, OFFSETS):
        a, b = random_points(rng, 2, rng.choice((4, LIMIT)))
        for points in ((a, a, b), (a, b, b), (a, a, a)):
            yield ask("j", points, width, offset)
        for kind in "az":
            yield ask(kind, (a, a), width, offset)


def miters_at_the_limit(rng):
    """Squared miters just kept and just cut: 36 and 37 at width 3, alike at other widths."""
    left = {(width, over): 12 if width == 3 else 3 for width in (2, 3, 5) for over in (0, 1)}
    for _ in range(TRIES):
        width, offset = rng.choice((2, 3, 3, 3, 5)), rng.choice(OFFSETS)
        a, c = random_points(rng, 2, 5)
        squares = dict(smallest_joins.values(a, (0, 0), c, width, NAMED_OFFSETS[offset]))
        square = squares.get("squared miter")
        found = square is not None and (width, square - (2 * width) ** 2)
        if left.get(found, 0):
            left[found] -= 1
            move = point_within(rng, 400)
            yield ask("j", [plus(point, move) for point in (a, (0, 0), c)], width, offset)


def sides_that_differ(rng):
    """The left and the right crossing have determinants of different sign."""
    for _ in range(TRIES):
        points = random_points(rng, 3, 3)
        width, offset = rng.randint(2, 4), rng.choice(OFFSETS)
        edges = joins.edges(*points, width, NAMED_OFFSETS[offset])
        left, right = map(joins.meeting, *edges)
        if left and right and left[1] != right[1]:
            yield ask("j", points, width, offset)


def limits():
    """Each number alone at its limit, one beyond it, and far beyond; two refusals at once."""
    values = (LIMIT, -LIMIT, LIMIT + 1, -LIMIT - 1, *FAR)
    widths = (0, 64, 65, -1, *FAR)
    base = (3, -5, 17, 11)
    for kind, line in (("a", base), ("z", base), ("j", (*base, 9, 40))):
        for numbers in one_changed(line, values):
            yield exact.words(kind, *numbers, 5, 0)
        for width in widths:
            yield exact.words(kind, *line, width, 0)
            yield exact.words(kind, LIMIT + 1, *line[1:], width, 1)


def handed_in(rng):
    """Joins of every kind with corners near and far, equal and different, at all positions."""
    positions = cycle(POSITIONS)
    for kind, size in product(JOIN_KINDS, (2, 20, 700, CORNERS)):
        for _ in range(10):
            yield exact.words("f", kind, next(positions), *exact.flat(random_points(rng, 4, size)))
        p, q = random_points(rng, 2, size)
        yield exact.words("f", kind, next(positions), *p, *q, *p, *q)
        yield exact.words("f", kind, next(positions), *p, *p, *p, *p)


def corners_at_the_limit():
    """Each number of the corners at the limit and beyond; every kind is refused at all positions."""
    accepted, refused = cycle(POSITIONS), cycle(ANY_POSITIONS)
    values = (CORNERS, -CORNERS, CORNERS + 1, -CORNERS - 1, *FAR)
    corners = (3, -5, 17, 11, 9, 40, -8, 6)
    for kind in JOIN_KINDS:
        for numbers in one_changed(corners, values if kind < 2 else values[:4]):
            position = next(refused if exact.beyond(CORNERS, numbers) else accepted)
            yield exact.words("f", kind, position, *numbers)
    # The filler line through the whole box, both ways.
    for kind, (s, t) in product(range(1, 5), product((1, -1), repeat=2)):
        first, second = (s * CORNERS, t * CORNERS), (-s * 4094, -t * 4094)
        yield exact.words("f", kind, next(accepted), *first, *first, *second, *second)


def random_join(rng, size):
    return ask("j", random_points(rng, 3, size), any_width(rng), rng.choice(OFFSETS))


def origins(rng):
    """Each kind with each pair of origins that 40,000 small bends have."""
    asked = set()
    for _ in range(40000):
        points, width, offset = random_points(rng, 3, 12), rng.randint(1, 9), rng.choice(OFFSETS)
        join = joins.between(*points, width, NAMED_OFFSETS[offset])
        if (join.kind, join.origins) not in asked:
            asked.add((join.kind, join.origins))
            yield ask("j", points, width, offset)


def random_within(rng, size):
    for _ in range(150):
        yield random_join(rng, size)


def questions():
    rng = random.Random(SEED)
    classes = {
        "worked examples": (question for question, _ in WORKED),
        "first overflows": smallest_joins.WITNESSES.values(),
        "start and end": ends(rng),
        "right angles, legs 214 to 218": right_angles(),
        "all directions": directions(rng),
        "spikes": spikes(rng),
        "reversals": reversals(rng),
        "nearly straight": nearly_straight(rng),
        "doubled points": doubled_points(rng),
        "miters at the limit": miters_at_the_limit(rng),
        "sides that differ": sides_that_differ(rng),
        "one number at or past the limit": limits(),
        "joins handed in": handed_in(rng),
        "corners at or past the limit": corners_at_the_limit(),
    }
    for size in (3, 10, 60, LIMIT):
        classes[f"random within {size}"] = random_within(rng, size)
    classes["all origins"] = origins(random.Random(SEED))
    return listed(classes)


def random_question(rng):
    size = rng.choice((3, 10, 60, 200, LIMIT))
    kind = rng.choice("azfjjjjjjj")
    if kind == "j":
        return random_join(rng, size)
    if kind == "f":
        corners = random_points(rng, 4, 8 * size)
        return exact.words("f", rng.choice(JOIN_KINDS), rng.choice(POSITIONS), *exact.flat(corners))
    return ask(kind, random_points(rng, 2, size), any_width(rng), rng.choice(OFFSETS))
