"""What the modules of questions share."""

from itertools import product

from plane import plus

# Numbers far beyond every limit, of at most 18 digits.
FAR = (
    32768,
    -32769,
    2147483647,
    -2147483648,
    4294967296,
    999999999999999999,
    -999999999999999999,
)

# Positions of joins handed in. The driver cannot be asked with the last of all, which is for questions that are refused.
POSITIONS = (0, 1, 2, 7, 15, 255, 256, 65535, 2147483647)
ANY_POSITIONS = (*POSITIONS, 999999999999999999)

# One delta of each octant, and the axes and diagonals between them.
DIRECTIONS = [
    (s * x, t * y) for x, y in ((7, 3), (3, 7)) for s, t in product((1, -1), repeat=2)
] + [(x, y) for x, y in product((-5, 0, 5), repeat=2) if (x, y) != (0, 0)]


def scaled(p, times):
    return times * p[0], times * p[1]


def point_within(rng, size):
    return rng.randint(-size, size), rng.randint(-size, size)


def placed(rng, delta, size):
    """A line of the given delta somewhere inside the box, as start and end."""
    start = tuple(rng.randint(max(-size, -size - d), min(size, size - d)) for d in delta)
    return start, plus(start, delta)


def one_changed(numbers, values):
    """The numbers, with each one in turn replaced by each of the values."""
    for place, value in product(range(len(numbers)), values):
        yield [*numbers[:place], value, *numbers[place + 1 :]]


def doubled_at(points, place):
    """The points with the one at a place twice."""
    return [*points[: place + 1], *points[place:]]


def listed(classes):
    """Pairs (class, question); a question keeps the first class that asks it."""
    once = {}
    for name, asked in classes.items():
        for question in asked:
            once.setdefault(question, name)
    return [(name, question) for question, name in once.items()]
