"""The questions of the list `segments`: kinds k, q, r, m and u.

`questions` answers pairs (class, question), always the same ones.
"""

import random
from itertools import cycle, product

import exact
import joins
from asking import ANY_POSITIONS, FAR, POSITIONS, listed, one_changed, point_within, scaled
from segments import Segment
from walks import closed_segments, open_segments

SEED = 40954096
LIMIT = exact.CORNER_LIMIT
KINDS = "kqrmu"
JOIN_KINDS = range(len(joins.KINDS))

# By hand: a line of width 3 and its rows; spans that touch, that do not, and empty ones.
FLAT = "6 0 0 -1 0 1 0 -1 0 1 7 1 3 -1 3 1 3 -1 3 1"
WORKED = [
    (
        f"k {FLAT}",
        "false | 0 1 3 1 3 -1 0 -1 | 0 -1 4 3 | 4 0 -1 0 1 3 -1 3 1 0 1 3 1 3 -1 0 -1",
    ),
    (f"q {FLAT}", "-1 1"),
    (f"r {FLAT} -1", "0 4"),
    (f"r {FLAT} 0", "0 4"),
    (f"r {FLAT} 2", "0 0"),
    ("m 0 0 4 2 1 0 0", "2 4"),
    ("m 0 0 4 2 3 7 3", "7 3"),
    ("u 0 0 2 0 2 4", "true 0 4"),
    ("u 0 0 2 0 3 4", "false 0 2"),
    ("u 0 0 0 0 7 3", "true 7 3"),
    ("u 0 2 5 0 7 3", "true 2 5"),
]


def numbers_of(segment):
    return [
        number
        for join in segment
        for number in (joins.KINDS.index(join.kind), join.position, *exact.flat(join.corners()))
    ]


def standing_at(segment, start, end):
    """The segment with other positions of its joins."""
    return Segment(segment.start._replace(position=start), segment.end._replace(position=end))


def rows_of(segment):
    """The rows of the lines drawn and of the box, and one beyond at both ends."""
    _, top, _, height = segment.edges_bounding_box()
    rows = [y for line in segment.perimeter() for _, y in line] + [top, top + height - 1]
    return range(min(rows) - 1, max(rows) + 2)


def ask(kind, segment, *rest):
    return exact.words(kind, *numbers_of(segment), *rest)


def asked_of(rng, segment, most_rows):
    yield ask("k", segment)
    yield ask("q", segment)
    rows = rows_of(segment)
    for row in rows if len(rows) <= most_rows else rng.sample(rows, most_rows):
        yield ask("r", segment, row)


def routes(rng):
    """Segments of small routes with all their rows, of large ones with some of them."""
    for size, width in ((4, 1), (5, 2), (6, 3), (6, 5), (9, 4), (3, 7)):
        for walk in (open_segments, closed_segments):
            points = [point_within(rng, size) for _ in range(4)]
            for segment in walk(points, width):
                yield from asked_of(rng, segment, 40)
    for width in range(65):
        points = [point_within(rng, rng.choice((40, 511))) for _ in range(3)]
        segment = rng.choice(rng.choice((open_segments, closed_segments))(points, width))
        yield from asked_of(rng, segment, 3)


def of_each_kind(rng):
    """Segments of routes that begin and end with every kind of join that occurs there."""
    found = {}
    for _ in range(1200):
        points = [point_within(rng, rng.choice((6, 20))) for _ in range(4)]
        for segment in open_segments(points, rng.choice((0, 1, 2, 3, 4, 9))):
            key = segment.start.kind, segment.end.kind, segment.is_skeleton()
            found.setdefault(key, segment)
    for segment in found.values():
        yield from asked_of(rng, segment, 5)


def skeletons(rng):
    """The start corners coincide: the right edge is drawn, and the left edge may differ."""
    positions = cycle(POSITIONS)
    for segment in closed_segments([(-5, -3), (-1, -1), (3, -5)], 2, "Right"):
        yield from asked_of(rng, segment, 40)
    for kind, size in product(JOIN_KINDS, (3, 30, LIMIT)):
        p, *corners = (point_within(rng, size) for _ in range(7))
        start = joins.Join(joins.KINDS[kind], joins.Corners(p, p), joins.Corners(*corners[:2]))
        end = joins.Join("End", joins.Corners(*corners[2:4]), joins.Corners(*corners[4:]))
        segment = standing_at(Segment(start, end), next(positions), next(positions))
        yield from asked_of(rng, segment, 4)


def random_segment(rng, size):
    def join():
        corners = [point_within(rng, size) for _ in range(4)]
        return joins.Join(
            joins.KINDS[rng.choice(JOIN_KINDS)],
            joins.Corners(*corners[:2]),
            joins.Corners(*corners[2:]),
        )

    return Segment(join(), join())


def handed_in(rng):
    positions = cycle(POSITIONS)
    for size in (2, 5, 60, LIMIT):
        for _ in range(25):
            segment = standing_at(random_segment(rng, size), next(positions), next(positions))
            yield from asked_of(rng, segment, 3)


def far_at(join, place, value):
    """The join with one number of its corners changed; with none where the place is None."""
    if place is None:
        return join
    numbers = exact.flat(join.corners())
    numbers[place] = value
    return exact.handed_in(joins.KINDS.index(join.kind), join.position, *numbers)


def which_is_far(rng):
    """Each number of the corners in turn beyond the limit, of the start join, of the end join, of both; then of neither. The two
    positions differ. Each is asked with a row inside and with one beyond: 5 comes before 6."""

    def asked_with(positions, places):
        segment = standing_at(random_segment(rng, 20), *positions)
        value = rng.choice((LIMIT + 1, -LIMIT - 1, *FAR))
        found = Segment(*(far_at(join, place, value) for join, place in zip(segment, places)))
        yield ask("k", found)
        yield ask("q", found)
        yield ask("r", found, 0)
        yield ask("r", found, rng.choice((LIMIT + 1, -LIMIT - 1)))

    pairs = cycle(zip(ANY_POSITIONS, ANY_POSITIONS[3:] + ANY_POSITIONS[:3]))
    for place in range(8):
        for places in ((place, None), (None, place), (place, 7 - place)):
            yield from asked_with(next(pairs), places)
    for pair in zip(POSITIONS[1:], POSITIONS[4:] + POSITIONS[1:4]):
        yield from asked_with(pair, (None, None))


def segment_limits(rng):
    """Each corner alone beyond the limit; the row at its limit and beyond; both at once."""
    base = numbers_of(standing_at(random_segment(rng, 20), 3, 4))
    for numbers in one_changed(base, (LIMIT + 1, -LIMIT - 1)):
        # Kinds and positions stay.
        if all(numbers[place] == base[place] for place in (0, 1, 10, 11)):
            yield exact.words("k", *numbers)
            yield exact.words("q", *numbers)
            yield exact.words("r", *numbers, LIMIT + 1)
    far = [*base[:-1], FAR[-1]]
    for row in (LIMIT, -LIMIT, LIMIT + 1, -LIMIT - 1, *FAR):
        yield exact.words("r", *base, row)
        yield exact.words("r", *far, row)


def met_lines(rng):
    """Lines of all directions with each of their rows; spans empty, apart, inside, overlapping."""
    for size in (2, 6, 40, 700, LIMIT):
        for _ in range(30):
            (ax, ay), (bx, by) = point_within(rng, size), point_within(rng, size)
            row = rng.randint(min(ay, by) - 1, max(ay, by) + 1)
            row = max(-LIMIT, min(LIMIT, row))
            for span in ((0, 0), (7, 3), sorted(point_within(rng, size))):
                yield exact.words("m", ax, ay, bx, by, row, *span)
    for dx, dy in product((-5, -2, 0, 2, 5), repeat=2):
        for row in range(min(dy, 0), max(dy, 0) + 1):
            yield exact.words("m", 0, 0, dx, dy, row, 0, 0)


def met_limits():
    base = (-9, -4, 12, 5, 1, 2, 6)
    values = (LIMIT, -LIMIT, LIMIT + 1, -LIMIT - 1, *FAR)
    for numbers in one_changed(base, values):
        yield exact.words("m", *numbers)
    for (s, t), row in product(product((1, -1), repeat=2), (-LIMIT, 0, LIMIT)):
        corner = scaled((s, t), LIMIT)
        yield exact.words("m", *corner, *scaled(corner, -1), row, 0, 0)
        yield exact.words("m", *corner, corner[0], -corner[1], row, -LIMIT, LIMIT + 1)
        yield exact.words("m", *corner, -corner[0], corner[1], corner[1], LIMIT, LIMIT + 1)
    for span in ((-LIMIT, LIMIT + 1), (-LIMIT, LIMIT + 2), (LIMIT + 1, LIMIT + 2), (5000, 5000)):
        yield exact.words("m", 0, 0, 3, 3, 2, *span)
        yield exact.words("m", 0, 0, 3, 3, LIMIT + 1, *span)


def all_small_spans():
    """Every two spans with bounds from 0 to 3, the empty ones among them."""
    for span in product(range(4), repeat=4):
        yield exact.words("u", 5, *span[:2], 5, *span[2:])


def span_limits():
    values = (LIMIT, -LIMIT, LIMIT + 1, -LIMIT - 1, LIMIT + 2, *FAR)
    for base in ((4, 2, 6, 4, 5, 9), (4, 2, 6, 4, 9, 5), (4, 6, 2, 4, 5, 9)):
        for numbers in one_changed(base, values):
            yield exact.words("u", *numbers)
    for row in (LIMIT, -LIMIT, LIMIT + 1, -LIMIT - 1):
        yield exact.words("u", row, 2, 6, row, 5, 9)
        yield exact.words("u", row, 2, 6, row, 5, LIMIT + 2)
    yield exact.words("u", 0, -LIMIT, 0, 0, 0, LIMIT + 1)


def random_met(rng, size):
    line = point_within(rng, size) + point_within(rng, size)
    return exact.words("m", *line, rng.randint(-size, size), *point_within(rng, size))


def random_spans(rng, size):
    """Most of them are not empty."""
    spans = [point_within(rng, size) for _ in range(2)]
    if rng.random() < 0.8:
        spans = map(sorted, spans)
    first, second = spans
    return exact.words("u", 1, *first, 1, *second)


def questions():
    rng = random.Random(SEED)
    classes = {
        "worked examples": (question for question, _ in WORKED),
        "segments of routes": routes(rng),
        "joins of each kind": of_each_kind(rng),
        "skeletons": skeletons(rng),
        "joins handed in": handed_in(rng),
        "segment, one past the limit": segment_limits(rng),
        "lines met": met_lines(rng),
        "line met, at or past the limit": met_limits(),
        "spans within 3": all_small_spans(),
        "spans at or past the limit": span_limits(),
        "random spans": (random_spans(rng, size) for size in (9, 60, LIMIT) for _ in range(60)),
        "which join is too far": which_is_far(random.Random(SEED)),
    }
    return listed(classes)


def random_question(rng):
    kind, size = rng.choice(KINDS), rng.choice((3, 10, 60, 700))
    if kind == "m":
        return random_met(rng, size)
    if kind == "u":
        return random_spans(rng, size)
    if rng.random() < 0.5:
        segment = standing_at(random_segment(rng, size), *rng.choices(POSITIONS, k=2))
    else:
        points = [point_within(rng, min(size, 511)) for _ in range(4)]
        walk = rng.choice((open_segments, closed_segments))
        segment = rng.choice(walk(points, rng.randint(0, 64)))
    return ask(kind, segment, *([rng.choice(rows_of(segment))] if kind == "r" else []))
