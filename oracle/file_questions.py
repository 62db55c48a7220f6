"""The questions of the list `files`: kind F, route files, good and damaged.

`questions` answers pairs (class, question), always the same ones.
"""

import random
from itertools import product
from typing import NamedTuple

import driver
import smallest_joins
from asking import DIRECTIONS, doubled_at, listed, point_within, scaled
from exact import flat, paired, words
from plane import plus
from route_files import MOST_BYTES

SEED = 65535
KINDS = "F"

# The file that README draws.
SAMPLE = driver.ROOT / "samples" / "panel.route"
# The example of document 01, and a file without routes.
EXAMPLE = bytes.fromhex("0100 1400 0C00 0200 0300 0000 0000 0000 0300 0000")


def ask(data):
    return words("F", *data)


def stored_form(question, answer):
    """A file is stored as a line in hex, `-` if it is empty, and its answer as `rows` prints it."""
    return bytes(map(int, question.split()[1:])).hex() or "-", answer.replace(" / ", "\n")


WORKED = [
    (ask(EXAMPLE), "routes 1 / 0 -1 0 4 / 0 0 0 4 / 0 1 0 4 / total 12"),
    (ask(bytes.fromhex("0000 0400")), "routes 0 / total 0"),
    (ask(b""), "refused 9"),
]


class Route(NamedTuple):
    points: list
    width: int
    closed: int


def words16(*numbers):
    """Two bytes each, low byte first."""
    return b"".join((number % 65536).to_bytes(2, "little") for number in numbers)


def with_length(data):
    """The file with its true length in the header."""
    return data[:2] + words16(len(data)) + data[4:]


def changed(data, place, *numbers):
    found = words16(*numbers)
    return data[:place] + found + data[place + len(found) :]


def entry_of(k):
    """Where the k-th entry begins."""
    return 4 + 8 * k


def of_entries(entries, rest):
    """A file of entries (offset, count, width, closed) as told, and the bytes behind them."""
    return with_length(words16(len(entries), 0, *flat(entries)) + rest)


def file_of(*routes, gap=b"", behind=b""):
    """Route after route has its points behind the entries, each after a gap that none names."""
    place = entry_of(len(routes))
    entries, rest = [], b""
    for points, width, closed in routes:
        rest += gap
        entries.append((place + len(rest), len(points), width, closed))
        rest += words16(*flat(points))
    return of_entries(entries, rest + behind)


def sharing(points, routes, gap=b""):
    """A file whose entries (first point, count, width, closed) name parts of the same points."""
    place = entry_of(len(routes)) + len(gap)
    entries = [(place + 4 * first, *rest) for first, *rest in routes]
    return of_entries(entries, gap + words16(*flat(points)))


LINE = Route([(0, 0), (3, 0)], 3, 0)
BEND = Route([(0, 0), (6, 1), (4, 7)], 2, 0)
RING = Route([(0, 0), (9, 1), (3, 8)], 2, 1)


def headers():
    """Short files, counts above sixteen, lengths that are not the file's."""
    for cut in range(4):
        yield bytes.fromhex("0000 0400")[:cut]
        yield bytes.fromhex("0100 1400")[:cut]
    yield bytes(4)
    yield bytes(20)
    yield from (with_length(bytes.fromhex("0000 0000") + bytes(n)) for n in (0, 1, 2, 8, 200))
    for n in (0, 1, 2, 15, 16, 17, 18, 255, 256, 257, 272, 32768, 65535):
        entries = [(entry_of(n), 0, 1, 0)] * min(n, 18)
        yield with_length(changed(of_entries(entries, b""), 0, n))
    yield of_entries([(entry_of(256), 0, 1, 0)] * 256, b"")
    good = file_of(BEND, RING)
    size = len(good)
    for length in (0, 1, 3, 4, size - 1, size + 1, size + 256, 256 * size, 65535):
        yield changed(good, 2, length)
    for size in range(len(EXAMPLE)):
        yield EXAMPLE[:size]
        if size >= 4:
            yield with_length(EXAMPLE[:size])
    for more in (1, 2, 4, 256):
        yield EXAMPLE + bytes(more)
        yield with_length(EXAMPLE + bytes(more))


def entries_past_the_end():
    for n in (1, 2, 16):
        for missing in (1, 2, 7, 8):
            whole = with_length(words16(n, 0, *([entry_of(n), 0, 1, 0] * n)))
            yield with_length(whole[: len(whole) - missing])


def closed_flags():
    for closed in (0, 1, 2, 3, 255, 256, 257, 32768, 65535):
        yield changed(file_of(RING), entry_of(0) + 6, closed)
        yield changed(file_of(LINE, BEND, RING), entry_of(2) + 6, closed)


def point_places():
    """Points before the end of the entries, past the end of the file, past 65,535."""
    for offset in (0, 1, 3, 4, 11, 12, 13, 19, 20, 21, 65535):
        yield changed(EXAMPLE, entry_of(0), offset)
        yield changed(EXAMPLE, entry_of(0), offset, 0)
        yield changed(EXAMPLE, entry_of(0), offset, 1)
    two = file_of(LINE, BEND)
    for offset in (12, 19, 20, 21, len(two) - 12, len(two) - 11, len(two) - 8, len(two)):
        yield changed(two, entry_of(1), offset)
    for count in (3, 4, 16381, 16383, 16384, 16385, 16386, 32768, 32770, 49152, 65535):
        yield changed(EXAMPLE, entry_of(0) + 2, count)
        yield changed(two, entry_of(1) + 2, count)
    for offset, count in ((65524, 3), (65532, 1), (65535, 1), (65528, 5), (65535, 65535)):
        yield changed(EXAMPLE, entry_of(0), offset, count)


def too_many_points():
    """Refusal 2, before 3 and 4; 9 before it."""
    shared = [(i % 7, i % 5) for i in range(513)]
    for count in (255, 256, 257, 258, 512, 513):
        yield sharing(shared[:count], [(0, count, 0, 0), (0, 2, 3, 0), (0, count, 0, 1)])
    yield sharing([*shared[:256], (512, 0)], [(0, 257, 65, 0), (0, 256, 65, 1), (1, 256, 1, 0)])
    for width, point in product((0, 1, 64, 65, 65535), ((0, 0), (511, -511), (512, 0))):
        yield file_of(Route([point], width, 1), LINE)
    yield changed(sharing(shared[:257], [(0, 257, 1, 0)]), entry_of(0) + 6, 2)


def widths_past_the_limit():
    """Refusal 3, before 4, also of routes without segments."""
    for width in (64, 65, 66, 128, 256, 257, 320, 32767, 32768, 65472, 65535):
        yield file_of(LINE, RING._replace(width=width), BEND)
        yield file_of(Route([], width, 0), Route([(1, 1)], width, 0), Route([], width, 1), LINE)
    yield file_of(Route([(512, 0), (0, 0)], 65, 0), Route([(512, 0), (0, 0)], 64, 0))


def coordinates_past_the_limit():
    """Refusal 4, also of routes without segments, and not of points that no entry names."""
    for place, value in product(range(6), (511, -511, 512, -512)):
        numbers = [1, 2, 30, 4, 5, 40]
        numbers[place] = value
        yield file_of(Route(paired(numbers), 2, place % 2), LINE)
    for value in (513, -513, 767, -1024, 1023, 32767, -32768, -32257):
        yield file_of(LINE, Route([(3, 4), (value, 0), (0, 7)], 1, 1), BEND)
        yield file_of(Route([(0, value)], 1, 0), RING)
        yield file_of(Route([(value, 0)], 1, 1))
    points = [(512, 512), (0, 0), (3, 0), (-512, 9)]
    yield sharing(points, [(1, 2, 3, 0), (0, 3, 3, 0), (1, 3, 3, 0)])


def doubled_points():
    """Refusal 12, after 2, 3 and 4 and before 8; near misses are drawn: a coordinate in common, a point that comes again."""
    for place, closed in product(range(3), (0, 1)):
        yield file_of(LINE, Route(doubled_at(BEND.points, place), 2, closed), RING)
    full, many = meander(33, 2, 4), [(i % 7, i % 5) for i in range(256)]
    for closed in (0, 1):
        yield file_of(Route([*RING.points, RING.points[0]], 2, closed), LINE)
        yield file_of(Route([(4, 4), (4, 4)], 65, closed), Route([(512, 0), (512, 0)], 3, closed), BEND)
        yield file_of(Route([(4, 4), (4, 4), (0, -512)], 3, closed), Route([(4, 4), (4, 4)], 3, closed))
        yield file_of(Route([(0, 0), (0, 5), (7, 5), (0, 5), (9, 5)], 1, closed), LINE)
        yield file_of(Route(doubled_at(full, 65), 1, closed), Route(doubled_at(full, 0), 1, closed), LINE)
        yield file_of(Route(doubled_at(many, 255), 1, closed), Route(doubled_at(many[1:], 254), 1, closed))
    # Of three points that overlap, two are equal, or the first and the last are.
    points = [(0, 0), (5, 3), (5, 3), (-2, 6), (5, 3)]
    yield sharing(points, [(first, 3, 1, closed) for first in range(3) for closed in (0, 1)])


def zigzag(legs, step, height):
    return [(step * i, height * (i % 2)) for i in range(legs + 1)]


def meander(legs, step, height):
    """Upright legs, joined above and below in turn."""
    found = []
    for i in range(legs):
        upright = [(step * i, 0), (step * i, height)]
        found += upright[:: -1 if i % 2 else 1]
    return found


def full_boards():
    """Refusal 8 at 33 runs; 33 on the way and fewer at the end; room used again."""
    for legs, width in product((31, 32, 33, 34), (0, 1)):
        yield file_of(Route(meander(legs, 2, 4), width, 0), LINE)
    for legs in (32, 33):
        yield file_of(BEND, Route(zigzag(legs, 4, 4), 1, 0))
        yield file_of(Route(zigzag(legs, 6, 3), 2, 0), RING)
        yield file_of(Route(meander(legs, 5, 6), 3, 0))
        yield file_of(Route(meander(legs, 2, 4), 1, 1))
        # The middle row alone has a run for each leg; a line covers it after the legs, or before.
        cover = [(2 * legs - 1, 1), (-2, 1)]
        yield file_of(Route([*meander(legs, 2, 2), *cover], 1, 0), LINE)
        yield file_of(Route([*cover, *meander(legs, 2, 2)], 1, 0), LINE)
    # Twenty legs are covered before thirty more come.
    more = [plus(p, (44, 0)) for p in meander(30, 2, 2)]
    yield file_of(Route([*meander(20, 2, 2), (39, 1), (-2, 1), *more], 1, 0))
    yield file_of(Route([*meander(20, 2, 2), *more], 1, 0))
    yield file_of(*[Route(meander(33, 2, 2), 1, k % 2) for k in range(3)], RING)


def sixteen(rng):
    """All sixteen entries, refused ones and empty ones among them."""
    for _ in range(6):
        routes = [random_route(rng, 8, rng.choice((0, 1, 2, 3, 4, 9))) for _ in range(16)]
        routes[rng.randrange(16)] = Route([(1, 1)], 1, 1)
        routes[rng.randrange(16)] = Route([], 2, 1)
        routes[rng.randrange(16)] = Route([(1, 1), (2, 600)], 1, 0)
        routes[rng.randrange(16)] = Route([(1, 1), (2, 6)], 70, 0)
        yield file_of(*routes)
    yield sharing([(0, 0), (5, 3), (-2, 6)], [(k % 3, 3 - k % 3, k % 4, k // 8) for k in range(16)])
    yield file_of(*[Route([], k, k % 2) for k in range(16)])
    yield file_of(*[Route([(k, k)], 60 + k, 0) for k in range(16)])


def shared_points(rng):
    for _ in range(6):
        points = [point_within(rng, 12) for _ in range(6)]
        parts = [
            (first, rng.randint(2, 6 - first), rng.randint(0, 4), rng.choice((0, 1)))
            for first in range(4)
        ]
        yield sharing(points, parts, gap=bytes(rng.randrange(3)))
    # Points that overlap by a half: y of one is x of the next.
    numbers = words16(*range(-6, 12, 2))
    yield of_entries([(20, 4, 1, 0), (22, 4, 1, 0)], numbers)
    yield of_entries([(20, 4, 1, 1), (20, 4, 1, 1)], numbers)


def unnamed_bytes(rng):
    """Odd offsets, and bytes before, between and behind the points that no entry names."""
    gaps, ends = (b"", b"\xff", b"\x00\x80\x07", b"\xff" * 8), (b"", b"\xff", b"\x01\x02")
    for gap, behind in product(gaps, ends):
        routes = [random_route(rng, 9, rng.randint(0, 4)) for _ in range(2)]
        yield file_of(*routes, gap=gap, behind=behind)
    for k in (0, 1, 4, 7):
        place = entry_of(1) + k
        yield of_entries([(place, 0, 1, k % 2)], bytes(7))
    yield of_entries([(entry_of(1) + 8, 0, 1, 0)], bytes(7))


def few_points():
    """No point and one point, which have no segments; two points, also closed and equal."""
    routes = ([], [(0, 0)], [(4, 4), (4, 4)], [(0, 0), (7, 2)], [(7, 2), (0, 0)])
    for points, closed, width in product(routes, (0, 1), (0, 1, 3, 6)):
        yield file_of(Route(points, width, closed))


def every_width(rng):
    for width in range(65):
        bend = [(0, 0), *(point_within(rng, 12) for _ in range(2))]
        ring = [(0, 0), plus((12, 0), point_within(rng, 4)), plus((0, 12), point_within(rng, 4))]
        yield file_of(Route(bend, width, 0), Route(ring, width, 1))


def directions(rng):
    for direction in DIRECTIONS:
        a, b = (0, 0), scaled(direction, 2)
        c = plus(b, rng.choice(DIRECTIONS))
        closed = rng.choice((0, 1))
        widths = rng.randint(0, 5), rng.randint(0, 5)
        yield file_of(Route([a, b], widths[0], 0), Route([a, b, c], widths[1], closed))


def rings(rng):
    """Closed routes with spikes, doubled points, and the first point again at the end."""
    for width in (0, 1, 2, 4, 7):
        a, b, c, d = (point_within(rng, 12) for _ in range(4))
        yield file_of(Route([a, b, c], width, 1), Route([a, b, c, a], width, 1))
        yield file_of(Route([a, b, a, c], width, 1), Route([a, a, b, c], width, 1))
        yield file_of(Route([a, b, c, d], width, 1), Route([a, c, b, d], width, 1))


def left_i32():
    """The box's diagonals and the joins for which the Rust leaves i32."""
    for question in (smallest_joins.RIGHT_ANGLE, *smallest_joins.WITNESSES.values()):
        *numbers, width, offset = map(int, question.split()[1:])
        yield file_of(Route(paired(numbers), width, 0))
    yield file_of(Route([(-511, -511), (511, 511)], 17, 0), LINE)
    yield file_of(Route([(-511, 511), (511, -511), (500, 511)], 64, 1))


def random_route(rng, size, width):
    points = [point_within(rng, size) for _ in range(rng.randint(2, 6))]
    return Route(points, width, rng.choice((0, 1)))


def random_file(rng):
    size = rng.choice((3, 8, 20))
    routes = [random_route(rng, size, rng.randint(0, 6)) for _ in range(rng.randint(1, 3))]
    return file_of(*routes, gap=bytes(rng.randrange(2)))


def damaged(rng):
    """A byte changed, in the example at each place; bytes that mean nothing."""
    for place in range(len(EXAMPLE)):
        for value in (EXAMPLE[place] ^ 1, EXAMPLE[place] ^ 128):
            yield EXAMPLE[:place] + bytes([value]) + EXAMPLE[place + 1 :]
    for _ in range(25):
        data = random_file(rng)
        place = rng.randrange(len(data))
        yield data[:place] + rng.randbytes(1) + data[place + 1 :]
    for size in (5, 12, 20, 41):
        yield rng.randbytes(size)
        yield with_length(words16(1) + rng.randbytes(size))


def longest():
    """65,535 bytes, points up to the last of them; 65,540, whose length is 4 in sixteen bits."""
    start = entry_of(4)
    last = MOST_BYTES - 12
    most = (MOST_BYTES - start) // 4
    entries = [(start, most, 1, 0), (last, 3, 2, 1), (last + 8, 1, 2, 1), (start, 2, 3, 0)]
    points = words16(0, 0, 3, 0)
    ring = words16(*flat(RING.points))
    yield of_entries(entries, points + bytes(last - start - len(points)) + ring)
    yield words16(0, 4) + bytes(65536)


def questions():
    rng = random.Random(SEED)
    classes = {
        "headers": headers(),
        "entries past the end": entries_past_the_end(),
        "closed flags": closed_flags(),
        "places of points": point_places(),
        "2: numbers of points": too_many_points(),
        "3: widths": widths_past_the_limit(),
        "4: coordinates": coordinates_past_the_limit(),
        "12: doubled points": doubled_points(),
        "8: runs of a row": full_boards(),
        "sixteen routes": sixteen(rng),
        "shared points": shared_points(rng),
        "bytes that none names": unnamed_bytes(rng),
        "0 to 2 points": few_points(),
        "every width": every_width(rng),
        "directions": directions(rng),
        "closed routes": rings(rng),
        "beyond i32 in the Rust": left_i32(),
        "random": (random_file(rng) for _ in range(50)),
        "damaged": damaged(rng),
        "the longest files": longest(),
        "the sample": [SAMPLE.read_bytes()],
    }
    asked = {name: map(ask, files) for name, files in classes.items()}
    return listed({"worked examples": (question for question, _ in WORKED), **asked})


def random_question(rng):
    data = random_file(rng)
    if rng.random() < 0.3:
        place = rng.randrange(len(data))
        data = data[:place] + rng.randbytes(1) + data[place + 1 :]
    return ask(data)
