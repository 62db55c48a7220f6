"""The questions of the list `fields`: kinds o, v, y, g, b, h and w, all fields of an answer; and two faults at once of m and u.

Each answer is worked out by hand from documents 01 and 02 and stands here; the exact calculation must say the same. The Rust has no
refusals, and is not asked.
"""

from exact import words

KINDS = "ovygbhwmu"
BY_HAND = True

# 257 points, all (0,0).
MANY = words(514, *[0] * 514)

# One fault each, then two at once: the first of the table is told.
STARTS = [
    ("o 3 1 7 4 0 0 5 5", "0 0 3 | 0 0 3 Left | 0 0 3 7 0 0"),
    ("o 0 2 -4095 0", "0 0 0 | 0 0 0 Right | 0 0 0 -4095 0 0"),
    ("o 3 1 7 3 0 0 5", "1 0 0 | 1 0 0 None | 1 0 0 0 0 0"),
    ("o 3 2 7 2 0 0", "0 0 3 | 2 0 0 None | 0 0 3 7 0 0"),
    (f"o 3 2 7 {MANY}", "2 0 0 | 2 0 0 None | 2 0 0 0 0 0"),
    ("o 65 2 7 4 0 0 5 5", "3 0 0 | 3 0 0 None | 3 0 0 0 0 0"),
    ("o -1 1 7 4 0 0 5 5", "3 0 0 | 3 0 0 None | 3 0 0 0 0 0"),
    ("o 3 1 7 4 0 0 512 5", "4 0 0 | 4 0 0 None | 4 0 0 0 0 0"),
    ("o 3 1 4096 4 0 0 5 5", "0 0 3 | 0 0 3 Left | 6 0 0 0 0 0"),
    (f"o 65 1 7 515 512 {words(*[0] * 514)}", "1 0 0 | 1 0 0 None | 1 0 0 0 0 0"),
    ("o 65 1 7 3 0 0 512", "1 0 0 | 1 0 0 None | 1 0 0 0 0 0"),
    (f"o 65 1 4096 {MANY}", "2 0 0 | 2 0 0 None | 2 0 0 0 0 0"),
    ("o -1 1 7 2 512 0", "3 0 0 | 2 0 0 None | 3 0 0 0 0 0"),
    ("o 3 1 7 2 0 -512", "4 0 0 | 2 0 0 None | 4 0 0 0 0 0"),
    ("o 65 1 7 4 0 0 512 5", "3 0 0 | 3 0 0 None | 3 0 0 0 0 0"),
    ("o 65 1 4096 4 0 0 5 5", "3 0 0 | 3 0 0 None | 3 0 0 0 0 0"),
    ("o 3 1 4096 4 0 0 -512 5", "4 0 0 | 4 0 0 None | 4 0 0 0 0 0"),
    ("o 3 1 7 4 5 5 5 5", "12 0 0 | 12 0 0 None | 12 0 0 0 0 0"),
    ("o 3 1 7 6 0 0 5 5 0 0", "0 0 3 | 12 0 0 None | 0 0 3 7 0 0"),
    ("o 3 1 7 6 0 5 5 5 5 0", "0 0 3 | 0 0 3 Left | 0 0 3 7 0 0"),
    ("o 3 1 7 8 0 0 5 5 9 5 9 5", "12 0 0 | 12 0 0 None | 12 0 0 0 0 0"),
    ("o 3 1 7 5 5 5 5 5 5", "1 0 0 | 1 0 0 None | 1 0 0 0 0 0"),
    ("o 65 1 7 4 5 5 5 5", "3 0 0 | 3 0 0 None | 3 0 0 0 0 0"),
    ("o 3 1 7 4 512 5 512 5", "4 0 0 | 4 0 0 None | 4 0 0 0 0 0"),
    ("o 3 1 7 6 5 5 5 5 0 -512", "4 0 0 | 4 0 0 None | 4 0 0 0 0 0"),
    ("o 3 1 4096 4 5 5 5 5", "12 0 0 | 12 0 0 None | 12 0 0 0 0 0"),
]

# A walk at place 1 that has gathered 5 to 9: at the end, and past it where the list has fewer points, it hands that out; refused, it is
# as it was.
NEXT = [
    ("v 3 0 7 4 0 0 5 5", "0 0 true 7 5 9 | 1 3 7 0 0"),
    ("v 3 0 7 2 0 0", "0 0 true 7 5 9 | 1 3 7 0 0"),
    ("v 3 0 7 0", "0 0 true 7 5 9 | 1 3 7 0 0"),
    ("v 3 0 7 3 0 0 5", "1 0 false 0 0 0 | 1 3 7 5 9"),
    (f"v 3 0 7 {MANY}", "2 0 false 0 0 0 | 1 3 7 5 9"),
    ("v 65 0 7 4 0 0 5 5", "3 0 false 0 0 0 | 1 65 7 5 9"),
    ("v 3 0 7 4 0 0 512 5", "4 0 false 0 0 0 | 1 3 7 5 9"),
    ("v 3 0 4096 4 0 0 5 5", "6 0 false 0 0 0 | 1 3 4096 5 9"),
    ("v 65 0 7 3 0 0 5", "1 0 false 0 0 0 | 1 65 7 5 9"),
    (f"v -1 0 4096 {MANY}", "2 0 false 0 0 0 | 1 -1 4096 5 9"),
    ("v 65 0 4096 4 0 0 512 5", "3 0 false 0 0 0 | 1 65 4096 5 9"),
    ("v 3 0 -4096 4 0 512 5 5", "4 0 false 0 0 0 | 1 3 -4096 5 9"),
    ("v 3 0 7 4 5 5 5 5", "12 0 false 0 0 0 | 1 3 7 5 9"),
    ("v 65 0 7 4 5 5 5 5", "3 0 false 0 0 0 | 1 65 7 5 9"),
    ("v 3 0 7 4 512 5 512 5", "4 0 false 0 0 0 | 1 3 7 5 9"),
    ("v 3 0 4096 4 5 5 5 5", "12 0 false 0 0 0 | 1 3 4096 5 9"),
]

# Handed out and what is left; an empty span stays, whatever its columns are.
TAKEN = [
    ("y 7 2 5", "0 true 7 2 5 | 7 0 0"),
    ("y -4095 -4095 4096", "0 true -4095 -4095 4096 | -4095 0 0"),
    ("y 7 5 5", "0 false 0 0 0 | 7 5 5"),
    ("y 7 5000 4999", "0 false 0 0 0 | 7 5000 4999"),
    ("y 4096 2 5", "6 false 0 0 0 | 4096 2 5"),
    ("y -4096 5 5", "6 false 0 0 0 | -4096 5 5"),
    ("y 7 -4096 5", "7 false 0 0 0 | 7 -4096 5"),
    ("y 7 0 4097", "7 false 0 0 0 | 7 0 4097"),
    ("y 4096 0 4097", "6 false 0 0 0 | 4096 0 4097"),
]

# A bevel's filler line from (0,0) to (4,0) has its midpoint at (2,0), and so has that of a degenerate join with its outer side on the left;
# on the right it is the point (2,2). A join refused with 5 is so by each entry, whatever its kind, at the position that it was given.
LINES = [
    ("g 1 7 0 0 2 2 4 0 2 2", "0 0 4 0 | 2 4 0 2 0 2 0 2 2 | 2 0 0 2 0 2 0 2 2 | 0 0 false"),
    ("g 7 1 3 -1 3 1 3 -1 3 1", "none | 1 3 -1 3 1 | 1 3 -1 3 1 | 0 0 false"),
    ("g 3 0 0 0 2 2 4 0 2 2", "0 0 4 0 | 2 4 0 2 0 2 0 2 2 | 2 0 0 2 0 2 0 2 2 | 0 0 true"),
    ("g 4 999999999999999999 0 0 2 2 4 0 2 2", "2 2 2 2 | 2 4 0 2 2 2 2 2 2 | 2 0 0 2 2 2 2 2 2 | 0 0 true"),
] + [
    (words("g", kind, bend, *corners), f"refused 5 {bend} | refused 5 {bend} | refused 5 {bend} | 5 {bend} false")
    for kind, bend, corners in (
        (0, 0, (4096, 0, 0, 0, 0, 0, 0, 0)),
        (1, 1, (0, -4096, 0, 0, 0, 0, 0, 0)),
        (2, 2, (0, 0, 4096, 0, 0, 0, 0, 0)),
        (3, 7, (0, 0, 0, -4096, 0, 0, 0, 0)),
        (4, 15, (0, 0, 0, 0, 4096, 0, 0, 0)),
        (5, 255, (0, 0, 0, 0, 0, -4096, 0, 0)),
        (6, 256, (0, 0, 0, 0, 0, 0, 4096, 0)),
        (7, 65535, (0, 0, 0, 0, 0, 0, 0, -4096)),
        (1, 999999999999999999, (4096, 0, 0, 0, 0, 0, 0, 4096)),
    )
]


def of_entries(of_corners, of_span=None):
    """Five entries look at the corners alone; the span, the last, then looks at the row."""
    return " | ".join([of_corners] * 5 + [of_span or of_corners])


# The corners of two joins, before which a kind and a position stand: the start join is looked at before the end join, whichever position
# is the lesser, and both before the row.
START, FAR_START = "0 -1 0 1 0 -1 0 1", "0 -1 0 1 0 -1 0 4096"
END, FAR_END = "3 -1 3 1 3 -1 3 1", "-4096 -1 3 1 3 -1 3 1"
BENDS = [
    (f"b 6 3 {START} 7 4 {END} 0", of_entries("0 0")),
    (f"b 6 3 {FAR_START} 7 4 {END} 0", of_entries("5 3")),
    (f"b 6 3 {START} 7 4 {FAR_END} 0", of_entries("5 4")),
    (f"b 6 3 {FAR_START} 7 4 {FAR_END} 0", of_entries("5 3")),
    (f"b 0 9 {FAR_START} 1 2 {FAR_END} 0", of_entries("5 9")),
    (f"b 6 0 {FAR_START} 7 4 {FAR_END} 0", of_entries("5 0")),
    (f"b 2 7 {START} 3 0 {FAR_END} 0", of_entries("5 0")),
    (f"b 0 7 4096 0 0 0 0 0 0 0 1 8 {END} 0", of_entries("5 7")),
    (f"b 0 7 {START} 1 8 0 0 0 0 0 0 0 -4096 0", of_entries("5 8")),
    (f"b 6 3 {START} 7 4 {END} 4096", of_entries("0 0", "6 0")),
    (f"b 4 255 {START} 5 256 {END} -999999999999999999", of_entries("0 0", "6 0")),
    (f"b 6 3 {FAR_START} 7 4 {END} 4096", of_entries("5 3")),
    (f"b 6 3 {START} 7 4 {FAR_END} -4096", of_entries("5 4")),
    (f"b 6 3 {FAR_START} 7 4 {FAR_END} 4096", of_entries("5 3")),
    (f"b 6 999999999999999999 {START} 7 999999999999999998 {END} 0", of_entries("0 0")),
    (f"b 6 999999999999999999 {FAR_START} 7 4 {FAR_END} 0", of_entries("5 999999999999999999")),
    (f"b 6 3 {START} 7 999999999999999999 {FAR_END} 4096", of_entries("5 999999999999999999")),
]

NO_RUNS = "0 0 -7 -7 -7 -7 -7 -7"


def of_both(rows, row, whole):
    """The rows, the row, the route as a whole; each of them open and closed, which are alike."""
    return " | ".join([rows] * 2 + [row] * 2 + [whole] * 2)


def refused_rows(number):
    return of_both(f"{number} 0 false 0 0", f"{number} 0 {NO_RUNS}", f"{number} 0")


def zigzag(strokes):
    """A list of points, 4 to the right and 4 down or up at a time."""
    return words(2 * strokes + 2, *(number for i in range(strokes + 1) for number in (4 * i, 4 * (i % 2))))


# Document 01's line, of which the row 0 is 0 to 4, and its row 2, which has no run. A point alone has no rows, and closed it is refused.
# Legs of width 1, 40 high and 20 apart, lie on the columns 0, 20, 40 and 60: six numbers hold three runs; for four the list is too short,
# and the route is fine. Closed, the diagonal back from (40,40) to (0,0) meets the row 20 at 20. Out to (3,0) and back is the line again,
# and closed it ends where it begins. 33 strokes have 33 runs on the rows 1 to 3, closed too before the last segment joins some of them:
# the route is refused with 8, and its rows, and a row without a run, are not. Then one fault each, and two at once.
THREE_LEGS = "12 0 0 0 40 20 40 20 0 40 0 40 40"
FOUR_LEGS = "16 0 0 0 40 20 40 20 0 40 0 40 40 60 40 60 0"
ROWS = [
    ("w 3 0 0 4 0 0 3 0", of_both("0 0 true -1 1", "0 0 1 4 0 4 -7 -7 -7 -7", "0 0")),
    ("w 3 0 2 4 0 0 3 0", of_both("0 0 true -1 1", f"0 0 {NO_RUNS}", "0 0")),
    ("w 3 0 7 0", of_both("0 0 false 0 0", f"0 0 {NO_RUNS}", "0 0")),
    ("w 3 0 7 2 0 0", f"0 0 false 0 0 | 2 0 false 0 0 | 0 0 {NO_RUNS} | 2 0 {NO_RUNS} | 0 0 | 2 0"),
    (f"w 1 0 20 {THREE_LEGS}", of_both("0 0 true 0 40", "0 0 3 3 0 1 20 21 40 41", "0 0")),
    (f"w 1 0 20 {FOUR_LEGS}", of_both("0 0 true 0 40", f"8 0 {NO_RUNS}", "0 0")),
    (
        "w 3 0 0 6 0 0 3 0 0 0",
        f"0 0 true -1 1 | 12 0 false 0 0 | 0 0 1 4 0 4 -7 -7 -7 -7 | 12 0 {NO_RUNS} | 0 0 | 12 0",
    ),
    ("w 3 0 4096 4 0 0 3 0", of_both("0 0 true -1 1", f"6 0 {NO_RUNS}", "0 0")),
    (f"w 1 0 7 {zigzag(32)}", of_both("0 0 true 0 4", f"0 0 {NO_RUNS}", "0 0")),
    (f"w 1 0 7 {zigzag(33)}", of_both("0 0 true 0 4", f"0 0 {NO_RUNS}", "8 0")),
    (f"w 1 0 2 {zigzag(33)}", of_both("0 0 true 0 4", f"8 0 {NO_RUNS}", "8 0")),
    (f"w 1 0 4096 {zigzag(33)}", of_both("0 0 true 0 4", f"6 0 {NO_RUNS}", "8 0")),
    ("w 3 0 0 3 0 0 3", refused_rows(1)),
    (f"w 3 0 0 {MANY}", refused_rows(2)),
    ("w 65 0 0 4 0 0 3 0", refused_rows(3)),
    ("w 3 0 0 4 0 0 512 0", refused_rows(4)),
    ("w 65 0 4096 3 0 0 512", refused_rows(1)),
    ("w 65 0 4096 4 0 0 512 0", refused_rows(3)),
    ("w 3 0 -4096 4 0 0 0 -512", refused_rows(4)),
    ("w 3 0 0 4 3 0 3 0", refused_rows(12)),
    ("w 3 0 0 6 0 0 3 0 3 0", refused_rows(12)),
    ("w 65 0 0 4 3 0 3 0", refused_rows(3)),
    ("w 3 0 0 6 3 0 3 0 512 0", refused_rows(4)),
    ("w 3 0 4096 4 3 0 3 0", refused_rows(12)),
    (f"w 1 0 4096 {FOUR_LEGS}", of_both("0 0 true 0 40", f"6 0 {NO_RUNS}", "0 0")),
]

# A coordinate and a row, a coordinate and a column, all three; rows that differ and a column.
TWO_FAULTS = [
    ("m 4096 0 3 3 4096 2 6", "refused 4"),
    ("m 0 0 3 -4096 2 2 5000", "refused 4"),
    ("m 0 5000 3 3 -4096 -4096 6", "refused 4"),
    ("u 1 2 6 2 5 5000", "refused 6"),
    ("u 4 -4096 6 5 5 9", "refused 6"),
]

NO_POINTS = "0 0 -7 -7 -7 -7 -7 -7"
NO_ROUTE = f"0 false 0 0 false | {NO_POINTS}"
WRONG = "9 0 | 9 false 0 0 false | 9 0 -7 -7 -7 -7 -7 -7"


def asked(k, *hexadecimal):
    return words("h", k, *bytes.fromhex("".join(hexadecimal)))


def of_width(low_high):
    """Document 01's file with another width."""
    return asked(0, "0100 1400 0C00 0200", low_high, "0000 0000 0000 0300 0000")


# Document 01's file; its widths from 64 on; a route that it does not have; four points, for which six numbers are too few; files that
# are wrong, some of them twice.
FILES = [
    (of_width("0300"), "0 1 | 0 true 2 3 false | 0 4 0 0 3 0 -7 -7"),
    (of_width("4100"), "0 1 | 0 true 2 65 false | 0 4 0 0 3 0 -7 -7"),
    (of_width("FF7F"), "0 1 | 0 true 2 32767 false | 0 4 0 0 3 0 -7 -7"),
    (of_width("0080"), "0 1 | 0 true 2 32768 false | 0 4 0 0 3 0 -7 -7"),
    (of_width("FFFF"), "0 1 | 0 true 2 65535 false | 0 4 0 0 3 0 -7 -7"),
    (asked(1, "0100 1400 0C00 0200 0300 0000 0000 0000 0300 0000"), f"0 1 | {NO_ROUTE}"),
    (asked(999, "0100 1400 0C00 0200 0300 0000 0000 0000 0300 0000"), f"0 1 | {NO_ROUTE}"),
    (asked(0, "0000 0400"), f"0 0 | {NO_ROUTE}"),
    (
        asked(1, "0200 1C00 1400 0000 0000 0000 1400 0200 4000 0100 0080 FFFF FF7F 0001"),
        "0 2 | 0 true 2 64 true | 0 4 -32768 -1 32767 256 -7 -7",
    ),
    (
        asked(0, "0100 1C00 0C00 0400 0300 0100 0000 0000 0100 0000 0100 0100 0000 0100"),
        "0 1 | 0 true 4 3 true | 8 0 -7 -7 -7 -7 -7 -7",
    ),
    (asked(0, ""), WRONG),
    (asked(0, "0000 04"), WRONG),
    (asked(0, "0000 0500"), WRONG),
    (asked(0, "0100 1400 0C00 0200 0300 0200 0000 0000 0300 0000"), WRONG),
    (asked(0, "0100 1400 0800 0200 0300 0000 0000 0000 0300 0000"), WRONG),
    (asked(0, "0100 1400 0C00 0300 0300 0000 0000 0000 0300 0000"), WRONG),
    (asked(1, "0100 1500 0C00 0200 0300 0200 0000 0000 0300 0000"), WRONG),
    (asked(0, "0100 1C00 0C00 0400 0300 0200 0000 0000 0100 0000 0100 0100 0000 0100"), WRONG),
]

WORKED = STARTS + NEXT + TAKEN + LINES + BENDS + FILES + ROWS + TWO_FAULTS
CLASSES = {
    "starts of the three walks": STARTS,
    "the polyline's next": NEXT,
    "try_take": TAKEN,
    "filler lines and caps, each entry by itself": LINES,
    "segments, each entry by itself": BENDS,
    "entries of a route file": FILES,
    "rows of a route": ROWS,
    "two faults of lines and spans": TWO_FAULTS,
}


def questions():
    return [(name, question) for name, pairs in CLASSES.items() for question, _ in pairs]


def stored_form(question, answer):
    """A file is stored in hex, `-` if it is empty."""
    kind, *numbers = question.split()
    if kind != "h":
        return question, answer
    k, *data = map(int, numbers)
    return words("h", k, bytes(data).hex() or "-"), answer
