"""The questions answered from document 01, over exact numbers, with its limits and refusals, and K4, K6 and K9 of document 02.

The rules stand in `plane.py`, `strokes.py`, `joins.py`, `segments.py`, `walks.py` and
`route_files.py`; here is what each kind of question asks for. Import `answer`, or run it as
a filter.
"""

import sys

import joins
import route_files
import segments
import strokes
import walks
from plane import delta_of, distance_of, nearly_colinear, rounded_crossing

CROSSING_LIMIT = 1023
ROUTE_LIMIT = 511
CORNER_LIMIT = 4095
WIDTH_LIMIT = 64
# The numbers that the lent list of a replay holds, and the kinds that write to it.
LENT_LIST = 4096
LISTED = "pt"


class Refused(Exception):
    """Carries a number of document 01's table, or 12; with 5 also the position of the join."""

    def __str__(self):
        return words(*self.args)


def refuse(number, when):
    if when:
        raise Refused(number)


def beyond(limit, numbers):
    return any(abs(number) > limit for number in numbers)


def paired(numbers):
    return list(zip(numbers[::2], numbers[1::2]))


def words(*values):
    return " ".join(str(value) for value in values)


def flat(points):
    return [coordinate for point in points for coordinate in point]


def truth(value):
    return "true" if value else "false"


# Crossings.


def points_to_cross(numbers):
    refuse(4, beyond(CROSSING_LIMIT, numbers))
    return paired(numbers)


def line_and_point(numbers):
    start, end, point = points_to_cross(numbers)
    return (start, end), point


def two_lines(numbers):
    a, b, c, d = points_to_cross(numbers)
    return (a, b), (c, d)


def equation(*numbers):
    # The origin lies at minus this distance; the quarter turn of the delta is W1's.
    start, end = points_to_cross(numbers)
    dx, dy = delta_of((start, end))
    return words(-dy, dx, -distance_of((start, end), (0, 0)))


def distance(*numbers):
    return words(distance_of(*line_and_point(numbers)))


def sides(*numbers):
    value = distance_of(*line_and_point(numbers))
    return words(truth(value <= 0), truth(value >= 0))


def crossing(*numbers):
    found = rounded_crossing(*two_lines(numbers))
    if found is None:
        return "Colinear"
    point, side, divisions = found
    return words(*point, side, divisions)


def nearly_colinear_lines(*numbers):
    return truth(nearly_colinear(*two_lines(numbers)))


# Thick lines.


def refuse_stroke(width, coordinates):
    refuse(3, not 0 <= width <= WIDTH_LIMIT)
    refuse(4, beyond(ROUTE_LIMIT, coordinates))


def stroke(ax, ay, bx, by, width, offset=0):
    refuse_stroke(width, (ax, ay, bx, by))
    return ((ax, ay), (bx, by)), width, strokes.OFFSETS[offset]


def extents(*numbers):
    left, right = strokes.extents(*stroke(*numbers))
    return words(*flat(left + right))


def parallels(*numbers):
    found = list(strokes.parallels(*stroke(*numbers)))
    return words(len(found), *flat((*p.point, p.error, int(p.extra)) for p in found))


def thick_points(*numbers):
    line, width, _ = stroke(*numbers)
    found = list(strokes.thick_points(line, width))
    return words(len(found), *flat(found))


# Joins.


def refuse_corners(*found):
    """Names the first join that has a corner beyond the limit."""
    for join in found:
        if beyond(CORNER_LIMIT, flat(join.corners())):
            raise Refused(5, join.position)


def join_words(join):
    refuse_corners(join)
    return words(join.kind, *flat(join.corners()), *join.origins, join.position)


# A join asked for alone counts its own points as the list.


def start_join(*numbers):
    (a, b), width, offset = stroke(*numbers)
    return join_words(joins.start(a, b, width, offset))


def end_join(*numbers):
    (a, b), width, offset = stroke(*numbers)
    return join_words(joins.end(a, b, width, offset)._replace(position=1))


def join(*numbers):
    *coordinates, width, offset = numbers
    refuse_stroke(width, coordinates)
    a, b, c = paired(coordinates)
    return join_words(joins.between(a, b, c, width, strokes.OFFSETS[offset])._replace(position=1))


def handed_in(kind, position, *numbers):
    """A join from the number of its kind, its position and its corners."""
    a, b, c, d = paired(numbers)
    corners = joins.Corners(a, b), joins.Corners(c, d)
    return joins.Join(joins.KINDS[kind], *corners, position=position)


def line_words(lines):
    return words(len(lines), *(words(*flat(line)) for line in lines))


def filled_words(found):
    filler = joins.filler_line(found)
    return (
        words(*flat(filler)) if filler else "none",
        line_words(joins.start_cap_lines(found)),
        line_words(joins.end_cap_lines(found)),
    )


def lines_of_join(*numbers):
    found = handed_in(*numbers)
    refuse_corners(found)
    return " | ".join([*filled_words(found), truth(joins.is_degenerate(found))])


# Segments and spans.


def segment(*numbers):
    found = segments.Segment(handed_in(*numbers[:10]), handed_in(*numbers[10:]))
    refuse_corners(*found)
    return found


def parts_of_segment(*numbers):
    found = segment(*numbers)
    parts = (
        truth(found.is_skeleton()),
        words(*flat(found.right_edge() + found.left_edge())),
        words(*found.edges_bounding_box()),
        line_words(found.perimeter()),
    )
    return " | ".join(parts)


def rows_of_segment(*numbers):
    return words(*segment(*numbers).drawn_rows())


def span_of_segment(*numbers):
    *corners, row = numbers
    found = segment(*corners)
    refuse(6, beyond(CORNER_LIMIT, [row]))
    return words(*found.span(row))


def refuse_columns(*spans):
    """An end is not included, so that it may be one beyond the last column."""
    for start, end in spans:
        columns = () if segments.is_empty((start, end)) else (start, end - 1)
        refuse(7, beyond(CORNER_LIMIT, columns))


def met_span(ax, ay, bx, by, row, *span):
    refuse(4, beyond(CORNER_LIMIT, (ax, ay, bx, by)))
    refuse(6, beyond(CORNER_LIMIT, [row]))
    refuse_columns(span)
    return words(*segments.meet(span, row, ((ax, ay), (bx, by))))


def extended_span(row, start, end, other_row, other_start, other_end):
    refuse(6, beyond(CORNER_LIMIT, (row, other_row)) or row != other_row)
    span, other = (start, end), (other_start, other_end)
    refuse_columns(span, other)
    was_extended, after = segments.try_extend(span, other)
    return words(truth(was_extended), *after)


# Walks and merged spans.


def route(width, count, coordinates, closed=False):
    """The points of a route; the start of a walk refuses with 1 to 4, and with 12."""
    assert len(coordinates) == count
    refuse(1, count % 2 == 1)
    refuse(2, count > 2 * walks.MOST_POINTS or (closed and count == 2))
    refuse_stroke(width, coordinates)
    points = paired(coordinates)
    refuse(12, walks.is_doubled(points, closed))
    return points


def walk_words(found):
    """Of each segment its two joins, then the end, or the refusal of the first segment that has a join too far."""
    parts = []
    for segment in found:
        try:
            parts.append(" / ".join(map(join_words, segment)))
        except Refused as refusal:
            return " | ".join([*parts, f"refused {refusal}"])
    return " | ".join([*parts, "end"])


def open_walk(width, _offset, _row, count, *coordinates):
    return walk_words(walks.open_segments(route(width, count, coordinates), width))


def closed_walk(width, offset, _row, count, *coordinates):
    points = route(width, count, coordinates, closed=True)
    return walk_words(walks.closed_segments(points, width, strokes.OFFSETS[offset]))


def spans_of_row(width, _offset, row, count, *coordinates):
    """The spans of an open route's segments on a row."""
    found = walks.open_segments(route(width, count, coordinates), width)
    refuse_corners(*(join for segment in found for join in segment))
    refuse(6, beyond(CORNER_LIMIT, [row]))
    return [walks.span_on(segment, row) for segment in found]


def merged_words(spans):
    return words(*flat(spans), "end")


def merged_spans(width, offset, row, count, *coordinates):
    """The walk's start refuses the row, and only then its `next` a join that is too far."""
    route(width, count, coordinates)
    refuse(6, beyond(CORNER_LIMIT, [row]))
    return merged_words(walks.merged(spans_of_row(width, offset, row, count, *coordinates)))


# Route files.


def rows_of_file(*data):
    """What the program `rows` prints, the lines with ` / ` between them."""
    routes = route_files.routes_of(data)
    refuse(9, routes is None)
    lines, total = [words("routes", len(routes))], 0
    for k, found in enumerate(routes):
        try:
            runs = runs_of_route(*found)
            lines += [words(k, *run) for run in runs]
            total += sum(end - start for _, start, end in runs)
        except Refused as refusal:
            lines.append(words(k, "refused", refusal))
    return " / ".join([*lines, words("total", total)])


def runs_of_route(coordinates, width, closed):
    """Row, start and end of each run of a route."""
    points = route(width, len(coordinates), coordinates, closed)
    walk = walks.closed_segments if closed else walks.open_segments
    found = walk(points, width)
    refuse_corners(*(join for segment in found for join in segment))
    rows = list(walks.runs_by_row(found))
    refuse(8, any(most > walks.MOST_RUNS for _, most, _ in rows))
    return [(row, *run) for row, _, runs in rows for run in runs]


# All fields of an answer: a refusal has 0 for every other one, save 5's bend, and a state handed in stays as it was.


def refusal_of(asked, *numbers):
    """The refusal's number, or 0; and its bend, the position that comes with 5, else 0."""
    try:
        asked(*numbers)
    except Refused as refusal:
        return (*refusal.args, 0)[:2]
    return 0, 0


def number_of(asked, *numbers):
    """The same of what is never refused with 5."""
    number, bend = refusal_of(asked, *numbers)
    assert bend == 0
    return number


def starts(width, offset, row, count, *coordinates):
    """Refusal, place and width of the three walks; of the closed one its offset, of the polyline its span."""

    def refuse_row():
        route(width, count, coordinates)
        refuse(6, beyond(CORNER_LIMIT, [row]))

    def fields(number, accepted, refused):
        return words(number, 0, *(refused if number else accepted))

    of_open = number_of(route, width, count, coordinates)
    of_closed = number_of(route, width, count, coordinates, True)
    parts = (
        fields(of_open, [width], [0]),
        fields(of_closed, [width, strokes.OFFSETS[offset]], [0, "None"]),
        fields(number_of(refuse_row), [width, row, 0, 0], [0, 0, 0, 0]),
    )
    return " | ".join(parts)


def next_of_gathered(width, offset, row, count, *coordinates):
    """The polyline's `next` of a walk at place 1 that has gathered 5 to 9; past the end it is handed out."""
    number, bend = refusal_of(spans_of_row, width, offset, row, count, *coordinates)
    if number:
        return words(number, bend, "false", 0, 0, 0, "|", 1, width, row, 5, 9)
    assert count <= 4
    return words(0, 0, "true", row, 5, 9, "|", 1, width, row, 0, 0)


def taken_span(row, start, end):
    def refuse_span():
        refuse(6, beyond(CORNER_LIMIT, [row]))
        refuse_columns((start, end))

    number = number_of(refuse_span)
    if number or segments.is_empty((start, end)):
        return words(number, "false", 0, 0, 0, "|", row, start, end)
    return words(0, "true", row, start, end, "|", row, 0, 0)


def each_line_of_join(*numbers):
    """Filler line, start cap and end cap, each refused by itself; the fields of whether it is degenerate."""
    found = handed_in(*numbers)
    number, bend = refusal_of(refuse_corners, found)
    filled = [f"refused {words(number, bend)}"] * 3 if number else filled_words(found)
    degenerate = not number and joins.is_degenerate(found)
    return " | ".join([*filled, words(number, bend, truth(degenerate))])


def bends_of_segment(*numbers):
    """Refusal and bend of each entry of a segment; the span's, the last, looks at the row too."""
    *corners, _row = numbers
    of_corners, of_span = refusal_of(segment, *corners), refusal_of(span_of_segment, *numbers)
    return " | ".join([words(*of_corners)] * 5 + [words(*of_span)])


def fields_of_file(k, *data):
    """Count; found, points, width and closed of an entry; its points in a list of six numbers, which were -7."""
    routes = route_files.routes_of(data)
    number, known = (9, []) if routes is None else (0, routes)
    coordinates, width, closed = known[k] if k < len(known) else ([], 0, 0)
    room = number or (8 if len(coordinates) > 6 else 0)
    listed = [] if room else coordinates
    parts = (
        words(number, len(known)),
        words(number, truth(k < len(known)), len(coordinates) // 2, width, truth(closed)),
        words(room, len(listed), *listed, *[-7] * (6 - len(listed))),
    )
    return " | ".join(parts)


def fields_of_rows(width, _offset, row, count, *coordinates):
    """Whether the route has rows, the first and the last; its runs on a row in a list of six numbers, which were -7; what it is
    refused with as a whole; each open and closed."""

    def drawn(closed):
        points = route(width, count, coordinates, closed)
        found = (walks.closed_segments if closed else walks.open_segments)(points, width)
        refuse_corners(*(join for segment in found for join in segment))
        return found

    def range_words(closed):
        number, bend = refusal_of(drawn, closed)
        rows = [] if number else walks.rows_of(drawn(closed))
        return words(number, bend, truth(rows), *((rows[0], rows[-1]) if rows else (0, 0)))

    def listed_runs(closed):
        found = drawn(closed)
        refuse(6, beyond(CORNER_LIMIT, [row]))
        lit = set()
        for segment in found:
            lit.update(range(*walks.span_on(segment, row)))
        runs = walks.runs_of(lit)
        refuse(8, len(runs) > 3)
        return runs

    def row_words(closed):
        number, bend = refusal_of(listed_runs, closed)
        runs = [] if number else listed_runs(closed)
        total = sum(end - start for start, end in runs)
        return words(number, bend, len(runs), total, *flat(runs), *[-7] * (6 - 2 * len(runs)))

    def whole_words(closed):
        return words(*refusal_of(runs_of_route, coordinates, width, closed))

    parts = (range_words, row_words, whole_words)
    return " | ".join(part(closed) for part in parts for closed in (False, True))


KINDS = {
    "e": equation,
    "d": distance,
    "s": sides,
    "c": crossing,
    "n": nearly_colinear_lines,
    "x": extents,
    "p": parallels,
    "t": thick_points,
    "a": start_join,
    "z": end_join,
    "j": join,
    "f": lines_of_join,
    "k": parts_of_segment,
    "q": rows_of_segment,
    "r": span_of_segment,
    "m": met_span,
    "u": extended_span,
    "O": open_walk,
    "C": closed_walk,
    "N": open_walk,
    "M": merged_spans,
    "F": rows_of_file,
    "o": starts,
    "v": next_of_gathered,
    "y": taken_span,
    "g": each_line_of_join,
    "b": bends_of_segment,
    "h": fields_of_file,
    "w": fields_of_rows,
}


def whole_answer(question):
    """The answer as if every lent list were long enough."""
    kind, *numbers = question.split()
    try:
        return KINDS[kind](*map(int, numbers))
    except Refused as refusal:
        return f"refused {refusal}"


def printed_answer(question):
    """What the printed Rust is expected to answer: its `try_extend` says no to an empty span."""
    kind, *numbers = question.split()
    if kind == "M":
        spans = spans_of_row(*map(int, numbers))
        printed = walks.merged_as_printed(spans)
        assert walks.columns_of(printed) == walks.columns_of(walks.merged(spans))
        return merged_words(printed)
    if kind == "u":
        _, start, end, _, other_start, other_end = map(int, numbers)
        if segments.is_empty((start, end)) or segments.is_empty((other_start, other_end)):
            return words("false", start, end)
    return whole_answer(question)


def answer(question):
    whole = whole_answer(question)
    too_long = question[0] in LISTED and len(whole.split()) - 1 > LENT_LIST
    return "refused 8" if too_long else whole


if __name__ == "__main__":
    for line in sys.stdin:
        print(answer(line))
