"""The form of a route file, from document 01's "The route file"."""

from typing import NamedTuple

MOST_BYTES = 65535
MOST_ROUTES = 16


class Route(NamedTuple):
    coordinates: list
    width: int
    closed: int


def number(data, place):
    return data[place] + 256 * data[place + 1]


def coordinate(data, place):
    found = number(data, place)
    return found - 65536 if found > 32767 else found


def routes_of(data):
    """The routes of a file; None where its form is wrong."""
    if not 4 <= len(data) <= MOST_BYTES:
        return None
    count, length = number(data, 0), number(data, 2)
    entries_end = 4 + 8 * count
    if count > MOST_ROUTES or length != len(data) or entries_end > length:
        return None
    routes = []
    for entry in range(4, entries_end, 8):
        offset, points, width, closed = (number(data, entry + place) for place in (0, 2, 4, 6))
        end = offset + 4 * points
        if closed > 1 or offset < entries_end or end > length:
            return None
        coordinates = [coordinate(data, place) for place in range(offset, end, 2)]
        routes.append(Route(coordinates, width, closed))
    return routes
