#!/usr/bin/env python3
"""oracle/smallest.py [SRC]: where the Rust leaves i32 inside the crossing's limit, and how early.

Each operation of the printed functions is followed over exact numbers. Its value is affine in every
single coordinate, or made of absolute values of such (a square, a sum); so over a box
|coordinate| <= M its greatest absolute value stands at a corner of the box. The corners tell the
least M from which an operation can leave i32; an input of that M is looked for, and the drivers are
asked what they do there. The box of an input is its largest absolute coordinate.
"""

import random
import sys
from itertools import count, product
from math import gcd

sys.dont_write_bytecode = True

import driver
import exact

I32 = range(-(2**31), 2**31)
LIMIT = exact.CROSSING_LIMIT

# Right-angle legs of determinant 46,340, the last one whose square is an i32, and of 46,341.
LEGS_AT_THE_EDGE = ((140, 331), (171, 271))

# Parts of the file names that the driver tells.
POINT_EXT = "geometry/mod.rs"
EQUATION = "primitives/common/linear_equation.rs"
CROSSING = "primitives/line/intersection_params.rs"
CORE_POINT = "embedded_graphics_core.rs"
CORE_NUMBER = "core/src/num/"


# The operations, each as (name, file, verb, exact value), in the order of the Rust.


def two_products(name, p, q, verb, r, s):
    """The operations of p * q - r * s or p * q + r * s; the last one is the result."""
    joined = p * q - r * s if verb == "subtract" else p * q + r * s
    return [
        (f"{name}, first product", POINT_EXT, "multiply", p * q),
        (f"{name}, second product", POINT_EXT, "multiply", r * s),
        (f"{name}, products joined", POINT_EXT, verb, joined),
    ]


def result(operations):
    return operations[-1][-1]


def equation_operations(ax, ay, bx, by):
    """The operations, and the normal's x, y and the distance of the origin."""
    dx, dy = bx - ax, by - ay
    distance = two_products("origin distance", ax, -dy, "add", ay, dx)
    listed = [
        ("delta", CORE_POINT, "subtract", dx),
        ("delta", CORE_POINT, "subtract", dy),
        ("quarter turn", POINT_EXT, "negate", -dy),
        *distance,
    ]
    return listed, (-dy, dx, result(distance))


def distance_operations(ax, ay, bx, by, px, py):
    listed, (nx, ny, origin) = equation_operations(ax, ay, bx, by)
    dots = two_products("dot product of a point", px, nx, "add", py, ny)
    return [*listed, *dots, ("distance of a point", EQUATION, "subtract", result(dots) - origin)]


def lines_operations(numbers):
    """What both tests of two lines begin with, up to the determinant, and the two equations."""
    first, equation = equation_operations(*numbers[:4])
    second, other = equation_operations(*numbers[4:])
    turn = two_products("determinant", equation[0], other[1], "subtract", equation[1], other[0])
    return [*first, *second, *turn], equation, other


def nearly_colinear_operations(*numbers):
    listed, (nx, ny, _), (mx, my, _) = lines_operations(numbers)
    dots = two_products("dot product of deltas", ny, my, "add", -nx, -mx)
    return [
        *listed,
        ("square of the determinant", CORE_NUMBER, "multiply", result(listed) ** 2),
        *dots,
        ("absolute dot product", CORE_NUMBER, "negate", abs(result(dots))),
    ]


def moved_away_from_zero(name, numerator, offset):
    name = f"{name}, moved by the offset"
    if numerator < 0:
        return name, CROSSING, "subtract", numerator - offset
    return name, CROSSING, "add", numerator + offset


def truncated(numerator, divisor):
    size = abs(numerator) // abs(divisor)
    return size if (numerator < 0) == (divisor < 0) else -size


def crossing_operations(*numbers):
    listed, (nx, ny, origin), (mx, my, other) = lines_operations(numbers)
    turn = result(listed)
    offset = abs(turn) // 2
    x = two_products("x numerator", origin, my, "subtract", other, ny)
    y = two_products("y numerator", nx, other, "subtract", mx, origin)
    x.append(moved_away_from_zero("x numerator", result(x), offset))
    y.append(moved_away_from_zero("y numerator", result(y), offset))
    quotients = [
        (name, CORE_POINT, "divide", truncated(result(numerator), turn))
        for name, numerator in (("x quotient", x), ("y quotient", y))
        if turn != 0
    ]
    half = ("half of the determinant", CROSSING, "divide", offset)
    return [*listed, half, *x, *y, *quotients]


# Kind: its operations, and how many coordinates it takes.
OPERATIONS = {
    "d": (distance_operations, 6),
    "n": (nearly_colinear_operations, 8),
    "c": (crossing_operations, 8),
}


def first_leaving(kind, numbers):
    """Name, verb and file of the first operation that leaves i32, or None."""
    operations, _ = OPERATIONS[kind]
    for name, file, verb, value in operations(*numbers):
        if value not in I32:
            return name, verb, file
        if kind == "c" and name == "determinant, products joined" and value == 0:
            return None
    return None


def question(kind, numbers):
    return exact.words(kind, *numbers)


def check_against_driver(kind, inputs):
    """`first_leaving` and the checked driver name the same operation for every input."""
    answers = driver.ask([question(kind, numbers) for numbers in inputs], mode=("places",))
    for numbers, said in zip(inputs, answers):
        leaving = first_leaving(kind, numbers)
        if leaving is None:
            agrees = not said.startswith("overflow")
        else:
            _, verb, file = leaving
            agrees = file in said and said.endswith(f"attempt to {verb} with overflow")
        if not agrees:
            sys.exit(f"{question(kind, numbers)}: expected {leaving}, the driver said {said}")


def check_operations():
    """That the operations above are the Rust's, on many inputs."""
    rng = random.Random(LIMIT)
    for kind, (_, coordinates) in OPERATIONS.items():
        for size in (60, 150, 700, LIMIT):
            inputs = [[rng.randint(-size, size) for _ in range(coordinates)] for _ in range(5000)]
            check_against_driver(kind, inputs)


# Bounds over a box.


def corners(coordinates, size):
    return product((-size, size), repeat=coordinates)


def greatest_values(kind, size):
    """The greatest absolute value of each operation over the box. Quotients are none such."""
    operations, coordinates = OPERATIONS[kind]
    greatest = {}
    for corner in corners(coordinates, size):
        for name, _, _, value in operations(*corner):
            if not name.endswith("quotient"):
                greatest[name] = max(greatest.get(name, 0), abs(value))
    return greatest


def least_box(kind, name):
    """The least M at which a bound leaves i32; None if it does not within the limit."""
    boxes = range(1, LIMIT + 1)
    low, high = 0, len(boxes)
    while low < high:
        middle = (low + high) // 2
        if greatest_values(kind, boxes[middle])[name] in I32:
            low = middle + 1
        else:
            high = middle
    return boxes[low] if low < len(boxes) else None


# The searches. Each shows the first input of its order.


def first_inputs(kind, inputs, places):
    """For each of the places, (name, verb), the first input that leaves i32 there first."""
    found = {}
    for numbers in inputs:
        leaving = first_leaving(kind, numbers)
        if leaving is not None and leaving[:2] in places:
            found.setdefault(leaving[:2], numbers)
            if len(found) == len(places):
                break
    return found


def greatest_product(kind, name, shown_by):
    """A product that leaves i32 in the least box that the corners allow.

    Not always at a corner: there an earlier product may leave i32 too, or the lines be parallel.
    The value named by `shown_by` leaves i32 as well, so that wrapping does not heal itself.
    """
    operations, coordinates = OPERATIONS[kind]
    box = least_box(kind, name)
    inputs = (
        numbers
        for numbers in product((-box, 0, box), repeat=coordinates)
        if any(o[0] == shown_by and o[3] not in I32 for o in operations(*numbers))
    )
    return first_inputs(kind, inputs, {(name, "multiply")})


def square_of_joined_lines():
    """As the square of the determinant, for a second line that starts where the first ends."""
    place = ("square of the determinant", "multiply")
    for box in count(1):
        inputs = (c[:4] + c[2:] for c in corners(6, box))
        found = first_inputs("n", inputs, {place})
        if found:
            return {("square of the determinant, lines joined", "multiply"): found[place]}


def x_reach(ax, ay, bx, by, cx, cy, dx, dy):
    """Twice the x numerator and the determinant, as absolute values, added."""
    width, other = bx - ax, dx - cx
    numerator = (ay * bx - ax * by) * other - (cy * dx - cx * dy) * width
    return 2 * abs(numerator) + abs(width * (dy - cy) - (by - ay) * other)


def far_reaching(size, fixed=()):
    """All inputs of the box whose x numerator, moved by the offset, may leave i32.

    With the first coordinates fixed, the corners of the others bound the reach. As a function of
    the next coordinate this bound is a greatest of affine ones, so that those that keep it high
    enough stand at the two ends.
    """
    if len(fixed) == 8:
        yield fixed
        return
    rest = list(corners(7 - len(fixed), size))

    def far_enough(value):
        return any(x_reach(*fixed, value, *corner) >= 2**32 for corner in rest)

    low, high = -size, size
    while low <= size and far_enough(low):
        yield from far_reaching(size, (*fixed, low))
        low += 1
    while high >= low and far_enough(high):
        yield from far_reaching(size, (*fixed, high))
        high -= 1


def x_numerators():
    """The x numerator's last two operations, for boxes of growing size until each has left i32."""
    joined, moved = "x numerator, products joined", "x numerator, moved by the offset"
    left = {(joined, "subtract"), (moved, "add"), (moved, "subtract")}
    found = {}
    for box in count(least_box("c", joined)):
        found |= first_inputs("c", far_reaching(box), left)
        left -= found.keys()
        if not left:
            return found


def columns_to(far, size):
    """All (delta x, start x, steps) within the box that come to the column `far` in whole steps."""
    for step in range(-2 * size, 2 * size + 1):
        if step != 0:
            low, high = max(-size, -size - step), min(size, size - step)
            for start in range(low + (far - low) % abs(step), high + 1, abs(step)):
                yield step, start, (far - start) // step


def unit_heights(width, other, size):
    """All (h, k) within the box for which the deltas (width, h), (other, k) have determinant -1."""
    modulus = abs(width)
    least = -2 * size + (pow(other, -1, modulus) + 2 * size) % modulus
    for height in range(least, 2 * size + 1, modulus):
        yield height, (height * other - 1) // width


def x_quotients(size):
    """The inputs of the box for which the division -2^31 / -1 is the x quotient.

    That is: determinant -1 and both lines through a point of the column 2^31. With determinant -1
    every whole point of a line is start + steps * delta, steps whole. The x numerator is at most
    2 * size^2 * (|delta x| + |other delta x|), which leaves few columns.
    """
    far = 2**31
    widths = far // (2 * size * size)
    columns = [c for c in columns_to(far, size) if abs(c[0]) >= widths - 2 * size]
    for (width, ax, t), (other, cx, u) in product(columns, repeat=2):
        if abs(width) + abs(other) < widths or gcd(width, other) != 1:
            continue
        for height, k in unit_heights(width, other, size):
            rows = (-t * height, -t * height + height, -u * k, -u * k + k)
            middle = (min(rows) + max(rows)) // 2
            ay, by, cy, dy = (row - middle for row in rows)
            if max(abs(ay), abs(by), abs(cy), abs(dy)) <= size:
                yield ax, ay, ax + width, by, cx, cy, cx + other, dy


def x_quotient():
    """The x quotient's least input, for boxes of growing size."""
    place = ("x quotient", "divide")
    start = least_box("c", "x numerator, products joined")
    for size in count(start):
        found = first_inputs("c", sorted(x_quotients(size)), {place})
        if found:
            return found


def mirrored(numbers):
    """x and y exchanged, and the two lines: what was done for x is now done for y."""
    ax, ay, bx, by, cx, cy, dx, dy = numbers
    return cy, cx, dy, dx, ay, ax, by, bx


def witnesses():
    """All places (kind, name, verb) that leave i32 inside the limit, with an input for each."""
    square = "square of the determinant"
    squares = greatest_product("n", square, square) | square_of_joined_lines()
    products = {}
    for axis, place in product("xy", ("first", "second")):
        name = f"{axis} numerator"
        products |= greatest_product("c", f"{name}, {place} product", f"{name}, products joined")
    x = x_numerators() | x_quotient()
    y = {("y" + name[1:], verb): mirrored(numbers) for (name, verb), numbers in x.items()}
    found = {("n", *place): numbers for place, numbers in squares.items()}
    found |= {("c", *place): numbers for place, numbers in (products | x | y).items()}
    for (kind, name, verb), numbers in found.items():
        leaves = first_leaving(kind, numbers)
        assert (leaves[0], leaves[1]) == (name.removesuffix(", lines joined"), verb), numbers
    return found


# What is printed.


def print_bounds():
    print(f"greatest absolute values inside {LIMIT}; the box below which they cannot leave i32")
    shown = set()
    for kind in OPERATIONS:
        for name, value in greatest_values(kind, LIMIT).items():
            if name not in shown:
                shown.add(name)
                box = least_box(kind, name)
                print(f"  {name:40} {value:14}  {box or 'none does'}")


def print_witnesses():
    found = witnesses()
    for (kind, _, _), numbers in found.items():
        check_against_driver(kind, [numbers])
    asked = [question(kind, numbers) for (kind, _, _), numbers in found.items()]
    told = driver.ask(asked, mode=("places",))
    wrapped = driver.ask(asked, "release")
    print("\nsmallest inputs, by box; what checked, release and exact calculations answer")
    for i, ((_, name, verb), numbers) in enumerate(found.items()):
        print(f"  {name} ({verb}), box {max(map(abs, numbers))}: {asked[i]}")
        print(f"    checked {told[i]}")
        print(f"    release {wrapped[i]}")
        print(f"    exact   {exact.answer(asked[i])}")


def legs_question(width, height):
    """The near-colinear test of the corner (0,0), (width,0), (width,height)."""
    return question("n", (0, 0, width, 0, width, 0, width, height))


def print_legs():
    equal = range(1, LIMIT + 1)
    answers = driver.ask([legs_question(leg, leg) for leg in equal])
    print("\nnear-colinear tests of right-angle corners")
    print(f"  least equal legs that overflow: {equal[answers.index('overflow')]}")
    asked = [legs_question(width, height) for width, height in LEGS_AT_THE_EDGE]
    for (width, height), said in zip(LEGS_AT_THE_EDGE, driver.ask(asked)):
        print(f"  legs {width} and {height}, determinant {width * height}: {said}")


def main():
    source = sys.argv[1] if len(sys.argv) > 1 else driver.SOURCE
    for variant in ("checked", "release"):
        driver.build(source, variant)
    check_operations()
    print_bounds()
    print_witnesses()
    print_legs()


if __name__ == "__main__":
    main()
