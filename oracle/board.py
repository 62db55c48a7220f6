"""Histories of boards and their answers, by an independent calculation: the lit columns of a row are a plain set of
numbers, and its runs are read off the sorted set. No run is ever joined with another here.

The random histories have a fixed seed. The form of the lines is told at the top of crates/test_replay/src/boards.rt.
"""
import itertools
import random

FIRST, LAST = -4095, 4095
RUNS = 32


def runs_of(columns):
    """The runs of a set of columns: a run begins at a lit column whose left neighbour is dark."""
    starts = sorted(x for x in columns if x - 1 not in columns)
    ends = sorted(x + 1 for x in columns if x + 1 not in columns)
    return list(zip(starts, ends))


class Row:
    """A board: its row, its count and its array as they stand; the columns are worked out anew from them each time."""

    def __init__(self, row, runs, beyond=(0, 0), count=None):
        self.row = row
        self.count = len(runs) if count is None else count
        self.array = (list(runs) + [beyond] * RUNS)[:RUNS]

    def live(self):
        return self.array[: self.count]

    def columns(self):
        """The set of lit columns, or None where no fresh board can come to this board."""
        if not FIRST <= self.row <= LAST or self.count > RUNS:
            return None
        lit = set()
        for start, end in self.live():
            if start < FIRST or end > LAST + 1:
                return None
            lit.update(range(start, end))
        return lit if runs_of(lit) == self.live() else None

    def text(self):
        numbers = [self.row, self.count] + [x for run in self.array for x in run]
        return " ".join(str(x) for x in numbers)


class Replay:
    def __init__(self):
        self.board = Row(0, [])
        self.questions = []
        self.answers = []

    def say(self, question, answer):
        self.questions.append(question)
        self.answers.append(answer)

    def fresh(self, row):
        inside = FIRST <= row <= LAST
        self.board = Row(row if inside else 0, [])
        self.say(f"r {row}", "0" if inside else "6")

    def offer(self, row, start, end):
        self.say(f"o {row} {start} {end}", str(self.offered(row, start, end)))

    def offered(self, row, start, end):
        lit = self.board.columns()
        if lit is None or row != self.board.row:
            return 6
        if end <= start:
            return 0
        if start < FIRST or end - 1 > LAST:
            return 7
        runs = runs_of(lit | set(range(start, end)))
        if len(runs) > RUNS:
            return 8
        self.board = Row(row, runs)
        return 0

    def clear(self):
        sound = self.board.columns() is not None
        if sound:
            self.board = Row(self.board.row, [])
        self.say("c", "0" if sound else "6")

    def list(self, size):
        lit = self.board.columns()
        numbers = [-7] * size
        answer = [6, 0, 0]
        if lit is not None:
            runs = runs_of(lit)
            if size < 2 * len(runs):
                answer = [8, 0, 0]
            else:
                answer = [0, len(runs), len(lit)]
                numbers[: 2 * len(runs)] = [x for run in runs for x in run]
        self.say(f"l {size}", " ".join(str(x) for x in answer + numbers))

    def make(self, row, count, a, b, c, d):
        self.board = Row(row, [(a, b), (c, d)], beyond=(5, 5), count=count)
        self.say(f"m {row} {count} {a} {b} {c} {d}", self.board.text())

    def show(self):
        self.say("s", self.board.text())


def corners(r):
    """01's P11 and P12, and what happens at the edges of the columns and of the numbers."""
    r.fresh(0)
    for span in [(0, 2), (4, 6), (2, 4)]:
        r.offer(0, *span)
    r.list(64)
    r.fresh(0)
    for span in [(0, 2), (3, 4)]:
        r.offer(0, *span)
    r.list(4)
    for row in [-4096, -4095, 4095, 4096, 10**17]:
        r.fresh(row)
        r.offer(row, 1, 2)
        r.list(2)
        r.show()
    far = 10**17
    r.fresh(7)
    for start, end in [(-4095, -4094), (4095, 4096), (-4096, 0), (0, 4097), (4096, 4097), (-far, far), (far, far + 1)]:
        r.offer(7, start, end)
        r.list(4)
    for start, end in [(3, 3), (9, 2), (far, -far), (-far, -far), (5000, 4999)]:
        r.offer(7, start, end)
        r.offer(8, start, end)
    r.offer(8, 0, 5000)
    r.list(3)
    r.list(4)
    r.offer(7, -4095, 4096)
    r.list(1)
    r.list(2)


def orders(r):
    """All orders of the same spans list the same runs."""
    for spans in itertools.permutations([(0, 2), (4, 6), (2, 4), (8, 9), (5, 8)]):
        r.fresh(-3)
        for span in spans:
            r.offer(-3, *span)
        r.list(2)
    for spans in itertools.permutations([(-9, -5), (-4, 1), (2, 3), (0, 2)]):
        r.fresh(1)
        for span in spans:
            r.offer(1, *span)
            r.list(6)


def several(r):
    """A span that joins any number of runs, on the left, on the right and in between."""
    for width in range(1, 13):
        for start in range(-1, 12):
            r.fresh(11)
            for x in [0, 3, 6, 9]:
                r.offer(11, x, x + 2)
            r.offer(11, start, start + width)
            r.list(10)


def full(r):
    """32 and 33 runs; room freed by joining and by clearing is used again."""
    r.fresh(-4095)
    for x in range(0, 64, 2):
        r.offer(-4095, x, x + 1)
    r.list(63)
    r.list(64)
    r.offer(-4095, 70, 71)
    r.offer(-4095, -2, -1)
    r.show()
    r.offer(-4095, 9, 10)
    r.list(80)
    r.offer(-4095, -2, -1)
    r.offer(-4095, 70, 71)
    r.list(64)
    r.offer(-4095, 3, 60)
    r.list(20)
    r.show()
    r.clear()
    r.show()
    for x in range(0, 66, 2):
        r.offer(-4095, -x, -x + 1)
    r.list(64)
    r.offer(-4095, -100, 100)
    r.list(2)


def handed_in(r):
    """Boards made by hand, sound and not; what stands beyond the runs is no run."""
    for row, count, runs in [
        (0, 0, (9, 1, 9, 1)), (0, 1, (9, 1, 0, 0)), (0, 1, (3, 3, 0, 0)), (0, 1, (3, 4, 0, 0)), (0, 2, (3, 4, 5, 6)),
        (0, 2, (3, 4, 4, 6)), (0, 2, (5, 6, 3, 4)), (0, 2, (3, 9, 4, 6)), (0, 3, (3, 4, 5, 6)), (0, 33, (1, 2, 3, 4)),
        (4095, 2, (-4095, -4094, 4095, 4096)), (4096, 0, (0, 0, 0, 0)), (-4096, 1, (1, 2, 0, 0)), (1, 1, (-4096, 2, 0, 0)),
        (1, 2, (1, 2, 5, 4097)), (1, 1, (10**17, 10**17 + 2, 0, 0)), (1, 1, (-(10**17), 10**17, 0, 0)), (0, 2, (3, 4, 3, 4)),
        (0, 32, (1, 2, 3, 4)), (0, 80, (1, 2, 3, 4)), (0, 1, (3, 4, 7, 9)), (0, 0, (3, 4, 20, 22)),
    ]:
        r.make(row, count, *runs)
        r.list(4)
        r.offer(row, 20, 20)
        r.offer(row + 1, 20, 22)
        r.offer(row, 20, 5000)
        r.show()
        r.offer(row, 20, 22)
        r.show()
        r.clear()
        r.show()


def long_histories(r):
    dice = random.Random(3)
    for spread, width, events in [(40, 3, 250), (130, 1, 400), (600, 6, 400), (4200, 40, 300), (90, 2, 400)]:
        row = dice.randint(-4095, 4095)
        r.fresh(row)
        for _ in range(events):
            start = dice.randint(-spread, spread)
            roll = dice.random()
            if roll < 0.9:
                r.offer(row + (dice.random() < 0.02), start, start + dice.randint(-1, width))
            elif roll < 0.91:
                r.clear()
            else:
                r.list(2 * len(r.board.live()) + dice.choice([-1, 0, 0, 2]) if r.board.live() else 3)
        r.list(64)
        r.show()


def histories():
    """Pairs of an event and its answer."""
    r = Replay()
    for part in [corners, orders, several, full, handed_in, long_histories]:
        part(r)
    counts = {n: sum(a == str(n) for a in r.answers) for n in (0, 6, 7, 8)}
    print(len(r.questions), "events; answers that are a number alone:", counts)
    return list(zip(r.questions, r.answers))
