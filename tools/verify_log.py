#!/usr/bin/env python3
"""verify_log.py [FILE]: judges the log of a path tree by its format and its rules alone, over unbounded whole numbers.

Nothing of this repository's code is used. The answer is one line: `yes`, `no: line L reason R` or `format: line L kind K`,
with the status 0, 1 or 2.
"""
import re
import sys
from fractions import Fraction
from math import gcd

LARGEST = 2**127 - 1


class Stop(Exception):
    """The answer that isn't yes: its words and its status."""


def fault(line, kind):
    return Stop(f"format: line {line} kind {kind}", 2)


def refusal(line, reason):
    return Stop(f"no: line {line} reason {reason}", 1)


class Words:
    """The tokens of a line, from left to right."""

    def __init__(self, number, tokens):
        self.number, self.tokens = number, tokens

    def word(self, text, kind):
        if not self.tokens or self.tokens.pop(0) != text:
            raise fault(self.number, kind)

    def whole(self, low, high, wrong, outside):
        token = self.tokens.pop(0) if self.tokens else b""
        if not re.fullmatch(rb"[+-]?[0-9]+", token):
            raise fault(self.number, wrong)
        if not low <= int(token) <= high:
            raise fault(self.number, outside)
        return int(token)

    def ended(self, kind):
        if self.tokens:
            raise fault(self.number, kind)


class Lines:
    """The lines of a text that have tokens."""

    def __init__(self, data):
        lines = data.split(b"\n")
        if lines[-1] == b"":
            lines.pop()
        self.end = len(lines) + 1
        self.rows = []
        for number, line in enumerate(lines, 1):
            text = line[:-1] if line.endswith(b"\r") else line
            tokens = re.findall(rb"[:/]|[^ \t:/]+", text.split(b"#")[0])
            if tokens:
                self.rows.append(Words(number, tokens))

    def next(self):
        if not self.rows:
            raise fault(self.end, 8)
        return self.rows.pop(0)

    def count(self, text, low, high, kind):
        line = self.next()
        line.word(text, kind)
        count = line.whole(low, high, kind, kind)
        line.ended(kind)
        return line.number, count


def read_point(line, n, earlier):
    point = tuple(line.whole(-10**6, 10**6, 4, 5) for _ in range(n))
    line.word(b":", 4)
    height = line.whole(-10**9, 10**9, 4, 5)
    line.ended(4)
    if point in (x for x, _ in earlier):
        raise fault(line.number, 6)
    return point, height


def read_heights(line, n):
    heights = [line.whole(1, 10**9, 7, 7) for _ in range(n - 1)]
    line.ended(7)
    return heights


def read_end(line):
    line.word(b"end", 9)
    line.ended(9)


def read_file(lines):
    """The version, the dimension, the supports' points with heights, and the start heights if there are any."""
    line = lines.next()
    line.word(b"mixedcells", 1)
    if line.tokens not in ([b"1"], [b"2"]):
        raise fault(line.number, 1)
    version = int(line.tokens[0])
    n = lines.count(b"dim", 1, 16, 2)[1]
    supports = []
    for _ in range(n):
        points = []
        for _ in range(lines.count(b"support", 1, 1000, 3)[1]):
            points.append(read_point(lines.next(), n, points))
        supports.append(points)
    line = lines.next()
    opening = line.tokens[0]
    if opening == b"end":
        read_end(line)
        return version, n, supports, None
    line.word(b"start", 7)
    starts = [read_heights(line, n)]
    for _ in range(n - 1):
        line = lines.next()
        line.word(b"start", 7)
        starts.append(read_heights(line, n))
    read_end(lines.next())
    return version, n, supports, starts


def read_cell(line, limits):
    cell = []
    for limit in limits:
        a = line.whole(1, limit, 4, 5)
        b = line.whole(1, limit, 4, 5)
        if a >= b:
            raise fault(line.number, 5)
        cell.append((a, b))
    return tuple(cell)


def read_numbers(line, count):
    return [line.whole(-LARGEST, LARGEST, 4, 5) for _ in range(count)]


def read_node(line, n, limits):
    line.word(b"node", 3)
    cell = read_cell(line, limits)
    line.word(b":", 4)
    scale = line.whole(1, LARGEST, 4, 5)
    line.word(b":", 4)
    numbers = read_numbers(line, n * n)
    line.ended(4)
    return line.number, cell, scale, [numbers[n * k : n * k + n] for k in range(n)]


def read_listed(line, n, limits):
    line.word(b"cell", 3)
    cell = read_cell(line, limits)
    line.word(b":", 4)
    normal = read_numbers(line, n)
    line.word(b"/", 4)
    den = line.whole(1, LARGEST, 4, 5)
    line.ended(4)
    return line.number, cell, normal, den


def read_log(data):
    lines = Lines(data)
    file = read_file(lines)
    n, counts = file[1], [len(points) for points in file[2]]
    count = lines.count(b"log", 1, 4294967295, 3)[1]
    nodes = [read_node(lines.next(), n, [m + n + 1 for m in counts]) for _ in range(count)]
    cells_line, count = lines.count(b"cells", 0, 4294967295, 3)
    cells = [read_listed(lines.next(), n, counts) for _ in range(count)]
    line = lines.next()
    read_end(line)
    if lines.rows:
        raise fault(lines.rows[0].number, 9)
    return file, nodes, cells_line, cells, line.number


class Path:
    """The path of a file: its points, and behind them the corners, each with base, speed and rank."""

    def __init__(self, version, n, supports, starts):
        self.n, self.supports, self.files, rank = n, [], [len(points) for points in supports], 0
        for i, points in enumerate(supports, 1):
            least = [min(x[k] for x, _ in points) for k in range(n)]
            size = max(1, max(sum(x) - sum(least) for x, _ in points))
            made = [(x, height, 0, True) for x, height in points] + [(tuple(least), 0, 1, False)]
            for k in range(1, n + 1):
                corner = tuple(least[h] + size * (h == k - 1) for h in range(n))
                made.append((corner, 0 if k == i else self.start(starts, i, k), 1, k != i))
            ranked = []
            for x, base, speed, perturbed in made:
                rank += perturbed and version == 2
                ranked.append((x, base, speed, rank if perturbed and version == 2 else 0))
            self.supports.append(ranked)

    def start(self, starts, i, k):
        if starts is None:
            return 100 + (37 * i * i + 11 * k * k * k + 53 * i * k) % 509
        return starts[i - 1][k - 1 if k < i else k - 2]

    def start_cell(self):
        return tuple((f + 1, f + 1 + i) for i, f in enumerate(self.files, 1))

    def point(self, i, position):
        return self.supports[i][position - 1]


def dot(xs, ys):
    return sum(x * y for x, y in zip(xs, ys))


def minus(x, y):
    return [a - b for a, b in zip(x, y)]


def sign_of(value):
    """The sign of a value: that of its entry of the least rank that isn't 0."""
    return next((1 if value[rank] > 0 else -1 for rank in sorted(value) if value[rank] != 0), 0)


def zero_of(alpha, beta, fine):
    return {rank: Fraction(-entry, beta) for rank, entry in [(0, alpha), *fine.items()]}


def exit_of(path, cell, scale, inverse):
    """The places, a support and a position each, of the falling lines with the least zero, each with its circuit."""
    ends = [(path.point(i, a), path.point(i, b)) for i, (a, b) in enumerate(cell)]
    p = [-dot(row, [b[1] - a[1] for a, b in ends]) for row in inverse]
    q = [-dot(row, [b[2] - a[2] for a, b in ends]) for row in inverse]
    columns = list(zip(*inverse))
    least, places = None, []
    for j, points in enumerate(path.supports):
        first = ends[j][0]
        for position, c in enumerate(points, 1):
            if position in cell[j]:
                continue
            way = minus(c[0], first[0])
            beta = scale * (c[2] - first[2]) + dot(way, q)
            if beta >= 0:
                continue
            alpha = scale * (c[1] - first[1]) + dot(way, p)
            sums = [dot(way, column) for column in columns]
            fine = {c[3]: scale}
            for i, (a, b) in enumerate(ends):
                fine[a[3]] = sums[i] - (scale if i == j else 0)
                fine[b[3]] = -sums[i]
            fine.pop(0, None)
            zero = zero_of(alpha, beta, fine)
            found = (j, position, sums[j] - scale, -sums[j])
            order = -1 if least is None else sign_of({r: zero.get(r, 0) - least.get(r, 0) for r in {*zero, *least}})
            if order < 0:
                least, places = zero, [found]
            elif order == 0:
                places.append(found)
    return places, p


def with_point(cell, j, old, position):
    pair = tuple(sorted((*(x for x in cell[j] if x != old), position)))
    return cell[:j] + (pair,) + cell[j + 1 :]


def kept(cell, j, position, a_sign, b_sign):
    """The cells behind the wall whose least neighbour before it is this cell, in cell order."""
    signs = list(zip(cell[j], (a_sign, b_sign)))
    before = [cell] + [with_point(cell, j, old, position) for old, sign in signs if sign > 0]
    if min(before) != cell:
        return []
    return sorted(with_point(cell, j, old, position) for old, sign in signs if sign < 0)


def lowest(p, scale):
    common = gcd(scale, *p)
    return [x // common for x in p], scale // common


def verify(data):
    file, nodes, cells_line, cells, end_line = read_log(data)
    path = Path(*file)
    due, expected = [path.start_cell()], []
    for line, cell, scale, inverse in nodes:
        if not due or due.pop(0) != cell:
            raise refusal(line, 11)
        columns = list(zip(*inverse))
        for i, (a, b) in enumerate(cell):
            way = minus(path.point(i, b)[0], path.point(i, a)[0])
            if [dot(way, column) for column in columns] != [scale * (i == k) for k in range(path.n)]:
                raise refusal(line, 12)
        places, p = exit_of(path, cell, scale, inverse)
        if len(places) > 1:
            raise refusal(line, 13)
        if places:
            due = kept(cell, *places[0]) + due
        elif all(b <= f for (_, b), f in zip(cell, path.files)):
            expected.append((cell, *lowest(p, scale)))
    if due:
        raise refusal(cells_line, 14)
    expected.sort(key=lambda found: found[0])
    for line, cell, normal, den in cells:
        if not expected or expected.pop(0) != (cell, normal, den):
            raise refusal(line, 15)
    if expected:
        raise refusal(end_line, 15)


def main():
    if hasattr(sys, "set_int_max_str_digits"):
        sys.set_int_max_str_digits(0)
    data = open(sys.argv[1], "rb").read() if len(sys.argv) > 1 else sys.stdin.buffer.read()
    try:
        verify(data)
    except Stop as stop:
        print(stop.args[0])
        return stop.args[1]
    print("yes")
    return 0


if __name__ == "__main__":
    sys.exit(main())
