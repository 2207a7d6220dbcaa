"""The library's rules for sizes, splits and axes, with its refusals, in exact arithmetic.

A second reading of the rules, which shares no code with the library: `answer(line)` gives what the
program `replay` must answer to a line.
"""
import math
import re
from fractions import Fraction

LIMIT = 30000  # the largest size, count of pixels and place, either way
MOST = 1000  # the most rows, columns or breakpoints

NOT_A_SIZE = 1  # a size or a count beyond its range, or not a number
NOT_AN_AREA = 2  # corners out of order or beyond the limit
NOT_AN_AXIS = 8  # ends out of order or beyond their limit, or too few or too many stations

FARTHEST = 2000000  # the largest end of a whole axis, either way
STATIONS = 200  # the most stations

FLOAT = re.compile(r"[+-]?(inf|infinity|nan|([0-9]+\.?[0-9]*|\.[0-9]+)(e[+-]?[0-9]+)?)", re.I)


class Unread(Exception):
    """A line that asks nothing."""


class Refused(Exception):
    """A call that the library refuses, with the refusal's number."""


class Words:
    """The words of a line, read as Rust reads them."""

    def __init__(self, line):
        self.words = line.split()

    def peek(self):
        return self.words[0] if self.words else None

    def next(self):
        if not self.words:
            raise Unread
        self.last = self.words.pop(0)
        return self.last

    def expect(self, word):
        if self.next() != word:
            raise Unread

    def whole(self, low, high):
        word = self.next()
        sign = "[+-]?" if low < 0 else "[+]?"
        if not re.fullmatch(sign + "[0-9]+", word, re.A) or not low <= int(word) <= high:
            raise Unread
        return int(word)

    def i32(self):
        return self.whole(-(2**31), 2**31 - 1)

    def u32(self):
        return self.whole(0, 2**32 - 1)

    def usize(self):
        return self.whole(0, 2**64 - 1)

    def f64(self):
        word = self.next()
        if not FLOAT.fullmatch(word):
            raise Unread
        return float(word)

    def size(self):
        """Answers what the size comes to, as a function of the parent's sides."""
        kind = self.next()
        if kind == "px":
            number = self.i32()
            return lambda sides, original: number
        if kind == "upx":
            number = self.u32()
            return lambda sides, original: number
        if kind == "real":
            number = self.f64()
            return lambda sides, original: dropped(number)
        if kind in ("w", "h", "s"):
            return self.share(kind)
        raise Unread

    def share(self, kind):
        part = self.f64()
        bounds = {}
        while self.peek() in ("min", "max"):
            bound = self.next()
            bounds[bound] = self.i32()
        return lambda sides, original: bounded(nearest(part * side(kind, sides)), bounds, original)

    def sizes(self):
        found = []
        while self.peek() not in (None, "y"):
            found.append(self.size())
        return found


def side(kind, sides):
    """The side that a share is of; a u32 is exact as a float."""
    width, height = sides
    return float({"w": width, "h": height, "s": min(width, height)}[kind])


def dropped(number):
    """The number without its fraction."""
    return int(number) if math.isfinite(number) else None


def nearest(number):
    """The nearest whole number, halves away from zero."""
    if not math.isfinite(number):
        return None
    away = math.floor(abs(Fraction(number)) + Fraction(1, 2))
    return -away if number < 0 else away


def bounded(size, bounds, original):
    """Tested, raised to the lower bound, cut to the upper; the original drops the lower where both are set."""
    size = within(size)
    low, high = bounds.get("min"), bounds.get("max")
    if low is not None and not (original and high is not None):
        size = max(low, size)
    return size if high is None else min(high, size)


def within(size):
    if size is None or abs(size) > LIMIT:
        raise Refused(NOT_A_SIZE)
    return size


class Area:
    def __init__(self, x0, y0, x1, y1, original=False):
        self.corners = (x0, y0, x1, y1)
        self.original = original
        fits = -LIMIT <= x0 <= x1 <= LIMIT and -LIMIT <= y0 <= y1 <= LIMIT
        if not fits and not original:
            raise Refused(NOT_AN_AREA)

    def part(self, x0, y0, x1, y1):
        return Area(x0, y0, x1, y1, self.original)

    def pixels(self, size):
        x0, y0, x1, y1 = self.corners
        return within(size((x1 - x0, y1 - y0), self.original))

    def shrink(self, sizes):
        left, upper, width, height = [self.pixels(size) for size in sizes]
        x0, y0, x1, y1 = self.corners
        x0, y0 = min(x1, x0 + left), min(y1, y0 + upper)
        return [self.part(x0, y0, max(x0, x0 + width), max(y0, y0 + height))]

    def margin(self, sizes):
        top, bottom, left, right = [self.pixels(size) for size in sizes]
        x0, y0, x1, y1 = self.corners
        return [self.part(x0 + left, y0 + top, x1 - right, y1 - bottom)]

    def split_vertically(self, size):
        x0, y0, x1, y1 = self.corners
        at = y0 + self.pixels(size)
        return [self.part(x0, y0, x1, at), self.part(x0, at, x1, y1)]

    def split_horizontally(self, size):
        x0, y0, x1, y1 = self.corners
        at = x0 + self.pixels(size)
        return [self.part(x0, y0, at, y1), self.part(at, y0, x1, y1)]

    def split_evenly(self, rows, cols):
        if rows > MOST or cols > MOST:
            raise Refused(NOT_A_SIZE)
        x0, y0, x1, y1 = self.corners
        return self.cells(evenly(x0, x1, cols), evenly(y0, y1, rows))

    def split_by_breakpoints(self, xs, ys):
        if len(xs) > MOST or len(ys) > MOST:
            raise Refused(NOT_A_SIZE)
        x0, y0, x1, y1 = self.corners
        across = sorted([x0, x1] + [x0 + self.pixels(size) for size in xs])
        down = sorted([y0, y1] + [y0 + self.pixels(size) for size in ys])
        return self.cells(across, down)

    def cells(self, across, down):
        """A cell for each two neighbours of each direction, row by row."""
        return [
            self.part(left, top, right, bottom)
            for top, bottom in zip(down, down[1:])
            for left, right in zip(across, across[1:])
        ]


def evenly(start, end, count):
    """The borders of `count` parts, none for no part; the first parts have the pixels left over."""
    if count == 0:
        return []
    each, over = divmod(end - start, count)
    return [start + k * each + min(k, over) for k in range(count + 1)]


def read_split(words):
    """Answers the root's corners, and the split as a function of the root."""
    name = words.next()
    corners = [words.i32() for _ in range(4)]
    if name in ("shrink", "margin"):
        sizes = [words.size() for _ in range(4)]
        return corners, lambda area: getattr(area, name)(sizes)
    if name in ("split_vertically", "split_horizontally"):
        size = words.size()
        return corners, lambda area: getattr(area, name)(size)
    if name == "split_evenly":
        rows, cols = words.usize(), words.usize()
        return corners, lambda area: area.split_evenly(rows, cols)
    if name == "split_by_breakpoints":
        words.expect("x")
        xs = words.sizes()
        words.expect("y")
        ys = words.sizes()
        return corners, lambda area: area.split_by_breakpoints(xs, ys)
    raise Unread


def size_line(words, original):
    size = words.size()
    sides = (words.u32(), words.u32())
    if words.peek() is not None:
        raise Unread
    return str(within(size(sides, original)))


def split_line(words, original):
    corners, split = read_split(words)
    if words.peek() is not None:
        raise Unread
    parts = split(Area(*corners, original))
    return " ".join([str(len(parts))] + [",".join(map(str, part.corners)) for part in parts])


class Whole:
    """The whole numbers lo to hi."""

    def __init__(self, lo, hi):
        if lo > hi or max(abs(lo), abs(hi)) > FARTHEST:
            raise Refused(NOT_AN_AXIS)
        self.lo, self.hi = lo, hi

    def share(self, value):
        """How far along the axis a value is."""
        if self.lo == self.hi:
            return Fraction(0)
        return Fraction(min(max(value, self.lo), self.hi) - self.lo, self.hi - self.lo)

    def keys(self, most):
        steps = [k * 10**e for e in range(7) for k in (1, 2, 5)]
        for step in steps:
            found = range(-(-self.lo // step) * step, self.hi + 1, step)
            if len(found) <= most:
                return [str(k) for k in found]
        return []


class Stations:
    """Stations 0 to n - 1; a value is `e` and the edge, or `c` and the centre, of a station."""

    def __init__(self, n):
        if not 1 <= n <= STATIONS:
            raise Refused(NOT_AN_AXIS)
        self.n = n

    def share(self, value):
        kind, i = value
        if kind == "e":
            return Fraction(min(i, self.n), self.n)
        return Fraction(2 * min(i, self.n - 1) + 1, 2 * self.n)

    def keys(self, most):
        for step in range(1, self.n + 1):
            found = range(0, self.n, step)
            if len(found) <= most:
                return ["S%d" % i for i in found]
        return []


class Layered:
    """An axis under layers: `turned`, or a pair of values for a part."""

    def __init__(self, axis, layers):
        self.axis, self.layers = axis, layers

    def place(self, value, a, b, depth=None):
        for layer in self.layers[:depth]:
            if layer == "turned":
                a, b = b, a
        return a + int((b - a) * self.axis.share(value))

    def shown(self, a, b):
        """By the outermost part, at the limits that it sees; the turns above it change only those."""
        for depth in range(len(self.layers), 0, -1):
            layer = self.layers[depth - 1]
            if layer == "turned":
                a, b = b, a
                continue
            ends = [self.place(value, a, b, depth - 1) for value in layer]
            return min(ends), max(ends)
        return min(a, b), max(a, b)


def read_value(words, stations):
    if not stations:
        return words.i32()
    kind = words.next()
    if kind not in ("e", "c"):
        raise Unread
    return kind, words.u32()


def read_axis(words):
    """Answers whether it is an axis of stations, and a function that makes the axis."""
    kind = words.next()
    if kind == "whole":
        lo, hi = words.i32(), words.i32()
        make = lambda: Whole(lo, hi)
    elif kind == "stations":
        n = words.u32()
        make = lambda: Stations(n)
    else:
        raise Unread
    stations = kind == "stations"
    layers = []
    while words.peek() is not None:
        if words.next() == "turned":
            layers.append("turned")
        elif words.last == "part":
            layers.append((read_value(words, stations), read_value(words, stations)))
        else:
            raise Unread
    return stations, lambda: Layered(make(), layers)


def axis_line(words, original):
    """What an axis answers; it is made first, so that its refusal comes first."""
    name = words.next()
    if name == "keys":
        most = words.usize()
        _, make = read_axis(words)
        keys = make().axis.keys(most)
        return " ".join([str(len(keys))] + keys)
    if name not in ("place", "shown"):
        raise Unread
    limits = words.i32(), words.i32()
    stations, value = False, None
    if name == "place":
        stations = words.peek() in ("e", "c")
        value = read_value(words, stations)
    kind, make = read_axis(words)
    if name == "place" and kind != stations:
        raise Unread
    axis = make()
    if max(map(abs, limits)) > LIMIT:
        raise Refused(NOT_A_SIZE)
    return str(axis.place(value, *limits)) if name == "place" else "%d %d" % axis.shown(*limits)


KINDS = {"size": size_line, "split": split_line, "axis": axis_line}


def answer(line, original=False):
    """The answer to a line. `original`: with the original's bounds, and no area refused."""
    words = Words(line)
    try:
        kind = KINDS.get(words.next())
        if kind is None:
            raise Unread
        return kind(words, original)
    except Unread:
        return "unread"
    except Refused as refusal:
        return "refused %d" % refusal.args[0]


def asks(line):
    """Whether a line has an answer at all: it is neither blank nor a comment."""
    return bool(line.strip()) and not line.startswith("#")
