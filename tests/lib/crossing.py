"""Whether triangles cross: whether the insides of two of them have a point in common. All numbers are exact."""
import fractions
import itertools
import math


def triangles_of_obj(data):
    """The triangles of an OBJ, each with three corners of fractions."""
    rows = [line.split() for line in data.decode().splitlines()]
    corners = [tuple(map(fractions.Fraction, row[1:4])) for row in rows if row[:1] == ["v"]]
    return [tuple(corners[int(word) - 1] for word in row[1:]) for row in rows if row[:1] == ["f"]]


def minus(a, b):
    return tuple(p - q for p, q in zip(a, b))


def dot(a, b):
    return sum(p * q for p, q in zip(a, b))


def cross(a, b):
    return tuple(a[i - 2] * b[i - 1] - a[i - 1] * b[i - 2] for i in range(3))


class _Triangle:
    """A triangle with whole corners: its plane is normal . x = offset."""

    def __init__(self, corners):
        a, b, c = self.corners = corners
        self.normal = cross(minus(b, a), minus(c, a))
        self.offset = dot(self.normal, a)
        self.low, self.high = (tuple(f(n) for n in zip(*corners)) for f in (min, max))

    def heights_of(self, other):
        return [dot(self.normal, corner) - self.offset for corner in other.corners]


def _stretch_on(triangle, heights, direction):
    """Where the inside of a triangle meets a plane, over which its corners have these heights: the ends, along a direction.
    None if it doesn't."""
    if min(heights) >= 0 or max(heights) <= 0:
        return None
    ends = []
    for i in range(3):
        (a, b), (h, k) = (triangle.corners[i - 1], triangle.corners[i]), (heights[i - 1], heights[i])
        if k == 0:
            ends.append(fractions.Fraction(dot(direction, b)))
        if h * k < 0:
            ends.append(fractions.Fraction(h * dot(direction, b) - k * dot(direction, a), h - k))
    return min(ends), max(ends)


def _overlap(one, other):
    """Whether the insides of two triangles of one plane meet: no edge of one has the other on its outer side."""
    for triangle, rest in ((one, other), (other, one)):
        for i in range(3):
            a, b = triangle.corners[i - 1], triangle.corners[i]
            outward = cross(minus(b, a), triangle.normal)
            if all(dot(outward, minus(corner, a)) >= 0 for corner in rest.corners):
                return False
    return True


def _cross(one, other):
    if any(one.high[i] < other.low[i] or other.high[i] < one.low[i] for i in range(3)):
        return False
    heights = one.heights_of(other), other.heights_of(one)
    if not any(heights[0]):
        return _overlap(one, other)
    direction = cross(one.normal, other.normal)
    if not any(direction):
        return False
    stretches = _stretch_on(other, heights[0], direction), _stretch_on(one, heights[1], direction)
    if None in stretches:
        return False
    (a, b), (c, d) = stretches
    return max(a, c) < min(b, d)


def crossing_pairs(triangles):
    """The pairs of triangles whose insides meet, by their indices. Each triangle has an area."""
    scale = math.lcm(*(n.denominator for triangle in triangles for corner in triangle for n in corner))
    whole = [_Triangle([tuple(int(n * scale) for n in corner) for corner in it]) for it in triangles]
    return [(i, j) for (i, one), (j, other) in itertools.combinations(enumerate(whole), 2) if _cross(one, other)]
