"""Exact winding numbers of triangles at points, and whether points keep away from them."""
import math
from fractions import Fraction


class Surface:
    """Triangles, each with three corners, of which much is asked at many points.

    A ray goes from the point along +x. It is thought of as moved by e along y and by e * e along z, where e is smaller than every
    number, so that it meets no edge. Floats decide what lies away from the ray, and fractions the rest.
    """

    def __init__(self, triangles):
        self.boxed = []
        for triangle in triangles:
            (low_x, high_x), (low_y, high_y), (low_z, high_z) = ((min(it), max(it)) for it in zip(*triangle))
            self.boxed.append((low_x, high_x, low_y, high_y, low_z, high_z, triangle))

    def winding(self, point):
        """The winding number at a point, or None if the point is on a triangle that the moved ray meets."""
        x, y, z = point
        total = 0
        for _, high_x, low_y, high_y, low_z, high_z, triangle in self.boxed:
            if high_x >= x and low_y <= y <= high_y and low_z <= z <= high_z:
                crossed = crossing(triangle, point)
                if crossed is None:
                    return None
                total += crossed
        return total

    def is_clear(self, point, distance):
        """Whether bounding boxes, planes and edges show that all triangles are farther than that from the point."""
        (from_x, to_x), (from_y, to_y), (from_z, to_z) = ((n - distance, n + distance) for n in point)
        for low_x, high_x, low_y, high_y, low_z, high_z, triangle in self.boxed:
            if low_x <= to_x and from_x <= high_x and low_y <= to_y and from_y <= high_y and low_z <= to_z and from_z <= high_z:
                if not is_beyond(point, triangle, distance):
                    return False
        return True


def crossing(triangle, point):
    """1 if the moved ray leaves through the front of the triangle, -1 if it enters through it, 0 if it misses, None at the point."""
    exact = [[Fraction(n) - Fraction(m) for n, m in zip(corner, point)] for corner in triangle]
    turns = {turn(exact[i - 1], exact[i]) for i in range(3)}
    if len(turns) > 1:
        return 0
    a, b, c = exact
    height = sum(a[i - 2] * (b[i - 1] * c[i] - b[i] * c[i - 1]) for i in range(3))
    way = turns.pop()
    return None if height == 0 else way if height * way > 0 else 0


def turn(a, b):
    """Which way the edge goes round the moved ray, as seen along x; 0 if it is a point or goes along x."""
    for n in (a[1] * b[2] - a[2] * b[1], a[2] - b[2], b[1] - a[1]):
        if n != 0:
            return 1 if n > 0 else -1
    return 0


def is_beyond(point, triangle, distance):
    """Whether the point is farther than that from the triangle's plane, or beyond the wall on one of its edges."""
    normal = cross(minus(triangle[1], triangle[0]), minus(triangle[2], triangle[0]))
    if not any(normal):
        return False
    walls = [(cross(minus(triangle[i], triangle[i - 1]), normal), triangle[i]) for i in range(3)]
    beyond_plane = abs(dot(normal, minus(point, triangle[0]))) > distance * math.hypot(*normal)
    return beyond_plane or any(dot(wall, minus(point, at)) > distance * math.hypot(*wall) for wall, at in walls)


def minus(a, b):
    return tuple(n - m for n, m in zip(a, b))


def cross(a, b):
    return (a[1] * b[2] - a[2] * b[1], a[2] * b[0] - a[0] * b[2], a[0] * b[1] - a[1] * b[0])


def dot(a, b):
    return sum(n * m for n, m in zip(a, b))
