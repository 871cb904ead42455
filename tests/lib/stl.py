"""What a written STL has: its triangles, and counts that don't depend on which diagonals were chosen."""
import collections
import fractions
import math
import struct

# `loose`: how many directed edges are more often there than their reverse. `shared`: edges of more than two triangles.
Counts = collections.namedtuple("Counts", "triangles positions loose shared")


def triangles_of(data):
    """The triangles of an STL, binary or ASCII, each with three corners."""
    if len(data) >= 84 and len(data) == 84 + 50 * struct.unpack_from("<I", data, 80)[0]:
        numbers = [struct.unpack_from("<9f", data, place) for place in range(96, len(data), 50)]
        return [(it[:3], it[3:6], it[6:]) for it in numbers]
    rows = (line.split() for line in data.decode().splitlines())
    corners = [tuple(map(float, row[1:4])) for row in rows if row and row[0] == "vertex"]
    return list(zip(corners[::3], corners[1::3], corners[2::3]))


def edges_of(triangles):
    return collections.Counter((t[i - 1], t[i]) for t in triangles for i in range(3))


def counts_of(triangles):
    """Positions are compared as the numbers of the file, so nothing is welded."""
    edges = edges_of(triangles)
    loose = sum(max(0, count - edges[b, a]) for (a, b), count in edges.items())
    shared = sum(1 for (a, b), count in edges.items() if a < b and count + edges[b, a] > 2)
    return Counts(len(triangles), len({corner for triangle in triangles for corner in triangle}), loose, shared)


def _six_volumes(a, b, c):
    return a[0] * (b[1] * c[2] - b[2] * c[1]) + a[1] * (b[2] * c[0] - b[0] * c[2]) + a[2] * (b[0] * c[1] - b[1] * c[0])


def volume_of(triangles):
    return sum(_six_volumes(*it) for it in triangles) / 6


def exact_volume_of(triangles):
    """A fraction, without any rounding."""
    exact = {n: fractions.Fraction(n) for triangle in triangles for corner in triangle for n in corner}
    return fractions.Fraction(sum(_six_volumes(*(tuple(exact[n] for n in corner) for corner in it)) for it in triangles)) / 6


def fault_of_written(data):
    """What is wrong with the bytes of a binary STL, or None: its length, an attribute, a number that isn't finite, or -0."""
    if len(data) < 84:
        return f"{len(data)} bytes"
    count = struct.unpack_from("<I", data, 80)[0]
    if len(data) != 84 + 50 * count:
        return f"{len(data)} bytes, but {count} triangles"
    for place in range(84, len(data), 50):
        *numbers, attribute = struct.unpack_from("<12fH", data, place)
        if attribute or not all(map(math.isfinite, numbers)):
            return f"at byte {place}: {numbers} {attribute}"
        if any(n == 0 and math.copysign(1, n) < 0 for n in numbers[3:]):
            return f"at byte {place}: a coordinate is -0"
    return None


def nearest_float(value):
    """The binary32 number that is nearest to a fraction, of two the even one."""
    guess = struct.unpack("<i", struct.pack("<f", float(value)))[0]
    near = [bits for bits in (guess - 1, guess, guess + 1) if bits >= 0 or guess < 0]
    floats = {bits: struct.unpack("<f", struct.pack("<i", bits))[0] for bits in near}
    best = min(near, key=lambda bits: (abs(fractions.Fraction(floats[bits]) - value), bits % 2))
    return floats[best] + 0.0


def fault_of_normals(data):
    """A triangle of a binary STL whose normal isn't that of its corners, or None; triangles without area have no normal of their own."""
    for number, place in enumerate(range(84, len(data), 50), 1):
        numbers = struct.unpack_from("<12f", data, place)
        normal, a, b, c = (numbers[i : i + 3] for i in (0, 3, 6, 9))
        u, v = ([q - p for p, q in zip(a, it)] for it in (b, c))
        cross = [u[i - 2] * v[i - 1] - u[i - 1] * v[i - 2] for i in range(3)]
        size = math.sqrt(sum(n * n for n in cross))
        if size > 0 and max(abs(n - m / size) for n, m in zip(normal, cross)) > 1e-3:
            return f"triangle {number} has the normal {normal}, but its corners {[m / size for m in cross]}"
    return None
