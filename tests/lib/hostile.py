"""Scenes that cost much for their size, each of some number of parts. All stay within the coordinates that ember takes."""
import math
import random

from lib.meshes import box, joined, polygon, prism, tetrahedron

# The two corners of needles that go through the whole root along an axis lie near these walls.
FAR = 2000


def plate(count, draw):
    """Parts on one build plate: boxes of many sizes whose floors overlap in one plane."""
    parts = []
    for _ in range(count):
        x, y = draw.randint(-1500, 1200), draw.randint(-1500, 1200)
        parts.append(box((x, y, 0), (x + draw.randint(50, 700), y + draw.randint(50, 700), draw.randint(20, 900))))
    return joined(parts)


def prisms(count, draw):
    """Turned plates of equal height in one place: floors and roofs overlap in two planes, with walls at all angles."""
    return joined(prism(polygon(8, 1000, (0, 0), 2 * math.pi * i / (8 * count)), 0, 50) for i in range(count))


def stairs(count, draw):
    """Shifted boxes of equal height, each over most of the one before."""
    return joined(box((13 * i - 1500, 11 * i - 1500, 0), (13 * i - 500, 11 * i - 500, 100)) for i in range(count))


def nested(count, draw):
    """Boxes round one another on one floor."""
    return joined(box((-10 * i - 10, -10 * i - 10, 0), (10 * i + 10, 10 * i + 10, 10 * i + 10)) for i in range(count))


def overlaps(count, draw):
    """Triangles with two sides that overlap in one plane."""
    corners = [tuple(draw.randint(-1000, 1000) for _ in range(2)) + (0,) for _ in range(3 * count)]
    faces = [(i, i + 1, i + 2) for i in range(0, 3 * count, 3)]
    return corners, faces + [face[::-1] for face in faces]


def fan(count, draw):
    """Slivers round two corners: so many at each."""
    rim = [(round(2000 * math.cos(a)), round(2000 * math.sin(a)), 0) for a in (2 * math.pi * i / count for i in range(count))]
    corners = rim + [(0, 0, 1500), (0, 0, -1500)]
    upper = [(i, (i + 1) % count, count) for i in range(count)]
    return corners, upper + [((i + 1) % count, i, count + 1) for i in range(count)]


def needles(count, draw):
    """Thin tetrahedra from wall to wall along a random axis."""
    parts = []
    for _ in range(count):
        axis = draw.randrange(3)

        def place(along):
            across = [draw.randint(-1900, 1900) for _ in range(3)]
            across[axis] = along
            return tuple(across)

        tail, tip = place(-FAR), place(FAR)
        beside = tuple(n + (a == (axis + 1) % 3) for a, n in enumerate(tail))
        above = tuple(n + (a == (axis + 2) % 3) for a, n in enumerate(tail))
        parts.append(tetrahedron([tail, beside, above, tip]))
    return joined(parts)


def soup(count, draw):
    """Large tetrahedra at random: nearly every triangle meets every other one."""
    return joined(tetrahedron([tuple(draw.randint(-2000, 2000) for _ in range(3)) for _ in range(4)]) for _ in range(count))


def copies(count, draw):
    """The same four triangles again and again: no halving parts them."""
    corners, faces = tetrahedron([(0, 0, 0), (1000, 0, 0), (0, 1000, 0), (0, 0, 1000)])
    return corners, faces * count


def sheet(count, draw):
    """A lattice of so many cells a side in one plane, and its reverse: 4 * count * count triangles."""
    step = max(1, 3600 // count)
    corners = [(i * step - 1800, j * step - 1800, 0) for j in range(count + 1) for i in range(count + 1)]
    cells = [j * (count + 1) + i for j in range(count) for i in range(count)]
    faces = [(n, n + 1, n + count + 2, n + count + 1) for n in cells]
    return corners, faces + [face[::-1] for face in faces]


def points(count, draw):
    """A plate with prisms on its roof, each with a corner inside one edge of the roof (at most 1,266)."""
    step = max(3, 3800 // count)
    wide = min(3, step // 3)
    feet = [[(x, -2000), (x + wide, -1990), (x - wide, -1990)] for x in range(-1900, step * count - 1900, step)]
    return joined([box((-2000, -2000, -100), (2000, 2000, 0)), *(prism(foot, 0, 10 + i % 5) for i, foot in enumerate(feet))])


def floors(count, draw):
    """A plate with prisms on its roof: three corners of each in one plane (at most 6,700)."""
    parts = [box((-2000, -2000, -100), (2000, 2000, 0))]
    for i in range(count):
        x, y = 39 * (i % 100) - 1980, 58 * (i // 100) - 1980
        parts.append(prism([(x, y), (x + 9, y + 10), (x - 9, y + 10)], 0, 5 + i % 9))
    return joined(parts)


def line(count, draw):
    """Wedges with an edge on one line, six round each piece of it (at most 12,240)."""
    sides = [((8, 1), (7, 4)), ((5, 6), (3, 8)), ((-1, 8), (-4, 7)), ((-8, -1), (-7, -4)), ((-5, -6), (-3, -8)), ((1, -8), (4, -7))]
    places = [(z, side) for z in range(-2040, 2040, 2) for side in sides][:count]
    return joined(prism([(0, 0), *side], z, z + 1) for z, side in places)


# Each scene with the size that the table has if none is given: of such a size that the costliest command takes a few seconds.
SCENES = {
    "plate": (plate, 100),
    "prisms": (prisms, 24),
    "stairs": (stairs, 40),
    "nested": (nested, 60),
    "overlaps": (overlaps, 60),
    "fan": (fan, 3000),
    "needles": (needles, 300),
    "soup": (soup, 60),
    "copies": (copies, 20000),
    "sheet": (sheet, 200),
    "points": (points, 256),
    "floors": (floors, 1000),
    "line": (line, 3000),
}


def scene(name, size=None, seed=1):
    """The mesh of a scene, of its own size or of another one."""
    make, usual = SCENES[name]
    return make(size or usual, random.Random(seed))
