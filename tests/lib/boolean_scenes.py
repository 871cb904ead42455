"""Scenes of two meshes each, by the kind of input, on which engines of Booleans are compared.

Each mesh has triangles with whole corners within 2,000 of the origin, which floats hold exactly. Parts of a mesh share no corner numbers
but where it says so.
"""
import math
import random

from lib.meshes import box, cube, even_sphere, flat, joined, polygon, prism, tetrahedron, turned


def welded(mesh):
    """With one number for each place."""
    corners, faces = mesh
    numbers = {}
    for corner in corners:
        numbers.setdefault(corner, len(numbers))
    return list(numbers), [tuple(numbers[corners[n]] for n in face) for face in faces]


def moved(mesh, by):
    return [tuple(n + m for n, m in zip(it, by)) for it in mesh[0]], mesh[1]


def small_sphere(radius, centre, turn=0.0, tilt=0.0):
    """Of 968 triangles."""
    return even_sphere(11, radius, centre, turn, tilt)


def star(points, step, radius, low, high):
    """A prism over a regular star, which overlaps itself."""
    outline = polygon(points, radius, (0, 0), 0.3)
    return prism([outline[step * i % points] for i in range(points)], low, high)


def spindle(segments, rings, radius, tube):
    """A torus whose tube is thicker than its radius, so that it goes through itself round its axis."""
    corners, faces = [], []
    for segment in range(segments):
        a = 2 * math.pi * (segment + 0.3) / segments
        for ring in range(rings):
            b = 2 * math.pi * (ring + 0.4) / rings
            from_axis = radius + tube * math.cos(b)
            corners.append((round(from_axis * math.cos(a)), round(from_axis * math.sin(a)), round(tube * math.sin(b))))
            across, along = (segment + 1) % segments, (ring + 1) % rings
            faces.append(tuple(s * rings + r for s, r in ((segment, ring), (across, ring), (across, along), (segment, along))))
    return corners, faces


def boxes_anywhere(draw, count):
    """Boxes that overlap each other."""
    parts = []
    for _ in range(count):
        low = [draw.randint(-1000, 600) for _ in range(3)]
        parts.append(box(tuple(low), tuple(n + draw.randint(100, 500) for n in low)))
    return joined(parts)


def tower(first):
    """Every second box of 24 that stand on one another."""
    draw = random.Random(24)
    sides = [draw.randint(20, 60) for _ in range(24)]
    return joined(box((-sides[i], -sides[i], 10 * i), (sides[i], sides[i], 10 * i + 10)) for i in range(first, 24, 2))


KINDS = {
    "in general position": (
        (cube((0, 0, 0), 100), box((31, 47, 53), (140, 130, 120))),
        (small_sphere(1000, (0, 0, 0), 0.1, 0.2), small_sphere(900, (700, 300, -200), 0.3, 0.5)),
        (prism(polygon(7, 500, (0, 0), 0.1), -301, 300), tetrahedron([(-700, 11, -600), (650, -713, 50), (610, 700, -70), (17, 23, 900)])),
    ),
    "coplanar faces": (
        (box((0, 0, 0), (200, 100, 100)), box((120, 0, 0), (300, 100, 100))),
        (small_sphere(1000, (0, 0, 0), 0.1, 0.2), small_sphere(1000, (0, 0, 0), 0.1, 0.2)),
        (tower(0), tower(1)),
        (prism(polygon(9, 700, (0, 0), 0.2), 0, 100), prism(polygon(7, 600, (250, 90), 0.1), 0, 100)),
    ),
    "parts that touch": (
        (box((0, 0, 0), (70, 60, 50)), box((70, 60, 0), (120, 140, 50))),
        (cube((0, 0, 0), 100), box((100, 100, 100), (190, 180, 170))),
        (box((-1500, -1500, 1000), (1500, 1500, 1300)), small_sphere(1000, (0, 0, 0))),
        # one edge of the first mesh belongs to two cubes
        (welded(joined([cube((0, 0, 0), 100), cube((100, 100, 0), 100)])), box((50, 40, 30), (170, 160, 150))),
    ),
    "nested": (
        (joined([small_sphere(1000, (0, 0, 0), 0.1, 0.2), turned(small_sphere(600, (130, 0, 90), 0.3, 0.5))]), small_sphere(700, (800, 30, 0), 0.2, 0.1)),
        (joined([cube((-500, -500, -500), 1000), cube((-250, -240, -230), 500)]), box((-103, -107, -109), (900, 400, 300))),
        (cube((-500, -500, -500), 1000), small_sphere(300, (20, 30, 40), 0.1, 0.2)),
        (joined([cube((-500, -500, -500), 1000), turned(cube((-400, -400, -400), 800)), cube((-300, -300, -300), 600)]), box((0, 20, 40), (700, 180, 160))),
    ),
    "self-intersecting": (
        (joined([cube((0, 0, 0), 100), box((31, 47, 53), (140, 130, 120))]), box((-20, 60, 61), (200, 90, 97))),
        (star(5, 2, 900, -200, 200), box((-300, -310, -100), (1000, 320, 400))),
        (spindle(24, 16, 300, 600), box((-101, -107, -900), (203, 907, 909))),
        (boxes_anywhere(random.Random(1), 40), boxes_anywhere(random.Random(2), 40)),
    ),
    "inside out": (
        (turned(cube((0, 0, 0), 100)), box((31, 47, 53), (140, 130, 120))),
        (small_sphere(1000, (0, 0, 0), 0.1, 0.2), turned(small_sphere(900, (700, 300, -200), 0.3, 0.5))),
        # one of two parts that are apart
        (joined([cube((0, 0, 0), 100), turned(cube((200, 0, 0), 100))]), box((47, 31, 27), (260, 76, 71))),
    ),
}

SCENES = {kind: [tuple(map(flat, scene)) for scene in scenes] for kind, scenes in KINDS.items()}


def two_spheres():
    """Of 49,928 triangles each, which overlap."""
    return flat(even_sphere(79, 1000, (0, 0, 0), 0.1, 0.2)), flat(even_sphere(79, 1000, (900, 300, -200), 0.3, 0.5))
