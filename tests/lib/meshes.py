"""Closed meshes with whole coordinates: a mesh is its corners and its faces, each a list of corner numbers from 0."""
import math

# The faces of a box seen counter-clockwise from outside, in the order of `demo`.
BOX_FACES = ((0, 3, 2, 1), (4, 5, 6, 7), (0, 1, 5, 4), (1, 2, 6, 5), (2, 3, 7, 6), (3, 0, 4, 7))
TETRAHEDRON_FACES = ((0, 2, 1), (0, 1, 3), (0, 3, 2), (1, 2, 3))


def box(low, high):
    (a, b, c), (x, y, z) = low, high
    return [(a, b, c), (x, b, c), (x, y, c), (a, y, c), (a, b, z), (x, b, z), (x, y, z), (a, y, z)], list(BOX_FACES)


def cube(at, side):
    return box(at, tuple(n + side for n in at))


def tetrahedron(corners):
    """Seen from outside where the fourth corner lies behind the first three."""
    return list(corners), list(TETRAHEDRON_FACES)


def prism(outline, low, high):
    """An outline that goes round counter-clockwise as seen from above, from one height to another."""
    n = len(outline)
    corners = [(x, y, low) for x, y in outline] + [(x, y, high) for x, y in outline]
    walls = [(i, (i + 1) % n, n + (i + 1) % n, n + i) for i in range(n)]
    return corners, [tuple(range(n - 1, -1, -1)), tuple(range(n, 2 * n)), *walls]


def polygon(count, radius, centre, turn=0.0):
    """A regular outline, rounded to whole numbers."""
    angles = [turn + 2 * math.pi * i / count for i in range(count)]
    return [(centre[0] + round(radius * math.cos(a)), centre[1] + round(radius * math.sin(a))) for a in angles]


def sphere(segments, rings, radius, centre, turn=0.0, tilt=0.0):
    """A sphere of segments * (rings - 1) * 2 triangles, turned round z and then round x.

    Corners are rounded to whole numbers, so that some triangles of a fine sphere have no area; it is closed all the same.
    """
    corners = [_on_sphere(0, 0, radius, centre, turn, tilt)]
    for ring in range(1, rings):
        polar = math.pi * ring / rings
        angles = [2 * math.pi * segment / segments for segment in range(segments)]
        corners += [_on_sphere(polar, angle, radius, centre, turn, tilt) for angle in angles]
    corners.append(_on_sphere(math.pi, 0, radius, centre, turn, tilt))
    last = len(corners) - 1

    def at(ring, segment):
        return 0 if ring == 0 else last if ring == rings else 1 + (ring - 1) * segments + segment % segments

    faces = []
    for ring in range(rings):
        for segment in range(segments):
            if ring > 0:
                faces.append((at(ring, segment), at(ring + 1, segment), at(ring, segment + 1)))
            if ring < rings - 1:
                faces.append((at(ring, segment + 1), at(ring + 1, segment), at(ring + 1, segment + 1)))
    return corners, faces


def even_sphere(count, radius, centre, turn=0.0, tilt=0.0):
    """A sphere of 8 * count * count triangles of about the same size: an octahedron with its sides cut into count * count triangles,
    pushed out to the sphere, turned round z and then round x, and rounded to whole numbers."""
    numbers, faces = {}, []

    def at(signs, i, j):
        return numbers.setdefault((signs[0] * i, signs[1] * j, signs[2] * (count - i - j)), len(numbers))

    for signs in [(x, y, z) for x in (1, -1) for y in (1, -1) for z in (1, -1)]:
        for i, j in [(i, j) for i in range(count) for j in range(count - i)]:
            pair = [((i, j), (i + 1, j), (i, j + 1)), ((i + 1, j), (i + 1, j + 1), (i, j + 1))]
            rings = [tuple(at(signs, *it) for it in ring) for ring in pair[: 1 if i + j == count - 1 else 2]]
            faces += rings if math.prod(signs) > 0 else [ring[::-1] for ring in rings]
    angles = [(math.acos(z / math.hypot(x, y, z)), math.atan2(y, x)) for x, y, z in numbers]
    return [_on_sphere(*it, radius, centre, turn, tilt) for it in angles], faces


def _on_sphere(polar, angle, radius, centre, turn, tilt):
    x, y, z = math.sin(polar) * math.cos(angle + turn), math.sin(polar) * math.sin(angle + turn), math.cos(polar)
    y, z = y * math.cos(tilt) - z * math.sin(tilt), y * math.sin(tilt) + z * math.cos(tilt)
    return tuple(c + round(radius * n) for c, n in zip(centre, (x, y, z)))


def turned(mesh):
    """The mesh with its inside outside."""
    return mesh[0], [tuple(reversed(face)) for face in mesh[1]]


def flat(mesh):
    """With each face cut into triangles that share its first corner."""
    return mesh[0], [(face[0], face[i], face[i + 1]) for face in mesh[1] for i in range(1, len(face) - 1)]


def joined(meshes):
    """Several meshes as one."""
    corners, faces = [], []
    for more, rings in meshes:
        faces += [tuple(n + len(corners) for n in ring) for ring in rings]
        corners += more
    return corners, faces


def _cross(u, v):
    return u[1] * v[2] - u[2] * v[1], u[2] * v[0] - u[0] * v[2], u[0] * v[1] - u[1] * v[0]


def _plane(normal, point):
    """The plane through a point, by its normal and a constant in lowest terms."""
    numbers = (*normal, sum(n * x for n, x in zip(normal, point)))
    divisor = math.gcd(*numbers)
    return " ".join(str(n // divisor) for n in numbers)


def face_file(mesh):
    """The faces of the mesh, which are convex polygons, as a face file."""
    corners, faces = mesh
    lines = ["ember 1"]
    for face in faces:
        ring = [corners[n] for n in face]
        sides = [tuple(y - x for x, y in zip(ring[i], ring[(i + 1) % len(ring)])) for i in range(len(ring))]
        normal = _cross(sides[0], sides[1])
        lines.append(f"f {_plane(normal, ring[0])} {len(ring)}")
        lines += [f"e {_plane(_cross(side, normal), start)} {' '.join(map(str, start))} 1" for side, start in zip(sides, ring)]
    return "\n".join([*lines, f"end {len(faces)}", ""]).encode()


def obj(mesh):
    """The mesh as OBJ text."""
    lines = ["v %d %d %d\n" % corner for corner in mesh[0]]
    lines += ["f %s\n" % " ".join(str(n + 1) for n in face) for face in mesh[1]]
    return "".join(lines)


def triangles(mesh):
    return sum(len(face) - 2 for face in mesh[1])
