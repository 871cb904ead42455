"""Small meshes, and what can be said of results without ember."""
from fractions import Fraction
from pathlib import Path

import numpy as np

EXAMPLES = Path(__file__).resolve().parent.parent.parent / "examples"

BOX_FACES = np.array(
    [[0, 2, 1], [1, 2, 3], [4, 5, 6], [5, 7, 6], [0, 1, 4], [1, 5, 4], [2, 6, 3], [3, 6, 7], [0, 4, 2], [2, 4, 6], [1, 3, 5], [3, 7, 5]]
)
TETRA_FACES = np.array([[0, 2, 1], [0, 1, 3], [0, 3, 2], [1, 2, 3]])


def box(low, high):
    ends = np.array([low, high], dtype=float)
    vertices = np.array([[ends[number >> axis & 1][axis] for axis in range(3)] for number in range(8)])
    return vertices, BOX_FACES


def tetra(points):
    """The tetrahedron of four points, whichever way round they are."""
    vertices = np.array(points, dtype=float)
    faces = TETRA_FACES
    return (vertices, faces) if volume((vertices, faces)) > 0 else (vertices, faces[:, ::-1])


def random_tetra(random):
    """A tetrahedron with whole numbers, which isn't flat."""
    while True:
        points = random.integers(-20, 21, (4, 3))
        if abs(np.linalg.det((points[1:] - points[0]).astype(float))) > 100:
            return tetra(points)


def arrays(mesh):
    return (mesh.vertices, mesh.faces) if hasattr(mesh, "faces") else mesh


def volume(mesh):
    vertices, faces = arrays(mesh)
    a, b, c = (vertices[faces[:, it]] for it in range(3))
    return float(np.einsum("ij,ij->i", a, np.cross(b, c)).sum() / 6)


def exact_points(result):
    """The exact corners of a result, in steps of the grid."""
    *numerators, weights = result.exact
    return [tuple(Fraction(it[number], weights[number]) for it in numerators) for number in range(len(weights))]


def grid_points(vertices, result):
    """Vertices on the grid of a result, in steps. They must be on it."""
    step = Fraction(result.step)
    points = [tuple(Fraction(it) / step - middle for it, middle in zip(row, result.offset)) for row in np.asarray(vertices).tolist()]
    assert all(it.denominator == 1 for row in points for it in row)
    return points


def difference_of(a, b):
    return tuple(p - q for p, q in zip(a, b))


def cross(a, b):
    return a[1] * b[2] - a[2] * b[1], a[2] * b[0] - a[0] * b[2], a[0] * b[1] - a[1] * b[0]


def dot(a, b):
    return sum(p * q for p, q in zip(a, b))


def normal_of(triangle):
    a, b, c = triangle
    return cross(difference_of(b, a), difference_of(c, a))


def is_inside(point, triangle):
    """Whether a point is strictly inside a triangle, and in its plane. All numbers are exact."""
    normal = normal_of(triangle)
    if dot(normal, difference_of(point, triangle[0])):
        return False
    ends = zip(triangle, (*triangle[1:], triangle[0]))
    return all(dot(normal, cross(difference_of(b, a), difference_of(point, a))) > 0 for a, b in ends)
