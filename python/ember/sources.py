"""From which input triangle each triangle of a result comes, computed exactly over the meshes on the grid."""
from __future__ import annotations

from dataclasses import dataclass
from itertools import product
from typing import TYPE_CHECKING, Any, Dict, List, Optional, Sequence, Tuple

import numpy as np

from .document import Corner, Plane, plane_of, without_front
from .exact import ExactVertex

if TYPE_CHECKING:
    from numpy.typing import NDArray

    from .meshes import Faces

SOURCE = np.dtype([("mesh", "<i4"), ("triangle", "<i4"), ("turned", "?"), ("several", "?")])

# A point of a plane, or a line in it, by three homogeneous numbers. The third number of a point is above 0.
Triple = Tuple[int, int, int]


@dataclass(frozen=True)
class Side:
    """One triangle in its plane, seen along the axis on which the plane's normal is longest, counter-clockwise.

    mesh, triangle  its number, if it is of the input
    front           whether it faces the way in which the first number of its plane that isn't 0 is above 0
    """

    points: Tuple[Triple, Triple, Triple]
    front: bool
    mesh: int = -1
    triangle: int = -1


def _cross(a: Triple, b: Triple) -> Triple:
    return a[1] * b[2] - a[2] * b[1], a[2] * b[0] - a[0] * b[2], a[0] * b[1] - a[1] * b[0]


def _dot(a: Triple, b: Triple) -> int:
    return a[0] * b[0] + a[1] * b[1] + a[2] * b[2]


def _side(plane: Plane, corners: Sequence[Corner], mesh: int = -1, triangle: int = -1) -> Side:
    normal = plane[:3]
    axis = max(range(3), key=lambda it: abs(normal[it]))
    u, v = (axis + 1) % 3, (axis + 2) % 3
    a, b, c = ((it[u], it[v], it[3]) for it in corners)
    is_left = _dot(_cross(a, b), c) > 0
    return Side((a, b, c) if is_left else (a, c, b), is_left == (normal[axis] > 0), mesh, triangle)


def _is_parted(a: Side, b: Side) -> bool:
    """Whether all of the second lies beyond an edge of the first, or on it."""
    first, second, third = a.points
    lines = (_cross(first, second), _cross(second, third), _cross(third, first))
    return any(all(_dot(line, it) <= 0 for it in b.points) for line in lines)


def _overlap(a: Side, b: Side) -> bool:
    """Whether the insides of two triangles of one plane have a point in common."""
    return not _is_parted(a, b) and not _is_parted(b, a)


def plane_through(corners: Sequence[Corner]) -> Plane:
    """Returns the plane of three corners, which are counter-clockwise seen from its front. It is none if they are on one line."""
    (px, py, pz, pw), *others = corners
    first, second = ((x * pw - px * w, y * pw - py * w, z * pw - pz * w) for x, y, z, w in others)
    a, b, c = _cross(first, second)
    return plane_of(a * pw, b * pw, c * pw, a * px + b * py + c * pz)


class InputPlanes:
    """The triangles of the input with an area, by plane, in the order of the meshes, with the boxes around them."""

    def __init__(self) -> None:
        self._sides: Dict[Plane, List[Side]] = {}
        self._boxes: Dict[Plane, NDArray[np.float64]] = {}

    def add(self, mesh: int, corners: NDArray[np.int64], numbers: NDArray[np.int64]) -> None:
        """Adds the triangles of a mesh: an (m, 3, 3) array of corners on the grid, and the number of each."""
        first = corners[:, 0]
        normals = np.cross(corners[:, 1] - first, corners[:, 2] - first)
        heights = (normals * first).sum(axis=1)
        has_area = normals.any(axis=1)
        rows = zip(*(it[has_area].tolist() for it in (normals, heights, corners, numbers)))
        for normal, height, triangle, number in rows:
            a, b, c = normal
            plane = without_front(plane_of(a, b, c, height))
            self._sides.setdefault(plane, []).append(_side(plane, [(x, y, z, 1) for x, y, z in triangle], mesh, number))

    def near(self, plane: Plane, side: Side) -> List[Side]:
        """Returns the triangles of a plane whose boxes meet the box of a triangle, with room for what floats round."""
        sides = self._sides.get(plane, [])
        if len(sides) < 8:
            return sides
        if plane not in self._boxes:
            self._boxes[plane] = np.array([_box(it) for it in sides])
        boxes, (left, low, right, high) = self._boxes[plane], _box(side)
        found = (boxes[:, 0] <= right) & (boxes[:, 2] >= left) & (boxes[:, 1] <= high) & (boxes[:, 3] >= low)
        return [sides[it] for it in np.flatnonzero(found)]


def _box(side: Side) -> Tuple[float, float, float, float]:
    us, vs = [u / w for u, _, w in side.points], [v / w for _, v, w in side.points]
    return min(us) - 0.5, min(vs) - 0.5, max(us) + 0.5, max(vs) + 0.5


def _of_one_face(vertices: Sequence[List[ExactVertex]]) -> Tuple[Plane, List[Corner]]:
    """Returns the plane of a triangle, and its corners. Where several corners were rounded to a vertex, those of a face count."""
    for chosen in product(*vertices):
        corners = [it.corner for it in chosen]
        plane = plane_through(corners)
        if all(plane in it.planes for it in chosen):
            return plane, corners
    corners = [it[0].corner for it in vertices]
    return plane_through(corners), corners


def _source(planes: InputPlanes, vertices: Sequence[List[ExactVertex]]) -> Tuple[int, int, bool, bool]:
    front, corners = _of_one_face(vertices)
    plane = without_front(front)
    side = _side(plane, corners)
    owner: Optional[Side] = None
    for it in planes.near(plane, side):
        if _overlap(it, side):
            if owner:
                return owner.mesh, owner.triangle, owner.front != side.front, True
            owner = it
    return (owner.mesh, owner.triangle, owner.front != side.front, False) if owner else (-1, -1, False, False)


def sources_of(planes: InputPlanes, vertices: Sequence[List[ExactVertex]], faces: Faces) -> NDArray[Any]:
    """Returns the source of each triangle, as `boolean` describes it."""
    rows = [_source(planes, [vertices[it] for it in triangle]) for triangle in faces.tolist()]
    return np.array(rows, dtype=SOURCE)
