"""OFF as ember-mesh writes it: triangles alone."""
from __future__ import annotations

from typing import TYPE_CHECKING, List, Tuple

import numpy as np

from .exact import Units, units_of_text
from .meshes import checked

if TYPE_CHECKING:
    from .meshes import Faces, Vertices


def _parts(data: bytes) -> Tuple[int, int, bytes]:
    """Returns the numbers of vertices and of triangles, and what follows."""
    _, counts, body = data.split(b"\n", 2)
    vertices, triangles, _ = map(int, counts.split())
    return vertices, triangles, body


def arrays_of_off(data: bytes) -> Tuple[Vertices, Faces]:
    """Returns the vertices as the nearest doubles, and the triangles. Nobody can write them."""
    count, triangles, body = _parts(data)
    numbers = np.fromstring(body, dtype=np.float64, sep=" ")
    faces = numbers[3 * count :].reshape(triangles, 4)[:, 1:]
    return checked(numbers[: 3 * count].reshape(count, 3), faces.astype(np.uint32), None)


def units_of_off(data: bytes, places: int) -> List[Units]:
    """Returns the vertices, exactly, in units of the last of these decimal places."""
    count, _, body = _parts(data)
    rows = (line.split() for line in body.split(b"\n", count)[:count])
    return [(units_of_text(x, places), units_of_text(y, places), units_of_text(z, places)) for x, y, z in rows]
