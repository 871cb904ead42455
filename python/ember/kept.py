"""What `--keep` keeps of a Boolean: the exact corners of its vertices, and the meshes on their grid."""
from __future__ import annotations

from dataclasses import dataclass
from fractions import Fraction
from typing import TYPE_CHECKING, Any, List, Mapping, Sequence, Tuple

import numpy as np

from .document import document_of
from .errors import UsageError
from .exact import ExactVertex, exact_vertices, rounding_of
from .inputs import Input
from .off import units_of_off
from .sources import InputPlanes, sources_of

if TYPE_CHECKING:
    from numpy.typing import NDArray

    from .meshes import Faces
    from .report import Report

FOLDER = "kept"


@dataclass(frozen=True)
class Kept:
    """The files of a call with `-o out.off --keep kept`, what it said, and its meshes."""

    files: Mapping[str, bytes]
    report: Report
    inputs: Sequence[Input]

    def vertices(self, faces: Faces, digits: int | None) -> List[List[ExactVertex]]:
        """Returns for each vertex of the OFF the corners from which it was rounded."""
        rounding = rounding_of(self.report, digits)
        document = document_of(self.files[f"{FOLDER}/doc.txt"])
        return exact_vertices(document, rounding, units_of_off(self.files["out.off"], rounding.places), faces)

    def sources(self, vertices: Sequence[List[ExactVertex]], faces: Faces) -> NDArray[Any]:
        planes = InputPlanes()
        for index, it in enumerate(self.inputs):
            corners = _corners_of(self.files[f"{FOLDER}/{index + 1}.obj"])
            planes.add(index, corners, self._numbers_of(index, it, len(corners)))
        return sources_of(planes, vertices, faces)

    def _numbers_of(self, index: int, mesh: Input, count: int) -> NDArray[np.int64]:
        """Returns the number of each triangle that didn't vanish on the grid."""
        if not self.report.vanished_before[index]:
            return np.arange(count)
        if mesh.arrays is None:
            why = "triangles vanish on the grid, so sources in this file aren't known; give its arrays, or a finer step"
            raise UsageError(2, f"{mesh.name}: {why}", index)
        vertices, faces = mesh.arrays
        places = _snapped(vertices, Fraction(self.report.step))[faces]
        same = (places == np.roll(places, 1, axis=1)).all(axis=2).any(axis=1)
        numbers: NDArray[np.int64] = np.flatnonzero(~same)
        return numbers


def _snapped(vertices: NDArray[np.float64], step: Fraction) -> NDArray[Any]:
    """Returns the nearest multiples of the step, in steps; of two equally near, the upper one. All are exact."""
    above, below = step.denominator, step.numerator
    rows = []
    for number in vertices.ravel().tolist():
        n, d = number.as_integer_ratio()
        rows.append((2 * n * above + below * d) // (2 * below * d))
    return np.array(rows, dtype=object).reshape(vertices.shape)


def _corners_of(obj: bytes) -> NDArray[np.int64]:
    """Returns the triangles of an OBJ on the grid as an (m, 3, 3) array."""
    lines = obj.split(b"\n")
    vertices, faces = (_rows(lines, mark) for mark in (b"v ", b"f "))
    corners: NDArray[np.int64] = vertices[faces - 1]
    return corners


def _rows(lines: Sequence[bytes], mark: bytes) -> NDArray[np.int64]:
    text = b" ".join(line[2:] for line in lines if line.startswith(mark))
    return np.fromstring(text, dtype=np.int64, sep=" ").reshape(-1, 3)


def exact_arrays(vertices: Sequence[List[ExactVertex]]) -> Tuple[NDArray[Any], ...]:
    """Returns x, y, z and w of the first corner of each vertex, as arrays of ints of any size."""
    table = np.empty((len(vertices), 4), dtype=object)
    for row, found in zip(table, vertices):
        row[:] = found[0].corner
    return tuple(table[:, it].copy() for it in range(4))
