"""The result of a Boolean."""
from __future__ import annotations

import os
from decimal import Decimal
from pathlib import Path
from typing import TYPE_CHECKING, Any, List, Optional, Tuple, Union

import numpy as np

from .calls import Call, Solid, said, warn_of
from .errors import UsageError
from .kept import Kept, exact_arrays
from .meshes import Mesh
from .report import report_of

if TYPE_CHECKING:
    from numpy.typing import NDArray

FORMATS = ("stl", "obj", "ply", "off", "glb")


class Result(Mesh):
    """The solid in which an expression is true, as triangles. It may have none: then the solid is empty.

    vertices, faces  as of every Mesh. Corners where faces cross are rounded to decimals, and given as the nearest doubles
    step, offset     the grid to which the meshes were moved: `step * (i + offset)` for whole numbers i along each axis. `step` is a
                     decimal.Decimal, and `offset` three ints
    moves            for each mesh, how far a corner was moved to the grid at most
    volumes          for each mesh, its volume on the grid. What is in two shells counts twice; below 0, the mesh may be inside out,
                     and `boolean` warns. NaN from 10^21 on
    rounding_move    how far a corner of the result was moved at most when it was rounded
    faces_before     the number of exact faces, and
    planes           of the planes in which they lie
    vanished         triangles that rounding left out, since two of their corners became equal. They leave no hole
    flat, turned     triangles that rounding left without area, or turned over
    report           the lines of ember-mesh, in which meshes and files count from 1
    sources          None, or an (m,) array with a record for each triangle: see `boolean`
    exact            None, or the exact corners of the vertices, as four (n,) arrays of ints: see `boolean`

    Lengths are in the user's unit. `moves` and `rounding_move` aren't below the true lengths, to nine digits.
    """

    step: Decimal
    offset: Tuple[int, int, int]
    moves: List[float]
    volumes: List[float]
    rounding_move: float
    faces_before: int
    planes: int
    vanished: int
    flat: int
    turned: int
    report: str
    sources: Optional[NDArray[Any]]
    exact: Optional[Tuple[NDArray[Any], ...]]

    def __init__(self, call: Call, solid: Solid) -> None:
        self._vertices, self._faces = solid.vertices, solid.faces
        self._call, self.report = call, solid.report
        report = report_of(self.report)
        self.step, self.offset = report.step, report.offset
        self.moves, self.volumes, self.rounding_move = report.moves, report.volumes, report.rounding_move
        self.faces_before, self.planes = report.faces, report.planes
        self.vanished, self.flat, self.turned = report.vanished, report.flat, report.turned
        self.sources = self.exact = None

    @property
    def is_manifold(self) -> bool:
        """Whether each edge has two triangles, one in each direction."""
        ends = np.concatenate([self.faces, np.roll(self.faces, -1, axis=1)], axis=1).astype(np.uint64)
        starts, stops = ends[:, :3].ravel(), ends[:, 3:].ravel()
        edges, back = np.sort(starts << np.uint64(32) | stops), np.sort(stops << np.uint64(32) | starts)
        return bool((edges == back).all() and (edges[1:] != edges[:-1]).all())

    def export(self, to: Union[str, os.PathLike[str]]) -> Optional[bytes]:
        """Gives the bytes that ember-mesh writes of this solid, or writes them to a file.

        `to` is "stl", "obj", "ply", "off" or "glb", and the bytes are returned; or it is a path that ends in `.stl` and so on, and
        the file is written. The solid is computed again for it. A file from which a mesh came must be as it was; if it isn't,
        InputError is raised. OSError if the file can't be written: it may then be cut off.
        """
        if to in FORMATS:
            return self._bytes(str(to))
        path = Path(to)
        ending = path.suffix.lower()[1:]
        if ending not in FORMATS:
            raise UsageError(2, f"{path}: the name must end in .stl, .obj, .ply, .off or .glb")
        path.write_bytes(self._bytes(ending))
        return None

    def _bytes(self, ending: str) -> bytes:
        for it in self._call.inputs:
            it.refuse_change()
        answer = self._call.answer(ending)
        warn_of("\n".join(it for it in said(answer.err).splitlines() if it not in self.report.splitlines()))
        return answer.files[f"out.{ending}"]

    def to_trimesh(self, process: bool = False) -> Any:
        """Returns a trimesh.Trimesh. With `process` trimesh merges vertices in one place, also where parts only touch."""
        import trimesh

        return trimesh.Trimesh(vertices=self.vertices, faces=self.faces, process=process)


def computed(call: Call, *, sources: bool, exact: bool) -> Result:
    """Returns the result of a call. Raises what `boolean` raises."""
    solid = call.solid(sources=sources, exact=exact)
    result = Result(call, solid)
    warn_of(result.report)
    result.sources = solid.sources
    if exact or (sources and solid.sources is None):
        kept = Kept(solid.files, report_of(result.report), call.inputs)
        vertices = kept.vertices(result.faces, call.digits)
        result.exact = exact_arrays(vertices) if exact else None
        result.sources = kept.sources(vertices, result.faces) if sources else None
    return result
