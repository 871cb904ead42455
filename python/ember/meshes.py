"""Meshes as arrays, and whatever else counts as a mesh."""
from __future__ import annotations

import os
from typing import TYPE_CHECKING, Any, Optional, Protocol, Tuple, Union

import numpy as np

from .errors import InputError

if TYPE_CHECKING:
    from numpy.typing import NDArray

    Vertices = NDArray[np.float64]
    Faces = NDArray[np.uint32]


class HasFaces(Protocol):
    """A mesh of ember, trimesh and others."""

    @property
    def vertices(self) -> Any: ...

    @property
    def faces(self) -> Any: ...


class HasTriVerts(Protocol):
    """A mesh of manifold3d. The first three properties of a vertex are its place."""

    @property
    def vert_properties(self) -> Any: ...

    @property
    def tri_verts(self) -> Any: ...


MeshLike = Union[HasFaces, HasTriVerts, Tuple[Any, Any], str, "os.PathLike[str]", bytes]

_KINDS_OF_MESHES = "(vertices, faces), an object with .vertices and .faces, a path, or the bytes of a file"


class Mesh:
    """Triangles over vertices.

    vertices  an (n, 3) array of float64, in the user's unit
    faces     an (m, 3) array of uint32: indices of vertices from 0, counter-clockwise as seen from outside

    Both are read-only copies. TypeError and InputError are raised for arrays that are none of this, as `boolean` says.
    """

    def __init__(self, vertices: Any, faces: Any) -> None:
        self._vertices, self._faces = checked(vertices, faces, None)

    @property
    def vertices(self) -> Vertices:
        return self._vertices

    @property
    def faces(self) -> Faces:
        return self._faces

    def __repr__(self) -> str:
        return f"<ember.{type(self).__name__} of {len(self.faces)} triangles>"


def _frozen(array: NDArray[Any], dtype: str) -> NDArray[Any]:
    """Returns a copy that nobody can write: a call may take long, and other threads run meanwhile."""
    array = np.array(array, dtype=dtype, order="C")
    array.flags.writeable = False
    return array


def _line(index: Optional[int], why: str) -> str:
    return why if index is None else f"mesh {index + 1}: {why}"


def _fault(index: Optional[int], why: str, place: Optional[int] = None) -> InputError:
    return InputError(5, _line(index, why), index, place)


def _array(given: Any, what: str, index: Optional[int]) -> NDArray[Any]:
    try:
        return np.asarray(given)
    except ValueError as ragged:
        raise TypeError(_line(index, f"{what} are no array of numbers; give (vertices, faces)")) from ragged


def _checked_vertices(vertices: Any, index: Optional[int]) -> Vertices:
    found = _array(vertices, "vertices", index)
    if found.dtype.kind not in "iuf" or found.dtype.itemsize > 8:
        raise TypeError(_line(index, f"vertices are of the type {found.dtype}, which float64 can't hold; convert them"))
    if found.ndim != 2 or found.shape[1] != 3:
        raise _fault(index, f"vertices have the shape {found.shape}, and not (n, 3)")
    return _frozen(found, "<f8")


def _checked_faces(faces: Any, count: int, index: Optional[int]) -> Faces:
    found = _array(faces, "faces", index)
    if found.dtype.kind not in "iu":
        raise TypeError(_line(index, f"faces are of the type {found.dtype}, and not integers"))
    if found.ndim != 2 or found.shape[1] != 3:
        raise _fault(index, f"faces have the shape {found.shape}, and not (m, 3): three indices for each triangle")
    wrong = np.flatnonzero(((found < 0) | (found >= count)).any(axis=1))
    if len(wrong):
        raise _fault(index, f"face {wrong[0] + 1}: names a vertex that isn't there", int(wrong[0]))
    return _frozen(found, "<u4")


def checked(vertices: Any, faces: Any, index: Optional[int]) -> Tuple[Vertices, Faces]:
    """Returns both as read-only copies of float64 and uint32, in C's order. `index` is that of the mesh in the list, from 0."""
    places = _checked_vertices(vertices, index)
    return places, _checked_faces(faces, len(places), index)


def arrays_of(mesh: Any, index: int) -> Tuple[Vertices, Faces]:
    """Returns the arrays of whatever has some."""
    if isinstance(mesh, Mesh):
        return mesh.vertices, mesh.faces
    if hasattr(mesh, "vertices") and hasattr(mesh, "faces"):
        return checked(mesh.vertices, mesh.faces, index)
    if hasattr(mesh, "vert_properties") and hasattr(mesh, "tri_verts"):
        return checked(np.asarray(mesh.vert_properties)[:, :3], mesh.tri_verts, index)
    if isinstance(mesh, (tuple, list)) and len(mesh) == 2:
        vertices, faces = mesh
        return checked(vertices, faces, index)
    raise TypeError(f"mesh {index + 1} is a {type(mesh).__name__}; give {_KINDS_OF_MESHES}")
