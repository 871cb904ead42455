"""The meshes of a call, as the files that an engine reads."""
from __future__ import annotations

import os
from dataclasses import dataclass
from pathlib import Path
from typing import TYPE_CHECKING, Any, Iterable, List, Optional, Tuple

import numpy as np

from .errors import InputError
from .meshes import arrays_of

if TYPE_CHECKING:
    from .meshes import Faces, Vertices


# What a triangle takes in a binary STL, in bytes.
_TRIANGLE = 50


@dataclass(frozen=True, eq=False)
class Input:
    """A mesh of a call.

    name    what the words and lines call it: its whole path, or `mesh N`
    file    the bytes of its file, if it came as such
    arrays  its vertices and faces, if it came as arrays. Nobody can write them
    stamp   when the file of the path was changed last, and its size; None if it isn't there
    """

    name: str
    file: Optional[bytes] = None
    arrays: Optional[Tuple[Vertices, Faces]] = None
    stamp: Optional[Tuple[int, int]] = None

    @property
    def data(self) -> Optional[bytes]:
        """The bytes of its file; None if its name is a path."""
        return ply_of(*self.arrays) if self.arrays else self.file

    @property
    def triangles(self) -> int:
        """About how many triangles it has."""
        if self.arrays:
            return len(self.arrays[1])
        size = self.stamp[1] if self.stamp else len(self.file or b"")
        return size // _TRIANGLE

    def refuse_change(self) -> None:
        """Raises InputError if the file isn't the one that it was."""
        if self.arrays is None and self.file is None and _stamp_of(self.name) != self.stamp:
            raise InputError(5, f"{self.name}: has changed since the result was computed; compute it anew")


def _stamp_of(path: str) -> Optional[Tuple[int, int]]:
    try:
        found = os.stat(path)
    except (OSError, ValueError):
        return None
    return found.st_mtime_ns, found.st_size


def ply_of(vertices: Vertices, faces: Faces) -> bytes:
    """Returns a binary PLY. Its coordinates are doubles, so none is rounded."""
    head = (
        "ply\nformat binary_little_endian 1.0\n"
        f"element vertex {len(vertices)}\nproperty double x\nproperty double y\nproperty double z\n"
        f"element face {len(faces)}\nproperty list uchar uint vertex_indices\nend_header\n"
    )
    rows = np.empty(len(faces), dtype=[("count", "u1"), ("corners", "<u4", 3)])
    rows["count"], rows["corners"] = 3, faces
    return head.encode() + vertices.tobytes() + rows.tobytes()


def _input_of(mesh: Any, index: int) -> Input:
    name = f"mesh {index + 1}"
    if isinstance(mesh, (bytes, bytearray, memoryview)):
        return Input(name, bytes(mesh))
    if isinstance(mesh, (str, os.PathLike)):
        path = os.path.abspath(os.fsdecode(Path(mesh)))
        return Input(path, stamp=_stamp_of(path))
    return Input(name, arrays=arrays_of(mesh, index))


def inputs_of(meshes: Iterable[Any]) -> List[Input]:
    """Returns the meshes of a call in their order."""
    return [_input_of(mesh, index) for index, mesh in enumerate(meshes)]
