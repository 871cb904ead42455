"""The engine `library`: libember.so is called in this process. Python's lock is free during a call."""
from __future__ import annotations

import ctypes
import os
from dataclasses import dataclass
from pathlib import Path
from typing import TYPE_CHECKING, Any, Dict, Iterable, Mapping, Optional, Sequence, Tuple

import numpy as np

from . import declared
from .sources import SOURCE

if TYPE_CHECKING:
    from numpy.typing import NDArray

    from .meshes import Faces, Vertices

# Where a wheel has the library.
_PACKED = Path(__file__).resolve().parent / "_lib/libember.so"
# ember_source. Its numbers are read with a sign, so no triangle is -1.
_SOURCE = np.dtype([("mesh", "<i4"), ("triangle", "<i4"), ("flags", "<u4")])


@dataclass(frozen=True, eq=False)
class Made:
    """What a call over arrays gives.

    status, line    as ember-mesh ends for the same meshes, and says: the report, or why there is no solid
    mesh, place     the index of the mesh at fault, and that of its vertex or triangle, both from 0; None if none is known
    vertices, faces  read-only arrays of the shapes (n, 3) and (m, 3), both empty with a status above 0
    sources          the source of each triangle, as `boolean` describes it, if they were wanted
    """

    status: int
    line: bytes
    mesh: Optional[int]
    place: Optional[int]
    vertices: Vertices
    faces: Faces
    sources: Optional[NDArray[Any]]


def found() -> Optional[str]:
    """Returns the path of the library, or None: the one that EMBER_LIBRARY names, or that of the wheel."""
    named = os.environ.get("EMBER_LIBRARY")
    if named:
        return os.path.abspath(named)
    return str(_PACKED) if _PACKED.exists() else None


def _loaded() -> Any:
    path = found()
    if path is None:
        raise FileNotFoundError("libember.so isn't in this package; set EMBER_LIBRARY to its path")
    return declared.loaded(path)


def _bytes_at(at: Optional[int], size: int) -> bytes:
    # ctypes.string_at takes sizes of 31 bits alone.
    return (ctypes.c_char * size).from_address(at).raw if at else b""


def _copied(block: declared.Block) -> bytes:
    return _bytes_at(block.at, block.len)


def _array(at: Optional[int], count: int, kind: str) -> Any:
    """Returns a copy of a C array of triples, which nobody can write."""
    dtype = np.dtype(kind)
    data = _bytes_at(at, 3 * count * dtype.itemsize)
    array = np.frombuffer(data, dtype=dtype).reshape(-1, 3) if data else np.empty((0, 3), dtype=dtype)
    array.flags.writeable = False
    return array


def _sources(at: Optional[int], count: int) -> NDArray[Any]:
    """Returns the sources at a C array of so many. Meshes count from 0 then."""
    given = np.frombuffer(_bytes_at(at, count * _SOURCE.itemsize), dtype=_SOURCE)
    found = np.empty(len(given), dtype=SOURCE)
    found["mesh"], found["triangle"] = given["mesh"] - 1, given["triangle"]
    found["turned"], found["several"] = given["flags"] & declared.TURNED, given["flags"] & declared.SEVERAL
    return found


def _free_answer(answer: declared.Answer) -> None:
    """Does what ember_answer_free does."""
    free = declared.free()
    named = [answer.files[index] for index in range(answer.n_files)]
    for block in (answer.out, answer.err, *(it.name for it in named), *(it.bytes for it in named)):
        free(block.at)
    free(ctypes.cast(answer.files, ctypes.c_void_p))


def _free_solid(solid: declared.Solid) -> None:
    """Does what ember_solid_free does."""
    for at in (solid.line.at, solid.vertices, solid.triangles, solid.sources):
        declared.free()(at)


def boolean(meshes: Sequence[Tuple[Vertices, Faces]], expression: str, step: str, digits: Optional[int], *, sources: bool) -> Made:
    """Returns the solid of an expression over contiguous arrays, which nobody may write meanwhile."""
    call = _loaded().ember_boolean_with
    lent = (declared.Mesh * len(meshes))(*(declared.Mesh(it.ctypes.data, len(it), to.ctypes.data, len(to)) for it, to in meshes))
    texts = [part for it in (expression.encode(), step.encode()) for part in (it, len(it))]
    places, wants = declared.DIGITS_OF_STEP if digits is None else digits, declared.WANTS_SOURCES if sources else 0
    solid = declared.Solid()
    try:
        status = call(lent, len(meshes), *texts, places, wants, ctypes.byref(solid))
        return Made(
            status,
            _copied(solid.line),
            solid.mesh - 1 if solid.mesh else None,
            None if solid.place == declared.NO_PLACE else solid.place,
            _array(solid.vertices, solid.n_vertices, "<f8"),
            _array(solid.triangles, solid.n_triangles, "<u4"),
            _sources(solid.sources, solid.n_triangles) if sources else None,
        )
    finally:
        _free_solid(solid)


def _lent(data: bytes) -> declared.Bytes:
    return declared.Bytes(data, len(data))


def read(paths: Iterable[str]) -> Tuple[Dict[str, bytes], Dict[str, str]]:
    """Returns the bytes of the files that can be read, and why the others can't be, both by their paths."""
    files, faults = {}, {}
    for path in paths:
        try:
            files[path] = Path(path).read_bytes()
        except OSError as fault:
            faults[path] = str(fault.strerror)
    return files, faults


def run(words: Sequence[str], files: Mapping[str, bytes]) -> Tuple[int, bytes, bytes, Dict[str, bytes]]:
    """Returns the exit status, both streams, and the files that would be written."""
    call = _loaded().ember_mesh_command
    texts = [os.fsencode(it) for it in words]
    lent = [declared.File(_lent(os.fsencode(name)), _lent(bytes(data))) for name, data in files.items()]
    answer = declared.Answer()
    try:
        parts = (declared.Bytes * len(texts))(*map(_lent, texts)), len(texts), (declared.File * len(lent))(*lent), len(lent)
        status = call(*parts, ctypes.byref(answer))
        named = [answer.files[index] for index in range(answer.n_files)]
        written = {os.fsdecode(_copied(it.name)): _copied(it.bytes) for it in named}
        return status, _copied(answer.out), _copied(answer.err), written
    finally:
        _free_answer(answer)
