"""What a user calls."""
from __future__ import annotations

import json
import os
from typing import TYPE_CHECKING, Any, Dict, List, Mapping, Optional, Sequence, TypedDict

from .calls import Call, Step, answered, operation_of, step_of, workers_of
from .engines import Answer, run
from .inputs import inputs_of
from .meshes import MeshLike
from .results import Result, computed

if TYPE_CHECKING:
    from typing_extensions import Unpack


# What a triangle takes in a binary STL, in bytes.
_TRIANGLE = 50


class Options(TypedDict, total=False):
    """The options of `boolean`, which describes them."""

    step: Step
    digits: Optional[int]
    sources: bool
    exact: bool
    workers: Optional[int]
    timeout: Optional[float]
    engine: str


def boolean(
    meshes: Sequence[MeshLike],
    operation: str = "union",
    *,
    step: Step = "nice",
    digits: Optional[int] = None,
    sources: bool = False,
    exact: bool = False,
    workers: Optional[int] = None,
    timeout: Optional[float] = None,
    engine: str = "auto",
) -> Result:
    """Returns the solid in which an expression is true of the winding numbers of closed meshes.

        corners = np.array([[0, 0, 0], [2, 0, 0], [0, 2, 0], [0, 0, 2]], dtype=float)
        faces = np.array([[0, 2, 1], [0, 1, 3], [0, 3, 2], [1, 2, 3]])
        both = ember.boolean([(corners, faces), (corners + 0.5, faces)], "union")
        both.vertices, both.faces, both.volumes      # .., .., [1.333333333333, 1.333333333333]

    meshes     1 to 64 meshes, each closed, with 262,144 triangles at most in all. A mesh is any of
               - a pair of arrays: (n, 3) vertices in any unit, and (m, 3) indices of them from 0, counter-clockwise from outside.
                 Vertices of float64, float32 and integers below 2^53 are taken as they are
               - an object with `.vertices` and `.faces` (ember, trimesh), or with `.vert_properties` and `.tri_verts` (manifold3d)
               - a path of an STL, OBJ, PLY, OFF or glTF file, or the bytes of one
    operation  "union", "difference" (the first without all others), "intersection", or an expression over the meshes, which count
               from 1 in it: "m1&!m2" is the first without the second, "w1+w2>=2" holds where their winding numbers are 2 together
    step       the distance of grid points, in the unit of the vertices. All corners are moved to a grid with 4,095 points along each
               axis. "nice" is the least of .., 0.01, 0.02, 0.05, 0.1, .. that fits all meshes; "finest" is the least of four digits;
               or a number: a text, an int, a Decimal, a Fraction, or a float, which counts as its shortest decimal (0.1 is a tenth)
    digits     decimal places of the result, 0 to 17. None is six more than the step has
    sources    whether `sources` of the result is wanted
    exact      whether `exact` of the result is wanted
    workers    threads of the program, 1 to 64. None is the number of processors that this process may use
    timeout    seconds after which the program is stopped. None is any time
    engine     "program", "library", or "auto": the program if it is there and there is a `timeout` or the meshes have more than
               20,000 triangles, and otherwise the library. Both give the same result

    `sources` has for each triangle of the result the first input triangle, in the order of the meshes, on which a part of it lies:
    `mesh` and `triangle`, both from 0; `turned` if it faces the other way, as where a mesh was cut away; `several` if parts of it lie
    on other input triangles of the same plane, too. Both are -1 if there is none, which isn't known to happen.

    `exact` is four arrays x, y, z and w of ints of any size. The first coordinate of vertex i was rounded from
    `Fraction(step) * (Fraction(x[i], w[i]) + offset[0])`, of Python's `fractions`, and so on.

    Raises an EmberError, whose text says why and what helps: InputError (a mesh can't be read), NotClosedError, ExpressionError,
    LimitError (too many triangles, too small a step), UsageError, OutOfMemory, Stopped, Uncertified. TypeError for arrays of types
    that would be rounded, and FileNotFoundError if no engine is there. Gives an EmberWarning for a mesh that may be inside out.

    Two calls choose two grids, so give one `step` to all calls of a chain; better, write one expression over all meshes.
    """
    wanted = operation_of(operation), step_of(step)
    call = Call(*wanted, tuple(inputs_of(meshes)), digits, workers_of(workers), engine, timeout)
    return computed(call, sources=sources, exact=exact)


def union(*meshes: MeshLike, **options: Unpack[Options]) -> Result:
    """Returns what is in any of the meshes. The options are those of `boolean`."""
    return boolean(meshes, "union", **options)


def difference(first: MeshLike, *others: MeshLike, **options: Unpack[Options]) -> Result:
    """Returns what is in the first mesh and in none of the others. The options are those of `boolean`."""
    return boolean([first, *others], "difference", **options)


def intersection(*meshes: MeshLike, **options: Unpack[Options]) -> Result:
    """Returns what is in all meshes. The options are those of `boolean`."""
    return boolean(meshes, "intersection", **options)


def info(*meshes: MeshLike) -> List[Dict[str, Any]]:
    """Returns what `ember-mesh info` says of each mesh, which needn't be closed.

    Each has "file" (its path, or `mesh N`), "triangles", "positions", "loose edges" (0 if it is closed), "edges of more than two
    triangles", "volume" (in the cube of the unit; it means nothing if there are loose edges), "from" and "to" (the least and the
    greatest coordinates).
    Raises an InputError for a mesh that can't be read.
    """
    answer = answered(["info"], tuple(inputs_of(meshes)), "auto", None)
    return [json.loads(line) for line in answer.out.splitlines()]


def command(words: Sequence[str], files: Optional[Mapping[str, bytes]] = None, *, engine: str = "auto", timeout: Optional[float] = None) -> Answer:
    """Does what `ember-mesh WORDS..` does in a folder that has just these files, and returns what it leaves.

    words    the words behind `ember-mesh`, such as ["snap", "-d", "kept", "a.stl"]. With the program, words that are whole paths name
             files of the system, so "auto" takes the program if there are such words and it is there. With the library nothing of the
             system is read or written
    files    the bytes of each file, by its name in the folder
    timeout  seconds after which the program is stopped. None is any time

    No status is an exception here. Raises Stopped if the time is over, and UsageError for files with names out of the folder.
    """
    given = dict(files or {})
    size = sum(map(len, given.values()))
    names_paths = any(os.path.isabs(it) for it in words)
    return run(list(words), given, engine=engine, triangles=size // _TRIANGLE, timeout=timeout, names_paths=names_paths)
