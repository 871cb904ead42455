"""What is raised where there is no result."""
from __future__ import annotations

import re
from decimal import Decimal
from typing import Optional, Sequence, Tuple

Point = Tuple[float, float, float]

_PLACE = re.compile(r"^\w+ (\d+): |, in \w+ (\d+); ")
_EDGE = re.compile(r"from \((\S+) (\S+) (\S+)\) to \((\S+) (\S+) (\S+)\)")
_AT = re.compile(r" at (\d+)(?:; |$)")
_LEAST_STEP = re.compile(r"needs a step of at least (\S+)$")


class EmberError(Exception):
    """There is no result. `str()` of it is `line`.

    status  the exit status of ember-mesh, which the page MESHES lists; None if it has none
    line    why there is no result, and what to do, as ember-mesh says it. Its numbers of meshes, faces and vertices count from 1
    mesh    the index of the mesh at fault in the list, from 0; None if none is known to be
    place   the index in it of the face, vertex, facet or line at fault, from 0; None if none is known
    """

    def __init__(self, status: Optional[int], line: str, mesh: Optional[int] = None, place: Optional[int] = None) -> None:
        super().__init__(status, line, mesh, place)
        self.status, self.line, self.mesh, self.place = status, line, mesh, place

    def __str__(self) -> str:
        return self.line


class UsageError(EmberError, ValueError):
    """An argument can't be used (status 2), or a name isn't UTF-8 (13)."""


class InputError(EmberError, ValueError):
    """A mesh can't be read (status 3), or isn't one (5)."""


class NotClosedError(InputError):
    """A mesh has a hole (status 6)."""

    @property
    def edge(self) -> Optional[Tuple[Point, Point]]:
        """The ends of the first edge without a partner, in the user's unit, after they moved to the grid."""
        found = _EDGE.search(self.line)
        if not found:
            return None
        x, y, z, u, v, w = (float(it) for it in found.groups())
        return (x, y, z), (u, v, w)


class ExpressionError(EmberError, ValueError):
    """The expression isn't one (status 7), or holds outside all meshes (8)."""

    @property
    def at(self) -> Optional[int]:
        """The byte of the expression at fault, from 0, if the line names one."""
        found = _AT.search(self.line)
        return int(found[1]) if found else None


class LimitError(EmberError, OverflowError):
    """The meshes or the result are too large (status 9), or the step is too small (10)."""

    @property
    def least_step(self) -> Optional[Decimal]:
        """A step that is large enough, if the line names one."""
        found = _LEAST_STEP.search(self.line)
        return Decimal(found[1]) if found else None


class OutOfMemory(EmberError, MemoryError):
    """There was too little memory (status 12)."""


class Uncertified(EmberError, RuntimeError):
    """A fault of ember (status 14): it found no triangles that it could prove right."""


class Stopped(EmberError, RuntimeError):
    """The time was over, or a signal ended the program. `status` is then the negative number of the signal."""


class EmberWarning(UserWarning):
    """There is a result, but it may not be the one that is wanted: a mesh may be inside out, or a format rounds corners far."""


_KINDS = {
    2: UsageError, 3: InputError, 5: InputError, 6: NotClosedError, 7: ExpressionError, 8: ExpressionError, 9: LimitError,
    10: LimitError, 11: InputError, 12: OutOfMemory, 13: UsageError, 14: Uncertified,
}  # fmt: skip
# What is said where ember-mesh says nothing.
_WITHOUT_LINE = {12: "out of memory", 13: "a name isn't UTF-8; rename the file"}
_REPORT = "; please report it with the meshes (numpy.savez saves arrays)"


def _fault_of(line: str, names: Sequence[str]) -> Tuple[Optional[int], Optional[int]]:
    """Returns the indices of the mesh at fault and of the place in it."""
    for index, name in enumerate(names):
        if line.startswith(f"{name}: "):
            found = _PLACE.search(line[len(name) + 2 :])
            return index, int(found[1] or found[2]) - 1 if found else None
    return None, None


def error_of(status: int, line: str, names: Sequence[str]) -> EmberError:
    """Returns the exception for a status above 0, and the line that came with it. `names` are those of the meshes."""
    return error_at(status, line, *_fault_of(line, names))


def error_at(status: int, line: str, mesh: Optional[int], place: Optional[int]) -> EmberError:
    """Returns the exception for a status above 0, its line, and the indices of the mesh at fault and of the place in it."""
    line = line or _WITHOUT_LINE.get(status, f"ember-mesh ended with status {status}")
    return _KINDS.get(status, EmberError)(status, line + (_REPORT if status == 14 else ""), mesh, place)
