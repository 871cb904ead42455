"""Exact Booleans of closed triangle meshes, with a proof.

    import ember

    tag = ember.difference("plate.stl", "label.stl")
    tag.vertices, tag.faces       # an (n, 3) array of float64, an (m, 3) array of uint32
    tag.export("tag.stl")

Meshes are numpy arrays, objects of other packages, or files; `boolean` says which, and has all options. The corners of all meshes of a call
are first moved to a grid with 4,095 points along each axis: `Result.step` and `Result.moves` say how far. What follows is exact, until the
corners of the result are rounded. Numbers of meshes, triangles and vertices count from 0, but from 1 in expressions and in the lines of
errors and reports. PYTHON.md, beside this file in a wheel, has more.
"""

from . import processor
from .booleans import boolean, command, difference, info, intersection, union
from .engines import Answer
from .errors import (
    EmberError,
    EmberWarning,
    ExpressionError,
    InputError,
    LimitError,
    NotClosedError,
    OutOfMemory,
    Stopped,
    Uncertified,
    UsageError,
)
from .meshes import Mesh
from .results import Result
from .trimesh_engine import install_in_trimesh

processor.refuse_old()

__version__ = "0.3.0"

__all__ = [
    "Answer",
    "EmberError",
    "EmberWarning",
    "ExpressionError",
    "InputError",
    "LimitError",
    "Mesh",
    "NotClosedError",
    "OutOfMemory",
    "Result",
    "Stopped",
    "Uncertified",
    "UsageError",
    "boolean",
    "command",
    "difference",
    "info",
    "install_in_trimesh",
    "intersection",
    "union",
]
