"""A Boolean as a call of ember-mesh."""
from __future__ import annotations

import os
import re
import sys
import warnings
from dataclasses import dataclass
from decimal import Decimal
from fractions import Fraction
from numbers import Integral
from typing import TYPE_CHECKING, Any, List, Mapping, Optional, Tuple, Union

import numpy as np

from . import library
from .engines import Answer, chosen, run
from .errors import EmberWarning, ExpressionError, UsageError, error_at, error_of
from .inputs import Input
from .kept import FOLDER
from .off import arrays_of_off

if TYPE_CHECKING:
    from numpy.typing import NDArray

    from .meshes import Faces, Vertices

Step = Union[str, int, float, Decimal, Fraction]

# The commands, with what they put between the meshes of their expression.
_COMMANDS = {"union": "|", "difference": "&!", "intersection": "&"}
# What is said of a text that is none of them, and no expression either: each of these has a digit.
_OPERATIONS = "; give 'union', 'difference', 'intersection' or an expression such as 'm1&!m2'"
_DIGIT = re.compile("[0-9]")
_MOST_WORKERS = 64
_MOST_MESHES = 64
_MOST_DIGITS = 17
_PLAIN_STEP = re.compile(r"nice|finest|(?=.*[1-9])[0-9]+(?:\.[0-9]+)?")
_PROGRAM = re.compile("^ember-mesh: ", re.M)
# A format of decimals rounds corners far only where the user wants few digits.
_WARNING = re.compile("^warning: (?!rounding for (?:OBJ|PLY|OFF) )(.*)$", re.M)


@dataclass(frozen=True, eq=False)
class Solid:
    """What a Boolean makes.

    vertices, faces  its arrays
    report           the lines of ember-mesh
    sources          the sources of its triangles, if they are wanted and the files of `--keep` aren't needed for them
    files            the files of `--keep`, if something is wanted for which they are needed
    """

    vertices: Vertices
    faces: Faces
    report: str
    sources: Optional[NDArray[Any]]
    files: Mapping[str, bytes]


@dataclass(frozen=True, eq=False)
class Call:
    """A Boolean: what of which meshes, on which grid, and how it is done."""

    operation: str
    step: str
    inputs: Tuple[Input, ...]
    digits: Optional[int]
    workers: int
    engine: str
    timeout: Optional[float]

    @property
    def triangles(self) -> int:
        """About how many triangles the meshes have."""
        return sum(it.triangles for it in self.inputs)

    def answer(self, ending: str, *, keep: bool = False) -> Answer:
        """Computes the solid, as a file `out.ENDING`. Raises what `boolean` raises."""
        words = [self.operation] if self.operation in _COMMANDS else ["bool", "--expr", self.operation]
        words += ["--step", self.step, "--workers", str(self.workers)]
        words += ["--digits", str(self.digits)] if self.digits is not None else []
        words += ["-o", f"out.{ending}", *(["--keep", FOLDER] if keep else [])]
        return answered(words, self.inputs, self.engine, self.timeout)

    def solid(self, *, sources: bool, exact: bool) -> Solid:
        """Computes the solid, with what its sources and its exact corners are made of. Raises what `boolean` raises."""
        try:
            return self._solid(sources, exact)
        except ExpressionError as error:
            if _DIGIT.search(self.operation):
                raise
            raise ExpressionError(error.status, error.line + _OPERATIONS) from None

    def _solid(self, sources: bool, exact: bool) -> Solid:
        # Only the files of `--keep` have the exact corners.
        if not exact and chosen(self.engine, self.triangles, self.timeout) == "library" and self._is_of_arrays():
            return self._solid_of_arrays(sources)
        answer = self.answer("off", keep=sources or exact)
        return Solid(*arrays_of_off(answer.files["out.off"]), said(answer.err), None, answer.files)

    def _is_of_arrays(self) -> bool:
        """Whether the library can be asked for just this by its call over arrays. Its call with words says what is wrong with all else."""
        return (
            0 < len(self.inputs) <= _MOST_MESHES
            and all(it.arrays for it in self.inputs)
            and self.operation.isascii()
            and "\0" not in self.operation
            and bool(_PLAIN_STEP.fullmatch(self.step))
            and (self.digits is None or _is_between(self.digits, 0, _MOST_DIGITS))
            and _is_between(self.workers, 1, _MOST_WORKERS)
        )

    def _solid_of_arrays(self, sources: bool) -> Solid:
        between = _COMMANDS.get(self.operation)
        expression = self.operation if between is None else between.join(f"m{it + 1}" for it in range(len(self.inputs)))
        made = library.boolean([it.arrays for it in self.inputs if it.arrays], expression, self.step, self.digits, sources=sources)
        if made.status:
            raise error_at(made.status, said(made.line), made.mesh, made.place)
        return Solid(made.vertices, made.faces, said(made.line), made.sources, {})


def _is_between(number: Any, least: int, most: int) -> bool:
    return isinstance(number, Integral) and not isinstance(number, bool) and least <= int(number) <= most


def said(lines: bytes) -> str:
    """Returns what ember-mesh says, without the program's name."""
    return _PROGRAM.sub("", lines.decode("utf-8", "replace")).strip()


def warn_of(lines: str) -> None:
    """Gives an EmberWarning for each warning among these lines, at the line of code that called this package."""
    frame, level = sys._getframe(1), 2
    while frame.f_back and frame.f_globals.get("__package__") == __package__:
        frame, level = frame.f_back, level + 1
    for text in _WARNING.findall(lines):
        warnings.warn(text, EmberWarning, stacklevel=level)


def answered(words: List[str], inputs: Tuple[Input, ...], engine: str, timeout: Optional[float]) -> Answer:
    """Does what the words say with the meshes behind them. Raises what a status above 0 stands for."""
    names = [it.name for it in inputs]
    files = {it.name: data for it in inputs if (data := it.data) is not None}
    others = [it.name for it in inputs if it.name not in files]
    answer = run([*words, *names], files, inputs=others, engine=engine, triangles=sum(it.triangles for it in inputs), timeout=timeout)
    if answer.status:
        raise error_of(answer.status, said(answer.err), names)
    return answer


def operation_of(operation: Any) -> str:
    if not isinstance(operation, str):
        raise TypeError(f"operation is a {type(operation).__name__}, and not a text")
    return operation


def step_of(step: Any) -> str:
    """Returns a step as ember-mesh reads it. A float counts as its shortest decimal."""
    if isinstance(step, str):
        return step
    if isinstance(step, (float, np.floating)):
        step = Decimal(str(step))
    elif isinstance(step, Integral) and not isinstance(step, bool):
        step = Decimal(int(step))
    elif isinstance(step, Fraction):
        step = _decimal_of(step)
    if isinstance(step, Decimal):
        return format(step, "f")
    raise TypeError(f"step is a {type(step).__name__}; give 'nice', 'finest' or a number")


def _decimal_of(step: Fraction) -> Decimal:
    places = max(step.denominator.bit_length(), 1)
    if 10**places % step.denominator:
        raise UsageError(2, f"--step {step}: isn't a decimal number")
    return Decimal(step.numerator * 10**places // step.denominator).scaleb(-places)


def workers_of(workers: Optional[int]) -> int:
    return min(_MOST_WORKERS, len(os.sched_getaffinity(0))) if workers is None else workers
