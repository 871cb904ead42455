"""The report of a Boolean, as numbers."""
from __future__ import annotations

import re
from dataclasses import dataclass
from decimal import Decimal
from typing import List, Tuple

_GRID = re.compile(r"^step (\S+), grid offset (\S+) (\S+) (\S+)$", re.M)
_FILE = re.compile(r": \d+ triangles, (\d+) vanished, \d+ without area; greatest move (\S+)(?: \(nothing moved\))?; closed$", re.M)
_VOLUME = re.compile(r": (?:volume|its volume is) (\S+?)(?:, so it may be inside out; use w\d+=-1)?$", re.M)
_RESULT = re.compile(
    r"^(\d+) faces -> \d+ triangles in (\d+) planes; greatest rounding move (\S+); (\d+) vanished, (\d+) without area, (\d+) turned over; ",
    re.M,
)


@dataclass(frozen=True)
class Report:
    """What ember-mesh says of a Boolean. The page MESHES says what the numbers mean.

    step, offset     the grid: its points are `step * (i + offset)` for whole numbers i
    moves            for each mesh how far a corner moved to the grid at most
    vanished_before  for each mesh how many triangles vanished on the grid
    volumes          for each mesh its volume on the grid, below 0 if it is inside out; NaN from 10^21 on
    faces, planes    how many exact faces the result has, and in how many planes they lie
    rounding_move    how far rounding moved a corner of the result at most
    vanished, flat, turned  how many triangles rounding left out, left without area, and turned over
    """

    step: Decimal
    offset: Tuple[int, int, int]
    moves: List[float]
    vanished_before: List[int]
    volumes: List[float]
    faces: int
    planes: int
    rounding_move: float
    vanished: int
    flat: int
    turned: int


def report_of(text: str) -> Report:
    """Returns the numbers of the lines, which don't begin with `ember-mesh: ` any more. Lines that it doesn't know are passed over."""
    grid, result = _GRID.search(text), _RESULT.search(text)
    files, volumes = _FILE.findall(text), _VOLUME.findall(text)
    if not grid or not result or len(files) != len(volumes):
        raise ValueError(f"this isn't a report of ember-mesh: {text!r}; install the version that belongs to this package")
    step, *offset = grid.groups()
    faces, planes, move, vanished, flat, turned = result.groups()
    x, y, z = map(int, offset)
    return Report(
        step=Decimal(step),
        offset=(x, y, z),
        moves=[float(it) for _, it in files],
        vanished_before=[int(it) for it, _ in files],
        volumes=[float("nan" if it == "?" else it) for it in volumes],
        faces=int(faces),
        planes=int(planes),
        rounding_move=float(move),
        vanished=int(vanished),
        flat=int(flat),
        turned=int(turned),
    )
