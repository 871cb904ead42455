"""Face files: the exact faces of a result. docs/use/FORMATS.md describes the format."""
from __future__ import annotations

from dataclasses import dataclass, field
from math import gcd
from typing import Dict, List, Set, Tuple

# x, y, z and w: the point (x / w, y / w, z / w) in steps from the middle of the grid.
Corner = Tuple[int, int, int, int]
# a, b, c and d in lowest terms: a·x + b·y + c·z = d. In front of the plane the left side is greater.
Plane = Tuple[int, int, int, int]


def plane_of(a: int, b: int, c: int, d: int) -> Plane:
    """Returns a plane in lowest terms. All four numbers may be 0: then it is none."""
    factor = gcd(a, b, c, d) or 1
    return a // factor, b // factor, c // factor, d // factor


def without_front(plane: Plane) -> Plane:
    """Returns the one of both planes with these points of which the first number that isn't 0 is above 0."""
    a, b, c, d = plane
    return (-a, -b, -c, -d) if (a, b, c) < (0, 0, 0) else plane


@dataclass
class Document:
    """The corners of all faces, in the order in which they come first, and for each the planes of the faces that have it."""

    corners: List[Corner] = field(default_factory=list)
    planes: List[Set[Plane]] = field(default_factory=list)


def document_of(data: bytes) -> Document:
    """Returns what a face file has."""
    document = Document()
    found: Dict[bytes, Set[Plane]] = {}
    planes: Dict[bytes, Plane] = {}
    for line in data.split(b"\n"):
        if line.startswith(b"f "):
            text = line[2:].rpartition(b" ")[0]
            plane = planes.get(text) or planes.setdefault(text, plane_of(*map(int, text.split())))
        elif line.startswith(b"e "):
            text = line.split(b" ", 5)[5]
            if text not in found:
                found[text] = set()
                x, y, z, w = map(int, text.split())
                document.corners.append((x, y, z, w))
                document.planes.append(found[text])
            found[text].add(plane)
    return document
