"""The report of ember-mesh but for the volumes of files and the triangles on them: a line for the grid, one for each file, and one for the result, each without the
name of the program."""
from itertools import zip_longest

STILL = "0 (nothing moved)"


def numbers_of(faces, triangles, planes, move="X", shared=0):
    """The last line of a report: how far rounding moved a corner at most, and what it did to triangles."""
    size = f"{faces} -> {triangles} triangles in {planes} planes; greatest rounding move {move}"
    return f"{size}; 0 vanished, 0 without area, 0 turned over; {shared} edges of more than two triangles"


def said(step, offset, files, triangles, planes, shared=0, moves=()):
    """The report of files with 12 triangles each, or as many as stand behind the name, whose corners don't move, or so far."""
    lines = [f"step {step}, grid offset {offset}"]
    for name, move in zip_longest(files, moves, fillvalue=STILL):
        name, _, counts = name.partition(":")
        lines.append(f"{name}: {counts or '12 triangles, 0 vanished'}, 0 without area; greatest move {move}; closed")
    faces = "N faces"
    if not triangles:
        lines.append("the result is empty")
        faces = "0 faces"
    return [*lines, numbers_of(faces, triangles, planes, shared=shared)]
