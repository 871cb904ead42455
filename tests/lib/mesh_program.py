"""What is wrong with an answer of ember-mesh, whatever its input was."""
import re

_NUMBER = r"-?\d+(?:\.\d+)?"
_MOVE = rf"(?:0 \(nothing moved\)|{_NUMBER})"
_PLACE = rf"\({_NUMBER} {_NUMBER} {_NUMBER}\)"
_VOLUME = rf"(?:{_NUMBER}|\?)"
_NAME = r"[^\n]+?"
_MISSED = rf"warning: {_NAME}: 0 of [1-9]\d* triangles of the result lie on it; see where it lies with ember-mesh view"

# Why a file is refused, behind its name; W stands for a word of the file.
REASONS = r"""
no triangles in it; is it a mesh\?
line \d+: coordinate 'W' is not a number; export anew
line \d+: fewer than three coordinates; export anew
(?:line|facet|face|triangle) \d+: a coordinate of 1e15 or more; export in another unit
neither ASCII STL nor binary STL: \d+ bytes, but \d+ facets need \d+; it is cut off, export anew
facet \d+: coordinate is not a finite number; remove the facet or export anew
line \d+: vertex outside a facet; export anew
line \d+: facet without three vertices; export anew
line \d+: word 'W' is none of STL; export anew
the file ends in a facet; it is cut off, export anew
line \d+: reference 'W' names no vertex before it; export anew
line \d+: face with fewer than three corners; remove it
PLY header has no end; export anew
line \d+: PLY header line not understood; export anew
PLY format is none of ascii, binary_little_endian, binary_big_endian; export anew
W \d+: the file ends or the row is short; it is cut off, export anew
vertex \d+: coordinate is not a finite number; export anew
PLY vertices have no x, y, z; export anew
PLY faces have no vertex_indices \(strips aren't read\); export as triangles
face \d+: names a vertex that isn't there; export anew
face \d+: fewer than three corners; remove it
line \d+: vertices of four coordinates \(4OFF\) aren't read; export as OFF
OFF has no counts; export anew
fewer lines than the counts say; it is cut off, export anew
line \d+: face not understood; export anew
GLB is cut off; export anew
GLB of version \d+, and not 2; export anew
glTF isn't JSON; export anew
glTF with (?:Draco|meshopt)'s compression isn't read; export without compression
glTF with EXT_mesh_gpu_instancing isn't read; export as STL, OBJ, PLY or OFF
buffer \d+: isn't in the file; export as GLB
glTF has no scene; export anew
(?:node|mesh|accessor) \d+: not understood; export anew
node \d+: the scene has a node twice; export anew
node \d+: is moved, turned or scaled; apply the transforms and export anew
accessor \d+: sparse accessors aren't read; export as STL, OBJ, PLY or OFF
accessor \d+: coordinate is not a finite number; export anew
mesh \d+: names a vertex that isn't there; export anew
more than 16777216 points or corners of triangles; simplify the mesh
(?:3MF and other zip archives aren't|(?:FBX|STEP|VRML|COLLADA|AMF) isn't) read; export as STL, OBJ, PLY or OFF
gzip isn't read; unpack the file
an HTML page and no mesh; download the mesh itself
""".strip().replace("W", "[!-~]*").split("\n")

# What a status writes to standard error behind `ember-mesh: `. Status 13 has no line, and 14 is a fault of the program.
LINES = {
    2: r"[^\n]+",
    3: rf"{_NAME}: cannot be read(?: \((?:No such file or directory|Permission denied|Is a directory)\))?",
    4: rf"cannot write (?:{_NAME}|to standard output)",
    5: rf"{_NAME}: (?:{'|'.join(REASONS)})|no triangles in the files; are they meshes\?",
    6: rf"{_NAME}: not closed: \d+ loose edges, the first from {_PLACE} to {_PLACE}, in (?:line|facet|face|triangle) \d+; close the hole in the modeller",
    7: r"expression: (?:(?:syntax|deep|number) at \d+|no mesh \d+|long)",
    8: "expression holds outside all meshes",
    9: rf"{_NAME}: more than 268435456 bytes; simplify the mesh|\d+ triangles after snapping, more than 262144; simplify the meshes",
    10: rf"--step {_NAME}: the scene is {_NUMBER} long, which needs a step of at least {_NUMBER}",
    12: "out of memory",
}
FORMS = {status: re.compile(f"ember-mesh: (?:{line})\n".encode()) for status, line in LINES.items()}
FORMS[0] = re.compile(
    (
        rf"ember-mesh: step {_NUMBER}, grid offset -?\d+ -?\d+ -?\d+\n"
        rf"(?:ember-mesh: {_NAME}: \d+ triangles, \d+ vanished, \d+ without area; greatest move {_MOVE}; closed\n)+"
        rf"(?:ember-mesh: (?:{_NAME}: volume {_VOLUME}|warning: {_NAME}: its volume is {_VOLUME}, so it may be inside out; use w\d+=-1)\n)+"
        rf"(?:ember-mesh: (?:{_NAME}: [1-9]\d* of \d+ triangles of the result lie on it|{_MISSED})\n)*"
        r"(?:ember-mesh: the result is empty\n)?"
        r"(?:ember-mesh: warning: rounding for (?:STL|OBJ|PLY|OFF|GLB) moves corners by up to \d[\d.e-]*, more than a hundredth of the step; "
        r"(?:write OBJ, PLY or OFF, or move the parts to the origin|raise --digits, or leave it out)\n)?"
        r"(?:ember-mesh: warning: some edges of the (?:OBJ|PLY|OFF) don't have two triangles, so it isn't a 2-manifold; "
        r"let touching parts overlap, or raise --digits\n)?"
        r"ember-mesh: \d+ faces -> \d+ triangles in \d+ planes; greatest rounding move \d[\d.e-]*; "
        r"\d+ vanished, \d+ without area, \d+ turned over; \d+ edges of more than two triangles\n"
    ).encode()
)
FORMS[13] = re.compile(b"")


def wrong(answer, quiet=False):
    """What no answer may be, or None: a signal, a status that isn't in the table, another text than the status has, output on out."""
    status, out, err = answer
    if status is None:
        return "no answer in time"
    if status not in FORMS:
        return f"signal {-status}" if status < 0 else f"status {status}, {err[:200]!r}"
    if out:
        return f"status {status} with {len(out)} bytes on out"
    if status == 0 and quiet:
        return f"--quiet, but err has {err[:200]!r}" if err else None
    if not FORMS[status].fullmatch(err):
        return f"status {status} with err {err[:200]!r}"
    return None
