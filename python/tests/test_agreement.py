"""Both engines give the same, byte for byte, over a corpus of meshes, faults and commands."""
import json
import os
from pathlib import Path

import numpy as np
import pytest

import ember
from scenes import EXAMPLES, box, random_tetra, tetra

pytestmark = [pytest.mark.usefixtures("both_engines"), pytest.mark.filterwarnings("ignore::ember.EmberWarning")]

CASES = Path(__file__).resolve().parent.parent.parent / "tests/mesh_cases"
# Cases that ask the system for more than the files of a folder. Of standard output as a device the others have none.
NEED_A_SYSTEM = {"a_folder_is_no_mesh", "a_refusal_as_an_object-7", "a_refusal_as_an_object-9"}

CUBE, BAR = box((0, 0, 0), (1, 1, 1)), box((0.25, 0.25, 0.25), (0.75, 0.75, 2))
OPERATIONS = ("union", "difference", "intersection", "m1^m2", "odd(w1+w2)")
NAN, FAR = CUBE[0].copy(), CUBE[0] * 1e15
NAN[5, 1] = np.nan
PAIRS = {
    "boxes": [CUBE, BAR],
    "the same twice": [CUBE, CUBE],
    "boxes that touch": [CUBE, box((1, 0, 0), (2, 1, 1))],
    "boxes that share an edge": [CUBE, box((1, 1, 0), (2, 2, 1))],
    "boxes apart": [CUBE, box((9, 9, 9), (10, 10, 10))],
    "a sliver": [CUBE, tetra([[0, 0, 0], [1, 1, 1e-3], [1, 0, 1], [0.5, 0.4, 0.3]])],
    "inside out": [CUBE, (BAR[0], BAR[1][:, ::-1])],
    "far away": [(CUBE[0] + 2.0**24 + 0.5, CUBE[1]), (BAR[0] + 2.0**24 + 0.5, BAR[1])],
    "crosses itself": [(np.vstack([CUBE[0], BAR[0]]), np.vstack([CUBE[1], BAR[1] + 8])), BAR],
    "files": [EXAMPLES / "plate.stl", EXAMPLES / "label.stl"],
    "bytes": [(EXAMPLES / "cube.obj").read_bytes(), (EXAMPLES / "wedge.obj").read_bytes()],
    "a file and arrays": [EXAMPLES / "cube.obj", (BAR[0] * 20, BAR[1])],
}
OPTIONS = [{"step": "finest"}, {"step": 0.1}, {"digits": 0}, {"digits": 17}, {"exact": True}, {"sources": True, "exact": True}]
FAULTS = {
    "no meshes": ([], "m1", {}),
    "65 meshes": ([CUBE] * 65, "m1", {}),
    "64 meshes": ([CUBE] * 64, "union", {}),
    "a hole": ([BAR, (CUBE[0], CUBE[1][1:])], "union", {}),
    "a coordinate that is no number": ([BAR, (NAN, CUBE[1])], "union", {}),
    "coordinates that are too large": ([(FAR, CUBE[1])], "union", {}),
    "no triangles": ([CUBE, (CUBE[0], np.zeros((0, 3), int))], "union", {}),
    "no vertices": ([CUBE, (np.zeros((0, 3)), np.zeros((0, 3), int))], "union", {}),
    "no expression": ([CUBE, BAR], "", {}),
    "half an expression": ([CUBE, BAR], "m1&", {}),
    "an expression of other meshes": ([CUBE, BAR], "m1&m3", {}),
    "an expression that isn't ASCII": ([CUBE, BAR], "m1&ä", {}),
    "an expression that is no text": ([CUBE, BAR], "m1&\udcff", {}),
    "an expression that holds outside": ([CUBE, BAR], "!m1", {}),
    "a step that is too small": ([CUBE, BAR], "union", {"step": "0.0001"}),
    "no step": ([CUBE, BAR], "union", {"step": ""}),
    "a step of 0": ([CUBE, BAR], "union", {"step": 0}),
    "a step that is no number": ([CUBE, BAR], "union", {"step": "0,1"}),
    "a step without a grid": ([CUBE, BAR], "union", {"step": "1e400"}),
    "too many digits": ([CUBE, BAR], "union", {"digits": 18}),
    "digits below 0": ([CUBE, BAR], "union", {"digits": -1}),
    "digits that are no number": ([CUBE, BAR], "union", {"digits": True}),
    "no workers": ([CUBE, BAR], "union", {"workers": 0}),
    "no mesh": ([CUBE, b"no mesh"], "union", {}),
}


def outcome(*arguments, **options):
    """What is to be the same: all of a result, or of an error."""
    try:
        found = ember.boolean(*arguments, **options)
    except ember.EmberError as error:
        return type(error), error.status, str(error), error.mesh, error.place
    arrays = [found.vertices, found.faces, *([] if found.sources is None else [found.sources]), *(found.exact or [])]
    numbers = [found.step, found.offset, found.moves, found.volumes, found.rounding_move, found.faces_before, found.planes]
    return found.report, [it.tolist() for it in arrays], numbers, found.vanished, found.flat, found.turned, found.is_manifold


def of_both(*arguments, **options):
    """What both engines give. It must be the same."""
    one, other = (outcome(*arguments, engine=it, **options) for it in ("program", "library"))
    assert one == other
    return one




@pytest.mark.parametrize("meshes", PAIRS.values(), ids=PAIRS)
@pytest.mark.parametrize("operation", OPERATIONS)
@pytest.mark.parametrize("sources", [False, True], ids=["", "sources"])
def test_solids(meshes, operation, sources):
    assert isinstance(of_both(meshes, operation, sources=sources)[0], str)


@pytest.mark.parametrize("options", OPTIONS, ids=str)
def test_options(options):
    for meshes in (PAIRS["boxes"], PAIRS["a sliver"]):
        assert isinstance(of_both(meshes, "difference", **options)[0], str)


@pytest.mark.parametrize(("meshes", "operation", "options"), FAULTS.values(), ids=FAULTS)
def test_faults(meshes, operation, options):
    of_both(meshes, operation, **options)


def test_random_tetrahedra():
    random = np.random.default_rng(7)
    for _ in range(40):
        meshes = [random_tetra(random) for _ in range(random.integers(2, 5))]
        operation, step = "w1+w2=1" if random.integers(2) else "union", int(random.integers(1, 3))
        # With one digit some vertices were several exact corners.
        for digits in (None, 1):
            of_both(meshes, operation, step=step, digits=digits, sources=True)


def test_a_pinched_edge():
    """The triangles there are halved, and have the source of the whole one."""
    case = CASES / "a_ring_that_is_pinched_along_an_edge/files"
    meshes = [ember.union(case / f"{it}.obj", engine="program") for it in "abcd"]
    assert "2-manifold" not in of_both(meshes, "union", sources=True)[0]


@pytest.mark.parametrize("ending", ["stl", "obj", "ply", "off", "glb"])
def test_exports(ending):
    one, other = (ember.difference(CUBE, BAR, engine=it).export(ending) for it in ("program", "library"))
    assert one == other


def test_info():
    words = ["info", "1.ply", "2.ply", "none.ply"]
    files = {f"{number + 1}.ply": ember.union(it, engine="program").export("ply") for number, it in enumerate((CUBE, BAR))}
    for count in (2, 3, 4):
        one, other = (ember.command(words[:count], files, engine=it) for it in ("program", "library"))
        assert one == other


def words_of(case):
    """The words of a case: there a character is a byte."""
    return [os.fsdecode(it.encode("latin-1")) for it in json.loads((case / "words.json").read_text())]


@pytest.mark.parametrize("name", sorted(it.name for it in CASES.iterdir() if it.name not in NEED_A_SYSTEM) if CASES.is_dir() else [])
def test_cases_of_the_program(name):
    case = CASES / name
    if (case / "stdin").exists() or (case / "out_is").exists():
        pytest.skip("standard input, or a device as standard output")
    files = {str(it.relative_to(case / "files")): it.read_bytes() for it in (case / "files").rglob("*") if it.is_file()}
    one, other = (ember.command(words_of(case), files, engine=it) for it in ("program", "library"))
    assert one == other
