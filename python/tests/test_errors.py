"""What is raised where there is no result: each status once."""
import os
import pickle
from decimal import Decimal
from fractions import Fraction

import numpy as np
import pytest

import ember
from scenes import box

A, B = box((0, 0, 0), (1, 1, 1)), box((0.25, 0.25, 0.25), (0.75, 0.75, 2))


def caught(kind, *arguments, **options):
    with pytest.raises(kind) as found:
        ember.boolean(*arguments, **options)
    assert type(found.value) is kind
    return found.value


@pytest.mark.parametrize(
    ("options", "said"),
    [
        ({"step": "0"}, "--step 0: not a number above 0"),
        ({"step": float("nan")}, "--step NaN: not a number above 0"),
        ({"step": -1}, "--step -1: not a number above 0"),
        ({"step": "0,1"}, "--step 0,1: not a number above 0"),
        ({"step": Fraction(1, 3)}, "--step 1/3: isn't a decimal number"),
        ({"workers": 65}, "--workers: not a number from 1 to 64"),
        ({"workers": 0}, "--workers: not a number from 1 to 64"),
        ({"digits": 18}, "--digits: not a number from 0 to 17"),
        ({"digits": -1}, "--digits: not a number from 0 to 17"),
    ],
    ids=str,
)  # fmt: skip
def test_options(engine, options, said):
    error = caught(ember.UsageError, [A, B], engine=engine, **options)
    assert str(error).startswith(said)
    assert (error.status, error.mesh, error.place) == (2, None, None)
    assert isinstance(error, ValueError)


def test_numbers_of_meshes(engine):
    assert "no files" in str(caught(ember.UsageError, [], engine=engine))
    assert "more than 64 files" in str(caught(ember.UsageError, [A] * 65, engine=engine))


def test_zero_bytes(engine):
    assert "zero byte" in str(caught(ember.UsageError, [A, B], "m1&\0", engine=engine))
    assert "zero byte" in str(caught(ember.UsageError, [A, "a\0.stl"], engine=engine))


def test_options_of_other_types():
    for options in ({"step": True}, {"step": None}, {"operation": 3}):
        with pytest.raises(TypeError):
            ember.boolean([A, B], **options)


def test_a_file_that_is_not_there(engine, tmp_path):
    error = caught(ember.InputError, [A, tmp_path / "none.stl"], engine=engine)
    assert str(error) == f"{tmp_path}/none.stl: cannot be read (No such file or directory)"
    assert (error.status, error.mesh, error.place) == (3, 1, None)


def test_a_folder_and_a_file_that_nobody_may_read(engine, tmp_path):
    error = caught(ember.InputError, [tmp_path, A], engine=engine)
    assert (str(error), error.status, error.mesh) == (f"{tmp_path}: cannot be read (Is a directory)", 3, 0)
    locked = tmp_path / "locked.stl"
    locked.write_bytes(b"solid")
    locked.chmod(0)
    if os.access(locked, os.R_OK):
        pytest.skip("this user may read every file")
    error = caught(ember.InputError, [A, locked], engine=engine)
    assert (str(error), error.status, error.mesh) == (f"{locked}: cannot be read (Permission denied)", 3, 1)


@pytest.mark.parametrize(
    ("data", "said"),
    [
        (b"PK\3\4 and more", "3MF and other zip archives aren't read; export as STL, OBJ, PLY or OFF"),
        (b"glTF\2\0\0\0", "GLB is cut off; export anew"),
        (b"\x1f\x8b\x08 and more", "gzip isn't read; unpack the file"),
        (b"<!DOCTYPE html>", "an HTML page and no mesh; download the mesh itself"),
    ],
    ids=str,
)  # fmt: skip
def test_formats_that_are_not_read(engine, data, said):
    error = caught(ember.InputError, [A, data], engine=engine)
    assert (str(error), error.status, error.mesh, error.place) == (f"mesh 2: {said}", 5, 1, None)


def test_a_line_of_a_file(engine):
    error = caught(ember.InputError, [b"v 0 0 0\nv 0 nan 0\nf 1 2 2\n"], engine=engine)
    assert str(error) == "mesh 1: line 2: coordinate 'nan' is not a number; export anew"
    assert (error.status, error.mesh, error.place) == (5, 0, 1)


@pytest.mark.parametrize(("place", "said"), [(np.nan, "coordinate is not a finite number"), (-np.inf, "coordinate is not a finite number")])
@pytest.mark.parametrize("axis", range(3))
def test_coordinates_that_are_no_numbers(engine, place, said, axis):
    vertices = A[0].copy()
    vertices[5, axis] = place
    error = caught(ember.InputError, [B, (vertices, A[1])], engine=engine)
    assert str(error) == f"mesh 2: vertex 6: {said}; export anew"
    assert (error.status, error.mesh, error.place) == (5, 1, 5)


def test_coordinates_that_are_too_large(engine):
    vertices = A[0] * 1e15
    error = caught(ember.InputError, [(vertices, A[1])], engine=engine)
    assert str(error) == "mesh 1: face 1: a coordinate of 1e15 or more; export in another unit"
    assert (error.status, error.mesh, error.place) == (5, 0, 0)
    fits = np.where(vertices < 1e15, vertices, np.nextafter(1e15, 0))
    assert len(ember.union((fits, A[1]), engine=engine).faces) == 12


def test_meshes_without_triangles(engine):
    for mesh in (b"", b"no mesh"):
        error = caught(ember.InputError, [A, mesh], engine=engine)
        assert (error.status, error.mesh) == (5, 1)
        assert str(error) == "mesh 2: no triangles in it; is it a mesh?"
    for mesh in ((A[0], np.zeros((0, 3), int)), (np.zeros((0, 3)), np.zeros((0, 3), int))):
        assert len(ember.union(A, mesh, engine=engine).faces) == 12
        error = caught(ember.InputError, [mesh], engine=engine)
        assert (error.status, str(error)) == (5, "no triangles in the files; are they meshes?")


def test_a_mesh_that_is_open(engine):
    error = caught(ember.NotClosedError, [B, (A[0], A[1][1:])], engine=engine)
    assert str(error).startswith("mesh 2: not closed: 3 loose edges, the first from (")
    assert error.status == 6 and error.mesh == 1
    assert isinstance(error, ember.InputError) and isinstance(error, ValueError)
    ends = {tuple(it) for it in A[0][A[1][0]]}
    assert set(error.edge) < ends
    assert {tuple(A[0][it]) for it in A[1][1:][error.place]} > set(error.edge)


def test_expressions(engine):
    for expression, status, at in (("m1&", 7, 3), ("", 7, 0), ("m1&m3", 7, None), ("w1>=1000001", 7, 4), ("!m1", 8, None)):
        error = caught(ember.ExpressionError, [A, B], expression, engine=engine)
        assert (error.status, error.at) == (status, at), (expression, str(error))
        assert isinstance(error, ValueError)


def test_words_that_are_no_operation(engine):
    """The line names those that are."""
    for word in ("subtract", "Union", "union ", ""):
        error = caught(ember.ExpressionError, [A, B], word, engine=engine)
        assert (error.status, error.at, error.mesh) == (7, 0, None)
        assert str(error) == "expression: syntax at 0; give 'union', 'difference', 'intersection' or an expression such as 'm1&!m2'"
    assert str(caught(ember.ExpressionError, [A, B], "m1&", engine=engine)) == "expression: syntax at 3"


def test_too_many_triangles(engine):
    vertices = np.tile([[0, 0, 0], [1, 0, 0], [0, 1, 0], [0, 0, 1.0]], (65537, 1))
    faces = (np.array([[0, 2, 1], [0, 1, 3], [0, 3, 2], [1, 2, 3]]) + 4 * np.arange(65537)[:, None, None]).reshape(-1, 3)
    error = caught(ember.LimitError, [(vertices, faces)], engine=engine)
    assert (error.status, str(error)) == (9, "262148 triangles after snapping, more than 262144; simplify the meshes")
    assert isinstance(error, OverflowError) and error.least_step is None


def test_a_step_that_is_too_small(engine):
    error = caught(ember.LimitError, [A, B], step="0.0001", engine=engine)
    assert (error.status, error.least_step) == (10, Decimal("0.0004885"))
    assert ember.union(A, B, step=error.least_step, engine=engine).step == error.least_step


def test_a_name_that_is_no_text(engine, tmp_path):
    error = caught(ember.UsageError, [os.fsencode(tmp_path).decode() + "/\udcff.stl"], engine=engine)
    assert (error.status, str(error)) == (13, "a name isn't UTF-8; rename the file")


@pytest.mark.parametrize(
    ("status", "line", "kind", "other"),
    [
        (12, "ember-mesh: out of memory", ember.OutOfMemory, MemoryError),
        (12, "", ember.OutOfMemory, MemoryError),
        (14, "ember-mesh: triangles of plane 3 not found", ember.Uncertified, RuntimeError),
        (9, "ember-mesh: a corner of the result is 10^21 or more from 0; move the meshes to the origin", ember.LimitError, OverflowError),
        (4, "ember-mesh: cannot write out.off", ember.EmberError, Exception),
        (77, "", ember.EmberError, Exception),
    ],
)  # fmt: skip
def test_statuses_that_seldom_come(false_program, status, line, kind, other):
    false_program(f"echo '{line}' >&2; exit {status}")
    error = caught(kind, [A, B], engine="program")
    assert error.status == status and isinstance(error, other)
    assert str(error).startswith(line.partition(": ")[2]) and str(error)


def test_a_fault_of_ember_asks_for_a_report(false_program):
    false_program("exit 14")
    assert "please report it with the meshes" in str(caught(ember.Uncertified, [A, B], engine="program"))


def test_errors_go_from_process_to_process():
    error = pickle.loads(pickle.dumps(ember.NotClosedError(6, "mesh 1: not closed", 0, 3)))
    assert (type(error), error.status, str(error), error.mesh, error.place, error.edge) == (ember.NotClosedError, 6, "mesh 1: not closed", 0, 3, None)
