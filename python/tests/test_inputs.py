"""Whatever counts as a mesh, and what doesn't."""
import os
from types import SimpleNamespace

import numpy as np
import pytest

import ember
from scenes import BOX_FACES, EXAMPLES, box, volume

VERTICES, FACES = box((0, 0, 0), (2, 1, 1))


def is_the_box(mesh, engine="auto"):
    return volume(ember.union(mesh, engine=engine)) == 2


@pytest.mark.parametrize("kind", ["f2", "f4", "f8", ">f4", ">f8", "i1", "i2", "i4", "i8", "u1", "u2", "u4", "u8"])
def test_types_of_vertices(engine, kind):
    assert is_the_box((VERTICES.astype(kind), FACES), engine)


@pytest.mark.parametrize("kind", ["i1", "i2", "i4", "i8", "u1", "u2", "u4", "u8", ">i4"])
def test_types_of_faces(engine, kind):
    assert is_the_box((VERTICES, FACES.astype(kind)), engine)


@pytest.mark.parametrize("kind", [np.longdouble, object, complex, bool, "U8"])
def test_types_of_vertices_that_are_refused(kind):
    with pytest.raises(TypeError, match="^mesh 1: vertices are of the type"):
        ember.union((VERTICES.astype(kind), FACES))


@pytest.mark.parametrize("kind", [float, object, bool])
def test_types_of_faces_that_are_refused(kind):
    with pytest.raises(TypeError, match="^mesh 1: faces are of the type"):
        ember.union((VERTICES, FACES.astype(kind)))


def test_arrays_in_any_order_of_memory(engine):
    wide = np.zeros((16, 6))
    wide[::2, ::2] = VERTICES
    assert is_the_box((wide[::2, ::2], FACES), engine)
    assert is_the_box((np.asfortranarray(VERTICES), np.asfortranarray(FACES)), engine)
    assert is_the_box((VERTICES[::-1], 7 - FACES), engine)


def test_arrays_that_nobody_may_write(engine):
    for array in (VERTICES, FACES):
        array.flags.writeable = False
    assert is_the_box((VERTICES, FACES), engine)


def test_lists(engine):
    assert is_the_box((VERTICES.tolist(), FACES.tolist()), engine)


def test_objects_of_other_packages(engine):
    assert is_the_box(SimpleNamespace(vertices=VERTICES, faces=FACES), engine)
    properties = np.hstack([VERTICES, np.ones((8, 3))]).astype("f4")
    assert is_the_box(SimpleNamespace(vert_properties=properties, tri_verts=FACES.astype("u4")), engine)
    assert is_the_box(ember.Mesh(VERTICES, FACES), engine)
    assert is_the_box(ember.union((VERTICES, FACES), engine=engine), engine)


def test_files(engine, tmp_path, monkeypatch):
    made = ember.union((VERTICES, FACES), engine=engine)
    made.export(tmp_path / "box.off")
    monkeypatch.chdir(tmp_path)
    for it in ("box.off", tmp_path / "box.off", os.fspath(tmp_path / "box.off"), (tmp_path / "box.off").read_bytes(), bytearray(made.export("stl"))):
        assert is_the_box(it, engine)


def test_a_name_of_a_file_with_any_letters(engine, tmp_path):
    path = tmp_path / "-a b 'ä\".stl"
    ember.union((VERTICES, FACES), engine=engine).export(path)
    assert is_the_box(path, engine)


def test_shapes_that_are_refused():
    for vertices, faces, said in (
        (VERTICES[:, :2], FACES, r"mesh 2: vertices have the shape \(8, 2\), and not \(n, 3\)"),
        (VERTICES.ravel(), FACES, r"vertices have the shape \(24,\)"),
        (VERTICES, BOX_FACES.reshape(-1, 4), r"mesh 2: faces have the shape \(9, 4\), and not \(m, 3\)"),
    ):
        with pytest.raises(ember.InputError, match=said) as caught:
            ember.union((VERTICES, FACES), (vertices, faces))
        assert caught.value.mesh == 1


@pytest.mark.parametrize("index", [-1, 8, 2**32, 2**32 + 1, -(2**32)])
def test_faces_that_name_no_vertex(index):
    faces = FACES.astype("i8")
    faces[3, 1] = index
    with pytest.raises(ember.InputError, match="^mesh 1: face 4: names a vertex that isn't there$") as caught:
        ember.union((VERTICES, faces))
    assert (caught.value.mesh, caught.value.place, caught.value.status) == (0, 3, 5)


@pytest.mark.parametrize("mesh", [None, 7, {"vertices": VERTICES}, (VERTICES,), VERTICES])
def test_what_is_no_mesh(mesh):
    with pytest.raises(TypeError, match="mesh 1 is a"):
        ember.union(mesh)


def test_a_list_in_the_place_of_meshes():
    """`union` takes its meshes one by one."""
    for meshes in ([(VERTICES, FACES), (VERTICES, FACES)], [ember.Mesh(VERTICES, FACES)] * 2):
        with pytest.raises(TypeError, match="^mesh 1: vertices are "):
            ember.union(meshes)


def test_a_mesh_has_copies():
    vertices, faces = VERTICES.copy(), FACES.copy()
    mesh = ember.Mesh(vertices, faces)
    vertices[0, 0], faces[0, 0] = 9, 7
    assert (mesh.vertices == VERTICES).all() and (mesh.faces == FACES).all()
    assert repr(mesh) == "<ember.Mesh of 12 triangles>"


def test_files_of_the_examples(engine):
    assert volume(ember.union(EXAMPLES / "plate.stl", engine=engine)) == 2400
