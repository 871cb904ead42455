"""Exact corners and sources of triangles, compared with what is known or computed in fractions."""
from fractions import Fraction

import numpy as np
import pytest

import ember
from scenes import EXAMPLES, box, dot, exact_points, grid_points, is_inside, normal_of, random_tetra

OUTER, DRILL = box((0, 0, 0), (4, 4, 4)), box((1, 1, -1), (2, 2, 5))


def faults_of_exact(result):
    """Vertices that aren't their exact corners rounded to the result's decimal places, nine of them."""
    step = Fraction(result.step)
    for vertex, point in zip(result.vertices.tolist(), exact_points(result)):
        exact = [(it + middle) * step for it, middle in zip(point, result.offset)]
        if any(abs(Fraction(it) - p) > Fraction(1, 10**9) for it, p in zip(vertex, exact)):
            yield vertex, exact


def faults_of_sources(result, meshes):
    """Triangles of which the middle isn't in their source, as the source says. It must be there if the source is the only one."""
    points = exact_points(result)
    corners = [[[grid[it] for it in face] for face in faces.tolist()] for (vertices, faces) in meshes for grid in [grid_points(vertices, result)]]
    for triangle, (mesh, number, turned, several) in zip(result.faces.tolist(), result.sources.tolist()):
        found = [points[it] for it in triangle]
        if mesh < 0:
            yield "no source", triangle
            continue
        source = corners[mesh][number]
        middle = tuple(sum(it) / 3 for it in zip(*found))
        faces_away = dot(normal_of(found), normal_of(source)) < 0
        holders = [(m, n) for m, of_mesh in enumerate(corners) for n, it in enumerate(of_mesh) if is_inside(middle, it)]
        if faces_away != turned or any(dot(normal_of(source), tuple(p - q for p, q in zip(it, source[0]))) for it in found):
            yield "another plane, or another way round", triangle
        if not several and holders not in ([(mesh, number)], []):
            yield holders, triangle
        if several and holders and min(holders) < (mesh, number):
            yield holders, triangle


def with_both(meshes, operation, **options):
    """A result with sources and exact corners, each as the engine gives it where the other isn't wanted."""
    result = ember.boolean(meshes, operation, sources=True, **options)
    result.exact = ember.boolean(meshes, operation, exact=True, **options).exact
    return result


def test_a_drill(engine):
    result = with_both([OUTER, DRILL], "difference", step="0.01", engine=engine)
    sources = result.sources
    assert sources.shape == (len(result.faces),) and sources.dtype.names == ("mesh", "triangle", "turned", "several")
    centres = result.vertices[result.faces].mean(axis=1)
    by_drill = ((centres > 0) & (centres < 4)).all(axis=1)
    assert (sources["mesh"] == by_drill).all() and (sources["turned"] == by_drill).all()
    assert not list(faults_of_sources(result, [OUTER, DRILL])) and not list(faults_of_exact(result))


def test_meshes_in_one_plane(engine):
    """Of two triangles in one place the first counts, and `several` says so."""
    first, second = box((0, 0, 0), (2, 2, 2)), box((0, 0, 0), (2, 2, 3))
    result = ember.union(first, second, sources=True, engine=engine)
    bottom = (result.vertices[result.faces][:, :, 2] == 0).all(axis=1)
    assert (result.sources["mesh"][bottom] == 0).all() and result.sources["several"][bottom].all()
    top = (result.vertices[result.faces][:, :, 2] == 3).all(axis=1)
    assert (result.sources["mesh"][top] == 1).all() and not result.sources["turned"].any()


@pytest.mark.parametrize("seed", range(8))
def test_random_tetrahedra(engine, seed):
    random = np.random.default_rng(seed)
    meshes = [random_tetra(random) for _ in range(3)]
    for operation in ("m1|m2|m3", "m1&!m2|m3", "m1^m2^m3"):
        result = with_both(meshes, operation, step=1, digits=17, engine=engine)
        assert not list(faults_of_exact(result))
        assert not list(faults_of_sources(result, meshes))


def test_the_formula_for_exact_corners(engine):
    """A vertex is the double that is nearest to the decimal to which it was rounded, of the corner that docs/use/PYTHON.md gives."""
    random = np.random.default_rng(7)
    result = ember.union(*(random_tetra(random) for _ in range(3)), step="0.1", exact=True, engine=engine)
    *places, w = result.exact
    for i, vertex in enumerate(result.vertices.tolist()):
        exact = [Fraction(result.step) * (Fraction(x[i], w[i]) + middle) for x, middle in zip(places, result.offset)]
        assert vertex == [float(round(it, 7)) for it in exact]
    assert max(w) > 1


def test_few_digits(engine):
    """Corners are found again where rounding is coarse."""
    random = np.random.default_rng(99)
    meshes = [random_tetra(random) for _ in range(3)]
    result = with_both(meshes, "union", step=1, digits=1, engine=engine)
    for vertex, point in zip(result.vertices.tolist(), exact_points(result)):
        assert all(abs(Fraction(it) - p - middle) <= Fraction(51, 1000) for it, p, middle in zip(vertex, point, result.offset))
    assert (result.sources["mesh"] >= 0).all()


def test_triangles_that_vanish_keep_their_numbers(engine):
    """Numbers count all triangles of the input, also those that the grid swallows: here the first and the third."""
    vertices = np.vstack([OUTER[0], [[0.001, 0, 0]]])
    whole = [it for it in OUTER[1].tolist() if not {0, 1} <= set(it)]
    faces = np.array([[0, 2, 8], [8, 2, 1], [0, 8, 4], [8, 1, 4], *whole])
    result = with_both([(vertices, faces)], "union", step=1, engine=engine)
    assert "14 triangles, 2 vanished" in result.report
    assert not {0, 2} & set(result.sources["triangle"].tolist())
    assert not list(faults_of_sources(result, [(np.round(vertices), faces)]))


def test_triangles_of_a_file_that_vanish(engine):
    thin = box((0, 0, 0), (4, 4, 0.001))
    file = ember.union(thin, engine=engine).export("stl")
    with pytest.raises(ember.UsageError, match="mesh 2: triangles vanish on the grid") as caught:
        ember.union(OUTER, file, step=1, sources=True, engine=engine)
    assert caught.value.mesh == 1


def test_a_pinched_edge(engine):
    """Triangles that ember halves have the middles of exact edges."""
    case = EXAMPLES.parent / "tests/mesh_cases/a_ring_that_is_pinched_along_an_edge/files"
    result = ember.union(*(case / f"{it}.obj" for it in "abcd"), sources=True, exact=True, engine=engine)
    assert len(result.faces) == 48 and result.is_manifold
    assert not list(faults_of_exact(result))
    assert (result.sources["mesh"] >= 0).all()


def test_an_empty_result(engine):
    result = with_both([OUTER, OUTER], "difference", engine=engine)
    assert result.sources.shape == (0,) and [it.shape for it in result.exact] == [(0,)] * 4


def test_files_have_sources(engine):
    result = ember.difference(EXAMPLES / "plate.stl", EXAMPLES / "label.stl", sources=True, engine=engine)
    upper = (result.vertices[result.faces][:, :, 2] == 3).all(axis=1)
    assert (result.sources["mesh"][upper] == 0).all()
    assert set(result.sources["mesh"].tolist()) == {0, 1}
    assert (result.sources["turned"] == (result.sources["mesh"] == 1)).all()
