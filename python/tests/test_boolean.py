"""The solids of `boolean`, and what it says of them."""
import math
import warnings
from decimal import Decimal
from fractions import Fraction

import numpy as np
import pytest

import ember
from scenes import EXAMPLES, box, volume

A, B = box((0, 0, 0), (1, 1, 1)), box((0.25, 0.25, 0.25), (0.75, 0.75, 2))


@pytest.mark.parametrize(
    ("operation", "wanted"),
    [
        ("union", 1.25), ("difference", 0.8125), ("intersection", 0.1875), ("m1|m2", 1.25), ("m2&!m1", 0.25), ("m1^m2", 1.0625),
        ("w1+w2=2", 0.1875), ("odd(w1+w2)", 1.0625),
    ],
)  # fmt: skip
def test_volumes(engine, operation, wanted):
    found = ember.boolean([A, B], operation, engine=engine)
    assert volume(found) == pytest.approx(wanted, rel=1e-12)
    assert found.is_manifold


def test_the_named_operations(engine):
    assert volume(ember.union(A, B, engine=engine)) == pytest.approx(1.25)
    assert volume(ember.difference(A, B, engine=engine)) == pytest.approx(0.8125)
    assert volume(ember.intersection(A, B, engine=engine)) == pytest.approx(0.1875)
    assert volume(ember.difference(box((0, 0, 0), (4, 1, 1)), A, box((3, 0, 0), (4, 1, 1)), engine=engine)) == pytest.approx(2)


def test_results_are_arrays_that_nobody_writes(engine):
    found = ember.union(A, B, engine=engine)
    assert (found.vertices.dtype, found.faces.dtype) == (np.float64, np.uint32)
    assert found.vertices.shape[1:] == found.faces.shape[1:] == (3,)
    for array in (found.vertices, found.faces):
        with pytest.raises(ValueError):
            array[0, 0] = 0


def test_the_report_has_its_numbers(engine):
    tag = ember.difference(EXAMPLES / "plate.stl", EXAMPLES / "label.stl", engine=engine)
    assert (tag.step, tag.offset) == (Decimal("0.01"), (2000, 1000, 150))
    assert (tag.moves, tag.volumes) == ([0, 0.00595867425], [2400, 331.62])
    assert (tag.faces_before, len(tag.faces), tag.planes) == (766, 272, 61)
    assert (tag.rounding_move, tag.vanished, tag.flat, tag.turned) == (0, 0, 0, 0)
    assert tag.report.startswith("step 0.01, grid offset 2000 1000 150\n")
    assert repr(tag) == "<ember.Result of 272 triangles>"
    assert tag.sources is tag.exact is None


def test_an_empty_result_is_a_result(engine):
    found = ember.difference(A, A, engine=engine)
    assert (found.vertices.shape, found.faces.shape) == ((0, 3), (0, 3))
    assert found.is_manifold
    assert "the result is empty" in found.report


@pytest.mark.parametrize(
    "step", ["0.1", 0.1, np.float64(0.1), np.float32(0.1), Decimal("0.1"), Decimal("1e-1"), Fraction(1, 10)], ids=lambda it: f"{type(it).__name__}"
)
def test_a_step_is_the_decimal_that_it_looks_like(engine, step):
    assert ember.union(A, B, step=step, engine=engine).step == Decimal("0.1")


@pytest.mark.parametrize(("step", "wanted"), [(1, "1"), (np.int64(1), "1"), (1e-3, "0.001"), (Fraction(1, 8), "0.125"), ("nice", "0.0005"), ("finest", "0.0004885")])
def test_steps(engine, step, wanted):
    assert ember.union(A, B, step=step, engine=engine).step == Decimal(wanted)


def test_digits_are_decimal_places(engine):
    third = box((0, 0, 0), (3, 3, 3)), (np.array([[0, 0, 0], [9, 0, 0], [0, 1, 0], [0, 0, 9.0]]), np.array([[0, 2, 1], [0, 1, 3], [0, 3, 2], [1, 2, 3]]))
    found = ember.intersection(*third, step=1, digits=2, engine=engine)
    assert {round(it, 9) for it in found.vertices.ravel().tolist()} >= {0.67}
    assert np.allclose(found.vertices, np.round(found.vertices, 2), atol=0)


def test_workers_change_nothing(engine):
    one, four = (ember.union(A, B, workers=it, engine=engine) for it in (1, 4))
    assert (one.vertices == four.vertices).all() and (one.faces == four.faces).all()


def test_volumes_of_meshes(engine):
    """They are those on the grid: a shell that is there twice counts twice, and corners have moved."""
    twice = np.vstack([A[0], B[0]]), np.vstack([A[1], B[1] + 8])
    found = ember.union(A, twice, (A[0] * 1.04, A[1]), step="0.1", engine=engine)
    assert found.volumes == pytest.approx([1, 1 + 0.5 * 0.5 * 1.7, 1], abs=1e-12)
    assert math.isnan(ember.union((A[0] * 1e8, A[1]), engine=engine).volumes[0])


def test_a_mesh_that_is_inside_out(engine):
    said = r"^mesh 2: its volume is -0\.4375, so it may be inside out; use w2=-1$"
    inside_out = B[0], B[1][:, ::-1]
    with pytest.warns(ember.EmberWarning, match=said) as warned:
        found = ember.difference(A, inside_out, engine=engine)
    assert len(warned) == 1 and warned[0].filename == __file__
    assert found.volumes == [1, -0.4375] and volume(found) == 1
    with warnings.catch_warnings():
        warnings.simplefilter("error")
        found.export("stl")
    with pytest.warns(ember.EmberWarning, match=said):
        assert volume(ember.boolean([A, inside_out], "m1&!(w2=-1)", engine=engine)) == pytest.approx(0.8125)


def test_a_format_that_rounds_corners_far(engine):
    far = A[0] + 2.0**24 + 0.5, A[1]
    found = ember.union(far, engine=engine)
    assert volume((found.vertices - 2.0**24, found.faces)) == 1
    with pytest.warns(ember.EmberWarning, match="^rounding for STL moves corners by up to 0") as warned:
        found.export("stl")
    assert len(warned) == 1 and warned[0].filename == __file__


def test_info(engine):
    plate, cube, hole = ember.info(EXAMPLES / "plate.stl", A, (A[0], A[1][1:]))
    assert (plate["triangles"], plate["volume"], plate["to"]) == (12, 2400, [40, 20, 3])
    assert (cube["file"], cube["volume"], cube["loose edges"]) == ("mesh 2", pytest.approx(1), 0)
    assert (hole["file"], hole["triangles"], hole["loose edges"]) == ("mesh 3", 11, 3)
