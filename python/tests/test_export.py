"""The files of results."""
import os
import warnings

import pytest

import ember
from scenes import EXAMPLES, box

PLATE, LABEL = EXAMPLES / "plate.stl", EXAMPLES / "label.stl"
FORMATS = ("stl", "obj", "ply", "off", "glb")


@pytest.mark.parametrize("ending", FORMATS)
def test_the_bytes_are_those_of_the_program(engine, ending, tmp_path):
    files = {"plate.stl": PLATE.read_bytes(), "label.stl": LABEL.read_bytes()}
    wanted = ember.command(["difference", "-o", f"tag.{ending}", "plate.stl", "label.stl"], files, engine=engine).files[f"tag.{ending}"]
    tag = ember.difference(PLATE, LABEL, engine=engine)
    assert tag.export(ending) == wanted
    assert tag.export(tmp_path / f"tag.{ending.upper()}") is None
    assert (tmp_path / f"tag.{ending.upper()}").read_bytes() == wanted


def test_digits(engine):
    """Few digits are no warning."""
    with warnings.catch_warnings():
        warnings.simplefilter("error")
        lines = ember.difference(PLATE, LABEL, digits=1, engine=engine).export("off").splitlines()
    assert b"3.6 8.6 3" in lines


def test_paths_that_are_refused(engine, tmp_path):
    tag = ember.union(box((0, 0, 0), (1, 1, 1)), engine=engine)
    with pytest.raises(ember.UsageError, match="the name must end in"):
        tag.export(tmp_path / "tag.step")
    with pytest.raises(FileNotFoundError):
        tag.export(tmp_path / "none/tag.stl")


def test_a_file_that_was_changed(engine, tmp_path):
    path = tmp_path / "plate.stl"
    path.write_bytes(PLATE.read_bytes())
    tag = ember.difference(path, LABEL, engine=engine)
    os.utime(path, (1, 1))
    with pytest.raises(ember.InputError, match="has changed since the result was computed"):
        tag.export("stl")


def test_names_that_end_alike(engine, monkeypatch, tmp_path):
    """`export("stl")` gives bytes also where a file has this name."""
    monkeypatch.chdir(tmp_path)
    (tmp_path / "stl").write_bytes(b"")
    assert ember.union(PLATE, engine=engine).export("stl")
    assert (tmp_path / "stl").read_bytes() == b""
