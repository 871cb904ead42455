"""ember as an engine of trimesh, over the real package where it is there, and over one that has its table alone."""
import sys
from types import ModuleType, SimpleNamespace

import pytest

import ember
from scenes import box, volume

A, B = box((0, 0, 0), (1, 1, 1)), box((0.25, 0.25, 0.25), (0.75, 0.75, 2))


def test_trimesh(engine):
    trimesh = pytest.importorskip("trimesh")
    ember.install_in_trimesh()
    a, b = (trimesh.Trimesh(*it, process=False) for it in (A, B))
    found = a.difference(b, engine="ember", check_volume=False)
    assert isinstance(found, trimesh.Trimesh) and found.volume == pytest.approx(0.8125)
    assert trimesh.boolean.union([a, b], engine="ember", step="0.1").volume == pytest.approx(1.3056)


@pytest.fixture
def table(monkeypatch):
    """Puts a package into the place of trimesh that has the table and the type of meshes, as ember uses them."""
    package = ModuleType("trimesh")
    package.__version__ = "0"
    package.Trimesh = lambda vertices, faces, process: SimpleNamespace(vertices=vertices, faces=faces, process=process)
    package.boolean = SimpleNamespace(_engines={})
    monkeypatch.setitem(sys.modules, "trimesh", package)
    return package.boolean


def test_the_table_of_engines(engine, table):
    ember.install_in_trimesh("exact")
    meshes = [SimpleNamespace(vertices=vertices, faces=faces) for vertices, faces in (A, B)]
    found = table._engines["exact"](meshes, operation="difference", check_volume=False, step="0.05")
    assert volume(found) == pytest.approx(0.8125) and found.process is False


def test_a_trimesh_without_a_table(table):
    del table._engines
    with pytest.raises(ImportError, match="has no table of engines that ember knows"):
        ember.install_in_trimesh()


def test_no_trimesh(monkeypatch):
    monkeypatch.setitem(sys.modules, "trimesh", None)
    with pytest.raises(ImportError):
        ember.install_in_trimesh()
