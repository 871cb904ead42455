"""What the tests have in common. EMBER_MESH and EMBER_LIBRARY name the engines, unless the package has them."""
import os
import signal
import stat

import pytest

from ember import library, program

ENGINES = {"program": program.found, "library": library.found}


@pytest.fixture(params=ENGINES)
def engine(request):
    """Each engine that is there."""
    if ENGINES[request.param]() is None:
        pytest.skip(f"the engine {request.param} isn't there")
    return request.param

# Where the tests are started in the background, SIGINT is ignored, and none of them could be interrupted.
signal.signal(signal.SIGINT, signal.default_int_handler)


@pytest.fixture
def both_engines():
    """Both engines, where both are there."""
    lacking = [name for name, found in ENGINES.items() if found() is None]
    if lacking:
        pytest.skip(f"the engine {', '.join(lacking)} isn't there")
    return list(ENGINES)


@pytest.fixture
def false_program(tmp_path, monkeypatch):
    """Puts a script of the shell in the place of ember-mesh."""

    def put(script):
        path = tmp_path / "false-ember-mesh"
        path.write_text(f"#!/bin/sh\n{script}\n")
        path.chmod(path.stat().st_mode | stat.S_IXUSR)
        monkeypatch.setenv("EMBER_MESH", str(path))
        return path

    return put


@pytest.fixture
def room(tmp_path, monkeypatch):
    """The folder in which calls make theirs. It is empty before and after."""
    folder = tmp_path / "room"
    folder.mkdir()
    monkeypatch.setattr("tempfile.tempdir", str(folder))
    yield folder
    assert not os.listdir(folder)
