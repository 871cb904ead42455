"""How an engine is chosen, started and stopped."""
import os
import shutil
import signal
import subprocess
import sys
import threading
import time
from pathlib import Path

import numpy as np
import pytest

import ember
from ember import engines, library, processor, program
from scenes import EXAMPLES, box

A, B = box((0, 0, 0), (1, 1, 1)), box((0.25, 0.25, 0.25), (0.75, 0.75, 2))
CHOICES = [
    # has the program, has the library, triangles, timeout, words name whole paths, which is taken
    (True, True, 20_000, None, False, "library"),
    (True, True, 20_001, None, False, "program"),
    (True, True, 1, 5, False, "program"),
    (True, True, 1, None, True, "program"),
    (True, False, 1, None, False, "program"),
    (False, True, 99_999, None, False, "library"),
    (False, True, 1, None, True, "library"),
]


@pytest.mark.parametrize(("has_program", "has_library", "triangles", "timeout", "names_paths", "taken"), CHOICES)
def test_auto(monkeypatch, has_program, has_library, triangles, timeout, names_paths, taken):
    monkeypatch.setattr(program, "found", lambda: "there" if has_program else None)
    monkeypatch.setattr(library, "found", lambda: "there" if has_library else None)
    monkeypatch.setattr(program, "run", lambda *_: (0, b"program", b"", {}))
    monkeypatch.setattr(library, "run", lambda *_: (0, b"library", b"", {}))
    assert engines.chosen("auto", triangles, timeout, names_paths=names_paths) == taken
    found = engines.run([], {}, engine="auto", triangles=triangles, timeout=timeout, names_paths=names_paths)
    assert found.out.decode() == taken


def test_no_engine_is_there(monkeypatch):
    monkeypatch.setattr(program, "found", lambda: None)
    monkeypatch.setattr(library, "found", lambda: None)
    for engine, said in (("auto", "no engine"), ("program", "EMBER_MESH"), ("library", "EMBER_LIBRARY")):
        with pytest.raises(FileNotFoundError, match=said):
            ember.union(A, engine=engine)


def test_engines_that_are_refused():
    with pytest.raises(ember.UsageError, match="is none of auto, program, library"):
        ember.union(A, engine="other")
    with pytest.raises(ember.UsageError, match="can't be stopped"):
        ember.union(A, engine="library", timeout=1)


def test_a_timeout_without_the_program(monkeypatch):
    monkeypatch.setattr(program, "found", lambda: None)
    monkeypatch.setattr(library, "found", lambda: "there")
    with pytest.raises(ember.UsageError, match="can't be stopped"):
        ember.union(A, timeout=1)


def test_a_command_over_files_of_the_system(both_engines, tmp_path):
    given, made = tmp_path / "a.off", tmp_path / "b.off"
    given.write_bytes(ember.union(A).export("off"))
    assert ember.command(["union", "-o", str(made), "--quiet", str(given)]).status == 0
    assert made.read_bytes() == ember.union(given).export("off")


def test_the_engine_by_itself(engine):
    assert len(ember.union(A).faces) == len(ember.union(A, engine=engine).faces) == 12


def test_a_call_leaves_no_folder(engine, room):
    ember.union(A, B, engine="program")
    with pytest.raises(ember.NotClosedError):
        ember.union((A[0], A[1][1:]), engine="program")


def is_alive(path):
    """Whether the process is there whose number is in the file. Without a number it was ended before it wrote one."""
    number = path.read_text().strip() if path.exists() else ""
    return number != "" and Path(f"/proc/{number}").exists()


def wait_for(path):
    for _ in range(6000):
        if path.exists() and path.read_text().endswith("\n"):
            return
        time.sleep(0.01)
    raise AssertionError("the program didn't start")


def test_a_call_that_takes_too_long(false_program, room, tmp_path):
    false_program(f"echo $$ >{tmp_path}/number; exec sleep 60")
    with pytest.raises(ember.Stopped, match="took more than 2 seconds") as caught:
        ember.union(A, B, timeout=2, engine="program")
    assert caught.value.status is None and isinstance(caught.value, RuntimeError)
    assert not is_alive(tmp_path / "number")


def interrupt():
    os.kill(os.getpid(), signal.SIGINT)


def test_a_call_that_is_interrupted(false_program, room, tmp_path):
    false_program(f"echo $$ >{tmp_path}/number; exec sleep 60")
    threading.Thread(target=lambda: (wait_for(tmp_path / "number"), interrupt())).start()
    with pytest.raises(KeyboardInterrupt):
        ember.union(A, B, engine="program")
    assert not is_alive(tmp_path / "number")


@pytest.mark.parametrize("step", ["_fill", "_stamps", "Popen"])
def test_a_call_that_is_interrupted_between_its_steps(false_program, room, tmp_path, monkeypatch, step):
    """The signal comes when a step has ended, and its result isn't there yet."""
    false_program(f"echo $$ >{tmp_path}/number; exec sleep 60")
    place = subprocess if step == "Popen" else program
    whole = getattr(place, step)

    def interrupted(*words, **options):
        done = whole(*words, **options)
        if step == "Popen":
            wait_for(tmp_path / "number")
        interrupt()
        return done

    monkeypatch.setattr(place, step, interrupted)
    before = signal.getsignal(signal.SIGINT)
    with pytest.raises(KeyboardInterrupt):
        ember.union(A, B, engine="program")
    assert signal.getsignal(signal.SIGINT) is before
    assert not is_alive(tmp_path / "number")


def test_handlers_that_raise_nothing(false_program, room, tmp_path, monkeypatch):
    """Where the user's handler raises nothing, the call goes on."""
    came = []
    whole = program._fill
    monkeypatch.setattr(program, "_fill", lambda *words: (whole(*words), interrupt()))
    false_program("echo hello")
    before = signal.signal(signal.SIGINT, lambda number, _: came.append(number))
    try:
        assert ember.command(["info"], engine="program").out == b"hello\n"
    finally:
        signal.signal(signal.SIGINT, before)
    assert came == [signal.SIGINT]


def test_a_call_in_a_thread(false_program, room):
    false_program("echo hello")
    found = []
    thread = threading.Thread(target=lambda: found.append(ember.command(["info"], engine="program").out))
    thread.start()
    thread.join()
    assert found == [b"hello\n"]


def test_a_program_that_a_signal_ends(false_program, room):
    false_program("kill -9 $$")
    with pytest.raises(ember.Stopped, match="ended by the signal SIGKILL") as caught:
        ember.union(A, B, engine="program")
    assert caught.value.status == -9


def test_a_program_that_says_something_else(false_program, room):
    false_program("printf 'OFF\\n0 0 0\\n' >out.off; echo hello >&2")
    with pytest.raises(ValueError, match="isn't a report of ember-mesh"):
        ember.union(A, B, engine="program")


def test_command(engine):
    off = ember.union(A, engine=engine).export("off")
    answer = ember.command(["union", "-o", "out.stl", "--keep", "kept", "in/a.off"], {"in/a.off": off}, engine=engine)
    assert (answer.status, answer.out) == (0, b"")
    assert sorted(answer.files) == ["kept/1.obj", "kept/doc.txt", "kept/scene.json", "out.stl"]
    assert answer.files["out.stl"] == ember.union(off, engine=engine).export("stl")
    assert answer.err.startswith(b"ember-mesh: step ")


def test_a_command_that_fails(engine):
    answer = ember.command(["union", "-o", "out.stl", "none.off"], {"out.stl": b"old"}, engine=engine)
    assert (answer.status, answer.out, answer.files) == (3, b"", {})
    assert answer.err.startswith(b"ember-mesh: none.off: cannot be read")


def test_a_command_over_its_own_file(engine):
    off = ember.union(A, engine=engine).export("off")
    answer = ember.command(["union", "-o", "a.off", "--quiet", "a.off"], {"a.off": off, "other": b""}, engine=engine)
    assert (answer.status, set(answer.files)) == (0, {"a.off"})


def test_the_version(engine):
    answer = ember.command(["--version"], engine=engine)
    assert (answer.status, answer.out.decode()) == (0, f"ember-mesh {ember.__version__}\n")


@pytest.mark.parametrize("name", ["/etc/mesh.stl", "../mesh.stl", "a/../../mesh.stl", ""])
def test_files_out_of_the_folder(false_program, name):
    false_program("exit 0")
    with pytest.raises(ember.UsageError, match="names nothing in the folder"):
        ember.command(["info"], {name: b""}, engine="program")


@pytest.fixture
def false_library(tmp_path, monkeypatch):
    """Compiles a library that lacks memory, and puts it into the place of ember's."""

    def put(*options):
        made = tmp_path / "made.so"
        here = Path(__file__).resolve().parent
        if not shutil.which("cc"):
            pytest.skip("there is no C compiler")
        subprocess.run(["cc", "-shared", "-fPIC", *options, f"-I{here.parent.parent / 'include'}", "-o", made, here / "false_library.c"], check=True)
        monkeypatch.setenv("EMBER_LIBRARY", str(made))

    return put


def test_a_library_without_memory(false_library, tmp_path):
    false_library()
    for mesh in (A, tmp_path / "a.stl"):
        with pytest.raises(ember.OutOfMemory, match="^out of memory$") as caught:
            ember.union(mesh, engine="library")
        assert (caught.value.status, caught.value.mesh, caught.value.place) == (12, None, None)


def test_a_library_of_another_interface(false_library):
    false_library("-DABI=7")
    with pytest.raises(ImportError, match="has version 7 of its interface, and not 1"):
        ember.union(A, engine="library")


def test_a_triangle_without_a_source(false_library):
    false_library("-DLACKS_SOURCE")
    mesh = ember.Mesh(*A)
    made = library.boolean([(mesh.vertices, mesh.faces)], "m1", "nice", None, sources=True)
    assert made.sources.tolist() == [(1, 5, True, False), (-1, -1, False, False)]
    assert library.boolean([(mesh.vertices, mesh.faces)], "m1", "nice", None, sources=False).sources is None


def library_or_skip():
    if library.found() is None:
        pytest.skip("the engine library isn't there")


def test_arrays_go_to_the_library_as_they_are(monkeypatch):
    """No file is made of them, unless exact corners are wanted."""
    library_or_skip()
    calls = []
    whole = library.run
    monkeypatch.setattr(library, "run", lambda words, files: (calls.append(words[0]), whole(words, files))[1])
    ember.difference(A, B, engine="library")
    ember.difference(A, B, engine="library", sources=True)
    assert calls == []
    ember.difference(A, B, engine="library", exact=True)
    ember.difference(A, EXAMPLES / "cube.obj", engine="library")
    ember.difference(A, EXAMPLES / "cube.obj", engine="library", sources=True)
    assert calls == ["difference"] * 3


def test_what_is_lent_is_a_copy():
    """Whoever writes the arrays later, or in another thread, changes no result."""
    library_or_skip()
    vertices, faces = A[0].copy(), A[1].astype(np.uint32)
    found = ember.union((vertices, faces), engine="library")
    before = found.export("off")
    vertices += 1
    faces[:] = 0
    assert found.export("off") == before


def test_arrays_that_are_not_aligned():
    library_or_skip()
    data = b"\0" + A[0].astype("<f8").tobytes()
    vertices = np.frombuffer(data, dtype="<f8", offset=1).reshape(-1, 3)
    assert not vertices.flags.aligned
    assert len(ember.union((vertices, A[1]), engine="library").faces) == 12


def test_many_calls_at_once():
    library_or_skip()
    wanted = ember.union(A, B, engine="library").export("stl")
    found = []
    threads = [threading.Thread(target=lambda: found.extend(ember.union(A, B, engine="library").export("stl") for _ in range(20))) for _ in range(8)]
    for it in threads:
        it.start()
    for it in threads:
        it.join()
    assert found == [wanted] * 160


def test_processors():
    assert processor.lacking("fpu cx16 lahf_lm popcnt ssse3 sse4_1 sse4_2 avx") == set()
    assert processor.lacking("fpu cx16 lahf_lm ssse3 sse4_1") == {"popcnt", "sse4_2"}


def test_nothing_is_imported_that_is_not_needed():
    said = subprocess.run([sys.executable, "-c", "import ember, sys; print('trimesh' in sys.modules)"], capture_output=True, text=True, check=True)
    assert said.stdout == "False\n"
