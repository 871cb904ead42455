"""Starts the program ember-mesh, in a new folder for each call."""
from __future__ import annotations

import os
import shutil
import signal
import subprocess
import tempfile
from pathlib import Path, PurePosixPath
from typing import Dict, Mapping, Optional, Sequence, Tuple

from .errors import Stopped, UsageError
from .interrupts import Interrupts

# Where a wheel has the program.
_PACKED = Path(__file__).resolve().parent / "_bin/ember-mesh"


def found() -> Optional[str]:
    """Returns the path of the program, or None: the one that EMBER_MESH names, that of the wheel, or the first on the PATH."""
    named = os.environ.get("EMBER_MESH")
    if named:
        return os.path.abspath(named)
    return str(_PACKED) if _PACKED.exists() else shutil.which("ember-mesh")


def _fill(folder: Path, files: Mapping[str, bytes]) -> None:
    for name, data in files.items():
        parts = PurePosixPath(name).parts
        if name.startswith("/") or not parts or ".." in parts:
            raise UsageError(2, f"file {name!r}: names nothing in the folder of the call")
        (folder / name).parent.mkdir(parents=True, exist_ok=True)
        (folder / name).write_bytes(data)


def _stamps(folder: Path) -> Dict[str, Tuple[int, int]]:
    """Returns for each file which one it is, and when it was written."""
    files = ((it.relative_to(folder).as_posix(), it.stat()) for it in sorted(folder.rglob("*")) if it.is_file())
    return {name: (found.st_ino, found.st_mtime_ns) for name, found in files}


def _ended(words: Sequence[str], folder: Path, timeout: Optional[float], interrupts: Interrupts) -> Tuple[int, bytes, bytes]:
    """Returns the exit status and both streams. The process has ended in any case."""
    pipe = subprocess.PIPE
    with subprocess.Popen(words, cwd=folder, stdin=subprocess.DEVNULL, stdout=pipe, stderr=pipe) as process:
        try:
            try:
                interrupts.let_through()
                out, err = process.communicate(timeout=timeout)
            finally:
                interrupts.hold()
        except BaseException:
            process.kill()
            process.wait()
            raise
        return process.returncode, out, err


def run(words: Sequence[str], files: Mapping[str, bytes], timeout: Optional[float]) -> Tuple[int, bytes, bytes, Dict[str, bytes]]:
    """Returns the exit status, both streams, and the files that were written.

    No process and no folder is left, also after an exception, a timeout or Ctrl-C.
    """
    path = found()
    if path is None:
        raise FileNotFoundError("ember-mesh isn't there; install the wheel of ember-mesh, or set EMBER_MESH to the path of the program")
    with Interrupts() as interrupts, tempfile.TemporaryDirectory(prefix="ember-") as room:
        folder = Path(room)
        _fill(folder, files)
        before = _stamps(folder)
        try:
            status, out, err = _ended([path, *words], folder, timeout, interrupts)
        except subprocess.TimeoutExpired as late:
            raise Stopped(None, f"ember-mesh took more than {timeout} seconds, and was stopped; allow more, or simplify the meshes") from late
        if status < 0:
            raise Stopped(status, f"ember-mesh was ended by the signal {signal.Signals(-status).name}")
        written = {name: (folder / name).read_bytes() for name, stamp in _stamps(folder).items() if before.get(name) != stamp}
        return status, out, err, written
