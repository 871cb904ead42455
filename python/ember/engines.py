"""Which engine does a call: the program ember-mesh, or the library."""
from __future__ import annotations

import os
from dataclasses import dataclass, replace
from typing import Dict, Mapping, Optional, Sequence

from . import library, program
from .errors import UsageError

ENGINES = ("auto", "program", "library")
# From how many triangles on the threads of the program are worth its start and its files.
_MANY = 20_000
_NO_ENGINE = "no engine: install the wheel of ember-mesh, or set EMBER_MESH to the program or EMBER_LIBRARY to libember.so"


@dataclass(frozen=True)
class Answer:
    """What a call of ember-mesh leaves.

    status    its exit status: 0 if it did what was asked. The page MESHES lists the others
    out, err  the bytes of standard output and of standard error
    files     the bytes of each file that it wrote, by name
    """

    status: int
    out: bytes
    err: bytes
    files: Dict[str, bytes]


def chosen(engine: str, triangles: int, timeout: Optional[float], *, names_paths: bool = False) -> str:
    """Returns the engine that does a call over about so many triangles. Its words may name whole paths of the system."""
    if engine not in ENGINES:
        raise UsageError(2, f"engine {engine!r}: is none of {', '.join(ENGINES)}")
    if engine == "auto":
        has_program, has_library = program.found() is not None, library.found() is not None
        if not has_program and not has_library:
            raise FileNotFoundError(_NO_ENGINE)
        wants_program = timeout is not None or names_paths or triangles > _MANY
        engine = "program" if has_program and (wants_program or not has_library) else "library"
    if engine == "library" and timeout is not None:
        raise UsageError(2, "timeout: a call of the library can't be stopped; leave it out, or take the engine 'program'")
    return engine


def run(
    words: Sequence[str],
    files: Mapping[str, bytes],
    *,
    inputs: Sequence[str] = (),
    engine: str,
    triangles: int,
    timeout: Optional[float],
    names_paths: bool = False,
) -> Answer:
    """Does what `ember-mesh WORDS..` does in a folder with these files. Of the words, `inputs` are paths of other files that it reads."""
    zero = next((it for it in (*words, *files) if "\0" in it), None)
    if zero is not None:
        raise UsageError(2, f"{zero!r}: no command line can have a zero byte")
    if chosen(engine, triangles, timeout, names_paths=names_paths) == "program":
        return Answer(*program.run(words, files, timeout))
    return _in_memory(words, files, inputs)


def _in_memory(words: Sequence[str], files: Mapping[str, bytes], inputs: Sequence[str]) -> Answer:
    """Does it by the library, which is lent the bytes of the files."""
    more, faults = library.read(inputs)
    # Standard input is empty, as it is for the program.
    status, out, err, written = library.run(words, {**files, **more, "-": b""})
    answer = Answer(status, out, err, {os.path.normpath(name): data for name, data in written.items()})
    if status == 3:
        # The library knows only that it wasn't lent the file.
        for path, why in faults.items():
            if answer.err.startswith(f"ember-mesh: {path}: ".encode("utf-8", "surrogateescape")):
                return replace(answer, err=f"ember-mesh: {path}: cannot be read ({why})\n".encode("utf-8", "surrogateescape"))
    return answer
