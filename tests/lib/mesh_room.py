"""A folder in which ember-mesh runs over files, and what its results and refusals must be."""
import pathlib
import re
import sys
import tempfile

from lib.mesh_program import wrong
from lib.program import Tally, path_of, run
from lib.stl import Counts, counts_of, exact_volume_of, fault_of_normals, fault_of_written, triangles_of

WORKERS = (1, 2, 7, 64)
OLD = b"as it was"


class Room:
    """A folder for the files of one case."""

    def __init__(self, program, folder, name, tally):
        self.program, self.folder, self.name, self.tally = program, folder, name, tally

    def file(self, name, data):
        (self.folder / name).write_bytes(data)
        return name

    def files(self):
        """What the folder holds; of large files only their size."""
        paths = [it for it in self.folder.rglob("*") if it.is_file()]
        return {it: it.read_bytes() if it.stat().st_size < 1000000 else it.stat().st_size for it in paths}

    def check(self, what, fault):
        self.tally.check(f"{self.name}: {what}", fault)

    def gives(self, words, triangles=None, positions=None, shared=0, volume=None, corners=None, report=None):
        """The result of the words, whatever the number of workers; numbers that aren't given aren't compared."""
        words = [words[0], "-o", "out.stl", *words[1:]]
        before = self.files()
        answer = run(self.program, words, self.folder)
        after = self.files()
        data = after.pop(self.folder / "out.stl", b"")
        fault = wrong(answer) or (f"status {answer.status}, {answer.err!r}" if answer.status else None) or fault_of_written(data)
        if not fault and after != before:
            fault = "another file changed"
        if not fault:
            fault = fault_of_result(data, triangles, positions, shared, volume, corners) or fault_of_report(answer.err, report)
            fault = fault or fault_of_shared(answer.err, counts_of(triangles_of(data)))
        self.check(" ".join(words)[:90], fault)
        for workers in WORKERS:
            (self.folder / "out.stl").unlink(missing_ok=True)
            again = run(self.program, [*words, f"--workers={workers}"], self.folder)
            same = again == answer and self.files() == {**before, self.folder / "out.stl": data}
            self.check(f"{workers} workers", None if same else f"differs: {again}")
        self.file("out.stl", OLD)
        quiet = run(self.program, [*words, "--quiet"], self.folder)
        same = quiet == (0, b"", b"") and self.files() == {**before, self.folder / "out.stl": data}
        self.check("--quiet", None if same else f"differs: {quiet}")
        (self.folder / "out.stl").unlink(missing_ok=True)

    def refuses(self, words, status, line, out="out.stl", old=True, **more):
        """A status and its line; the folder stays as it was, with and without an old OUT."""
        words = [words[0], "-o", out, *words[1:]] if out else words
        for content in (None, OLD) if old else (None,):
            if content is not None:
                self.file(out or "out.stl", content)
            before = self.files()
            answer = run(self.program, words, self.folder, **more)
            wanted = b"ember-mesh: " + line.encode() + b"\n" if line is not None else b""
            fault = None if answer == (status, b"", wanted) else f"status {answer.status}, {answer.err!r}, not {status}, {wanted!r}"
            if self.files() != before:
                fault = "a file changed, or a new one was left"
            self.check(" ".join(map(str, words))[:90] + (" over an old OUT" if content else ""), fault)
        if old:
            (self.folder / (out or "out.stl")).unlink(missing_ok=True)


def fault_of_result(data, triangles, positions, shared, volume, corners):
    found = triangles_of(data)
    counts = counts_of(found)
    wanted = Counts(*(want if want is not None else got for want, got in zip((triangles, positions, 0, shared), counts)))
    if counts != wanted:
        return f"{counts}, not {wanted}"
    if volume is not None and exact_volume_of(found) != volume:
        return f"volume {exact_volume_of(found)}, not {volume}"
    places = {corner for triangle in found for corner in triangle}
    if corners is not None and places != set(corners):
        return f"corners {sorted(places)}, not {sorted(corners)}"
    return fault_of_normals(data)


def fault_of_shared(err, counts):
    """The report counts the edges of more than two triangles of the result."""
    end = f"; {counts[3]} edges of more than two triangles\n"
    return None if err.decode().endswith(end) else f"report {err.decode()!r}, which doesn't end in {end!r}"


def without_volumes(err):
    """The lines of a report but those with the volume of a file, or with how many triangles lie on it."""
    said = r"warning: .+: its volume is .+|.+: volume [0-9.?]+|(?:warning: )?.+: \d+ of \d+ triangles of the result lie on it.*"
    return re.sub(rf"(?m)^ember-mesh: (?:{said})\n", "", err.decode())


def fault_of_report(err, report):
    """But for the volumes of files and the triangles on them, the report has these lines; an N stands for any number, and an X for any move."""
    if report is None:
        return None
    form = "".join(f"ember-mesh: {re.escape(line)}\n" for line in report).replace("N\\ ", r"\d+\ ").replace("move\\ X;", r"move\ \d[\d.e-]*;")
    return None if re.fullmatch(form, without_volumes(err)) else f"report {err.decode()!r}, not {report}"


def run_cases(usage, cases):
    """Runs the cases that the command line names, or all, each in a new folder; ends with the script's status."""
    if len(sys.argv) < 2:
        print(usage)
        return 2
    program, wanted = path_of(sys.argv[1]), sys.argv[2:]
    tally = Tally()
    for function in cases:
        if not wanted or function.__name__ in wanted:
            with tempfile.TemporaryDirectory() as folder:
                function(Room(program, pathlib.Path(folder), function.__name__, tally))
    tally.end()
    return 0
