"""Cases: folders with the words of a call, the files that it runs over, and what it must write."""
import json
import shutil

from lib.program import Answer


def loaded(path, default=None):
    return json.loads(path.read_text()) if path.exists() else default


def fill(case, work):
    """Makes the folder that the program runs in, with the files of the case."""
    if (case / "files").exists():
        shutil.copytree(case / "files", work)
    else:
        work.mkdir()


def with_workers(words, workers, commands):
    """The words with this number of workers; as they are if they have one, or if the command takes none."""
    if workers is None or not words or words[0] not in commands or any(it.startswith("--workers") for it in words):
        return words
    return [words[0], f"--workers={workers}", *words[1:]]


def wanted(case):
    """The status, and the bytes of out and err; None where the case doesn't state them as a whole."""
    streams = (case / "expected.out", case / "expected.err")
    return Answer(int((case / "expected.status").read_text()), *(it.read_bytes() if it.exists() else None for it in streams))


def faults_of_answer(got, want):
    """What differs: of a stream the first line that does."""
    if got.status != want.status:
        yield f"status: got {got.status}, wanted {want.status}"
    for what in ("out", "err"):
        if getattr(want, what) not in (None, getattr(got, what)):
            yield difference(what, getattr(got, what), getattr(want, what))


def difference(what, got, want):
    got, want = got.splitlines(True), want.splitlines(True)
    i = next((i for i, (a, b) in enumerate(zip(got, want)) if a != b), min(len(got), len(want)))
    return f"{what} line {i + 1}: got {got[i:i + 1]}, wanted {want[i:i + 1]}"


def run_all(names, faults_of):
    """Tries the cases, prints what is wrong with each, and last 'N passed, M failed'. Returns the exit status."""
    failed = 0
    for name in names:
        found = list(faults_of(name))
        failed += bool(found)
        for fault in found:
            print(f"{name}: {fault}")
    print(f"{len(names) - failed} passed, {failed} failed")
    return int(failed != 0 or not names)
