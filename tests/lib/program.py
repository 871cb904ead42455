"""Runs a built program, and says what is wrong with an answer whatever the input was."""
import collections
import pathlib
import re
import subprocess
import sys

Answer = collections.namedtuple("Answer", "status out err")

# What a status other than 0 writes to standard error: one line, with the name of a file in place of NAME.
LINES = {
    2: "ember: words refused",
    3: "ember: cannot read NAME",
    4: "ember: cannot write",
    5: r"ember: NAME: line \d+: (word|coordinate (malformed|fraction|range)|index|few corners|long line|too many)",
    6: r"ember: NAME: edge N N N to N N N stands \d+ times and \d+ times reversed",
    7: r"ember: expression: ((syntax|deep|number) at \d+|no mesh \d+|long)",
    8: "ember: expression holds outside all meshes",
    9: r"ember: (NAME: more than 268435456 bytes|\d+ triangles)",
    10: "ember: point not clear",
    11: r"ember: NAME: (not a face file|face \d+ endless)",
    12: "ember: out of memory",
}
REPORT = r"boxes \d+ leaves \d+ skipped \d+ faces \d+"
FORMS = {
    status: re.compile(line.replace("NAME", "[^\n]+").replace(" N", r" (0|-?[1-9]\d*)").encode() + b"\n")
    for status, line in LINES.items()
}
FORMS[0] = re.compile(b"(" + REPORT.encode() + b"\n)?")
FORMS[13] = re.compile(b"")


def path_of(word):
    """The program's whole path, for calls from other folders."""
    return str(pathlib.Path(word).resolve())


def run(program, words, folder=None, seconds=60, **more):
    """The program's answer. A status below 0 is the signal that ended it; None says that it took too long."""
    more = {"stdin": subprocess.DEVNULL, "stdout": subprocess.PIPE, "stderr": subprocess.PIPE, **more}
    try:
        done = subprocess.run([program, *words], cwd=folder, timeout=seconds, **more)
    except subprocess.TimeoutExpired:
        return Answer(None, b"", b"")
    return Answer(done.returncode, done.stdout or b"", done.stderr or b"")


def wrong(answer):
    """What no answer may be, or None: an unknown status or a signal, another line than the status has, output of a refusal."""
    status, out, err = answer
    if status is None:
        return "no answer in time"
    if status not in FORMS:
        return f"signal {-status}" if status < 0 else f"status {status}"
    if not FORMS[status].fullmatch(err):
        return f"status {status} with err {err[:200]!r}"
    if out and status not in (0, 4):
        return f"status {status} with {len(out)} bytes on out"
    if status == 0 and not out.endswith(b"\n"):
        return "status 0 without a last line"
    return None


class Tally:
    """Counts what was right, and prints what was wrong."""

    def __init__(self):
        self.passed = self.failed = 0

    def check(self, what, fault, count=1):
        """Notes one try, or several alike: `fault` says what was wrong, or is empty."""
        if fault:
            self.failed += count
            print(f"{what}: {fault}")
        else:
            self.passed += count

    def end(self):
        """Prints the last line, and ends the script with its status."""
        print(f"{self.passed} passed, {self.failed} failed")
        sys.exit(int(self.failed != 0 or self.passed == 0))
