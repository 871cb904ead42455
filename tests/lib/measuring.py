"""What a run costs: processor time, time by the clock, peak memory, and instructions counted by callgrind."""
import collections
import hashlib
import os
import re
import resource
import signal
import subprocess
import threading
import time

# Seconds of user time and by the clock, peak memory in kB, a hash of the output; status None: it took too long and was ended.
Cost = collections.namedtuple("Cost", "status user clock peak output err")


def cost(program, words, folder, seconds=600):
    """Runs the program once; its output goes to a file of the folder and not through a pipe.

    It may take so many seconds of processor time, and twenty times that by the clock where the machine is busy.
    """
    place = folder / "cost.out"
    with open(place, "wb") as out, open(folder / "cost.err", "wb") as err:
        begun = time.perf_counter()
        started = subprocess.Popen([program, *words], cwd=folder, stdin=subprocess.DEVNULL, stdout=out, stderr=err)
        resource.prlimit(started.pid, resource.RLIMIT_CPU, (seconds, seconds + 1))
        watch = Watch(started, begun + 20 * seconds)
        watch.start()
        os.waitid(os.P_PID, started.pid, os.WEXITED | os.WNOWAIT)
        clock = time.perf_counter() - begun
        watch.ended = True
        watch.join()
        _, status, usage = os.wait4(started.pid, 0)
        started.returncode = os.waitstatus_to_exitcode(status)
    peak = usage.ru_maxrss if usage.ru_maxrss > own_peak() else watch.peak
    digest = hashlib.sha256()
    with open(place, "rb") as out:
        while piece := out.read(1 << 20):
            digest.update(piece)
    err = (folder / "cost.err").read_text(errors="replace")
    late = watch.late or started.returncode == -signal.SIGXCPU
    return Cost(None if late else started.returncode, usage.ru_utime, clock, peak, digest.hexdigest(), err)


def own_peak():
    """The most memory of this process, in kB: the system counts it as that of a process it starts, so smaller peaks are watched."""
    return resource.getrusage(resource.RUSAGE_SELF).ru_maxrss


class Watch(threading.Thread):
    """Reads the peak memory of a running process again and again, and ends one that takes too long."""

    def __init__(self, started, latest):
        super().__init__()
        self.started, self.latest = started, latest
        self.peak, self.ended, self.late = 0, False, False

    def run(self):
        status = f"/proc/{self.started.pid}/status"
        while not self.ended:
            try:
                with open(status) as now:
                    self.peak = max([self.peak] + [int(line.split()[1]) for line in now if line.startswith("VmHWM")])
            except OSError:
                return
            if time.perf_counter() > self.latest and not self.late:
                self.late = True
                os.kill(self.started.pid, signal.SIGKILL)
            time.sleep(0.002)


def instructions(program, words, folder, seconds=1800, options=()):
    """How many instructions callgrind counts in user space, or None where it took too long or there is no valgrind.

    With options of callgrind it counts only what they say.
    """
    command = ["valgrind", "--tool=callgrind", "--callgrind-out-file=/dev/null", *options, program, *words]
    try:
        done = subprocess.run(command, cwd=folder, stdin=subprocess.DEVNULL, stdout=subprocess.DEVNULL, stderr=subprocess.PIPE, timeout=seconds)
    except (subprocess.TimeoutExpired, FileNotFoundError):
        return None
    counted = re.search(rb"Collected : (\d+)", done.stderr)
    return int(counted.group(1)) if counted and done.returncode == 0 else None


def table(rows):
    """Rows of texts as a Markdown table, the first of them its heads; all columns but the first are right-aligned."""
    widths = [max(len(row[i]) for row in rows) for i in range(len(rows[0]))]

    def line(row):
        cells = [row[0].ljust(widths[0])] + [cell.rjust(width) for cell, width in zip(row[1:], widths[1:])]
        return "| " + " | ".join(cells) + " |"

    rule = ["-" * widths[0]] + ["-" * (width - 1) + ":" for width in widths[1:]]
    return "\n".join([line(rows[0]), "| " + " | ".join(rule) + " |", *map(line, rows[1:])])
