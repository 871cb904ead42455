"""Refuses the C library's requests for memory while Python calls it: python_memory.py LIBRARY

LIBRARY is made of refusing_library.c. Each call is made again and again, first without any memory, then with one more request that is met each
time, and each request alone refused. It raises a MemoryError, or gives what it gives with all memory, and no block of the library is lost.
Prints what is wrong, and last how much was tried. It needs numpy.
"""
import ctypes
import itertools
import os
import sys
from pathlib import Path

TOP = Path(__file__).resolve().parent.parent.parent
sys.path[:0] = [str(TOP / "python"), str(TOP / "python/tests")]


def shown(result):
    """What of a result must be the same."""
    if hasattr(result, "files"):
        return result.status, result.out, result.err, result.files
    sources = None if result.sources is None else result.sources.tolist()
    return result.vertices.tolist(), result.faces.tolist(), result.report, sources


def outcome(call, ember):
    """What a call gives, or None if it raises what want of memory raises."""
    try:
        return shown(call())
    except MemoryError as fault:
        if type(fault) is not ember.OutOfMemory or fault.status != 12 or str(fault) != "out of memory":
            raise
        return None


def tried(name, call, library, ember):
    """Makes the call with each request refused, and returns how many calls went wrong."""
    whole, wrong, refused = outcome(call, ember), 0, 0
    for refuses_all in (1, 0):
        for requests in itertools.count():
            library.ember_test_refuse(requests, refuses_all)
            found = outcome(call, ember)
            is_met, blocks = library.ember_test_end(), library.ember_test_blocks()
            # A command says it by its status.
            lacks = found is None or found[0] == 12 and not found[3]
            if blocks or not (lacks or found == whole) or (is_met and lacks):
                wrong += 1
                print(f"{name}, {requests} requests: {blocks} blocks are left, {found}"[:300])
            refused += lacks
            if is_met:
                break
    print(f"{name}: {refused} times out of memory, {wrong} wrong")
    return wrong + (not refused)


def main():
    path = os.environ["EMBER_LIBRARY"] = os.path.abspath(sys.argv[1])
    import ember
    from ember import declared
    from scenes import box

    library = ctypes.CDLL(path)
    library.ember_test_blocks.restype = ctypes.c_long
    library.ember_test_refuse.argtypes = [ctypes.c_long, ctypes.c_int]
    library.ember_test_free.argtypes, library.ember_test_free.restype = [ctypes.c_void_p], None
    declared.free = lambda: library.ember_test_free
    meshes = box((0, 0, 0), (1, 1, 1)), box((0.25, 0.25, 0.25), (0.75, 0.75, 2))
    file = {"a.off": ember.union(meshes[0], engine="library").export("off")}
    calls = {
        "arrays": lambda: ember.difference(*meshes, engine="library", sources=True),
        "arrays with exact corners": lambda: ember.difference(*meshes, engine="library", exact=True),
        "a file": lambda: ember.union(file["a.off"], engine="library"),
        "a command": lambda: ember.command(["union", "-o", "out.stl", "a.off"], file, engine="library"),
    }
    wrong = sum(tried(name, call, library, ember) for name, call in calls.items())
    print(f"{wrong} wrong")
    return int(wrong > 0)


if __name__ == "__main__":
    sys.exit(main())
