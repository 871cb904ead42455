"""Whether this processor can run ember."""
from __future__ import annotations

from pathlib import Path
from typing import Set

# What the level x86-64-v2 has beyond the first x86-64, by the names of the kernel.
_NEEDED = {"cx16", "lahf_lm", "popcnt", "sse4_1", "sse4_2", "ssse3"}


def lacking(flags: str) -> Set[str]:
    """Returns what a processor with these flags lacks."""
    return _NEEDED - set(flags.split())


def refuse_old() -> None:
    """Raises ImportError if the processor lacks something. It is silent where the kernel doesn't say what it has."""
    try:
        with Path("/proc/cpuinfo").open(encoding="utf-8") as lines:
            flags = next((line.partition(":")[2] for line in lines if line.startswith("flags")), "")
    except OSError:
        return
    lacks = lacking(flags) if flags else set()
    if lacks:
        raise ImportError(f"ember needs a processor of the level x86-64-v2; this one lacks {', '.join(sorted(lacks))}")
