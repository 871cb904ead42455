"""What pip is told when it asks to build this package from its sources."""
import sys
from typing import Any

_WHY = (
    "ember-mesh can't be built here: its engine is proved and built by the Rattle toolchain, and that takes about an hour. "
    "Install a wheel; there are some for Linux on x86-64 alone, made by tools/wheel of ember's repository. "
    "If you have the program ember-mesh already, put this folder on the PYTHONPATH and name the program in EMBER_MESH"
)


def _refuse(*_: Any, **__: Any) -> Any:
    sys.exit(_WHY)


build_wheel = build_sdist = build_editable = prepare_metadata_for_build_wheel = _refuse
