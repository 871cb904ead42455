"""Which Python has what a test needs."""
import os
import shutil
import subprocess


def has(python, module):
    """Whether this Python has the module."""
    return subprocess.run([python, "-c", f"import {module}"], stdout=subprocess.DEVNULL, stderr=subprocess.DEVNULL, check=False).returncode == 0


def usable(*modules):
    """The first of $PYTHON, python3 and /usr/bin/python3 that has these modules, or None."""
    named = [os.environ.get("PYTHON"), shutil.which("python3"), "/usr/bin/python3"]
    return next((it for it in named if it and os.path.exists(it) and all(has(it, module) for module in modules)), None)
