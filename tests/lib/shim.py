"""Small C libraries that are loaded before the C library's own calls: for what no script can do to another process."""
import os
import shutil
import subprocess


def has_compiler():
    return shutil.which("cc") is not None


def built(folder, source):
    """Compiles the C source in a folder, and answers the environment that loads it."""
    (folder / "shim.c").write_text(source)
    shim = str(folder / "shim.so")
    subprocess.run(["cc", "-O1", "-shared", "-fPIC", "-o", shim, str(folder / "shim.c")], check=True)
    return {**os.environ, "LD_PRELOAD": shim}
