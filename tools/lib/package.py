"""What the packages have in common: whose version and commit they are, what the build proved, and the files beside it."""
import importlib.machinery
import importlib.util
import os
import re
import shutil
import subprocess
import sys
import tempfile
import time
from pathlib import Path

TOP = Path(__file__).resolve().parent.parent.parent
# The crate of each program and library, by its place in a package.
PROGRAMS = {"bin/ember": "ember", "bin/ember-mesh": "mesh_program"}
LIBRARIES = {"lib/libember.a": "ember_c", "lib/libember.so.1": "ember_c"}
BUILT = {**PROGRAMS, **LIBRARIES}
# What a package is made of.
SOURCES = ["crates", "crates.txt", "HANDLES", "docs", "completions", "examples", "tools", "packages", "python", "include", "web", "Makefile", "LICENSE", "CHANGELOG.md"]


def loaded(script):
    """Returns a script of Python as a module: which crates there are, and where their logs are, is what the script says."""
    loader = importlib.machinery.SourceFileLoader(script.name, str(script))
    module = importlib.util.module_from_spec(importlib.util.spec_from_loader(script.name, loader))
    loader.exec_module(module)
    return module


builder = loaded(TOP / "tools/build")


def fail(why):
    sys.exit(f"ember: {why}")


def output_of(*words):
    return subprocess.run(words, cwd=TOP, stdout=subprocess.PIPE, text=True, check=True).stdout.rstrip()


def version():
    """Returns the version of both programs: the one that `ember-mesh --version` writes."""
    text = (TOP / "crates/mesh_report/src/messages.rt").read_text(encoding="utf-8")
    return re.search(r'const VERSION: &str = "ember-mesh ([\d.]+)\\n";', text)[1]


def commit_time():
    """Returns when the commit was made, in seconds since 1970. All files of a package have this time."""
    return int(output_of("git", "log", "-1", "--format=%ct"))


def changes():
    """Returns the parts of CHANGELOG.md on this version, each as its heading or None, and its line or None."""
    text = (TOP / "CHANGELOG.md").read_text(encoding="utf-8")
    entry = re.search(rf"^## {re.escape(version())}\n(.*?)(?=^## |\Z)", text, re.M | re.S)[1]
    found = re.findall(r"^\*\*(.*)\*\*$|^- (.*(?:\n  .*)*)", entry, re.M)
    return [(heading or None, " ".join(line.split()) or None) for heading, line in found]


def refuse_changes():
    """Ends unless all that a package is made of is as in the commit that it names."""
    if not (TOP / ".git").exists():
        fail("a package is made of a commit, and this folder is no git repository")
    changed = output_of("git", "status", "--porcelain", "--", *SOURCES)
    if changed:
        fail(f"a package has the files of a commit, and these differ from the last one:\n{changed}")


def build(jobs, crates=None, env=None):
    """Proves and builds these crates. Ends if a source was changed meanwhile: what was built may be that of another text then. A build in another
    environment may find another toolchain there."""
    refuse_changes()
    begun = time.time()
    for crate in dict.fromkeys(crates or BUILT.values()):
        build = [TOP / "tools/build", "--program", crate, *(["--jobs", str(jobs)] if jobs else [])]
        if subprocess.run(build, env=env, check=False).returncode:
            fail("there is no package without what it is of")
    refuse_changes()
    sources = [TOP / "crates.txt", TOP / "HANDLES", *(it for it in (TOP / "crates").rglob("*") if "out" not in it.parts and it.is_file())]
    for newer in (it for it in sources if it.stat().st_mtime > begun):
        fail(f"{newer.relative_to(TOP)} was changed during the build: make the package anew")


def crates_of(built):
    """Returns the crates that these programs and libraries use, lowest first."""
    crates = builder.listed()
    names = set().union(*(builder.below(crates, it) for it in built.values()))
    return [it for it in crates if it in names]


def last_line_of_check(crate):
    """Returns what the toolchain said last of the proof of a crate. The build keeps it, since it is said only when the crate is proved."""
    path = Path(builder.room(), f"{crate}.proved")
    if not path.exists():
        fail(f"there is no {path}, which has what the toolchain said of the proof")
    return path.read_text(encoding="utf-8").strip()


def proved(folder, built):
    """Returns the text of PROVED: what the programs and libraries in the folder are, and what was proved of them."""
    sums = subprocess.run(["sha256sum", *built], cwd=folder, stdout=subprocess.PIPE, text=True, check=True).stdout
    checks = [f"{place}: {last_line_of_check(crate)}\n" for place, crate in built.items()]
    below = len(set(crates_of(built)) - set(built.values()))
    return (
        f"ember {version()}: what these files are, and what was proved of them\n\n"
        f"commit {output_of('git', 'rev-parse', 'HEAD')}\n"
        f"toolchain {output_of('rt', 'version')}\n\n"
        f"The SHA-256 of each file, as the build made it:\n\n{sums}\n"
        f"They use {below} crates of this commit, each of which the build proved before. The last line of the check of each file:\n\n"
        f"{''.join(checks)}"
    )


def kit():
    """Returns the folder with the sources of the toolchain's libraries."""
    return Path(os.path.realpath(shutil.which("rt"))).parent.parent / "rattle"


def libraries(built):
    """Returns the toolchain's libraries that these programs and libraries use, directly or below others."""
    open_, found = {"std"}, set()
    for crate in crates_of(built):
        line = builder.listed()[crate][0]
        open_ |= set(line.partition("#")[0].partition(":")[2].split())
    while open_:
        name = open_.pop()
        sources = kit() / name / "src"
        if name not in found and sources.is_dir():
            found.add(name)
            for file in sources.rglob("*.rt"):
                open_ |= set(re.findall(r"^\s*(?:pub )?use (\w+)::", file.read_text(encoding="utf-8"), re.M))
    return sorted(found)


def licences(built):
    """Returns the text of LIBRARIES: the licences of the toolchain's libraries whose code is in these files."""
    text = f"The files {', '.join(built)} contain code of these libraries of the toolchain, under their own licences.\n"
    for name in libraries(built):
        files = sorted((kit() / name).glob("LICENSE*"))
        # Where the user may choose, it is this one.
        files = [it for it in files if it.name == "LICENSE-MIT"] or files
        for file in files:
            text += f"\n{'=' * 78}\n{name}: {file.name}\n{'=' * 78}\n\n{file.read_text(encoding='utf-8').strip()}\n"
    return text


def install(room, prefix, goals, **places):
    """Puts what these goals of the Makefile install below the prefix into the folder. Other places are variables of the Makefile."""
    with tempfile.TemporaryDirectory() as library:
        if "install-library" in goals:
            subprocess.run([TOP / "tools/library", "--built", library], stdout=subprocess.DEVNULL, check=True)
        places = {"DESTDIR": room, "PREFIX": prefix, "LIBRARY": library, "doc": "$(mesh_doc)", **places}
        words = [f"{name}={place}" for name, place in places.items()]
        # All is built already, and not to be built again.
        subprocess.run(["make", "-s", "-C", TOP, "-o", "build", "-o", "mesh", "-o", "library", *goals, *words], check=True)


def needed_libc(folder, built):
    """Returns the least version of the C library with which the programs and shared libraries in the folder start."""
    versions = [it for place in built for it in re.findall(rb"GLIBC_([\d.]+)\0", (folder / place).read_bytes())]
    return max((it.decode() for it in versions), key=lambda it: [int(part) for part in it.split(".")])


def write(path, text):
    path.parent.mkdir(parents=True, exist_ok=True)
    path.write_text(text, encoding="utf-8")


def settle(room):
    """Gives all files the time of the commit and the usual permissions, whatever the user's are."""
    when = commit_time()
    for path in [room, *room.rglob("*")]:
        if not path.is_symlink():
            path.chmod(0o755 if path.is_dir() or path.parent.name == "bin" else 0o644)
        os.utime(path, (when, when), follow_symlinks=False)
