"""The WebAssembly module of the page, made of the LLVM module that the toolchain makes of the proved library.

The toolchain has no way of its own to do this: it compiles no crate for WebAssembly that asks for memory. So this module has the toolchain build
the library for x86-64 with a clang that keeps a copy of its input. It changes that copy: its target lines, its attributes of
processors, and a few calls that WebAssembly lacks. Then the same compiler makes WebAssembly of it. docs/trust/TRUST.md says what this means for
the proof.
"""
import hashlib
import json
import os
import re
import shutil
import subprocess
import tempfile
from pathlib import Path

from lib import package

CRATE = "ember_c"
EXPORTS = ["ember_abi", "ember_mesh_command", "malloc"]
# The compiler that was tried. Another may give the module other types or calls.
COMPILER_SUM = "22b657c8ab338a03324a4b8bae6cf44babb20ceb764b54b83d7e0574fe37c044"
OPTIONS = ["--target=wasm64-unknown-unknown", "-O2", "-mbulk-memory", "-mbulk-memory-opt", "-msign-ext", "-mnontrapping-fptoint"]
FEATURES = ["--enable-memory64", "--enable-bulk-memory", "--enable-sign-ext", "--enable-nontrapping-float-to-int"]
# The stack in the module's memory: the deepest call needs less than 256 KiB of it.
STACK = 1 << 20
# C parts of the module: its heap, and arithmetic of 128 bits.
PARTS = ["heap", "wide"]
EXPORTS_OF_PARTS = [
    "malloc", "free", "rattle_alloc", "rattle_realloc", "rattle_dealloc", "__udivti3", "__umodti3", "__divti3", "__modti3", "__multi3", "__ashlti3", "__lshrti3",
    "__ashrti3",
]
CLANG = """#!/bin/sh
for word in "$@"; do case "$word" in *.bc) cp "$word" '{keep}/module.bc';; esac; done
exec '{clang}' "$@"
"""
# What the library may call that WebAssembly lacks, and what replaces it.
FENCE = """define internal {type} @ember.fence.{name}({type} %it) alwaysinline {{
  ret {type} %it
}}
"""
SHUFFLE = "llvm.x86.ssse3.pshuf.b.128"


def kit():
    return package.kit().parent


def run(words, **more):
    if subprocess.run([str(it) for it in words], check=False, **more).returncode:
        package.fail(f"{Path(str(words[0])).name} failed")


def refuse_other_compiler():
    """Ends unless the compiler is the one that was tried."""
    found = hashlib.sha256((kit() / "toolchain/bin/clang").read_bytes()).hexdigest()
    if found != COMPILER_SUM:
        package.fail(
            f"the toolchain's clang has the SHA-256 {found}, and the page was tried with {COMPILER_SUM} alone: its module is made in a way that "
            "no toolchain promises. Put the new sum into tools/lib/webmodule.py, make the page, and ship it if tests/check_page passes"
        )
    if shutil.which("wasm-opt") is None:
        package.fail("wasm-opt isn't there, which makes the module's memory one of 32 bits: install binaryen")


# ---- the LLVM module
def link_all(folder, to, copied=()):
    """Makes links to what the folder has, and copies of what is named."""
    to.mkdir(parents=True)
    for it in folder.iterdir():
        if it.name in copied:
            shutil.copy(it, to / it.name)
        else:
            (to / it.name).symlink_to(it)


def make_kit(room):
    """Makes a toolchain like the installed one, but for its clang, which puts a copy of what it compiles into the folder above. Returns where its rt is."""
    made, real = room / "kit", kit()
    made.mkdir()
    for it in real.iterdir():
        if it.name not in ("bin", "toolchain"):
            (made / it.name).symlink_to(it)
    link_all(real / "bin", made / "bin", ["rt", "rtlib.py"])
    (made / "toolchain").mkdir()
    (made / "toolchain/lib").symlink_to(real / "toolchain/lib")
    link_all(real / "toolchain/bin", made / "toolchain/bin")
    clang = made / "toolchain/bin/clang"
    clang.unlink()
    clang.write_text(CLANG.format(keep=room, clang=real / "toolchain/bin/clang"), encoding="utf-8")
    clang.chmod(0o755)
    return made / "bin"


def made_of():
    """What the LLVM module of the library is made of now: sources and toolchain."""
    sources = package.builder.sum_of_sources(package.TOP, package.builder.listed(), CRATE, {})
    return [sources, package.builder.sum_of_tools(CRATE), COMPILER_SUM]


def kept_module():
    """The LLVM module that an earlier call kept and the last line of its check, if both are of what is there now."""
    kept, note = (Path(package.builder.room(), f"{CRATE}.{it}") for it in ("bc", "bc.json"))
    if not kept.exists() or not note.exists():
        return None
    said = json.loads(note.read_text(encoding="utf-8"))
    is_same = said["made_of"] == made_of() and said["sum"] == hashlib.sha256(kept.read_bytes()).hexdigest()
    return (kept, said["verdict"]) if is_same else None


def keep_module(llvm, verdict):
    """Keeps the LLVM module for calls over the same sources."""
    kept, note = (Path(package.builder.room(), f"{CRATE}.{it}") for it in ("bc", "bc.json"))
    said = {"made_of": made_of(), "sum": hashlib.sha256(llvm.read_bytes()).hexdigest(), "verdict": verdict}
    shutil.copy(llvm, kept)
    note.write_text(json.dumps(said), encoding="utf-8")


def build_module(room, jobs):
    """Proves and builds the library, as tools/build does, and returns the LLVM module of which the toolchain made it, and the last line of the check."""
    package.refuse_changes()
    if kept := kept_module():
        return kept
    package.build(jobs, [CRATE], {**os.environ, "PATH": f"{make_kit(room)}:{os.environ['PATH']}"})
    log = Path(package.builder.room(), f"{CRATE}.log")
    verdict = re.findall(r"^logic=proved .*$", log.read_text(encoding="utf-8", errors="replace"), re.M)
    if not verdict or not (room / "module.bc").exists():
        package.fail(f"the toolchain gave no module, or no verdict: {log} has all that it said")
    keep_module(room / "module.bc", verdict[-1])
    return room / "module.bc", verdict[-1]


# ---- its text for WebAssembly
def shuffle():
    """The shuffle of bytes of x86-64 as LLVM text: 0 if the top bit of an index is set, else the byte that its low four bits name."""
    lines = ["define internal <16 x i8> @ember.shuffle(<16 x i8> %bytes, <16 x i8> %indices) alwaysinline {"]
    made = "zeroinitializer"
    for i in range(16):
        lines += [
            f"  %index{i} = extractelement <16 x i8> %indices, i32 {i}",
            f"  %low{i} = and i8 %index{i}, 15",
            f"  %byte{i} = extractelement <16 x i8> %bytes, i8 %low{i}",
            f"  %is_set{i} = icmp slt i8 %index{i}, 0",
            f"  %it{i} = select i1 %is_set{i}, i8 0, i8 %byte{i}",
            f"  %made{i} = insertelement <16 x i8> {made}, i8 %it{i}, i32 {i}",
        ]
        made = f"%made{i}"
    return "\n".join([*lines, f"  ret <16 x i8> {made}", "}", ""])


def target_lines():
    """What clang writes at the head of a module for WebAssembly."""
    empty = [kit() / "toolchain/bin/clang", *OPTIONS, "-x", "c", "-S", "-emit-llvm", "-o", "-", "-"]
    text = subprocess.run(empty, input="", stdout=subprocess.PIPE, text=True, check=True).stdout
    return dict(re.findall(r"^(target \w+) = (.*)$", text, re.M))


def without_calls(text):
    """The text without calls that WebAssembly lacks."""
    for name, kind in (("f32", "float"), ("f64", "double")):
        if f"@llvm.arithmetic.fence.{name}" in text:
            text = re.sub(rf"^declare .*@llvm\.arithmetic\.fence\.{name}\(.*\n", "", text, flags=re.M)
            text = text.replace(f"@llvm.arithmetic.fence.{name}", f"@ember.fence.{name}") + FENCE.format(type=kind, name=name)
    if f"@{SHUFFLE}" in text:
        text = re.sub(rf"^declare .*@{re.escape(SHUFFLE)}\(.*\n", "", text, flags=re.M)
        text = text.replace(f"@{SHUFFLE}", "@ember.shuffle") + shuffle()
    left = sorted(set(re.findall(r"@(llvm\.x86\.[\w.]+)", text)))
    if left:
        package.fail(f"the library calls what only x86-64 has: {', '.join(left)}")
    return text


def text_for_web(text):
    """The text of an LLVM module of x86-64 as one for WebAssembly with pointers of 64 bits."""
    for line, value in target_lines().items():
        text, count = re.subn(rf"^{line} = .*$", f"{line} = {value}", text, flags=re.M)
        if count != 1:
            package.fail(f"the module has {count} lines {line}")
    text = re.sub(r' ?"(?:target-cpu|target-features|tune-cpu|probe-stack|stack-probe-size)"="[^"]*"', "", text)
    # LLVM refuses a group of none.
    text = re.sub(r"^(attributes #\d+ = \{) *\}$", r'\1 "none" }', text, flags=re.M)
    return without_calls(text)


# ---- the module
def compile_part(part, room):
    to = room / f"{part}.o"
    run([kit() / "toolchain/bin/clang", *OPTIONS, "-ffreestanding", "-fno-builtin", "-c", package.TOP / f"web/{part}.c", "-o", to])
    return to


def link(objects, exports, room):
    """Links these, and returns the path of the module, which has a memory of 32 bits."""
    # The linker is the same file as clang, under another name.
    linker = room / "wasm-ld"
    linker.symlink_to(kit() / "toolchain/bin/clang")
    how = ["-mwasm64", "--no-entry", "-z", f"stack-size={STACK}", "--stack-first", "--gc-sections", "-s", *(f"--export={it}" for it in exports)]
    run([linker, *how, *objects, "-o", room / "wide.wasm"])
    run(["wasm-opt", *FEATURES, "--memory64-lowering", "-Os", room / "wide.wasm", "-o", room / "module.wasm"])
    return room / "module.wasm"


def make_module(llvm, room):
    """Compiles an LLVM module of x86-64 for WebAssembly, and links it with the C parts."""
    clang = kit() / "toolchain/bin/clang"
    run([clang, "-x", "ir", llvm, "-S", "-emit-llvm", "-o", room / "module.ll", "--target=x86_64-unknown-linux-gnu"])
    (room / "web.ll").write_text(text_for_web((room / "module.ll").read_text(encoding="utf-8")), encoding="utf-8")
    run([clang, *OPTIONS, "-x", "ir", room / "web.ll", "-c", "-o", room / "module.o"])
    return link([room / "module.o", *(compile_part(it, room) for it in PARTS)], EXPORTS, room)


def made(jobs):
    """Proves and builds the library, and returns the bytes of the page's module and the last line of the library's check."""
    refuse_other_compiler()
    with tempfile.TemporaryDirectory(prefix="ember-page-") as folder:
        llvm, verdict = build_module(Path(folder), jobs)
        return make_module(llvm, Path(folder)).read_bytes(), verdict


def parts():
    """Returns the bytes of a module of the C parts alone."""
    with tempfile.TemporaryDirectory(prefix="ember-page-") as folder:
        return link([compile_part(it, Path(folder)) for it in PARTS], EXPORTS_OF_PARTS, Path(folder)).read_bytes()


def version_of_optimizer():
    return subprocess.run(["wasm-opt", "--version"], stdout=subprocess.PIPE, text=True, check=True).stdout.strip()
