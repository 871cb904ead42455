"""What ember.h declares, for ctypes: tests/check_library has the same sizes and offsets of the same structs."""
from __future__ import annotations

import ctypes
import functools
from typing import Any

# EMBER_ABI, EMBER_DIGITS, EMBER_SOURCES, EMBER_NO_PLACE, EMBER_TURNED and EMBER_SEVERAL.
ABI = 1
DIGITS_OF_STEP = 0xFFFF_FFFF
WANTS_SOURCES = 1
NO_PLACE = 0xFFFF_FFFF_FFFF_FFFF
TURNED = 1
SEVERAL = 2


class Bytes(ctypes.Structure):
    """ember_bytes: lent for the call."""

    _fields_ = [("at", ctypes.c_char_p), ("len", ctypes.c_size_t)]


class Block(ctypes.Structure):
    """ember_block: owned after the call."""

    _fields_ = [("at", ctypes.c_void_p), ("len", ctypes.c_size_t)]


class File(ctypes.Structure):
    """ember_file."""

    _fields_ = [("name", Bytes), ("bytes", Bytes)]


class Named(ctypes.Structure):
    """ember_named."""

    _fields_ = [("name", Block), ("bytes", Block)]


class Answer(ctypes.Structure):
    """ember_answer."""

    _fields_ = [
        ("status", ctypes.c_uint32), ("file", ctypes.c_uint32), ("place", ctypes.c_uint64), ("out", Block), ("err", Block),
        ("files", ctypes.POINTER(Named)), ("n_files", ctypes.c_size_t),
    ]  # fmt: skip


class Mesh(ctypes.Structure):
    """ember_mesh: lent for the call."""

    _fields_ = [("vertices", ctypes.c_void_p), ("n_vertices", ctypes.c_size_t), ("triangles", ctypes.c_void_p), ("n_triangles", ctypes.c_size_t)]


class Solid(ctypes.Structure):
    """ember_solid."""

    _fields_ = [
        ("status", ctypes.c_uint32), ("mesh", ctypes.c_uint32), ("place", ctypes.c_uint64), ("line", Block),
        ("vertices", ctypes.c_void_p), ("n_vertices", ctypes.c_size_t), ("triangles", ctypes.c_void_p), ("n_triangles", ctypes.c_size_t),
        ("sources", ctypes.c_void_p), ("step", ctypes.c_uint64 * 2), ("offset", ctypes.c_uint64 * 2 * 3), ("faces", ctypes.c_uint64),
        ("planes", ctypes.c_uint64), ("vanished", ctypes.c_uint64), ("shared", ctypes.c_uint64), ("flat", ctypes.c_uint64),
        ("turned", ctypes.c_uint64), ("is_manifold", ctypes.c_uint64),
    ]  # fmt: skip


@functools.lru_cache(maxsize=None)
def loaded(path: str) -> Any:
    """Returns the library. Raises ImportError if its interface is another one."""
    found = ctypes.CDLL(path)
    found.ember_abi.restype = ctypes.c_uint32
    if found.ember_abi() != ABI:
        raise ImportError(f"{path} has version {found.ember_abi()} of its interface, and not {ABI}; install the one of this package")
    size = ctypes.c_size_t
    command, boolean = found.ember_mesh_command, found.ember_boolean_with
    command.argtypes = [ctypes.POINTER(Bytes), size, ctypes.POINTER(File), size, ctypes.POINTER(Answer)]
    text = (ctypes.c_char_p, size)
    boolean.argtypes = [ctypes.POINTER(Mesh), size, *text, *text, ctypes.c_uint32, ctypes.c_uint32, ctypes.POINTER(Solid)]
    command.restype = boolean.restype = ctypes.c_uint32
    return found


@functools.lru_cache(maxsize=None)
def free() -> Any:
    """Returns the C library's `free`."""
    found = ctypes.CDLL(None).free
    found.argtypes, found.restype = [ctypes.c_void_p], None
    return found
