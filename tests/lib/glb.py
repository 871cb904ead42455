"""What a written GLB has, by the rules of glTF 2.0. Everything that the rules ask of such a file is compared with its bytes."""
import json
import math
import struct

FLOAT = 5126


def _chunks(data):
    """The chunks behind the 12 bytes of the header, each with its type."""
    found, place = [], 12
    while place < len(data):
        size, kind = struct.unpack_from("<I4s", data, place)
        found.append((kind, data[place + 8 : place + 8 + size]))
        place += 8 + size
    return found if place == len(data) else []


def _parsed(text):
    """JSON, without the words for infinities and NaN, which only Python takes."""

    def refuse(word):
        raise ValueError(word)

    return json.loads(text, parse_constant=refuse)


def _points(asset, numbers, accessor):
    """The points of an accessor. Its part of the buffer is inside, and begins at a multiple of four bytes."""
    view = asset["bufferViews"][accessor["bufferView"]]
    count, begin, size = accessor["count"], view["byteOffset"], view["byteLength"]
    if accessor["componentType"] != FLOAT or accessor["type"] != "VEC3" or begin % 4 or size != 12 * count or begin + size > len(numbers):
        raise ValueError(f"accessor {accessor} of {view}")
    return [struct.unpack_from("<3f", numbers, begin + 12 * i) for i in range(count)]


def parts_of(data):
    """The corners and the normals of a GLB, or a ValueError that says which rule it breaks. Without a mesh it has none."""
    if data[:4] != b"glTF" or struct.unpack_from("<2I", data, 4) != (2, len(data)):
        raise ValueError(f"header {data[:12]!r} of {len(data)} bytes")
    chunks = _chunks(data)
    kinds = [kind for kind, _ in chunks]
    if kinds not in ([b"JSON"], [b"JSON", b"BIN\0"]) or any(len(part) % 4 for _, part in chunks):
        raise ValueError(f"chunks {kinds}")
    asset = _parsed(chunks[0][1])
    if asset["asset"]["version"] != "2.0":
        raise ValueError(f"version {asset['asset']}")
    if len(chunks) == 1:
        if asset["scenes"] != [{}] or {"buffers", "meshes", "nodes"} & asset.keys():
            raise ValueError("a mesh without numbers")
        return [], []
    numbers = chunks[1][1]
    (mesh,), (buffer,) = asset["meshes"], asset["buffers"]
    (primitive,) = mesh["primitives"]
    if buffer != {"byteLength": len(numbers)} or asset["nodes"] != [{"mesh": 0}] or asset["scenes"] != [{"nodes": [0]}] or asset["scene"]:
        raise ValueError("the scene, or the length of the buffer")
    if "indices" in primitive or primitive.get("mode", 4) != 4 or primitive["attributes"].keys() != {"POSITION", "NORMAL"}:
        raise ValueError(f"primitive {primitive}")
    accessors = [asset["accessors"][primitive["attributes"][name]] for name in ("POSITION", "NORMAL")]
    corners, normals = (_points(asset, numbers, it) for it in accessors)
    bounds = [[f(corner[i] for corner in corners) for i in range(3)] for f in (min, max)]
    if [accessors[0]["min"], accessors[0]["max"]] != bounds:
        raise ValueError(f"bounds {accessors[0]}, not {bounds}")
    if len(normals) != len(corners) or len(corners) % 3 or 24 * len(corners) != len(numbers):
        raise ValueError(f"{len(corners)} corners, {len(normals)} normals, {len(numbers)} bytes")
    if any(abs(math.hypot(*it) - 1) > 1e-5 for it in normals):
        raise ValueError("a normal that hasn't the length 1")
    return corners, normals


def as_stl(data):
    """The triangles of a GLB as the bytes of a binary STL with an empty header, to compare them."""
    corners, normals = parts_of(data)
    if any(normals[i] != normals[i + 1] or normals[i] != normals[i + 2] for i in range(0, len(normals), 3)):
        raise ValueError("the corners of a triangle have different normals")
    rows = [struct.pack("<12fH", *normals[i], *corners[i], *corners[i + 1], *corners[i + 2], 0) for i in range(0, len(corners), 3)]
    return bytes(80) + struct.pack("<I", len(rows)) + b"".join(rows)
