"""Meshes as files of each format that ember-mesh reads. A mesh is its corners and its faces, as in meshes.py; corners may be
whole numbers, floats or decimals, and text shows each as Python does."""
import base64
import json
import struct


def _facets(mesh):
    """Each face as triangles that share its first corner, by their corners."""
    corners, faces = mesh
    return [(corners[f[0]], corners[f[i]], corners[f[i + 1]]) for f in faces for i in range(1, len(f) - 1)]


def _words(corner):
    return " ".join(map(str, corner))


def binary_stl(mesh, head=b"made by a test"):
    facets = _facets(mesh)
    body = b"".join(struct.pack("<12fH", 0, 0, 0, *(float(n) for corner in it for n in corner), 0) for it in facets)
    return head.ljust(80) + struct.pack("<I", len(facets)) + body


def ascii_stl(mesh, name="part"):
    lines = [f"solid {name}"]
    for facet in _facets(mesh):
        lines += ["  facet normal 0 0 0", "    outer loop", *(f"      vertex {_words(it)}" for it in facet), "    endloop", "  endfacet"]
    return "\n".join([*lines, f"endsolid {name}", ""]).encode()


def obj(mesh, backwards=False):
    """With `backwards`, corners are counted from the last one, by negative numbers."""
    shift = -len(mesh[0]) if backwards else 1
    lines = [f"v {_words(it)}\n" for it in mesh[0]] + ["f " + " ".join(str(n + shift) for n in face) + "\n" for face in mesh[1]]
    return "".join(lines).encode()


def ply(mesh, form="ascii", scalar="float"):
    """With one more property of each vertex and each face, which a reader of meshes passes over."""
    corners, faces = mesh
    head = (
        f"ply\nformat {form} 1.0\ncomment made by a test\nelement vertex {len(corners)}\n"
        + "".join(f"property {scalar} {axis}\n" for axis in "xyz")
        + f"property uchar red\nelement face {len(faces)}\nproperty list uchar int vertex_indices\nproperty short flags\nend_header\n"
    )
    if form == "ascii":
        rows = [f"{_words(it)} 200\n" for it in corners] + [" ".join(map(str, (len(face), *face, 7))) + "\n" for face in faces]
        return (head + "".join(rows)).encode()
    order = "<" if form == "binary_little_endian" else ">"
    kind = {"float": "f", "double": "d"}[scalar]
    rows = [struct.pack(f"{order}3{kind}B", *map(float, it), 200) for it in corners]
    rows += [struct.pack(f"{order}B{len(face)}ih", len(face), *face, 7) for face in faces]
    return head.encode() + b"".join(rows)


def off(mesh, head="OFF # made by a test\n", more=""):
    """With another head than that line, and with more numbers of each vertex, which a reader of meshes passes over."""
    corners, faces = mesh
    rows = [_words(it) + more for it in corners] + [" ".join(map(str, (len(face), *face))) for face in faces]
    return head.encode() + "\n".join([f"{len(corners)} {len(faces)} 0", *rows, ""]).encode()


def _document(positions, indices, kind, buffer):
    """A glTF of one mesh, and of a list of points, which a reader of meshes passes over. Its one buffer holds the positions, and then the indices."""
    size = len(positions) + len(indices)
    views = [{"buffer": 0, "byteLength": len(positions)}, {"buffer": 0, "byteOffset": len(positions), "byteLength": len(indices)}]
    width = {"B": (5121, 1), "H": (5123, 2), "I": (5125, 4)}[kind]
    accessors = [
        {"bufferView": 0, "componentType": 5126, "type": "VEC3", "count": len(positions) // 12},
        {"bufferView": 1, "componentType": width[0], "type": "SCALAR", "count": len(indices) // width[1]},
    ]
    points = {"mode": 0, "attributes": {"POSITION": 0}}
    return {
        "asset": {"version": "2.0", "generator": "a test"},
        "scene": 0,
        "scenes": [{"nodes": [1]}],
        "nodes": [{"mesh": 0, "translation": [0, 0, 0]}, {"children": [0], "name": "root"}],
        "meshes": [{"primitives": [points, {"attributes": {"POSITION": 0}, "indices": 1}]}],
        "accessors": accessors,
        "bufferViews": views,
        "buffers": [{"byteLength": size, **buffer}],
    }


def _numbers(mesh, kind):
    corners, faces = mesh
    indices = [n for face in faces for i in range(1, len(face) - 1) for n in (face[0], face[i], face[i + 1])]
    return (
        b"".join(struct.pack("<3f", *map(float, it)) for it in corners),
        struct.pack(f"<{len(indices)}{kind}", *indices),
    )


def _chunk(kind, data, filler):
    data += filler * (-len(data) % 4)
    return struct.pack("<I4s", len(data), kind) + data


def glb(mesh, kind="I"):
    positions, indices = _numbers(mesh, kind)
    text = json.dumps(_document(positions, indices, kind, {})).encode()
    body = _chunk(b"JSON", text, b" ") + _chunk(b"BIN\0", positions + indices, b"\0")
    return struct.pack("<4sII", b"glTF", 2, 12 + len(body)) + body


def gltf(mesh, kind="H"):
    positions, indices = _numbers(mesh, kind)
    text = base64.b64encode(positions + indices).decode()
    document = _document(positions, indices, kind, {"uri": f"data:application/octet-stream;base64,{text}"})
    return json.dumps(document, indent=1).encode()


FORMATS = {
    "binary.stl": binary_stl,
    "ascii.stl": ascii_stl,
    "obj": obj,
    "ascii.ply": ply,
    "little.ply": lambda mesh: ply(mesh, "binary_little_endian"),
    "big.ply": lambda mesh: ply(mesh, "binary_big_endian", "double"),
    "off": off,
    "marked.off": lambda mesh: off(mesh, "\ufeff# made by a test\n\nstCnOFF # in any case\n", " 0.5 0.5 255 0 0 255 0 0 1"),
    "bare.off": lambda mesh: off(mesh, "# made by a test\n"),
    "glb": glb,
    "gltf": gltf,
}
