"""Mesh files that ember-mesh refuses: name, bytes, and why, as docs/use/MESHES.md lists the reasons."""

# A binary STL of one facet, all of whose coordinates are 0.
_FACET = bytes(80) + b"\x01" + bytes(53)
_CUT_OFF = "neither ASCII STL nor binary STL: {} bytes, but {} facets need {}; it is cut off, export anew"
_ASCII = b"ply\nformat ascii 1.0\n"
_VERTEX = b"element vertex %d\nproperty int x\nproperty int y\nproperty int z\n"
_FACE = b"element face 1\nproperty list int int vertex_index\nend_header\n"
_FAR = "a coordinate of 1e15 or more; export in another unit"

_STL = (
    (bytes(80) + b"\x0c" + bytes(573), _CUT_OFF.format(654, 12, 684)),
    (b"solid", _CUT_OFF.format(5, 0, 84)),
    (_FACET[:98] + b"\x80\x7f" + _FACET[100:], "facet 1: coordinate is not a finite number; remove the facet or export anew"),
    (_FACET[:99] + b"\x7f" + _FACET[100:], f"facet 1: {_FAR}"),
    (b"solid\nvertex 0 0 0\nendsolid", "line 2: vertex outside a facet; export anew"),
    (b"solid\nfacet\nendfacet\n", "line 3: facet without three vertices; export anew"),
    (b"solid\nfacet\n", "the file ends in a facet; it is cut off, export anew"),
    (b"solid\nfacet\nouter loop\nan_endless_word_of_a_file\n", "line 4: word 'an_endless_word_of_a' is none of STL; export anew"),
    (b"solid\nfacet\nvertex 0 1.2.3 0\n", "line 3: coordinate '1.2.3' is not a number; export anew"),
    (b"solid\nfacet\nvertex 0 0\n", "line 3: fewer than three coordinates; export anew"),
    (b"solid\nfacet\nvertex 0 0 -1e15\nvertex 0 0 0\nvertex 1 0 0\nendfacet", f"line 2: {_FAR}"),
    (b"", _CUT_OFF.format(0, 0, 84)),
)

_PLY = (
    (_ASCII, "PLY header has no end; export anew"),
    (_ASCII + b"element vertex\nend_header\n", "line 3: PLY header line not understood; export anew"),
    (b"ply\nend_header\n", "PLY format is none of ascii, binary_little_endian, binary_big_endian; export anew"),
    (_ASCII + _VERTEX % 2 + b"end_header\n0 0 0\n0 0\n", "vertex 2: the file ends or the row is short; it is cut off, export anew"),
    (_ASCII + _VERTEX % 1 + b"end_header\n0 nan 0\n", "vertex 1: coordinate is not a finite number; export anew"),
    (_ASCII + b"element vertex 1\nproperty int x\nend_header\n0\n", "PLY vertices have no x, y, z; export anew"),
    (_ASCII + _FACE.replace(b"vertex_index", b"strip") + b"0\n", "PLY faces have no vertex_indices (strips aren't read); export as triangles"),
    (_ASCII + _FACE + b"3 0 1 2\n", "face 1: names a vertex that isn't there; export anew"),
    (_ASCII + _FACE + b"0\n", "face 1: fewer than three corners; remove it"),
    (_ASCII + _VERTEX % 1 + _FACE + b"0 0 1e15\n3 0 0 0\n", f"face 1: {_FAR}"),
)

_OFF = (
    # A vertical tab separates words in an STL, but not in an OFF.
    (b"OFF\x0b3 1\n", "no triangles in it; is it a mesh?"),
    (b"# a comment\n4OFF 3 1\n", "line 2: vertices of four coordinates (4OFF) aren't read; export as OFF"),
    (b"stn4off 3 1\n", "line 1: vertices of four coordinates (4OFF) aren't read; export as OFF"),
    (b"3\n1 0\n", "OFF has no counts; export anew"),
    (b"\xef\xbb\xbfOFF 1 0\n0 n/a 0\n", "line 2: coordinate 'n/a' is not a number; export anew"),
    (b"OFF\n", "OFF has no counts; export anew"),
    (b"OFF 3 1\n0 0 0\n", "fewer lines than the counts say; it is cut off, export anew"),
    (b"OFF 1 0\n1 2\n", "line 2: fewer than three coordinates; export anew"),
    (b"OFF 1 0\n0 0x1 0\n", "line 2: coordinate '0x1' is not a number; export anew"),
    (b"OFF 1 1\n0 0 0\n2 0 0\n", "line 3: face not understood; export anew"),
    (b"OFF 1 1\n0 0 1e15\n3 0 0 0\n", f"line 3: {_FAR}"),
)

_OBJ = (
    (b"v 0 0 0\nv 1 0 0\nv nan 1 0\nf 1 2 3\n", "line 3: coordinate 'nan' is not a number; export anew"),
    (b"v 0 0 \xc3\xa91\x1b[0m\n", "line 1: coordinate '??1?[0m' is not a number; export anew"),
    (b"v 0 0\n", "line 1: fewer than three coordinates; export anew"),
    (
        b"v 0 0 0\nf 1 1 2/an/endless/reference/of/a/file\n",
        "line 2: reference '2/an/endless/reference/of/a/fi' names no vertex before it; export anew",
    ),
    (b"v 0 0 0\nf 1 1\n", "line 2: face with fewer than three corners; remove it"),
    (b"", "no triangles in it; is it a mesh?"),
    (b"v 1e15 0 0\nf 1 1 1\n", f"line 2: {_FAR}"),
)

_EXPORT = "export as STL, OBJ, PLY or OFF"
_MARKUP = b'\xef\xbb\xbf<?xml version="1.0" encoding="utf-8"?>\n'

_UNREAD = (
    # What is behind the first bytes doesn't count, even if it is a bad line of an OBJ.
    (b"PK\x03\x04\nf 1\n", f"3MF and other zip archives aren't read; {_EXPORT}"),
    (b"\x1f\x8b\x08", "gzip isn't read; unpack the file"),
    (b"Kaydara FBX Binary  \x00", f"FBX isn't read; {_EXPORT}"),
    (b"; FBX 7.3.0 project file\n", f"FBX isn't read; {_EXPORT}"),
    (b"ISO-10303-21;\nHEADER;\n", f"STEP isn't read; {_EXPORT}"),
    (b"#VRML V2.0 utf8\n", f"VRML isn't read; {_EXPORT}"),
    (_MARKUP + b"<COLLADA>\n", f"COLLADA isn't read; {_EXPORT}"),
    (_MARKUP + b"<!-- made by hand -->\n<amf unit='inch'>\n", f"AMF isn't read; {_EXPORT}"),
    (b"\n <!DOCTYPE HTML>\n", "an HTML page and no mesh; download the mesh itself"),
    (b"<html lang='en'>", "an HTML page and no mesh; download the mesh itself"),
)

def _scene(nodes, more=""):
    return f'{{"asset":{{"version":"2.0"}},"scenes":[{{"nodes":[0]}}],"nodes":[{nodes}]{more}}}'.encode()


_PRIMITIVE = ',"meshes":[{"primitives":[{"attributes":{"POSITION":0}}]}]'
_REQUIRED = ',"extensionsRequired":["%s"]'

_GLTF = (
    (b'{"asset":', "glTF isn't JSON; export anew"),
    (b"{}", "glTF has no scene; export anew"),
    (_scene(""), "node 0: not understood; export anew"),
    (_scene('{"children":[0]}'), "node 0: the scene has a node twice; export anew"),
    (_scene('{"scale":[1,1,2]}'), "node 0: is moved, turned or scaled; apply the transforms and export anew"),
    (_scene('{"mesh":3}'), "mesh 3: not understood; export anew"),
    (_scene('{"mesh":0}', _PRIMITIVE), "accessor 0: not understood; export anew"),
    (
        _scene('{"mesh":0}', _PRIMITIVE + ',"accessors":[{"componentType":5126,"type":"VEC3","count":3,"sparse":{}}]'),
        f"accessor 0: sparse accessors aren't read; {_EXPORT}",
    ),
    (_scene("{}", ',"buffers":[{"byteLength":4,"uri":"a.bin"}]'), "buffer 0: isn't in the file; export as GLB"),
    (_scene("{}", _REQUIRED % "KHR_draco_mesh_compression"), "glTF with Draco's compression isn't read; export without compression"),
    (_scene("{}", _REQUIRED % "EXT_meshopt_compression"), "glTF with meshopt's compression isn't read; export without compression"),
    (_scene("{}", _REQUIRED % "EXT_mesh_gpu_instancing"), f"glTF with EXT_mesh_gpu_instancing isn't read; {_EXPORT}"),
)

_GLB = (
    (b"glTF\x02\0\0\0", "GLB is cut off; export anew"),
    (b"glTF\x01\0\0\0\x0c\0\0\0", "GLB of version 1, and not 2; export anew"),
)

# Files whose only fault is that they have no triangles: they are empty meshes, and refused if there is no other mesh.
EMPTY = (
    ("a.stl", bytes(84)),
    ("b.stl", b"solid\nendsolid\n"),
    ("a.ply", _ASCII + b"end_header\n"),
    ("b.ply", _ASCII + _VERTEX % 1 + b"end_header\n0 0 0\n"),
    ("a.off", b"OFF 0 0\n"),
    ("b.off", b"OFF 1 0\n1 2 3\n"),
    ("a.gltf", _scene("{}")),
)

REFUSED = (
    *(("a.b.stl", *row) for row in _STL),
    # The name decides what is neither kind of STL.
    ("a.STL", b"v 0 0 0\nf 1 1 1\n", _CUT_OFF.format(16, 0, 84)),
    *(("a.ply", *row) for row in _PLY),
    *(("a.off", *row) for row in _OFF),
    *(("a.obj", *row) for row in _OBJ),
    *((name, *row) for name in ("a.gltf", "a.GLB") for row in _GLTF),
    *((name, *row) for name in ("a.glb", "a.obj", "a.stl") for row in _GLB),
    # JSON is taken for glTF by the name alone.
    ("a.json", b"{}", "no triangles in it; is it a mesh?"),
    *((name, *row) for name in ("a.obj", "a.stl", "a.3mf") for row in _UNREAD),
    # An element is looked for in the first 4,096 bytes, and in markup alone.
    ("a.dae", b"<?xml?>" + b" " * 4089 + b"<COLLADA", "no triangles in it; is it a mesh?"),
    ("a.txt", b"about <html>\n", "no triangles in it; is it a mesh?"),
)
