"""What Blender says of an STL file, one `said key number` a line: blender -b --factory-startup --python ask_blender.py -- FILE

Blender's importer joins equal corners. tests/check_programs runs this.
"""
import sys

import bmesh
import bpy

bpy.ops.wm.read_homefile(use_empty=True, use_factory_startup=True)
path = sys.argv[sys.argv.index("--") + 1]
if bpy.app.version >= (4, 2, 0):
    bpy.ops.wm.stl_import(filepath=path)
else:
    bpy.ops.import_mesh.stl(filepath=path)
mesh = bmesh.new()
mesh.from_mesh(bpy.data.meshes[0])
print("said triangles", len(mesh.faces))
print("said border", sum(edge.is_boundary for edge in mesh.edges))
print("said nonmanifold", sum(not edge.is_manifold for edge in mesh.edges))
print("said turned", sum(edge.is_manifold and not edge.is_contiguous for edge in mesh.edges))
print("said volume", mesh.calc_volume(signed=True))
