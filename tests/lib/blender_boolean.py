"""Blender's Boolean modifier: blender -b --factory-startup --python blender_boolean.py -- union|difference SOLVER A.off B.off OUT.off

SOLVER is FAST, EXACT or EXACT_SELF (Exact with its option "Self Intersection"). The result is written with its faces cut into triangles
by Blender. tests/compare_engines runs this.
"""
import sys

import bpy


def mesh_object(path):
    with open(path, encoding="ascii") as file:
        numbers = file.read().split("\n", 1)[1].split()
    corners, faces = int(numbers[0]), int(numbers[1])
    values = list(map(float, numbers[3 : 3 + 3 * corners]))
    places = list(map(int, numbers[3 + 3 * corners :]))
    mesh = bpy.data.meshes.new(path)
    mesh.from_pydata(list(zip(values[::3], values[1::3], values[2::3])), [], [tuple(places[4 * i + 1 : 4 * i + 4]) for i in range(faces)])
    mesh.update()
    made = bpy.data.objects.new(path, mesh)
    bpy.context.collection.objects.link(made)
    return made


def main():
    operation, solver, *paths, out = sys.argv[sys.argv.index("--") + 1 :]
    bpy.ops.wm.read_homefile(use_empty=True, use_factory_startup=True)
    first, second = map(mesh_object, paths)
    modifier = first.modifiers.new("boolean", "BOOLEAN")
    modifier.operation, modifier.object = operation.upper(), second
    modifier.solver, modifier.use_self = solver.partition("_")[0], solver.endswith("_SELF")
    result = first.evaluated_get(bpy.context.evaluated_depsgraph_get()).to_mesh()
    result.calc_loop_triangles()
    rows = [" ".join(map(repr, it.co)) for it in result.vertices]
    rows += ["3 %d %d %d" % tuple(it.vertices) for it in result.loop_triangles]
    with open(out, "w", encoding="ascii") as file:
        file.write("\n".join(["OFF", f"{len(result.vertices)} {len(result.loop_triangles)} 0", *rows, ""]))


main()
