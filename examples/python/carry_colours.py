"""Colours of the parts on the result, carried over by `sources`: python3 carry_colours.py OUT.ply"""
import sys

import numpy as np

import ember

WHITE, RED, BLUE = (255, 255, 255), (200, 30, 30), (30, 30, 200)


def box(low, high):
    ends = np.array([low, high], dtype=float)
    vertices = np.array([[ends[number >> axis & 1][axis] for axis in range(3)] for number in range(8)])
    faces = [[0, 2, 1], [1, 2, 3], [4, 5, 6], [5, 7, 6], [0, 1, 4], [1, 5, 4], [2, 6, 3], [3, 6, 7], [0, 4, 2], [2, 4, 6], [1, 3, 5], [3, 7, 5]]
    return vertices, np.array(faces)


def write_ply(path, mesh, colours):
    """Writes an ASCII PLY with a colour for each triangle."""
    with open(path, "w", encoding="ascii") as file:
        print("ply\nformat ascii 1.0", file=file)
        print(f"element vertex {len(mesh.vertices)}\nproperty double x\nproperty double y\nproperty double z", file=file)
        print(f"element face {len(mesh.faces)}\nproperty list uchar uint vertex_indices", file=file)
        print("property uchar red\nproperty uchar green\nproperty uchar blue\nend_header", file=file)
        for vertex in mesh.vertices.tolist():
            print(*vertex, file=file)
        for face, colour in zip(mesh.faces.tolist(), colours.tolist()):
            print(3, *face, *colour, file=file)


def main():
    block, slot = box((0, 0, 0), (10, 10, 4)), box((4, -1, 2), (6, 11, 5))
    # A colour for each triangle of each mesh. The block is white, but red on its first two triangles; the slot is blue.
    colours = [np.tile(WHITE, (12, 1)), np.tile(BLUE, (12, 1))]
    colours[0][:2] = RED
    part = ember.difference(block, slot, sources=True)
    # A triangle with `several` lies on several input triangles, here of one colour. This is the colour of the first.
    found = np.array([colours[mesh][triangle] for mesh, triangle in zip(part.sources["mesh"], part.sources["triangle"])])
    write_ply(sys.argv[1], part, found)
    names = {WHITE: "white", RED: "red", BLUE: "blue"}
    for colour, count in zip(*np.unique(found, axis=0, return_counts=True)):
        print(f"{count} triangles are {names[tuple(colour.tolist())]}")


main()
