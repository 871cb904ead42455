"""A block with a hole, from two meshes in numpy arrays: python3 two_meshes.py OUT.stl"""
import sys

import numpy as np

import ember


def prism(corners, low, high):
    """The upright prism over a convex polygon, which is an (n, 2) array of corners, counter-clockwise."""
    count = len(corners)
    vertices = np.vstack([np.column_stack([corners, np.full(count, height)]) for height in (low, high)])
    i = np.arange(count)
    j = np.roll(i, -1)
    fan = np.column_stack([np.zeros(count - 2, int), i[1:-1], i[2:]])
    walls = np.vstack([np.column_stack([i, j, j + count]), np.column_stack([i, j + count, i + count])])
    return vertices, np.vstack([fan[:, ::-1], fan + count, walls])


def circle(radius, count):
    angles = 2 * np.pi * np.arange(count) / count
    return radius * np.column_stack([np.cos(angles), np.sin(angles)])


def volume(mesh):
    a, b, c = (mesh.vertices[mesh.faces[:, it]] for it in range(3))
    return np.einsum("ij,ij->i", a, np.cross(b, c)).sum() / 6


def main():
    block = prism(np.array([[-10, -10], [10, -10], [10, 10], [-10, 10]]), 0, 5)
    drill = prism(circle(6, 48), -1, 6)
    part = ember.difference(block, drill, step="0.01")
    part.export(sys.argv[1])
    print(f"{len(part.faces)} triangles, volume {volume(part):.3f}; corners moved by at most {max(part.moves):.4f}")


main()
