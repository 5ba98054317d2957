#!/usr/bin/env python3
"""Makes the maps of crates/build_maps and the trees that are expected of them, from the rules of the build alone:
a part of at most leaf-size points is a leaf; else it is split on X where the X extent >= the Y extent, else on Y; the left
half (count / 2, rounded down) is the lowest by IEEE totalOrder of that coordinate, then by index; nodes are numbered parent,
left subtree, right subtree; a box's ends are the least and the greatest coordinate by totalOrder. Python's floats are
binary64. The seed is fixed, so each run writes the same bytes.

From the repository's root:
    python3 oracle/build_maps.py
It writes crates/build_maps/stdin and crates/build_maps/stdout.
"""
import random
import struct

LIMIT = 1048576
draw = random.Random(20260101)


def bits(x):
    return struct.unpack("<Q", struct.pack("<d", x))[0]


def key(x):
    """A whole number whose order is totalOrder's."""
    b = bits(x)
    return 2**64 - 1 - b if b >> 63 else b + 2**63


def node_count(c, leaf):
    if c == 0:
        return 0
    return 1 if c <= leaf else 1 + node_count(c // 2, leaf) + node_count(c - c // 2, leaf)


def subtree(points, part, start, leaf, rows):
    """Appends the rows of the subtree over a part to rows; a row is start, end, left, right, the box's ends, a leaf's indices."""
    ends = []
    for axis in (0, 1):
        coordinates = [points[i][axis] for i in part]
        ends += [min(coordinates, key=key), max(coordinates, key=key)]
    own = len(rows)
    rows.append(None)
    if len(part) <= leaf:
        rows[own] = (start, start + len(part), 0, 0, ends, sorted(part))
        return
    axis = 0 if ends[1] - ends[0] >= ends[3] - ends[2] else 1
    part = sorted(part, key=lambda i: (key(points[i][axis]), i))
    half = len(part) // 2
    left = len(rows)
    subtree(points, part[:half], start, leaf, rows)
    right = len(rows)
    subtree(points, part[half:], start + half, leaf, rows)
    rows[own] = (start, start + len(part), left, right, ends, [])


def expected(coordinates, leaf_size, index_room, node_room):
    leaf = max(leaf_size, 1)
    if len(coordinates) % 2:
        return ["refused 1 0 "]
    points = list(zip(coordinates[::2], coordinates[1::2]))
    n = len(points)
    if n > LIMIT:
        return ["refused 2 0 "]
    for i, (x, y) in enumerate(points):
        if x - x != 0 or y - y != 0:
            return ["refused 3 %d " % i]
    if index_room < n:
        return ["refused 6 %d " % n]
    need = node_count(n, leaf)
    if node_room < need:
        return ["refused 7 %d " % need]
    rows = []
    if n:
        subtree(points, list(range(n)), 0, leaf, rows)
    assert len(rows) == need
    lines = ["nodes %d " % need]
    for v, (start, end, left, right, ends, members) in enumerate(rows):
        words = [str(w) for w in (v, start, end, left, right)] + ["%016x" % bits(e) for e in ends] + [str(m) for m in members]
        lines.append(" ".join(words) + " ")
    return lines


def near_grid(n):
    """Some hundred points on a small grid, so that many coordinates are level; zeros of both signs."""
    some = [-3.0, -2.0, -1.0, -0.0, 0.0, 1.0, 2.0, 3.0]
    return [draw.choice(some) for _ in range(2 * n)]


def spread(n):
    return [draw.uniform(-1000, 1000) for _ in range(2 * n)]


def far(n):
    """All magnitudes, subnormal ones and those whose extent overflows included."""
    return [draw.choice([-1.0, 1.0]) * draw.random() * 2.0 ** draw.randrange(-1074, 1023) for _ in range(2 * n)]


def maps():
    """The coordinates, the leaf size, and how much room is left over (below zero: short) in the index and node slices."""
    for n in (0, 1, 2, 3):
        for leaf in (0, 1, 2, 16):
            yield near_grid(n), leaf, 0, 0
    for n in (17, 33):
        for leaf in (1, 3, 16, 32, 4294967295):
            yield near_grid(n), leaf, 0, 0
            yield spread(n), leaf, 3, 2
    yield [1.0, 0.0] * 20, 4, 0, 0                                      # all equal
    yield [0.0, 0.0, -0.0, 0.0, 0.0, -0.0, -0.0, -0.0], 1, 0, 0         # zeros of both signs
    yield [c for i in range(40) for c in (float(i), float(i))], 5, 0, 0  # equal extents: split on X
    yield [c for i in range(40) for c in (float(-i), 2.0 * i)], 5, 0, 0  # higher than wide: split on Y
    yield [c for i in range(60) for c in (float(min(i, 60 - i)), 0.0)], 2, 0, 0
    for n, leaf in ((100, 1), (300, 7), (400, 16)):
        yield near_grid(n), leaf, 0, 0
        yield spread(n), leaf, 0, 0
        yield far(n // 2), leaf, 0, 0
    yield spread(5)[:-1], 1, 0, 0                                       # 1
    yield [0.0, 1.0, 2.0, float("inf"), float("-inf"), 3.0], 1, -9, -9    # 3, index 1, before 6 and 7
    yield spread(9), 2, -1, -1                                          # 6 before 7
    yield spread(9), 2, 0, -1                                           # 7


def main():
    stdin, stdout = [], []
    for coordinates, leaf, index_more, node_more in maps():
        n = len(coordinates) // 2
        index_room = max(n + index_more, 0)
        node_room = max(node_count(n, max(leaf, 1)) + node_more, 0)
        stdin += [len(coordinates), leaf, index_room, node_room] + [bits(c) for c in coordinates]
        stdout += expected(coordinates, leaf, index_room, node_room)
    with open("crates/build_maps/stdin", "w") as f:
        f.write("".join("%016X\n" % w for w in stdin))
    with open("crates/build_maps/stdout", "w") as f:
        f.write("".join(line + "\n" for line in stdout))


main()
