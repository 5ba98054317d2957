"""sklearn_labels.py LIBRARY: this library's labels against sklearn's DBSCAN over random maps of whole coordinates, epsilon
whole plus one half. LIBRARY is a shared object with yt_node_count and yt_label. sklearn too lets the cluster that is found
first keep a border point, so every label is compared. Prints the counts; exits 1 if anything differs.

Run by `oracle/run sklearn`; needs Debian's python3-sklearn.
"""
import ctypes
import sys

import numpy
from sklearn.cluster import DBSCAN

NOISE = 0xFFFFFFFF


def slice_of(a):
    return [a.ctypes.data_as(ctypes.c_void_p), ctypes.c_size_t(a.size)]


def labels_of(lib, points, epsilon, min_samples):
    n = len(points)
    nodes = lib.yt_node_count(ctypes.c_uint32(n), ctypes.c_uint32(16))
    flat = numpy.ascontiguousarray(points, dtype=numpy.float64).reshape(-1)
    indices, links = numpy.zeros(n, numpy.uint32), numpy.zeros(4 * nodes, numpy.uint32)
    boxes = numpy.zeros(6 * nodes)
    labels, work = numpy.zeros(n, numpy.uint32), numpy.zeros(2 * n, numpy.uint32)
    detail = ctypes.c_uint32()
    number = lib.yt_label(*slice_of(flat), ctypes.c_double(epsilon), ctypes.c_uint32(min_samples), *slice_of(indices),
                          *slice_of(boxes), *slice_of(links), *slice_of(labels), *slice_of(work), ctypes.byref(detail))
    if number:
        sys.exit(f"sklearn_labels: refusal {number}")
    return labels


def main():
    if len(sys.argv) != 2:
        sys.exit(__doc__)
    lib = ctypes.CDLL(sys.argv[1])
    lib.yt_node_count.restype = lib.yt_label.restype = ctypes.c_uint32
    draw = numpy.random.RandomState(7)
    maps = points_seen = noise = clusters = borders = wrong = 0
    for turn in range(1500):
        n = int(draw.randint(1, 60 if turn % 3 else 400)) if turn % 100 else 5000
        reach = int(draw.choice([4, 20, 100, 1000]))
        points = draw.randint(-reach, reach + 1, size=(n, 2)).astype(float)
        if turn % 4 == 0:
            points += draw.randint(0, 5, size=(n, 1)) * 10000.0
        epsilon = float(draw.randint(0, max(2, reach // 3))) + 0.5
        min_samples = int(draw.randint(1, 9))
        if min_samples > n:
            continue
        theirs = DBSCAN(eps=epsilon, min_samples=min_samples).fit(points)
        want = numpy.where(theirs.labels_ < 0, NOISE, theirs.labels_).astype(numpy.uint32)
        maps += 1
        points_seen += n
        noise += int((theirs.labels_ < 0).sum())
        clusters += int(theirs.labels_.max()) + 1
        borders += int((theirs.labels_ >= 0).sum()) - len(theirs.core_sample_indices_)
        if not numpy.array_equal(labels_of(lib, points, epsilon, min_samples), want):
            wrong += 1
            print(f"differs: map {turn}, n {n}, epsilon {epsilon}, min_samples {min_samples}", file=sys.stderr)
    print(f"{maps} maps, {points_seen} points, {clusters} clusters, {borders} border points, {noise} noise; maps that differ: {wrong}")
    sys.exit(wrong > 0)


main()
