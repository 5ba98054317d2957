"""labels.py FILE EPSILON MIN_SAMPLES: sklearn's DBSCAN over a file of doubles x, y; prints CPU seconds and points labelled."""
import sys
import time

import numpy
from sklearn.cluster import DBSCAN

points = numpy.fromfile(sys.argv[1]).reshape(-1, 2)
best = None
for _ in range(1 if len(points) > 500000 else 3):
    start = time.process_time()
    labels = DBSCAN(eps=float(sys.argv[2]), min_samples=int(sys.argv[3])).fit(points).labels_
    took = time.process_time() - start
    best = took if best is None else min(best, took)
print(best, int((labels >= 0).sum()))
