"""Times OpenCV's transforms and scipy's indices on sheets, one thread each.

For each sheet a line `FILE W H` comes on standard input; its bytes stand in the file, 0 for bare. For each a line with the shortest time of
ROUNDS runs goes out, in nanoseconds a pixel, a dash for one that is not installed: OpenCV's precise Euclidean transform; its L1, C and L2
with a mask of 3 by 3, into an array that is there before; scipy's indices.
"""

import sys
import time

try:
    import numpy
except ImportError:
    numpy = None
try:
    import cv2

    cv2.setNumThreads(1)
except ImportError:
    cv2 = None
try:
    from scipy import ndimage
except ImportError:
    ndimage = None


def shortest(call, rounds, pixels):
    best = None
    for _ in range(rounds):
        start = time.perf_counter_ns()
        call()
        took = time.perf_counter_ns() - start
        best = took if best is None else min(best, took)
    return f"{best / pixels:.3f}"


rounds = int(sys.argv[1])
for line in sys.stdin:
    file, w, h = line.rsplit(" ", 2)
    w, h = int(w), int(h)
    times = ["-"] * 5
    if numpy is not None:
        # both look for the nearest 0
        bare = (numpy.fromfile(file, dtype=numpy.uint8).reshape(h, w) == 0).astype(numpy.uint8)
        if cv2 is not None:
            times[0] = shortest(lambda: cv2.distanceTransform(bare, cv2.DIST_L2, cv2.DIST_MASK_PRECISE), rounds, w * h)
            out = numpy.zeros((h, w), dtype=numpy.float32)
            for at, kind in enumerate((cv2.DIST_L1, cv2.DIST_C, cv2.DIST_L2), start=1):
                times[at] = shortest(lambda: cv2.distanceTransform(bare, kind, cv2.DIST_MASK_3, out), rounds, w * h)
        if ndimage is not None:
            times[4] = shortest(lambda: ndimage.distance_transform_edt(bare, return_distances=False, return_indices=True), rounds, w * h)
    print(*times, flush=True)
