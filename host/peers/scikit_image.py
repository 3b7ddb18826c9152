"""scikit_image.py FUNCTION IN.pgm OUT.raw CONNECTIVITY LIMIT RUNS: the best processor time, in seconds, of a function
of scikit-image, area_opening or max_tree."""
import sys
import time

import numpy
from skimage.morphology import area_opening, max_tree

function, source, target, connectivity, limit, runs = sys.argv[1:]
with open(source, "rb") as file:
    assert file.readline() == b"P5\n"
    width, height = map(int, file.readline().split())
    stored = ">u1" if int(file.readline()) <= 255 else ">u2"
    plate = numpy.frombuffer(file.read(), dtype=stored).reshape(height, width)
    plate = plate.astype(plate.dtype.newbyteorder("="))

reach = 1 if connectivity == "4" else 2
best = float("inf")
for _ in range(int(runs)):
    began = time.process_time()
    if function == "area_opening":
        answer = area_opening(plate, int(limit), reach)
    else:
        answer, _ = max_tree(plate, reach)
    best = min(best, time.process_time() - began)
if function == "area_opening":
    answer.tofile(target)
print(f"{best:.9f}")
