"""Times the Python package: arrays.py encode|decode TIMES FILM, as library.c does, of a film's first image."""

import re
import sys
import time

import jlsrec
import numpy as np

what, times, name = sys.argv[1], int(sys.argv[2]), sys.argv[3]
film = open(name, "rb").read()
heading = re.match(rb"(P[56])\s+(\d+)\s+(\d+)\s+(\d+)\s", film)
width, height, maxval = (int(word) for word in heading.groups()[1:])
kind = np.uint8 if maxval < 256 else np.dtype(">u2")
shape = (height, width) if heading[1] == b"P5" else (height, width, 3)
array = np.frombuffer(film, kind, int(np.prod(shape)), heading.end()).astype(np.uint16).reshape(shape)
data = jlsrec.encode(array, maxval)
# Memory that is there, as library.c's: the first results of a process find none, and take 2 ms more each.
out = np.ones_like(array)
for _ in range(2):
    jlsrec.encode(array, maxval)
begin = time.perf_counter()
for _ in range(times):
    if what == "encode":
        jlsrec.encode(array, maxval)
    else:
        jlsrec.decode(data, out)
took = time.perf_counter() - begin
print(f"{name}: {took / times / array.size * 1e9:.3f} ns a sample", file=sys.stderr)
