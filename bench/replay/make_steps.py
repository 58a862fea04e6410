"""Writes a steps file of about 10 MB: random puts and takes of 16 sources, with some closes near the end.

    make_steps.py FILE
"""
import random
import sys

MOST = 10_000_000
SOURCES = 16

drawn = random.Random(16)
lines, size = [], 0
while size < MOST:
    far = size > MOST * 9 // 10
    kind = drawn.random()
    if kind < 0.5:
        line = f"put {drawn.randrange(SOURCES)} {drawn.getrandbits(drawn.randrange(1, 65))}\n"
    elif far and kind < 0.5002:
        line = f"close {drawn.randrange(SOURCES)}\n"
    else:
        line = "take\n"
    lines.append(line)
    size += len(line)
with open(sys.argv[1], "w", encoding="ascii") as file:
    file.write("".join(lines))
