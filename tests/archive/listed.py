"""Runs `play --frames --index` over recordings and indexes: listed.py PROGRAM, in a folder of its own. Prints each case that fails,
and how many passed. Indexes are written here, by hashlib, and images by the codestreams' authors."""

import hashlib
import os
import resource
import subprocess
import sys
import time

sys.dont_write_bytecode = True
sys.path.insert(0, os.path.join(os.path.dirname(os.path.abspath(__file__)), "..", "program"))
from cases import Cases, write
from codestreams import ANNEX_H, BLACK, BLACK_AGAIN, BROKEN, COLOUR, MIXED, SIXTEEN, WHITE, film, recording

cases = Cases(sys.argv[1])
count, says = cases.count, cases.says


def lines_of(frames, sums=True):
    lines, offset = [], 0
    for number, (stream, _, columns) in enumerate(frames):
        line = f"{number} {offset} {len(stream)} {columns}"
        lines.append((line + f" {hashlib.sha256(stream).hexdigest()}" * sums + "\n").encode())
        offset += len(stream)
    return lines


def play(frames, index="index", name="film.jls"):
    return ("play", "--frames", frames, "--index", index, name)


# ---- each part of a recording

frames = MIXED * 3
write("film.jls", recording(frames))
for sums in (True, False):
    write("index", b"".join(lines_of(frames, sums)))
    for first in range(len(frames)):
        says(0, film(frames[first:]), "", *play(f"{first}.."))
        for last in range(first, len(frames)):
            says(0, film(frames[first : last + 1]), "", *play(f"{first}..{last}"))
    says(0, film(frames[:2]), "", *play("..1"))
    says(1, b"", f"jlsrec: index: only {len(frames)} frames\n", *play(f"{len(frames)}.."))
    says(1, b"", f"jlsrec: index: only {len(frames)} frames\n", *play("4294967294"))
    says(1, film(frames[4:]), f"jlsrec: index: only {len(frames)} frames\n", *play(f"4..{len(frames)}"))

# ---- an index of a front of the recording, or of more

write("front", b"".join(lines_of(frames)[:5]))
says(0, film(frames[1:5]), "", *play("1..", "front"))
says(1, film(frames[3:5]), "jlsrec: front: only 5 frames\n", *play("3..5", "front"))
write("more.index", b"".join(lines_of(frames + [BLACK])))
says(1, film(frames[-1:]), f"jlsrec: film.jls: frame {len(frames)}: truncated\n", *play(f"{len(frames) - 1}..", "more.index"))

# ---- damage: before the part, in it, and an index of another recording

damaged = bytearray(recording(frames))
damaged[3] ^= 255
write("damaged.jls", damaged)
write("index", b"".join(lines_of(frames)))
says(0, film(frames[1:]), "", *play("1..", name="damaged.jls"))
says(1, b"", "jlsrec: damaged.jls: frame 0: changed\n", *play("0", name="damaged.jls"))
other = [BLACK_AGAIN if it is BLACK else it for it in frames]
for number, (mine, its) in enumerate(zip(frames, other)):
    write("other.jls", recording(frames[:number] + [its] + frames[number + 1 :]))
    if mine[0] != its[0] and len(mine[0]) == len(its[0]):
        says(1, film(frames[:number]), f"jlsrec: other.jls: frame {number}: changed\n", *play("0..", name="other.jls"))
write("white.jls", recording([WHITE] * 3))
write("white.index", b"".join(lines_of([BLACK] * 3)))
says(1, b"", "jlsrec: white.jls: frame 1: changed\n", *play("1", "white.index", "white.jls"))

# ---- what isn't an index

lines = lines_of(frames)
for name, text in {
    "a line less": b"".join(lines[:2] + lines[3:]),
    "CR": b"".join(lines).replace(b"\n", b"\r\n"),
    "blanks": b"".join(lines).replace(b" ", b"  "),
    "an end within a line": b"".join(lines[:3])[:-1],
}.items():
    write("broken", text)
    at = 0 if name == "blanks" else 2
    says(1, b"", f"jlsrec: broken: line {at}: not of an index\n", *play("2", "broken"))
# What is shown rests on its own line alone, wherever that stands.
write("changed about", b"".join(lines[:2] + [lines[3], lines[2]] + lines[4:]))
says(0, film(frames[2:3]), "", *play("2", "changed about"))
write("offset", lines[0] + lines[1].replace(b"1 ", b"1 1", 1) + b"".join(lines[2:]))
status, shown, said = cases.run(*play("1", "offset"))
count("another offset", (status, shown) == (1, b"") and said, (status, shown, said))
write("binary", os.urandom(100000))
status, shown, said = cases.run(*play("7", "binary"))
count("bytes of any kind", (status, shown, said) == (1, b"", "jlsrec: binary: line 0: not of an index\n"), (status, shown, said))
write("empty", b"")
says(1, b"", "jlsrec: empty: only 0 frames\n", *play("0", "empty"))
says(1, b"", "jlsrec: none: can't open\n", *play("0", "none"))
says(1, b"", "jlsrec: none.jls: can't open\n", *play("0", name="none.jls"))
os.mkfifo("pipe")
says(1, b"", "jlsrec: pipe: can't be read twice, as --index asks for\n", *play("0", name="pipe"))
says(1, b"", "jlsrec: pipe: can't be read twice, as --index asks for\n", *play("0", "pipe"))
os.mkdir("folder")
says(1, b"", "jlsrec: folder: read failed\n", *play("0", "folder"))

# ---- one frame of 600,000: soon, and in little memory

number = 600000
stream, image, _ = BLACK
write("long.jls", stream * number)
with open("long.index", "wb") as index:
    sum = hashlib.sha256(stream).hexdigest()
    for at in range(number):
        index.write(f"{at} {at * len(stream)} {len(stream)} {BLACK[2]} {sum}\n".encode())
for at in (0, 1, 9, 10, 99999, 100000, 300001, number - 2, number - 1):
    says(0, film([BLACK]), "", *play(str(at), "long.index", "long.jls"))
says(0, film([BLACK] * 100), "", *play(f"{number - 100}..", "long.index", "long.jls"))
says(1, b"", f"jlsrec: long.index: only {number} frames\n", *play(str(number), "long.index", "long.jls"))


def least(*words):
    times = []
    for _ in range(9):
        began = time.monotonic()
        subprocess.run([cases.program, *words], stdout=subprocess.DEVNULL, check=True)
        times.append(time.monotonic() - began)
    return min(times)


begun, took = least("--version"), least(*play(str(number - 1), "long.index", "long.jls"))
count("the last of 600,000 frames within 30 ms more than the program's start", took < begun + 0.03, (begun, took))
cases.end()
