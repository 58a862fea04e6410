"""Plays recordings by several workers: check.py PROGRAM FAIL_CALL REFUSE_THREAD FILM.., in a folder of its own. Prints each case that
fails, and how many passed."""

import os
import shutil
import sys

sys.dont_write_bytecode = True
sys.path.insert(0, os.path.join(os.path.dirname(os.path.abspath(__file__)), "..", "program"))
from cases import Cases, write
from codestreams import ANNEX_H, BLACK, BROKEN, MIXED, WHITE, film, recording

program, fail_call, refuse_thread, *films = sys.argv[1:]
cases = Cases(program)
says = cases.says
failing = {"LD_PRELOAD": fail_call}
refusing = {"LD_PRELOAD": refuse_thread}
ALL = ["1", "2", "3", "16"]


def plays(status, shown, said, name, workers=ALL, **environment):
    """A case for so many workers each."""
    for count in workers:
        says(status, shown, said, "play", "--workers", count, name, **environment)


# ---- whole recordings

for name, frames in [("none", []), ("one", [ANNEX_H]), ("mixed", MIXED), ("some", MIXED * 7), ("many", [BLACK, WHITE] * 100)]:
    plays(0, film(frames), "", write(f"{name}.jls", recording(frames)))
long = [BLACK, WHITE, BLACK] * 33334
plays(0, film(long), "", write("long.jls", recording(long)))

# Films whose codestreams are long enough for threads of their own.
for path in films:
    name = os.path.basename(path)
    shutil.copy(path, name)
    with open(name, "rb") as file:
        images = file.read()
    write("film.jls", cases.run("code", name)[1])
    for again in range(4):
        plays(0, images, "", "film.jls")
    # With fewer threads than are asked for, or with the program's own alone.
    for number in range(6):
        plays(0, images, "", "film.jls", REFUSE_THREAD=str(number), **refusing)
    # Threads decode: with the program's own at most as many as there are workers, in one batch or two.
    for workers in (1, 2, 4):
        write("asked", b"")
        says(0, images, "", "play", "--workers", str(workers), "film.jls", ASKED="asked", **refusing)
        with open("asked") as asked:
            lines = len(asked.readlines())
        cases.count(f"threads for {workers} workers", lines == 0 if workers == 1 else 0 < lines <= 2 * (workers - 1), lines)
    # A check by an index goes the same way.
    index = write("film.index", cases.run("index", "film.jls")[1])
    checked = cases.run("check", "--index", index, "film.jls")
    for number in range(6):
        for workers in ALL:
            says(*checked, "check", "--workers", workers, "--index", index, "film.jls", REFUSE_THREAD=str(number), **refusing)
    for workers in (1, 2, 4):
        write("asked", b"")
        says(*checked, "check", "--workers", str(workers), "--index", index, "film.jls", ASKED="asked", **refusing)
        with open("asked") as asked:
            lines = len(asked.readlines())
        cases.count(f"threads of a check by {workers} workers", lines == 0 if workers == 1 else 0 < lines <= 2 * (workers - 1), lines)
    # A codestream that breaks off after whole ones.
    size = os.path.getsize("film.jls")
    with open("film.jls", "rb") as file:
        write("cut.jls", file.read()[:-1])
    images_before = cases.run("play", "cut.jls")
    plays(*images_before, "cut.jls")
    cases.count("the frames before a cut", images_before[0] == 1 and images.startswith(images_before[1]), images_before[2])

# ---- faults

# At each place of a batch, and of the next.
for place in range(36):
    frames = [BLACK, WHITE] * 20
    write("fault.jls", recording(frames[:place] + [BROKEN] + frames[place:]))
    plays(1, film(frames[:place]), f"jlsrec: fault.jls: frame {place}: bad code in component 0\n", "fault.jls")
# The first of two is told.
write("faults.jls", recording([BLACK, BLACK, BROKEN, BLACK, (b"A", b"", "")]))
plays(1, film([BLACK, BLACK]), "jlsrec: faults.jls: frame 2: bad code in component 0\n", "faults.jls")
content = recording(MIXED)
ends = [len(recording(MIXED[:number])) for number in range(len(MIXED) + 1)]
for length in range(len(content)):
    frames = max(number for number, end in enumerate(ends) if end <= length)
    said = "" if length in ends else f"jlsrec: cut.jls: frame {frames}: truncated\n"
    write("cut.jls", content[:length])
    plays(1 if said else 0, film(MIXED[:frames]), said, "cut.jls", workers=["3"])
plays(1, "", "jlsrec: film.pgm: frame 0: no SOI\n", write("film.pgm", film([BLACK])))
plays(1, "", "jlsrec: no.jls: can't open\n", "no.jls")

# ---- devices that fail

# A read of 64 KiB fails: what was whole before it is shown.
for number in range(1, 4):
    shown = (number - 1) * 65536 // len(BLACK[0])
    plays(1, film(long[:shown]), "jlsrec: long.jls: read failed\n", "long.jls", FAIL_READ=str(number), **failing)
# A codestream at fault before it is told in its place.
place = 65536 // len(BLACK[0]) - 1
write("both.jls", recording(long[:place] + [BROKEN] + long))
said = f"jlsrec: both.jls: frame {place}: bad code in component 0\n"
plays(1, film(long[:place]), said, "both.jls", FAIL_READ="2", **failing)
# A write fails: the images before it are out.
for number in (1, 2, 5, 33):
    out = film(long[:number - 1])
    said = f"jlsrec: long.jls: output failed after {len(out)} bytes\n"
    plays(1, out, said, "long.jls", FAIL_WRITE=str(number), **failing)

# ---- words

for count in ["0", "17", "x", ""]:
    status, shown, said = cases.run("play", f"--workers={count}", "one.jls")
    cases.count(f"--workers={count}", status == 2 and not shown and "--workers" in said, (status, shown, said))
for option in [["--frames", "0"], ["--salvage"]]:
    status, shown, said = cases.run("play", "--workers", "2", *option, "one.jls")
    cases.count(f"--workers with {option[0]}", status == 2 and "goes with neither" in said, (status, shown, said))
    says(0, ANNEX_H[1], "", "play", "--workers", "1", *option, "one.jls")

cases.end()
