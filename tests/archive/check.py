"""Runs the program over recordings: check.py PROGRAM FAIL_CALL, in a folder of its own. Prints each case that fails, and how many
passed."""

import hashlib
import os
import sys

sys.dont_write_bytecode = True
sys.path.insert(0, os.path.join(os.path.dirname(os.path.abspath(__file__)), "..", "program"))
from cases import Cases, write
from codestreams import (
    ANNEX_H, BLACK, BLACK_AGAIN, BROKEN, COLOUR, MIXED, SIXTEEN, TWO_VALUES, WHITE, codestream, film, images_in, recording, segment,
)

program, fail_call = sys.argv[1:]
cases = Cases(program)
run, count, says, holds = cases.run, cases.count, cases.says, cases.holds


def index_of(frames, sums=True):
    lines, offset = "", 0
    for number, (stream, _, columns) in enumerate(frames):
        lines += f"{number} {offset} {len(stream)} {columns}"
        lines += f" {hashlib.sha256(stream).hexdigest()}\n" if sums else "\n"
        offset += len(stream)
    return lines


def checks(status, shown, said, index, name, **environment):
    """Cases of a check by an index: as it is, and by so many workers."""
    for workers in [[], ["--workers", "1"], ["--workers", "2"], ["--workers", "3"], ["--workers", "16"]]:
        says(status, shown, said, "check", *workers, "--index", index, name, **environment)


# ---- the index

for name, frames in [("none", []), ("one", [BLACK]), ("mixed", MIXED), ("many", [BLACK, WHITE] * 100)]:
    write(f"{name}.jls", recording(frames))
    says(0, index_of(frames), "", "index", f"{name}.jls")
    says(0, index_of(frames, sums=False), "", "index", "--no-sums", f"{name}.jls")
    says(0, film(frames), "", "play", f"{name}.jls")
    write(f"{name}.index", index_of(frames).encode())
    write(f"{name}.sizes", index_of(frames, sums=False).encode())
    for index in (f"{name}.index", f"{name}.sizes"):
        checks(0, f"{name}.jls: {len(frames)} frames, 0 damaged\n", "", index, f"{name}.jls")
    told = f"jlsrec: {name}.jls: only decoded: no index is named\n"
    says(0, f"{name}.jls: {len(frames)} frames, 0 damaged\n", told, "check", f"{name}.jls")
    says(0, film(frames), "", "play", "--salvage", f"{name}.jls")

# ---- an index that is written with its recording

for name, frames in [("none", []), ("white", [WHITE]), ("films", [ANNEX_H, TWO_VALUES, SIXTEEN, COLOUR, BLACK]), ("long", [BLACK, WHITE] * 100)]:
    write(f"{name}.film", film(frames))
    says(0, f"{name}.film: {len(frames)} frames\n", "", "record", "--index", f"{name}.film")
    with open(f"{name}.film.jls", "rb") as made, open(f"{name}.film.jls.index") as lines:
        count(f"the index of {name}", (made.read(), lines.read()) == (recording(frames), index_of(frames)), "another")
    says(0, recording(frames), "", "code", "--index", f"{name}.coded", f"{name}.film")
    with open(f"{name}.coded") as lines:
        count(f"the index of {name} coded", lines.read() == index_of(frames), "another")

# Of a film that breaks off it has the whole codestreams.
write("broken.film", film([BLACK, WHITE]) + b"P5")
says(1, "", "jlsrec: broken.film: frame 2: truncated\n", "record", "--index", "broken.film")
with open("broken.film.jls.index") as lines:
    count("the index of a film that breaks off", lines.read() == index_of([BLACK, WHITE]), "another")

# One that can't be written leaves the recording whole.
os.symlink("/dev/full", "white.again.jls.index")
write("white.again", film([WHITE]))
said = "jlsrec: white.again.jls.index: output failed after 0 bytes\n"
says(1, "white.again: 1 frames\n", said, "record", "--index", "white.again")
with open("white.again.jls", "rb") as made:
    count("a recording whose index failed", made.read() == recording([WHITE]), "another")
says(1, recording([WHITE]), "jlsrec: /dev/full: output failed after 0 bytes\n", "code", "--index", "/dev/full", "white.film")

# Nothing that is given is written over, and what an index takes the place of is kept.
write("x", film([WHITE]))
write("x.jls.index", film([WHITE]))
says(2, "", "jlsrec: x.jls.index: given twice\n", "record", "--index", "x", "x.jls.index")
report = "white.film.jls.index"
says(2, "", f"jlsrec: {report}: given twice\n", "record", "--index", "--report", report, "white.film")
says(2, "", "jlsrec: white.film: given twice\n", "code", "--index", "white.film", "white.film")
said = "jlsrec: white.coded: renamed to white.coded.1\n"
says(0, recording([WHITE]), said, "code", "--reasons", "--index", "white.coded", "white.film")
said = "jlsrec: white.film.jls: renamed to white.film.jls.1\njlsrec: white.film.jls.index: renamed to white.film.jls.1.index\n"
says(0, "white.film: 1 frames\n", said, "record", "--reasons", "--index", "white.film")
holds("white.film.jls.1", recording([WHITE]))
holds("white.film.jls.1.index", index_of([WHITE]).encode())
holds("white.film.jls.index", index_of([WHITE]).encode())
says(0, "white.film: 1 frames\n", "", "record", "--reasons", "--replace", "--index", "white.film")
holds("white.film.jls.index", index_of([WHITE]).encode())
os.mkdir("kept")
says(0, "white.film: 1 frames\n", "", "record", "--index", "--into", "kept", "white.film")
holds("kept/white.film.jls.index", index_of([WHITE]).encode())

whole = recording(MIXED)
ends = [sum(len(frame[0]) for frame in MIXED[:number]) for number in range(len(MIXED) + 1)]
for length in range(len(whole)):
    write("cut.jls", whole[:length])
    frames = max(number for number, end in enumerate(ends) if end <= length)
    if length in ends:
        says(0, index_of(MIXED[:frames]), "", "index", "cut.jls")
    else:
        says(1, index_of(MIXED[:frames]), f"jlsrec: cut.jls: frame {frames}: truncated\n", "index", "cut.jls")
        gap = f"frame {frames}: truncated: {length - ends[frames]} bytes at {ends[frames]} passed over\n"
        says(1, film(MIXED[:frames]), f"jlsrec: cut.jls: {gap}", "play", "--salvage", "cut.jls")
    found = "".join(
        f"frame {number}: truncated: {len(frame[0])} bytes at {ends[number]}\n"
        for number, frame in enumerate(MIXED)
        if number >= frames
    )
    checks(1, f"{found}cut.jls: 5 frames, {5 - frames} damaged\n", "", "mixed.index", "cut.jls")

says(1, "", "jlsrec: none.pgm: can't open\n", "index", "none.pgm")
says(1, "", "jlsrec: .: read failed\n", "index", ".")
write("film.pgm", film([BLACK]))
says(1, "", "jlsrec: film.pgm: frame 0: no SOI\n", "index", "film.pgm")
write("odd.jls", BLACK[0] + BLACK[0][:3] + b"\xc0" + BLACK[0][4:])
says(1, index_of([BLACK]), "jlsrec: odd.jls: frame 1: unsupported: marker c0\n", "index", "odd.jls")
preload = {"LD_PRELOAD": fail_call}
says(1, "", "jlsrec: mixed.jls: read failed\n", "index", "mixed.jls", FAIL_READ="1", **preload)
says(1, "", "jlsrec: output failed\n", "index", "mixed.jls", FAIL_WRITE="1", **preload)

# ---- checks

# Each bit of a small recording is turned in turn: the check by an index finds the frame that it is of, and no other; and a salvage
# shows each of the others.
damaged_ends = [0, len(ANNEX_H[0]), len(ANNEX_H[0]) + len(BLACK[0]), len(ANNEX_H[0]) + len(BLACK[0]) + len(COLOUR[0])]
three = [ANNEX_H, BLACK, COLOUR]
write("three.index", index_of(three).encode())
content = recording(three)
for bit in range(8 * len(content)):
    changed = bytearray(content)
    changed[bit // 8] ^= 1 << bit % 8
    write("changed.jls", bytes(changed))
    number = max(number for number in range(3) if damaged_ends[number] <= bit // 8)
    found = f"frame {number}: changed: {len(three[number][0])} bytes at {damaged_ends[number]}\n"
    checks(1, f"{found}changed.jls: 3 frames, 1 damaged\n", "", "three.index", "changed.jls")
    status, shown, said = run("play", "--salvage", "changed.jls")
    others = shown.startswith(film(three[:number])) and shown.endswith(film(three[number + 1:]))
    is_gap = status == 1 and said.count("passed over") == 1
    is_shown = status == 0 and not said
    holds = others and (is_gap or is_shown) and images_in(shown) == (3 if is_shown else 2)
    count(f"salvage with bit {bit} turned", holds, (status, shown, said))

write("more.jls", whole + b"more")
checks(1, "more.jls: more bytes than the index has\nmore.jls: 5 frames, 0 damaged\n", "", "mixed.index", "more.jls")
swapped = [TWO_VALUES, ANNEX_H] + MIXED[2:]
write("swapped.jls", recording(swapped))
first, second = len(ANNEX_H[0]), len(TWO_VALUES[0])
found = f"frame 0: at {second}, not 0\nframe 1: at 0, not {first}\n"
checks(1, f"{found}swapped.jls: 5 frames, 0 damaged, 2 moved\n", "", "mixed.index", "swapped.jls")
for line, lines in [
    (0, "0 0 28\n"),
    (1, index_of([BLACK]) + "0 28 28 gray\n"),
    (0, "1 0 28 gray\n"),
    (0, "x"),
    (0, "\n"),
    (0, index_of([BLACK])[:-1]),
    (0, index_of([BLACK])[:-2]),
    (0, film([BLACK]).decode("latin-1")),
]:
    write("bad.index", lines.encode())
    checks(1, "", f"jlsrec: bad.index: line {line}: not of an index\n", "bad.index", "one.jls")
checks(1, "", "jlsrec: no.index: can't open\n", "no.index", "one.jls")
checks(1, "", "jlsrec: one.index: read failed\n", "one.index", "one.jls", FAIL_READ="1", **preload)
checks(1, "", "jlsrec: one.jls: read failed\n", "one.index", "one.jls", FAIL_READ="2", **preload)
checks(1, "", "jlsrec: output failed\n", "one.index", "one.jls", FAIL_WRITE="1", **preload)
# Of a sum that is damaged; and of a change that an index without sums doesn't show.
sums = index_of([BLACK])
write("sum.index", (sums[:-2] + ("1" if sums[-2] == "0" else "0") + "\n").encode())
found = "frame 0: changed: 28 bytes at 0\n"
checks(1, f"{found}one.jls: 1 frames, 1 damaged\n", "", "sum.index", "one.jls")
write("changed.jls", recording([WHITE]))
checks(1, f"{found}changed.jls: 1 frames, 1 damaged\n", "", "one.index", "changed.jls")
checks(0, "changed.jls: 1 frames, 0 damaged\n", "", "one.sizes", "changed.jls")
says(1, "", "jlsrec: one.jls: read failed\n", "check", "one.jls", FAIL_READ="1", **preload)
# The index as it was made of a recording that can't be decoded: it is as it was.
write("broken.jls", recording([BROKEN, BLACK]))
write("broken.index", index_of([BROKEN, BLACK]).encode())
checks(1, "frame 0: bad code in component 0: 28 bytes at 0\nbroken.jls: 2 frames, 1 damaged\n", "", "broken.index", "broken.jls")
# Damage at each place of a batch of workers, and of the next; and a fault after it, which comes after what is damaged before it.
lines = index_of([BLACK, WHITE] * 20)
for place in range(40):
    frames = [BLACK, WHITE] * 20
    frames[place] = (b"\x00" * len(frames[place][0]), b"", "")
    write("changed.jls", recording(frames))
    write("forty.index", lines.encode())
    found = f"frame {place}: changed: {len(frames[place][0])} bytes at {sum(len(frame[0]) for frame in frames[:place])}\n"
    checks(1, f"{found}changed.jls: 40 frames, 1 damaged\n", "", "forty.index", "changed.jls")
    front = "".join(lines.splitlines(keepends=True)[:place + 1])
    write("front.index", front.encode() + b"x\n")
    checks(1, found, f"jlsrec: front.index: line {place + 1}: not of an index\n", "front.index", "changed.jls")
# A read of 64 KiB fails, of the index or of the recording: what is damaged before it was told.
long = [ANNEX_H] * 2000
content = recording(long)
size = len(ANNEX_H[0])
write("long.jls", b"\x00" * size + content[size:])
write("long.index", index_of(long).encode())
write("long.sizes", index_of(long, sums=False).encode())
found = f"frame 0: changed: {size} bytes at 0\n"
checks(1, found, "jlsrec: long.index: read failed\n", "long.index", "long.jls", FAIL_READ="3", **preload)
checks(1, found, "jlsrec: long.jls: read failed\n", "long.sizes", "long.jls", FAIL_READ="3", **preload)

# Without an index one worker decodes.
for words in [["--workers", "2"], ["--workers=16"]]:
    status, output, said = run("check", *words, "one.jls")
    count(f"{words} without an index", status == 2 and not output and "--workers goes only with --index" in said, (status, output, said))
for number in ["0", "17", "x", ""]:
    status, output, said = run("check", f"--workers={number}", "--index", "one.index", "one.jls")
    count(f"check --workers={number}", status == 2 and not output and "--workers" in said, (status, output, said))
told = "jlsrec: one.jls: only decoded: no index is named\n"
says(0, "one.jls: 1 frames, 0 damaged\n", told, "check", "--workers", "1", "one.jls")

# ---- codestreams that can be decoded and aren't exactly what encoding gives

black, colour = BLACK[0], COLOUR[0]
padded = (black[:25] + bytes([black[25] | 1]) + black[26:], BLACK[1], BLACK[2])
longer = (black[:26] + b"\x00" + black[26:], BLACK[1], BLACK[2])
green = (colour[:42] + bytes([colour[42] | 0x10]) + colour[43:], COLOUR[1], COLOUR[2])


def strictness(frames, loose):
    """Cases of a check and a comparison: so many frames aren't strict, each by its component."""
    write("loose.jls", recording(frames))
    write("loose.pgm", film(frames))
    write("loose.index", index_of(frames).encode())
    said = "".join(f"jlsrec: loose.jls: frame {frame}: not strict: the scan of component {component}\n" for frame, component in loose)
    total = f"loose.jls: {len(frames)} frames, 0 damaged\n"
    alone = "jlsrec: loose.jls: only decoded: no index is named\n"
    for words, told in [([], alone), (["--index", "loose.index"], ""), (["--workers", "3", "--index", "loose.index"], "")]:
        says(0, total, told, "check", *words, "loose.jls")
        says(1 if loose else 0, total, told + said, "check", "--strict", *words, "loose.jls")
    says(0, "", "", "verify", "loose.pgm", "loose.jls")
    says(1 if loose else 0, "", said, "verify", "--strict", "loose.pgm", "loose.jls")


strictness([], [])
strictness(MIXED, [])
strictness([padded], [(0, 0)])
strictness([longer, BLACK], [(0, 0)])
strictness([BLACK, green, WHITE, padded, longer, BLACK], [(1, 1), (3, 0), (4, 0)])
strictness([BLACK] * 50 + [padded] + [WHITE] * 50 + [green], [(50, 0), (101, 1)])
# If something else is wrong, it isn't looked for.
write("loose.jls", recording([padded, BROKEN]))
write("loose.pgm", film([padded, BLACK]))
write("loose.index", index_of([padded, BROKEN]).encode())
found = "frame 1: bad code in component 0: 28 bytes at 28\nloose.jls: 2 frames, 1 damaged\n"
says(1, found, "", "check", "--strict", "--index", "loose.index", "loose.jls")
says(1, "", "jlsrec: loose.jls: frame 1: bad code in component 0\n", "verify", "--strict", "loose.pgm", "loose.jls")
# What can't be read twice is refused before anything is read.
os.mkfifo("pipe.jls")
for words in [("check", "--strict", "pipe.jls"), ("verify", "--strict", "loose.pgm", "pipe.jls")]:
    says(1, "", "jlsrec: pipe.jls: can't be read twice, as --strict asks for\n", *words)
says(1, "", "jlsrec: no.jls: can't open\n", "check", "--strict", "no.jls")

# ---- films and their recordings

def verdict(frames, others, said):
    write("film.pgm", film(frames))
    write("of.jls", recording(others))
    for workers in ("1", "2", "16"):
        told = f"jlsrec: of.jls: {said}\n" if said else ""
        says(1 if said else 0, "", told, "verify", "--workers", workers, "film.pgm", "of.jls")


verdict([], [], "")
verdict(MIXED, MIXED, "")
verdict([BLACK, BLACK], [BLACK_AGAIN, BLACK], "")
verdict([BLACK, WHITE], [BLACK, BLACK], "frame 1 differs: samples")
verdict([ANNEX_H], [BLACK], "frame 0 differs: size 1x1, not 4x4")
verdict([BLACK], [COLOUR], "frame 0 differs: color, not gray")
verdict([TWO_VALUES], [(WHITE[0], b"", "")], "frame 0 differs: maxval 255, not 1")
verdict([BLACK, WHITE], [BLACK], "frame 1 is missing")
verdict([BLACK], [], "frame 0 is missing")
verdict([BLACK], [BLACK, WHITE], "frame 1 is too many")
verdict([], [BLACK], "frame 0 is too many")
verdict([BLACK, WHITE], [BLACK, (WHITE[0][:-1], b"", "")], "frame 1: truncated")
verdict([BLACK, WHITE] * 40, [BLACK, WHITE] * 40, "")
verdict([BLACK, WHITE] * 40, [BLACK, WHITE] * 39 + [WHITE, WHITE], "frame 78 differs: samples")
verdict([BLACK] * 40, [BLACK] * 37 + [BROKEN] * 3, "frame 37: bad code in component 0")
write("film.pgm", b"P5 # a comment\n1   1\n255\n\x00")
write("of.jls", recording([BLACK]))
says(0, "", "", "verify", "film.pgm", "of.jls")
write("film.pgm", film([BLACK])[:-1])
says(1, "", "jlsrec: film.pgm: frame 0: truncated\n", "verify", "film.pgm", "of.jls")
write("film.pgm", film([BLACK]))
says(1, "", "jlsrec: of.jls: frame 0: bad magic\n", "verify", "of.jls", "film.pgm")
says(1, "", "jlsrec: film.pgm: frame 0: read failed\n", "verify", "film.pgm", "of.jls", FAIL_READ="1", **preload)
says(1, "", "jlsrec: of.jls: read failed\n", "verify", "film.pgm", "of.jls", FAIL_READ="2", **preload)
says(1, "", "jlsrec: no.pgm: can't open\n", "verify", "no.pgm", "of.jls")
says(1, "", "jlsrec: no.jls: can't open\n", "verify", "film.pgm", "no.jls")

# ---- frames by their numbers

many = [BLACK, WHITE] * 100
for text, first, last in [("0", 0, 0), ("137", 137, 137), ("199", 199, 199), ("5..7", 5, 7), ("198..", 198, 199), ("..2", 0, 2), ("0..199", 0, 199)]:
    says(0, film(many[first:last + 1]), "", "play", "--frames", text, "many.jls")
for text, first in [("200", 200), ("7000..7001", 200), ("200..", 200), ("198..300", 198)]:
    says(1, film(many[first:]), "jlsrec: many.jls: only 200 frames\n", "play", "--frames", text, "many.jls")
# A fault of the data before the first frame isn't looked for, one of the markers is; and none after the last is.
write("some.jls", recording([BROKEN, BLACK, BROKEN]))
says(0, film([BLACK]), "", "play", "--frames", "1", "some.jls")
says(1, film([BLACK]), "jlsrec: some.jls: frame 2: bad code in component 0\n", "play", "--frames", "1..", "some.jls")
says(1, "", "jlsrec: some.jls: frame 0: bad code in component 0\n", "play", "--frames", "0", "some.jls")
for text in ["x", "1..x", "2..1", "..", "-1", "+1", "1.2", "4294967295", "1...2"]:
    status, output, said = run("play", f"--frames={text}", "many.jls")
    count(f"--frames={text}", status == 2 and not output and "--frames takes" in said, (status, output, said))
says(1, "", "jlsrec: many.jls: read failed\n", "play", "--frames", "1", "many.jls", FAIL_READ="1", **preload)
status, output, said = run("play", "--frames", "1", "--salvage", "many.jls")
count("--frames and --salvage", status == 2 and "don't go together" in said, (status, output, said))

# ---- past damage

def salvages(name, parts):
    """Parts of a recording: a frame; or bytes, which are passed over for a reason."""
    content, said = b"", ""
    for number, part in enumerate(parts):
        if len(part) == 3:
            content += part[0]
        else:
            reason, damage = part
            said += f"jlsrec: damaged.jls: frame {number}: {reason}: {len(damage)} bytes at {len(content)} passed over\n"
            content += damage
    write("damaged.jls", content)
    frames = [part for part in parts if len(part) == 3]
    says(1 if said else 0, film(frames), said, "play", "--salvage", "damaged.jls")


noise = bytes(range(1, 200)) * 40
held = (codestream(8, 1, 1, [b"\x80"], before=segment(0xE0, BLACK[0])), BLACK[1], BLACK[2])
salvages("garbage in front", [("no SOI", noise), BLACK])
salvages("garbage between", [ANNEX_H, ("no SOI", noise), BLACK, COLOUR])
salvages("garbage at the end", [BLACK, ("no SOI", noise)])
salvages("two gaps", [BLACK, ("no SOI", b"A"), WHITE, ("no SOI", b"\xff\xd8\xff"[1:] + b"B"), BLACK])
salvages("a frame without its end", [BLACK, ("unsupported: marker d8", ANNEX_H[0][:-2]), WHITE])
salvages("data that is damaged", [ANNEX_H, ("bad code in component 0", BROKEN[0]), BLACK])
salvages("two of them", [("bad code in component 0", BROKEN[0]), ("bad code in component 0", BROKEN[0]), BLACK])
salvages("a codestream in a segment of a whole one", [held, WHITE])
salvages("a lone FF at the end", [BLACK, ("truncated", b"\xff")])
says(1, film([BLACK]), "jlsrec: one.jls: read failed\n", "play", "--salvage", "one.jls", FAIL_READ="2", **preload)
says(1, "", "jlsrec: one.jls: output failed after 0 bytes\n", "play", "--salvage", "one.jls", FAIL_WRITE="1", **preload)
write("damaged.jls", BLACK[0] + noise + BROKEN[0] + WHITE[0])
says(
    1,
    f"frame 1: no SOI: {len(noise)} bytes at 28 passed over\n"
    f"frame 2: bad code in component 0: 28 bytes at {28 + len(noise)} passed over\ndamaged.jls: 4 frames, 2 damaged\n",
    "jlsrec: damaged.jls: only decoded: no index is named\n",
    "check", "damaged.jls",
)

# A file of another kind is said to be one.
size = os.path.getsize("film.pgm")
gap = f"frame 0: no SOI: {size} bytes at 0 passed over\n"
likeness = "jlsrec: film.pgm: (this seems to be a film: list, code or record it)\n"
says(1, "", f"jlsrec: film.pgm: {gap}{likeness}", "play", "--salvage", "--reasons", "film.pgm")
told = "jlsrec: film.pgm: only decoded: no index is named\n"
says(1, f"{gap}film.pgm: 1 frames, 1 damaged\n", f"{told}{likeness}", "check", "--reasons", "film.pgm")

cases.end()
