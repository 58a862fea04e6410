"""Runs `check`, `verify` and `play` with `--frames` over recordings and indexes: part.py PROGRAM, in a folder of its own. Prints each case
that fails, and how many passed. Indexes are written here, by hashlib, and images by the codestreams' authors."""

import hashlib
import os
import subprocess
import sys
import time

sys.dont_write_bytecode = True
sys.path.insert(0, os.path.join(os.path.dirname(os.path.abspath(__file__)), "..", "program"))
from cases import Cases, write
from codestreams import ANNEX_H, BLACK, BLACK_AGAIN, BROKEN, COLOUR, MIXED, SIXTEEN, WHITE, film, recording

cases = Cases(sys.argv[1])
count, says = cases.count, cases.says


def lines_of(frames, sums=True):
    lines, offset = [], 0
    for number, (stream, _, columns) in enumerate(frames):
        line = f"{number} {offset} {len(stream)} {columns}"
        lines.append((line + f" {hashlib.sha256(stream).hexdigest()}" * sums + "\n").encode())
        offset += len(stream)
    return lines


def check(part, index="index", name="film.jls"):
    return ("check", "--frames", part, "--index", index, name)


def checks(status, shown, said, *words):
    """Cases of a check: by one worker, and by several."""
    for workers in ([], ["--workers", "2"], ["--workers", "16"]):
        says(status, shown, said, *words[:1], *workers, *words[1:])


def end(number, damaged=0, name="film.jls"):
    return f"{name}: {number} frames, {damaged} damaged\n"


def place(frames, number):
    return sum(len(frame[0]) for frame in frames[:number])


# ---- each part of a recording

frames = MIXED * 3
write("film.jls", recording(frames))
write("film", film(frames))
for sums in (True, False):
    write("index", b"".join(lines_of(frames, sums)))
    for first in range(len(frames) + 1):
        checks(0, end(len(frames) - first), "", *check(f"{first}.."))
        for last in range(first, len(frames)):
            says(0, end(last + 1 - first), "", *check(f"{first}..{last}"))
    checks(0, end(1), "", *check("2"))
    checks(0, end(3), "", *check("..2"))
    few = f"jlsrec: index: only {len(frames)} frames\n"
    checks(1, "", few, *check(f"{len(frames) + 1}.."))
    checks(1, "", few, *check(str(len(frames))))
    checks(1, "", few, *check("4294967294"))
    checks(1, "", few, *check(f"4..{len(frames)}"))
write("empty", b"")
write("empty.jls", b"")
checks(0, end(0, name="empty.jls"), "", *check("0..", "empty", "empty.jls"))
checks(1, "", "jlsrec: empty: only 0 frames\n", *check("0", "empty", "empty.jls"))
checks(1, "", "jlsrec: empty: only 0 frames\n", *check("1..", "empty", "empty.jls"))

# ---- a byte of a codestream before the part is another: the frames keep their numbers, or it is said where they don't

frames = [BLACK, ANNEX_H, WHITE, SIXTEEN, COLOUR]
write("film", film(frames))
stream = ANNEX_H[0]
for at, byte in enumerate(stream):
    for other in {0x00, 0xFF, 0xD8, 0xD9, byte ^ 0x80, byte ^ 1} - {byte}:
        name = f"byte {at} of frame 1 is {other:02x}"
        write("damaged.jls", BLACK[0] + stream[:at] + bytes([other]) + stream[at + 1 :] + recording(frames[2:]))
        status, shown, said = cases.run("play", "--frames", "3", "damaged.jls")
        stops = status == 1 and said.startswith(("jlsrec: damaged.jls: frame 1: ", "jlsrec: damaged.jls: frame 2: "))
        count(f"{name}: play", (status, shown, said) == (0, SIXTEEN[1], "") or (stops and not shown), status, shown, said)
        again = cases.run("verify", "--frames", "3", "film", "damaged.jls")
        count(f"{name}: verify", again == ((1, b"", said) if stops else (0, b"", "")), again)
# Data that can't be decoded are no fault before the part.
write("film", film([BLACK, WHITE, SIXTEEN]))
write("damaged.jls", recording([BLACK, BROKEN, SIXTEEN]))
says(0, SIXTEEN[1], "", "play", "--frames", "2", "damaged.jls")
says(0, "", "", "verify", "--frames", "2", "film", "damaged.jls")
frames = MIXED * 3
write("film", film(frames))

# ---- a recording that goes on: its last line and its last codestream are written in part

lines = lines_of(frames)
for whole in (0, 1, 2, 7, len(frames) - 1):
    before, torn = b"".join(lines[:whole]), lines[whole]
    rest = frames[whole][0]
    for many in (0, 1, len(torn) // 2, len(torn) - 1):
        write("growing", before + torn[:many])
        for bytes_ in (0, 1, len(rest) - 1, len(rest)):
            write("growing.jls", recording(frames[:whole]) + rest[:bytes_])
            for first in {0, whole // 2, max(0, whole - 1), whole}:
                says(0, end(whole - first, name="growing.jls"), "", *check(f"{first}..", "growing", "growing.jls"))
            if whole:
                says(0, end(whole, name="growing.jls"), "", *check(f"0..{whole - 1}", "growing", "growing.jls"))
        checks(0, end(0, name="growing.jls"), "", *check(f"{whole}..", "growing", "growing.jls"))
        said = f"jlsrec: growing: line {whole}: not of an index\n" if many else f"jlsrec: growing: only {whole} frames\n"
        checks(1, "", said, *check(f"{whole}", "growing", "growing.jls"))
    # The line is whole, and its codestream isn't: that is damage, since a line is written after its codestream.
    write("growing", before + torn)
    write("growing.jls", recording(frames[:whole]) + rest[:-1])
    shown = f"frame {whole}: truncated: {len(rest)} bytes at {place(frames, whole)}\n" + end(1, 1, "growing.jls")
    checks(1, shown, "", *check(f"{whole}..", "growing", "growing.jls"))
# As many bytes without a line feed as a line may have are no line.
write("growing", lines[0] + b"1" * 1023)
says(0, end(1), "", *check("0..", "growing"))
write("growing", lines[0] + b"1" * 1024)
checks(1, "", "jlsrec: growing: line 1: not of an index\n", *check("0..", "growing"))

# A recorder writes, and each time what came since the last is checked.
os.mkfifo("camera")
recorder = subprocess.Popen([cases.program, "record", "--index", "--workers", "1", "camera"], stdout=subprocess.PIPE, stderr=subprocess.PIPE)
with open("camera", "wb", buffering=0) as camera:
    passed, checked = True, 0
    for number in range(200):
        camera.write(ANNEX_H[1] if number % 2 else BLACK[1])
        if number % 10 == 9:
            deadline = time.monotonic() + 20
            while checked <= number and time.monotonic() < deadline:
                try:
                    status, shown, said = cases.run(*check(f"{checked}..", "camera.jls.index", "camera.jls"))
                except subprocess.TimeoutExpired:
                    break
                if status == 0 and not said and shown.endswith(b" 0 damaged\n"):
                    checked += int(shown.split()[1])
                elif os.path.exists("camera.jls.index") and os.path.exists("camera.jls"):
                    passed = False
                    break
count("each check of a recording that goes on", passed and checked == 200, (checked, locals().get("shown"), locals().get("said")))
recorder.wait(timeout=60)
recorder.stdout.close()
recorder.stderr.close()

# ---- damage in the part, and outside of it

# Each codestream is there three times, and what the index lists elsewhere isn't taken for the damaged one.
write("index", b"".join(lines))
for number in range(len(frames)):
    damaged = bytearray(recording(frames))
    damaged[place(frames, number) + 3] ^= 255
    write("damaged.jls", damaged)
    shown = f"frame {number}: changed: {len(frames[number][0])} bytes at {place(frames, number)}\n"
    for first in range(len(frames)):
        for last in (first, min(first + 3, len(frames) - 1), None):
            inside = first <= number <= (len(frames) if last is None else last)
            many = (len(frames) if last is None else last + 1) - first
            part = f"{first}.." if last is None else f"{first}..{last}"
            wanted = shown * inside + end(many, int(inside), "damaged.jls")
            says(int(inside), wanted, "", *check(part, name="damaged.jls"))
write("broken.jls", recording(frames[:4] + [BROKEN] + frames[4:]))
write("broken", b"".join(lines_of(frames[:4] + [BROKEN] + frames[4:])))
shown = f"frame 4: bad code: {len(BROKEN[0])} bytes at {place(frames, 4)}\n"
status, got, said = cases.run(*check("3..6", "broken", "broken.jls"))
count("a codestream that can't be decoded", (status, said) == (1, "") and got.startswith(b"frame 4: ") and got.endswith(b"broken.jls: 4 frames, 1 damaged\n"), (status, got, said))
says(0, end(4, name="broken.jls"), "", *check("..3", "broken", "broken.jls"))
says(0, end(3, name="broken.jls"), "", *check("5..7", "broken", "broken.jls"))
# A codestream that moved: `check` finds it by its sum.
moved = [WHITE, BLACK, ANNEX_H, WHITE]
write("moved.jls", recording([WHITE, BLACK]) + b"\0" * 5 + recording([ANNEX_H, WHITE]))
write("moved", b"".join(lines_of(moved)))
at = place(moved, 2)
shown = f"frame 2: at {at + 5}, not {at}\nmoved.jls: 1 frames, 0 damaged, 1 moved\n"
checks(1, shown, "", *check("2", "moved", "moved.jls"))
checks(0, end(2, name="moved.jls"), "", *check("..1", "moved", "moved.jls"))

# ---- what isn't an index, and files that aren't there

for name, text in {
    "a line less": b"".join(lines[:2] + lines[3:]),
    "CR": b"".join(lines).replace(b"\n", b"\r\n"),
}.items():
    write("not one", text)
    checks(1, "", "jlsrec: not one: line 2: not of an index\n", *check("2", "not one"))
    checks(1, "", "jlsrec: not one: line 2: not of an index\n", *check("2..", "not one"))
write("not one", b"".join(lines[:4]) + b"x\n" + b"".join(lines[4:]))
checks(1, "", "jlsrec: not one: line 4: not of an index\n", *check("2..", "not one"))
says(1, "", "jlsrec: none: can't open\n", *check("0", "none"))
says(1, "", "jlsrec: none.jls: can't open\n", *check("0", name="none.jls"))
os.mkfifo("pipe")
says(1, "", "jlsrec: pipe: can't be read twice, as --index asks for\n", *check("0", name="pipe"))
says(1, "", "jlsrec: pipe: can't be read twice, as --index asks for\n", *check("0", "pipe"))
os.mkdir("folder")
says(1, "", "jlsrec: folder: read failed\n", *check("0", "folder"))
says(1, "", "jlsrec: folder: read failed\n", *check("0", name="folder"))
for words in (["--frames", "0"], ["--frames", "0..", "--beside"]):
    status, shown, said = cases.run("check", *words, "film.jls")
    count(" ".join(words), (status, shown) == (2, b"") and "--frames goes only with --index" in said, (status, shown, said))

# ---- the last of 600,000 frames: soon

number = 600000
stream = BLACK[0]
write("long.jls", stream * number)
with open("long.index", "wb") as index:
    sum_ = hashlib.sha256(stream).hexdigest()
    for at in range(number):
        index.write(f"{at} {at * len(stream)} {len(stream)} {BLACK[2]} {sum_}\n".encode())
for first in (0, 9, 99999, number - 11, number - 1, number):
    shown = f"long.jls: {min(10, number - first)} frames, 0 damaged\n"
    part = f"{first}..{first + 9}" if first + 10 < number else f"{first}.."
    says(0, shown if first + 10 < number else f"long.jls: {number - first} frames, 0 damaged\n", "", *check(part, "long.index", "long.jls"))


def least(*words):
    times = []
    for _ in range(9):
        began = time.monotonic()
        subprocess.run([cases.program, *words], stdout=subprocess.DEVNULL, check=True)
        times.append(time.monotonic() - began)
    return min(times)


begun = least("--version")
for first in (number - 10, number):
    took = least(*check(f"{first}..", "long.index", "long.jls"))
    count(f"from {first} of 600,000 frames on within 30 ms more than the program's start", took < begun + 0.03, (begun, took))

# ---- a part that is compared with the film


def verify(part, film="film", name="film.jls"):
    return ("verify", "--frames", part, film, name)


for first in range(len(frames) + 1):
    says(0, "", "", *verify(f"{first}.."))
    for last in range(first, len(frames)):
        says(0, "", "", *verify(f"{first}..{last}"))
few = f"jlsrec: film: only {len(frames)} frames\n"
says(1, "", few, *verify(f"{len(frames) + 1}.."))
says(1, "", few, *verify(str(len(frames))))
says(1, "", few, *verify(f"3..{len(frames)}"))
for number in range(len(frames)):
    other = frames[:number] + [WHITE] + frames[number + 1 :]
    if frames[number][0] == WHITE[0]:
        continue
    write("other.jls", recording(other))
    for first in range(len(frames)):
        for last in (first, min(first + 3, len(frames) - 1), None):
            inside = first <= number <= (len(frames) if last is None else last)
            status, shown, said = cases.run(*verify(f"{first}.." if last is None else f"{first}..{last}", name="other.jls"))
            right = said.startswith(f"jlsrec: other.jls: frame {number} differs: ") if inside else not said
            count(f"{number} in {first} to {last}", status == int(inside) and not shown and right, (status, shown, said))
write("again.jls", recording([BLACK_AGAIN if it is BLACK else it for it in frames]))
says(0, "", "", *verify("2..", name="again.jls"))
write("short.jls", recording(frames[:6]))
write("short", film(frames[:6]))
says(0, "", "", *verify("2..5", name="short.jls"))
says(1, "", "jlsrec: short.jls: frame 6 is missing\n", *verify("2..", name="short.jls"))
says(1, "", "jlsrec: short.jls: frame 6 is missing\n", *verify("6..", name="short.jls"))
says(1, "", "jlsrec: short.jls: only 6 frames\n", *verify("7..", name="short.jls"))
says(1, "", "jlsrec: film.jls: frame 6 is too many\n", *verify("2..", "short"))
says(0, "", "", *verify("2..5", "short"))
says(1, "", "jlsrec: short: only 6 frames\n", *verify("7..", "short"))
# A codestream that is written in part, after the part and in it.
write("torn.jls", recording(frames[:6]) + frames[6][0][:-1])
says(0, "", "", *verify("..5", name="torn.jls"))
status, shown, said = cases.run(*verify("2..", name="torn.jls"))
count("a part with a codestream that is cut off", (status, shown) == (1, b"") and said.startswith("jlsrec: torn.jls: frame 6: "), (status, shown, said))
write("cut", film(frames[:6])[:-1])
says(1, "", "jlsrec: cut: frame 5: truncated\n", *verify("3..", "cut"))
says(1, "", "jlsrec: cut: frame 5: truncated\n", *verify("7..", "cut"))
says(0, "", "", *verify("3..4", "cut"))
says(1, "", "jlsrec: none: can't open\n", *verify("0", "none"))
says(1, "", "jlsrec: none.jls: can't open\n", *verify("0", name="none.jls"))
cases.end()
