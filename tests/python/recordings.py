"""Recordings by an index, while they grow, and many frames at once: python3 recordings.py PROGRAM."""

from __future__ import annotations

import itertools
import os
import re
import resource
import subprocess
import sys
import threading
import time
from hashlib import sha256
from pathlib import Path

import numpy as np

import jlsrec
from cases import case, end, refuses

program = sys.argv[1]


def frames_of(count: int, seed: int, shape: tuple[int, ...] = (6, 8)) -> list[np.ndarray]:
    """Frames of noise, whose codestreams differ in length."""
    drawn = np.random.default_rng(seed)
    return [drawn.integers(0, 2 << k % 12, shape).astype(np.uint16) for k in range(count)]


def run(*words: str) -> bytes:
    """What the program writes to standard output."""
    return subprocess.run([program, *words], stdout=subprocess.PIPE, check=True).stdout


limits = resource.getrlimit(resource.RLIMIT_AS)


def memory() -> int:
    """How many bytes of address space this process has."""
    return int(Path("/proc/self/statm").read_text().split()[0]) * resource.getpagesize()


def same(got, want) -> bool:
    """Whether two lists of frames are the same, in number, shape and samples."""
    got, want = list(got), list(want)
    return len(got) == len(want) and all(a.shape == b.shape and (a == b).all() for a, b in zip(got, want))


# 700 frames of four forms, their codestreams, and the index that the program writes of them.
arrays = [*frames_of(300, 1), *frames_of(200, 2, (5, 4, 3)), *frames_of(199, 3, (9, 2))]
codestreams = [jlsrec.encode(array, 4095, (20, 70, 300, 40) if k % 7 == 0 else None) for k, array in enumerate(arrays)]
arrays.append(np.arange(48, dtype=np.uint8).reshape(6, 8))
codestreams.append(jlsrec.encode(arrays[-1]))
places = [sum(map(len, codestreams[:k])) for k in range(len(arrays) + 1)]
whole = b"".join(codestreams)
Path("film.jls").write_bytes(whole)
lines = run("index", "film.jls").splitlines(keepends=True)
bare = run("index", "--no-sums", "film.jls").splitlines(keepends=True)


def film_by(index: list[bytes], recording: bytes = whole, name: str | bool | Path = True) -> jlsrec.Recording:
    """These bytes by an index of these lines, which is named so."""
    Path("by.jls").write_bytes(recording)
    Path("by.jls.index").write_bytes(b"".join(index))
    return jlsrec.Recording("by.jls", index=name)


# ---- codestreams that follow one another are found by their markers, also where they are alike up to their data

plain, tail = codestreams[0], b"\xff\xd9"
with_comment = plain[:-2] + b"\xff\xfe\0\x06\xff\xd9\xff\xd9" + tail
filled = plain[:-2] + b"\xff\xff" + tail
begun = plain[:2] + b"\xff\xff\xff\xfe\0\4\xff\xd9" + plain[2:]
MIXED = [plain, plain, with_comment, plain, filled, plain, plain, begun, begun, codestreams[310], codestreams[311], plain]
for times in (1, 30, 3000):
    Path("mixed.jls").write_bytes(b"".join(MIXED) * times)
    mixed = jlsrec.Recording("mixed.jls")
    case(f"{12 * times} codestreams", [mixed.size(k) for k in range(len(mixed))] == [len(each) for each in MIXED] * times)
    case(f"{12 * times} codestreams: no fault", mixed.fault is None)
    case(f"{12 * times} codestreams: frames", all((mixed[k] == arrays[310 if k == 9 else 0]).all() for k in (2, 4, 7, 9)))
for name, broken in {
    "another frame's begin in its data": plain[:-2] + plain,
    "a restart marker in its data": plain[:-4] + b"\xff\xd0" + plain[-4:],
    "no end": plain[:-2],
    "an end that is cut off": plain[:-1],
}.items():
    for behind in (b"", plain):
        Path("broken.jls").write_bytes(plain * 20 + broken + behind)
        listed = subprocess.run([program, "index", "broken.jls"], capture_output=True, text=True, check=False)
        broke = jlsrec.Recording("broken.jls")
        case(f"{name}: {len(broke)} frames", len(broke) == len(listed.stdout.splitlines()) == 20)
        case(f"{name}: {broke.fault}", broke.fault is not None and ("restart" in name or str(broke.fault) in listed.stderr))

# ---- an index of the recording: the same as without one

for name, index in {
    "with sums": lines,
    "without sums": bare,
    "of the first frames": lines[:350],
    "of one frame": lines[:1],
    "of none": [],
    "whose last line isn't complete": [*lines[:40], lines[40][:-1]],
    "whose only line isn't complete": [lines[0][:9]],
}.items():
    film = film_by(index)
    case(f"{name}: how many", len(film) == len(arrays) and film.fault is None)
    case(f"{name}: each", same(film, arrays))
    case(f"{name}: in another order", all((film[k] == arrays[k]).all() for k in (699, 0, 350, 39, 40, 41, 698, -1, -700)))
    case(f"{name}: codestreams", [film.data(k) for k in range(700)] == codestreams)
    case(f"{name}: sizes", [film.size(k) for k in range(700)] == [len(each) for each in codestreams])
    case(f"{name}: headers", [film.header(k) for k in range(700)] == [jlsrec.read_header(each) for each in codestreams])
    case(f"{name}: a slice", same(film[650:300:-7], arrays[650:300:-7]))
    refuses(f"{name}: past its end", IndexError, "", film.__getitem__, 700)
    refuses(f"{name}: before its start", IndexError, "", film.__getitem__, -701)
case("by name", same(film_by(lines, name=Path("by.jls.index")), arrays))
Path("by.jls.index").write_bytes(b"no index")
case("not unless it is named", same(jlsrec.Recording("by.jls"), arrays) and same(jlsrec.Recording("by.jls", None), arrays))
refuses("none", FileNotFoundError, "nowhere.index", jlsrec.Recording, "by.jls", "nowhere.index")
refuses("none beside", FileNotFoundError, "film.jls.index", jlsrec.Recording, "film.jls", True)
film = film_by(lines)
film.close()
refuses("closed", ValueError, "closed", film.__getitem__, 3)
refuses("closed, how many", ValueError, "closed", len, film)

# ---- another index: each line that isn't the codestream's is refused, and says which it is


def with_line(number: int, old: bytes, new: bytes, index: list[bytes] = lines) -> list[bytes]:
    """The index with another line of this number, where old is replaced by new."""
    changed = re.sub(old, new, index[number], count=1)
    assert changed != index[number], (old, index[number])
    return [*index[:number], changed, *index[number + 1 :]]


def moved(number: int, by: int) -> list[bytes]:
    """The index, of which one line has more bytes and the next begins later."""
    index = list(bare)
    for each, place, size in ((number, 0, by), (number + 1, by, -by)):
        words = index[each].split(b" ")
        index[each] = b" ".join([words[0], b"%d" % (int(words[1]) + place), b"%d" % (int(words[2]) + size), *words[3:]])
    return index


swapped = [*codestreams[:3], codestreams[4], codestreams[3], *codestreams[5:]]
changed = bytearray(whole)
changed[places[7] - 3] ^= 1
longer = [*codestreams[:5], codestreams[5][:2] + b"\xff\xfe\0\2" + codestreams[5][2:], *codestreams[6:]]
sum5 = lines[5].split(b" ")[-1]
OTHER = [
    # name, index, recording, the numbers that are refused among the first ten and the last, what is said of the first
    ("another sum", with_line(5, sum5, sha256(b"").hexdigest().encode() + b"\n"), whole, [5], "other bytes are there"),
    ("another width", with_line(5, rb"gray \d+", b"gray 9", bare), whole, [5], "8 6 4095 12"),
    ("another kind", with_line(5, b"gray", b"color", bare), whole, [5], "is gray"),
    ("another maxval", with_line(5, b"4095", b"4094", bare), whole, [5], "8 6 4095 12"),
    ("another P", with_line(5, b"4095 12", b"4095 13", bare), whole, [5], "4095 12"),
    ("another T1", with_line(5, b"12 18", b"12 19", bare), whole, [5], "12 18"),
    ("a line that begins later", with_line(5, rb"^5 \d+", b"5 %d" % (places[5] + 1), bare), whole, [5, 6], "line before ends"),
    ("a line of more bytes", with_line(5, rb" %d gray" % len(codestreams[5]), b" 9999 gray", bare), whole, [5, 6], "no codestream"),
    ("a line beyond the file", with_line(5, rb" %d gray" % len(codestreams[5]), b" 999999 gray", bare), whole, [5, 6], "ends before"),
    ("one of huge numbers", with_line(5, rb" \d+ gray", b" 9999999999999999999 gray"), whole, [5, 6], "ends before"),
    ("a border one byte later", moved(5, 1), whole, [5, 6], "no codestream"),
    ("a border one byte earlier", moved(5, -1), whole, [5, 6], "no codestream"),
    ("two frames as one", moved(5, len(codestreams[6])), whole, [5, 6], "no codestream"),
    ("a line without its number", with_line(5, b"^5", b""), whole, [5, 6], "not of an index"),
    ("another number", with_line(5, b"^5", b"6"), whole, [5, 6], "not of an index"),
    ("a leading zero", with_line(5, b"^5", b"05"), whole, [5, 6], "not of an index"),
    ("two blanks", with_line(5, b" gray", b"  gray"), whole, [5, 6], "not of an index"),
    ("a line of Windows", with_line(5, b"\n", b"\r\n"), whole, [5, 6], "not of an index"),
    ("a line without its sum", [*lines[:5], bare[5], *lines[6:]], whole, [5, 6], "not of an index"),
    ("two frames swapped", lines, b"".join(swapped), [3, 4], "line 3 of by.jls.index"),
    ("a bit changed", lines, bytes(changed), [6], "other bytes are there"),
    ("a codestream longer", lines, b"".join(longer), [5, 6, 7, 8, 9, 699], "line 5 of by.jls.index"),
    ("the same without sums", bare, b"".join(longer), [5, 6, 7, 8, 9, 699], "line 5 of by.jls.index"),
    ("a recording cut off", lines, whole[:-1], [699], "the recording ends before"),
    ("an empty one", lines, b"", [*range(10), 699], "the recording ends before"),
    ("other bytes", bare, bytes(len(whole)), [*range(10), 699], "no codestream"),
    ("one of another film", lines, b"".join(reversed(codestreams)), [*range(10), 699], "line 0 of by.jls.index"),
    ("the same without its sums", bare, b"".join(reversed(codestreams)), [*range(10), 699], "line 0 of by.jls.index"),
]
for name, index, recording, refused, text in OTHER:
    film = film_by(index, recording)
    for k in [*range(10), 699]:
        # What begins there may have the form that the line says: then its header is right.
        for use in (film.header, lambda number: film.read([number])):
            try:
                got = use(k)
            except jlsrec.WrongIndex as error:
                held = k in refused and str(error).startswith(f"frame {k}: line ")
                case(f"{name}: header and read of {k}: {error}", held)
            except Exception as error:
                case(f"{name}: header and read of {k}: {type(error).__name__}: {error}", False)
            else:
                want = jlsrec.read_header(codestreams[k])
                held = got == want if use == film.header else np.array_equal(got[0], arrays[k])
                case(f"{name}: header and read of {k}", held)
    for use in (film.__getitem__, film.data):
        wrong = []
        for k in [*range(10), 699]:
            try:
                got = use(k)
            except jlsrec.WrongIndex as error:
                wrong.append(k)
                # What is no line says nothing of the next one's place either.
                case(f"{name}: {error}", re.match(rf"frame {k}: line {error.line} of by\.jls\.index: .", str(error)) is not None)
                case(f"{name}: line {error.line}", error.line == k or error.line == k - 1 == refused[0])
                case(f"{name}: it says what: {error}", k != refused[0] or text in str(error))
            else:
                case(f"{name}: frame {k}", np.array_equal(got, arrays[k]) if use != film.data else got == codestreams[k])
        case(f"{name}: {wrong} are refused", wrong == refused)
    refuses(f"{name}: of all", jlsrec.WrongIndex, f"line {refused[0]} ", list, film)
case("a short recording is a fault", "line 699" in str(film_by(lines, whole[:-1]).fault))
# A bit that has changed may decode as other samples: without sums nothing says so, as with `check`.
case("a bit changed, without sums", len(film_by(bare, bytes(changed))) == 700)
# A frame that was damaged before its index was made.
Path("damaged.jls").write_bytes(codestreams[0] + codestreams[1][:40] + bytes(20) + codestreams[1][60:] + codestreams[2])
Path("damaged.jls.index").write_bytes(run("index", "damaged.jls"))
damaged = jlsrec.Recording("damaged.jls", index=True)
error = refuses("a damaged frame", jlsrec.JlsrecError, "frame 1: ", damaged.__getitem__, 1)
case("a damaged frame isn't the index's fault", not isinstance(error, jlsrec.WrongIndex))
case("and the others are there", (damaged[0] == arrays[0]).all() and (damaged[-1] == arrays[2]).all())

for name, index, line in (
    ("text", [b"text\n"], 0),
    ("text after it", [*lines[:30], b"text\n"], 30),
    ("text without an end after it", [*lines[:30], b"Text"], 30),
    ("a long line after it", [*lines[:30], b"0" * 70000], 30),
    ("a long first line", [b"0" * 70000 + b"\n"], 0),
    ("a blank line after it", [*lines[:30], b"\n"], 30),
    ("a recording", [whole], None),
):
    error = refuses(f"{name} as an index", jlsrec.WrongIndex, "not of an index", film_by, index)
    case(f"{name}: {error}", line is None or error.line == line)

# A last line of another number, or some lines: that is seen at once.
for name, index in (("with sums", lines), ("without sums", bare)):
    for number in (9223372036854775807, 9999999999999999999, 100000, 701, 700, 698, 42, 0):
        wrong = [*index[:-1], b"%d " % number + index[-1].split(b" ", 1)[1]]
        error = refuses(f"{name}: a last line {number}", jlsrec.WrongIndex, "line 699 of by.jls.index", film_by, wrong)
        case(f"{name}: a last line {number}: its number", error is not None and error.line == 699)
    for count in (2, 300, 700):
        wrong = [b"%d " % (9000000 + k) + each.split(b" ", 1)[1] for k, each in enumerate(index[-count:])]
        wrong = [*index[: 700 - count], *wrong]
        refuses(f"{name}: {count} last lines of great numbers", jlsrec.WrongIndex, "line 699", film_by, wrong)
    wrong = b"%d " % (2**63 - 1) + index[1].split(b" ", 1)[1]
    refuses(f"{name}: two lines", jlsrec.WrongIndex, "line 1 of by.jls.index", film_by, [index[0], wrong])
    wrong = b"1000 " + index[0].split(b" ", 1)[1]
    refuses(f"{name}: a line alone", jlsrec.WrongIndex, "line 0 of by.jls.index", film_by, [wrong])

# Many lines, so that a line has to be looked for.
count = 60000
Path("many.jls").write_bytes(codestreams[0] * count)
Path("many.jls.index").write_bytes(run("index", "many.jls"))
many = jlsrec.Recording("many.jls", index=True)
size = len(codestreams[0])
order = np.random.default_rng(5).permutation(count)[:300].tolist()
case("any line of many", all(many._place(k)[1:3] == (k * size, k * size + size) for k in [0, 1, count - 1, *order]))
case("any frame of many", all((many[k] == arrays[0]).all() for k in order))
taken: list[int] = []
real = os.pread
os.pread = lambda number, size, place: taken.append(size) or real(number, size, place)
for k in (0, 29999, count - 1):
    taken.clear()
    with jlsrec.Recording("many.jls", index=True) as many:
        held = len(many) == count and (many[k] == arrays[0]).all()
    case(f"opened, counted and read frame {k} by {sum(taken)} bytes", held and sum(taken) < 150000)
os.pread = real
# Threads that take lines side by side, as if each line of code were followed by another thread's.
many = jlsrec.Recording("many.jls", index=True)
index = many._opened()[1]
pages = [index._page_of(k) for k in (0, 30000, 59999)]
asked = (0, 1, 15000, 30000, 45000, count - 1)


def beside(frame, event: str, _):
    """Lets another thread take its page."""
    if event == "line":
        index._page = pages.pop(0)
        pages.append(index._page)
    return beside


sys.settrace(lambda frame, event, _: beside if frame.f_code is type(index)._at.__code__ else None)
try:
    got = [many._place(k)[1:3] for k in asked]
except (IndexError, jlsrec.WrongIndex) as error:
    got = error
finally:
    sys.settrace(None)
case(f"lines by two threads: {got}", got == [(k * size, k * size + size) for k in asked])
many = jlsrec.Recording("many.jls", index=True)
case("and how many", len(many) == count and len(jlsrec.Recording("many.jls")) == count)

# ---- a recording that is being written, and its index

for step in (1, 50, len(codestreams[0]), 4096, 30000):
    for index in (None, lines, bare):
        Path("grows.jls").write_bytes(b"")
        Path("grows.jls.index").write_bytes(b"")
        film = jlsrec.Recording("grows.jls", index is not None)
        text = b"".join(index or [])
        with open("grows.jls", "ab", buffering=0) as file, open("grows.jls.index", "ab", buffering=0) as beside:
            known, wrong, written = 0, [], 0
            # The first forty frames byte for byte, the others in larger steps.
            stops = [*range(0, places[40] if step < 100 else 0, step), *range(places[40], len(whole), 5000), len(whole)]
            for stop in stops:
                file.write(whole[written:stop])
                written = stop
                complete = sum(place <= written for place in places[1:])
                # The index lags behind, and ends within a line.
                due = sum(map(len, (index or [])[: max(complete - 3, 0)])) + 7 * (complete > 3)
                beside.write(text[beside.tell() : due])
                added = film.refresh()
                if (added, len(film), film.fault) != (complete - known, complete, None):
                    wrong.append((stop, added, len(film), film.fault))
                if complete > known and not (film[known] == arrays[known]).all() and (film[-1] == arrays[complete - 1]).all():
                    wrong.append((stop, known))
                known = complete
        kind = "no index" if index is None else "an index" if index is lines else "an index without sums"
        case(f"by {step} bytes, {kind}: {wrong[:3]}", not wrong)
        case(f"by {step} bytes, {kind}: each", same(film, arrays) and film.refresh() == 0)
        if index is not None:
            Path("grows.jls.index").write_bytes(text)
            case(f"by {step} bytes, {kind}: by the index alone", film.refresh() == 0 and film._found.first == 700 and same(film, arrays))

Path("grows.jls").write_bytes(whole[: places[3] + 5])
film = jlsrec.Recording("grows.jls")
held, going = film[1], iter(film)
next(going)
case("before it is looked at anew", len(film) == 3 and "truncated" in str(film.fault))
case("not there yet", film.refresh() == 0 and len(film) == 3 and film.fault is None)
with open("grows.jls", "ab") as file:
    file.write(whole[places[3] + 5 : places[9]])
case("not seen before", len(film) == 3 and film.fault is None)
case("seen then", film.refresh() == 6 and film.refresh() == 0 and same(film, arrays[:9]))
case("frames stay, and their numbers", (held == arrays[1]).all() and (film[1] == arrays[1]).all())
case("a loop that has begun goes on", same(going, arrays[1:9]))
with open("grows.jls", "ab") as file:
    file.write(b"what is this")
case("damage stays a fault", film.refresh() == 0 and "SOI" in str(film.fault))
with open("grows.jls", "ab") as file:
    file.write(whole[places[9] :])
case("also with more behind it", film.refresh() == 0 and "SOI" in str(film.fault) and len(film) == 9)
for name, more in {"a byte that begins none": b"x", "a marker that begins none": b"\xff\xda"}.items():
    Path("grows.jls").write_bytes(whole[: places[3]] + more[:1])
    film = jlsrec.Recording("grows.jls")
    with open("grows.jls", "ab") as file:
        file.write(more[1:])
    case(f"{name}: {film.fault}", film.refresh() == 0 and len(film) == 3 and "SOI" in str(film.fault))

# What is known isn't walked again: not a byte of it is read but where the file is looked at for changes.
Path("grows.jls").write_bytes(plain * 20000)
film = jlsrec.Recording("grows.jls")
case("how many", len(film) == 20000)
os.pread = lambda number, size, place: taken.append(size) or real(number, size, place)
taken.clear()
with open("grows.jls", "ab") as file:
    file.write(plain * 3)
case(f"three more, by reads of {sum(taken)} bytes", film.refresh() == 3 and sum(taken) < 30000)
os.pread = real

for name, data in {"shrunk": whole[:500], "written over": bytes(2000)}.items():
    Path("other.jls").write_bytes(whole[:1000])
    Path("other.jls.index").write_bytes(b"".join(lines[:10]))
    film, indexed = jlsrec.Recording("other.jls"), jlsrec.Recording("other.jls", index=True)
    time.sleep(0.02)
    Path("other.jls").write_bytes(data)
    refuses(f"one that is {name}", jlsrec.RecordingChanged, "other.jls", film.refresh)
    refuses(f"one that is {name}, by its index", jlsrec.RecordingChanged, "other.jls", indexed.refresh)
    Path("other.jls").write_bytes(whole[:1000])
    indexed = jlsrec.Recording("other.jls", index=True)
    time.sleep(0.02)
    Path("other.jls.index").write_bytes(data)
    refuses(f"an index that is {name}", jlsrec.RecordingChanged, "other.jls.index", indexed.refresh)
form = lines[11].split(b" ", 3)[3]
for name, added, line in (
    ("text", b"text\n", 11),
    ("a line before", lines[3], 11),
    ("a line of another recording", b"11 9999 77 " + form, 11),
    ("a line that ends within a known codestream", b"11 %d 77 " % places[11] + form, 11),
    ("a number far ahead", b"900 %d 77 " % places[11] + form, 11),
):
    Path("by.jls").write_bytes(whole)
    Path("by.jls.index").write_bytes(b"".join(lines[:11]))
    film = jlsrec.Recording("by.jls", index=True)
    known = len(film)
    with open("by.jls.index", "ab") as file:
        file.write(added)
    error = refuses(f"added to an index: {name}", jlsrec.WrongIndex, " of by.jls.index: ", film.refresh)
    case(f"added to an index: {name}: line {error.line}", error.line == line)
    case(f"added to an index: {name}: the frames are as they were", len(film) == known and same(film, arrays))
film.close()
refuses("one that was closed", ValueError, "closed", film.refresh)

# ---- what all frames have in common

gray, colors, bytes_ = arrays[:300], arrays[300:500], [frame.astype(np.uint8) for frame in frames_of(7, 4)]


def made(name: str, frames: list[np.ndarray], maxvals: list[int | None], index: bool = False) -> jlsrec.Recording:
    """A recording of frames, each coded with its maxval."""
    Path(name).write_bytes(b"".join(jlsrec.encode(*each) for each in zip(frames, maxvals)))
    if index:
        Path(f"{name}.index").write_bytes(run("index", name))
    return jlsrec.Recording(name, index)


ALIKE = [
    # name, frames, maxvals, shape, dtype, maxval: what is expected, or the number of the first other frame
    ("gray", gray, [4095] * 300, (300, 6, 8), np.uint16, 4095),
    ("colour", colors, [4095] * 200, (200, 5, 4, 3), np.uint16, 4095),
    ("bytes", bytes_, [255] * 7, (7, 6, 8), np.uint8, 255),
    ("one", gray[:1], [1000], (1, 6, 8), np.uint16, 1000),
    ("another size", [*gray[:4], arrays[600], *gray[4:9], colors[0]], [4095] * 11, 4, np.uint16, 4095),
    ("gray and colour", [*gray[:9], colors[0]], [4095] * 10, 9, np.uint16, 4095),
    ("another maxval", gray[:9], [*[4095] * 6, 4094, 4095, 4093], (9, 6, 8), np.uint16, 6),
    ("another type", [*gray[:3], bytes_[0]], [4095, 4095, 4095, 255], (4, 6, 8), 3, 3),
    ("all of it", [*bytes_[:2], colors[1], gray[7]], [255, 200, 4095, 4095], 2, 2, 1),
]
for name, frames, maxvals, *wanted in ALIKE:
    for index in (False, True):
        film = made("alike.jls", frames, maxvals, index)
        for each, want in zip(("dtype", "shape", "maxval"), (wanted[1], wanted[0], wanted[2])):
            if isinstance(want, int) and each != "maxval" or each == "maxval" and want < 100:
                refuses(f"{name}: {each}", AttributeError, f"alike.jls: frame {want} has {each} ", getattr, film, each)
                case(f"{name}: {each} isn't there", getattr(film, each, None) is None)
            else:
                case(f"{name}: {each}, index={index}", getattr(film, each) == want)
Path("none.jls").write_bytes(b"")
refuses("of no frame", AttributeError, "no frame", getattr, jlsrec.Recording("none.jls"), "shape")
film = made("alike.jls", gray[:5], [4095] * 5)
case("of five", film.shape == (5, 6, 8))
with open("alike.jls", "ab") as file:
    file.write(codestreams[5] + codestreams[600])
case("until there are others", film.shape == (5, 6, 8) and film.refresh() == 2)
refuses("and then not", AttributeError, "frame 6 has shape (9, 2), and those before (6, 8)", getattr, film, "shape")
Path("malformed.jls").write_bytes(codestreams[0] + codestreams[1][:7] + b"\0\0" + codestreams[1][9:] + codestreams[2])
refuses("a malformed header", jlsrec.JlsrecError, "frame 1: ", getattr, jlsrec.Recording("malformed.jls"), "shape")
case("a recording is written as frames", jlsrec.write("again.jls", made("alike.jls", colors[:3], [4095] * 3), 4095) == 3)
thin = [np.full((4, 3), k, np.uint16) for k in range(5)]
case("also of gray frames 3 wide", jlsrec.write("thin.jls", made("alike.jls", thin, [4095] * 5), 4095) == 5)

# ---- many frames at once

# Small frames by several threads too.
usual, jlsrec.SAMPLES = jlsrec.SAMPLES, 1
stack = np.stack(gray)
for index in (False, True):
    film = made("stack.jls", gray, [4095] * 300, index)
    for workers in (1, 2, 4, 9):
        by = f"index={index}, {workers} workers"
        for name, frames in {
            "a slice": slice(20, 250, 3),
            "a slice backwards": slice(None, None, -1),
            "a slice past the end": slice(290, 999),
            "a range": range(17, 290, 9),
            "a range from the end": range(-5, 0),
            "a list": [3, 1, 299, 3, -1, -300, 42],
            "an array": np.array([7, 7, -7]),
            "one": [150],
        }.items():
            want = stack[frames if isinstance(frames, slice) else list(frames)]
            out = np.full(want.shape, 9999, np.uint16)
            case(f"{by}: {name}", film.read(frames, out, workers) is out and (out == want).all())
            got = film.read(frames, workers=workers)
            case(f"{by}: {name}, a new array", got.dtype == np.uint16 and np.array_equal(got, want))
        case(f"{by}: numbers as they come", np.array_equal(film.read(iter([5, 6, 200]), None, workers), stack[[5, 6, 200]]))
        case(f"{by}: all", np.array_equal(film.read(workers=workers), stack))
        for none in ([], slice(0, 0), range(0)):
            case(f"{by}: none, {none}", film.read(none, workers=workers).shape == (0, 6, 8))
small = made("small.jls", bytes_, [255] * 7)
case("bytes", small.read().dtype == np.uint8 and np.array_equal(small.read(workers=3), np.stack(bytes_)))
wide = np.zeros((7, 6, 8), np.uint16)
case("bytes into 16 bits", small.read(out=wide) is wide and np.array_equal(wide, np.stack(bytes_)))
mixed = made("mixed.jls", [gray[0], bytes_[1]], [4095, 255])
case("both into 16 bits", np.array_equal(mixed.read(out=np.zeros((2, 6, 8), np.uint16)), np.stack([gray[0], bytes_[1]])))
case("colour", np.array_equal(made("colors.jls", colors, [4095] * 200).read(workers=4), np.stack(colors)))
case("none into none", small.read([], np.zeros((0, 3), np.uint8)).shape == (0, 3))

readonly = np.zeros((300, 6, 8), np.uint16)
readonly.flags.writeable = False
film = made("stack.jls", gray, [4095] * 300)
for name, kind, text, words in (
    ("too few frames", ValueError, "out must be (300, 6, 8)", (None, np.zeros((299, 6, 8), np.uint16))),
    ("another size", ValueError, "out must be (2, 6, 8)", ([1, 2], np.zeros((2, 6, 9), np.uint16))),
    ("another type", ValueError, "out must be", (None, np.zeros((300, 6, 8), np.int32))),
    ("bytes for words", ValueError, "of uint16, and is", (None, np.zeros((300, 6, 8), np.uint8))),
    ("the other order of bytes", ValueError, "out must be", (None, np.zeros((300, 6, 8), ">u2"))),
    ("gaps", ValueError, "contiguous", (None, np.zeros((300, 6, 16), np.uint16)[:, :, ::2])),
    ("gaps between frames", ValueError, "contiguous", (None, np.zeros((600, 6, 8), np.uint16)[::2])),
    ("read only", ValueError, "writable", (None, readonly)),
    ("some for none", ValueError, "no frame", ([], np.zeros((1, 6, 8), np.uint16))),
    ("a number past the end", IndexError, "no such frame: 300", ([0, 300], None)),
    ("a number before the start", IndexError, "no such frame: -301", ([-301, 0], None)),
    ("a single number", TypeError, "", (3, None)),
    ("no numbers", TypeError, "", (["1"], None)),
    ("no worker", ValueError, "one worker or more", (None, None, 0)),
):
    refuses(f"read: {name}", kind, text, film.read, *words)
case("what can't be written is as it was", not readonly.any())
refuses("read: of no recording's frame", ValueError, "no frame", jlsrec.Recording("none.jls").read)
film.close()
refuses("read: closed", ValueError, "closed", film.read)

# Frames that can't be read: the first of them is named, and those before it are there.
torn = [bytearray(each) for each in codestreams[:300]]
for k in (128, 129, 200):
    torn[k][45:-12] = bytes(len(torn[k]) - 57)
hurt = b"".join(torn)
Path("hurt.jls").write_bytes(hurt)
for workers in (1, 4):
    for name, frames, first, index in (
        ("forwards", slice(None), 128, None),
        ("backwards", slice(None, None, -1), 200, None),
        ("by numbers", [*range(100), 129, 128, *range(80)], 129, None),
        ("by an index", slice(None), 128, True),
    ):
        film = jlsrec.Recording("hurt.jls") if index is None else film_by(lines[:300], hurt)
        numbers = list(range(300)[frames]) if isinstance(frames, slice) else frames
        for _ in range(10):
            out = np.zeros((len(numbers), 6, 8), np.uint16)
            error = refuses(f"{name}, {workers} workers", jlsrec.JlsrecError, f"frame {first}: ", film.read, frames, out, workers)
            known = numbers.index(first)
            case(f"{name}, {workers} workers: {known} before it", np.array_equal(out[:known], stack[numbers[:known]]))
        case(f"{name}: by the index", isinstance(error, jlsrec.WrongIndex) == (index is not None))
    # Both are begun, and either fails first.
    for first, second in ((128, 200), (200, 128)) if workers > 1 else ():
        film = jlsrec.Recording("hurt.jls")
        plainly, begun, failed = film._frame, {k: threading.Event() for k in (128, 200)}, threading.Event()

        def waiting(place, number: int, array: np.ndarray) -> np.ndarray:
            """Decodes a frame, the two in this order."""
            if number in begun:
                begun[number].set()
                begun[second if number == first else first].wait(60)
            if number == second:
                failed.wait(60)
                time.sleep(0.1)
            try:
                return plainly(place, number, array)
            finally:
                if number == first:
                    failed.set()

        film._frame = waiting
        refuses(f"{first} fails before {second}", jlsrec.JlsrecError, "frame 128: ", film.read, None, None, workers)
    film = made("unlike.jls", [bytes_[0], *gray[:39], arrays[600], *gray[40:80]], [255, *[4095] * 80])
    text = "frame 40 is (9, 2) of uint16, where (6, 8) of uint16 is wanted"
    refuses(f"another size, {workers} workers", ValueError, text, film.read, slice(1, None), None, workers)
    refuses(f"another type, {workers} workers", ValueError, "frame 1 is (6, 8) of uint16, where", film.read, None, None, workers)
refuses("a malformed first header", jlsrec.JlsrecError, "frame 1: ", jlsrec.Recording("malformed.jls").read, [1, 0])

jlsrec.SAMPLES = usual
begun: list[threading.Thread] = []
real_start = threading.Thread.start
threading.Thread.start = lambda thread: begun.append(thread) or real_start(thread)
for shape, most in (((16, 16), 1), ((64, 64), 1), ((96, 96), 2), ((256, 256), 9), ((64, 64, 3), 3)):
    frames = frames_of(12, 7, shape)
    film = made("sized.jls", frames, [8191] * 12)
    for workers in (1, 2, 4, 9):
        begun.clear()
        held = np.array_equal(film.read(workers=workers), np.stack(frames))
        case(f"frames {shape} by {len(begun) + 1} of {workers} workers", held and len(begun) + 1 == min(workers, most))
threading.Thread.start = real_start

# Numbers that there aren't are found at once: not all of them are looked at, or kept.
film = made("stack.jls", gray, [4095] * 300)
known = jlsrec.Recording("stack.jls")
case("counted", len(known) == 300)
for recording in (film, known, film_by(lines[:300], b"".join(codestreams[:300]))):
    for frames, first in (
        (range(10**20), 300),
        (range(10**20, -1, -1), 10**20),
        (range(299, -(10**20), -1), -301),
        (range(-(10**20), 300), -(10**20)),
        (range(7, 10**9, 100), 307),
        (range(-301, 0), -301),
        (range(300, 301), 300),
        (itertools.count(), 300),
        (itertools.count(-1, -1), -301),
        (itertools.count(10**20), 10**20),
    ):
        # No more memory than a process that reads all frames may have.
        resource.setrlimit(resource.RLIMIT_AS, (memory() + (1 << 29), limits[1]))
        try:
            refuses(f"read: {frames}", IndexError, f"no such frame: {first}", recording.read, frames)
        finally:
            resource.setrlimit(resource.RLIMIT_AS, limits)
    for words in ((300,), (3, 90, 7), (299, -1, -1), (-300, 300), (-1, -301, -1), (2, -3, -1), (5, 5)):
        case(f"read: {words}", np.array_equal(recording.read(range(*words)), stack[list(range(*words))]))

# ---- a recording that is written frame by frame

written = [*gray[:20], *colors[:3], arrays[600], gray[0][:, ::2], gray[1].T, gray[2].astype(">u2")]
want = [jlsrec.encode(each, 4095) for each in written]
with jlsrec.Writer("out.jls", 4095, index=True) as writer:
    film, followed = jlsrec.Recording("out.jls"), jlsrec.Recording("out.jls", index=True)
    case("it says which it is", repr(writer) == "<jlsrec.Writer 'out.jls'>")
    case("nothing yet", len(film) == len(followed) == 0 and film.fault is None and writer.path == Path("out.jls"))
    for k, each in enumerate(written):
        case(f"appended as {k}", writer.append(each) == k and writer.frames == k + 1)
        case(f"{k} is there", Path("out.jls").read_bytes() == b"".join(want[: k + 1]))
        case(f"{k} is listed", Path("out.jls.index").read_bytes() == run("index", "out.jls"))
        case(f"{k} is seen", film.refresh() == followed.refresh() == 1 and same(film[k:], [each]) and same(followed[k:], [each]))
        if k % 5 == 0:
            writer.sync()
        for name, kind, wrong in (
            ("a sample over maxval", jlsrec.JlsrecError, np.full((3, 3), 4096, np.uint16)),
            ("no row", jlsrec.JlsrecError, np.zeros((0, 3), np.uint16)),
            ("another type", TypeError, np.zeros((3, 3))),
            ("bytes", jlsrec.JlsrecError, bytes_[0]),
            ("no picture", TypeError, np.zeros(3, np.uint16)),
        ):
            refuses(f"{name} after {k}", kind, "", writer.append, wrong)
        case(f"{k} stands", Path("out.jls").read_bytes() == b"".join(want[: k + 1]) and writer.frames == k + 1)
        case(f"{k} is listed still", Path("out.jls.index").read_bytes() == run("index", "out.jls"))
case("closed", Path("out.jls").read_bytes() == b"".join(want) and same(jlsrec.Recording("out.jls", True), written))
case("its index is checked", b"27 frames, 0 damaged" in run("check", "--index", "out.jls.index", "out.jls"))
for name, use in {"append": lambda: writer.append(gray[0]), "sync": writer.sync, "with": writer.__enter__}.items():
    refuses(f"closed: {name}", ValueError, "out.jls: the recording was closed", use)
case("closed twice", writer.close() is None and writer.frames == 27)
for name, file, words in (
    ("a recording", "out.jls", ("out.jls",)),
    ("an index beside", "alone.jls.index", ("alone.jls", None, None, True)),
    ("an index of another name", "out.jls.index", ("alone.jls", None, None, "out.jls.index")),
    ("an index that is the recording", "alone.jls", ("alone.jls", None, None, "alone.jls")),
):
    Path("alone.jls.index").write_bytes(b"mine")
    before = {each: each.read_bytes() for each in Path(".").iterdir()}
    refuses(f"{name} that is there", FileExistsError, f"'{file}'", jlsrec.Writer, *words)
    case(f"{name} that is there: nothing is changed", {each: each.read_bytes() for each in Path(".").iterdir()} == before)
refuses("no folder", FileNotFoundError, "nowhere/x.jls", jlsrec.Writer, "nowhere/x.jls")
refuses("no folder of the index", FileNotFoundError, "nowhere/x.index", jlsrec.Writer, "alone.jls", None, None, "nowhere/x.index")
case("and no recording then", not Path("alone.jls").exists())
with jlsrec.Writer("none.out.jls", index="none.listed"):
    pass
case("no frame is a recording", Path("none.out.jls").read_bytes() == Path("none.listed").read_bytes() == b"")
for count in (0, 2):
    try:
        with jlsrec.Writer("broken.out.jls", index="broken.listed") as writer:
            for each in gray[:count]:
                writer.append(each)
            raise KeyError("mine")
    except KeyError as error:
        case("an error of the block's own", error.args == ("mine",))
    left = [Path(each) for each in ("broken.out.jls", "broken.listed")]
    if count == 0:
        case("no frame before it: nothing is left", not any(each.exists() for each in left))
    else:
        case("two frames before it", left[0].read_bytes() == b"".join(jlsrec.encode(each) for each in gray[:2]))
        case("two lines before it", left[1].read_bytes() == run("index", "broken.out.jls"))
tuned = jlsrec.Writer("tuned.jls", 4095, (20, 70, 300, 32), index=True)
tuned.append(gray[0])
tuned.close()
case("a preset", jlsrec.Recording("tuned.jls", True).header(0).preset == (20, 70, 300, 32))
case("a preset in its line", Path("tuned.jls.index").read_bytes() == run("index", "tuned.jls"))

with jlsrec.Writer("threads.jls", 4095, index=True) as writer:
    numbers: list[tuple[int, int]] = []
    threads = [
        threading.Thread(target=lambda t=t: numbers.extend((writer.append(gray[k]), k) for k in range(t, 300, 8))) for t in range(8)
    ]
    for thread in threads:
        thread.start()
    for thread in threads:
        thread.join()
case("eight threads: each number once", sorted(number for number, _ in numbers) == list(range(300)))
film = jlsrec.Recording("threads.jls", index=True)
case("eight threads: each frame at its number", all((film[number] == gray[k]).all() for number, k in numbers))
case("eight threads: its index", Path("threads.jls.index").read_bytes() == run("index", "threads.jls"))

end()
