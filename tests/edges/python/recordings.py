"""Recordings at the edges: shared by threads, changed while they are open, written where something fails.

    python3 recordings.py
"""

from __future__ import annotations

import errno
import fcntl
import os
import resource
import signal
import stat
import subprocess
import sys
import threading
import time
from pathlib import Path

import numpy as np

import jlsrec
from cases import case, end, refuses
from jlsrec import _files


def frames_of(count: int, seed: int, shape: tuple[int, ...] = (6, 8)) -> list[np.ndarray]:
    """Frames of noise, whose codestreams differ in length."""
    drawn = np.random.default_rng(seed)
    return [drawn.integers(0, 2 << k % 12, shape).astype(np.uint16) for k in range(count)]


def joined(arrays: list[np.ndarray]) -> bytes:
    """The recording of arrays, by encode alone."""
    return b"".join(jlsrec.encode(array, 4095) for array in arrays)


def same(got, want) -> bool:
    """Whether two lists of frames are the same."""
    got, want = list(got), list(want)
    return len(got) == len(want) and all(a.shape == b.shape and (a == b).all() for a, b in zip(got, want))


def beside(path: str) -> list[str]:
    """What stands beside a path under names that begin with its own."""
    return sorted(each.name for each in Path(".").glob(f"{path}?*"))


def alone(code: str, *words: str) -> subprocess.CompletedProcess:
    """Runs code in an interpreter of its own."""
    begin = "import itertools, os, resource, signal, sys; import jlsrec, numpy as np\n"
    command = [sys.executable, "-c", begin + code, *words]
    return subprocess.run(command, capture_output=True, text=True, timeout=120)


# ---- threads: 16 over 1000 frames, 100 times

frames = frames_of(1000, 1)
wanted = [frame.tobytes() for frame in frames]
Path("shared.jls").write_bytes(joined(frames))
sys.setswitchinterval(1e-5)
wrong: list[str] = []


def take(recording: jlsrec.Recording, number: int, gate: threading.Barrier) -> None:
    """Takes a quarter of the frames, in an order of its own, compares each, and counts them all somewhere between."""
    order = np.random.default_rng(number).permutation(range(number % 4, 1000, 4)).tolist()
    gate.wait()
    try:
        for place, index in enumerate(order):
            if place == number * 5 and len(recording) != 1000:
                wrong.append(f"{len(recording)} frames")
            if recording[index].tobytes() != wanted[index]:
                wrong.append(f"frame {index}")
    except Exception as error:
        wrong.append(f"{type(error).__name__}: {error}")


for turn in range(100):
    gate = threading.Barrier(16)
    with jlsrec.Recording("shared.jls") as recording:
        threads = [threading.Thread(target=take, args=(recording, k, gate)) for k in range(16)]
        for thread in threads:
            thread.start()
        for thread in threads:
            thread.join()
case(f"16 threads: {len(wrong)} wrong, such as {wrong[:3]}", not wrong)

wrong = []
for turn in range(30):
    gate = threading.Barrier(9)
    recording = jlsrec.Recording("shared.jls")
    answers: list[bool] = []

    def loop() -> None:
        """Goes through all frames until the recording is closed."""
        gate.wait()
        try:
            answers.append(all(got.tobytes() == want for got, want in zip(recording, wanted)))
        except ValueError as error:
            answers.append("closed" in str(error))

    threads = [threading.Thread(target=loop) for _ in range(8)]
    for thread in threads:
        thread.start()
    gate.wait()
    time.sleep(turn / 3000)
    recording.close()
    # Another file, which may get the number of the first.
    others = [open("shared.jls", "rb") for _ in range(3)]
    for thread in threads:
        thread.join()
    for other in others:
        other.close()
    if answers != [True] * 8:
        wrong.append(str(answers))
case(f"closed by one thread while eight read: {wrong[:1]}", not wrong)
sys.setswitchinterval(0.005)

# A signal whose handler uses the recording that the thread it interrupts is walking.
signalled = """
wanted = [frame.tobytes() for frame in jlsrec.Recording("shared.jls")]
wrong = 0
def handle(*words):
    global wrong
    wrong += len(film) != 1000 or film[999].tobytes() != wanted[999]
signal.signal(signal.SIGALRM, handle)
for turn in range(60):
    film = jlsrec.Recording("shared.jls")
    signal.setitimer(signal.ITIMER_REAL, 0.0001 + turn * 0.0002)
    wrong += len(film) != 1000
    signal.setitimer(signal.ITIMER_REAL, 0)
    wrong += any(film[k].tobytes() != wanted[k] for k in range(0, 1000, 50))
print(wrong)
"""
done = alone(signalled)
case(f"a signal while it is walked: {done.stdout}{done.stderr[-200:]}", done.stdout == "0\n")

# ---- a file that is changed while it is open

frames = frames_of(40, 2)
whole = joined(frames)
shrunk = """
os.close(os.open(sys.argv[1], os.O_RDONLY))
film = jlsrec.Recording(sys.argv[1])
first, count = film[0], len(film) if sys.argv[2] == "found" else None
os.truncate(sys.argv[1], int(sys.argv[3]))
uses = [lambda: film[30], lambda: film.data(30), lambda: film.header(30)]
uses += [lambda: list(film), lambda: film[-1], lambda: film[25:]]
for use in uses:
    try:
        use()
        print("there")
    except OSError as error:
        print(type(error).__name__, error.filename, "shrunk" in str(error))
"""
for found in ("found", "unknown"):
    for left in (0, 100, len(whole) - 1):
        Path("shrinks.jls").write_bytes(whole)
        done = alone(shrunk, "shrinks.jls", found, str(left))
        said = (done.returncode, done.stdout.splitlines())
        # Frame 30 is there as long as only the last byte is lost.
        there = 3 if left > 100 else 0
        want = ["there"] * there + ["RecordingChanged shrinks.jls True"] * (6 - there)
        case(f"shrunk to {left}, {found}: {said}", said == (0, want))

others = frames_of(90, 3)
Path("over.jls").write_bytes(whole)
film = jlsrec.Recording("over.jls")
case("a frame before it is written over", (film[3] == frames[3]).all())
time.sleep(0.02)
Path("over.jls").write_bytes(joined(others))
for index in (0, 3, 20, -1):
    refuses(f"frame {index} of one that was written over", jlsrec.RecordingChanged, "over.jls", film.__getitem__, index)
refuses("and all of them", jlsrec.RecordingChanged, "over.jls", list, film)

cut = len(joined(frames[:25])) + 10
Path("grows.jls").write_bytes(whole[:cut])
film, late = jlsrec.Recording("grows.jls"), jlsrec.Recording("grows.jls")
case("before it grows", len(film) == 25)
with open("grows.jls", "ab") as file:
    for place in range(cut, len(whole), 50):
        file.write(whole[place : place + 50])
        file.flush()
        index = place % 25
        if not (film[index] == frames[index]).all():
            case(f"frame {index} while it grows", False)
for name, each in {"one that was counted": film, "one that wasn't": late}.items():
    case(f"{name} has its frames", same(each, frames[:25]) and len(each) == 25)
    case(f"{name} has its fault", each.fault is not None and "truncated" in str(each.fault))
case("one that is opened now has all", same(jlsrec.Recording("grows.jls"), frames))


def listed(count: int, arrays: list[np.ndarray], sums: bool = True) -> bytes:
    """The index of the first of some frames, with their sums or without."""
    with jlsrec.Writer("listed.jls", 4095, index=True) as writer:
        for array in arrays[:count]:
            writer.append(array)
    index = Path("listed.jls.index").read_bytes().splitlines()
    for each in ("listed.jls", "listed.jls.index"):
        os.unlink(each)
    return b"".join((line if sums else line.rpartition(b" ")[0]) + b"\n" for line in index)


# Another thread refreshes between a read and the look at the file's size.
ends = [len(joined(frames[:k])) for k in range(41)]
real_fstat = os.fstat


def grown(number: int) -> os.stat_result:
    """The file as it is, and then appended to and refreshed."""
    now, os.fstat = real_fstat(number), real_fstat
    with open("between.jls", "ab") as file:
        file.write(whole[ends[20] : ends[22]])
    thread = threading.Thread(target=film.refresh)
    thread.start()
    thread.join()
    return now


Path("between.jls.index").write_bytes(listed(20, frames, False))
for index in (False, True):
    Path("between.jls").write_bytes(whole[: ends[20]])
    film = jlsrec.Recording("between.jls", index)
    case(f"index={index}: before another thread refreshes", len(film) == 20)
    time.sleep(0.02)
    place = film._place(19)
    os.fstat = grown
    try:
        got = place.file.read(place.start, place.end)
    except OSError as error:
        got = error
    finally:
        os.fstat = real_fstat
    case(f"index={index}: refreshed by another thread: {got}", got == whole[ends[19] : ends[20]] and len(film) == 22)

# A torn codestream that is cut off, and others in its place, are no change of what is known.
far = getattr(_files, "FAR", 0)
drawn = frames_of(40, 6, (60, 80))
codestreams = [jlsrec.encode(frame, 4095) for frame in drawn]
# An end's marker in a comment ends nothing, which is known once the frames are counted.
commented = codestreams[11][:2] + b"\xff\xfe\0\6\xff\xd9\xff\xd9" + codestreams[11][2:]
known = ("counted", "refreshed", "far")
every = ("not counted", *known, "continued while it is read")
torn = [(codestreams[11][:cut], every) for cut in (1, 2, 3, 30, 5000)]
for front, names in (*torn, (commented[:60], known), (commented[:5000], known)):
    for index in (False, True):
        for name in names if not index else [name for name in names if name != "far"]:
            by = f"{len(front)} bytes torn, index={index}, {name}"
            for each in Path(".").glob("torn.jls*"):
                each.unlink()
            with jlsrec.Writer("torn.jls", 4095, index=index) as writer:
                for frame in drawn[:11]:
                    writer.append(frame)
            early = jlsrec.Recording("torn.jls", index)
            with open("torn.jls", "ab") as file:
                file.write(front)
            if index:
                with open("torn.jls.index", "ab") as file:
                    file.write(b"11 45757 1")
            # As if the codestream that is torn were too long to look for the last one's end.
            _files.FAR = 0 if name == "far" else far
            film = early if name == "refreshed" else jlsrec.Recording("torn.jls", index)
            _files.FAR = far
            if name == "refreshed":
                case(f"{by}: it isn't there", film.refresh() == 0 and len(film) == 11)
            elif name in known:
                case(f"{by}: {film.fault}", len(film) == 11 and film.fault is not None)
            try:
                with jlsrec.Writer("torn.jls", 4095, index=index, append=True, repair=True) as writer:
                    if name == "continued while it is read":
                        got = np.array_equal(film[10], drawn[10])
                        case(f"{by}: cut off", got and len(film) == 11 and film.fault is None)
                    for frame in drawn[20:25]:
                        writer.append(frame)
                film[3], film.refresh(), film[3]
            except OSError as error:
                case(f"{by}: {error}", False)
                continue
            case(f"{by}: followed", same(film, drawn[:11] + drawn[20:25]) and film.fault is None)
            case(f"{by}: by an earlier one", early.refresh() in (0, 5) and same(early, film))
            film.refresh()
            case(f"{by}: no more", len(film) == 16)
Path("torn.jls").write_bytes(b"".join(codestreams[:11]) + codestreams[11][:5000])
film = jlsrec.Recording("torn.jls")
case("not gone on with yet", film[10].shape == (60, 80))
with jlsrec.Writer("torn.jls", 4095, append=True, repair=True) as writer:
    for frame in frames_of(40, 7):
        writer.append(frame)
try:
    case(f"gone on with by small frames: {len(film)}, {film.fault}", len(film) == 11 and film.fault is None)
except OSError as error:
    case(f"gone on with by small frames: {error}", False)

# A writer whose disk is full, and that goes on, has its followers.
real_write, real_ftruncate = os.write, os.ftruncate
for k, torn in enumerate((1, 40, 5000)):
    for truncates in (True, False):
        name = f"full{k}{truncates}.jls"
        writer = jlsrec.Writer(name, 4095)
        writer.append(drawn[0])
        film = jlsrec.Recording(name)

        def partly(number: int, data: bytes) -> int:
            """Writes the front; it is looked at, and then the disk is full."""
            real_write(number, data[: min(torn, len(data) - 1)])
            film.refresh()
            raise OSError(errno.ENOSPC, "No space left on device")

        def failing_to_cut(*words) -> None:
            """As a disk that is at fault answers."""
            raise OSError(errno.EIO, "Input/output error")

        for turn in (1, 2):
            os.write, os.ftruncate = partly, real_ftruncate if truncates else failing_to_cut
            refuses(f"{name}: full", OSError, name, writer.append, drawn[30])
            os.write, os.ftruncate = real_write, real_ftruncate
            writer.append(drawn[turn])
            try:
                case(f"{name}: followed", film.refresh() == 1 and same(film, drawn[: turn + 1]) and film.fault is None)
            except OSError as error:
                case(f"{name}: {error}", False)
        writer.close()

# Of a recording that has shrunk, or was written over, what is there as it was can be read, and nothing else.
flat = [np.full((16, 16), value, np.uint16) for value in range(2000, 4000)]
coded = [jlsrec.encode(frame, 4095) for frame in flat]
size = len(coded[1000])
flat, coded = zip(*[pair for pair in zip(flat, coded) if len(pair[1]) == size][:1000])
case(f"{len(flat)} flat frames of {size} bytes", len(flat) == len(set(coded)) == 1000)


def seen(film: jlsrec.Recording, number: int) -> str:
    """Whether a frame, its codestream and its header are as they were, or which error is raised."""
    try:
        array, data, header = film[number], film.data(number), film.header(number)
    except (OSError, ValueError) as error:
        return type(error).__name__
    held = np.array_equal(array, CHANGED[number]) and data == CODED[number] and header == jlsrec.read_header(data)
    return "there" if held else "other"


for kind, CHANGED, CODED in (("noise", drawn, codestreams), ("flat", flat[:40], coded[:40])):
    first = [sum(map(len, CODED[:k])) for k in range(41)]
    data = b"".join(CODED[:20])
    for name, changed, there in (
        ("cut between frames", data[: first[10]], range(10)),
        ("cut within one", data[: first[10] + 20], range(10)),
        ("cut to one", data[: first[1]], range(1)),
        ("emptied", b"", range(0)),
        ("cut and gone on with", data[: first[10]] + b"".join(CODED[22:26]), range(10)),
        ("cut and gone on with for long", data[: first[10]] + b"".join(CODED[20:40]), range(10)),
        ("the last one replaced", data[: first[19]] + CODED[25], range(19)),
        ("the first one replaced", CODED[25] + data[first[1] :], range(1, 20) if kind == "flat" else range(0)),
        ("replaced by others, fewer", b"".join(CODED[20:35]), range(0)),
        ("replaced by others, more", b"".join(CODED[20:40]), range(0)),
    ):
        for refreshed in (False, True):
            Path("lost.jls").write_bytes(data)
            film = jlsrec.Recording("lost.jls")
            case(f"{kind}: {name}: counted", len(film) == 20)
            time.sleep(0.02)
            Path("lost.jls").write_bytes(changed)
            if refreshed:
                for _ in range(2):
                    refuses(f"{kind}: {name}: refreshed", jlsrec.RecordingChanged, "lost.jls", film.refresh)
            got = [seen(film, number) for number in range(20)]
            want = ["there" if number in there else "RecordingChanged" for number in range(20)]
            case(f"{kind}: {name}, refreshed={refreshed}: {got}", got == want and len(film) == 20)

# By an index these have its sums.
for name, sums in (("sums", True), ("no sums", False)):
    Path("lost.jls").write_bytes(b"".join(codestreams[:20]))
    Path("lost.jls.index").write_bytes(listed(20, drawn, sums))
    CHANGED, CODED = drawn, codestreams
    film = jlsrec.Recording("lost.jls", index=True)
    case(f"{name}: before", seen(film, 9) == "there")
    time.sleep(0.02)
    Path("lost.jls").write_bytes(b"".join(codestreams[:10]) + b"".join(codestreams[22:25]))
    refuses(f"{name}: refreshed", jlsrec.RecordingChanged, "lost.jls", film.refresh)
    got = [seen(film, number) for number in range(20)]
    case(f"{name}: {got}", got == ["there" if number < 10 and sums else "RecordingChanged" for number in range(20)])

# Those that were found by their markers, and that an index without sums has by now in part.
Path("lost.jls").write_bytes(b"".join(codestreams[:20]))
Path("lost.jls.index").write_bytes(listed(4, drawn, False))
film = jlsrec.Recording("lost.jls", index=True)
case("an index of some: before", len(film) == 20)
Path("lost.jls.index").write_bytes(listed(8, drawn, False))
case("an index of more", film.refresh() == 0 and len(film) == 20)
time.sleep(0.02)
os.truncate("lost.jls", sum(map(len, codestreams[:15])))
got = [seen(film, number) for number in range(20)]
case(f"an index of some: {got}", got == ["there" if 8 <= number < 15 else "RecordingChanged" for number in range(20)])

# Of many small ones at once some have a sum together, so a few before the cut may be lost, and none is another one.
Path("small.jls").write_bytes(b"".join(coded))
film = jlsrec.Recording("small.jls")
case("1000 small ones", len(film) == 1000)
time.sleep(0.02)
Path("small.jls").write_bytes(b"".join(coded[:500] + coded[600:700]))
CHANGED, CODED = flat, coded
got = [seen(film, number) for number in range(1000)]
case("small ones before the cut", got[:490] == ["there"] * 490 and set(got[490:500]) <= {"there", "RecordingChanged"})
case("small ones after the cut", got[500:] == ["RecordingChanged"] * 500)

# ---- what a file is, and how much of it is read

os.mkfifo("pipe")
refuses("a pipe", OSError, "not a regular file", jlsrec.Recording, "pipe")
refuses("a folder", IsADirectoryError, "", jlsrec.Recording, ".")

# Codestreams that end exactly where a read of the file may end, or have EOI inside a segment there (T.81 B.2.4.5: COM).
plain = jlsrec.encode(frames[5], 4095)


def padded(length: int, filling: bytes) -> bytes:
    """The codestream, made as long as this by comments of this filling."""
    left, segments = length - len(plain), b""
    while left > 0:
        size = left if left <= 65537 else 65537 if left - 65537 >= 4 else left - 4
        segments += b"\xff\xfe" + (size - 2).to_bytes(2, "big") + (filling * size)[: size - 4]
        left -= size
    return plain[:2] + segments + plain[2:]


for length in (1 << 16, 1 << 17, 1 << 18, (1 << 18) + 1, (1 << 18) - 1, 1 << 19, (1 << 20) + 2):
    for filling in (b"\xff\xd9", b"\xd9\xff", b"\0"):
        Path("padded.jls").write_bytes(padded(length, filling) * 3 + plain)
        film = jlsrec.Recording("padded.jls")
        held = film.fault is None and [film.size(k) for k in range(len(film))] == [length] * 3 + [len(plain)]
        case(f"codestreams of {length} bytes", held and same(film, [frames[5]] * 4))
        case("and their headers", film.header(2) == jlsrec.read_header(plain))
        Path("padded.jls").write_bytes(padded(length, filling) * 2 + plain[:-3])
        film = jlsrec.Recording("padded.jls")
        case(f"codestreams of {length} bytes before a fault", len(film) == 2 and "truncated" in str(film.fault))

with open("large.jls", "wb") as file:
    for _ in range(150):
        file.write(padded(1 << 20, b"\xff\xd9"))
peak = """
before = resource.getrusage(resource.RUSAGE_SELF).ru_maxrss
film = jlsrec.Recording("large.jls")
print(len(film), film[70].shape, film.header(149).height, resource.getrusage(resource.RUSAGE_SELF).ru_maxrss - before)
"""
words = alone(peak).stdout.split()
case(f"150 MB aren't read into memory: {words}", words[:4] == ["150", "(6,", "8)", "6"] and int(words[4]) < 30000)

# ---- writing: the earlier recording stands until the new one is whole

earlier, frames = frames_of(12, 4), frames_of(7, 5)
before, after = joined(earlier), joined(frames)


def place(path: str) -> str:
    """Puts the earlier recording at a path."""
    for each in Path(".").glob(f"{path}*"):
        each.unlink()
    Path(path).write_bytes(before)
    return path


def stands(name: str, path: str, data: bytes | None, part: bytes | None) -> None:
    """That a path has these bytes, and PATH.part those; where they are None, that there is no such file."""
    for each, bytes_ in ((path, data), (f"{path}.part", part)):
        got = Path(each).read_bytes() if os.path.lexists(each) else None
        case(f"{name}: {each} has {None if got is None else len(got)} bytes", got == bytes_)
    case(f"{name}: nothing else, {beside(path)}", set(beside(path)) <= {f"{path}.part"})


def broken(count: int, error: BaseException):
    """The first frames, and then an error."""
    yield from frames[:count]
    raise error


itself = """
count = jlsrec.write(sys.argv[1], (frame for frame in jlsrec.Recording(sys.argv[1])), 4095, replace=True)
print(count)
"""
done = alone(itself, place("itself.jls"))
case(f"written from itself: {done.returncode} {done.stdout}", (done.returncode, done.stdout) == (0, "12\n"))
stands("written from itself", "itself.jls", before, None)

film = jlsrec.Recording(place("reader.jls"))
case("a reader before", (film[2] == earlier[2]).all())
case("replaced", jlsrec.write("reader.jls", frames, 4095, replace=True) == 7)
case("the reader goes on in the earlier one", same(film, earlier))
stands("replaced", "reader.jls", after, None)

for name, arrays, kind in (
    ("a sample over maxval", [*frames[:3], np.full((6, 8), 4096, np.uint16)], jlsrec.JlsrecError),
    ("an array of another type", [*frames[:3], np.zeros((6, 8))], TypeError),
    ("an error of the arrays' own", broken(3, RuntimeError("no more")), RuntimeError),
    ("an interrupt", broken(3, KeyboardInterrupt()), KeyboardInterrupt),
):
    for replace in (True, False):
        if isinstance(arrays, list):
            each = iter(arrays)
        else:
            each = broken(3, KeyboardInterrupt() if kind is KeyboardInterrupt else RuntimeError("no more"))
        path = place("fails.jls")
        if not replace:
            os.unlink(path)
        error = refuses(name, kind, "", jlsrec.write, path, each, 4095, None, replace)
        stands(f"{name}, replace={replace}", path, before if replace else None, joined(frames[:3]))
        notes = getattr(error, "__notes__", [])
        case(f"{name}: {notes}", len(notes) == 1 and "fails.jls.part has the 3 frames" in notes[0])
words = (place("first.jls"), broken(0, RuntimeError()), 4095, None, True)
error = refuses("no frame before the error", RuntimeError, "", jlsrec.write, *words)
stands("no frame before the error", "first.jls", before, None)
case("no frame before the error: no note", not getattr(error, "__notes__", []))

words = (place("none.jls"), iter([]), 4095, None, True)
refuses("no frame in a recording's place", ValueError, "none.jls", jlsrec.write, *words)
stands("no frame in a recording's place", "none.jls", before, None)
os.unlink("none.jls")
case("no frame", jlsrec.write("none.jls", []) == 0)
stands("no frame", "none.jls", b"", None)
case("in the place of an empty file", jlsrec.write("none.jls", frames, 4095, replace=True) == 7)
stands("in the place of an empty file", "none.jls", after, None)

refuses("one that is there", FileExistsError, "there.jls", jlsrec.write, place("there.jls"), frames, 4095)
stands("one that is there", "there.jls", before, None)
os.symlink("nowhere.jls", "link.jls")
refuses("a link that leads nowhere", FileExistsError, "link.jls", jlsrec.write, "link.jls", frames, 4095)
case("and it leads there still", os.readlink("link.jls") == "nowhere.jls" and not os.path.exists("nowhere.jls"))


def late(path: str):
    """Frames, between which somebody else makes the file."""
    yield from frames[:4]
    place(path) if not os.path.exists(f"{path}.part") else Path(path).write_bytes(before)
    yield from frames[4:]


real_link = os.link


def no_link(*words, **named) -> None:
    """As a file system without hard links answers."""
    raise PermissionError(errno.EPERM, "Operation not permitted")


for name, link in {"hard links": real_link, "no hard links": no_link}.items():
    os.link = link
    for each in Path(".").glob("late.jls*"):
        each.unlink()
    words = ("late.jls", late("late.jls"), 4095)
    error = refuses(f"{name}: one that came meanwhile", FileExistsError, "late.jls", jlsrec.write, *words)
    notes = getattr(error, "__notes__", [])
    case(f"{name}: its note {notes}", len(notes) == 1 and "late.jls.part has the 7 frames" in notes[0])
    stands(f"{name}: one that came meanwhile", "late.jls", before, after)
    for each in Path(".").glob("late.jls*"):
        each.unlink()
    case(f"{name}: written", jlsrec.write("late.jls", frames, 4095) == 7)
    stands(f"{name}: written", "late.jls", after, None)
os.link = real_link

Path("kept.jls.part").write_bytes(b"of an earlier run")
error = refuses("beside an earlier part", RuntimeError, "", jlsrec.write, "kept.jls", broken(2, RuntimeError()), 4095)
case("beside an earlier part: both are there", beside("kept.jls") == ["kept.jls.part", "kept.jls.part.1"])
case("beside an earlier part: as it was", Path("kept.jls.part").read_bytes() == b"of an earlier run")
case("beside an earlier part: the new one", Path("kept.jls.part.1").read_bytes() == joined(frames[:2]))
case("beside an earlier part: its note", "kept.jls.part.1" in getattr(error, "__notes__", [""])[0])

# A process that is killed while it writes, and one whose file may grow no more.
killed = """
def some():
    for k in itertools.count():
        if k == 5:
            os.kill(os.getpid(), signal.SIGKILL)
        yield np.full((6, 8), k, np.uint16)
jlsrec.write(sys.argv[1], some(), 4095, replace=True)
"""
done = alone(killed, place("killed.jls"))
case("killed", done.returncode == -signal.SIGKILL)
stands("killed", "killed.jls", before, joined([np.full((6, 8), k, np.uint16) for k in range(5)]))

full = """
resource.setrlimit(resource.RLIMIT_FSIZE, (5000, 5000))
drawn = (np.random.default_rng(k).integers(0, 4096, (20, 30)) for k in range(50))
try:
    jlsrec.write(sys.argv[1], (frame.astype(np.uint16) for frame in drawn), 4095, replace=True)
except OSError as error:
    print(error.filename, error.errno)
"""
done = alone(full, place("full.jls"))
case(f"a file that may grow no more: {done.stdout}", done.stdout == f"full.jls {errno.EFBIG}\n")
large = [np.random.default_rng(k).integers(0, 4096, (20, 30)).astype(np.uint16) for k in range(50)]
fits = max(k for k in range(50) if len(joined(large[:k])) <= 5000)
stands("a file that may grow no more", "full.jls", before, joined(large[:fits]))

# Eight at once, one place.
once = """
print(jlsrec.write(sys.argv[1], [np.full((6, 8), int(sys.argv[2]) + k, np.uint16) for k in range(40)], 4095))
"""
for turn in range(3):
    path = f"once{turn}.jls"
    begin = "import sys, jlsrec, numpy as np\n"
    words = [sys.executable, "-c", begin + once, path]
    quiet = {"stdout": subprocess.DEVNULL, "stderr": subprocess.DEVNULL}
    running = [subprocess.Popen([*words, str(50 * k)], **quiet) for k in range(8)]
    ends = [each.wait() for each in running]
    kinds = [joined([np.full((6, 8), 50 * k + j, np.uint16) for j in range(40)]) for k in range(8)]
    winner = [k for k in range(8) if ends[k] == 0]
    case(f"eight at once: {ends}", len(winner) == 1 and Path(path).read_bytes() == kinds[winner[0]])
    lost = [each for each in beside(path) if Path(each).read_bytes() not in kinds]
    case(f"eight at once: what others wrote is whole {lost}", not lost)

# ---- what a file that is replaced keeps

for name, mode in {"read by its owner alone": 0o600, "written by all": 0o666}.items():
    os.chmod(place("mode.jls"), mode)
    jlsrec.write("mode.jls", frames, 4095, replace=True)
    case(f"one {name}: {os.stat('mode.jls').st_mode:o}", stat.S_IMODE(os.stat("mode.jls").st_mode) == mode)
place("target.jls")
os.symlink("target.jls", "linked.jls")
jlsrec.write("linked.jls", frames, 4095, replace=True)
case("a link stays one", os.path.islink("linked.jls") and Path("target.jls").read_bytes() == after)
with open(place("locked.jls"), "rb") as file:
    fcntl.flock(file, fcntl.LOCK_EX)
    words = ("locked.jls", frames, 4095, None, True)
    refuses("one that is being recorded", OSError, "another program", jlsrec.write, *words)
    stands("one that is being recorded", "locked.jls", before, None)
got: list[bytes] = []
reader = threading.Thread(target=lambda: got.append(Path("pipe").read_bytes()))
reader.start()
jlsrec.write("pipe", frames, 4095, replace=True)
reader.join()
case("a pipe is written to", got == [after] and stat.S_ISFIFO(os.stat("pipe").st_mode) and beside("pipe") == [])
output = """
sys.stdout.flush()
drawn = np.random.default_rng(9).integers(0, 4096, (6, 8)).astype(np.uint16)
jlsrec.write("/dev/stdout", [drawn, drawn], 4095, replace=True)
"""
drawn = np.random.default_rng(9).integers(0, 4096, (6, 8)).astype(np.uint16)
done = subprocess.run(
    [sys.executable, "-c", "import sys, jlsrec, numpy as np\n" + output], stdout=subprocess.PIPE, timeout=120
)
case("standard output that is a pipe", done.stdout == joined([drawn, drawn]))
refuses("a full device", OSError, "/dev/full", jlsrec.write, "/dev/full", frames, 4095, None, True)
case("a device stays one", stat.S_ISCHR(os.stat("/dev/full").st_mode))
os.mkdir("folder.jls")
refuses("a folder", OSError, "folder.jls", jlsrec.write, "folder.jls", frames, 4095, None, True)
refuses("no folder", FileNotFoundError, "nowhere/x.jls", jlsrec.write, "nowhere/x.jls", frames, 4095)

# ---- the file is on the disk before its name is, and then its folder

calls: list[str] = []
real = {name: getattr(os, name) for name in ("fsync", "rename", "link", "unlink")}


def watched(name: str):
    """A call that leaves its name, and of fsync what it is of."""

    def call(*words, **named):
        what = stat.S_ISDIR(os.fstat(words[0]).st_mode) if name == "fsync" else None
        calls.append(name if what is None else f"{name} of the {'folder' if what else 'file'}")
        return real[name](*words, **named)

    return call


for name in real:
    setattr(os, name, watched(name))
place("synced.jls")
calls.clear()
jlsrec.write("synced.jls", frames, 4095, replace=True)
case(f"replaced: {calls}", calls == ["fsync of the file", "rename", "fsync of the folder"])
real["unlink"]("synced.jls")
calls.clear()
jlsrec.write("synced.jls", frames, 4095)
case(f"made: {calls}", calls == ["fsync of the file", "link", "unlink", "fsync of the folder"])
for name in real:
    setattr(os, name, real[name])


def failing(*words) -> None:
    """As a disk that is at fault answers."""
    raise OSError(errno.EIO, "Input/output error")


os.fsync = failing
refuses("a sync that fails", OSError, "unsynced.jls", jlsrec.write, place("unsynced.jls"), frames, 4095, None, True)
os.fsync = real["fsync"]
stands("a sync that fails", "unsynced.jls", before, after)

end()
