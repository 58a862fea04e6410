"""Recordings that are written frame by frame, at the edges: processes that are killed or interrupted, files that may grow no
more, disks at fault, and readers meanwhile; and how much memory many frames at once take.

    python3 writer.py PROGRAM
"""

from __future__ import annotations

import errno
import os
import signal
import subprocess
import sys
import time
from pathlib import Path

import numpy as np

import jlsrec
from cases import case, end, refuses

program = sys.argv[1]


def frame_of(number: int, shape: tuple[int, int] = (6, 8)) -> np.ndarray:
    """The frame of a number: noise, of as many bits as the number says."""
    return np.random.default_rng(number).integers(0, 2 << number % 12, shape).astype(np.uint16)


def joined(count: int, shape: tuple[int, int] = (6, 8)) -> bytes:
    """The recording of the first frames, by encode alone."""
    return b"".join(jlsrec.encode(frame_of(k, shape), 4095) for k in range(count))


def index_of(data: bytes) -> bytes:
    """The index that the program writes of a recording."""
    Path("listed.jls").write_bytes(data)
    return subprocess.run([program, "index", "listed.jls"], stdout=subprocess.PIPE, check=True).stdout


def stands(name: str, path: str, count: int, shape: tuple[int, int] = (6, 8)) -> None:
    """That a recording and its index have exactly the first frames."""
    got, want = Path(path).read_bytes(), joined(count, shape)
    case(f"{name}: {len(got)} bytes of {len(want)}", got == want)
    case(f"{name}: its index", Path(f"{path}.index").read_bytes() == index_of(want))


BEGIN = """
import os, resource, signal, sys
import jlsrec, numpy as np

def frame_of(number, shape=(6, 8)):
    return np.random.default_rng(number).integers(0, 2 << number % 12, shape).astype(np.uint16)
"""


def alone(code: str, *words: str) -> subprocess.Popen:
    """Runs code in an interpreter of its own."""
    return subprocess.Popen([sys.executable, "-c", BEGIN + code, *words], stdout=subprocess.PIPE, text=True)


# ---- a process that is killed loses nothing that it had appended

endless = """
writer = jlsrec.Writer(sys.argv[1], 4095, index=True)
shape = tuple(map(int, sys.argv[2:]))
frames = [frame_of(k, shape) for k in range(40)]
for k in range(4000):
    os.write(1, b"%d\\n" % writer.append(frames[k % 40]))
os.kill(os.getpid(), signal.SIGKILL)
"""
for turn, (shape, wait) in enumerate([((6, 8), 0.0), ((6, 8), 0.02), ((700, 900), 0.3), ((700, 900), 0.5), ((6, 8), 60)]):
    path = f"killed{turn}.jls"
    process = alone(endless, path, *map(str, shape))
    process.stdout.readline()
    try:
        process.wait(wait)
    except subprocess.TimeoutExpired:
        os.kill(process.pid, signal.SIGKILL)
    appended = 1 + len(process.stdout.read().splitlines())
    process.wait()
    kinds = [jlsrec.encode(frame_of(k, shape), 4095) for k in range(40)]
    film, indexed = jlsrec.Recording(path), jlsrec.Recording(path, index=True)
    count = len(film)
    got = Path(path).read_bytes()
    want = b"".join(kinds[k % 40] for k in range(count))
    case(f"killed after {appended} of {count}", count in (appended, appended + 1))
    case(f"killed after {appended}: its frames", got[: len(want)] == want and kinds[count % 40].startswith(got[len(want) :]))
    listed = Path(f"{path}.index").read_bytes()
    case(f"killed after {appended}: its index", index_of(want).startswith(listed) and listed.count(b"\n") >= count - 1)
    case(f"killed after {appended}: by its index", len(indexed) == count and (indexed[-1] == frame_of((count - 1) % 40, shape)).all())
    case(f"killed after {appended}: the program plays it", subprocess.run([program, "index", path], stdout=subprocess.PIPE, check=False).stdout.count(b"\n") == count)

# ---- one that is interrupted, at any place, has exactly what it had appended

interrupted = """
writer = jlsrec.Writer(sys.argv[1], 4095, index=True)
signal.signal(signal.SIGALRM, signal.default_int_handler)
tries = 0
while tries < 200:
    try:
        signal.setitimer(signal.ITIMER_REAL, 0.0002 + tries * 0.00001)
        while True:
            frame = frame_of(writer.frames)
            writer.append(frame)
    except KeyboardInterrupt:
        tries += 1
        size, lines = os.stat(sys.argv[1]).st_size, open(sys.argv[1] + ".index").read().count("\\n")
        if (size, lines) != (writer._file.count, writer.frames):
            print("torn", size, writer._file.count, lines, writer.frames)
writer.close()
print(writer.frames)
"""
process = alone(interrupted, "interrupted.jls")
said = process.communicate()[0].split()
case(f"interrupted 200 times: {said[:10]}", len(said) == 1)
stands("interrupted 200 times", "interrupted.jls", int(said[-1]))

# ---- files that may grow no more: what doesn't fit isn't there, and what fits later is

full = """
which = int(sys.argv[2])
signal.signal(signal.SIGXFSZ, signal.SIG_IGN)
writer = jlsrec.Writer(sys.argv[1], 4095, index=True)
limits = resource.getrlimit(resource.RLIMIT_FSIZE)
shape = tuple(map(int, sys.argv[3:]))
for k in range(30):
    if k == 20:
        paths = [sys.argv[1], sys.argv[1] + ".index"]
        size = os.stat(paths[which]).st_size
        for more in (0, 1, 30):
            resource.setrlimit(resource.RLIMIT_FSIZE, (size + more, limits[1]))
            before = [open(path, "rb").read() for path in paths]
            try:
                writer.append(frame_of(k, shape))
            except OSError as error:
                print(error.filename, error.errno, before == [open(path, "rb").read() for path in paths], writer.frames)
        resource.setrlimit(resource.RLIMIT_FSIZE, limits)
    writer.append(frame_of(k, shape))
writer.close()
"""
for which, name, shape in ((0, "full0.jls", (60, 80)), (1, "full1.jls.index", (2, 2))):
    path = f"full{which}.jls"
    said = alone(full, path, str(which), *map(str, shape)).communicate()[0].splitlines()
    case(f"{name} may grow no more: {said}", said == [f"{name} {errno.EFBIG} True 20"] * 3)
    stands(f"{name} may grow no more", path, 30, shape)

# A disk that takes some bytes, and then neither more nor that the file is cut.
real = {name: getattr(os, name) for name in ("write", "ftruncate", "fsync")}


def failing(*words) -> None:
    """As a disk that is at fault answers."""
    raise OSError(errno.EIO, "Input/output error")


def some(number: int, data: bytes) -> int:
    """Takes three bytes, and no more."""
    os.write = failing
    return real["write"](number, data[:3])


with jlsrec.Writer("faulty.jls", 4095, index=True) as writer:
    writer.append(frame_of(0))
    for truncates in (True, False):
        os.write = some
        os.ftruncate = real["ftruncate"] if truncates else failing
        refuses(f"a disk at fault, cut={truncates}", OSError, "faulty.jls", writer.append, frame_of(1))
        os.write = real["write"]
        case(f"a disk at fault, cut={truncates}: frames", writer.frames == 1 and len(jlsrec.Recording("faulty.jls")) == 1)
    os.ftruncate = real["ftruncate"]
    writer.append(frame_of(1))
    writer.append(frame_of(2))
    os.write, os.ftruncate = some, failing
    refuses("a disk at fault at the end", OSError, "faulty.jls", writer.append, frame_of(3))
    os.write, os.ftruncate = real["write"], real["ftruncate"]
stands("a disk at fault", "faulty.jls", 3)

writer = jlsrec.Writer("unsynced.jls", 4095, index=True)
writer.append(frame_of(0))
os.fsync = failing
refuses("a sync that fails", OSError, "unsynced.jls", writer.sync)
refuses("a close whose sync fails", OSError, "unsynced.jls", writer.close)
os.fsync = real["fsync"]
stands("a sync that fails", "unsynced.jls", 1)
refuses("a close whose sync fails closes", ValueError, "closed", writer.append, frame_of(1))

# ---- the recording has a codestream before its index has the line, and both are on the disk after a sync

calls: list[str] = []


def watched(name: str):
    """A call that leaves its name, and which file it is of."""

    def call(number: int, *words):
        calls.append(f"{name} {Path(os.readlink(f'/proc/self/fd/{number}')).name}")
        return real[name](number, *words)

    return call


os.mkdir("folder")
writer = jlsrec.Writer("folder/order.jls", 4095, index=True)
os.write, os.fsync = watched("write"), watched("fsync")
writer.append(frame_of(0))
case(f"appended: {calls}", calls == ["write order.jls", "write order.jls.index"])
for use in (writer.sync, writer.close):
    calls.clear()
    use()
    case(f"synced: {calls}", calls == ["fsync order.jls", "fsync folder", "fsync order.jls.index", "fsync folder"])
os.write, os.fsync = real["write"], real["fsync"]

# ---- others meanwhile

Path("locked.pgm").write_bytes(b"P5 1 1 255 x")
with jlsrec.Writer("locked.pgm.jls", 4095, index=True) as writer:
    writer.append(frame_of(0))
    words = ("locked.pgm.jls", [frame_of(1)], 4095, None, True)
    refuses("isn't replaced", BlockingIOError, "locked.pgm.jls", jlsrec.write, *words)
    for words in (["record"], ["record", "--replace"]):
        done = subprocess.run([program, *words, "locked.pgm"], capture_output=True, text=True, check=False)
        case(f"{words}: {done.stderr}", done.returncode == 1 and "another program is recording it" in done.stderr)
    writer.append(frame_of(1))
stands("goes on", "locked.pgm.jls", 2)
case("nothing else is there", sorted(each.name for each in Path(".").glob("locked*")) == ["locked.pgm", "locked.pgm.jls", "locked.pgm.jls.index"])
os.mkdir("here")
here = os.getcwd()
with jlsrec.Writer("moved.jls", index=True) as writer:
    os.chdir("here")
    writer.append(frame_of(0))
os.chdir(here)
case("in another folder by then", len(jlsrec.Recording("moved.jls", True)) == 1 and not list(Path("here").iterdir()))

followed = """
kinds = [frame_of(k % 40) for k in range(40)]
writer = jlsrec.Writer(sys.argv[1], 4095, index=True)
sys.stdin.readline()
for k in range(20000):
    writer.append(kinds[k % 40])
writer.close()
"""
process = subprocess.Popen(
    [sys.executable, "-c", BEGIN + followed, "followed.jls"], stdin=subprocess.PIPE, stdout=subprocess.PIPE, text=True
)
while not Path("followed.jls.index").exists():
    time.sleep(0.01)
films = [jlsrec.Recording("followed.jls"), jlsrec.Recording("followed.jls", index=True)]
kinds = [frame_of(k) for k in range(40)]
process.stdin.write("\n")
process.stdin.close()
wrong, looked = [], 0
while True:
    ended = process.poll() is not None
    for film in films:
        before = len(film)
        added = film.refresh()
        looked += added > 0
        if len(film) != before + added or film.fault is not None:
            wrong.append((before, added, film.fault))
        for k in {before, (before + len(film)) // 2, len(film) - 1} if added > 0 else ():
            if not (film[k] == kinds[k % 40]).all():
                wrong.append(k)
    if ended:
        break
case(f"followed by another process, {looked} times: {wrong[:3]}", not wrong and [len(film) for film in films] == [20000] * 2)

# ---- many frames at once take little more memory than their array

large = [frame_of(k, (1000, 1000)) for k in range(3, 6)]
jlsrec.write("large.jls", (large[k % 3] for k in range(60)), 4095)
peak = """
workers, film = int(sys.argv[2]), jlsrec.Recording(sys.argv[1])
film.read([0, 1])
before = resource.getrusage(resource.RUSAGE_SELF).ru_maxrss
array = film.read(workers=workers)
print(array.nbytes // 1024, resource.getrusage(resource.RUSAGE_SELF).ru_maxrss - before)
"""
for workers in (1, 4):
    size, took = map(int, alone(peak, "large.jls", str(workers)).communicate()[0].split())
    case(f"{size} KB by {workers} workers took {took} KB", took < size + workers * 3000)

end()
