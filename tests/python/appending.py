"""Recordings that a writer continues, and what is refused then: python3 appending.py PROGRAM."""

from __future__ import annotations

import contextlib
import errno
import fcntl
import os
import signal
import subprocess
import sys
import threading
import time
from pathlib import Path

import numpy as np

import jlsrec
from cases import case, end, refuses
from jlsrec import _files

program = sys.argv[1]
drawn = np.random.default_rng(12)
arrays = [drawn.integers(0, 4096, (6, 8) if k % 4 else (5, 4, 3)).astype(np.uint16) for k in range(40)]
codestreams = [jlsrec.encode(array, 4095) for array in arrays]
whole = b"".join(codestreams)
places = [sum(map(len, codestreams[:k])) for k in range(len(arrays) + 1)]


def run(*words: str) -> bytes:
    """What the program writes to standard output."""
    return subprocess.run([program, *words], stdout=subprocess.PIPE, check=True).stdout


Path("film.jls").write_bytes(whole)
lines = run("index", "film.jls").splitlines(keepends=True)
bare = run("index", "--no-sums", "film.jls").splitlines(keepends=True)


def lay(recording: bytes | None, index: bytes | None = None) -> None:
    """Has these bytes stand at a.jls, and these at a.jls.index; None is no file."""
    for name, data in (("a.jls", recording), ("a.jls.index", index)):
        Path(name).unlink(missing_ok=True)
        if data is not None:
            Path(name).write_bytes(data)


def standing() -> dict[str, bytes]:
    """The files that there are."""
    return {each.name: each.read_bytes() for each in Path(".").iterdir() if each.is_file()}


def refused(name: str, kind: type[BaseException], text: str, *words, **named) -> BaseException | None:
    """That a.jls isn't continued, and nothing is changed."""
    before = standing()
    error = refuses(name, kind, text, jlsrec.Writer, "a.jls", *words, append=True, **named)
    case(f"{name}: nothing is changed", standing() == before)
    return error


def continued(name: str, count: int, **named) -> None:
    """That a.jls, which has so many frames, is continued up to the last one."""
    with jlsrec.Writer("a.jls", 4095, append=True, **named) as writer:
        case(f"{name}: it has {count}", writer.frames == count and Path("a.jls").read_bytes() == whole[: places[count]])
        for k, each in enumerate(arrays[count:], count):
            case(f"{name}: appended as {k}", writer.append(each) == k and writer.frames == k + 1)
    case(f"{name}: all are there", Path("a.jls").read_bytes() == whole)


# ---- a recording that is there is continued

for count in (0, 1, 3, 39, 40):
    lay(whole[: places[count]])
    continued(f"{count} frames", count)
    lay(whole[: places[count]], b"".join(lines[:count]))
    continued(f"{count} frames and their index", count, index=True)
    case(f"{count} frames: their index is continued", Path("a.jls.index").read_bytes() == b"".join(lines))
lay(None)
continued("none", 0, index=True)
case("none: its index", Path("a.jls.index").read_bytes() == b"".join(lines))
lay(whole)
refuses("only if that is asked for", FileExistsError, "'a.jls'", jlsrec.Writer, "a.jls", 4095)
case("and is as it was", Path("a.jls").read_bytes() == whole)
refuses("a repair of a new one", ValueError, "append=True", jlsrec.Writer, "new.jls", repair=True)
case("and none is made", not Path("new.jls").exists())

lay(whole[: places[5]])
film = jlsrec.Recording("a.jls")
case("opened before", len(film) == 5)
with jlsrec.Writer(Path("a.jls"), 4095, append=True) as writer:
    case("a path", writer.path == Path("a.jls") and writer.append(arrays[5]) == 5 and film.refresh() == 1)
    refuses("a sample over maxval", jlsrec.JlsrecError, "maxval", writer.append, np.full((3, 3), 4096, np.uint16))
    case("and is as it was", Path("a.jls").read_bytes() == whole[: places[6]])
    writer.sync()
case("read meanwhile", (film[5] == arrays[5]).all())
os.symlink("a.jls", "link.jls")
with jlsrec.Writer("link.jls", 4095, append=True) as writer:
    case("by a link", writer.append(arrays[6]) == 6 and Path("link.jls").is_symlink())
case("it is in the recording", Path("a.jls").read_bytes() == whole[: places[7]])

# ---- its index

for name, index in {
    "some lines": b"".join(lines[:4]),
    "no line": b"",
    "no index": None,
    "all lines": b"".join(lines[:9]),
}.items():
    lay(whole[: places[9]], index)
    continued(f"an index of {name}", 9, index=True)
    case(f"an index of {name} has all", Path("a.jls.index").read_bytes() == b"".join(lines))
lay(whole[: places[9]], b"".join(bare[:4]))
continued("an index without sums", 9, index=True)
case("an index without sums stays so", Path("a.jls.index").read_bytes() == b"".join(bare))
lay(whole[: places[9]], b"".join(lines[:9]))
continued("an index that isn't named", 9)
case("an index that isn't named is as it was", Path("a.jls.index").read_bytes() == b"".join(lines[:9]))
case("and is one still", len(jlsrec.Recording("a.jls", index=True)) == 40)
lay(whole[: places[9]])
Path("other.index").write_bytes(b"".join(lines[:9]))
continued("an index of another name", 9, index="other.index")
case("an index of another name is continued", Path("other.index").read_bytes() == b"".join(lines))
Path("other.index").unlink()

changed = bytearray(whole[: places[9]])
changed[places[9] - 4] ^= 1
for name, text, index, recording in (
    ("text", "not of an index", b"text\n", whole[: places[9]]),
    ("text at its end", "not of an index", b"".join(lines[:4]) + b"text\n", whole[: places[9]]),
    ("another recording's", "line 8", b"".join(lines[:9]), b"".join(codestreams[20:29])),
    ("another number", "line ", b"".join(lines[:8]) + lines[8].replace(b"8 ", b"9 ", 1), whole[: places[9]]),
    ("other bytes", "other bytes are there", b"".join(lines[:9]), bytes(changed)),
    ("lines within frames", "line 4", b"".join(lines[:4]) + b"4 %d 9 " % places[4] + lines[4].split(b" ", 3)[3], whole[: places[9]]),
    ("a line too many", "ends before", b"".join(lines[:10]), whole[: places[9]]),
    ("a line that isn't complete", "complete", b"".join(lines[:10])[:-5], whole[: places[9]]),
):
    lay(recording, index)
    error = refused(f"an index, {name}", jlsrec.WrongIndex, text, index=True)
    if name in ("a line too many", "a line that isn't complete"):
        case(f"an index, {name}: {error}: how to go on is said", "repair=True" in str(error))
    else:
        refused(f"an index, {name}, to be repaired", jlsrec.WrongIndex, text, index=True, repair=True)
for count in (10, 13):
    for cut in (0, 1, 40):
        for torn in (0, 25):
            lay(whole[: places[9] + torn], b"".join(lines[:count])[: -cut or None])
            refused(f"{count} lines, {cut} less, {torn} bytes more", jlsrec.JlsrecError, "repair=True", index=True)
            continued(f"{count} lines, {cut} less, {torn} bytes more, repaired", 9, index=True, repair=True)
            case(f"{count} lines, {cut} less: its index", Path("a.jls.index").read_bytes() == b"".join(lines))
lay(whole[: places[9]], b"".join(lines[:5])[:-1])
continued("a line that isn't complete, repaired", 9, index=True, repair=True)
case("a line that isn't complete: its index", Path("a.jls.index").read_bytes() == b"".join(lines))
lay(whole[: places[9]])
refused("an index that is the recording", jlsrec.WrongIndex, "itself", index="a.jls")
lay(b"")
refused("an index that is an empty recording", jlsrec.WrongIndex, "itself", index="a.jls")
os.link("a.jls", "again.jls")
refused("an index that is the recording by another name", jlsrec.WrongIndex, "itself", index="again.jls", repair=True)
os.unlink("again.jls")
refused("an index in no folder", FileNotFoundError, "nowhere/x", index="nowhere/x")
lay(None)
refused("an index in no folder, of none", FileNotFoundError, "nowhere/x", index="nowhere/x")
lay(whole[: places[3]], None)
os.mkdir("a.jls.index")
refused("an index that is a folder", IsADirectoryError, "a.jls.index", index=True)
os.rmdir("a.jls.index")
header_damaged = bytearray(whole[: places[9]])
header_damaged[places[4] + 6] = 77
lay(bytes(header_damaged))
refused("a frame that an index can't list", jlsrec.JlsrecError, "frame 4: ", index=True)
case("and no index is made", not Path("a.jls.index").exists())
with jlsrec.Writer("a.jls", 4095, append=True) as writer:
    case("it is continued without", writer.append(arrays[9]) == 9)

# ---- a last codestream that was torn

for cut in range(1, len(codestreams[7])):
    lay(whole[: places[7] + cut])
    before = standing()
    try:
        jlsrec.Writer("a.jls", append=True)
    except jlsrec.JlsrecError as torn:
        told = str(torn)
        is_told = f"a.jls: frame 7: truncated: {cut} bytes at {places[7]}" in told and "repair=True" in told
        if not is_told or torn.status != jlsrec._library.TRUNCATED or standing() != before:
            case(f"{cut} bytes more: {told}", False)
    else:
        case(f"{cut} bytes more: no error", False)
    with jlsrec.Writer("a.jls", 4095, append=True, repair=True) as writer:
        if writer.append(arrays[7]) != 7 or Path("a.jls").read_bytes() != whole[: places[8]]:
            case(f"{cut} bytes more, repaired", False)
case("each torn codestream is named, and cut off if that is asked for", True)
for zeros in (1, 5000, 3 << 20):
    for cut in (0, 1, 2, 30, len(codestreams[7]) - 1):
        lay(whole[: places[7] + cut] + bytes(zeros))
        refused(f"{cut} bytes and {zeros} zeros", jlsrec.JlsrecError, "repair=True")
        with jlsrec.Writer("a.jls", 4095, append=True, repair=True) as writer:
            done = writer.append(arrays[7]) == 7 and Path("a.jls").read_bytes() == whole[: places[8]]
            case(f"{cut} bytes and {zeros} zeros, repaired", done)
lay(whole[:20])
continued("only a torn one", 0, repair=True)
lay(whole[: places[7]])
continued("nothing to repair", 7, repair=True)

# What isn't the front of one codestream isn't cut off, since frames may stand after it.
long = whole[: places[30] + 7] + b"\xff\xf0" + whole[places[30] + 9 :]
for name, text, recording in (
    ("text", "no SOI", b"text"),
    ("zeros", "no SOI", bytes(3000)),
    ("text at its end", "frame 9: no SOI", whole[: places[9]] + b"what is this"),
    ("damage between frames", "frame 3: no SOI", whole[: places[3]] + b"\0" + whole[places[3] :]),
    ("a frame without its end", "frame 9: ", whole[: places[10] - 2] + whole[places[10] :]),
    ("a header that skips the frames behind it", "frame 38: ", whole[: places[38] + 4] + b"\xff" + whole[places[38] + 5 :]),
    ("a comment that skips the frames behind it", "frame 38: truncated", whole[: places[38] + 2] + b"\xff\xfe\xff\xff" + whole[places[38] + 2 :]),
    ("a comment that is torn", "frame 9: truncated", whole[: places[9]] + b"\xff\xd8\xff\xfe\xff\xff" + whole),
):
    lay(recording)
    for repair in (False, True):
        error = refused(f"{name}, repair={repair}", jlsrec.JlsrecError, text, repair=repair)
        case(f"{name}: {error}: no repair is offered", "repair" not in str(error) and "a.jls: " in str(error))

# ---- what isn't continued

lay(whole[: places[3]])
for name, kind, text, words in (
    ("no folder", FileNotFoundError, "nowhere/x.jls", "nowhere/x.jls"),
    ("a folder", IsADirectoryError, "'.'", "."),
    ("a device", OSError, "/dev/null", "/dev/null"),
):
    refuses(name, kind, text, jlsrec.Writer, words, append=True)
os.mkfifo("pipe.jls")
refuses("a pipe", OSError, "pipe.jls", jlsrec.Writer, "pipe.jls", append=True)
os.unlink("pipe.jls")
os.symlink("nowhere.jls", "dangling.jls")
refuses("a link that leads nowhere", OSError, "dangling.jls", jlsrec.Writer, "dangling.jls", append=True)
os.unlink("dangling.jls")
with open("a.jls", "rb") as other:
    fcntl.flock(other, fcntl.LOCK_EX)
    refused("another program's lock", BlockingIOError, "a.jls", repair=True)
with jlsrec.Writer("a.jls", append=True) as writer:
    refused("another writer", BlockingIOError, "a.jls")
    refuses("another writer: written anew", BlockingIOError, "a.jls", jlsrec.write, "a.jls", arrays, replace=True)
    Path("a").write_bytes(b"P5 1 1 255 x")
    done = subprocess.run([program, "record", "a"], capture_output=True, text=True, check=False)
    case(f"another writer: recorded: {done.stderr}", done.returncode == 1 and Path("a.jls").read_bytes() == whole[: places[3]])
    os.unlink("a")
Path("a.jls.index").write_bytes(b"".join(lines[:3]))
with open("a.jls.index", "rb") as other:
    fcntl.flock(other, fcntl.LOCK_EX)
    refused("a lock of its index", BlockingIOError, "a.jls.index", index=True)
continued("a recording that nobody locks any more", 3, index=True)
if os.geteuid() != 0:
    lay(whole)
    os.chmod("a.jls", 0o444)
    refused("one that may not be written", PermissionError, "a.jls")
    os.chmod("a.jls", 0o644)

# A recording that is replaced while it is opened isn't the one that is continued.
lay(whole[: places[3]])
real_flock = fcntl.flock


def replaced(number: int, how: int) -> None:
    """Puts another recording into the place, just before the first is locked."""
    _files.fcntl.flock = real_flock
    Path("aside.jls").write_bytes(whole[: places[5]])
    os.rename("aside.jls", "a.jls")
    real_flock(number, how)


_files.fcntl.flock = replaced
continued("one that is replaced meanwhile", 5)
_files.fcntl.flock = real_flock

# ---- programs that look at no lock, and change what is being written

for which, name in enumerate(("a.jls", "a.jls.index")):
    for kind in ("longer", "shorter"):
        lay(whole[: places[4]], b"".join(lines[:4]))
        writer = jlsrec.Writer("a.jls", 4095, index=True, append=True)
        writer.append(arrays[4])
        if kind == "longer":
            with open(name, "ab") as other:
                other.write(b"of another")
        else:
            os.truncate(name, 20)
        before = standing()
        refuses(f"{name} made {kind}", jlsrec.RecordingChanged, f"'{name}'", writer.append, arrays[5])
        writer.sync()
        refuses(f"{name} made {kind}, then", jlsrec.RecordingChanged, f"'{name}'", writer.append, arrays[5])
        writer.close()
        case(f"{name} made {kind}: nothing is changed", standing() == before and writer.frames == 5)
lay(whole[: places[3]])
real_extents = jlsrec._Window.extents


def grown(window, *words):
    """Has the recording grow while it is walked."""
    with open("a.jls", "ab") as other:
        other.write(whole[places[3] : places[4]])
    jlsrec._Window.extents = real_extents
    return real_extents(window, *words)


jlsrec._Window.extents = grown
with jlsrec.Writer("a.jls", 4095, append=True) as writer:
    refuses("one that has grown since it was walked", jlsrec.RecordingChanged, "a.jls", writer.append, arrays[5])
jlsrec._Window.extents = real_extents
case("one that has grown since it was walked: nothing is changed", Path("a.jls").read_bytes() == whole[: places[4]])

# ---- errors while it goes on

lay(whole[: places[4]], b"".join(lines[:4]))
for count in (0, 2):
    with contextlib.suppress(KeyError), jlsrec.Writer("a.jls", 4095, index=True, append=True) as writer:
        for k in range(count):
            writer.append(arrays[4 + k])
        raise KeyError
    case(f"an error after {count} frames: they stay", Path("a.jls").read_bytes() == whole[: places[4 + count]])
    case(f"an error after {count} frames: their lines too", Path("a.jls.index").read_bytes() == b"".join(lines[: 4 + count]))
lay(None)
with contextlib.suppress(KeyError), jlsrec.Writer("a.jls", append=True, index=True):
    raise KeyError
case("an error before a first frame of a new one", not Path("a.jls").exists() and not Path("a.jls.index").exists())
lay(b"", b"")
with contextlib.suppress(KeyError), jlsrec.Writer("a.jls", append=True, index=True):
    raise KeyError
case("an error before a first frame of an empty one", Path("a.jls").exists() and Path("a.jls.index").exists())

real_write, real_truncate, failing = os.write, os.ftruncate, [10**9]


def write(number: int, data: bytes) -> int:
    """Writes until so many bytes are written; then the disk is full."""
    if failing[0] == 0:
        raise OSError(errno.ENOSPC, os.strerror(errno.ENOSPC))
    data = data[: failing[0]]
    failing[0] -= len(data)
    return real_write(number, data)


os.write = write
for left in [*range(0, len(codestreams[6]) + len(lines[6]), 9), 0]:
    lay(whole[: places[6]], b"".join(lines[:6]))
    failing[0] = 10**9
    writer = jlsrec.Writer("a.jls", 4095, index=True, append=True)
    failing[0] = left
    refuses(f"a full disk after {left} bytes", OSError, "No space left", writer.append, arrays[6])
    failing[0] = 10**9
    stood = Path("a.jls").read_bytes() == whole[: places[6]] and Path("a.jls.index").read_bytes() == b"".join(lines[:6])
    case(f"a full disk after {left} bytes: as it was", stood and writer.append(arrays[6]) == 6)
    writer.close()
    stood = Path("a.jls").read_bytes() == whole[: places[7]] and Path("a.jls.index").read_bytes() == b"".join(lines[:7])
    case(f"a full disk after {left} bytes, then", stood)
for left in (0, 100, 1000):
    lay(whole)
    failing[0] = left
    refuses(f"an index that finds no space after {left} bytes", OSError, "No space left", jlsrec.Writer, "a.jls", None, None, True, append=True)
    case(f"no index is left after {left} bytes", standing().get("a.jls") == whole and not Path("a.jls.index").exists())
    lay(whole, b"".join(lines[:3]))
    failing[0] = left
    refuses(f"lines that find no space after {left} bytes", OSError, "No space left", jlsrec.Writer, "a.jls", None, None, True, append=True)
    failing[0] = 10**9
    continued(f"lines that found no space after {left} bytes", 40, index=True)
    case(f"lines that found no space after {left} bytes: all", Path("a.jls.index").read_bytes() == b"".join(lines))
os.write = real_write


def no_truncate(number: int, count: int) -> None:
    raise OSError(errno.EIO, os.strerror(errno.EIO))


lay(whole[: places[7] + 9])
os.ftruncate = no_truncate
refused("what can't be cut off", OSError, "a.jls", repair=True)
os.ftruncate = real_truncate

with jlsrec.Writer("threads.jls", 4095, index=True) as writer:
    writer.append(arrays[0])
with jlsrec.Writer("threads.jls", 4095, index=True, append=True) as writer:
    numbers: list[tuple[int, int]] = []
    threads = [threading.Thread(target=lambda t=t: numbers.extend((writer.append(arrays[k]), k) for k in range(t, 40, 8))) for t in range(8)]
    for thread in threads:
        thread.start()
    for thread in threads:
        thread.join()
film = jlsrec.Recording("threads.jls", index=True)
case("eight threads", sorted(number for number, _ in numbers) == list(range(1, 41)) and all((film[n] == arrays[k]).all() for n, k in numbers))
case("eight threads: its index", Path("threads.jls.index").read_bytes() == run("index", "threads.jls"))

# ---- a process that is killed while it appends

APPENDS = """
import sys, numpy as np, jlsrec
drawn = np.random.default_rng(int(sys.argv[1]))
with jlsrec.Writer("k.jls", 4095, index=True, append=True, repair=True) as writer:
    sys.stdout.write("begun\\n")
    sys.stdout.flush()
    while True:
        writer.append(drawn.integers(0, 4096, (40, 50)).astype(np.uint16))
"""
moments, torn, behind = 30, 0, 0
before, before_index = b"", b""
for number in range(moments):
    process = subprocess.Popen([sys.executable, "-c", APPENDS, str(number)], stdout=subprocess.PIPE)
    process.stdout.readline()
    time.sleep(0.001 * (number % 7) + 0.0004 * number)
    process.send_signal(signal.SIGKILL)
    process.wait()
    data, index = Path("k.jls").read_bytes(), Path("k.jls.index").read_bytes()
    case(f"killed, {number}: what was there is there", data.startswith(before) and index.startswith(before_index))
    film = jlsrec.Recording("k.jls")
    case(f"killed, {number}: {film.fault}", film.fault is None or "truncated" in str(film.fault))
    torn, behind = torn + (film.fault is not None), behind + (index.count(b"\n") != len(film))
    before, before_index = data[: film._found.end], index[: index.rfind(b"\n") + 1]
    case(f"killed, {number}: its index is of its front", run("index", "k.jls").startswith(before_index) if film.fault is None else True)
with jlsrec.Writer("k.jls", 4095, index=True, append=True, repair=True) as writer:
    writer.append(arrays[1])
case("killed: its index is whole", Path("k.jls.index").read_bytes() == run("index", "k.jls"))
case("killed: what was there is there", Path("k.jls").read_bytes() == before + codestreams[1])
case("killed: all is right", b" 0 damaged" in run("check", "--index", "k.jls.index", "k.jls"))

end()
