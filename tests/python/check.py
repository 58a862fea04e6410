"""Checks of the Python package, by the program and by films: python3 check.py PROGRAM FILMS."""

from __future__ import annotations

import concurrent.futures
import copy
import inspect
import multiprocessing
import pickle
import pydoc
import re
import shutil
import subprocess
import sys
import threading
import time
from pathlib import Path

import numpy as np

import jlsrec
from cases import case, end, refuses, screen

program, films = sys.argv[1], Path(sys.argv[2])

# The heading of a Netpbm image: words, with white space and comments between them.
BETWEEN = rb"(?:\s|#[^\n\r]*[\n\r])+"
HEADING = re.compile(BETWEEN.join([rb"(P[56])", rb"(\d+)", rb"(\d+)", rb"(\d+)"]) + rb"\s")

# T.87's Annex H.3: its picture, and its codestream with default parameters.
EXAMPLE = np.array([[0, 0, 90, 74], [68, 50, 43, 205], [64, 145, 145, 145], [100, 145, 145, 145]], np.uint8)
EXAMPLE_CODED = bytes.fromhex(
    "ffd8 fff7000b080004000401011100 ffda0008010100000000"
    "c000006c80208e01c00000574000006ee6000001bc18000005d800009160 ffd9"
)


def images_of(path: Path) -> list[tuple[np.ndarray, int]]:
    """The images of a binary Netpbm film, with their maxvals."""
    data, place, images = path.read_bytes(), 0, []
    while place < len(data):
        head = HEADING.match(data, place)
        width, height, maxval = (int(word) for word in head.groups()[1:])
        shape = (height, width) if head[1] == b"P5" else (height, width, 3)
        kind = np.dtype(np.uint8) if maxval < 256 else np.dtype(">u2")
        count = int(np.prod(shape))
        samples = np.frombuffer(data, kind, count, head.end()).reshape(shape)
        images.append((samples.astype(np.uint8 if maxval < 256 else np.uint16), maxval))
        place = head.end() + count * kind.itemsize
    return images


def coded(path: Path) -> bytes:
    """What the program codes a film as."""
    return subprocess.run([program, "code", path], stdout=subprocess.PIPE, check=True).stdout


# ---- pictures

case("the standard's example", jlsrec.encode(EXAMPLE) == EXAMPLE_CODED)
case("and back", (jlsrec.decode(EXAMPLE_CODED) == EXAMPLE).all())
case("with bytes behind it", (jlsrec.decode(EXAMPLE_CODED + b"more") == EXAMPLE).all())
header = jlsrec.read_header(EXAMPLE_CODED)
case("its header", header == jlsrec.Header(4, 4, 1, 255, (3, 7, 21, 64)))
case("its shape and type", header.shape == (4, 4) and header.dtype == np.uint8)
case("a version", re.fullmatch(r"\d+\.\d+\.\d+", jlsrec.library_version()) is not None)
case("and the package's is the same", jlsrec.__version__ == jlsrec.library_version())
page = pydoc.plain(pydoc.render_doc(jlsrec))
for name in jlsrec.__all__:
    told = getattr(jlsrec, name)
    case(f"pydoc has {name}", inspect.getdoc(told).splitlines()[0] in page)
    if inspect.isfunction(told):
        for each in inspect.signature(told).parameters:
            case(f"{name} tells of {each}", re.search(rf"^ *(\w+ and )?{each}( and \w+)?: ", told.__doc__, re.MULTILINE))

for call in (jlsrec.Recording.__init__, jlsrec.Recording.read, jlsrec.Writer.__init__):
    told = " ".join(call.__doc__.split())
    for each in [*inspect.signature(call).parameters][1:]:
        case(f"{call.__qualname__} tells of {each}", re.search(rf"\b{each}( and \w+)?: |and {each}: ", told) is not None)

for path in sorted(films.glob("*.p?m")):
    images = images_of(path)
    whole = coded(path)
    ours = b"".join(jlsrec.encode(array, maxval) for array, maxval in images)
    case(f"{path.name} is coded as the program does", ours == whole)
    Path("film.jls").write_bytes(whole)
    recording = jlsrec.Recording("film.jls")
    case(f"{path.name} has its frames", len(recording) == len(images) and recording.fault is None)
    case(
        f"{path.name} comes back",
        all((got == want).all() and got.dtype == want.dtype for got, (want, _) in zip(recording, images)),
    )
    case(f"{path.name} has its maxvals", [recording.header(i).maxval for i in range(len(images))] == [m for _, m in images])

plane = (np.arange(48 * 64).reshape(48, 64) * 7 % 4096).astype(np.uint16)
color = np.stack([plane, plane[::-1], plane[:, ::-1]], axis=2)
for name, array in {
    "columns": plane[:, 5:40],
    "every second row": plane[::2],
    "upside down": plane[::-1],
    "turned": plane.T,
    "every second column": plane[:, ::2],
    "columns in colour": color[:, 3:30],
    "colours the other way round": color[:, :, ::-1],
    "a row": plane[:1],
    "a column": plane[:, :1],
    "read only": np.frombuffer(plane.tobytes(), np.uint16).reshape(plane.shape),
}.items():
    data = jlsrec.encode(array, 4095)
    case(f"{name}: as a copy", data == jlsrec.encode(np.ascontiguousarray(array), 4095))
    case(f"{name}: back", (jlsrec.decode(data) == array).all())

tuned = jlsrec.encode(plane, 4095, (20, 70, 300, 32))
case("a preset is kept", jlsrec.read_header(tuned).preset == (20, 70, 300, 32))
case("and decoded by", (jlsrec.decode(tuned) == plane).all())
words = np.zeros((4, 4), np.uint16)
case("8 bits into 16", jlsrec.decode(EXAMPLE_CODED, words) is words and (words == EXAMPLE).all())
for name, data in {"bytearray": bytearray(EXAMPLE_CODED), "memoryview": memoryview(EXAMPLE_CODED)}.items():
    case(f"a {name} is decoded", (jlsrec.decode(data) == EXAMPLE).all())

# ---- what is refused

refuses("signed samples", TypeError, "uint8 or uint16", jlsrec.encode, plane.astype(np.int16))
refuses("a stack of planes", TypeError, "(height, width)", jlsrec.encode, np.zeros((2, 4, 4), np.uint8))
refuses("a sample over maxval", jlsrec.JlsrecError, f"maxval: {plane.max()} is over 100", jlsrec.encode, plane, 100)
for name, call in {"decode": jlsrec.decode, "read_header": jlsrec.read_header, "check_strict": jlsrec.check_strict}.items():
    refuses(f"{name} of a name", TypeError, "bytes-like", call, "film.jls")
    refuses(f"{name} of nothing", TypeError, "bytes-like", call, None)
refuses("a list to decode into", TypeError, "an array", jlsrec.decode, EXAMPLE_CODED, [[0] * 4] * 4)
for each in (jlsrec.JlsrecError, jlsrec.WrongIndex, jlsrec.RecordingChanged):
    case(f"{each.__name__} is named as it is imported", each.__module__ == "jlsrec")
refuses("no row", jlsrec.JlsrecError, "side", jlsrec.encode, np.zeros((0, 4), np.uint8))
refuses("a preset out of range", jlsrec.JlsrecError, "T1", jlsrec.encode, plane, 4095, (5000, 0, 0, 0))
refuses("no bytes", jlsrec.JlsrecError, "truncated", jlsrec.decode, b"")
refuses("no codestream", jlsrec.JlsrecError, "SOI", jlsrec.decode, b"P5 1 1 255 x")
refuses("a codestream cut off", jlsrec.JlsrecError, "truncated", jlsrec.decode, EXAMPLE_CODED[:-9])
refuses("a header cut off", jlsrec.JlsrecError, "truncated", jlsrec.read_header, EXAMPLE_CODED[:20])

# ---- what decoding accepts and encoding never writes

three = jlsrec.encode(np.stack([EXAMPLE, EXAMPLE[::-1], EXAMPLE.T], axis=2))
for name, data in {"the standard's example": EXAMPLE_CODED, "a colour picture": three, "one of 12 bits": jlsrec.encode(plane, 4095)}.items():
    case(f"{name} is strict", jlsrec.check_strict(data) == jlsrec.check_strict(bytearray(data + b"more")) == len(data))
    loose = data[:-2] + b"\0" + data[-2:]
    case(f"{name} with bits more is decoded", (jlsrec.decode(loose) == jlsrec.decode(data)).all())
    error = refuses(f"{name} with bits more", jlsrec.JlsrecError, "strict", jlsrec.check_strict, loose)
    case(f"{name} with bits more: where", (error.status, error.component) == (15, 2 if name == "a colour picture" else 0))
refuses("not strict, but damaged", jlsrec.JlsrecError, "truncated", jlsrec.check_strict, EXAMPLE_CODED[:-9])
refuses("not strict, but no codestream", jlsrec.JlsrecError, "SOI", jlsrec.check_strict, b"P5 1 1 255 x")
refuses("not strict, but no bytes", TypeError, "uint8", jlsrec.check_strict, plane)


def decode_all(codestreams: list[bytes]) -> list[np.ndarray]:
    """Decodes in another process, which hands its errors on by pickle."""
    with concurrent.futures.ProcessPoolExecutor(1, multiprocessing.get_context("fork")) as pool:
        return list(pool.map(jlsrec.decode, codestreams, timeout=60))


for what, data in (("bytes cut off", EXAMPLE_CODED[:-9]), ("no codestream", b"P5"), ("a frame's", EXAMPLE_CODED[:20])):
    try:
        jlsrec.decode(data)
    except jlsrec.JlsrecError as error:
        fault = error.of_frame(7) if what == "a frame's" else error
        for kind, again in (("pickled", pickle.loads(pickle.dumps(fault))), ("copied", copy.copy(fault))):
            names = ("args", "status", "component", "marker", "number")
            same = [getattr(again, name) == getattr(fault, name) for name in names]
            case(f"{what}, {kind}", type(again) is type(fault) and all(same))
wrong = jlsrec.WrongIndex("film.jls.index", 3, "not of an index")
again = pickle.loads(pickle.dumps(wrong))
case("a wrong index, pickled", (type(again), str(again), again.line) == (jlsrec.WrongIndex, str(wrong), 3))
case("by another process", (decode_all([EXAMPLE_CODED])[0] == EXAMPLE).all())
refuses("an error in another process", jlsrec.JlsrecError, "truncated", decode_all, [EXAMPLE_CODED[:-9]])
refuses("an array of another shape", ValueError, "out must be", jlsrec.decode, EXAMPLE_CODED, np.zeros((4, 5), np.uint8))
refuses("an array that isn't whole", ValueError, "contiguous", jlsrec.decode, EXAMPLE_CODED, np.zeros((4, 8), np.uint8)[:, ::2])

for number in (2**32 + 255, 2**64 + 255, 65536, 0, -1, -(2**32) + 255):
    error = refuses(f"maxval {number}", ValueError, str(number), jlsrec.encode, plane, number)
    case(f"maxval {number} is named", "maxval" in str(error))
for place, name in enumerate(("T1", "T2", "T3", "RESET")):
    for number in (2**32 + 30, 65536, -1):
        preset = [20, 70, 300, 64]
        preset[place] = number
        error = refuses(f"{name} {number}", ValueError, str(number), jlsrec.encode, plane, 4095, tuple(preset))
        case(f"{name} {number} is named", name in str(error))
refuses("three parameters", ValueError, "T1, T2, T3 and RESET", jlsrec.encode, plane, 4095, (20, 70, 300))
refuses("a maxval that is no integer", TypeError, "", jlsrec.encode, plane, 4095.0)
tall = np.broadcast_to(np.zeros((1, 1), np.uint8), (2**32 + 5, 1))
refuses("more rows than 32 bits count", jlsrec.JlsrecError, "side", jlsrec.encode, tall)

# ---- recordings

arrays = [np.roll(plane, k, axis=1) for k in range(9)]
case("a recording is written", jlsrec.write("nine.jls", arrays, 4095) == 9)
refuses("and isn't written over", FileExistsError, "", jlsrec.write, "nine.jls", arrays)
case("unless told", jlsrec.write("nine.jls", iter(arrays), 4095, replace=True) == 9)
played = subprocess.run([program, "play", "nine.jls"], stdout=subprocess.PIPE, check=True).stdout
for name, array in {
    "a gray picture": plane,
    "a colour picture": color,
    "a row": plane[0],
    "a colour picture of one row": color[:1],
    "gray pictures 3 wide, as an array": np.zeros((5, 4, 3), np.uint8),
}.items():
    refuses(f"{name} instead of frames", TypeError, "frames are wanted", jlsrec.write, "rows.jls", array)
refuses("no frames at all", TypeError, "", jlsrec.write, "rows.jls", 7)
case("and no file is made", not any(Path(".").glob("rows.jls*")))
for name, array in {
    "an array of gray frames": np.stack(arrays),
    "an array of colour frames": np.stack([color, color]),
    "gray frames 3 wide, in a list": list(np.arange(60, dtype=np.uint8).reshape(5, 4, 3)),
}.items():
    case(name, jlsrec.write("stack.jls", array, replace=True) == len(array))
    case(f"{name} comes back", all((a == b).all() for a, b in zip(jlsrec.Recording("stack.jls"), array)))
case("the program plays it", played == b"".join(b"P5\n64 48\n4095\n" + a.astype(">u2").tobytes() for a in arrays))
recording = jlsrec.Recording("nine.jls")
case("by index", (recording[7] == arrays[7]).all() and (recording[-1] == arrays[8]).all())
case("by slice", all((a == b).all() for a, b in zip(recording[2:8:3], arrays[2:8:3])) and len(recording[2:8:3]) == 2)
refuses("past its end", IndexError, "no such frame: 9", recording.__getitem__, 9)
refuses("before its start", IndexError, "no such frame: -10", recording.__getitem__, -10)
refuses("a list to read into", TypeError, "an array", recording.read, None, [0])
case("it says which it is", repr(recording) == "<jlsrec.Recording 'nine.jls'>")
case("a codestream", recording.data(3) == jlsrec.encode(arrays[3], 4095))
whole = Path("nine.jls").read_bytes()
Path("cut.jls").write_bytes(whole[:-40])
cut = jlsrec.Recording("cut.jls")
case("one that breaks off has the frames before", len(cut) == 8 and (cut[7] == arrays[7]).all())
case("and its fault", cut.fault is not None and "truncated" in str(cut.fault))
Path("tail.jls").write_bytes(whole + b"what is this")
tail = jlsrec.Recording("tail.jls")
case("one with more behind it too", len(tail) == 9 and tail.fault is not None and "SOI" in str(tail.fault))
Path("none.jls").write_bytes(b"")
case("an empty one", len(jlsrec.Recording("none.jls")) == 0 and list(jlsrec.Recording("none.jls")) == [])
refuses("none", FileNotFoundError, "", jlsrec.Recording, "nowhere.jls")

damaged = bytearray(whole)
second = len(recording.data(0))
damaged[second + 30 : second + 60] = bytes(30)
Path("damaged.jls").write_bytes(damaged)
with jlsrec.Recording("damaged.jls") as damage:
    refuses("a frame that is damaged", jlsrec.JlsrecError, "frame 1: ", damage.__getitem__, 1)
    refuses("from the end too", jlsrec.JlsrecError, "frame 1: ", damage.__getitem__, -8)
    case("and the others are there", all((damage[k] == arrays[k]).all() for k in (0, 2, 3, 8)))
for name, use in {
    "len": lambda: len(damage),
    "an index": lambda: damage[0],
    "a slice": lambda: damage[0:0],
    "a loop": lambda: iter(damage),
    "data": lambda: damage.data(0),
    "size": lambda: damage.size(0),
    "a header": lambda: damage.header(0),
    "the fault": lambda: damage.fault,
    "with": damage.__enter__,
    "in": lambda: arrays[0] in damage,
    "whether it has any": lambda: bool(damage),
    "backwards": lambda: list(reversed(damage)),
}.items():
    refuses(f"one that was closed, {name}", ValueError, "damaged.jls: the recording was closed", use)
damage.close()
with jlsrec.Recording("nine.jls") as opened:
    going = iter(opened)
    case("a loop begins", (next(going) == arrays[0]).all())
refuses("and stops once it is closed", ValueError, "the recording was closed", next, going)
big = arrays[4].astype(">u2")
case("another order of bytes", jlsrec.encode(big, 4095) == recording.data(4))

# ---- threads code side by side: the lock of Python's is free meanwhile

large = np.random.default_rng(1).integers(0, 4096, (1500, 1500)).astype(np.uint16)
steps, stop = 0, threading.Event()


def step() -> None:
    """Counts while another thread codes."""
    global steps
    while not stop.is_set():
        steps += 1


counting = threading.Thread(target=step)
counting.start()
before = steps
data = jlsrec.encode(large, 4095)
during = steps - before
stop.set()
counting.join()
case("another thread runs meanwhile", during > 1000 and (jlsrec.decode(data) == large).all())
kept: list[bool] = []
threads = [
    threading.Thread(target=lambda k=k: kept.append((jlsrec.decode(jlsrec.encode(arrays[k], 4095)) == arrays[k]).all()))
    for k in range(8)
]
for thread in threads:
    thread.start()
for thread in threads:
    thread.join()
case("eight threads", kept == [True] * 8)

# ---- what is looked at


def run(*words: str) -> subprocess.CompletedProcess:
    """Runs the package as a program."""
    return subprocess.run([sys.executable, "-m", "jlsrec", *words], capture_output=True, text=True)


case("a sheet is made", run("sheet", "nine.jls", "-o", "nine.png").returncode == 0)
case("as a PNG file", Path("nine.png").read_bytes()[:8] == b"\x89PNG\r\n\x1a\n")
told = run("sheet", "nowhere.jls", "-o", "no.png")
case("a missing file is named", told.returncode == 1 and "nowhere.jls: No such file" in told.stderr)
for name, path in {"no frame": "none.jls", "no recording": "window.txt"}.items():
    Path("window.txt").write_bytes(b"text")
    told = run("sheet", path, "-o", "empty.png")
    case(f"a sheet of {name}: {told.stderr}", told.returncode == 1 and f"jlsrec: {path}: no frames" in told.stderr)
    case(f"a sheet of {name}: no file", not Path("empty.png").exists())
case("seventeen are too many", run("view", *["nine.jls"] * 17).returncode == 2)

if shutil.which("Xvfb") is None or shutil.which("import") is None:
    print("the window: not tested, since Xvfb or ImageMagick's import isn't there")
else:
    server, shown = screen()
    window = subprocess.Popen([sys.executable, "-m", "jlsrec", "view", "nine.jls", "cut.jls", "film.jls"], env=shown)
    pixels = np.zeros((1, 1, 3), np.uint8)
    for _ in range(30):
        time.sleep(2)
        subprocess.run(["import", "-window", "root", "window.png"], env=shown, stderr=subprocess.DEVNULL, check=False)
        subprocess.run(["convert", "window.png", "window.ppm"], stderr=subprocess.DEVNULL, check=False)
        if Path("window.ppm").exists():
            pixels = images_of(Path("window.ppm"))[0][0]
        # On a busy machine it takes its time.
        if (pixels == (240, 96, 96)).all(axis=2).any():
            break
    case("the window runs", window.poll() is None)
    case("and shows pictures, a histogram and bits", len(np.unique(pixels.reshape(-1, 3), axis=0)) > 100)
    for color, what in (((90, 170, 250), "the bits"), ((240, 192, 64), "the window's bounds"), ((240, 96, 96), "the frame's place")):
        case(f"it draws {what}", (pixels == color).all(axis=2).any())
    window.terminate()
    server.terminate()
    window.wait()
    server.wait()

end()
