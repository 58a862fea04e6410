"""Looks at the pieces that `record --pieces` writes of cameras, while it records: check.py PROGRAM, in a folder of its own.
Prints each case that fails, and how many passed. A camera is a named pipe."""

import fcntl
import os
import shutil
import signal
import subprocess
import sys
import time

sys.dont_write_bytecode = True
sys.path.insert(0, os.path.join(os.path.dirname(os.path.abspath(__file__)), "..", "program"))
from cases import Cases

PROGRAM = sys.argv[1]
cases = Cases(PROGRAM)
count = cases.count


def image(number, width=5, height=3):
    return b"P5\n%d %d\n255\n" % (width, height) + bytes((number * 7 + place * number) % 251 for place in range(width * height))


def fresh(name):
    shutil.rmtree(name, ignore_errors=True)
    os.mkdir(name)
    os.chdir(name)
    os.mkfifo("camera")


def leave():
    os.chdir("..")


def record(*words):
    return subprocess.Popen([PROGRAM, "record", *words, "camera"], stdout=subprocess.PIPE, stderr=subprocess.PIPE, text=True)


def piece(number):
    return "camera.%05d.jls" % number if number else "camera.jls"


def pieces():
    """The pieces that are there, in their order; more than one after a gap is none."""
    found = []
    while os.path.exists(piece(len(found))):
        found.append(piece(len(found)))
    return found


def within(seconds, holds):
    end = time.monotonic() + seconds
    while time.monotonic() < end:
        if holds():
            return True
        time.sleep(0.01)
    return holds()


def code(frames):
    return subprocess.run([PROGRAM, "code", "/dev/stdin"], input=b"".join(frames), stdout=subprocess.PIPE, check=True).stdout


def read(name):
    with open(name, "rb") as file:
        return file.read()


def index_of(name):
    return subprocess.run([PROGRAM, "index", name], stdout=subprocess.PIPE).stdout


def is_locked(name):
    with open(name, "rb") as file:
        try:
            fcntl.flock(file, fcntl.LOCK_EX | fcntl.LOCK_NB)
            return False
        except BlockingIOError:
            return True


def ended(case, process, wanted, frames, stopped=""):
    try:
        said = process.communicate(timeout=60)
    except subprocess.TimeoutExpired:
        process.kill()
        said = process.communicate()
    count(f"{case}: status and line", (process.returncode, said[0]) == (wanted, f"camera: {frames} frames{stopped}\n"), process.returncode, said)


def by_seconds():
    """A camera that sends a frame each 0.1 s, and then pauses for longer than a piece lasts: a piece has the frames that came within
    a second of its first one, and what comes after a pause begins another."""
    fresh("by_seconds")
    process = record("--pieces", "1s", "--index", "--times")
    frames = [image(number) for number in range(32)]
    with open("camera", "wb", buffering=0) as camera:
        for number, frame in enumerate(frames):
            camera.write(frame)
            time.sleep(2.5 if number == 25 else 0.1)
    ended("by seconds", process, 0, 32)
    own = pieces()
    count("by seconds: how many pieces", 4 <= len(own) <= 5, own)
    count("by seconds: they are the recording", b"".join(map(read, own)) == code(frames))
    number, begun = 0, None
    for name in own:
        lines = index_of(name).splitlines()
        count(f"by seconds: {name}: not empty", len(lines) > 0)
        count(f"by seconds: {name}: its index", read(name + ".index") == index_of(name))
        times = [list(map(int, line.split())) for line in read(name + ".times").splitlines()]
        count(f"by seconds: {name}: its times", [line[0] for line in times] == list(range(number, number + len(lines))), times)
        count(f"by seconds: {name}: how long", times[-1][2] - times[0][2] < 1.3e9, times)
        count(f"by seconds: {name}: how long after the one before", begun is None or times[0][2] - begun > 0.7e9, times)
        count(f"by seconds: {name}: a pause begins another", not number < 26 < number + len(lines), times)
        number, begun = number + len(lines), times[0][2]
    leave()


def taken_away():
    """Finished pieces are closed and unlocked, and may be moved and removed; the first stays locked."""
    fresh("taken_away")
    process = record("--pieces", "2", "--index", "--times")
    frames = [image(number) for number in range(11)]
    parts = {}
    os.mkdir("kept")
    with open("camera", "wb", buffering=0) as camera:
        for number, frame in enumerate(frames):
            camera.write(frame)
            last = number // 2
            count(f"taken away: frame {number} is in its piece", within(5, lambda: os.path.exists(piece(last)) and
                  read(piece(last)) == code(frames[2 * last:number + 1])), last)
            if number % 2 == 0 and last >= 2:
                done = last - 1
                count(f"taken away: piece {done} is unlocked", within(5, lambda: not is_locked(piece(done))))
                count(f"taken away: piece {done} is closed", within(5, lambda: not holds_open(process.pid, piece(done))))
                count(f"taken away: piece {last} is locked", is_locked(piece(last)))
                count("taken away: the first is locked", is_locked("camera.jls"))
                parts[done] = read(piece(done))
                if done % 2:
                    for ending in "", ".index", ".times":
                        os.rename(piece(done) + ending, "kept/" + piece(done) + ending)
                else:
                    for ending in "", ".index", ".times":
                        os.remove(piece(done) + ending)
        # The first may be moved too.
        os.rename("camera.jls", "kept/camera.jls")
        parts[0] = read("kept/camera.jls")
        parts[5] = read(piece(5))
    ended("taken away", process, 0, 11)
    count("taken away: all are the recording", b"".join(parts[place] for place in sorted(parts)) == code(frames), sorted(parts))
    count("taken away: what was moved stays", read("kept/" + piece(1)) == code(frames[2:4]) and read("kept/" + piece(1) + ".index") == index_of("kept/" + piece(1)))
    leave()


def holds_open(process, name):
    folder = f"/proc/{process}/fd"
    path = os.path.abspath(name)
    for own in os.listdir(folder):
        try:
            if os.readlink(f"{folder}/{own}").removesuffix(" (deleted)") == path:
                return True
        except FileNotFoundError:
            pass
    return False


def two_programs():
    """A second program is refused as long as the first records, whichever piece it is at."""
    fresh("two_programs")
    process = record("--pieces", "1")
    with open("camera", "wb", buffering=0) as camera:
        for number in range(4):
            camera.write(image(number))
            count(f"two programs: piece {number}", within(5, lambda: os.path.exists(piece(number))))
            for words in [], ["--pieces", "1"], ["--replace"]:
                with open("film", "wb") as film:
                    film.write(image(9))
                os.makedirs("other", exist_ok=True)
                shutil.copy("film", "other/camera")
                other = subprocess.run([PROGRAM, "record", *words, "--into", ".", "other/camera"], stderr=subprocess.PIPE, text=True)
                wanted = (1, "jlsrec: ./camera.jls: another program is recording it\n")
                count(f"two programs: the second, {words}", (other.returncode, other.stderr) == wanted, other)
    ended("two programs", process, 0, 4)
    count("two programs: the pieces", [read(name) for name in pieces()] == [code([image(number)]) for number in range(4)])
    leave()


def killed():
    """After kill -9 each frame that was written is in its piece, whole."""
    fresh("killed")
    process = record("--pieces", "2", "--index")
    frames = [image(number) for number in range(5)]
    with open("camera", "wb", buffering=0) as camera:
        for frame in frames:
            camera.write(frame)
        camera.write(image(9)[:-3])
        count("killed: the last frame is there", within(5, lambda: len(pieces()) == 3 and read(piece(2)) == code(frames[4:])))
        process.kill()
        process.wait()
    process.communicate()
    count("killed: the pieces", [read(name) for name in pieces()] == [code(frames[:2]), code(frames[2:4]), code(frames[4:])])
    count("killed: their indexes", [read(name + ".index") for name in pieces()] == list(map(index_of, pieces())))
    again = subprocess.run([PROGRAM, "record", "--pieces", "3", "--into", ".", "/dev/null"], stderr=subprocess.PIPE)
    count("killed: another recording elsewhere", again.returncode == 0, again)
    leave()


def stopped(sign):
    """A signal in the middle of a frame, and of a piece."""
    fresh(f"stopped{sign}")
    process = record("--pieces", "2", "--times")
    frames = [image(number) for number in range(5)]
    with open("camera", "wb", buffering=0) as camera:
        for frame in frames:
            camera.write(frame)
        camera.write(image(9)[:-3])
        count(f"stopped by {sign}: the last frame is there", within(5, lambda: len(pieces()) == 3 and read(piece(2)) == code(frames[4:])))
        time.sleep(0.2)
        process.send_signal(sign)
        ended(f"stopped by {sign}", process, 0, 5, ", stopped")
    count(f"stopped by {sign}: the pieces", [read(name) for name in pieces()] == [code(frames[:2]), code(frames[2:4]), code(frames[4:])])
    leave()


def kept_open():
    """With --keep-open what writes may come and go, in the middle of a piece and at a border."""
    fresh("kept_open")
    process = record("--pieces", "2", "--keep-open", "--count", "6")
    frames = [image(number) for number in range(6)]
    for first, last in (0, 3), (3, 4), (4, 6):
        with open("camera", "wb", buffering=0) as camera:
            camera.write(b"".join(frames[first:last]))
        own = (last - 1) // 2
        count(f"kept open: frame {last - 1} is in its piece", within(5, lambda: os.path.exists(piece(own)) and
              read(piece(own)) == code(frames[2 * own:last])), own)
    ended("kept open", process, 0, 6)
    count("kept open: the pieces", [read(name) for name in pieces()] == [code(frames[place:place + 2]) for place in (0, 2, 4)])
    leave()


def stopped_at_border():
    """A signal when a piece is full: no further one is made."""
    fresh("stopped_at_border")
    process = record("--pieces", "2")
    frames = [image(number) for number in range(4)]
    with open("camera", "wb", buffering=0) as camera:
        for frame in frames:
            camera.write(frame)
        count("stopped at a border: the last frame is there", within(5, lambda: len(pieces()) == 2 and read(piece(1)) == code(frames[2:])))
        time.sleep(0.2)
        process.send_signal(signal.SIGTERM)
        ended("stopped at a border", process, 0, 4, ", stopped")
    count("stopped at a border: no more pieces", len(pieces()) == 2)
    leave()


def many(number_of_pieces):
    """Neither descriptors nor memory grow with the number of pieces."""
    fresh("many")
    process = record("--pieces", "1", "--index", "--times")
    most, sizes = [], []
    with open("camera", "wb", buffering=0) as camera:
        for number in range(number_of_pieces):
            camera.write(image(number))
            if number % 50 == 49:
                count(f"many: piece {number}", within(30, lambda: os.path.exists(piece(number))))
                most.append(len(os.listdir(f"/proc/{process.pid}/fd")))
                with open(f"/proc/{process.pid}/status") as status:
                    sizes += [int(line.split()[1]) for line in status if line.startswith("VmRSS")]
    ended("many", process, 0, number_of_pieces)
    # 8 pieces may wait for the disk, each with 2 descriptors for each of its 3 files.
    count("many: descriptors", max(most) < 100, most)
    count("many: memory", max(sizes[2:]) <= 1.2 * max(sizes[:2]) + 1000, sizes)
    own = pieces()
    count("many: the pieces", len(own) == number_of_pieces, len(own))
    count("many: the recording", b"".join(map(read, own)) == code([image(number) for number in range(number_of_pieces)]))
    leave()


by_seconds()
taken_away()
two_programs()
killed()
stopped(signal.SIGINT)
stopped(signal.SIGTERM)
kept_open()
stopped_at_border()
many(1000)
cases.end()
