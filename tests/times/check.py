"""Compares the times that `record --times` writes with those at which frames are sent: check.py PROGRAM, in a folder of its own.
Prints each case that fails, and how many passed.

A camera is a named pipe. Of each frame it is noted here when its first byte is sent and when its last is, by the same clock."""

import os
import signal
import subprocess
import sys
import threading
import time

sys.dont_write_bytecode = True
sys.path.insert(0, os.path.join(os.path.dirname(os.path.abspath(__file__)), "..", "program"))
from cases import Cases

PROGRAM = sys.argv[1]
# The time within which a byte that is sent is read, in nanoseconds: of an idle machine much less.
TOLERANCE = 50_000_000
cases = Cases(PROGRAM)
count = cases.count


def image(number, width, height):
    return b"P5\n%d %d\n255\n" % (width, height) + bytes((number + place) % 251 for place in range(width * height))


class Camera:
    """A film that is sent in parts by a thread: each frame in two halves, and between them and the next a pause."""

    def __init__(self, name, frames, pause, rest=b""):
        self.name, self.frames, self.pause, self.rest = name, frames, pause, rest
        self.sent = []
        os.mkfifo(name)
        self.thread = threading.Thread(target=self.send)

    def send(self):
        with open(self.name, "wb", buffering=0) as pipe:
            for frame in self.frames:
                half = len(frame) // 2
                first = time.time_ns()
                pipe.write(frame[:half])
                time.sleep(self.pause)
                before = time.time_ns()
                pipe.write(frame[half:])
                self.sent.append((first, before, time.time_ns()))
                time.sleep(self.pause)
            if self.rest:
                pipe.write(self.rest)
                self.is_silent.wait()

    is_silent = threading.Event()


def lines_of(name):
    with open(name + ".jls.times") as file:
        text = file.read()
    assert not text or text.endswith("\n"), text
    return [line.split(" ") for line in text.splitlines()]


def frames_of(name):
    said = subprocess.run([PROGRAM, "index", name + ".jls"], stdout=subprocess.PIPE, check=True, text=True)
    return len(said.stdout.splitlines())


def check(case, camera, wanted, ended):
    """The times of a camera's first frames, which were recorded by the time `ended`."""
    lines = lines_of(camera.name)
    count(f"{case}: a line for each frame", len(lines) == wanted == frames_of(camera.name), len(lines), wanted)
    for number, (line, (sent, before, after)) in enumerate(zip(lines, camera.sent)):
        own = f"{case}: frame {number}"
        count(own + ": its numbers", len(line) == 4 and all(str(int(part)) == part for part in line), line)
        own_number, first, last, out = map(int, line)
        count(own + ": its number", own_number == number, line)
        count(own + ": in order", first <= last <= out, line)
        count(own + ": its first byte", sent <= first <= sent + TOLERANCE, first - sent)
        count(own + ": its last byte", before <= last <= after + TOLERANCE, last - before, last - after)
        count(own + ": when it is recorded", out <= ended, out - after)


def record(*words):
    return subprocess.Popen([PROGRAM, "record", "--times", *words], stdout=subprocess.PIPE, stderr=subprocess.PIPE, text=True)


def cameras(case, *words):
    """Three cameras of their own paces, each to its end."""
    own = [Camera(f"{case}{place}", [image(number, 64, 48) for number in range(5)], 0.08 + 0.02 * place) for place in range(3)]
    process = record(*words, *(camera.name for camera in own))
    for camera in own:
        camera.thread.start()
    said = process.communicate(timeout=60)
    ended = time.time_ns()
    count(f"{case}: status", process.returncode == 0, process.returncode, said)
    for camera in own:
        camera.thread.join()
        check(f"{case} {camera.name}", camera, 5, ended)


def stopped(sign):
    """A camera that is silent in the middle of a frame when a signal stops the recording."""
    name = f"stopped{sign}"
    camera = Camera(name, [image(number, 64, 48) for number in range(4)], 0.08, b"P5\n64 48\n255\nsome")
    process = record(name)
    camera.thread.start()
    while len(camera.sent) < 4:
        time.sleep(0.05)
    time.sleep(0.3)
    process.send_signal(sign)
    said = process.communicate(timeout=60)
    ended = time.time_ns()
    Camera.is_silent.set()
    camera.thread.join()
    Camera.is_silent.clear()
    count(f"{name}: status and line", (process.returncode, said[0]) == (0, f"{name}: 4 frames, stopped\n"), process.returncode, said)
    check(name, camera, 4, ended)


def failing():
    """A camera that sends a malformed frame."""
    Camera.is_silent.set()
    camera = Camera("failing", [image(number, 64, 48) for number in range(3)], 0.08, b"P7\n")
    process = record("failing")
    camera.thread.start()
    said = process.communicate(timeout=60)
    ended = time.time_ns()
    camera.thread.join()
    count("failing: status and line", (process.returncode, said[1]) == (1, "jlsrec: failing: frame 3: bad magic\n"), process.returncode, said)
    check("failing", camera, 3, ended)
    Camera.is_silent.clear()


def at_once():
    """Frames that are sent by one write: those that come by one read have one time."""
    frames = [image(number, 8, 8) for number in range(40)]
    os.mkfifo("at_once")
    process = record("--window", "1", "at_once")
    with open("at_once", "wb", buffering=0) as pipe:
        begun = time.time_ns()
        pipe.write(b"".join(frames))
        ended = time.time_ns()
    said = process.communicate(timeout=60)
    count("at once: status", process.returncode == 0, process.returncode, said)
    times = [list(map(int, line)) for line in lines_of("at_once")]
    count("at once: a line for each frame", [line[0] for line in times] == list(range(40)), times)
    count("at once: in order", all(first <= last <= out for _, first, last, out in times), times)
    count("at once: when they came", all(begun <= first and last <= ended + TOLERANCE for _, first, last, _ in times), times)
    ordered = all(one[3] <= other[3] and one[2] <= other[1] or one[2] == other[1] for one, other in zip(times, times[1:]))
    count("at once: one after the other", ordered, times)


cameras("alone")
cameras("indexed", "--index", "--report", "report", "--workers", "4")
stopped(signal.SIGINT)
stopped(signal.SIGTERM)
failing()
at_once()
cases.end()
