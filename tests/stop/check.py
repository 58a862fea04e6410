"""Stops recordings by signals: check.py PROGRAM MOMENTS, in a folder of its own. Prints each case that fails, and how many passed.

The program stops a recording at each of MOMENTS moments drawn at random, of one camera to sixteen. A camera is a named pipe that
is held open here, so it is known how many bytes of it were read: those that were written, less those that are left in it."""

import errno
import fcntl
import os
import pty
import random
import resource
import signal
import struct
import subprocess
import sys
import termios
import threading
import time

sys.dont_write_bytecode = True
sys.path.insert(0, os.path.join(os.path.dirname(os.path.abspath(__file__)), "..", "program"))
from cases import Cases

PROGRAM, MOMENTS = sys.argv[1], int(sys.argv[2])
STOPS = (signal.SIGHUP, signal.SIGINT, signal.SIGTERM)
# The seconds within which a stopped recording ends: what is in its windows takes much less.
MOST = 2.0
cases = Cases(PROGRAM)
count = cases.count


def frame(number, width, height):
    """An image of noise that differs from number to number."""
    head = b"P5\n%d %d\n255\n" % (width, height)
    return head + random.Random(number * 1000003 + width).randbytes(width * height)


class Camera:
    """A film in a file of this name, that is sent in parts by a thread."""

    def __init__(self, name, frames):
        self.name, self.frames = name, frames
        self.film = b"".join(frames)
        self.sent = 0
        os.mkfifo(name)
        self.pipe = os.open(name, os.O_RDWR | os.O_NONBLOCK)
        fcntl.fcntl(self.pipe, fcntl.F_SETPIPE_SZ, random.choice((4096, 65536)))
        self.is_over = False
        self.thread = None

    def send(self, most=None):
        """Sends what is left of the film, or at most so many bytes, as far as the pipe takes it at once."""
        end = len(self.film) if most is None else min(len(self.film), self.sent + most)
        while self.sent < end:
            try:
                self.sent += os.write(self.pipe, self.film[self.sent : end])
            except BlockingIOError:
                return False
        return True

    def send_all(self):
        """Sends the whole film, and waits until it is read."""
        wait_for(lambda: self.send())
        wait_for(lambda: self.left() == 0)

    def begin(self, part, pause):
        def work():
            while not self.is_over and self.sent < len(self.film):
                self.send(part)
                time.sleep(pause)

        self.thread = threading.Thread(target=work)
        self.thread.start()

    def left(self):
        return struct.unpack("i", fcntl.ioctl(self.pipe, termios.FIONREAD, b"\0\0\0\0"))[0]

    def end(self):
        """Ends the sending, and returns how many frames were read whole."""
        self.is_over = True
        if self.thread:
            self.thread.join()
        read, whole = self.sent - self.left(), 0
        os.close(self.pipe)
        for one in self.frames:
            read -= len(one)
            if read < 0:
                break
            whole += 1
        return whole


def wait_for(holds, seconds=20.0):
    end = time.monotonic() + seconds
    while not holds():
        if time.monotonic() > end:
            return False
        time.sleep(0.002)
    return True


class Recorder:
    """A recording of these words; its ignored signals are these, and it may have at most so many files open."""

    def __init__(self, *words, ignored=(), most=None, **how):
        def prepare():
            if most is not None:
                resource.setrlimit(resource.RLIMIT_NOFILE, (most, most))
            for stop in STOPS:
                signal.signal(stop, signal.SIG_IGN if stop in ignored else signal.SIG_DFL)

        how = {"stdin": subprocess.DEVNULL, "stdout": subprocess.PIPE, "stderr": subprocess.PIPE, **how}
        self.process = subprocess.Popen([PROGRAM, "record", *words], preexec_fn=prepare, **how)
        # With too few files open it takes no signal.
        wait_for(self.has_handlers, 20 if most is None else 2)

    def stop(self, *stops):
        """Sends signals, and returns the status, both outputs, and the seconds that it took."""
        began = time.monotonic()
        for one in stops:
            self.process.send_signal(one)
        try:
            out, err = self.process.communicate(timeout=20)
        except subprocess.TimeoutExpired:
            self.process.kill()
            out, err = self.process.communicate()
        took = time.monotonic() - began
        return self.process.returncode, (out or b"").decode(), (err or b"").decode(), took

    def has_handlers(self):
        """Whether it has begun, so that signals stop it."""
        with open(f"/proc/{self.process.pid}/status") as status:
            caught = [int(line.split()[1], 16) for line in status if line.startswith("SigCgt")]
        return bool(caught) and caught[0] >> (signal.SIGTERM - 1) & 1 == 1

    def opens(self, name):
        """Whether it has a file open."""
        folder, wanted = f"/proc/{self.process.pid}/fd/", os.path.abspath(name)
        try:
            return any(os.readlink(folder + it) == wanted for it in os.listdir(folder))
        except OSError:
            return False


def played(name):
    return subprocess.run([PROGRAM, "play", name], stdout=subprocess.PIPE, stderr=subprocess.PIPE)


def holds(name, frames):
    """Whether a recording has exactly these frames."""
    ran = played(f"{name}.jls")
    return ran.returncode == 0 and ran.stdout == b"".join(frames)


def fresh(name):
    os.makedirs(name)
    os.chdir(name)


# ---- at any moment


def draw(number):
    """Draws a recording by this number, and stops it."""
    drawn = random.Random(number)
    fresh(f"moment{number}")
    cameras, plain, absent, names = [], {}, [], []
    for place in range(drawn.choice((1, 2, 3, 4, 8, 16))):
        name, kind = f"film{place}", drawn.choice(("slow", "slow", "silent", "silent", "absent", "plain"))
        size = drawn.choice(((1, 1), (16, 9), (64, 48), (160, 120)))
        frames = [frame(number * 97 + place * 31 + it, *size) for it in range(drawn.choice((0, 1, 5, 40)))]
        names.append(name)
        if kind == "plain":
            plain[name] = frames * drawn.choice((1, 1, 50))
            with open(name, "wb") as film:
                film.write(b"".join(plain[name]))
        elif kind == "absent":
            os.mkfifo(name)
            absent.append(name)
        else:
            camera = Camera(name, frames)
            if kind == "silent":
                camera.film = camera.film[: drawn.randrange(len(camera.film) + 1)]
                camera.begin(65536, 0.001)
            else:
                camera.begin(drawn.choice((1000, 5000, 50000)), drawn.choice((0.001, 0.005, 0.02)))
            cameras.append(camera)
    words = ["--window", str(drawn.choice((1, 2, 4, 16, 64))), "--workers", str(drawn.choice((1, 2, 4, 16)))]
    words += ["--queue", str(drawn.choice((1, 8, 256)))]
    indexed, reported = drawn.random() < 0.5, drawn.random() < 0.5
    words += ["--index"] * indexed + ["--report", "report"] * reported
    recorder = Recorder(*words, *names)
    time.sleep(drawn.choice((0, 0.001, 0.01, 0.05, 0.2)) * drawn.random())
    stop = drawn.choice(STOPS)
    status, out, err, took = recorder.stop(stop)
    told = dict(line.rsplit(": ", 1) for line in out.splitlines())
    wanted = {name: f"{0} frames, stopped" for name in absent}
    truth = {name: [] for name in absent}
    for camera in cameras:
        whole = camera.end()
        wanted[camera.name] = f"{whole} frames, stopped"
        truth[camera.name] = camera.frames[:whole]
    for name, frames in plain.items():
        said = told.get(name, "none").split(" ", 1)
        some = int(said[0]) if said[0].isdigit() else -1
        if some == len(frames) and said[1] == "frames":
            wanted[name], truth[name] = f"{some} frames", frames
        else:
            wanted[name], truth[name] = f"{some} frames, stopped", frames[: max(some, 0)]
    case = f"moment {number}, {stop.name}, {' '.join(words + names)}:"
    count(f"{case} status", status == 0, status, err)
    count(f"{case} lines", list(told.items()) == [(it, wanted[it]) for it in names], out, wanted)
    count(f"{case} nothing else is said", err == "", err)
    count(f"{case} within {MOST} s", took < MOST, took)
    for name in names:
        count(f"{case} {name}", holds(name, truth[name]))
        if indexed:
            line = subprocess.run([PROGRAM, "index", f"{name}.jls"], stdout=subprocess.PIPE)
            with open(f"{name}.jls.index", "rb") as index:
                count(f"{case} the index of {name}", index.read() == line.stdout)
    if reported:
        with open("report") as report:
            lines = report.read().splitlines()[1:-1]
        ends = [line[120:] for line in lines]
        count(f"{case} the report", ends == [it + ": stopped" * wanted[it].endswith("stopped") for it in names], ends)
    os.chdir("..")


# ---- one case at a time


def every_window():
    for window in (1, 4, 16, 64):
        for some in sorted({0, 1, window - 1, window, window + 3}):
            for torn in (0, 5, 100):
                fresh(f"window{window}_{some}_{torn}")
                camera = Camera("one", [frame(it, 32, 24) for it in range(some + 1)])
                camera.film = b"".join(camera.frames[:some]) + camera.frames[some][:torn]
                recorder = Recorder("--window", str(window), "one")
                camera.send_all()
                status, out, err, took = recorder.stop(signal.SIGTERM)
                case = f"window {window}, {some} frames and {torn} bytes of one:"
                count(case, (status, out, err) == (0, f"one: {some} frames, stopped\n", ""), status, out, err)
                count(f"{case} what is recorded", camera.end() == some and holds("one", camera.frames[:some]))
                os.chdir("..")


def every_signal():
    for stop in STOPS:
        fresh(f"by_{stop.name}")
        cameras = [Camera(name, [frame(it, 700, 500) for it in range(12)]) for name in ("a", "b")]
        recorder = Recorder("--window", "16", "--workers", "1", "a", "b")
        for camera in cameras:
            camera.send_all()
        status, out, err, _took = recorder.stop(stop)
        wanted = "a: 12 frames, stopped\nb: 12 frames, stopped\n"
        count(f"{stop.name} while frames wait to be coded", (status, out, err) == (0, wanted, ""), status, out, err)
        for camera in cameras:
            count(f"{stop.name}: {camera.name}", camera.end() == 12 and holds(camera.name, camera.frames))
        os.chdir("..")


def soon():
    """Nothing is to be coded: it is only the wait that has to end."""
    fresh("soon")
    times = {}
    for kind in ("silent", "absent"):
        times[kind] = []
        for number in range(9):
            name = f"{kind}{number}"
            if kind == "silent":
                camera = Camera(name, [frame(1, 8, 8)])
            else:
                os.mkfifo(name)
            recorder = Recorder(name)
            if kind == "silent":
                camera.send_all()
            time.sleep(0.05)
            status, out, err, took = recorder.stop(signal.SIGTERM)
            some = 1 if kind == "silent" else 0
            count(f"a camera that is {kind}", (status, out, err) == (0, f"{name}: {some} frames, stopped\n", ""), status, out, err)
            times[kind].append(took)
        took = sorted(times[kind])[4]
        count(f"a camera that is {kind}: soon", took < 0.15, took)
    os.chdir("..")


def one_reads_on():
    """Returns a recording that can't end by itself: nobody reads it. (It has one frame.)"""
    camera = Camera("one", [frame(1, 8, 8)])
    os.mkfifo("one.jls")
    recorder = Recorder("one")
    camera.send_all()
    return camera, recorder


def second():
    for first in STOPS:
        for then in STOPS:
            fresh(f"second_{first.name}_{then.name}")
            camera, recorder = one_reads_on()
            recorder.process.send_signal(first)
            time.sleep(0.3)
            count(f"{first.name} alone, where nobody reads the recording", recorder.process.poll() is None)
            status, _out, _err, took = recorder.stop(then)
            count(f"{first.name} and then {then.name}", status == -then, status)
            count(f"{first.name} and then {then.name}: at once", took < 1, took)
            camera.end()
            os.chdir("..")
    fresh("two_at_once")
    camera = Camera("one", [frame(it, 300, 300) for it in range(30)])
    recorder = Recorder("--window", "64", "--workers", "1", "one")
    camera.send_all()
    status, out, _err, _took = recorder.stop(signal.SIGTERM, signal.SIGTERM, signal.SIGHUP)
    count("signals that come together are one stop", (status, out) == (0, "one: 30 frames, stopped\n"), status, out)
    count("signals that come together: what is recorded", camera.end() == 30 and holds("one", camera.frames))
    os.chdir("..")


def ignored():
    for name, those in (("nohup", (signal.SIGHUP,)), ("a job in the background", (signal.SIGINT,)), ("two", STOPS[:2])):
        fresh("ignored_" + name.replace(" ", "_"))
        camera = Camera("one", [frame(1, 8, 8)])
        recorder = Recorder("one", ignored=those)
        camera.send_all()
        for stop in those:
            recorder.process.send_signal(stop)
        time.sleep(0.2)
        count(f"{name}: what is ignored stays so", recorder.process.poll() is None)
        status, out, _err, _took = recorder.stop(signal.SIGTERM)
        count(f"{name}: another one stops it", (status, out) == (0, "one: 1 frames, stopped\n"), status, out)
        camera.end()
        os.chdir("..")


def other_commands():
    fresh("other_commands")
    os.mkfifo("pipe")
    pipe = os.open("pipe", os.O_RDWR)
    with open("film", "wb") as film:
        film.write(frame(1, 8, 8))
    for words in (["play", "pipe"], ["check", "pipe"], ["list", "pipe"], ["index", "pipe"], ["verify", "film", "pipe"]):
        for stop in STOPS:
            ran = subprocess.Popen([PROGRAM, *words], stdout=subprocess.PIPE, stderr=subprocess.PIPE)
            wait_for(lambda: any("pipe" in it for it in links(ran.pid)))
            ran.send_signal(stop)
            out, err = ran.communicate(timeout=20)
            count(f"{words[0]} and {stop.name}", (ran.returncode, out, err) == (-stop, b"", b""), ran.returncode, out, err)
    os.close(pipe)
    os.chdir("..")


def links(process):
    folder = f"/proc/{process}/fd/"
    try:
        return [os.readlink(folder + it) for it in os.listdir(folder)]
    except OSError:
        return []


def faults():
    """One that was at fault before the stop stays so."""
    fresh("faults")
    camera = Camera("good", [frame(it, 8, 8) for it in range(3)])
    os.mkfifo("bad")
    recorder = Recorder("--progress", "--report", "report", "bad", "good", stderr=open("said", "wb"))
    with open("bad", "wb") as bad:
        bad.write(frame(1, 8, 8) + frame(2, 8, 8)[:20])
    camera.send_all()
    line = "jlsrec: bad: frame 1: truncated\n"
    wait_for(lambda: line in open("said").read())
    status, out, _err, _took = recorder.stop(signal.SIGTERM)
    count("a film that broke off before the stop: status and lines", (status, out) == (1, "good: 3 frames, stopped\n"), status, out)
    count("a film that broke off before the stop is told of once", open("said").read().count(line) == 1)
    report = open("report").read()
    count("a film that broke off before the stop: the report", " bad: frame 1: truncated\n" in report and " good: stopped\n" in report)
    camera.end()
    os.chdir("..")

    fresh("no_film")
    with open("notes", "wb") as notes:
        notes.write(b"no film")
    camera = Camera("good", [])
    recorder = Recorder("--progress", "notes", "good", stderr=open("said", "wb"))
    wait_for(lambda: "bad magic" in open("said").read())
    status, out, _err, _took = recorder.stop(signal.SIGTERM)
    count("what is no film, before the stop", (status, out) == (1, "good: 0 frames, stopped\n"), status, out)
    count("what is no film leaves no recording", not os.path.exists("notes.jls") and os.path.exists("good.jls"))
    camera.end()
    os.chdir("..")

    fresh("earlier")
    with open("one.jls", "wb") as earlier:
        earlier.write(b"earlier")
    camera = Camera("one", [])
    recorder = Recorder("--replace", "one")
    wait_for(lambda: recorder.opens("one"))
    status, out, _err, _took = recorder.stop(signal.SIGTERM)
    count("a stop before the first frame", (status, out) == (0, "one: 0 frames, stopped\n"), status, out)
    count("a stop before the first frame: the earlier recording stays", open("one.jls.1", "rb").read() == b"earlier")
    count("a stop before the first frame: the recording", os.path.getsize("one.jls") == 0)
    camera.end()
    os.chdir("..")


def outputs():
    """Writes that wait are interrupted too, and lose nothing."""
    fresh("a_pipe_that_is_full")
    camera = Camera("one", [frame(it, 200, 200) for it in range(8)])
    os.mkfifo("one.jls")
    reader = os.open("one.jls", os.O_RDONLY | os.O_NONBLOCK)
    fcntl.fcntl(reader, fcntl.F_SETFL, 0)
    recorder = Recorder("--window", "16", "one")
    camera.send_all()
    recorder.process.send_signal(signal.SIGTERM)
    time.sleep(0.5)
    got = b""
    while True:
        part = os.read(reader, 4096)
        got += part
        if not part:
            break
    os.close(reader)
    os.unlink("one.jls")
    with open("one.jls", "wb") as recording:
        recording.write(got)
    out, err = recorder.process.communicate(timeout=20)
    count("a recording whose reader is slow", (recorder.process.returncode, out, err) == (0, b"one: 8 frames, stopped\n", b""), out, err)
    count("a recording whose reader is slow: all comes", camera.end() == 8 and holds("one", camera.frames))
    os.chdir("..")

    fresh("an_output_that_is_full")
    camera = Camera("one", [frame(1, 8, 8)])
    out, into = os.pipe()
    os.set_blocking(into, False)
    filled = 0
    try:
        while True:
            filled += os.write(into, b"x" * 4096)
    except BlockingIOError:
        os.set_blocking(into, True)
    recorder = Recorder("one", stdout=into)
    os.close(into)
    camera.send_all()
    recorder.process.send_signal(signal.SIGTERM)
    time.sleep(1.5)
    got = b""
    while True:
        part = os.read(out, 65536)
        got += part
        if not part:
            break
    os.close(out)
    _out, err = recorder.process.communicate(timeout=20)
    count("lines whose reader is slow", (recorder.process.returncode, got[filled:], err) == (0, b"one: 1 frames, stopped\n", b""), err)
    camera.end()
    os.chdir("..")


def closed_streams():
    for closed in ((0,), (1,), (2,), (0, 1, 2)):
        fresh("closed_" + "_".join(map(str, closed)))
        camera = Camera("one", [frame(it, 8, 8) for it in range(3)])
        words = " ".join(f"{it}>&-" if it else "<&-" for it in closed)
        script = f'exec "$0" record --progress one {words}'
        process = subprocess.Popen(["sh", "-c", script, PROGRAM], stdout=subprocess.PIPE, stderr=subprocess.PIPE)
        camera.send_all()
        process.send_signal(signal.SIGTERM)
        out, _err = process.communicate(timeout=20)
        wanted = b"" if 1 in closed else b"one: 3 frames, stopped\n"
        count(f"closed streams {words}: lines", out == wanted, out)
        count(f"closed streams {words}: what is recorded", camera.end() == 3 and holds("one", camera.frames))
        os.chdir("..")


def services():
    for words, wanted in ((["timeout", "-s", "TERM", "1"], 124), (["timeout", "--preserve-status", "1"], 0), (["timeout", "-s", "INT", "1"], 124)):
        fresh("_".join(words))
        camera = Camera("one", [frame(it, 64, 48) for it in range(500)])
        camera.begin(10000, 0.005)
        ran = subprocess.run([*words, PROGRAM, "record", "one"], stdout=subprocess.PIPE, stderr=subprocess.PIPE)
        whole = camera.end()
        said = f"one: {whole} frames, stopped\n".encode()
        count(f"{' '.join(words)}", (ran.returncode, ran.stdout, ran.stderr) == (wanted, said, b""), ran)
        count(f"{' '.join(words)}: what is recorded", whole > 0 and holds("one", camera.frames[:whole]))
        os.chdir("..")


def on_a_terminal(columns, variables, act, *words):
    """Runs a recording on a terminal of so many columns, too low for a line a film, and returns what is shown there, and its status."""
    process, terminal = pty.fork()
    if process == 0:
        os.environ.pop("COLUMNS", None)
        os.environ.pop("LINES", None)
        os.environ.update(variables)
        fcntl.ioctl(2, termios.TIOCSWINSZ, struct.pack("HHHH", 23, columns, 0, 0))
        os.execv(PROGRAM, [PROGRAM, "record", *words])
    shown = []

    def read():
        while True:
            try:
                part = os.read(terminal, 65536)
            except OSError:
                break
            if not part:
                break
            shown.append(part)

    reader = threading.Thread(target=read)
    reader.start()
    act(terminal)
    _process, status = os.waitpid(process, 0)
    reader.join()
    os.close(terminal)
    return b"".join(shown).decode(), os.waitstatus_to_exitcode(status)


def terminals():
    fresh("terminal")
    camera = Camera("one", [frame(it, 900, 900) for it in range(30)])

    def act(terminal):
        camera.send_all()
        os.write(terminal, b"\x03")

    shown, status = on_a_terminal(80, {}, act, "--window", "64", "--workers", "1", "one")
    whole = camera.end()
    count("Ctrl-C on a terminal", status == 0 and f"one: {whole} frames, stopped" in shown, status, shown)
    count("Ctrl-C on a terminal: it says that it ends", " frames are still to be coded; another signal ends at once" in shown, shown)
    count("Ctrl-C on a terminal: no fault is told", "read failed" not in shown and "truncated" not in shown, shown)
    count("Ctrl-C on a terminal: what is recorded", whole == 30 and holds("one", camera.frames))
    os.chdir("..")
    for columns, variables, most in ((50, {}, 49), (120, {}, 119), (120, {"COLUMNS": "40"}, 39)):
        fresh(f"columns{columns}_{most}")
        names = [f"a_camera_of_a_long_name_{it}" for it in range(3)]
        for name in names:
            os.mkfifo(name)

        def act(terminal):
            time.sleep(1.2)
            os.write(terminal, b"\x03")

        shown, status = on_a_terminal(columns, variables, act, *names)
        parts = shown.replace("^C", "").replace("\n", "\r").split("\r")
        lines = [len(it) for it in parts if it.startswith(("a_camera", "..")) and "waits" in it]
        count(f"a terminal of {columns} columns, {variables}", status == 0 and lines and max(lines) == most, lines, shown)
        count(f"a terminal of {columns} columns, {variables}: no pipe is told to be open", "opened" not in shown)
        os.chdir("..")


def few_descriptors():
    """Where no descriptor is left, a stop ends all the same."""
    fresh("few_descriptors")
    runs, recorded = [], 0
    for most in range(6, 18):
        for words in ([], ["--for", "1"]):
            camera = Camera(f"one{most}{len(words)}", [frame(1, 8, 8)])
            runs.append((most, words, camera, Recorder(*words, camera.name, most=most)))
            camera.send()
    time.sleep(0.5)
    for most, words, camera, recorder in runs:
        status, out, err, took = recorder.stop(*([] if words else [signal.SIGTERM]))
        case = f"{most} descriptors {' '.join(words)}:"
        is_recorded = (status, out) == (0, f"{camera.name}: 1 frames, stopped\n")
        is_refused = status == 1 and out == "" and ("can't open" in err or "read failed" in err)
        count(f"{case} status and lines", is_recorded or is_refused, status, out, err)
        count(f"{case} soon", took < MOST, took)
        recorded += is_recorded
        camera.end()
    count("few descriptors are enough", recorded >= 8, recorded)
    os.chdir("..")


def plain_files():
    fresh("plain")
    frames = [frame(it, 500, 400) for it in range(5)]
    with open("film", "wb") as film:
        film.write(b"".join(frames) * 400)
    recorder = Recorder("--window", "64", "film")
    wait_for(lambda: os.path.exists("film.jls") and os.path.getsize("film.jls") > 0)
    status, out, err, took = recorder.stop(signal.SIGTERM)
    some = int(out.split()[1]) if out.startswith("film: ") else -1
    count("a plain film", (status, out, err) == (0, f"film: {some} frames, stopped\n", ""), status, out, err)
    count("a plain film: within two seconds", took < MOST, took)
    count("a plain film: a part of it", 0 < some < 2000 and holds("film", (frames * 400)[:some]))
    os.chdir("..")


random.seed(1)
every_window()
every_signal()
soon()
second()
ignored()
other_commands()
faults()
outputs()
closed_streams()
services()
terminals()
few_descriptors()
plain_files()
for moment in range(MOMENTS):
    draw(moment)
cases.end()
