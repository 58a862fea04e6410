"""Records on a terminal: check.py PROGRAM, in a folder of its own. Prints each case that fails, and how many passed."""

import fcntl
import os
import pty
import re
import select
import struct
import sys
import termios
import time
import unicodedata

sys.dont_write_bytecode = True
sys.path.insert(0, os.path.join(os.path.dirname(os.path.abspath(__file__)), "..", "program"))
from cases import Cases
from codestreams import BLACK

program, = sys.argv[1:]
program = os.path.realpath(program)
cases = Cases(program)
count = cases.count
frame = BLACK[1]


def is_progress(text):
    """Whether this is how far a film is, as far as there is room."""
    return len(text) > 4 and ("waits for its first frame".startswith(text) or bool(re.fullmatch(r"\d+ frames(, .*)?", text)))


class Screen:
    """A terminal of ECMA-48, as far as it is used here: a line that is full goes on in the next one, and the last one scrolls."""

    def __init__(self, height, width):
        self.height, self.width = height, width
        self.cells = [[" "] * width for _ in range(height)]
        self.row = self.column = 0
        self.is_full = False
        self.above = []
        self.odd = []
        self.wrapped = 0
        self.rest = ""

    def line_feed(self):
        if self.row + 1 < self.height:
            self.row += 1
        else:
            self.above.append(self.text(0))
            self.cells = self.cells[1:] + [[" "] * self.width]

    def put(self, character):
        size = 2 if unicodedata.east_asian_width(character) in "WF" else 0 if unicodedata.combining(character) else 1
        if size == 0:
            return
        if self.is_full or self.column + size > self.width:
            self.column, self.is_full = 0, False
            self.wrapped += 1
            self.line_feed()
        self.cells[self.row][self.column:self.column + size] = [character] + [""] * (size - 1)
        self.column += size
        if self.column == self.width:
            self.column, self.is_full = self.width - 1, True

    def take(self, text):
        """Takes what is written. Answers whether it ended with progress that was shown."""
        text, self.rest = self.rest + text, ""
        place, is_shown = 0, False
        while place < len(text):
            character = text[place]
            is_shown = False
            if character == "\x1b":
                match = re.compile(r"\x1b\[(\d*)([A-Za-z])").match(text, place)
                if not match:
                    self.rest = text[place:]
                    return False
                number, final = int(match[1] or 1), match[2]
                if final == "A":
                    self.row = max(0, self.row - number)
                    self.is_full, is_shown = False, True
                elif final == "J" and match[1] in ("", "0"):
                    self.cells[self.row][self.column:] = [" "] * (self.width - self.column)
                    self.cells[self.row + 1:] = [[" "] * self.width for _ in range(self.height - self.row - 1)]
                else:
                    self.odd.append(match[0])
                place = match.end()
                if is_shown:
                    self.rest = text[place:]
                    return True
                continue
            place += 1
            if character == "\r":
                self.column, self.is_full = 0, False
            elif character == "\n":
                self.is_full = False
                self.line_feed()
            elif character >= " ":
                self.put(character)
            else:
                self.odd.append(character)
        return False

    def text(self, row):
        return "".join(self.cells[row]).rstrip()

    def lines(self):
        return [self.text(row) for row in range(self.height)]


class Watched:
    """A recording on a terminal. What it shows is looked at each time that progress is shown."""

    def __init__(self, name, height, width, films, *words, told=True):
        self.name, self.films = name, films
        self.screen = Screen(height, width)
        self.times = 0
        self.faults = []
        self.content = b""
        self.texts = []
        process, self.terminal = pty.fork()
        if process == 0:
            environment = {**os.environ, "COLUMNS": str(width), "LINES": str(height)}
            if not told:
                del environment["LINES"]
            os.execve(program, [program, "record", *words, *films], environment)
        self.process = process
        if told:
            fcntl.ioctl(self.terminal, termios.TIOCSWINSZ, struct.pack("HHHH", height, width, 0, 0))

    def look(self, seconds):
        """Looks on for so many seconds, or to the end. Answers whether it is at its end."""
        until = time.monotonic() + seconds
        while (left := until - time.monotonic()) > 0:
            if not select.select([self.terminal], [], [], left)[0]:
                return False
            try:
                read = os.read(self.terminal, 65536)
            except OSError:
                return True
            if not read:
                return True
            self.content += read
            try:
                text = self.content.decode()
            except UnicodeDecodeError:
                continue
            self.content = b""
            self.texts.append(text)
            while self.screen.take(text):
                self.shown()
                text, self.screen.rest = self.screen.rest, ""
        return False

    def shown(self):
        """Progress was shown: a line for each film, in order, from the cursor on, and nothing below; and no such line above."""
        self.times += 1
        screen = self.screen
        lines = screen.lines()
        block = lines[screen.row:]
        wanted = self.films
        holds = screen.column == 0 and len(block) >= len(wanted) and not any(block[len(wanted):])
        for line, film in zip(block, wanted):
            name, _, progress = line.partition(": ")
            is_name = name == film or (name.startswith("..") and film.endswith(name[2:]))
            holds = holds and is_name and len(name) > 2 and is_progress(progress) and len(line) <= screen.width
        above = [line for line in screen.above + lines[:screen.row] if re.search("waits for its|[0-9] waiting", line)]
        if not holds or above or screen.wrapped > self.may_wrap:
            self.faults.append((lines, screen.row, screen.column, screen.wrapped))

    may_wrap = 0

    def end(self, *left):
        """The end: nothing of progress is left, and each of these lines is there once."""
        while not self.look(1):
            pass
        _, status = os.waitpid(self.process, 0)
        os.close(self.terminal)
        lines = [line for line in self.screen.above + self.screen.lines() if line]
        holds = not self.faults and not self.screen.odd
        count(f"{self.name}: what is shown", holds, (self.faults[:1], self.screen.odd))
        count(f"{self.name}: what is left", all(lines.count(line) == 1 for line in left), lines)
        over = [line for line in lines if re.search("waits for its|waiting,", line)]
        count(f"{self.name}: no progress is left", not over, over)
        return os.waitstatus_to_exitcode(status)


cameras = {}


def fresh(*names):
    for name in names:
        for made in [name, f"{name}.jls"]:
            if os.path.lexists(made):
                os.remove(made)
        os.mkfifo(name)


def opened(name):
    """Opens a camera's pipe to write."""
    cameras[name] = os.open(name, os.O_WRONLY)


def send(name, content):
    os.write(cameras[name], content)


def closed(name):
    os.close(cameras.pop(name))


# ---- so many films on terminals of several sizes

for height, width, films in [(24, 80, 16), (24, 40, 16), (24, 200, 16), (24, 80, 2), (50, 80, 16), (25, 132, 7), (24, 20, 3)]:
    names = [f"camera-{number}-of-{films}.pgm" for number in range(films)]
    fresh(*names)
    watched = Watched(f"{films} films on {height} by {width}", height, width, names)
    watched.may_wrap = 10**6 if width < 80 else 0
    for name in names:
        opened(name)
    watched.look(0.7)
    for turn in range(3):
        for name in names:
            send(name, frame * (turn + 1))
        watched.look(0.6)
    for number, name in enumerate(names):
        closed(name)
        if number % 5 == 0:
            watched.look(0.3)
    status = watched.end(*[f"{name}: 6 frames" for name in names if width >= 40])
    count(f"{watched.name}: it was shown", status == 0 and watched.times >= 4, (status, watched.times))

# ---- messages in between: pipes that are opened late, films that end by a fault, and others that are done

names = [f"late{number}" for number in range(16)]
fresh(*names)
watched = Watched("messages in between", 24, 80, names)
for number, name in enumerate(names):
    opened(name)
    send(name, frame * 2)
    watched.look(0.15)
for number, name in enumerate(names):
    if number % 3 == 0:
        send(name, b"P5\n1 1\n0\n")
    if number % 3 == 1:
        closed(name)
    watched.look(0.25)
for name in list(cameras):
    closed(name)
status = watched.end()
shown = "".join(watched.texts)
count("messages in between: status", status == 1, status)
for number, name in enumerate(names):
    said = f"{name}: frame 2: maxval out of range" if number % 3 == 0 else f"{name}: 2 frames"
    lines = [line for line in watched.screen.above + watched.screen.lines() if line.endswith(said)]
    count(f"messages in between: {said}", len(lines) == 1, lines)
    lines = [line for line in watched.screen.above + watched.screen.lines() if line == f"jlsrec: {name}: opened"]
    count(f"messages in between: {name}: opened", len(lines) == 1, lines)

# ---- long names, wide ones, and a message that takes more than a line

names = ["a" * 100 + str(number) for number in range(4)] + ["\u5bfa" * 40, "caf\u00e9" * 30, "\U0001f3a5" * 30 + ".pgm"]
for width in [40, 80]:
    fresh(*names)
    watched = Watched(f"long and wide names on {width}", 24, width, names)
    watched.may_wrap = 10**6
    for name in names:
        opened(name)
        watched.look(0.3)
    for name in names:
        send(name, frame)
        watched.look(0.3)
    for name in names:
        closed(name)
    status = watched.end()
    count(f"{watched.name}: it was shown", status == 0 and watched.times >= 4, (status, watched.times))

# ---- in one line: a terminal of fewer lines, or with hardly more than films, or of an unknown height; and one film

for name, height, told, films in [("23 lines", 23, True, 2), ("17 lines", 17, True, 16), ("lines that aren't told", 24, False, 2), ("one film", 24, True, 1)]:
    names = [f"one{number}" for number in range(films)]
    fresh(*names)
    watched = Watched(name, height, 80, names, told=told)
    for camera in names:
        opened(camera)
        send(camera, frame)
    watched.look(1.5)
    for camera in names:
        closed(camera)
    status = watched.end(*[f"{camera}: 1 frames" for camera in names])
    shown = "".join(watched.texts)
    holds = status == 0 and "\x1b" not in shown and "\rone0: " in shown
    count(f"{name}: as a line", holds, shown)

cases.end()
