"""A window on recordings: side by side, frame by frame, with window and level, zoom, and the sample under the pointer.

It requires tkinter, which on Debian is a package of its own: python3-tk.
"""

from __future__ import annotations

import time
import tkinter
from collections.abc import Sequence
from tkinter import ttk
from typing import Optional

import numpy as np

from . import JlsrecError, Recording
from .sheet import bits_a_sample
from .shown import fitted, portable, windowed

__all__ = ["Pane", "Window", "show"]

PLOT = 70
KEYS = "arrows: frame · Home, End · space: play · + -: zoom · f: fit · a: window by the samples · r: whole range"


class Pane:
    """One recording: its picture, a histogram, and the bits that its frames take."""

    def __init__(self, parent: tkinter.Misc, path: str, place: tuple[int, int], size: tuple[int, int], window: "Window") -> None:
        self.recording = Recording(path)
        self.window = window
        self.size = size
        self.frame: Optional[np.ndarray] = None
        self.shift = [0, 0]
        self.held: Optional[tuple[int, int]] = None
        self.bits = bits_a_sample(self.recording)
        self.image = tkinter.PhotoImage()
        box = ttk.Frame(parent, padding=2)
        box.grid(row=place[0], column=place[1], sticky="nsew")
        ttk.Label(box, text=path).pack(anchor="w")
        self.canvas = tkinter.Canvas(box, width=size[0], height=size[1], background="#181818", highlightthickness=0)
        self.canvas.pack()
        self.picture = self.canvas.create_image(size[0] // 2, size[1] // 2, image=self.image)
        self.plots = tkinter.Canvas(box, width=size[0], height=PLOT, background="#202020", highlightthickness=0)
        self.plots.pack()
        self.said = tkinter.StringVar()
        ttk.Label(box, textvariable=self.said, width=1).pack(fill="x")
        self.canvas.bind("<Motion>", self.point)
        self.canvas.bind("<ButtonPress-1>", lambda event: self.hold(event))
        self.canvas.bind("<B1-Motion>", self.drag)
        self.canvas.bind("<Button-4>", lambda _: window.zoom_by(1))
        self.canvas.bind("<Button-5>", lambda _: window.zoom_by(-1))

    def show(self, number: int) -> None:
        """Shows a frame: of a shorter recording its last one, and where a frame is at fault the fault."""
        frames = len(self.recording)
        if frames == 0:
            self.frame = None
            self.said.set(str(self.recording.fault or "no frames"))
            return
        number = min(number, frames - 1)
        self.number = number
        try:
            self.frame = self.recording[number]
            self.maxval = self.recording.header(number).maxval
        except (JlsrecError, OSError) as error:
            self.frame = None
            self.image = tkinter.PhotoImage()
            self.canvas.itemconfigure(self.picture, image=self.image)
            self.said.set(f"frame {number}: {error}")
            return
        self.draw()
        fault = self.recording.fault
        size = " by ".join(str(side) for side in self.frame.shape[1::-1])
        end = f"; after them: {fault}" if fault is not None else ""
        self.said.set(f"frame {number} of {frames}, {size}, {self.bits[number]:.2f} bits a sample{end}")

    def draw(self) -> None:
        """Draws the frame by window, level and zoom."""
        if self.frame is None:
            return
        low, high = self.window.range_of(self)
        shown = windowed(self.frame, low, high)
        zoom = self.window.zoom
        if zoom is None:
            shown = fitted(shown, *self.size)
            self.step, self.factor = max(-(-self.frame.shape[0] // shown.shape[0]), 1), max(shown.shape[0] // self.frame.shape[0], 1)
            self.corner = (0, 0)
        else:
            self.step, self.factor = 1, zoom
            rows, columns = self.size[1] // zoom, self.size[0] // zoom
            top = int(np.clip(self.shift[0], 0, max(shown.shape[0] - rows, 0)))
            left = int(np.clip(self.shift[1], 0, max(shown.shape[1] - columns, 0)))
            self.corner = (top, left)
            shown = shown[top : top + rows, left : left + columns].repeat(zoom, axis=0).repeat(zoom, axis=1)
        self.drawn = shown.shape
        self.image = tkinter.PhotoImage(data=portable(shown), format="PPM")
        self.canvas.itemconfigure(self.picture, image=self.image)
        self.plot(low, high)

    def plot(self, low: float, high: float) -> None:
        """Draws the histogram, with the window marked, and the bits a sample over the frames, with this one marked."""
        self.plots.delete("all")
        half = self.size[0] // 2 - 4
        most = self.window.most(self)
        counts = np.histogram(self.frame, bins=min(half, most + 1), range=(0, most + 1))[0]
        heights = np.sqrt(counts / max(counts.max(), 1)) * (PLOT - 4)
        for place, height in enumerate(heights):
            across = place * half // len(heights)
            self.plots.create_line(across, PLOT, across, PLOT - height, fill="#b0b0b0")
        for level in (low, high):
            across = level * half / max(most, 1)
            self.plots.create_line(across, 0, across, PLOT, fill="#f0c040")
        left = half + 8
        greatest = max(float(self.bits.max()), 1e-9)
        points = []
        for place, bits in enumerate(self.bits):
            points += [left + place * half / max(len(self.bits) - 1, 1), PLOT - 2 - bits / greatest * (PLOT - 14)]
        if len(points) > 2:
            self.plots.create_line(*points, fill="#5aaafa")
        across = left + self.number * half / max(len(self.bits) - 1, 1)
        self.plots.create_line(across, 0, across, PLOT, fill="#f06060")
        self.plots.create_text(left + 2, 7, anchor="w", fill="#e0e0e0", text=f"{greatest:.2f} bits")

    def place_of(self, event: tkinter.Event) -> Optional[tuple[int, int]]:
        """The row and column of the sample under the pointer."""
        if self.frame is None:
            return None
        down = event.y - (self.size[1] - self.drawn[0]) // 2
        across = event.x - (self.size[0] - self.drawn[1]) // 2
        row = down // self.factor * self.step + self.corner[0]
        column = across // self.factor * self.step + self.corner[1]
        inside = down >= 0 and across >= 0 and row < self.frame.shape[0] and column < self.frame.shape[1]
        return (row, column) if inside else None

    def point(self, event: tkinter.Event) -> None:
        """Says the sample under the pointer."""
        place = self.place_of(event)
        if place is not None:
            self.said.set(f"row {place[0]}, column {place[1]}: {self.frame[place]}")

    def hold(self, event: tkinter.Event) -> None:
        """Begins to move the picture."""
        self.held = (event.y, event.x)

    def drag(self, event: tkinter.Event) -> None:
        """Moves the picture where it is larger than its field."""
        if self.held is not None and self.window.zoom is not None:
            self.shift[0] = self.corner[0] - (event.y - self.held[0]) // self.factor
            self.shift[1] = self.corner[1] - (event.x - self.held[1]) // self.factor
            self.held = (event.y, event.x)
            self.draw()


class Window:
    """All panes, and what they share: the frame's number, window and level, zoom, and whether they play."""

    def __init__(self, root: tkinter.Tk, paths: Sequence[str], rate: float) -> None:
        self.root = root
        self.zoom: Optional[int] = None
        self.playing = False
        self.low, self.high = tkinter.DoubleVar(value=0), tkinter.DoubleVar(value=1)
        columns = next(side for side in (1, 2, 3, 4) if side * side >= len(paths))
        lines = -(-len(paths) // columns)
        size = (
            max(min((root.winfo_screenwidth() - 60) // columns - 8, 640), 160),
            max(min((root.winfo_screenheight() - 180) // lines - PLOT - 52, 640), 120),
        )
        field = ttk.Frame(root)
        field.pack(fill="both", expand=True)
        self.panes = [Pane(field, path, divmod(place, columns), size, self) for place, path in enumerate(paths)]
        self.frames = max(max(len(pane.recording) for pane in self.panes), 1)
        below = ttk.Frame(root, padding=4)
        below.pack(fill="x")
        self.number = tkinter.IntVar()
        ttk.Scale(below, from_=0, to=max(self.frames - 1, 1), variable=self.number, command=self.slid).grid(
            row=0, column=0, columnspan=6, sticky="ew"
        )
        below.columnconfigure(1, weight=1)
        below.columnconfigure(3, weight=1)
        for place, (name, level) in enumerate((("low", self.low), ("high", self.high))):
            ttk.Label(below, text=name).grid(row=1, column=2 * place)
            ttk.Scale(below, from_=0, to=1, variable=level, command=lambda _: self.redraw()).grid(
                row=1, column=2 * place + 1, sticky="ew"
            )
        ttk.Label(below, text="frames a second").grid(row=1, column=4)
        self.rate = tkinter.StringVar(value=f"{rate:g}")
        ttk.Entry(below, textvariable=self.rate, width=6).grid(row=1, column=5)
        ttk.Label(below, text=KEYS).grid(row=2, column=0, columnspan=6, sticky="w")
        for keys, action in (
            ("<Left>", lambda _: self.go(self.number.get() - 1)),
            ("<Right>", lambda _: self.go(self.number.get() + 1)),
            ("<Home>", lambda _: self.go(0)),
            ("<End>", lambda _: self.go(self.frames - 1)),
            ("<space>", lambda _: self.play_or_stop()),
            ("<plus>", lambda _: self.zoom_by(1)),
            ("<minus>", lambda _: self.zoom_by(-1)),
            ("f", lambda _: self.fit()),
            ("a", lambda _: self.by_samples()),
            ("r", lambda _: self.whole_range()),
        ):
            root.bind(keys, action)
        self.go(0)

    def most(self, pane: Pane) -> int:
        """The greatest sample that a pane's frame may have."""
        return pane.maxval

    def range_of(self, pane: Pane) -> tuple[float, float]:
        """Which samples are black and which white in a pane."""
        most = self.most(pane)
        return self.low.get() * most, max(self.high.get() * most, self.low.get() * most + 1)

    def go(self, number: int) -> None:
        """Goes to a frame."""
        self.number.set(min(max(number, 0), self.frames - 1))
        for pane in self.panes:
            pane.show(self.number.get())

    def slid(self, value: str) -> None:
        """Goes where the slider is."""
        self.go(round(float(value)))

    def redraw(self) -> None:
        """Draws all panes anew."""
        for pane in self.panes:
            pane.draw()

    def zoom_by(self, steps: int) -> None:
        """Makes pixels larger or smaller: from 1 to 16 dots a side."""
        self.zoom = min(max((self.zoom or 0) + steps, 1), 16)
        self.redraw()

    def fit(self) -> None:
        """Fits each picture into its field."""
        self.zoom = None
        self.redraw()

    def by_samples(self) -> None:
        """Sets the window to the least and the greatest sample that are shown."""
        ranges = [
            (float(pane.frame.min()) / self.most(pane), float(pane.frame.max()) / self.most(pane))
            for pane in self.panes
            if pane.frame is not None
        ]
        if ranges:
            self.low.set(min(low for low, _ in ranges))
            self.high.set(max(high for _, high in ranges))
            self.redraw()

    def whole_range(self) -> None:
        """Sets the window to all samples from 0 to maxval."""
        self.low.set(0)
        self.high.set(1)
        self.redraw()

    def play_or_stop(self) -> None:
        """Begins to play, from the start if it is at the end; or stops."""
        self.playing = not self.playing
        if self.playing:
            if self.number.get() >= self.frames - 1:
                self.go(0)
            self.due = time.monotonic()
            self.tick()

    def tick(self) -> None:
        """Shows the next frame when it is due."""
        if not self.playing:
            return
        if self.number.get() >= self.frames - 1:
            self.playing = False
            return
        self.go(self.number.get() + 1)
        try:
            rate = min(max(float(self.rate.get()), 0.1), 1000)
        except ValueError:
            rate = 10.0
        self.due += 1 / rate
        wait = max(self.due - time.monotonic(), 0)
        if wait == 0:
            self.due = time.monotonic()
        self.root.after(max(int(1000 * wait), 1), self.tick)


def show(paths: Sequence[str], rate: float) -> None:
    """Opens the window on recordings and returns when it is closed.

    paths: the recordings, one or more. rate: frames a second when they play.

    Raises OSError if a recording can't be opened, or if there is no display.
    """
    for path in paths:
        Recording(path).close()
    try:
        root = tkinter.Tk()
    except tkinter.TclError as error:
        raise OSError(0, str(error)) from error
    root.title("jlsrec")
    Window(root, paths, rate)
    root.mainloop()
