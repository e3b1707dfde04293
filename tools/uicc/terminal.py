"""Colours and a bar of progress on a terminal; in a pipe neither."""
import os
import sys
import threading
import time

COLOURS = {"bold": "1", "dim": "2", "red": "31", "green": "32", "yellow": "33", "blue": "34", "magenta": "35", "cyan": "36"}


def has_colours(stream):
    return stream.isatty() and "NO_COLOR" not in os.environ and os.environ.get("TERM") != "dumb"


class Painter:
    def __init__(self, stream=None):
        self.on = has_colours(stream or sys.stdout)

    def __call__(self, colour, text):
        return f"\x1b[{COLOURS[colour]}m{text}\x1b[0m" if self.on and text else text


def plain():
    """A painter that leaves all as it is."""
    painter = Painter()
    painter.on = False
    return painter


# the words with which a tool was called, where it is a word of the command `uicc`
CALLED = None


def called():
    """How a tool was called, for its page of help: as `tools/lint`, or as `uicc lint`."""
    folder, name = os.path.split(sys.argv[0])
    return CALLED or (f"tools/{name}" if os.path.basename(folder) == "tools" else name)


# the status of a tool whose output nobody reads on
NOT_READ_ON = 2


def open_missing():
    """Opens the standard files that a tool was started without, as by `>&-`: what it writes there goes nowhere, and it reads nothing there."""
    for number, name, flags, mode in ((0, "stdin", os.O_RDONLY, "r"), (1, "stdout", os.O_WRONLY, "w"), (2, "stderr", os.O_WRONLY, "w")):
        if getattr(sys, name) is None:
            nowhere = os.open(os.devnull, flags)
            if nowhere != number:
                os.dup2(nowhere, number)
                os.close(nowhere)
            setattr(sys, name, open(number, mode, encoding="utf-8", closefd=False))


def ended(main):
    """Runs a tool, and answers its status. Where nobody reads on what it writes, or it is interrupted, it ends with no more words."""
    open_missing()
    try:
        try:
            status = main()
        except SystemExit as end:
            # its words were wrong, or asked for its page of help
            status = end.code
        sys.stdout.flush()
        return status
    except BrokenPipeError:
        # nothing more is to be written at the end either
        os.dup2(os.open(os.devnull, os.O_WRONLY), sys.stdout.fileno())
        return NOT_READ_ON
    except KeyboardInterrupt:
        return 130


class Progress:
    """A line on standard error that says how much of a work is done. Where that is no terminal there is none, or a new one each so many
    seconds (`each`)."""

    WIDTH = 30

    def __init__(self, total, what, each=None):
        self.total, self.what, self.done, self.each = total, what, 0, each
        self.on, self.last, self.began = sys.stderr.isatty(), 0.0, time.monotonic()
        self.told = self.began
        self.lock = threading.Lock()
        self._show()

    def step(self, count=1):
        """Counts what is done; several threads may."""
        with self.lock:
            self.done += count
            if not self.on and self.each and time.monotonic() - self.told >= self.each and self.done < self.total:
                self.told = time.monotonic()
                print(f"  {self.done} of {self.total} {self.what}{self._left()}", file=sys.stderr, flush=True)
            if time.monotonic() - self.last > 0.1 or self.done >= self.total:
                self._show()

    def _show(self):
        if not self.on:
            return
        self.last = time.monotonic()
        filled = self.WIDTH * self.done // max(1, self.total)
        bar = "#" * filled + "." * (self.WIDTH - filled)
        print(f"\r[{bar}] {self.done} of {self.total} {self.what}{self._left()}\x1b[K", end="", file=sys.stderr, flush=True)

    def _left(self):
        """How long the rest takes, if it goes on as it went."""
        seconds = time.monotonic() - self.began
        if not 0 < self.done < self.total or seconds < 2:
            return ""
        return f", some {round(seconds / self.done * (self.total - self.done))} s left"

    def end(self):
        if self.on:
            print("\r\x1b[K", end="", file=sys.stderr, flush=True)
