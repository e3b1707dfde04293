"""Terminals under test: what a sequence has to be able to do with a terminal, and the terminals that there are.

A terminal of one's own is a class with the methods of UnderTest; it is given a player in the place of a card. docs/HANDSET.md has them in a
table."""
import contextlib
import math
import os
import signal
import threading
import traceback

from . import decode, grammar, process, sending
from .handset import DETAILS, DEVICES, Terminal, details_of, objects_of
from .sequence import MORE_ACTS


class Unable(Exception):
    """The terminal has no way to have this happen."""


class Unsupported(Exception):
    """A sequence can't be played to this terminal."""


class Lost(Exception):
    """The terminal can't be had, or is there no more."""


class NotBack(BaseException):
    """A method of a terminal did not come back in time. No `except Exception` of the terminal's own takes it."""


# what doesn't end at the end of its time is told so again
AGAIN_SECONDS = 1
LIBRARY = os.path.dirname(os.__file__)
INSTALLED = ("site-packages", "dist-packages")


def _ring(_number, _frame):
    raise NotBack


@contextlib.contextmanager
def limited(seconds):
    """Raises NotBack in what isn't done after so many seconds. In another thread than the main one there is no limit."""
    if threading.current_thread() is not threading.main_thread():
        yield
        return
    before = signal.signal(signal.SIGALRM, _ring)
    signal.setitimer(signal.ITIMER_REAL, seconds, AGAIN_SECONDS)
    try:
        yield
    finally:
        signal.setitimer(signal.ITIMER_REAL, 0)
        signal.signal(signal.SIGALRM, before)


def is_ones_own(path):
    """Whether a file is neither of this package and its tools nor of Python's library, and a file at all: code that Python makes has none."""
    if path.startswith("<"):
        return False
    folder = os.path.dirname(os.path.realpath(path))
    ours = [os.path.realpath(place) for place in (process.PACKAGE, os.path.join(process.TOP, "tools"))]
    return folder not in ours and not (folder.startswith(LIBRARY) and not any(part in folder for part in INSTALLED))


def shown(path):
    """A path, from the folder on in which this runs, where it lies below that."""
    short = os.path.relpath(path)
    return path if short.startswith(os.pardir) else short


def place_of(fault, method=None):
    """Where in one's own files something was raised, as FILE:LINE; where it was in none, the place of the method that was called, and None
    where there is none."""
    found = [frame for frame in traceback.extract_tb(fault.__traceback__) if is_ones_own(frame.filename)]
    if found:
        return f"{shown(found[-1].filename)}:{found[-1].lineno}"
    code = getattr(method, "__code__", None)
    return f"{shown(code.co_filename)}:{code.co_firstlineno}" if code and is_ones_own(code.co_filename) else None


def told(fault, method=None):
    """An exception in words, and where it was raised."""
    place = place_of(fault, method)
    return f"{type(fault).__name__}: {fault}".removesuffix(": ") + (f", at {place}" if place else "")


def wrong_value(terminal):
    """Which value of a terminal, or of its class, isn't as it has to be, in words; nothing where all are."""
    if not isinstance(terminal.name, str) or not terminal.name.isprintable():
        return f"`name` is one line of text, and not {terminal.name!r}"
    for name in ("seconds", "longest"):
        value = getattr(terminal, name)
        if isinstance(value, bool) or not isinstance(value, (int, float)) or not 0 <= value < math.inf:
            return f"`{name}` is a number of seconds from 0 on, and not {value!r}"
    return ""


class UnderTest:
    """A terminal. `name` stands in reports. `seconds` is how long it may take for anything; at one that is done when its methods come
    back it is 0. A method that has not come back after so long, or after 10 seconds where it is 0, has hung; `longest` is for methods that
    need more. `has_person`: its user is a person, who may do nothing. `is_seen`: it tells by `player.note` what it shows."""
    name = "a terminal"
    seconds = 10
    longest = 0
    has_person = False
    is_seen = True

    def accept(self, sequence):
        """Looks at a sequence before it begins. Unsupported, where it can't be played to this terminal."""

    def begin(self, player):
        """Is switched on, over the card that the player stands before: it selects files and tells its profile."""
        raise NotImplementedError("the class has no method `begin`")

    def prepare(self, commands, said):
        """Is told what commands come next, and what its user will do at them; for terminals whose user has to know beforehand."""

    def poll(self):
        """Has it send something that the card may announce a command after, STATUS say."""
        raise NotImplementedError("the class has no method `poll`")

    def happen(self, said):
        """Has something happen at it: `said.word` is `user`, `net` or `time`, and `said.act` and `said.value` are what a line of a script says
        after that. Unable, where it can't."""
        raise NotImplementedError("the class has no method `happen`")

    def missing(self):
        """Why nobody is at this terminal, where its user has to bring it first; None where one is."""

    def must_show(self, note):
        """Is told what it must show now; for terminals whose user is a person who looks."""

    def look(self):
        """Tells the player what was shown since it looked last; for terminals that don't tell it by themselves."""

    def end(self):
        """A sequence is over."""

    def close(self):
        """All sequences are over."""


class InPython(UnderTest):
    """A handset in Python, or one that a test derived from it."""
    name = "the handset in Python"
    seconds = 0
    # also where the `__init__` of a class derived from it doesn't call this one
    make, terminal = staticmethod(Terminal), None

    def __init__(self, make=Terminal):
        self.make, self.terminal = make, None

    def begin(self, player):
        self.terminal = self.make(player)
        self.terminal.start()

    def poll(self):
        self.terminal.poll()

    def happen(self, said):
        try:
            self.terminal.happen(said)
        except grammar.Wrong:
            raise Unable(f"its user can't `{said.act}`") from None


def objects_text(raw):
    """What a command says beside its type, in words: its qualifier and its objects."""
    found = [decode.object_text(tag, value, False) for tag, _, value in objects_of(raw) or () if tag not in (DETAILS, DEVICES)]
    return ", ".join([f"with the qualifier {details_of(raw)[2]:02X}", *found])


# what a person at a terminal is told to do
INSTRUCTIONS = {
    "ok": "say yes, or that it was seen, or take what stands there", "back": "go back", "end": "end the session", "none": "do nothing",
    "press": "press a key", "idle": "go to the idle screen", "help": "ask for help",
    "refuse": "refuse it"}


def instruction(said):
    """What a person at a terminal is told to do."""
    if said.word != "user":
        return f"please have this happen at the terminal: {line_of(said)}"
    if said.act in INSTRUCTIONS:
        return f"please {INSTRUCTIONS[said.act]}"
    words = {"type": f"type `{said.value}`", "pick": f"pick the item {said.value}", "dial": f"call {said.value}"}
    return f"please {words[said.act]}"


def line_of(said):
    """What happens at a handset as a line of its script."""
    value = said.value.hex().upper() if isinstance(said.value, bytes) else said.value
    return " ".join(str(word) for word in (said.word, said.act or None, value) if word is not None)


class OfPhone(UnderTest):
    """The proved handset, `uicc_run phone`. Its card is its own, so the commands are those that applets of that card send: it is played anew up
    to each line of its script."""
    name = "the handset of phone"
    seconds = 0

    def __init__(self):
        self.section, self.lines, self.trace, self.wanted, self.player = [], [], [], (), None

    def accept(self, sequence):
        commands = [step.raw for step in sequence.commands()]
        self.section = sending.rows_for(commands)
        if self.section is None:
            raise Unsupported(("no applet sends this command as it stands here: " if len(commands) == 1 else
                               "no applet sends these commands as they stand here, one after the other: ")
                              + ", ".join(f"{decode.title_proactive(raw)} {objects_text(raw)}" for raw in commands)
                              + "; docs/SEQUENCES.md has those that one does, under `phone`")
        self.wanted = {sending.body(raw) for raw in commands}

    def begin(self, player):
        self.player, self.lines, self.trace = player, [], []
        self._go_on()

    def poll(self):
        self._say("net poll")

    def happen(self, said):
        if said.act in MORE_ACTS:
            raise Unable(f"its user can't `{said.act}`")
        self._say(line_of(said))

    def _say(self, line):
        self.lines.append(line)
        self._go_on()

    def _go_on(self):
        shown, status, said = process.played(["phone"], "".join(line + "\n" for line in (*self.section, "start", *self.lines)))
        if status:
            raise process.Ended(shown[-1] if shown else "", status, said)
        self.player.overhear(shown[len(self.trace):], lambda raw: sending.body(raw) in self.wanted)
        self.trace = shown
