"""A trace by its parts, and which line of the script each belongs to."""
import dataclasses
import re

from . import dump, process
from .grammar import Apdu, Plan, Reset, Tpdu

EVENT = "* event "
# before a line of a trace that says when it was shown, in seconds since 1970: `@ 1764497000.123456`
TIME = "@ "
# lines that show no command: what happened, the last one of a run (docs/SCRIPT.md), and what the launcher says on standard error
OTHERS = re.compile(r"[!*] .*|line \d+|usage|read failed|no memory|eeprom failed|not a card \d+|no applet \d+|uicc_run: .*|")
MOST_SHOWN = 60


@dataclasses.dataclass
class Exchange:
    """A command and what came of it: an answer, or `! cut` and `! off`; None where the trace ends before."""
    command: bytes
    answer: bytes | None
    mark: str | None = None

    @property
    def status(self):
        return self.answer[-2:].hex().upper() if self.answer is not None else self.mark or ""

    @property
    def lines(self):
        return 1 if self.answer is None and self.mark is None else 2


@dataclasses.dataclass
class Mark:
    """Any other line: a reset, a note of the handset, the end of a run."""
    text: str
    lines = 1


class NoTrace(Exception):
    pass


def time_of(line):
    """The microseconds that a line of a time says; None where it is none."""
    found = re.fullmatch(TIME + r"([0-9]+)\.([0-9]{6})", line)
    return int(found.group(1)) * 1_000_000 + int(found.group(2)) if found else None


def timed(micros):
    """The line that says such a time."""
    return f"{TIME}{micros // 1_000_000}.{micros % 1_000_000:06}"


def shown_bytes(number, line):
    try:
        return bytes.fromhex(line[2:])
    except ValueError:
        raise no_line(number, line) from None


def no_line(number, line):
    return NoTrace(f"line {number} is no line of a trace: {dump.printable(line[:MOST_SHOWN])}{' ..' if len(line) > MOST_SHOWN else ''}")


def parts(lines, is_strict=False):
    """The parts of a trace, in order, each as soon as its lines were read. NoTrace, where a line is none; also of lines that show no
    command, if it `is_strict`."""
    command = None
    for number, line in enumerate(lines, 1):
        if time_of(line) is not None:
            continue
        if command is not None and not line.startswith("< ") and line not in (process.CUT, process.OFF):
            yield Exchange(command, None)
            command = None
        if line.startswith("> "):
            command = shown_bytes(number, line)
        elif line.startswith("< "):
            if command is None:
                raise NoTrace(f"line {number} answers no command: {line}")
            yield Exchange(command, shown_bytes(number, line))
            command = None
        elif command is not None:
            yield Exchange(command, None, line)
            command = None
        elif not is_strict or OTHERS.fullmatch(line):
            yield Mark(line)
        else:
            raise no_line(number, line)
    if command is not None:
        yield Exchange(command, None)


def lines_shown(said):
    """How many lines of a trace a line of a script for the card shows."""
    return {Apdu: 2, Tpdu: 2, Reset: 1, Plan: 0}[type(said)]


def places(script):
    """For each line of the trace of `play`, the number of the script's line that shows it."""
    return [number for number, said in script.steps for _ in range(lines_shown(said))]


def places_played(script, words, trace):
    """The same of `phone` and `bip`: the script is played up to each of its lines, and shows the more, the further it goes. None
    where it doesn't show this trace."""
    found, before = [], 0
    ends = [start_of(script)] + [number for number, _ in script.steps]
    for number in ends:
        shown, _, _ = process.played(words, "".join(line + "\n" for line in script.lines[:number]))
        if shown != trace[:len(shown)]:
            return None
        found += [number] * (len(shown) - before)
        before = len(shown)
    return found


def event_in(mark):
    """The bytes of the envelope that a terminal tells its card; None where the line is another one."""
    if not mark.text.startswith(EVENT):
        return None
    try:
        return bytes.fromhex(mark.text[len(EVENT):])
    except ValueError:
        return None


def start_of(script):
    return script.lines.index("start") + 1
