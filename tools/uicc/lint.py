"""What is wrong with the lines of a script. The first bad line is the one that the program names, for the same cause."""
import dataclasses
import re

from . import access, decode, layout, process
from .grammar import OF_CARD, OF_TERMINAL, Apdu, Handset, Start, Tpdu, Wrong, read_line

MOST_BYTES = 16_777_216
# the words of the command line for which a script may be
MODES = ("play", "phone", "open", "bip")
BAD, NO_ROOM, WARNING = "bad", "no room", "warning"
STATUSES = {BAD: 2, NO_ROOM: 8}
# the version of the language of scripts, and the comment in which the first line of a script may say of which one it is
LANGUAGE = 1
OF_LANGUAGE = re.compile(r"#\s*uicc_run script (\d+)\s*")


class BadScript(Exception):
    """A line of a script is bad."""


@dataclasses.dataclass(frozen=True)
class Finding:
    line: int
    kind: str
    reason: str


@dataclasses.dataclass
class Script:
    """What was made of a script: the card that the lines before `start` describe, the lines after it with their numbers, what
    is wrong, and the lines as they stand; and the bytes of the image that it is to go on with, None where it describes its card."""
    card: layout.Card
    steps: list
    findings: list
    lines: list
    image: bytes | None = None

    def first(self):
        """The first line that is bad or has no room, as the program would end at it; None where there is none."""
        return next((finding for finding in self.findings if finding.kind in STATUSES), None)


def split(text):
    """The lines of a text, each with the bytes that it takes up; the text has one letter a byte."""
    pieces = text.split("\n")
    for place, piece in enumerate(pieces):
        if place < len(pieces) - 1:
            yield piece.removesuffix("\r"), len(piece) + 1
        elif piece:
            yield piece, len(piece)


def of_another(said, mode):
    """Why a line is for another mode, wherever it stands; None where it is for this one."""
    if mode == "bip":
        if isinstance(said, (Start, *OF_TERMINAL)):
            return None
        return "`bip` is over no card and no handset: after `start` stand `cmd HEX`, `net echo C N` and `net drop C` alone"
    if isinstance(said, OF_TERMINAL):
        return "this line is for `bip`, a terminal over no card"
    if mode == "open" and isinstance(said, OF_CARD):
        return "`open` takes the card from the memory: no line before `start` describes one"
    return None


def may_follow(said, mode):
    """Why a line may not stand after `start`; None where it may."""
    if isinstance(said, Start):
        return "`start` stands once"
    if mode != "bip" and isinstance(said, OF_CARD):
        return "this line describes the card, and stands before `start`"
    if mode == "phone" and isinstance(said, (Apdu, Tpdu)):
        word = "apdu" if isinstance(said, Apdu) else "tpdu"
        return f"a handset sends all commands itself: `{word}` is for `play` and `open`"
    if mode in ("play", "open") and isinstance(said, Handset):
        return "this line is for a handset, `phone`, and not for `play` or `open`"
    return of_another(said, mode)


def may_stand_before(said, mode):
    return of_another(said, mode) or (None if isinstance(said, (Start, *OF_CARD)) else "no `start` stands before this line")


class Reading:
    """A script, read line by line."""

    def __init__(self, mode):
        self.mode = mode
        self.card, self.steps, self.findings, self.lines = layout.Card(), [], [], []
        self.started, self.room = False, MOST_BYTES
        # the only `start` so far is bad: lines after it are read as after a good one, and are not to blame for it
        self.presumed = False
        # paths of files whose own lines are bad: lines that speak of them are not to blame for it
        self.doubtful = set()

    def take(self, line, size):
        self.lines.append(line)
        number = len(self.lines)
        if size > self.room:
            self.findings.append(Finding(number, BAD, f"a script has at most {MOST_BYTES:,} bytes: this line ends after them"))
            return False
        self.room -= size
        try:
            said = read_line(line)
            if said is not None:
                self._put(said, number)
        except layout.NoRoom as fault:
            self._find(number, NO_ROOM, fault, said)
        except Wrong as fault:
            self._find(number, BAD, fault, None)
        return True

    def _put(self, said, number):
        if self.presumed and isinstance(said, Start):
            self.presumed = False
        elif self.started:
            why = may_follow(said, self.mode)
            if why is None:
                self.steps.append((number, said))
            else:
                raise Wrong(why)
        else:
            why = may_stand_before(said, self.mode)
            if why:
                raise Wrong(why)
            self._describe(said, number)

    def _describe(self, said, number):
        if isinstance(said, Start):
            self.started = True
            return
        try:
            self.card.add(said, number)
        except Wrong as fault:
            path = getattr(said, "path", ())
            missing = "isn't there" in str(fault)
            spoilt = missing and any(path[:depth] in self.doubtful for depth in range(1, len(path) + 1))
            if path not in self.card.files:
                self.doubtful.add(path)
            if not spoilt:
                raise

    def _find(self, number, kind, fault, said):
        if said is None and kind == BAD:
            self._doubt(self.lines[number - 1])
            if not self.started and self.lines[number - 1].lower().split()[:1] == ["start"]:
                self.started = self.presumed = True
        self.findings.append(Finding(number, kind, str(fault)))

    def _doubt(self, line):
        """A file whose line is in no form is doubtful too, where its path can be read."""
        words = line.split()
        if len(words) > 1 and words[0] in ("df", "ef") and len(words[1]) % 4 == 0:
            path = tuple(words[1][n:n + 4].upper() for n in range(0, len(words[1]), 4))
            if path not in self.card.files:
                self.doubtful.add(path)

    def end(self):
        if not self.started and not any(finding.reason.startswith("a script has at most") for finding in self.findings):
            self.findings.append(Finding(len(self.lines) + 1, BAD, "the script ends, and no line `start` stands in it"))
        self.findings += self._warnings()
        self.findings.sort(key=lambda finding: finding.line)

    def _warnings(self):
        said = OF_LANGUAGE.fullmatch(self.lines[0]) if self.lines else None
        if said and int(said[1]) != LANGUAGE:
            yield Finding(1, WARNING, f"it is of version {said[1]} of the language of scripts, and this is version {LANGUAGE}: lines may mean "
                                      "something else")
        for file in self.card.files.values():
            if file.rule:
                why = self.card.about_rule(file)
                if why:
                    yield Finding(file.line, WARNING, f"RULE {file.rule[0]}:{file.rule[1]} allows nothing: {why}")
        for files, rule, why in access.pointless(self.card):
            yield Finding(files[0].line, WARNING, f"RULE {rule[0]}:{rule[1]}, {why}{access.others(files)}")
        for number, said in self.steps:
            fault = decode.Apdu(said.command).fault if isinstance(said, Apdu) else None
            if fault:
                yield Finding(number, WARNING, f"these bytes are no command, which the card answers 6700: {fault}")


def read(text, mode="play"):
    """Reads the text of a script for a mode, which has one letter a byte (`process.ENCODING`)."""
    reading = Reading(mode)
    for line, size in split(text):
        if not reading.take(line, size):
            break
    reading.end()
    return Script(reading.card, reading.steps, reading.findings, reading.lines)




def described(path):
    """The script in a file, for who wants the card alone that it describes: BadScript, where one of the lines up to `start` is bad."""
    with open(path, encoding=process.ENCODING, newline="\n") as text:
        return described_in(text.read(), path)


def described_in(text, name):
    """The same of a script's text, which is called so."""
    script = read(text)
    bad = script.first()
    if bad and bad.line <= len(process.card_section(script.lines)[0]):
        raise BadScript(f"{name}, line {bad.line}: {bad.reason}")
    return script


def card_section(path):
    """The lines of a script in a file before its `start`."""
    return process.card_section(described(path).lines)[0]
