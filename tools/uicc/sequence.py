"""Sequences: what a card sends and what a terminal must do, step by step (docs/SEQUENCES.md has the form).

A file has sequences, each a line `sequence NAME` and the lines of its steps. `read` reads a file, and tells its bad lines."""
import dataclasses
import itertools
import re

from . import decode, grammar, names, tlv
from .handset import details_of, objects_of
from .wording import Object, UnknownWord, Words, Wrong, device, label_of, read_object, unknown

CARD, TERMINAL = 0x81, 0x82
DETAILS, DEVICE_IDENTITIES, RESULT = 0x01, 0x02, 0x03
LONGEST_COMMAND = 256
LONGEST_WAIT = 999
COMMANDS = {name: int(code, 16) for code, name in names.table("toolkit")["commands"].items()}
# envelopes by their words: the template, and the device that they are from
ENVELOPES = {"menu selection": (0xD3, 0x01), "call control": (0xD4, TERMINAL), "event": (0xD6, TERMINAL),
             "timer expiration": (0xD7, TERMINAL)}
# the device that a command is for, where that isn't the terminal
NETWORK, FIRST_READER, FIRST_CHANNEL = 0x83, 0x11, 0x21
DESTINATIONS = {
    "PLAY TONE": 0x03, "DISPLAY TEXT": 0x02,
    **dict.fromkeys(("SET UP CALL", "SEND SS", "SEND USSD", "SEND SHORT MESSAGE", "SEND DTMF", "RETRIEVE MULTIMEDIA MESSAGE",
                     "SUBMIT MULTIMEDIA MESSAGE"), NETWORK),
    **dict.fromkeys(("PERFORM CARD APDU", "POWER ON CARD", "POWER OFF CARD"), FIRST_READER),
    **dict.fromkeys(("CLOSE CHANNEL", "RECEIVE DATA", "SEND DATA"), FIRST_CHANNEL)}
INKEY, INPUT, EVENT_LIST = (COMMANDS[name] for name in ("GET INKEY", "GET INPUT", "SET UP EVENT LIST"))
YES_OR_NO, UCS2_ENTRY = 0x04, 0x03
EVENTS = 0x19
# where an object says that its letters are UCS2: for its tag the place, and the bytes that may stand there
UCS2_IN = {0x0D: (0, b"\x08"), 0x17: (0, b"\x08"), 0x05: (0, b"\x80\x81\x82"), 0x0F: (1, b"\x80\x81\x82")}
SECTION = re.compile(r"[0-9]+(\.[0-9]+)*")
BIT = re.compile(r"byte ([0-9]{1,3}) bit ([1-8])")
# what a terminal's profile says of a command whose bit has another name
OF_TIMERS = {0x00: "TIMER MANAGEMENT start and stop", 0x01: "TIMER MANAGEMENT start and stop", 0x02: "TIMER MANAGEMENT get"}
# two commands have one bit
OF_CONTAINERS = dict.fromkeys(("COMMAND CONTAINER", "ENCAPSULATED SESSION CONTROL"), "COMMAND CONTAINER and ENCAPSULATED SESSION CONTROL")
# commands with a bit for some of their qualifiers: `NAME: WHAT`
BY_QUALIFIER = {
    "PROVIDE LOCAL INFORMATION": {0x02: "network measurement results", 0x03: "date and time", 0x04: "language", 0x05: "timing advance",
                                  0x06: "access technology", 0x08: "IMEISV"},
    "GET READER STATUS": {0x01: "identifier"}}
# a response of any objects
ANY = "any"
# a command that the card has ready when the one before it is answered
THEN = "then"
UNANSWERED = "no `response` stands after this command: `response result 00`, say, or `response any` where every one will do"
# what a terminal notes of what it shows, and how that is written
NOTES = ("text", "ask", "default", "choose", "menu", "tone", "idle", "call", "barred", "busy")
SHOWN = "text T, ask T, default T, choose N, menu N, tone HH or idle T"
# what a user does at a terminal that may be another one than the handset
MORE_ACTS = ("help", "refuse")


@dataclasses.dataclass(frozen=True)
class Step:
    """A step, and the line that it is in."""
    line: int
    text: str


@dataclasses.dataclass(frozen=True)
class Give(Step):
    """The card gives a proactive command; `follows`: it is announced by the answer to the response before."""
    raw: bytes
    follows: bool = False

    @property
    def details(self):
        return details_of(self.raw)

    @property
    def has_details(self):
        return any(tag == DETAILS and len(value) == 3 for tag, _, value in objects_of(self.raw) or ())

    @property
    def name(self):
        return decode.details_name(self.details[1])

    @property
    def title(self):
        """Its name with its qualifier, where a terminal may take it for its qualifier's sake."""
        _, kind, qualifier = self.details
        meaning = names.qualifier(kind, qualifier)
        return self.name if not qualifier and not meaning else f"{self.name} with the qualifier {qualifier:02X}" + (f" ({meaning})" if meaning else "")


@dataclasses.dataclass(frozen=True)
class Shown(Step):
    """The terminal shows something, or asks for it."""
    note: str


@dataclasses.dataclass(frozen=True)
class Act(Step):
    """Something happens at the terminal."""
    said: object


@dataclasses.dataclass(frozen=True)
class Respond(Step):
    """The terminal must answer the command that was given last; `has_more`: other objects may stand in its response too. Where there are
    no objects any response will do."""
    objects: tuple
    has_more: bool
    seconds: float | None


@dataclasses.dataclass(frozen=True)
class Tell(Step):
    """The terminal must send an envelope."""
    tag: int
    objects: tuple
    has_more: bool
    seconds: float | None


@dataclasses.dataclass(frozen=True)
class Quiet(Step):
    """The terminal must send no envelope."""


@dataclasses.dataclass(frozen=True)
class Restart(Step):
    """The terminal must reset the card, and tell its profile again."""
    seconds: float | None


@dataclasses.dataclass(frozen=True)
class Poll(Step):
    """The terminal must send STATUS."""
    seconds: float | None


@dataclasses.dataclass
class Sequence:
    """A sequence. `section` is that of 3GPP TS 31.124 which is meant, `needs` what the terminal's profile must have."""
    name: str
    path: str
    line: int
    section: str = ""
    needs: list = dataclasses.field(default_factory=list)
    steps: list = dataclasses.field(default_factory=list)

    def commands(self):
        return [step for step in self.steps if isinstance(step, Give)]

    def unanswered(self):
        """The commands after which no response is asked for, and no reset."""
        for place, step in enumerate(self.steps):
            after = itertools.takewhile(lambda other: not isinstance(other, Give), self.steps[place + 1:])
            if isinstance(step, Give) and not any(isinstance(other, (Respond, Restart)) for other in after):
                yield step


class Orphan(Wrong):
    """Nothing stands above a line that it belongs to."""


@dataclasses.dataclass(frozen=True)
class BadLine:
    """A bad line of a file, and why it is bad; `is_of_words`: a word in it is none of those that there are."""
    path: str
    line: int
    text: str
    why: str
    is_of_words: bool = False

    def __str__(self):
        return f"{self.path}:{self.line}: {self.why}" + (f"\n    {self.text}" if self.text else "")


class BadSequence(Exception):
    """Lines of files are bad. `path`, `line` and `why` are of the first of them, `lines` are all."""

    def __init__(self, lines):
        super().__init__("\n".join(map(str, lines)))
        self.lines = lines
        self.path, self.line, self.why = lines[0].path, lines[0].line, lines[0].why


def known_profile():
    return set(names.table("toolkit")["profile"].values())


def has(profile, need):
    """Whether the bytes of a terminal's profile say that it has something: by its name, or as `byte 9 bit 6`."""
    place = BIT.fullmatch(need)
    if not place:
        return need in decode.profile(profile)
    byte, bit = map(int, place.groups())
    return 0 < byte <= len(profile) and bool(profile[byte - 1] >> bit - 1 & 1)


def needs_of(name, qualifier):
    """What a terminal's profile must have for a command with a qualifier; None where the profile tells nothing of it."""
    if name == "TIMER MANAGEMENT":
        return OF_TIMERS.get(qualifier)
    if qualifier in BY_QUALIFIER.get(name, ()):
        return f"{name}: {BY_QUALIFIER[name][qualifier]}"
    name = OF_CONTAINERS.get(name, name)
    return name if name in known_profile() else None


def is_ucs2(tag, value):
    """Whether the letters of an object are UCS2."""
    at, codings = UCS2_IN.get(tag, (0, b""))
    return len(value) > at and value[at] in codings


def needs_in(raw):
    """What a terminal's profile must have for what a command says: a yes or no, letters of UCS2 that are typed or shown, events."""
    _, kind, qualifier = details_of(raw)
    found = objects_of(raw) or ()
    if kind == INKEY and qualifier & YES_OR_NO:
        yield "GET INKEY: yes or no"
    if kind in (INKEY, INPUT) and qualifier & UCS2_ENTRY == UCS2_ENTRY:
        yield "UCS2 entry"
    if any(is_ucs2(tag, value) for tag, _, value in found):
        yield "UCS2 display"
    if kind == EVENT_LIST:
        told = [f"event {names.of_toolkit('events', code)}" for tag, _, value in found if tag == EVENTS for code in value]
        yield from (name for name in told if name in known_profile())


class Reader:
    """Reads a file line by line."""

    def __init__(self, path):
        self.path, self.sequences, self.seconds = path, [], None
        # the last line `within`, as long as no line is there that it is for
        self.waiting = None

    def sequence(self):
        if not self.sequences:
            raise Orphan("no line `sequence NAME` stands before this one")
        return self.sequences[-1]

    def take(self, number, text):
        word, _, rest = text.partition(" ")
        if word not in LINES:
            raise Wrong(f"no line begins with `{word}`: {', '.join(LINES)}")
        LINES[word](self, number, text, rest.strip())

    def add(self, step):
        self.sequence().steps.append(step)

    def waits(self):
        """The seconds of a line `within`, which are those of the next line alone."""
        seconds, self.seconds, self.waiting = self.seconds, None, None
        return seconds

    def ended(self):
        """A bad line `within`, where the sequence ends and no line came that it is for."""
        waiting, self.seconds, self.waiting = self.waiting, None, None
        return [BadLine(self.path, *waiting, "nothing stands below it that may take so long")] if waiting else []

    # lines

    def begin(self, number, _, rest):
        if not rest:
            raise Wrong("the name of the sequence is missing: sequence NAME")
        if any(other.name == rest for other in self.sequences):
            raise Wrong("a sequence of this name stands above")
        self.sequences.append(Sequence(rest, self.path, number))

    def section(self, _, __, rest):
        if not rest:
            raise Wrong("the section of 3GPP TS 31.124 is missing: section NUMBER")
        if not SECTION.fullmatch(rest):
            raise Wrong(f"a section of 3GPP TS 31.124 is numbers with points between them, as `27.22.4.1`, and not `{rest}`")
        self.sequence().section = rest

    def needs(self, _, __, rest):
        for name in (part.strip() for part in rest.split(",")):
            if name not in known_profile() and not BIT.fullmatch(name):
                raise UnknownWord(f"{unknown([name], 'name in a terminal profile', sorted(known_profile()))}; a bit is written "
                                  f"as `byte 9 bit 6`")
            self.sequence().needs.append(name)

    def command(self, number, text, rest):
        words = Words(rest)
        raw = words.hexadecimal("the bytes of a command") if words.take_if("bytes") else self.spelled(words)
        words.end()
        if not 1 <= len(raw) <= LONGEST_COMMAND:
            raise Wrong(f"a command has 1 to {LONGEST_COMMAND} bytes, and this one {len(raw)}")
        step = Give(number, text, raw, text.startswith(THEN))
        if step.follows and not self.sequence().commands():
            raise Orphan("no command stands before this one")
        for needed in (needs_of(step.name, step.details[2]), *needs_in(raw)):
            if needed and needed not in self.sequence().needs:
                self.sequence().needs.append(needed)
        self.add(step)

    def spelled(self, words):
        """A proactive command by its fields."""
        name = None
        kind = int(words.take(""), 16) if words and is_code(words.left[0]) else None
        if kind is None:
            kind = words.take_name(COMMANDS, "command")
        name = decode.details_name(kind)
        number, qualifier, source, destination = len(self.sequence().commands()) + 1, 0, CARD, DESTINATIONS.get(name, TERMINAL)
        without, found = set(), []
        while words:
            if words.take_if("number"):
                number = words.number("the number of a command", 0, 255)
            elif words.take_if("qualifier"):
                qualifier = words.byte("a qualifier")
            elif words.take_if("to"):
                destination = device(words)
            elif words.take_if("from"):
                source = device(words)
            elif words.take_if("without"):
                without.add(words.take_name({"details": DETAILS, "devices": DEVICE_IDENTITIES}, "part that a command may be without"))
            else:
                found.append(exact(read_object(words)))
        if sum(len(one.pattern) // 2 for one in found) > LONGEST_COMMAND:
            raise Wrong(f"a command has 1 to {LONGEST_COMMAND} bytes, and the objects of this one are longer")
        heads = [(DETAILS, bytes((number, kind, qualifier))), (DEVICE_IDENTITIES, bytes((source, destination)))]
        content = b"".join(tlv.written(tag, value) for tag, value in heads if tag not in without)
        return tlv.written(decode.PROACTIVE, content + b"".join(one.spelled() for one in found))

    def shown(self, number, text, rest):
        if not rest:
            raise Wrong(f"what is shown is missing: shown {SHOWN}")
        if rest.split()[0] not in NOTES:
            raise Wrong(f"no terminal shows `{rest.split()[0]}`: shown {SHOWN}")
        self.add(Shown(number, text, rest))

    def act(self, number, text, _):
        self.add(Act(number, text, act_in(text)))

    def respond(self, number, text, rest):
        words = Words(rest)
        takes_any = bool(words.take_if(ANY))
        objects, has_more = expected(words)
        if takes_any and objects:
            raise Wrong("after `response any` stands nothing: it takes every response")
        if not any(isinstance(step, Give) for step in self.sequence().steps):
            raise Orphan("no command stands before this response")
        if takes_any:
            self.add(Respond(number, text, (), True, self.waits()))
            return
        if not any(one.tag == RESULT for one in objects):
            raise Wrong("a response has a result: `response result 00`, say, or `response any`")
        given = self.sequence().commands()[-1]
        flag = flag_of(given.raw)
        heads = [Object(DETAILS, decode.hexed(given.details), flag), Object(DEVICE_IDENTITIES, f"{TERMINAL:02X}{CARD:02X}")]
        heads = [head for head in heads if all(head.tag != one.tag for one in objects)]
        self.add(Respond(number, text, (*heads, *objects), has_more, self.waits()))

    def tell(self, number, text, rest):
        words = Words(rest)
        tag, source = words.take_name(ENVELOPES, "envelope")
        if words.take_if("from"):
            source = device(words)
        objects, has_more = expected(words)
        self.add(Tell(number, text, tag, (Object(DEVICE_IDENTITIES, f"{source:02X}{CARD:02X}"), *objects), has_more, self.waits()))

    def no(self, number, text, rest):
        if rest != "envelope":
            raise Wrong("after `no` stands `envelope`")
        self.add(Quiet(number, text))

    def within(self, number, text, rest):
        words = Words(rest)
        self.sequence()
        self.seconds, self.waiting = words.number("N, in seconds,", 0, LONGEST_WAIT), (number, text)
        words.end()

    def restart(self, number, text, rest):
        Words(rest).end()
        self.add(Restart(number, text, self.waits()))

    def status(self, number, text, rest):
        Words(rest).end()
        self.add(Poll(number, text, self.waits()))


LINES = {
    "sequence": Reader.begin, "section": Reader.section, "needs": Reader.needs, "command": Reader.command, THEN: Reader.command,
    "shown": Reader.shown,
    "user": Reader.act, "net": Reader.act, "time": Reader.act, "response": Reader.respond, "envelope": Reader.tell, "no": Reader.no,
    "within": Reader.within, "restart": Reader.restart, "status": Reader.status}


def is_code(word):
    return len(word) == 2 and all(digit in "0123456789ABCDEFabcdef" for digit in word)


def exact(one):
    if not one.is_exact or one.optional:
        raise Wrong(f"a command is given as it is: {label_of(one.tag)} has no `?`, `*`, `|` or `optional` in it")
    return one


def expected(words):
    """The objects that must come, and whether others may."""
    objects, has_more = [], False
    while words:
        if words.take_if("more"):
            has_more = True
        else:
            objects.append(read_object(words))
    return tuple(objects), has_more


def flag_of(raw):
    """The flag of a command's details, which a response has to repeat; it is set where there are none."""
    try:
        return next(flag for tag, flag, _ in tlv.objects(tlv.template(raw)[1]) if tag == DETAILS)
    except (StopIteration, tlv.BadTlv):
        return True


def act_in(text):
    """What happens at a terminal, as a line of a handset's script says it."""
    for act in MORE_ACTS:
        if text == f"user {act}":
            return grammar.Handset("user", act)
    try:
        # no space stands at the end of a line here, so nothing is typed by `user type`
        said = grammar.read_line("user type " if text == "user type" else text)
    except grammar.Wrong as fault:
        raise Wrong(str(fault) + (f"; and in a sequence {' and '.join(MORE_ACTS)}" if text.startswith("user ") else "")) from None
    if not isinstance(said, grammar.Handset):
        raise Wrong("this is for `bip`, and not for a terminal over a card")
    return said


def forgotten(sequences):
    """The lines of commands after which no response is asked for, as bad ones: whatever a terminal did there would pass."""
    return [BadLine(one.path, step.line, step.text, UNANSWERED) for one in sequences for step in one.unanswered()]


def read(text, path):
    """The sequences in the text of a file. BadSequence, with all its bad lines."""
    reader, bad = Reader(path), []
    for number, line in enumerate(text.splitlines(), 1):
        line = line.strip()
        if not line or line.startswith("#"):
            continue
        if line.split()[0] == "sequence":
            bad += reader.ended()
        try:
            reader.take(number, line)
        except Wrong as fault:
            # what a line belongs to may be a bad line above
            if isinstance(fault, Orphan) and bad:
                continue
            bad.append(BadLine(path, number, line, str(fault), isinstance(fault, UnknownWord)))
    bad += reader.ended()
    if not bad:
        bad += [BadLine(path, one.line, f"sequence {one.name}", "the sequence has no step") for one in reader.sequences if not one.steps]
    if not bad and not reader.sequences:
        bad.append(BadLine(path, 1, text.splitlines()[0] if text.splitlines() else "", "the file has no line `sequence NAME`"))
    if bad:
        raise BadSequence(bad)
    return reader.sequences
