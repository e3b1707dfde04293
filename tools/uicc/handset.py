"""The simulator's handset over a card in Python, for tests of applets that choose what their terminal can do and what it answers.

    from uicc import Card, Terminal

    with Card("examples/menu.script") as card:
        terminal = Terminal(card)
        terminal.start()
        terminal.ok()
        terminal.pick(2)
        print(card.trace)

Its rules are those of `uicc_run phone`: over the same card, the same lines show the same trace, and so do the notes in it. The card may
be any object with the methods `transmit` and `reset` and the list `trace` of a `Card`."""
import dataclasses
import difflib
import re

from . import decode, names, tlv
from .card import PROFILE, CardError, PowerLost, as_answer, as_bytes, expect_number
from .grammar import Handset, Plan, Reset, Wrong, read_line

SELECT_MF = bytes.fromhex("00A4000C023F00")
STATUS = bytes.fromhex("80F2000C")
MEMORY_PROBLEM, BUSY_TOOLKIT = "6581", "9300"
# the most commands that are sent for one line
MOST_COMMANDS = 65_535
MOST_DIGITS, LONGEST_PLACE, MOST_SECONDS = 20, 32, 999_999_999
MOST_ITEMS, LONGEST_TITLE = 16, 10
MOST_TIMERS = 8
LATEST = (99, 59, 59)

REFRESH, MORE_TIME, POLL_INTERVAL, EVENT_LIST = 0x01, 0x02, 0x03, 0x05
TONE, TEXT, INKEY, INPUT, ITEMS, MENU, LOCAL, TIMERS, IDLE_TEXT = 0x20, 0x21, 0x22, 0x23, 0x24, 0x25, 0x26, 0x27, 0x28
CARD_RESET, LOCATION = 0x04, 0x00
START, DEACTIVATE, GET = 0x00, 0x01, 0x02
CLEARED_BY_USER = 0x80
KEYPAD, DISPLAY, EARPIECE, CARD, TERMINAL = 0x01, 0x02, 0x03, 0x81, 0x82
LOCATION_EVENT, ACTIVITY_EVENT, IDLE_EVENT = 0x03, 0x04, 0x05
MENU_SELECTION, CALL_CONTROL, EVENT_DOWNLOAD, TIMER_EXPIRATION = 0xD3, 0xD4, 0xD6, 0xD7
DETAILS, DEVICES, RESULT, DURATION, TITLE, ADDRESS, TEXT_STRING, TONE_OBJECT, ITEM = 0x01, 0x02, 0x03, 0x04, 0x05, 0x06, 0x0D, 0x0E, 0x0F
IDENTIFIER, LENGTHS, PLACE, EVENTS, PLACE_STATUS, TIMER, TIMER_VALUE = 0x10, 0x11, 0x13, 0x19, 0x1B, 0x24, 0x25
EIGHT_BIT, IN_SECONDS = 0x04, 0x01
NO_DETAILS = bytes(3)

# the qualifiers that the handset reads, and the device that the command is for, where that isn't the terminal
QUALIFIERS = {TEXT: (0x80,), INKEY: (0x01,), INPUT: (0x00, 0x01), TIMERS: (START, DEACTIVATE, GET), REFRESH: range(256), LOCAL: range(256)}
DESTINATIONS = {TONE: EARPIECE, TEXT: DISPLAY}


@dataclasses.dataclass(frozen=True)
class Reply:
    """What a TERMINAL RESPONSE says: the value of its result, and its further objects."""
    result: bytes
    objects: bytes = b""


# what a test may have a terminal answer
DONE, ENDED, BACK, NO_RESPONSE, HELP = (Reply(bytes((code,))) for code in (0x00, 0x10, 0x11, 0x12, 0x13))
BUSY, UNABLE, NETWORK_BUSY = Reply(b"\x20\x01"), Reply(b"\x20\x00"), Reply(b"\x21\x00")
BEYOND, NOT_UNDERSTOOD, BAD_DATA, MISSING = (Reply(bytes((code,))) for code in (0x30, 0x31, 0x32, 0x36))
NOT_RUNNING = b"\x24"


class Answers(dict):
    """What a handset answers at once: for the names of commands a Reply each. ValueError for a name that no command has, TypeError for what is
    no Reply."""

    def __init__(self, given=()):
        super().__init__()
        for name, reply in dict(given).items():
            self[name] = reply

    def __setitem__(self, name, reply):
        known = names.table("toolkit")["commands"].values()
        if name not in known and not re.fullmatch("type [0-9A-F]{2}", str(name)):
            near = difflib.get_close_matches(str(name).upper(), known, 1)
            raise ValueError(f"no command is called {name!r}" + (f": is {near[0]!r} meant?" if near else "; one that has no name is 'type 6F', say"))
        if not isinstance(reply, Reply):
            raise TypeError(f"{name} is answered by a Reply, Reply(b\"\\x20\\x01\") say, and not {reply!r}")
        super().__setitem__(name, reply)


class Unread(Exception):
    """A proactive command can't be read; `reply` is what the handset answers."""

    def __init__(self, reply):
        super().__init__(reply)
        self.reply = reply


class Silent(Exception):
    """The handset does nothing more before the next reset."""


@dataclasses.dataclass(frozen=True)
class Command:
    """A proactive command as the handset understands it. `value` is the one thing that it is about: a text, a tone, events, seconds;
    `items` are identifiers; `span` is the length that a text may have, or the timer's value."""
    details: bytes
    value: object = None
    items: tuple = ()
    span: tuple = ()

    @property
    def kind(self):
        return self.details[1]

    @property
    def qualifier(self):
        return self.details[2]


# how a proactive command is read

def first_of(found, tag):
    """The value of the first object with a tag."""
    for one, _, value in found:
        if one == tag:
            return value
    raise Unread(MISSING)


def exact(is_right, value):
    if not is_right:
        raise Unread(BAD_DATA)
    return value


def text_of(value):
    return exact(value[:1] == bytes((EIGHT_BIT,)), value[1:])


def one_byte(value):
    return exact(len(value) == 1, value)[0]


def seconds_of(value):
    return exact(len(value) == 2 and value[0] == IN_SECONDS, value)[1]


def timer_of(value):
    return exact(len(value) == 1 and 1 <= value[0] <= MOST_TIMERS, value)[0]


def time_of(value):
    """Hours, minutes and seconds of a timer's value, whose digits are swapped."""
    exact(len(value) == 3 and all(byte >> 4 <= 9 and byte & 15 <= 9 for byte in value), value)
    return tuple(10 * (byte & 15) + (byte >> 4) for byte in value)


def items_of(found, is_menu):
    """The identifiers of the items; of a menu that is taken away, none."""
    title, given = first_of(found, TITLE), [value for tag, _, value in found if tag == ITEM]
    first_of(found, ITEM)
    exact(len(title) <= LONGEST_TITLE, title)
    if is_menu and given == [b""]:
        return ()
    exact(len(given) <= MOST_ITEMS and all(1 <= len(value) <= 1 + LONGEST_TITLE for value in given), given)
    return tuple(value[0] for value in given)


def read_input(found, details):
    text, lengths = first_of(found, TEXT_STRING), first_of(found, LENGTHS)
    return Command(details, text_of(text), span=tuple(exact(len(lengths) == 2, lengths)))


def read_timer(found, details):
    timer = first_of(found, TIMER)
    if details[2] != START:
        return Command(details, timer_of(timer))
    span = first_of(found, TIMER_VALUE)
    return Command(details, timer_of(timer), span=time_of(span))


READERS = {
    REFRESH: lambda found, details: Command(details),
    MORE_TIME: lambda found, details: Command(details),
    LOCAL: lambda found, details: Command(details),
    POLL_INTERVAL: lambda found, details: Command(details, seconds_of(first_of(found, DURATION))),
    EVENT_LIST: lambda found, details: Command(details, first_of(found, EVENTS)),
    TONE: lambda found, details: Command(details, one_byte(first_of(found, TONE_OBJECT))),
    TEXT: lambda found, details: Command(details, text_of(first_of(found, TEXT_STRING))),
    INKEY: lambda found, details: Command(details, text_of(first_of(found, TEXT_STRING)), span=(1, 1)),
    IDLE_TEXT: lambda found, details: Command(details, text_of(first_of(found, TEXT_STRING))),
    INPUT: read_input,
    ITEMS: lambda found, details: Command(details, items=items_of(found, False)),
    MENU: lambda found, details: Command(details, items=items_of(found, True)),
    TIMERS: read_timer,
}


def objects_of(raw):
    try:
        tag, content = tlv.template(raw)
        return list(tlv.objects(content)) if tag == decode.PROACTIVE else None
    except tlv.BadTlv:
        return None


def details_of(raw):
    """The details in a proactive command, as a response has to repeat them: zeros, where there are none of three bytes."""
    found = next((value for tag, _, value in objects_of(raw) or () if tag == DETAILS), b"")
    return found if len(found) == 3 else NO_DETAILS


def waits_for_user(raw):
    """Whether a command is answered when its user did something: of DISPLAY TEXT that is said by its qualifier (ETSI TS 102 223, 6.4.1)."""
    _, kind, qualifier = details_of(raw)
    return kind in (INKEY, INPUT, ITEMS) or kind == TEXT and bool(qualifier & CLEARED_BY_USER)


def read(raw):
    """The proactive command in what FETCH answered. Unread, where the handset can't do it."""
    found = objects_of(raw)
    if found is None:
        raise Unread(BAD_DATA)
    details, devices = first_of(found, DETAILS), first_of(found, DEVICES)
    exact(len(details) == 3, details)
    if details[1] not in READERS:
        raise Unread(NOT_UNDERSTOOD)
    command = READERS[details[1]](found, details)
    exact(command.qualifier in QUALIFIERS.get(command.kind, (0x00,)), details)
    exact(devices == bytes((CARD, DESTINATIONS.get(command.kind, TERMINAL))), devices)
    return command


# what is sent

def devices_from(device):
    return tlv.written(DEVICES, bytes((device, CARD)))


def response_to(details, reply):
    """The data of a TERMINAL RESPONSE."""
    return tlv.written(DETAILS, details) + devices_from(TERMINAL) + tlv.written(RESULT, reply.result) + reply.objects


def event(code, device, more=b""):
    return template(EVENT_DOWNLOAD, tlv.written(EVENTS, bytes((code,))) + devices_from(device) + more)


def template(tag, content):
    # the tags of templates have the bit that is the flag of an object's
    return tlv.written(tag, content)


def timer_value(time):
    return tlv.written(TIMER_VALUE, bytes(part % 10 << 4 | part // 10 for part in time))


def packed_digits(digits):
    even = digits + "F" * (len(digits) % 2)
    return bytes.fromhex("".join(even[n + 1] + even[n] for n in range(0, len(even), 2)))


def with_data(ins, data):
    return bytes((0x80, ins, 0, 0, len(data))) + data


def typed(text):
    """The bytes of what is typed."""
    if not isinstance(text, str) or not re.fullmatch("[ -~]*", text):
        raise ValueError(f"what is typed is a text of printable characters of ASCII, and not {text!r}")
    return text.encode("ascii")


def is_known(command, profile):
    """Whether a terminal profile tells of a proactive command."""
    name = names.of_toolkit("commands", command.kind)
    if command.kind == TIMERS:
        name += " get" if command.qualifier == GET else " start and stop"
    return name in decode.profile(profile)


class Terminal:
    """A handset over a card. `profile` is what it tells the card that it can do: a command that isn't in it is answered as beyond its
    capabilities. `answers` has for the name of a command (`DISPLAY TEXT`) the Reply that it is given at once, in place of what the
    handset does."""

    def __init__(self, card, profile=PROFILE, answers=None):
        self.card, self.profile, self.answers = card, as_bytes(profile), Answers(answers or {})
        self.place, self.clock = None, 0
        self._moment, self._timed, self._refreshed, self._commands = 0, False, False, 0
        self._is_on = False
        self._forget()

    def _forget(self):
        self.menu, self.events, self.held, self.timers, self.is_silent = (), set(), None, {}, False

    # what happens at the handset

    def start(self) -> None:
        """The handset is switched on: it selects the MF and tells its profile."""
        self._line(self._begin)

    def reset(self) -> None:
        """The handset resets the card, and begins anew. The clock and the location stay."""
        self.is_silent = False
        self._line(self._restart)

    def ok(self) -> None:
        """The text that is shown is done with."""
        self._line(lambda: self._respond(DONE) if self._holds(TEXT) else None)

    def end(self) -> None:
        """The user ends the session."""
        self._line(lambda: self._end(ENDED))

    def back(self) -> None:
        """The user goes back."""
        self._line(lambda: self._end(BACK))

    def none(self) -> None:
        """The user doesn't respond in time."""
        self._line(lambda: self._end(NO_RESPONSE))

    def type(self, text: str) -> None:
        """The user types what the card asks for; nothing happens where its length doesn't fit."""
        content = typed(text)
        self._line(lambda: self._type(content))

    def pick(self, item: int) -> None:
        """The user picks an item of what there is to choose from, or else of the menu."""
        expect_number("an item", item, 1, 255)
        self._line(lambda: self._pick(item))

    def press(self) -> None:
        """The user presses a key: the event user activity, where it is registered."""
        self._line(lambda: self._tell_once(ACTIVITY_EVENT, TERMINAL))

    def idle(self) -> None:
        """The screen becomes idle."""
        self._line(lambda: self._tell_once(IDLE_EVENT, DISPLAY) if self.held is None else None)

    def dial(self, digits: str) -> None:
        """The user sets up a call, of which the card is asked."""
        if not isinstance(digits, str) or not re.fullmatch(f"[0-9]{{1,{MOST_DIGITS}}}", digits):
            raise ValueError(f"what is dialled is a text of 1 to {MOST_DIGITS} decimal digits, and not {digits!r}")
        self._line(lambda: self._dial(digits))

    def tell_place(self, content: bytes | str) -> None:
        """The network tells where the handset is."""
        place = as_bytes(content)
        if not 1 <= len(place) <= LONGEST_PLACE:
            raise ValueError(f"a location has 1 to {LONGEST_PLACE} bytes, and not {len(place)}")
        self.place = place
        self._line(self._tell_place)

    def poll(self) -> None:
        """The handset sends STATUS."""
        self._line(lambda: self._send(STATUS))

    def wait(self, seconds: int) -> None:
        """So many seconds pass: each timer that is due meanwhile is reported."""
        expect_number("how many seconds pass", seconds, 0, MOST_SECONDS)
        self._line(lambda: None, seconds)

    def happen(self, said: Reset | Plan | Handset) -> None:
        """What a line of a handset's script says, as it was read."""
        if isinstance(said, Reset):
            self.reset()
        elif isinstance(said, Plan):
            PLANS[said.word](self.card, said)
        elif isinstance(said, Handset) and (said.word, said.act) in HAPPENINGS:
            HAPPENINGS[said.word, said.act](self, said.value)
        else:
            raise Wrong("this line is for no handset")

    def line(self, text: str) -> None:
        """A line of a handset's script, `user ok` say. Wrong, where it is in no form."""
        said = read_line(text)
        if said is not None:
            self.happen(said)

    # a line, up to where nothing more is to be done

    def _line(self, act, seconds=None):
        if not self._is_on and act not in (self._begin, self._restart):
            raise CardError("the handset isn't switched on: `start()` does so")
        self.clock += seconds or 0
        self._moment, self._timed, self._refreshed, self._commands = self.clock, seconds is not None, False, 0
        if self.is_silent:
            return
        try:
            self._settle(act())
        except Silent:
            self.is_silent = True

    def _settle(self, answer):
        """Carries on with what an answer leads to, and in time that passes with the timers that are due meanwhile."""
        while True:
            while answer is not None and answer.status.startswith("91"):
                answer = self._fetch(answer.status.sw2)
            if self._due() is None:
                return
            answer = self._report(self._due())

    def _send(self, command):
        """The answer to a command. Silent, where it is the last thing that the handset sees before a reset."""
        self._commands += 1
        try:
            answer = as_answer(self.card.transmit(command))
        except PowerLost:
            raise Silent from None
        if answer.status == MEMORY_PROBLEM or self._commands >= MOST_COMMANDS:
            raise Silent
        return answer

    def _note(self, text):
        self.card.trace.append("* " + text)

    def _begin(self):
        self._is_on = True
        self._forget()
        self._send(SELECT_MF)
        return self._send(with_data(decode.PROFILE, self.profile))

    def _restart(self):
        try:
            self.card.reset()
        except PowerLost:
            raise Silent from None
        return self._begin()

    # proactive commands

    def _fetch(self, length):
        """Fetches a command and carries it out; the answer to what is sent then, None where the user is to do something first."""
        raw = self._send(bytes((0x80, decode.FETCH, 0, 0, length))).data
        details = details_of(raw)
        chosen = self.answers.get(decode.details_name(details[1]))
        try:
            if chosen:
                raise Unread(chosen)
            self.held = self.understood(raw)
        except Unread as fault:
            return self._respond(fault.reply, details)
        return self.carry_out(self.held) if is_known(self.held, self.profile) else self._respond(BEYOND)

    def understood(self, raw: bytes) -> Command:
        """The command that was fetched. Unread, where the handset can't do it."""
        return read(raw)

    def carry_out(self, command: Command) -> "Answer | None":
        """Does what a command asks for; the answer to what is sent then, None where the user is to do something first."""
        return CARRIED_OUT[command.kind](self, command)

    def _respond(self, reply, details=None):
        details, self.held = details or self.held.details, None
        return self._send(with_data(decode.RESPONSE, response_to(details, reply)))

    def _shown(self, note, reply=None):
        self._note(note)
        return self._respond(reply) if reply else None

    def _refresh(self, command):
        if command.qualifier != CARD_RESET:
            return self._respond(DONE)
        if self._refreshed:
            return self._respond(UNABLE)
        self._refreshed = True
        return self._restart()

    def _menu(self, command):
        self.menu = command.items
        return self._shown(f"menu {len(command.items)}", DONE)

    def _event_list(self, command):
        self.events = set(command.value)
        return self._respond(DONE)

    def _local_information(self, command):
        if command.qualifier != LOCATION:
            return self._respond(BEYOND)
        return self._respond(UNABLE if self.place is None else Reply(DONE.result, tlv.written(PLACE, self.place)))

    def _timer(self, command):
        timer, running = command.value, self.timers.get(command.value)
        told = tlv.written(TIMER, bytes((timer,)))
        if command.qualifier == START:
            hours, minutes, seconds = command.span
            self.timers[timer] = self._moment + 3600 * hours + 60 * minutes + seconds, command.span
            return self._respond(Reply(DONE.result, told))
        if command.qualifier == DEACTIVATE:
            self.timers.pop(timer, None)
        if running is None:
            return self._respond(Reply(NOT_RUNNING, told))
        return self._respond(Reply(DONE.result, told + timer_value(as_time(running[0] - self._moment))))

    # what the user does

    def _holds(self, *kinds):
        return self.held is not None and self.held.kind in kinds

    def _end(self, reply):
        return self._respond(reply) if self.held else None

    def _type(self, text):
        if not self._holds(INKEY, INPUT) or not self.held.span[0] <= len(text) <= self.held.span[1]:
            return None
        return self._respond(Reply(DONE.result, tlv.written(TEXT_STRING, bytes((EIGHT_BIT,)) + text)))

    def _pick(self, item):
        if self._holds(ITEMS):
            return self._respond(Reply(DONE.result, item_object(item))) if item in self.held.items else None
        return self._tell(template(MENU_SELECTION, devices_from(KEYPAD) + item_object(item))) if item in self.menu else None

    # what the card is told

    def _tell(self, envelope):
        """The answer to an envelope; None where the card has no room for it, so that it is given up."""
        answer = self._send(with_data(decode.ENVELOPE, envelope))
        if answer.status == BUSY_TOOLKIT:
            return self._shown("busy")
        return answer

    def _tell_once(self, code, device):
        if code not in self.events:
            return None
        self.events.discard(code)
        return self._tell(event(code, device))

    def _tell_place(self):
        if LOCATION_EVENT not in self.events:
            return None
        return self._tell(event(LOCATION_EVENT, TERMINAL, tlv.written(PLACE_STATUS, b"\x00") + tlv.written(PLACE, self.place)))

    def _dial(self, digits):
        address = tlv.written(ADDRESS, b"\x81" + packed_digits(digits))
        answer = self._tell(template(CALL_CONTROL, devices_from(TERMINAL) + address))
        if answer and answer.data in CALLS:
            self._note(CALLS[answer.data])
        return answer

    def _due(self):
        """The timer that is due first in the time that passes; of two at one moment the one with the lower number."""
        ripe = [(due, timer) for timer, (due, _) in self.timers.items() if due <= self.clock] if self._timed else []
        return min(ripe)[1] if ripe else None

    def _report(self, timer):
        self._moment, value = self.timers.pop(timer)
        told = devices_from(TERMINAL) + tlv.written(TIMER, bytes((timer,))) + timer_value(value)
        return self._tell(template(TIMER_EXPIRATION, told))


def item_object(item):
    return tlv.written(IDENTIFIER, bytes((item,)))


def as_time(seconds):
    """So many seconds in hours, minutes and seconds."""
    return (seconds // 3600, seconds // 60 % 60, seconds % 60) if seconds < 3600 * 100 else LATEST


# what call control says
CALLS = {b"\x00\x00": "call", b"\x01\x00": "barred"}

# what becomes of a command
CARRIED_OUT = {
    REFRESH: lambda terminal, command: terminal._refresh(command),
    MENU: lambda terminal, command: terminal._menu(command),
    EVENT_LIST: lambda terminal, command: terminal._event_list(command),
    LOCAL: lambda terminal, command: terminal._local_information(command),
    TIMERS: lambda terminal, command: terminal._timer(command),
    MORE_TIME: lambda terminal, _: terminal._respond(DONE),
    POLL_INTERVAL: lambda terminal, command: terminal._respond(
        Reply(DONE.result, tlv.written(DURATION, bytes((IN_SECONDS, command.value))))),
    TONE: lambda terminal, command: terminal._shown(f"tone {command.value:02X}", DONE),
    IDLE_TEXT: lambda terminal, command: terminal._shown(f"idle {decode.printable(command.value)}", DONE),
    TEXT: lambda terminal, command: terminal._shown(f"text {decode.printable(command.value)}"),
    INKEY: lambda terminal, command: terminal._shown(f"ask {decode.printable(command.value)}"),
    INPUT: lambda terminal, command: terminal._shown(f"ask {decode.printable(command.value)}"),
    ITEMS: lambda terminal, command: terminal._shown(f"choose {len(command.items)}"),
}

# what a line of a handset's script has it do
HAPPENINGS = {
    ("user", "ok"): lambda terminal, _: terminal.ok(), ("user", "end"): lambda terminal, _: terminal.end(),
    ("user", "back"): lambda terminal, _: terminal.back(), ("user", "none"): lambda terminal, _: terminal.none(),
    ("user", "press"): lambda terminal, _: terminal.press(), ("user", "idle"): lambda terminal, _: terminal.idle(),
    ("user", "type"): Terminal.type, ("user", "pick"): Terminal.pick, ("user", "dial"): Terminal.dial,
    ("net", "place"): Terminal.tell_place, ("net", "poll"): lambda terminal, _: terminal.poll(), ("time", ""): Terminal.wait,
}

PLANS = {
    "cut": lambda card, plan: card.cut(plan.call, plan.kept, plan.rest), "fail": lambda card, plan: card.fail(plan.call, plan.rest),
    "readfail": lambda card, plan: card.fail_reading(plan.call),
}
