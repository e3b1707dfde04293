"""What the toolkit of a card is doing, worked out from its registered applets and from the commands of a trace: which applet is idle,
asked or waiting, for what; which events come late; which timers are held; which applets an event wakes, and in which order.

    from uicc import Card

    with Card("examples/day.script") as card:
        card.profile()
        print(card.toolkit)
        print(card.toolkit.applets[0].state)

`followed` does so with the lines of a trace. What an applet does is what the definition of its kind says (`kinds`), and nothing of it
stands here. Where a trace shows something else, or a definition can't be worked out, what is told says so."""
import dataclasses

from . import decode, evaluation, kinds, layout, names, process, tlv, trace
from .decode import DELETE, ENVELOPE, FETCH, INSTALL, PROFILE, RESPONSE, STATUS
from .evaluation import Made

REFRESH, MORE_TIME, POLL_INTERVAL, SET_UP_EVENT_LIST = 0x01, 0x02, 0x03, 0x05
PLAY_TONE, DISPLAY_TEXT, GET_INKEY, GET_INPUT, SELECT_ITEM, SET_UP_MENU = 0x20, 0x21, 0x22, 0x23, 0x24, 0x25
PROVIDE_LOCAL_INFORMATION, TIMER_MANAGEMENT, SET_UP_IDLE_TEXT = 0x26, 0x27, 0x28
# where in a terminal's profile a command stands: a byte and a bit, both from 1 on
IN_PROFILE = {
    REFRESH: (3, 8), MORE_TIME: (3, 4), POLL_INTERVAL: (3, 6), SET_UP_EVENT_LIST: (5, 1), PLAY_TONE: (3, 5), DISPLAY_TEXT: (3, 1),
    GET_INKEY: (3, 2), GET_INPUT: (3, 3), SELECT_ITEM: (4, 1), SET_UP_MENU: (4, 6), PROVIDE_LOCAL_INFORMATION: (4, 7),
    TIMER_MANAGEMENT: (8, 1), SET_UP_IDLE_TEXT: (8, 5),
}
# the same of the events that a terminal downloads
EVENTS_IN_PROFILE = {
    0x00: (5, 2), 0x01: (5, 3), 0x02: (5, 4), 0x03: (5, 5), 0x04: (5, 6), 0x05: (5, 7), 0x07: (6, 1), 0x09: (6, 3), 0x0A: (6, 4),
}
OF_THE_CARD = (SET_UP_MENU, SET_UP_EVENT_LIST, POLL_INTERVAL)
PROFILE_DOWNLOAD, STATUS_COMMAND, MENU_SELECTION, TIMER_EXPIRATION, CALL_CONTROL = 0x40, 0x41, 0x43, 0x44, 0x45
USER_ACTIVITY, IDLE_SCREEN = 0x04, 0x05
REPORTED_ONCE = (USER_ACTIVITY, IDLE_SCREEN)
TO_TERMINAL, TO_DISPLAY, TO_EARPIECE = 0x82, 0x02, 0x03
BY_USER, WITH_LETTERS, START = 0x80, 0x01, 0x00
ADDRESS, RESULT, TEXT, ITEM, EVENT_LIST, TIMER = 0x06, 0x03, 0x0D, 0x10, 0x19, 0x24
MENU, CALL, EVENT, EXPIRATION = 0xD3, 0xD4, 0xD6, 0xD7
TIMERS = range(1, 9)
MOST_ACTS = 32
LONGEST_KEEP = 32
LONGEST_COMMAND = 255
HIGHEST_NUMBER = 254
SECONDS = 0x01
POLLED_EACH = 30
MEMORY_PROBLEM = "6581"
# the owner of a command, where the trace shows it and no applet is known that sends it
NOBODY_KNOWN = -1
OTHER_APPLETS = "the card has another command for the terminal than these applets send by the definitions of their kinds"
NOT_SETTLED = "a command was cut or failed, and what applets keep is as before or as after it"


@dataclasses.dataclass(frozen=True)
class Command:
    """A proactive command, but for its number."""
    kind: int
    qualifier: int = 0
    destination: int = TO_TERMINAL
    objects: bytes = b""

    def spelled(self, number):
        content = bytes((0x81, 3, number, self.kind, self.qualifier, 0x82, 2, 0x81, self.destination)) + self.objects
        return tlv.written(decode.PROACTIVE, content, flag=False)

    @property
    def name(self):
        return names.of_toolkit("commands", self.kind, f"type {self.kind:02X}")


def text_object(text):
    return tlv.written(TEXT, b"\x04" + bytes(text))


def choice(kind, title, items):
    """A command with items, each a number and a text."""
    listed = b"".join(tlv.written(0x0F, bytes((number,)) + text) for number, text in items)
    return Command(kind, 0, TO_TERMINAL, tlv.written(0x05, title) + (listed or tlv.written(0x0F, b"")))


def timer_command(action, timer, value):
    """A time is written in digits, the lower half of a byte first (ETSI TS 102 223, 8.38)."""
    digits = bytes(value[part] % 10 << 4 | value[part] // 10 for part in ("hours", "minutes", "seconds"))
    return Command(TIMER_MANAGEMENT, action, TO_TERMINAL, bytes((0xA4, 1, timer)) + (tlv.written(0x25, digits) if action == START else b""))


# the commands that an applet may send, as the definitions call them, with the parts that these have
SPELLED = {
    "Refresh": lambda mode: Command(REFRESH, mode), "MoreTime": lambda: Command(MORE_TIME),
    "PollInterval": lambda seconds: Command(POLL_INTERVAL, objects=bytes((0x84, 2, SECONDS, seconds))),
    "SetUpEventList": lambda events: Command(SET_UP_EVENT_LIST, objects=tlv.written(EVENT_LIST, bytes(events))),
    "PlayTone": lambda tone: Command(PLAY_TONE, 0, TO_EARPIECE, bytes((0x8E, 1, tone))),
    "DisplayText": lambda text: Command(DISPLAY_TEXT, BY_USER, TO_DISPLAY, text_object(text)),
    "GetInkey": lambda text: Command(GET_INKEY, WITH_LETTERS, TO_TERMINAL, text_object(text)),
    "GetInput": lambda text, digits, least, most: Command(
        GET_INPUT, 0 if digits else WITH_LETTERS, TO_TERMINAL, text_object(text) + bytes((0x91, 2, least, most))),
    "SelectItem": lambda title, items: choice(SELECT_ITEM, bytes(title), [(item["id"], bytes(item["text"])) for item in items]),
    "SetUpMenu": lambda title, items: choice(SET_UP_MENU, bytes(title), [(item["id"], bytes(item["text"])) for item in items]),
    "LocalInformation": lambda what: Command(PROVIDE_LOCAL_INFORMATION, what), "TimerManagement": timer_command,
    "IdleText": lambda text: Command(SET_UP_IDLE_TEXT, objects=text_object(text)),
}


def read_command(data):
    """The number and the command of the bytes that were fetched; None where they are none."""
    try:
        tag, content = tlv.template(data)
        details, devices = tlv.first(content, 0x01), tlv.first(content, 0x02)
    except tlv.BadTlv:
        return None
    if tag != decode.PROACTIVE or not details or len(details) != 3 or not devices or len(devices) != 2:
        return None
    return details[0], Command(details[1], details[2], devices[1], bytes(content[9:]))


# what an applet is told

def event(code, body):
    return Made("Event", (code, tuple(body)))


def timer(number):
    return Made("Timer", (number,))


def response(objects):
    """What the card tells an applet of the response to its command."""
    found = list(tlv.objects(objects))
    result = next((value for tag, _, value in found if tag == RESULT and value), b"\0")
    item = next((value[0] for tag, _, value in found if tag == ITEM and len(value) == 1), 0)
    text = next((value for tag, _, value in found if tag == TEXT), b"")
    return Made("Response", (result[0], item, tuple(text[1:])))


DONE, WENT, REFUSED = (Made(name, ()) for name in ("Done", "Went", "Refused"))


def value_in(content, tag):
    """The value of the first object with a tag; None where there is none, or the bytes are no objects."""
    try:
        return tlv.first(content, tag)
    except tlv.BadTlv:
        return None


class Applet:
    """A registered applet, and where it is in what it does."""

    def __init__(self, row, sequence, known):
        self.row, self.sequence, self.known = row, sequence, known
        self.events, self.kept = set(row.events), bytes(row.kept)
        self.wake()

    def wake(self):
        self.mind = self.known.fresh(self.shelf, self.kept)

    @property
    def shelf(self):
        return self.row.shelf

    def step(self, stimulus):
        """What the applet does next."""
        does, self.mind = self.known.turn(self.mind, stimulus)
        return does


@dataclasses.dataclass
class Outstanding:
    """The command that the terminal has to answer; `owner` is the shelf of its applet, None for one of the card itself. `command` is None
    where it isn't known before it is fetched."""
    owner: int | None
    command: Command | None
    number: int
    fetched: bool = False

    @property
    def name(self):
        return self.command.name if self.command else "a command that isn't known yet"

    def is_told_by(self, status):
        """Whether a status tells of this command, by its length."""
        return self.command is not None and status == f"91{len(self.command.spelled(self.number)) & 0xFF:02X}"


@dataclasses.dataclass(frozen=True)
class AppletNow:
    """What an applet is doing. `state` is `idle`, `asked` where its command is out, or `waiting` where it has one to send; `command` is the
    name of that command, None where it is idle. `place` is its place among those that wait, from 1 on; 0 where it doesn't wait."""
    shelf: int
    kind: str
    priority: int
    state: str = "idle"
    command: str | None = None
    place: int = 0


@dataclasses.dataclass(frozen=True)
class ToolkitNow:
    """What the toolkit of a card is doing, worked out from what the card was sent; it prints as lines. `applets` are the registered applets by
    their shelves. `outstanding` is the name of the command that the terminal has to answer, None where there is none; `owner` the shelf of
    its applet, None where it is the card's own, -1 where it isn't known whose it is; `is_fetched` whether it waits for its response. `late`
    are the events that applets which wait are told later, each a shelf and a name; `timers` the shelves that hold them, by their numbers; `events` the shelves that an
    event wakes, in the order in which it does, by its name. `doubt` says why this may not be so, after a loss of power say."""
    has_profile: bool
    outstanding: str | None
    owner: int | None
    is_fetched: bool
    applets: dict[int, AppletNow]
    late: list[tuple[int, str]]
    timers: dict[int, int]
    events: dict[str, list[int]]
    doubt: str | None
    lines: tuple = dataclasses.field(repr=False, compare=False)

    def __str__(self):
        return "\n".join(f"{line.label}: {line.text}" for line in self.lines)


class Toolkit:
    """The toolkit of a card with these rows, by their shelves, as it is switched on; `take` is given what it is sent. `known` are the kinds of
    applets, without it those of the program."""

    def __init__(self, rows, known=None):
        self.known = known or kinds.of_program()
        self.sequence = 0
        self.applets = {}
        # why what is worked out may not be so
        self.doubt = self.known.fault
        for row in sorted(rows.values(), key=lambda row: getattr(row, "sequence", 0)):
            self._put_on_shelf(row)
        self.reset()

    def _put_on_shelf(self, row):
        self.sequence += 1
        self.applets[row.shelf] = Applet(row, self.sequence, self.known)

    def reset(self):
        """The card is reset: what is registered and kept stays."""
        self.profile, self.out, self.waiting, self.late, self.timers = None, None, [], [], {}
        self.announced_events, self.announced_menu, self.has_poll, self.number = (), (), False, 0
        for applet in self.applets.values():
            applet.wake()

    def lose(self):
        """The power was lost in a command, or it met a memory problem."""
        self.reset()
        self._doubts(NOT_SETTLED)

    def _doubts(self, why):
        """The first thing that can't be known is what is told."""
        self.doubt = self.doubt or why

    # what is sent to the card

    def take(self, apdu, data, status):
        """Takes note of a command that was answered so."""
        if not apdu.ok or not status.startswith(("90", "91", "61")):
            return
        if apdu.on_applets:
            self._change(apdu)
        elif apdu.ins == FETCH:
            self._fetched(data)
            return
        elif apdu.ins in TAKEN:
            TAKEN[apdu.ins](self, apdu.data)
            self._drive()
        self._told(status)

    def _told(self, status):
        """Whether a command waits to be fetched, and how long it is, stands in the status: what it tells is so."""
        waits = self.out if self.out and not self.out.fetched else None
        if status.startswith("91") and not (waits and (waits.command is None or waits.is_told_by(status))):
            self._doubts(OTHER_APPLETS)
            self.out = Outstanding(NOBODY_KNOWN, None, 0)
        elif status == "9000" and waits:
            self._doubts(OTHER_APPLETS)
            self.out = None

    def _change(self, apdu):
        if apdu.ins == INSTALL:
            given = layout.installation(apdu.data)
            self._put_on_shelf(layout.Registered(apdu.p2, apdu.p1, given.events, given.text, given.kept))
        elif apdu.ins == DELETE:
            self.applets.pop(apdu.p2, None)
            self.timers = {timer: shelf for timer, shelf in self.timers.items() if shelf != apdu.p2}
        self._drive()

    def _fetched(self, data):
        if self.out is None or self.out.command is None or data != self.out.command.spelled(self.out.number):
            self._doubts(OTHER_APPLETS)
            found = read_command(data)
            if found:
                self.number, command = found
                self.out = Outstanding(self._owner_of(command), command, self.number)
        if self.out:
            self.out.fetched = True

    def _owner_of(self, command):
        """Whose a command is that wasn't worked out."""
        if command.kind in OF_THE_CARD:
            return None
        return next(iter(self.applets)) if len(self.applets) == 1 else NOBODY_KNOWN

    def _told_profile(self, profile):
        self.profile = profile
        self._trigger(self.order(PROFILE_DOWNLOAD), PROFILE_DOWNLOAD, profile)

    def _polled(self, _):
        self._trigger(self.order(STATUS_COMMAND), STATUS_COMMAND, b"")

    def _responded(self, objects):
        owner, self.out = self.out.owner if self.out else None, None
        if owner in self.applets:
            self._run(self.applets[owner], response(objects), resumed=True)

    def _enveloped(self, envelope):
        try:
            tag, content = tlv.template(envelope)
        except tlv.BadTlv:
            return
        value = value_in(content, {MENU: ITEM, CALL: ADDRESS, EVENT: EVENT_LIST, EXPIRATION: TIMER}.get(tag))
        if not value:
            return
        if tag == MENU:
            entry = self.applets.get(value[0] - 1)
            self._trigger([entry] if entry and entry.row.text else [], MENU_SELECTION, value, late=True)
        elif tag == EXPIRATION:
            owner = self.applets.get(self.timers.get(value[0]))
            self._trigger([owner] if owner else [], TIMER_EXPIRATION, value, late=True)
        elif tag == CALL:
            self._trigger(self.order(CALL_CONTROL), CALL_CONTROL, value, late=True)
        elif tag == EVENT:
            if value[0] in REPORTED_ONCE:
                self.announced_events = tuple(code for code in self.announced_events if code != value[0])
            self._trigger(self.order(value[0]), value[0], content, late=True)

    # what comes of it

    def order(self, code):
        """The applets that are registered for an event, in the order in which it wakes them."""
        found = [applet for applet in self.applets.values() if code in applet.events]
        return sorted(found, key=lambda applet: (applet.row.priority, -applet.sequence))

    def is_idle(self, shelf):
        return not (self.out and self.out.owner == shelf) and all(waits != shelf for waits, _ in self.waiting)

    def _trigger(self, applets, code, body, late=False):
        for applet in applets:
            if self.is_idle(applet.shelf):
                self._run(applet, event(code, body))
            elif late:
                self.late.append((applet.shelf, code, body))

    def _run(self, applet, told, resumed=False):
        calls = told.name == "Event" and told.parts[0] == CALL_CONTROL
        try:
            for _ in range(MOST_ACTS):
                act = applet.step(told)
                if act == DONE:
                    return
                command = SPELLED[act.parts[0].name](*act.parts[0].parts) if act.name == "Send" else None
                if command and self._admits(applet, command, calls):
                    self._send(applet, command, resumed)
                    return
                told = REFUSED if command else ACTS[act.name](self, applet, *act.parts)
        except evaluation.Unknown as fault:
            self._doubts(f"what the applet on shelf {applet.shelf} does isn't known: {fault}")
        applet.wake()

    # the acts that send nothing: each is carried out, and answers what the applet is told

    def _keep(self, applet, content):
        if len(content) > LONGEST_KEEP:
            return REFUSED
        applet.kept = bytes(content)
        return WENT

    def _register(self, applet, code):
        others = [other for other in self.order(CALL_CONTROL) if other is not applet]
        if code not in layout.EVENTS or code == CALL_CONTROL and others:
            return REFUSED
        applet.events.add(code)
        return WENT

    def _deregister(self, applet, code):
        if code not in layout.EVENTS:
            return REFUSED
        applet.events.discard(code)
        return WENT

    def _take_timer(self, applet):
        free = next((number for number in TIMERS if number not in self.timers), None)
        if free is None:
            return REFUSED
        self.timers[free] = applet.shelf
        return timer(free)

    def _free_timer(self, applet, number):
        if self.timers.get(number) != applet.shelf:
            return REFUSED
        del self.timers[number]
        return WENT

    def _allows(self, place):
        byte, bit = place
        return self.profile is not None and len(self.profile) >= byte and bool(self.profile[byte - 1] >> (bit - 1) & 1)

    def _admits(self, applet, command, calls):
        if calls or command.kind in OF_THE_CARD or not self._allows(IN_PROFILE[command.kind]):
            return False
        if command.kind == REFRESH and command.qualifier not in (0x03, 0x04):
            return False
        if command.kind == TIMER_MANAGEMENT and self.timers.get(command.objects[2]) != applet.shelf:
            return False
        return len(command.spelled(1)) <= LONGEST_COMMAND

    def _send(self, applet, command, resumed):
        if resumed:
            self._put_out(applet.shelf, command)
        else:
            self.waiting.append((applet.shelf, command))

    def _put_out(self, owner, command):
        self.number = self.number % HIGHEST_NUMBER + 1
        self.out = Outstanding(owner, command, self.number)

    def _drive(self):
        while True:
            at = next((number for number, (shelf, _, _) in enumerate(self.late) if self.is_idle(shelf)), None)
            if at is None:
                break
            shelf, code, body = self.late.pop(at)
            self._run(self.applets[shelf], event(code, body))
        if self.out is None:
            command = self._of_the_card()
            if command:
                self._put_out(None, command)
            elif self.waiting:
                self._put_out(*self.waiting.pop(0))

    def _of_the_card(self):
        """The command that the card itself has next for the terminal; None where it has none."""
        events = tuple(code for code, place in EVENTS_IN_PROFILE.items() if self.order(code) and self._allows(place))
        if events != self.announced_events and self._allows(IN_PROFILE[SET_UP_EVENT_LIST]):
            self.announced_events = events
            return Command(SET_UP_EVENT_LIST, objects=tlv.written(EVENT_LIST, bytes(events)))
        menu = tuple(self.menu().items())
        if menu != self.announced_menu and self._allows(IN_PROFILE[SET_UP_MENU]):
            self.announced_menu = menu
            return choice(SET_UP_MENU, b"Menu", menu)
        if self.order(STATUS_COMMAND) and not self.has_poll and self._allows(IN_PROFILE[POLL_INTERVAL]):
            self.has_poll = True
            return Command(POLL_INTERVAL, objects=bytes((0x84, 2, SECONDS, POLLED_EACH)))
        return None

    def menu(self):
        """The entries of the card's menu, the texts by their numbers."""
        return {applet.shelf + 1: applet.row.text for applet in self.by_shelf() if applet.row.text}

    def by_shelf(self):
        return [applet for _, applet in sorted(self.applets.items())]

    def now(self):
        """What the toolkit is doing, as values."""
        out = self.out
        return ToolkitNow(
            has_profile=self.profile is not None, outstanding=out and out.name, owner=out and out.owner,
            is_fetched=bool(out and out.fetched), applets={applet.shelf: self._applet_now(applet) for applet in self.by_shelf()},
            late=[(shelf, names.of_toolkit("events", code)) for shelf, code, _ in self.late], timers=dict(sorted(self.timers.items())),
            events={names.of_toolkit("events", code): [applet.shelf for applet in self.order(code)] for code in layout.EVENTS if self.order(code)},
            doubt=self.doubt, lines=tuple(self.lines()))

    def _applet_now(self, applet):
        asked = self.out.name if self.out and self.out.owner == applet.shelf else None
        place, waits = next(((number, command.name) for number, (shelf, command) in enumerate(self.waiting, 1) if shelf == applet.shelf), (0, None))
        state = "asked" if asked else "waiting" if waits else "idle"
        return AppletNow(applet.shelf, self.kind_of(applet), applet.row.priority, state, asked or waits, 0 if asked else place)

    # in words

    def kind_of(self, applet):
        return self.known.does_on(applet.shelf)

    def state_of(self, shelf):
        """What an applet is doing."""
        if self.out and self.out.owner == shelf:
            return f"asked: waits for the response to {self.out.name}"
        place = next((number for number, (waits, _) in enumerate(self.waiting, 1) if waits == shelf), None)
        return f"waiting: has {self.waiting[place - 1][1].name} to send, as number {place} of {len(self.waiting)}" if place else "idle"

    def lines(self):
        """What the toolkit is doing, in lines that have a depth, a label and a text."""
        line = decode.Line
        found = [line(0, "terminal profile", "received" if self.profile is not None else "none since the reset")]
        found.append(line(0, "outstanding command", self._out_words()))
        for applet in self.by_shelf():
            head = f"applet on shelf {applet.shelf} ({self.kind_of(applet)}, priority {applet.row.priority})"
            found.append(line(0, head, self.state_of(applet.shelf)))
        found += [line(0, f"late event {number}", f"{decode.event(code)} for the applet on shelf {shelf}")
                  for number, (shelf, code, _) in enumerate(self.late, 1)]
        found += [line(0, f"timer {timer}", f"held by the applet on shelf {shelf}") for timer, shelf in sorted(self.timers.items())]
        for code in layout.EVENTS:
            shelves = ", ".join(f"shelf {applet.shelf} (priority {applet.row.priority})" for applet in self.order(code))
            found += [line(0, f"event {decode.event(code)}", f"wakes {shelves}")] if shelves else []
        if self.doubt:
            found.append(line(0, "not sure", self.doubt))
        return found

    def _out_words(self):
        if self.out is None:
            return "none"
        whose = {None: "the card itself", NOBODY_KNOWN: "an applet that isn't known"}.get(self.out.owner, f"the applet on shelf {self.out.owner}")
        state = "fetched, waits for its response" if self.out.fetched else "waits to be fetched"
        return f"{self.out.name}{f', number {self.out.number}' if self.out.command else ''}, of {whose}: {state}"


ACTS = {
    "Keep": Toolkit._keep, "Register": Toolkit._register, "Deregister": Toolkit._deregister, "TakeTimer": Toolkit._take_timer,
    "FreeTimer": Toolkit._free_timer, "Answer": lambda of, applet, allows: WENT,
}
TAKEN = {PROFILE: Toolkit._told_profile, STATUS: Toolkit._polled, RESPONSE: Toolkit._responded, ENVELOPE: Toolkit._enveloped}


def followed(rows, lines):
    """The toolkit of a card with these rows, by their shelves, after the lines of a trace."""
    toolkit = Toolkit(rows)
    for part in trace.parts(lines):
        if isinstance(part, trace.Mark):
            if part.text == process.RESET:
                toolkit.reset()
        elif part.answer is None or part.status == MEMORY_PROBLEM:
            toolkit.lose()
        else:
            toolkit.take(decode.Apdu(part.command), part.answer[:-2], part.status)
    return toolkit
