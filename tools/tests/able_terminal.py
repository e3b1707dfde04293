"""A terminal that can do all that the sequences in the box ask for, and one that is wrong in a way that a test chooses.

    tools/sequence examples/sequences --on tools/tests/able_terminal.py:Able

It is no telephone: a call is set up, a message is sent and a channel is open as soon as the user allows it."""
import dataclasses

from uicc import Reply, Terminal, decode, handset, tlv
from uicc.grammar import Handset
from uicc.handset import BAD_DATA, DONE, HELP, MISSING, NOT_UNDERSTOOD, Unread, first_of, objects_of
from uicc.undertest import InPython
from uicc.wording import letters, packed

# all that sequences need
PROFILE = bytes.fromhex("29 60 FF FF 7F 3F 00 1F FA 00 00 1F")
POLLING_OFF, CALL, SS, USSD, MESSAGE, DTMF, BROWSER = 0x04, 0x10, 0x11, 0x12, 0x13, 0x14, 0x15
OPEN, CLOSE, RECEIVE, SEND, CHANNELS = 0x40, 0x41, 0x42, 0x43, 0x44
# the objects that a command can't be without
NEEDED = {
    **{kind: () for kind in handset.READERS}, handset.POLL_INTERVAL: (0x04,), handset.EVENT_LIST: (0x19,), handset.TEXT: (0x0D,),
    handset.INKEY: (0x0D,), handset.IDLE_TEXT: (0x0D,), handset.INPUT: (0x0D, 0x11), handset.ITEMS: (0x0F,), handset.MENU: (0x0F,),
    handset.TIMERS: (0x24,), POLLING_OFF: (), CALL: (0x06,), SS: (0x09,), USSD: (0x0A,), MESSAGE: (0x0B,), DTMF: (0x2C,), BROWSER: (),
    OPEN: (0x35, 0x39), CLOSE: (), RECEIVE: (0x37,), SEND: (0x36,), CHANNELS: ()}
KNOWN = set(range(0x01, 0x40))
# where the user is asked whether the command may be carried out
ASKED = (CALL, OPEN)
GENERAL_BEEP, IMEI, MOST_ROOM = 0x10, "0A10325476981032", 0xFF
REFUSED, NO_CHANNEL, LESS = Reply(b"\x22"), Reply(b"\x3A\x03"), b"\x02"
LOCAL = {0x01: (0x14, IMEI), 0x02: (0x16, "00" * 16), 0x03: (0x26, "62113001200040"), 0x04: (0x2D, b"en".hex()), 0x05: (0x2E, "0000"),
         0x06: (0x3F, "03")}
UCS2, YES_OR_NO, PACKED, CLEARED_BY_USER = 0x03, 0x04, 0x08, 0x80


@dataclasses.dataclass(frozen=True)
class Understood(handset.Command):
    """A command, with all its objects."""
    found: tuple = ()

    def object(self, tag):
        return next((value for one, _, value in self.found if one == tag), None)


class AbleTerminal(Terminal):
    """The handset, with all that it lacks."""

    def __init__(self, card):
        super().__init__(card, PROFILE)
        self.open = set()

    def _forget(self):
        super()._forget()
        self.open = set()

    # how it reads

    def understood(self, raw):
        found = objects_of(raw)
        if found is None:
            raise Unread(BAD_DATA)
        details = first_of(found, 0x01)
        first_of(found, 0x02)
        if details[1] not in NEEDED:
            raise Unread(NOT_UNDERSTOOD)
        for tag in NEEDED[details[1]]:
            first_of(found, tag)
        if any(flag and tag not in KNOWN for tag, flag, _ in found):
            raise Unread(BAD_DATA)
        items = tuple(value[0] for tag, _, value in found if tag == 0x0F and value)
        return Understood(details, self._value(details, found), items, self._span(details, found), tuple(found))

    def _value(self, details, found):
        values = {tag: value for tag, _, value in reversed(found)}
        tag = {handset.TIMERS: 0x24, handset.POLL_INTERVAL: 0x04, handset.EVENT_LIST: 0x19, handset.TONE: 0x0E}.get(details[1], 0x0D)
        if details[1] == handset.TIMERS:
            if details[2] == handset.START and 0x25 not in values:
                raise Unread(MISSING)
            return values[tag][0]
        if details[1] == handset.TONE:
            return values.get(tag, bytes((GENERAL_BEEP,)))[0]
        return values.get(tag, b"")[1:][0] if tag == 0x04 else values.get(tag, b"")

    def _span(self, details, found):
        if details[1] == handset.TIMERS and details[2] == handset.START:
            return handset.time_of(first_of(found, 0x25))
        return tuple(first_of(found, 0x11)) if details[1] == handset.INPUT else (1, 1)

    # what it does

    def carry_out(self, command):
        if command.kind in (handset.TEXT, handset.INKEY, handset.INPUT, handset.IDLE_TEXT):
            return self._show_text(command)
        if command.kind in ASKED and (command.object(0x05) or command.kind == CALL):
            return self._shown(f"ask {decode.printable(command.object(0x05) or b'')}")
        if command.kind == BROWSER:
            return self._shown("ask")
        if command.kind == handset.LOCAL and command.qualifier:
            return self._local(command)
        if command.kind >= OPEN:
            return self._channel(command)
        return handset.CARRIED_OUT[command.kind](self, command) if command.kind in handset.CARRIED_OUT else self._respond(DONE)

    def _show_text(self, command):
        text, words = letters(command.value), {handset.TEXT: "text", handset.IDLE_TEXT: "idle"}
        default = command.object(0x17) if command.kind == handset.INPUT else None
        waits = command.kind != handset.IDLE_TEXT and (command.kind != handset.TEXT or command.qualifier & CLEARED_BY_USER)
        answer = self._shown(f"{words.get(command.kind, 'ask')} {text}".rstrip(), None if waits else DONE)
        if default:
            self._note(f"default {letters(default)}")
        return answer

    def _local(self, command):
        if command.qualifier not in LOCAL:
            return self._respond(handset.BEYOND)
        tag, value = LOCAL[command.qualifier]
        return self._respond(Reply(DONE.result, tlv.written(tag, bytes.fromhex(value))))

    def _channel(self, command):
        number = (command.object(0x02) or bytes(2))[1] - 0x20
        if command.kind == OPEN:
            self.open.add(1)
            told = tlv.written(0x38, b"\x81\x00") + tlv.written(0x35, command.object(0x35)) + tlv.written(0x39, command.object(0x39))
            return self._respond(Reply(DONE.result, told))
        if command.kind == CHANNELS:
            return self._respond(Reply(DONE.result, tlv.written(0x38, b"\x81\x00" if self.open else b"\x00\x00")))
        if number not in self.open:
            return self._respond(NO_CHANNEL)
        if command.kind == CLOSE:
            self.open.discard(number)
            return self._respond(DONE)
        if command.kind == RECEIVE:
            return self._respond(Reply(LESS, tlv.written(0x36, b"") + tlv.written(0x37, b"\x00")))
        return self._respond(Reply(DONE.result, tlv.written(0x37, bytes((MOST_ROOM,)))))

    # what its user does

    def happen(self, said):
        more = {("user", "help"): self._help, ("user", "refuse"): lambda: self._answer(False), ("user", "ok"): self._accept}
        if isinstance(said, Handset) and (said.word, said.act) in more:
            self._line(more[said.word, said.act])
        else:
            super().happen(said)

    def _accept(self):
        if self._holds(handset.TEXT):
            return self._respond(DONE)
        if self._holds(handset.INPUT) and self.held.object(0x17):
            return self._type(letters(self.held.object(0x17)).encode("ascii"))
        return self._answer(True)

    def _answer(self, is_yes):
        if self._holds(handset.INKEY) and self.held.qualifier & YES_OR_NO:
            return self._respond(Reply(DONE.result, tlv.written(0x0D, bytes((0x04, is_yes)))))
        if not self._holds(CALL, OPEN, BROWSER):
            return None
        if not is_yes:
            return self._respond(REFUSED)
        return self._channel(self.held) if self._holds(OPEN) else self._respond(DONE)

    def _help(self):
        if self._holds(handset.ITEMS):
            return self._respond(Reply(HELP.result, handset.item_object(self.held.items[0])))
        return self._respond(HELP) if self.held else None

    def _type(self, text):
        if not self._holds(handset.INKEY, handset.INPUT) or not self.held.span[0] <= len(text) <= self.held.span[1]:
            return None
        text, qualifier = text.decode("ascii"), self.held.qualifier
        if qualifier & UCS2 == UCS2:
            value = b"\x08" + text.encode("utf-16-be")
        elif qualifier & PACKED:
            value = b"\x00" + packed(text)
        else:
            value = b"\x04" + text.encode("ascii")
        return self._respond(Reply(DONE.result, tlv.written(0x0D, value)))


class Able(InPython):
    """The able terminal, for tools/sequence."""
    name = "a terminal that is able"

    def __init__(self):
        super().__init__(AbleTerminal)
