"""A player between a card and a terminal. It gives proactive commands of its own to the terminal, as if the card gave them, and hands
everything else on.

Of its own it answers three things and no more: the FETCH of a command of its own, the TERMINAL RESPONSE to it, and 91XX in the place
of the card's 9000, where its own command waits. While a command of the card's is out, its own ones wait, and the other way about: a
terminal sees one command at a time. It has the calls `transmit` and `reset` of a Card, and its trace, so that a terminal takes it in
the place of one."""
import collections
import dataclasses
import threading
import time

from . import decode, process, trace
from .card import Answer, PowerLost, as_answer, as_bytes

DONE = "9000"
TOOLKIT_CLASS = 0x80
WRONG_LENGTH = "6C"

PLAYER, CARD, BOTH = "player", "card", "card, with a status by the player"
# the mark before a command in a trace, where the card alone didn't answer it
MARKS = {PLAYER: "* player: this is answered by the player", BOTH: "* player: this is answered by the card, but for its status"}

# what is heard of a terminal; a response to a command of the card's own is one `for the card`
FETCHED, RESPONDED, STRAY, TOLD, PROFILED, ASKED, RESET = "fetch", "response", "stray response", "envelope", "profile", "status", "reset"
FOR_CARD = "for the card"
# a FETCH that gets no command: of a wrong length, or where nothing is announced; their data are the command and the status
MISFETCHED, UNANNOUNCED = "fetch of a wrong length", "fetch of nothing"
# a command of the toolkit whose header isn't as it must be (ETSI TS 102 221, 11.2): its P1 P2, or its length; its data are it and its status
MISHEADED = "command with a wrong header"
HEADED = {decode.PROFILE: "TERMINAL PROFILE", decode.FETCH: "FETCH", decode.RESPONSE: "TERMINAL RESPONSE", decode.ENVELOPE: "ENVELOPE"}
OF_CARD = {decode.RESPONSE: STRAY, decode.ENVELOPE: TOLD, decode.PROFILE: PROFILED, decode.STATUS: ASKED}


@dataclasses.dataclass(frozen=True)
class Heard:
    """Something that the terminal did: its kind, the data of it, and when."""
    kind: str
    data: bytes
    at: float


@dataclasses.dataclass(frozen=True)
class Exchange:
    """A command, its answer, who gave that, and when the command came."""
    whose: str
    command: bytes
    answer: Answer | None
    at: float = 0.0


class Player:
    """`card` is a Card, or what has its calls `transmit` and `reset`. `trace` shows all that the terminal saw, `exchanges` the same with whose
    each was, `heard` what the terminal did, and `of_card` the commands of the card's own that it fetched."""

    def __init__(self, card):
        self.card = card
        self.trace, self.exchanges, self.heard, self.of_card = [], [], [], []
        self._changed, self._is_over = threading.Condition(), False
        self._forget()

    def _forget(self):
        # its own commands that aren't fetched yet, and the one that is and has no response
        self._waiting, self._fetched = collections.deque(), None
        # whether the first of them was announced; what the card announced; whether the card waits for the response to one that was fetched
        self._announced, self._of_card, self._card_waits = False, None, False
        # whether the command that was fetched last counts as the player's own, where it doesn't stand between
        self._overheard = False

    # for who plays

    def give(self, raw):
        """Gives a proactive command, once the terminal sends something that it may be announced after."""
        with self._changed:
            self._waiting.append(raw)

    def note(self, text, at=None):
        """Something that the terminal shows, in one line. `at` is when it was shown, by the clock of `time.monotonic`, where that is told later:
        it stands before the commands that came after it then."""
        if not isinstance(text, str):
            raise TypeError(f"`note` takes what is shown as text, and not {text!r}")
        if not text or len((text + ".").splitlines()) > 1:
            raise ValueError(f"a note is one line of text, and not {text!r}")
        with self._changed:
            self.trace.insert(len(self.trace) if at is None else self._place_at(at), "* " + text)
            self._changed.notify_all()

    def _place_at(self, at):
        """The place in the trace of what was shown at a moment: before the commands that came later, and after what was noted before."""
        place, exchanges = len(self.trace), reversed(self.exchanges)
        for number in reversed(range(len(self.trace))):
            line = self.trace[number]
            if line.startswith("* ") or line.startswith("> ") and next(exchanges).at <= at:
                break
            if line.startswith("> "):
                place = number
        return place

    @property
    def card_waits(self):
        """Whether the card waits for the response to a command of its own."""
        return self._card_waits

    @property
    def card_is_first(self):
        """Whether a command of the card's own is out, or announced, so that the player's have to wait."""
        return self._card_waits or self._of_card is not None

    def overhear(self, lines, is_own):
        """Takes the lines of a trace of a card and a terminal that the player doesn't stand between. `is_own` says of a proactive command
        whether it counts as one of the player's."""
        with self._changed:
            for part in trace.parts(lines):
                if isinstance(part, trace.Mark):
                    self.trace.append(part.text)
                    if part.text == process.RESET:
                        self._overheard = False
                        self._hear(RESET)
                else:
                    self._overhear(part, is_own)
            self._changed.notify_all()

    def _overhear(self, part, is_own):
        answer = None if part.answer is None else Answer(part.answer[:-2], part.status)
        self.trace += ["> " + decode.hexed(part.command), part.mark or "< " + decode.hexed(part.answer)]
        self.exchanges.append(Exchange(CARD, part.command, answer))
        apdu = decode.Apdu(part.command)
        if apdu.ins == decode.FETCH and answer:
            self._overheard = is_own(answer.data)
            if self._overheard:
                self._hear(FETCHED, answer.data)
        elif apdu.ins == decode.RESPONSE:
            if self._overheard:
                self._hear(RESPONDED, apdu.data)
        elif apdu.ins in OF_CARD:
            self._hear(OF_CARD[apdu.ins], apdu.data)

    def wait_for(self, find, seconds):
        """What `find` finds, as soon as it does; None where it doesn't in so many seconds."""
        with self._changed:
            return self._changed.wait_for(find, seconds)

    def marked(self):
        """The trace, with a mark before each command that the card alone didn't answer."""
        with self._changed:
            lines, exchanges = list(self.trace), iter(list(self.exchanges))
        for line in lines:
            whose = next(exchanges).whose if line.startswith("> ") else CARD
            if whose in MARKS:
                yield MARKS[whose]
            yield line

    def leave(self):
        """The player has played: from now on the terminal finds no card."""
        with self._changed:
            self._is_over = True

    # for the terminal

    def transmit(self, command):
        command = as_bytes(command)
        with self._changed:
            self._refuse()
            came = time.monotonic()
            self.trace.append("> " + decode.hexed(command))
            try:
                whose, answer = self._answer(command)
            except PowerLost:
                self.trace.append(process.CUT)
                self.exchanges.append(Exchange(CARD, command, None, came))
                raise
            self.exchanges.append(Exchange(whose, command, answer, came))
            self.trace.append("< " + decode.hexed(answer.data) + str(answer.status))
            self._changed.notify_all()
        return answer

    def reset(self):
        with self._changed:
            self._refuse()
            self._forget()
            self._hear(RESET)
            self._changed.notify_all()
            try:
                self.card.reset()
            except PowerLost:
                self.trace.append(process.CUT)
                raise
            self.trace.append(process.RESET)

    # how it answers

    def _refuse(self):
        if self._is_over:
            raise PowerLost("the card was taken out")

    def _hear(self, kind, data=b""):
        self.heard.append(Heard(kind, data, time.monotonic()))

    def _answer(self, command):
        apdu = decode.Apdu(command)
        of_toolkit = command[:1] != b"" and command[0] & 0xF0 == TOOLKIT_CLASS
        if of_toolkit and command[1:2] and command[1] in HEADED and (not apdu.ok or command[2:4] != bytes(2)):
            answer = as_answer(self.card.transmit(command))
            self._hear(MISHEADED, command + bytes.fromhex(str(answer.status)))
            return CARD, answer
        of_toolkit = of_toolkit and apdu.ok
        if of_toolkit and apdu.ins == decode.FETCH and self._announced:
            return PLAYER, self._fetch(command, apdu)
        if of_toolkit and apdu.ins == decode.RESPONSE and self._fetched is not None:
            self._fetched = None
            self._hear(RESPONDED, apdu.data)
            return PLAYER, Answer(b"", self._status(DONE))
        return self._handed_on(command, apdu, of_toolkit)

    def _fetch(self, command, apdu):
        raw = self._waiting[0]
        if apdu.le is None or apdu.le not in (0, len(raw) % 256):
            answer = Answer(b"", f"{WRONG_LENGTH}{len(raw) % 256:02X}")
            self._fetched_nothing(command, answer)
            return answer
        self._waiting.popleft()
        self._announced, self._fetched = False, raw
        self._hear(FETCHED, raw)
        return Answer(raw, DONE)

    def _fetched_nothing(self, command, answer):
        kind = MISFETCHED if answer.status.startswith(WRONG_LENGTH) else UNANNOUNCED
        self._hear(kind, command + bytes.fromhex(str(answer.status)))

    def _handed_on(self, command, apdu, of_toolkit):
        answer = as_answer(self.card.transmit(command))
        if of_toolkit and apdu.ins in OF_CARD:
            is_for_card = apdu.ins == decode.RESPONSE and self._card_waits
            self._hear(FOR_CARD if is_for_card else OF_CARD[apdu.ins], apdu.data)
        if of_toolkit and apdu.ins == decode.FETCH and answer.status != DONE:
            self._fetched_nothing(command, answer)
        if of_toolkit and apdu.ins == decode.FETCH and answer.status == DONE:
            self._of_card, self._card_waits = None, True
            self.of_card.append(answer.data)
        if of_toolkit and apdu.ins == decode.RESPONSE and answer.status.startswith(("90", "91")):
            self._card_waits = False
        if answer.status.startswith("91"):
            self._of_card = answer.status
        given = Answer(answer.data, self._status(answer.status))
        return (CARD if given == answer else BOTH), given

    def _status(self, status):
        """The status of what was answered so: what is announced with it, if anything is."""
        if status != DONE and not status.startswith("91"):
            return status
        if self._fetched is not None:
            return DONE
        if self._waiting and (self._announced or not self._of_card and not self._card_waits):
            self._announced = True
            return f"91{len(self._waiting[0]) % 256:02X}"
        return self._of_card or DONE
