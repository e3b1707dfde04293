"""Sequences, played to a terminal under test, and what is to be said of it."""
import dataclasses
import itertools
import time

from . import decode, grammar, handset, names, tlv, tree
from .handset import DETAILS, details_of
from .player import (
    ASKED, FETCHED, FOR_CARD, HEADED, MISFETCHED, MISHEADED, PROFILED, RESET, RESPONDED, STRAY, TOLD, UNANNOUNCED, Player)
from .process import Ended, NotBuilt
from .sequence import RESULT, Act, Give, Poll, Quiet, Respond, Restart, Shown, Step, Tell, has
from .undertest import Lost, NotBack, Unable, Unsupported, limited, place_of, told, wrong_value
from .wording import flag_text, label_of

PASSED, FAILED, INCONCLUSIVE, UNSUPPORTED = "passed", "failed", "inconclusive", "not supported"
VERDICTS = (PASSED, FAILED, INCONCLUSIVE, UNSUPPORTED)
# how long nothing may come where nothing must
QUIET_SECONDS = 1
# how often a terminal is asked what it shows
LOOK_SECONDS = 0.2
NO_RESPONSE = 0x12
ITEM, LENGTH = 0x0F, 0x11
# what counts for no step where it comes before the sequence's first command, or between the card's own
BESIDE = (RESET, PROFILED, ASKED, MISFETCHED, UNANNOUNCED, MISHEADED)
# how much of a command is told: its header and its length
HEADER = 5
# how long a method of a terminal may take that says nothing else, and at least
USUAL_SECONDS, LEAST_SECONDS = 10, 1
# what the terminal's user does at a command of the card's own, which isn't the sequence's
AT_CARDS_OWN = {handset.TEXT: "ok", handset.INKEY: "end", handset.INPUT: "end", handset.ITEMS: "end"}
# so many commands of the card's own, and it isn't waited for more
MOST_OF_CARD = 64


@dataclasses.dataclass(frozen=True)
class Row:
    """An object: what it must be and what it is, each in words; None where it isn't there."""
    label: str
    wanted: str | None
    found: str | None
    is_right: bool


class Differs(Exception):
    """The terminal does something else than it must."""

    def __init__(self, why, rows=()):
        super().__init__(why)
        self.rows = list(rows)


class Undecided(Exception):
    """Nothing can be said of the terminal."""


@dataclasses.dataclass
class Outcome:
    """A sequence and its verdict: why, at which step, and the objects of a response that isn't as it must be. `unseen` is what a
    terminal must have shown that doesn't tell what it shows, `of_card` the names of the commands that were the card's own, and `lost` why no
    sequence can be played after this one, where the terminal or the card is there no more."""
    sequence: object
    verdict: str = PASSED
    why: str = ""
    step: object = None
    rows: list = dataclasses.field(default_factory=list)
    unseen: list = dataclasses.field(default_factory=list)
    of_card: list = dataclasses.field(default_factory=list)
    seconds: float = 0.0
    player: object = None
    lost: str = ""


def rows_of(one, flag, value):
    """An object that must come beside the one that came; and its flag (CR), where that is another one."""
    yield Row(one.label, one.told(), decode.object_text(one.tag, value, False), one.fits(one.flag, value))
    if one.flag not in (None, flag):
        yield Row(f"flag of the {one.label}", flag_text(one.flag), flag_text(flag), False)


def compared(wanted, found, has_more):
    """Objects that must come beside those that came: a row for each."""
    rows, left = [], list(found)
    for one in wanted:
        place = next((n for n, (tag, _, _) in enumerate(left) if tag == one.tag), None)
        if place is None:
            rows.append(Row(one.label, one.told(), None, one.optional))
            continue
        _, flag, value = left.pop(place)
        rows += rows_of(one, flag, value)
    return rows + [Row(label_of(tag), None, decode.object_text(tag, value, False), has_more) for tag, _, value in left]


def objects_in(content, what):
    try:
        return list(tlv.objects(content))
    except tlv.BadTlv as fault:
        raise Differs(f"{what} is no list of objects: {fault}: {decode.hexed(content) or 'nothing'}") from None


def check(what, wanted, content, has_more):
    rows = compared(wanted, objects_in(content, what), has_more)
    if not all(row.is_right for row in rows):
        raise Differs(f"{what} isn't as it must be", rows)


def items_of(raw):
    return [value[0] for tag, _, value in handset.objects_of(raw) or () if tag == ITEM and value]


def is_of_user(step):
    """Whether a response that must come says what the user did: a result of 0X or 1X. Others a terminal gives by itself."""
    wanted = next((one.pattern for one in step.objects if one.tag == RESULT), "0")
    return all(part[:1] in ("0", "1") for part in wanted.split("|"))


def vain(said, raw, menu):
    """Why a user can't do something at a command, by what the command says, or the menu that was given last; None where he can."""
    kind, found = details_of(raw)[1], handset.objects_of(raw) or ()
    if said.act == "pick" and kind == handset.ITEMS:
        return None if said.value in items_of(raw) else f"the command has no item {said.value}"
    if said.act == "pick" and menu and said.value not in items_of(menu):
        return f"the menu has no entry {said.value}"
    length = next((value for tag, _, value in found if tag == LENGTH and len(value) == 2), None)
    if said.act == "type" and kind == handset.INPUT and length:
        count = len(said.value)
        return None if length[0] <= count <= length[1] else (
            f"`{said.value}` has {tree.plural(count, 'character')}, and the command asks for {length[0]} to {length[1]}")
    return None


def seconds_text(number):
    return f"{number:g} second{'' if number == 1 else 's'}"


def limit_of(terminal, seconds=None):
    """How long a method of a terminal may take before it counts as hung. `seconds` is what the terminal may take for anything, where that
    isn't what it says itself."""
    usual = terminal.seconds or USUAL_SECONDS
    return max(LEAST_SECONDS, terminal.longest, usual if seconds is None else seconds)


class Run:
    """A sequence on its way: what was heard of the terminal and isn't accounted for yet, and where its notes are read on."""

    def __init__(self, sequence, terminal, player, seconds):
        self.sequence, self.terminal, self.player = sequence, terminal, player
        self.seconds = terminal.seconds if seconds is None else seconds
        self.limit = limit_of(terminal, seconds)
        self.taken, self.noted = set(), 0
        # the step that is played, the command that was given last, and the one that the card has ready after it
        self.step = self.given = self.following = None
        # how many of the card's own commands the terminal's user was asked about, and which method of the terminal was called last
        self.of_card, self.method = 0, None
        # the details of the command that was fetched last
        self.details = None
        # the user of this terminal is asked for something that has not come yet
        self.is_user_asked = False
        # the step in which its user was to do what can't be done at this command, and why it can't
        self.vain = None
        # the menu that the sequence gave last, and whether the user did something since the command that was given last
        self.menu, self.has_user_acted = None, False
        self.unseen = []
        # why nothing can be played after this
        self.lost = ""

    def carry_out(self):
        if self.call("accept", self.sequence) is False:
            raise Unsupported("the terminal doesn't accept it")
        self.call("begin", self.player)
        self._begin()
        for place, step in enumerate(self.sequence.steps):
            self.step = step
            if isinstance(step, Give):
                self._give(step, self.sequence.steps[place + 1:])
            else:
                STEPS[type(step)](self, step)
        self.step = None
        self._end()

    def end(self):
        """The sequence is over; what was shown last is told before that."""
        try:
            if not self.lost:
                self.call("look")
        finally:
            self.call("end")

    def call(self, name, *given, more=0):
        """Has the terminal do something, and answers what it does. NotBack, where it hasn't in time."""
        self.method = getattr(self.terminal, name)
        with limited(self.limit + more):
            return self.method(*given)

    # what was heard

    def _find(self, *kinds):
        """The place of the first thing of these kinds that isn't accounted for."""
        return next((n for n, heard in enumerate(self.player.heard) if n not in self.taken and heard.kind in kinds), None)

    def _wait(self, kind, seconds=None):
        """The next thing of a kind; None where none comes in time."""
        limit = self.seconds if seconds is None or not self.terminal.seconds else seconds
        place = self.player.wait_for(lambda: None if self._find(kind) is None else (self._find(kind),), limit)
        if place is None:
            return None
        self.taken.add(place[0])
        return self.player.heard[place[0]]

    def _told_seconds(self, step):
        """Within which time something didn't come; at a terminal that is done when its methods come back there is none."""
        seconds = self.seconds if step.seconds is None else step.seconds
        return f" within {seconds_text(seconds)}" if self.terminal.seconds else ""

    # steps

    def _begin(self):
        told = self._wait(PROFILED)
        if told is None:
            self.step = Step(self.sequence.line, f"sequence {self.sequence.name}")
            nobody = self.call("missing")
            if nobody:
                raise Undecided(f"{nobody} within {seconds_text(self.seconds)}")
            raise Differs(self._misheaded(decode.PROFILE) or "no TERMINAL PROFILE comes")
        lacking = [name for name in self.sequence.needs if not has(told.data, name)]
        if lacking:
            raise Unsupported("its terminal profile doesn't have " + ", ".join(lacking))
        self._let_card_begin()
        self.taken |= {n for n, heard in enumerate(self.player.heard) if heard.kind in BESIDE}

    def _let_card_begin(self):
        """The card's own commands, those of its applets say, come before those of a sequence: the terminal answers them."""
        if not self.player.card_is_first:
            return
        while self.player.card_is_first:
            found = self.player.wait_for(lambda: not self.player.card_is_first or self._asks_user(), self.seconds)
            if not found or len(self.player.of_card) > MOST_OF_CARD:
                raise self._card_was_first()
            if self._asks_user():
                self._have_user_answer()
        self.call("look")
        # what came meanwhile is the card's doing
        self.noted = len(self.player.trace)
        self.taken |= {n for n, heard in enumerate(self.player.heard) if heard.kind in BESIDE}

    def _asks_user(self):
        """Whether the card waits for what the terminal's user says to a command of its own, of which he wasn't told yet."""
        fetched = self.player.of_card
        return self.player.card_waits and len(fetched) > self.of_card and details_of(fetched[-1])[1] in AT_CARDS_OWN

    def _have_user_answer(self):
        self.of_card = len(self.player.of_card)
        try:
            self.call("happen", grammar.Handset("user", AT_CARDS_OWN[details_of(self.player.of_card[-1])[1]]))
        except Unable:
            # it may answer by itself yet
            pass

    def _card_was_first(self):
        """Why nothing can be said of the terminal, where a command of the card's own isn't done with."""
        names = self.cards_own()
        if len(names) > MOST_OF_CARD:
            return Undecided(f"the card's own commands came first, and have no end: {', '.join(names[:3])} ..")
        if self.player.card_waits:
            return Undecided(f"the card's own command came first, {names[-1]}, and the terminal doesn't answer it")
        return Undecided("the card's own command came first, and the terminal doesn't fetch it")

    def cards_own(self):
        """The names of the card's own commands that were fetched."""
        return [decode.title_proactive(raw) for raw in list(self.player.of_card)]

    def _give(self, step, after):
        following = next((other for other in after if isinstance(other, Give)), None)
        self.given, self.following = step, following if following and following.follows else None
        self.vain, self.has_user_acted = None, False
        if step.details[1] == handset.MENU:
            self.menu = step.raw
        if not step.follows:
            self._let_card_begin()
            # those that are announced by the answers to the responses before them have to be there by then
            session = list(itertools.takewhile(lambda other: not isinstance(other, Give) or other.follows, after))
            commands = [step, *(other for other in session if isinstance(other, Give))]
            self.call("prepare", [one.raw for one in commands], [other.said for other in session if isinstance(other, Act)])
            for one in commands:
                self.player.give(one.raw)
            self.call("poll")
        heard = self._wait(FETCHED)
        if heard is None:
            raise self._card_was_first() if self.player.card_is_first else Differs("the command isn't fetched" + self._instead())
        self.details = details_of(heard.data)

    def _instead(self):
        """What the terminal did in the place of fetching a command."""
        if self._find(RESET) is not None:
            return ": the card is reset before that, and the command is gone with the reset"
        place = self._find(MISFETCHED, UNANNOUNCED)
        if place is None:
            misheaded = self._misheaded(decode.FETCH)
            return misheaded and ": " + misheaded
        return ": " + refused_text(self.player.heard[place].data)

    def _misheaded(self, *instructions):
        """What is told of a command of the toolkit with a wrong header, of these alone where some are given; nothing where none came."""
        found = [heard.data for n, heard in enumerate(self.player.heard) if n not in self.taken and heard.kind == MISHEADED]
        return next((refused_text(data) for data in found if not instructions or data[1] in instructions), "")

    def _respond(self, step):
        heard = self._wait(RESPONDED, step.seconds)
        asked, self.is_user_asked = self.is_user_asked, False
        if heard is None:
            if self._find(STRAY) is not None:
                raise Differs(self._stray())
            if self.vain:
                self.step, why = self.vain
                raise Undecided(why)
            if asked and self.terminal.has_person:
                raise Undecided(f"the terminal's user did nothing{self._told_seconds(step)}")
            raise self._unanswered(step)
        if not step.objects:
            return
        try:
            check("the TERMINAL RESPONSE", self._objects(step), heard.data, step.has_more)
        except Differs:
            if self.vain:
                self.step, why = self.vain
                raise Undecided(why) from None
            if asked and self.terminal.has_person and (decode.result_of(heard.data) or b"")[:1] == bytes((NO_RESPONSE,)):
                raise Undecided("the terminal's user did nothing, so it says") from None
            raise

    def _unanswered(self, step):
        """What is said where no response comes, by what came in its place."""
        what = f"no TERMINAL RESPONSE comes{self._told_seconds(step)}"
        misheaded = self._misheaded(decode.RESPONSE)
        if misheaded:
            return Differs(f"{what}: {misheaded}")
        if self._find(RESET) is not None:
            hint = "; for a REFRESH that resets the card a step `restart` asks" if self.given and self.given.details[1] == handset.REFRESH else ""
            return Differs(f"{what}: the card is reset in its place{hint}")
        if self.given and handset.waits_for_user(self.given.raw) and is_of_user(step) and not self.has_user_acted:
            return Undecided(f"{what}: the command waits for the user, and no line `user` stands after it")
        return Differs(what)

    def _objects(self, step):
        """What a response must have: the number of the command is that which it was fetched with."""
        return [dataclasses.replace(one, pattern=decode.hexed(self.details)) if one.tag == DETAILS and one.is_exact
                and one.pattern[2:] == decode.hexed(self.details)[2:] else one for one in step.objects]

    def _tell(self, step):
        heard = self._wait(TOLD, step.seconds)
        asked, self.is_user_asked = self.is_user_asked, False
        if heard is None:
            if asked and self.terminal.has_person:
                raise Undecided(f"the terminal's user did nothing{self._told_seconds(step)}")
            if self.vain:
                self.step, why = self.vain
                raise Undecided(why)
            misheaded = self._misheaded(decode.ENVELOPE)
            raise Differs(f"no ENVELOPE comes{self._told_seconds(step)}" + (misheaded and ": " + misheaded))
        try:
            tag, content = tlv.template(heard.data)
        except tlv.BadTlv as fault:
            raise Differs(f"the ENVELOPE is no template: {fault}: {decode.hexed(heard.data) or 'nothing'}") from None
        if tag != step.tag:
            raise Differs("the ENVELOPE is another one", [Row("template", template_name(step.tag), template_name(tag), False)])
        check("the ENVELOPE", step.objects, content, step.has_more)

    def _quiet(self, _):
        heard = self._wait(TOLD, min(self.seconds, QUIET_SECONDS))
        if heard is not None:
            raise Differs("an ENVELOPE comes where none must", envelope_rows(heard.data))

    def _restart(self, step):
        for kind, what in ((RESET, "the card isn't reset"), (PROFILED, "no TERMINAL PROFILE comes after the reset")):
            if self._wait(kind, step.seconds) is None:
                raise Differs(f"{what}{self._told_seconds(step)}{self._answered()}")

    def _poll(self, step):
        if self._wait(ASKED, step.seconds) is None:
            raise Differs(f"no STATUS comes{self._told_seconds(step)}")

    def _shown(self, step):
        if not self.terminal.is_seen:
            self.unseen.append(step.note)
            self.call("must_show", step.note)
            return
        place = self._look_for(step.note)
        if place:
            self.noted = place
            return
        shown = self._shown_for_command()
        raise Differs(f"{'something else' if shown else 'nothing'} is shown{self._answered()}",
                      [Row("shown", step.note, "; ".join(shown) or None, False)])

    def _shown_for_command(self):
        """What was shown since the last note that was asked for. At a terminal that is done when its methods come back it isn't what was shown
        for a command that was fetched after this one; another one may tell it later."""
        lines = self.player.trace[self.noted:]
        if self.following and not self.terminal.seconds:
            fetched = f"< {decode.hexed(self.following.raw)}9000"
            lines = itertools.takewhile(lambda line: line != fetched, lines)
        return [line[2:] for line in lines if line.startswith("* ")]

    def _look_for(self, note):
        """The place after a note in the trace; None where it doesn't come in time."""
        end = time.monotonic() + self.seconds
        while True:
            self.call("look")
            place = self.player.wait_for(lambda: self._place_of(note), min(self.seconds, LOOK_SECONDS))
            if place or time.monotonic() >= end:
                return place

    def _place_of(self, note):
        """The place after a note in the trace; None where it isn't there since the last one that was asked for."""
        return next((n for n, line in enumerate(self.player.trace, 1) if n > self.noted and line.rstrip() == "* " + note), None)

    def _answered(self):
        """What the terminal answered already, and to which command, where it did."""
        place = self._find(RESPONDED)
        if place is None:
            return ""
        command = f" to {self.given.title}" if self.given else ""
        return f", and the answer{command} is {decode.title_response(self.player.heard[place].data)}"

    def _act(self, step):
        # what was sent before is not what this leads to
        self.taken |= {n for n, heard in enumerate(self.player.heard) if heard.kind == ASKED}
        self.is_user_asked = True
        if step.said.word == "user":
            self.has_user_acted = True
            why = self.given and vain(step.said, self.given.raw, self.menu)
            self.vain = (step, why) if why else None
        # at a terminal whose methods come back at once time doesn't pass
        more = step.said.value if step.said.word == "time" and self.terminal.seconds else 0
        try:
            self.call("happen", step.said, more=more)
        except Unable as why:
            raise Undecided(str(why)) from None

    def _details_in(self, data):
        """The details in a terminal's response; none where it has none of three bytes."""
        try:
            found = tlv.first(data, DETAILS)
        except tlv.BadTlv:
            return None
        return found if found and len(found) == 3 else None

    def _stray(self):
        """What is said of a response to no command that waits for one. It counts for the command that it names, where that is one of these."""
        details = self._details_in(self.player.heard[self._find(STRAY)].data)
        if details is None:
            return "a TERMINAL RESPONSE comes for a command that wasn't fetched, or was answered already"
        self.step = self.step or self._given_with(details)
        name = f"{decode.details_name(details[1])}, number {details[0]}"
        is_answered = any(heard.kind in (RESPONDED, FOR_CARD) and self._details_in(heard.data) == details for heard in self.player.heard)
        return f"a TERMINAL RESPONSE comes for {name}, which was answered already" if is_answered else (
            f"a TERMINAL RESPONSE comes for {name}, which wasn't fetched")

    def _given_with(self, details):
        """The command of the sequence that has these details."""
        return next((step for step in self.sequence.commands() if step.details == details), None)

    def _end(self):
        """Nothing came that no step asks for."""
        for kind, what in ((STRAY, ""),
                           (RESPONDED, "a TERMINAL RESPONSE comes that no step asks for"),
                           (UNANNOUNCED, "a FETCH comes where no command is announced"),
                           (RESET, "the card is reset, and no step asks for it"), (TOLD, "an ENVELOPE comes that no step asks for"),
                           (MISHEADED, "")):
            place = self._find(kind)
            if place is not None:
                what = what or (self._misheaded() if kind == MISHEADED else self._stray())
                raise Differs(what, envelope_rows(self.player.heard[place].data) if kind == TOLD else ())


STEPS = {Respond: Run._respond, Tell: Run._tell, Quiet: Run._quiet, Restart: Run._restart, Poll: Run._poll, Shown: Run._shown, Act: Run._act}


def refused_text(data):
    """What is told of a command that is refused: its header with its length, and the status, which is at the end of the data."""
    command, status = data[:-2], decode.hexed(data[-2:])
    shown = decode.hexed(command[:HEADER]) + ".." * (len(command) > HEADER)
    return f"the {HEADED[command[1]]} {shown} is answered {status}, {names.status(status)}"


def template_name(tag):
    lines = decode.template(bytes((tag, 0)), "")
    return lines[0].label


def envelope_rows(data):
    return [Row(line.label, None, line.text, False) for line in decode.template(data, "no template") if line.text]


def verdict_of(run, act):
    """What comes of something that is done with a terminal: the verdict, why, and the objects that differ."""
    try:
        act()
    except Differs as fault:
        return FAILED, str(fault), fault.rows
    except Undecided as fault:
        return INCONCLUSIVE, str(fault), []
    except Unsupported as fault:
        return UNSUPPORTED, str(fault), []
    except NotBack as fault:
        place = place_of(fault, run.method)
        return INCONCLUSIVE, f"the terminal did not come back within {seconds_text(run.limit)}" + (f", from {place}" if place else ""), []
    except (Lost, Ended, NotBuilt) as fault:
        run.lost = str(fault)
        return INCONCLUSIVE, run.lost, []
    except KeyboardInterrupt as fault:
        place = place_of(fault, run.method)
        run.lost = "interrupted" + (f", at {place}" if place else "")
        return INCONCLUSIVE, run.lost, []
    except BaseException as fault:
        # the terminal's own, whose code is anybody's
        return FAILED, f"the terminal's class raised {told(fault, run.method)}", []
    return PASSED, "", []


def judged(sequence, terminal, card, seconds=None):
    """Plays a sequence to a terminal over a card, and judges it. `seconds` is how long the terminal may take for anything, where that
    isn't what it says itself."""
    outcome = Outcome(sequence, player=Player(card))
    wrong = wrong_value(terminal)
    if wrong:
        outcome.verdict, outcome.why = FAILED, f"the terminal's class is wrong: {wrong}"
        return outcome
    run = Run(sequence, terminal, outcome.player, seconds)
    began = time.monotonic()
    try:
        outcome.verdict, outcome.why, outcome.rows = verdict_of(run, run.carry_out)
        outcome.step = run.step
    finally:
        try:
            at_end = verdict_of(run, run.end)
        finally:
            outcome.player.leave()
    if outcome.verdict == PASSED:
        outcome.verdict, outcome.why, outcome.rows = at_end
    outcome.unseen, outcome.of_card, outcome.seconds = run.unseen, run.cards_own(), time.monotonic() - began
    outcome.lost = run.lost
    return outcome
