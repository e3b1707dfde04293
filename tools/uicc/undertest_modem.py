"""Terminals under test that have the card by a modem (modem.py): oFono, and any program that speaks AT commands."""
import re
import sys
import threading
import time

from . import handset, modem_line, ofono
from .modem import Modem
from .undertest import Lost, Unable, UnderTest, instruction
from .wording import letters

PIN = "1234"
PIN_1, IMSI = 0x01, ("7F20", "6F07")
# the card that has all that oFono needs
ITS_CARD = "examples/telephone.script"
# what the modem tells the card for oFono 1.31: what that does over this modem. It answers as not understood POLLING OFF, SET UP EVENT LIST, SEND SS,
# RUN AT COMMAND and channels, and as beyond the terminal's capabilities messages and USSD, which this modem can't send, and local information
# other than date, time and language (tools/tests/test_under_test.py tries each)
OFONO_PROFILE = bytes.fromhex("29 60 BF 31 00 00 00 1F 6A")
HERE = "127.0.0.1"
ITEM, DEFAULT = 0x0F, 0x17
CALL, BROWSER, OPEN_CHANNEL = 0x10, 0x15, 0x40
YES_OR_NO = 0x04
# so long on a machine that is busy with other things
QUIET_SECONDS = 60
NO_LETTER = re.compile("[\x00-\x1F\x7F-\x9F\u2028\u2029]")
MOST_OF_CARD = 64
# what oFono's agent is asked: how it is noted, and which of what it is told is shown
QUESTIONS = {
    "DisplayText": "text", "RequestInput": "ask", "RequestDigits": "ask", "RequestKey": "ask", "RequestDigit": "ask",
    "RequestQuickDigit": "ask", "RequestConfirmation": "ask", "ConfirmCallSetup": "ask", "ConfirmOpenChannel": "ask",
    "ConfirmLaunchBrowser": "ask"}
# which of them have a text that stands there already
WITH_DEFAULT = ("RequestInput", "RequestDigits")
TONES = ("dial-tone", "busy", "congestion", "radio-path-acknowledge", "radio-path-not-available", "error", "call-waiting", "ringing-tone")
MORE_TONES = ("general-beep", "positive-acknowledgement", "negative-acknowledgement")
TONE_CODES = {**{name: code for code, name in enumerate(TONES, 0x01)}, **{name: code for code, name in enumerate(MORE_TONES, 0x10)}}
# the commands at which oFono's user is asked for something
ASKING = (handset.TEXT, handset.INKEY, handset.INPUT, handset.ITEMS, CALL, BROWSER, OPEN_CHANNEL)
ANSWERS = ("ok", "back", "end", "none", "type", "pick", "help", "refuse")


def default_of(raw):
    """The text that stands there already, where the user is asked for one; None where none does."""
    return next((letters(value) for tag, _, value in handset.objects_of(raw) or () if tag == DEFAULT and len(value) > 1), None)


def items_of(raw):
    return [value[0] for tag, _, value in handset.objects_of(raw) or () if tag == ITEM and value]


def answer_to(raw, said):
    """What oFono's agent answers for its user to a command; None where it has no such answer."""
    kind, qualifier = handset.details_of(raw)[1:]
    asks_yes = kind in (CALL, BROWSER, OPEN_CHANNEL) or kind == handset.INKEY and qualifier & YES_OR_NO
    if said.act in ("back", "end"):
        return ofono.GO_BACK if said.act == "back" else ofono.END_SESSION
    if said.act == "ok":
        if kind == handset.INPUT and default_of(raw):
            return {"value": default_of(raw)}
        return {"value": True} if asks_yes else {"value": None} if kind == handset.TEXT else None
    if said.act == "refuse":
        return {"value": False} if asks_yes else None
    if said.act == "type":
        return {"value": said.value} if kind in (handset.INKEY, handset.INPUT) else None
    if said.act == "pick" and kind == handset.ITEMS and said.value in items_of(raw):
        return {"value": items_of(raw).index(said.value)}
    return None


def notes_of(asked):
    """What oFono shows when it asks its user for something, as a handset notes it."""
    name, *told = asked
    if name in QUESTIONS:
        yield f"{QUESTIONS[name]} {told[0]}".rstrip()
    if name in WITH_DEFAULT and told[2]:
        yield f"default {told[2]}"
    if name == "RequestSelection":
        yield f"choose {len(told[2])}"
    if name in ("PlayTone", "LoopTone"):
        yield f"tone {TONE_CODES[told[0]]:02X}" if told[0] in TONE_CODES else f"tone {told[0]}"


def lacking(holds):
    """What oFono needs of a card, and this one hasn't; nothing where it has all."""
    pin = holds.pins.get(PIN_1)
    found = []
    if pin is None or pin.enabled and pin.value.rstrip(b"\xFF") != PIN.encode():
        found.append(f"PIN 1 with the value {PIN} (`pin 01 31323334FFFFFFFF on 3132333435363738`)")
    if IMSI not in holds.files:
        found.append(f"EF.IMSI (`ef {''.join(IMSI)}`)")
    return found


def in_one_line(text):
    """A text as a handset notes it: with a point for what is no letter."""
    return NO_LETTER.sub(".", text)


class OfOfono(UnderTest):
    """oFono. Its user answers what it asks when it asks; the sequence says so beforehand."""
    seconds = 20
    # it has a time of its own for all that it asks of oFono
    longest = 600

    def __init__(self):
        why = ofono.why_not()
        if why:
            raise Lost(f"oFono can't be had: {why}")
        self.name = f"oFono {ofono.version()}"
        self.phone, self.player = None, None
        self.prepared, self.menu, self.shown = [], [], {}

    def begin(self, player):
        self.player, self.prepared, self.menu, self.shown = player, [], [], {}
        wanted = lacking(player.card.holds)
        if wanted:
            raise Lost(f"oFono needs a card with {', and '.join(wanted)}; {ITS_CARD} describes one")
        try:
            self._restart(player)
            is_ready = self.phone.enter_pin(PIN) if self.phone.power_on() == "pin" else self.phone.until_ready()
            if not is_ready:
                raise Lost(f"oFono doesn't read the SIM to its end; that of {ITS_CARD} it does")
            self.phone.register_agent()
            self.phone.asked()
            # what the card's own applets ask for first
            self.phone.answer(*[ofono.END_SESSION] * MOST_OF_CARD)
            self.phone.go_online()
            # before that it would hear of no command
            if not self.phone.until(lambda: "NetworkRegistration" in self.phone.interfaces, QUIET_SECONDS):
                raise Lost("oFono finds no network")
        except ofono.OfonoError as fault:
            raise Lost(f"oFono doesn't start: {fault}") from None
        except BaseException:
            # what it was asked last may be answered yet
            self.close()
            raise

    def _restart(self, player):
        """Has it see the card's power go and come."""
        if self.phone is None:
            self.phone = ofono.Ofono(player, OFONO_PROFILE, poll_seconds=0)
            return
        self.phone.power_off()
        with self.phone.modem.lock:
            self.phone.modem.sim = player
            self.phone.modem.set_functionality(0)
            self.phone.modem.set_functionality(4)

    def prepare(self, commands, said):
        asking = [raw for raw in commands if handset.details_of(raw)[1] in ASKING]
        answers = [one for one in said if one.act in ANSWERS]
        if not asking:
            self.phone.answer()
            return
        if len(asking) == 1:
            asking *= max(1, len(answers))
        pairs = list(zip(asking, answers))
        self.prepared = [one for raw, one in pairs if answer_to(raw, one)]
        # where no line says what the user does, nobody does it for him
        self.phone.answer(*(answer_to(raw, one) or ofono.NOTHING for raw, one in pairs),
                          *(ofono.NOTHING if handset.waits_for_user(raw) else {"value": None if handset.details_of(raw)[1] == handset.TEXT else True}
                            for raw in asking[len(pairs):]))

    def poll(self):
        with self.phone.modem.lock:
            self.phone.modem.poll()

    def happen(self, said):
        if any(said is one for one in self.prepared):
            return
        if said.word == "time":
            time.sleep(said.value)
        elif (said.word, said.act) == ("net", "poll"):
            self.poll()
        elif (said.word, said.act) == ("user", "pick"):
            self._pick(said.value)
        elif (said.word, said.act) == ("user", "none"):
            raise Unable("oFono waits three minutes for a user who does nothing")
        else:
            raise Unable(f"oFono's user can't `{said.act or said.word}` here" if said.word == "user" else
                         f"there is no way to have `{said.word} {said.act}` happen at oFono")

    def _pick(self, number):
        """Picks an entry of the main menu, where it has it."""
        menu = next((items_of(raw) for raw in reversed(self._fetched()) if handset.details_of(raw)[1] == handset.MENU), [])
        if number in menu and self.phone.menu:
            try:
                self.phone.pick(menu.index(number))
            except ofono.OfonoError as fault:
                raise Unable(f"oFono doesn't take it: {fault}") from None

    def _fetched(self):
        return [heard.data for heard in list(self.player.heard) if heard.kind == "fetch"]

    def look(self):
        for moment, asked in self.phone.asked_when():
            for note in notes_of(asked):
                self.player.note(in_one_line(note), moment)
        toolkit = self.phone.toolkit
        shown = {"idle": toolkit.get("IdleModeText", ""), "menu": str(len(toolkit.get("MainMenu", [])))}
        for word, text in shown.items():
            if text != self.shown.get(word, {"idle": "", "menu": "0"}[word]):
                self.player.note(in_one_line(f"{word} {text}".rstrip()))
        self.shown = shown

    def close(self):
        phone, self.phone = self.phone, None
        if phone:
            phone.close()


class AtClient(UnderTest):
    """Any program that speaks AT commands: it connects to a port, and its user is a person who is told what to do."""
    name = "a client by AT commands"
    seconds = 60
    longest = 10
    has_person = True
    is_seen = False

    def __init__(self, port=0, tell=lambda text: print(text, file=sys.stderr, flush=True)):
        self.tell = tell
        try:
            self.line = modem_line.TcpLine(HERE, port, tell)
        except OSError as fault:
            raise Lost(f"no modem can be at port {port}: {fault}") from None
        self.modem, self.fault, self.server = None, None, None
        tell(f"  the modem is at {HERE}, port {self.line.address[1]}: the toolkit begins at AT+CFUN=1")

    def begin(self, player):
        if self.modem is None:
            self.modem = Modem(player, self.line.write, poll_seconds=0)
            self.server = threading.Thread(target=self._serve, daemon=True)
            self.server.start()
            return
        with self.modem.lock:
            is_on = self.modem.is_told
            self.modem.sim = player
            self.modem.power_on()
            if is_on:
                self.modem.tell_profile()
            self.modem.attend()

    def missing(self):
        return None if self.line.has_client else f"no client connected to port {self.line.address[1]}"

    def _serve(self):
        try:
            self.line.serve(self.modem)
        except Exception as fault:
            # the card ended: who plays is told
            self.fault = fault

    def poll(self):
        if self.fault:
            raise self.fault
        with self.modem.lock:
            self.modem.poll()

    def happen(self, said):
        if said.word == "time":
            time.sleep(said.value)
        elif (said.word, said.act) == ("net", "poll"):
            self.poll()
        else:
            self.tell("  " + instruction(said))

    def must_show(self, note):
        self.tell(f"  it must show now: {note}")

    def close(self):
        self.line.stop()
        if self.server:
            self.server.join()
        self.line.close()
