"""What oFono is tried with: what it reads of a card, PINs, the commands of the toolkit, and losses of power. `all_tries` makes a report.

A try passes where oFono does what the standard asks for, fails where it does something else, and isn't supported where oFono says so
itself, by the general results 30 and 31 (command beyond terminal's capabilities, command type not understood)."""
import dataclasses
import os

from . import Card, decode, names, ofono, process, tlv, trace
from .card import Answer
from .sim import Recorded

TELEPHONE = os.path.join(process.TOP, "examples", "telephone.script")
PASSED, FAILED, UNSUPPORTED = "passed", "failed", "not supported"
ICCID, IMSI = "8999901000000123450", "001010123456789"
OWN_NUMBER, ANOTHER_NUMBER = "+99990123456", "+99990654321"
PIN, OTHER_PIN, UNBLOCK = "1234", "4321", "12345678"
MENU = ["Menu", "Note", "Key", "Local", "Again", "Reset"]
BEYOND, UNKNOWN_TYPE = 0x30, 0x31
DISPLAY_TEXT, GET_INKEY, GET_INPUT, SELECT_ITEM, SET_UP_MENU, PLAY_TONE = 0x21, 0x22, 0x23, 0x24, 0x25, 0x20
REFRESH, MORE_TIME, POLL_INTERVAL, EVENT_LIST, LOCAL, TIMER, IDLE_TEXT = 0x01, 0x02, 0x03, 0x05, 0x26, 0x27, 0x28
DETAILS, DEVICES, RESULT, DURATION, TEXT, ITEM, TIMER_IDENTIFIER = 0x01, 0x02, 0x03, 0x04, 0x0D, 0x10, 0x24
FROM_TERMINAL = b"\x82\x81"
# as long as a try waits for what oFono does at once
SECONDS = 20
SECONDS_OF_UPDATE = SECONDS_WITHOUT = 3
MOST_WRITES = 12


# what is known of a version: the tries that don't pass
KNOWN = {"1.31": {
    "after PIN 1 the SIM is read on, with no word of the modem's": FAILED,
    "whoever asked for that update hears that it failed": FAILED,
    "REFRESH that initialises the application": FAILED,
    "REFRESH that resets the card": UNSUPPORTED,
    "SET UP EVENT LIST": UNSUPPORTED,
    "PROVIDE LOCAL INFORMATION, location": UNSUPPORTED,
}}


def surprises(verdicts, version):
    """What differs from what is known of a version, in words; nothing where none is known."""
    if version not in KNOWN:
        return []
    known = {verdict.name: KNOWN[version].get(verdict.name, PASSED) for verdict in verdicts}
    return [f"{verdict.name} {verdict.outcome}, and is known as {known[verdict.name]}" for verdict in verdicts
            if verdict.outcome != known[verdict.name]]


@dataclasses.dataclass(frozen=True)
class Verdict:
    name: str
    outcome: str
    why: str = ""

    def __str__(self):
        return f"{self.outcome:<13}  {self.name}" + (f": {self.why}" if self.why else "")


class Unsupported(Exception):
    """oFono says that it can't do it."""


class Wrong(Exception):
    """oFono does something else than it should."""


class Report:
    """The verdicts, in order; `tell` is given each."""

    def __init__(self, tell=lambda verdict: None):
        self.verdicts, self.tell = [], tell

    def attempt(self, name, tried):
        """Tries something: a function that raises Wrong or Unsupported where it doesn't pass."""
        try:
            tried()
            verdict = Verdict(name, PASSED)
        except Unsupported as fault:
            verdict = Verdict(name, UNSUPPORTED, str(fault))
        except (Wrong, ofono.OfonoError) as fault:
            verdict = Verdict(name, FAILED, str(fault))
        self.verdicts.append(verdict)
        self.tell(verdict)


@dataclasses.dataclass
class Proactive:
    """A proactive command as it was fetched, and what answered it; None where nothing did."""
    command: bytes
    response: bytes | None = None

    @property
    def details(self):
        return tlv.first(tlv.template(self.command)[1], DETAILS)

    @property
    def kind(self):
        return self.details[1]

    def value(self, tag):
        """The value of the first object of the response with a tag."""
        return tlv.first(self.response, tag)


def exchanges_in(lines):
    return [part for part in trace.parts(lines) if isinstance(part, trace.Exchange)]


def proactive_in(exchanges):
    """The proactive commands that were fetched, with what answered them."""
    found = []
    for exchange in exchanges:
        ins = decode.Apdu(exchange.command).ins
        if ins == decode.FETCH and exchange.answer and len(exchange.answer) > 2:
            found.append(Proactive(exchange.answer[:-2]))
        elif ins == decode.RESPONSE and found and found[-1].response is None:
            found[-1].response = decode.Apdu(exchange.command).data
    return found


class Session:
    """A telephone with a card, and what went over between them; `keep` is told each line of that too."""

    def __init__(self, card, between=lambda sim: sim, keep=lambda line: None):
        self.card, self.lines, self.heard, self.keep = card, [], [], keep
        self.phone = ofono.Ofono(between(Recorded(card, self._keep)))

    def _keep(self, line):
        self.lines.append(line)
        self.keep(line)

    def __enter__(self):
        return self

    def __exit__(self, *_):
        self.phone.close()

    def begin(self, pin=PIN):
        """Switches it on, with its PIN and its radio."""
        self.phone.power_on()
        self.phone.enter_pin(pin)
        self.phone.register_agent()
        self.phone.answer("Milk")
        self.phone.go_online()
        self.until(lambda: "NetworkRegistration" in self.phone.interfaces and self.is_quiet(), "the toolkit's first session doesn't end")

    def until(self, look, what, seconds=SECONDS):
        found = self.phone.until(look, seconds)
        if not found:
            raise Wrong(f"{what} within {seconds} seconds")
        return found

    def asked(self):
        """What the user was asked since the last pick, or is told."""
        self.heard += self.phone.asked()
        return self.heard

    def is_over(self):
        """Whether a session that the user began has ended."""
        return self.is_quiet() and ["Release"] in self.asked()

    def is_quiet(self):
        """Whether no command waits to be fetched, or for its answer."""
        with self.phone.modem.lock:
            return not (self.phone.modem.pending or self.phone.modem.command)

    def exchanges(self):
        with self.phone.modem.lock:
            lines = list(self.lines)
        return exchanges_in(lines)

    def proactive(self):
        """The proactive commands so far, with their answers."""
        return proactive_in(self.exchanges())

    def answered(self, kind, after=0, qualifier=None):
        """The command of a kind that came after some others, when oFono answered it as the standard has it: its details, its devices,
        and a general result. Unsupported, where the result says that it can't."""
        name = names.of_toolkit("commands", kind)

        def look():
            return next((one for one in self.proactive()[after:] if one.kind == kind and one.response is not None
                         and qualifier in (None, one.details[2])), None)
        one = self.phone.until(look, SECONDS)
        if one is None:
            is_sent = any(one.kind == kind for one in self.proactive()[after:])
            raise Wrong(f"it isn't answered within {SECONDS} seconds" if is_sent else f"{name} wasn't fetched")
        return judged(one)


def judged(one):
    """A command whose response has what each response has. Unsupported, where its result says that the terminal can't."""
    try:
        details, devices, result = (one.value(tag) for tag in (DETAILS, DEVICES, RESULT))
    except tlv.BadTlv as fault:
        raise Wrong(f"the response is no list of objects: {fault}") from None
    if details != one.details:
        raise Wrong(f"the details of the response are {decode.hexed(details or b'')}, and not {decode.hexed(one.details)}")
    if devices != FROM_TERMINAL:
        raise Wrong("the devices of the response aren't the terminal and the card")
    if not result:
        raise Wrong("the response has no result")
    if result[0] in (BEYOND, UNKNOWN_TYPE):
        raise Unsupported(f"the answer is {decode.object_text(RESULT, result, False)}")
    return one


def expect(found, wanted, what):
    if found != wanted:
        raise Wrong(f"{what} is {found!r}, and not {wanted!r}")


def result_is(one, wanted):
    expect(decode.hexed(one.value(RESULT)), wanted, "the result")


def refused(action, what):
    """Something that oFono has to refuse."""
    try:
        action()
    except ofono.OfonoError:
        return
    raise Wrong(f"{what} is taken")


# what is read

def identity(report, session):
    phone = session.phone
    report.attempt("EF_ICCID is the card's identifier", lambda: expect(phone.sim.get("CardIdentifier"), ICCID, "CardIdentifier"))
    report.attempt("EF_LI and EF_PL are the preferred languages",
                   lambda: expect(phone.sim.get("PreferredLanguages"), ["de", "en", "fr"], "PreferredLanguages"))
    report.attempt("PIN 1 is asked for", lambda: expect(phone.sim.get("PinRequired"), "pin", "PinRequired"))
    report.attempt("the tries that are left are told", lambda: expect(
        phone.sim.get("Retries"), {"pin": 3, "pin2": 3, "puk": 10, "puk2": 10}, "Retries"))
    report.attempt("nothing that PIN 1 protects is shown before it", lambda: expect(phone.sim.get("SubscriberIdentity"), None, "the IMSI"))


def after_pin(report, session):
    phone = session.phone
    report.attempt("EF_IMSI is the subscriber's identity",
                   lambda: expect(phone.sim.get("SubscriberIdentity"), IMSI, "SubscriberIdentity"))
    report.attempt("EF_AD parts the codes of the country and the network", lambda: expect(
        (phone.sim.get("MobileCountryCode"), phone.sim.get("MobileNetworkCode")), ("001", "01"), "the codes"))
    report.attempt("EF_MSISDN is the own number", lambda: expect(
        session.until(lambda: phone.sim.get("SubscriberNumbers"), "no number comes"), [OWN_NUMBER], "SubscriberNumbers"))
    report.attempt("EF_ECC is an emergency number", lambda: expect(
        "911" in phone.properties("VoiceCallManager").get("EmergencyNumbers", []), True, "911 among the EmergencyNumbers"))
    report.attempt("EF_ADN is the telephone book", lambda: telephone_book(phone))


def telephone_book(phone):
    cards = phone.ask("call", "org.ofono.Phonebook", "Import")
    found = [line.partition(":")[2].strip() for line in cards.splitlines() if line.startswith(("FN:", "TEL"))]
    expect(found, ["Voicemail", "+99990100100", "Anna", "+999919005550"], "the telephone book")


# PINs

def pins(report, session):
    phone = session.phone
    phone.power_on()
    identity(report, session)
    report.attempt("a wrong PIN is refused", lambda: wrong_pin(phone))
    report.attempt("the right PIN is taken", lambda: right_pin(session))
    after_pin(report, session)
    report.attempt("PIN 1 is changed", lambda: change(phone))
    report.attempt("PIN 1 is disabled, and asked for no more", lambda: disable(session))
    report.attempt("PIN 1 is enabled", lambda: phone.ask("call", "org.ofono.SimManager", "LockPin", "pin", OTHER_PIN))
    report.attempt("after the power was off PIN 1 is asked for again", lambda: ask_again(session))
    report.attempt("three wrong ones block PIN 1", lambda: block(session))
    report.attempt("a wrong unblock value is refused", lambda: refused(lambda: phone.unblock_pin("11111111", PIN), "a wrong value"))
    report.attempt("the unblock value sets a new PIN 1", lambda: unblock(session))


def wrong_pin(phone):
    refused(lambda: phone.ask("call", "org.ofono.SimManager", "EnterPin", "pin", "0000"), "a wrong PIN")
    expect(phone.until(lambda: phone.sim.get("Retries", {}).get("pin") == 2, SECONDS), True, "two tries left")


def right_pin(session):
    session.phone.enter_pin(PIN)
    expect(session.phone.sim.get("PinRequired"), "none", "PinRequired")


def change(phone):
    refused(lambda: phone.ask("call", "org.ofono.SimManager", "ChangePin", "pin", "0000", OTHER_PIN), "a wrong PIN")
    phone.ask("call", "org.ofono.SimManager", "ChangePin", "pin", PIN, OTHER_PIN)


def disable(session):
    phone = session.phone
    phone.ask("call", "org.ofono.SimManager", "UnlockPin", "pin", OTHER_PIN)
    restart(session)
    expect((phone.sim.get("PinRequired"), phone.sim.get("LockedPins")), ("none", []), "what is asked for, and locked")


def restart(session):
    """Off and on: the card's power too."""
    session.phone.power_off()
    with session.phone.modem.lock:
        session.phone.modem.set_functionality(0)
        session.phone.modem.set_functionality(4)
    session.phone.power_on()


def ask_again(session):
    restart(session)
    expect(session.phone.sim.get("PinRequired"), "pin", "PinRequired")


def block(session):
    phone = session.phone
    for _ in range(3):
        refused(lambda: phone.ask("call", "org.ofono.SimManager", "EnterPin", "pin", "0000"), "a wrong PIN")
    session.until(lambda: phone.sim.get("PinRequired") == "puk", "the unblock value isn't asked for")


def unblock(session):
    expect(session.phone.unblock_pin(UNBLOCK, PIN), IMSI, "the IMSI that is read then")


# the toolkit

def toolkit(report, session):
    phone = session.phone
    session.begin()
    report.attempt("EF_SPN is the provider's name", lambda: expect(
        session.until(lambda: phone.sim.get("ServiceProviderName"), "no name comes"), "Example Mobile", "ServiceProviderName"))
    report.attempt("SET UP EVENT LIST", lambda: result_is(session.answered(EVENT_LIST), "00"))
    report.attempt("SET UP MENU is the main menu", lambda: set_up_menu(session))
    report.attempt("POLL INTERVAL", lambda: expect(session.answered(POLL_INTERVAL).value(DURATION), b"\x01\x1E", "the interval"))
    report.attempt("TIMER MANAGEMENT starts a timer", lambda: expect(
        session.answered(TIMER).value(TIMER_IDENTIFIER), b"\x01", "the timer of the response"))
    report.attempt("GET INPUT asks for a text of its length", lambda: get_input(session))
    for name, entry, answers, tried in (
            ("SELECT ITEM has an item chosen", "Menu", [1, None], select_item), ("PLAY TONE plays the tone", "Menu", [1, None], play_tone),
            ("DISPLAY TEXT shows the text until the user has seen it", "Menu", [0, None], display_text),
            ("SELECT ITEM, backward move", "Menu", [ofono.GO_BACK], results(SELECT_ITEM, "11")),
            ("SELECT ITEM, terminated by the user", "Menu", [ofono.END_SESSION], results(SELECT_ITEM, "10")),
            ("DISPLAY TEXT, backward move", "Menu", [0, ofono.GO_BACK], results(DISPLAY_TEXT, "11")),
            ("DISPLAY TEXT, terminated by the user", "Menu", [0, ofono.END_SESSION], results(DISPLAY_TEXT, "10")),
            ("DISPLAY TEXT, while the screen is busy", "Menu", [0, ofono.BUSY], results(DISPLAY_TEXT, "2001")),
            ("GET INPUT, terminated by the user", "Note", [ofono.END_SESSION], results(GET_INPUT, "10")),
            ("GET INPUT takes no text that is too long", "Note", ["A" * 21], results(GET_INPUT, None)),
            ("GET INKEY asks for a key", "Key", ["5", None], get_inkey),
            ("GET INKEY, backward move", "Key", [ofono.GO_BACK], results(GET_INKEY, "11")),
            ("PROVIDE LOCAL INFORMATION, date and time", "Local", [], local(3, 0x26)),
            ("PROVIDE LOCAL INFORMATION, language", "Local", [], local(4, 0x2D)),
            ("PROVIDE LOCAL INFORMATION, location", "Local", [], local(0, 0x13)), ("MORE TIME", "Local", [], results(MORE_TIME, "00")),
            ("SET UP IDLE MODE TEXT", "Local", [], idle_text)):
        report.attempt(name, picked(session, entry, answers, tried))


def set_up_menu(session):
    result_is(session.answered(SET_UP_MENU), "00")
    expect((session.phone.menu, session.phone.toolkit.get("MainMenuTitle")), (MENU, "Menu"), "the menu")


def get_input(session):
    one = session.answered(GET_INPUT)
    result_is(one, "00")
    expect(one.value(TEXT), b"\x04Milk", "the text of the response")
    expect(session.asked(), [["RequestInput", "Note?", 0, "", 0, 20, False]], "what was asked")


def picked(session, entry, answers, tried):
    """A try after an entry of the menu was picked."""
    def attempt():
        session.asked()
        session.heard.clear()
        before = len(session.proactive())
        session.phone.pick(MENU.index(entry), *answers)
        session.until(session.is_over, "the session doesn't end")
        tried(session, before)
    return attempt


def results(kind, wanted):
    """The result of a command of a kind; None: another one than 00."""
    def tried(session, before):
        one = session.answered(kind, before)
        if wanted is None:
            expect(one.value(RESULT)[0] == 0, False, "that it is done")
        else:
            result_is(one, wanted)
    return tried


def select_item(session, before):
    one = session.answered(SELECT_ITEM, before)
    result_is(one, "00")
    expect(one.value(ITEM), b"\x02", "the item of the response")
    expect(session.asked()[0], ["RequestSelection", "Pick", 0, [["Text", 0], ["Tone", 0]], -1], "what was asked")


def play_tone(session, before):
    result_is(session.answered(PLAY_TONE, before), "00")
    expect(session.asked()[1], ["PlayTone", "general-beep", "", 0], "what was played")


def display_text(session, before):
    result_is(session.answered(DISPLAY_TEXT, before), "00")
    expect(session.asked()[1], ["DisplayText", "Text", 0, False], "what was shown")


def get_inkey(session, before):
    one = session.answered(GET_INKEY, before)
    result_is(one, "00")
    expect(one.value(TEXT), b"\x045", "the text of the response")
    expect(session.asked()[0], ["RequestKey", "?", 0], "what was asked")


def local(qualifier, tag):
    def tried(session, before):
        one = session.answered(LOCAL, before, qualifier)
        result_is(one, "00")
        expect(one.value(tag) is not None, True, "that the response has what was asked for")
    return tried


def idle_text(session, before):
    result_is(session.answered(IDLE_TEXT, before), "00")
    expect(session.phone.toolkit.get("IdleModeText"), "I", "IdleModeText")


def refresh(name, entry):
    def section(report, session):
        session.begin()
        session.phone.pick(MENU.index(entry))
        report.attempt(name, lambda: result_is(session.answered(REFRESH), "00"))
    return section


def pin_alone(report, session):
    """After PIN 1 a telephone goes on by itself. oFono's driver for phonesim waits to be told that the SIM is initialised, and knows no
    word for it: what our modem says in its place is that the SIM was taken out and put in."""
    phone = session.phone
    phone.power_on()
    phone.modem.is_phonesim = False
    phone.ask("call", "org.ofono.SimManager", "EnterPin", "pin", PIN)
    report.attempt("after PIN 1 the SIM is read on, with no word of the modem's", lambda: session.until(
        lambda: phone.sim.get("SubscriberIdentity"), "the IMSI isn't read", SECONDS_WITHOUT))


def without_agent(report, session):
    """What the card begins by itself, where nobody is there to be asked: it is beyond the terminal then."""
    session.phone.power_on()
    session.phone.enter_pin(PIN)
    session.phone.go_online()
    report.attempt("GET INPUT, with nobody to be asked", lambda: refuses(session))


def refuses(session):
    try:
        session.answered(GET_INPUT)
    except Unsupported:
        return
    raise Wrong("GET INPUT isn't refused")


# a command that no applet here sends in time

class Saying:
    """Stands between the card and the telephone, and sends one command of its own: the card sees nothing of it."""

    def __init__(self, sim, command):
        self.sim, self.command = sim, command
        self.is_due = self.is_fetched = False

    def transmit(self, command):
        ins = decode.Apdu(command).ins
        if self.is_due and ins == decode.FETCH:
            self.is_due, self.is_fetched = False, True
            return Answer(self.command, "9000")
        if self.is_fetched and ins == decode.RESPONSE:
            self.is_fetched = False
            return Answer(b"", "9000")
        answer = self.sim.transmit(command)
        if self.is_due and answer.status == "9000":
            return Answer(answer.data, f"91{len(self.command):02X}")
        return answer

    def reset(self):
        self.sim.reset()


TWO_SECONDS = bytes.fromhex("D011810301270082028182A40108A503000020")


def timer(report, card):
    """A timer of two seconds, of a player: the clock's of this card has five minutes."""
    players = []

    def between(sim):
        players.append(Saying(sim, TWO_SECONDS))
        return players[0]
    with Session(card, between) as session:
        session.begin()
        players[0].is_due = True
        with session.phone.modem.lock:
            session.phone.modem.poll()
        report.attempt("a timer that is due is reported", lambda: due(session))


def due(session):
    def look():
        return next((data for data in (decode.Apdu(one.command).data for one in session.exchanges()
                                       if decode.Apdu(one.command).ins == decode.ENVELOPE) if data[:1] == b"\xD7"), None)
    content = tlv.template(session.until(look, "no TIMER EXPIRATION comes"))[1]
    expect(tlv.first(content, TIMER_IDENTIFIER), b"\x08", "the timer")
    expect(tlv.first(content, DEVICES), FROM_TERMINAL, "the devices")
    expect(tlv.first(content, 0x25) in (b"\0\0\x20", b"\0\0\x30"), True, "a time of two or three seconds")


# losses of power

def cuts(report):
    """The own number is changed, and the power goes in each memory write of that in turn."""
    replies = []
    report.attempt("an update that loses power leaves the old number or the new one", lambda: cut_in_turn(replies))
    report.attempt("whoever asked for that update hears that it failed", lambda: told(replies))


def told(replies):
    if not replies or any("NoReply" in reply for reply in replies):
        raise Wrong(f"no reply within {SECONDS_OF_UPDATE} seconds")


def cut_in_turn(replies):
    """What is found after each cut; what oFono said to who asked goes to `replies`."""
    found = set()
    with Card(TELEPHONE) as card, Session(card) as session:
        phone = session.phone
        cut = Cut(phone.modem.sim, card)
        phone.modem.sim = cut
        phone.power_on()
        phone.enter_pin(PIN)
        for write in range(1, MOST_WRITES):
            before = own_number(session)
            cut.write = write
            reply = asked_for(phone, ANOTHER_NUMBER if before == OWN_NUMBER else OWN_NUMBER)
            if phone.modem.has_power:
                break
            replies.append(reply)
            session.until(lambda: phone.sim.get("Present") is False, "oFono doesn't see that the SIM is gone")
            phone.power_off()
            phone.power_on()
            phone.enter_pin(PIN)
            after = own_number(session)
            found.add("the old one" if after == before else "the new one" if after in (OWN_NUMBER, ANOTHER_NUMBER) else after)
    expect(found, {"the old one", "the new one"}, "what was found after the cuts")


def asked_for(phone, number):
    """What oFono says to who asks for another own number."""
    try:
        phone.ask("within", SECONDS_OF_UPDATE, "set", "org.ofono.SimManager", "SubscriberNumbers", [number])
    except ofono.OfonoError as fault:
        return str(fault)
    return "done"


def own_number(session):
    return session.until(lambda: session.phone.sim.get("SubscriberNumbers"), "the own number isn't read")[0]


class Cut:
    """A SIM whose power is cut in the memory write with a number, of its next update."""

    def __init__(self, sim, card):
        self.sim, self.card, self.write = sim, card, None

    def transmit(self, command):
        if decode.Apdu(command).ins == decode.UPDATE_RECORD and self.write:
            self.card.cut(self.write)
            self.write = None
        return self.sim.transmit(command)

    def reset(self):
        self.sim.reset()


# the whole

def played_again(lines):
    """Every exchange once more, by the program: the same answers."""
    script = process.card_section(process.lines_of(TELEPHONE))[0] + ["start"]
    for line in lines:
        if line.startswith("> "):
            script.append("apdu " + line[2:])
        elif line == process.RESET:
            script.append("reset")
    shown, status, _ = process.played(["play"], "".join(line + "\n" for line in script))
    if status or shown != lines:
        place = next((n for n, (one, other) in enumerate(zip(shown, lines)) if one != other), min(len(shown), len(lines)))
        raise Wrong(f"line {place + 1} of the trace is another one when it is played again")


def well_formed(lines):
    """Each response and each envelope has the form that its definition asks for."""
    for part in trace.parts(lines):
        apdu = decode.Apdu(part.command) if isinstance(part, trace.Exchange) else None
        if apdu and apdu.ins in (decode.RESPONSE, decode.ENVELOPE):
            for line in decode.details(apdu):
                if line.label.startswith("bad") or "not of the form" in line.text:
                    raise Wrong(f"{decode.hexed(apdu.data)}: {line.label} {line.text}")


def all_tries(tell=lambda verdict: None, keep=None):
    """A report of all tries; `keep` is a folder for the traces."""
    report, traces = Report(tell), {}
    for name, section in (("identity", pins), ("toolkit", toolkit), ("pin-alone", pin_alone), ("without-agent", without_agent),
                          ("refresh", refresh("REFRESH that initialises the application", "Again")),
                          ("reset", refresh("REFRESH that resets the card", "Reset"))):
        with Card(TELEPHONE) as card, Session(card) as session:
            section(report, session)
            traces[name] = session.lines
    with Card(TELEPHONE) as card:
        timer(report, card)
    cuts(report)
    report.attempt("responses and envelopes are of the form that they should have",
                   lambda: [well_formed(lines) for lines in traces.values()])
    report.attempt("each exchange played again has the same answer", lambda: [played_again(lines) for lines in traces.values()])
    if keep:
        for name, lines in traces.items():
            with open(os.path.join(keep, f"ofono-{name}.trace"), "w", encoding="ascii") as out:
                out.writelines(line + "\n" for line in lines)
    return report.verdicts
