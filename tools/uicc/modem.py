"""A modem by 3GPP TS 27.007 whose SIM is a card: what a client says by AT commands goes to the card as APDUs, and the toolkit's
proactive commands come to the client as +CUSATP.

    from uicc import Card
    from uicc.modem import Modem

    with Card("examples/usim.script") as card:
        modem = Modem(card, write)               # `write` takes the bytes that go to the client
        modem.take(b'AT+CPIN="1234"\\r')

What the modem has as its SIM is any object of two methods, `Sim` of sim.py: a Card is one. So a player that stands between the card
and the terminal is given to the modem in the place of the card. It has a card of its own, answers what it wants to answer by itself,
and hands everything else on:

    class Player:
        def __init__(self, card):
            self.card = card

        def transmit(self, command):
            return my_answer(command) or self.card.transmit(command)

        def reset(self):
            self.card.reset()

    modem = Modem(Player(card), write)

Where an answer's status is 91XX, the modem fetches the command and tells its client; `poll` makes it ask by STATUS, so that a player
whose command is to be sent now can answer 91XX. `take`, `poll`, `attend`, `arrive` and `leave` have to be called by one thread at a time:
`lock` is for those who have several, and the lines of modem_line.py hold it.

The modem and the toolkit. The modem begins with its radio off (+CFUN: 4), and the SIM has power. At AT+CFUN=1, or at AT+CUSATD=1 before that,
it sends TERMINAL PROFILE, once; from then on it fetches what the card has to say, one command at a time, and says +CUSATP: HEX. The client answers by
AT+CUSATT=HEX, the data of TERMINAL RESPONSE, and sends envelopes by AT+CUSATE=HEX, whose answer is +CUSATER: HEX. +CUSATEND says that
the card has nothing more. A client that says AT+CFUN=1 once more is told the command that isn't answered yet once more."""
import contextlib
import threading
import time

from . import at, decode, modem_commands
from .at import FULL, OFF, RADIO_OFF
from .card import PROFILE, PowerLost
from .sim import PIN1, error_of, is_done

MOST = 256
LONGEST_LINE = 8192
BACKSPACE, SPACE = 0x08, 0x20
OK, ERROR, NO_CARRIER = "OK", "ERROR", "NO CARRIER"
# final results by their numbers, which a client may ask for in the place of the words
RESULTS = {OK: 0, NO_CARRIER: 3, ERROR: 4}
POLL_SECONDS = 30
POLL_INTERVAL, POLLING_OFF = 0x03, 0x04


class Modem:
    """A modem. `write` takes the bytes for its client. `profile` is that of TERMINAL PROFILE. `is_phonesim`: it speaks the words of the
    modem phonesim too, by which oFono knows that a SIM is there. `poll_seconds`: how often it sends STATUS by itself, 0 for never.
    `log` takes a line for each line of commands and each answer."""

    def __init__(self, sim, write, profile=PROFILE, is_phonesim=False, poll_seconds=POLL_SECONDS, log=lambda line: None):
        self.sim, self.write, self.log = sim, write, log
        self.profile, self.is_phonesim = profile, is_phonesim
        self.default_poll_seconds = poll_seconds
        self.lock = threading.RLock()
        self.functionality, self.has_power = RADIO_OFF, True
        self._forget_session()
        self._forget_client()

    def _forget_session(self):
        """What the SIM's power, and its reset, end: the PINs that were verified, the channels, and the toolkit's session."""
        self.verified, self.channels = set(), set()
        self.is_told = False
        self.pending = self.command = None
        self.poll_seconds, self.last_poll = self.default_poll_seconds, time.monotonic()

    def _forget_client(self):
        self.has_echo, self.has_words, self.is_quiet, self.error_form = True, True, False, 1
        self.is_reporting, self.operator_format, self.registration_forms, self.letters = True, 0, {}, "IRA"
        self._line, self._is_too_long, self._notices = bytearray(), False, []

    # the client

    def take(self, content):
        """Takes bytes from the client, and carries out each line that they end."""
        while content:
            part, end, content = content.partition(b"\r")
            if self.has_echo:
                self.write(part + end)
            for byte in part:
                self._take_letter(byte)
            if end:
                line, is_too_long = self._line.decode("latin-1"), self._is_too_long
                self._line, self._is_too_long = bytearray(), False
                self._carry_out(line, is_too_long)

    def _take_letter(self, byte):
        if byte == BACKSPACE:
            del self._line[-1:]
        elif byte >= SPACE:
            self._is_too_long = self._is_too_long or len(self._line) >= LONGEST_LINE
            if not self._is_too_long:
                self._line.append(byte)

    def arrive(self):
        """A client came: a SIM that lost its power has it again, as in a modem that is switched on."""
        if self.functionality != OFF and not self.has_power:
            with contextlib.suppress(at.Failed):
                self.power_on()
        self._notices.clear()

    def leave(self):
        """The client went away: the next one finds the radio off, and what a modem says when it is switched on. The SIM keeps its
        power; nothing of the toolkit is fetched until a client begins it anew."""
        if self.functionality == FULL:
            self.functionality = RADIO_OFF
        self.is_told = False
        self._forget_client()

    def _carry_out(self, line, is_too_long):
        if not line.strip():
            return
        self.log(f"  at {line if line.isprintable() else repr(line)}")
        if is_too_long:
            self._finish(ERROR)
        else:
            self._finish(self._result(line))
        self.attend()

    def _result(self, line):
        """Carries out the commands of a line, up to the first that fails, and answers the final result."""
        try:
            for command in at.commands(line):
                for text in modem_commands.carry_out(self, command):
                    self._tell(text)
        except at.NoCommand:
            return ERROR
        except at.Failed as fault:
            return self._error(fault.number)
        except at.Final as final:
            return str(final)
        return OK

    def _error(self, number):
        if not self.error_form:
            return ERROR
        return f"+CME ERROR: {number if self.error_form == 1 else at.ERRORS[number]}"

    def _tell(self, text):
        self.log(f"     {text}")
        self.write(f"\r\n{text}\r\n".encode("latin-1") if self.has_words else f"{text}\r\n".encode("latin-1"))

    def _finish(self, result):
        if self.is_quiet:
            return
        if self.has_words or result not in RESULTS:
            self._tell(result)
        else:
            self.log(f"     {RESULTS[result]}")
            self.write(f"{RESULTS[result]}\r".encode("ascii"))

    def notice(self, text):
        """Something that the client is told when the line of commands that it waits for is done."""
        self._notices.append(text)

    def attend(self):
        """Fetches what the card has to say, where no command waits for its answer, and tells the client what there is to tell."""
        if self.is_told and self.has_power and self.command is None and self.pending:
            # where the power is lost in it, that is told below
            with contextlib.suppress(at.Failed):
                self._fetch()
        notices, self._notices = self._notices, []
        for text in notices:
            self._tell(text)

    def poll(self):
        """Asks the card by STATUS whether it has something to say, where no command waits for its answer."""
        self.last_poll = time.monotonic()
        if self.is_told and self.has_power and self.command is None:
            with contextlib.suppress(at.Failed):
                self.exchange(bytes((0x80, decode.STATUS, 0, 0x0C, 0)))
            self.attend()

    def seconds_to_poll(self):
        """In how many seconds the next STATUS is due; None where none is."""
        if not (self.is_told and self.poll_seconds and self.has_power):
            return None
        return max(0.0, self.last_poll + self.poll_seconds - time.monotonic())

    # the SIM

    def exchange(self, command):
        """The SIM's answer to a command. SIM_FAILURE, where it has no power, or loses it."""
        if not self.has_power:
            raise at.Failed(at.SIM_FAILURE)
        try:
            answer = self.sim.transmit(command)
        except PowerLost:
            self._lose_power()
            raise at.Failed(at.SIM_FAILURE) from None
        self._note(decode.Apdu(command), answer)
        return answer

    def done(self, command):
        """The SIM's answer to a command that has to be carried out; the error of its status where it isn't."""
        answer = self.exchange(command)
        if not is_done(answer.status):
            raise at.Failed(error_of(answer.status))
        return answer

    def _note(self, apdu, answer):
        """What an exchange says of PINs, of the command that is to be fetched, and of the one that was."""
        if answer.status.startswith("91"):
            self.pending = answer.status.sw2 or MOST
        elif answer.status == "9000":
            self.pending = None
        if not apdu.ok:
            return
        if apdu.ins in decode.PINS and apdu.data:
            if is_done(answer.status):
                self.verified.add(apdu.p2)
            elif answer.status.startswith(("63C", "6983")):
                self.verified.discard(apdu.p2)
        elif apdu.ins == decode.FETCH and answer.data:
            self.command = answer.data
        elif apdu.ins == decode.RESPONSE and is_done(answer.status):
            self._note_response(apdu.data)

    def _note_response(self, data):
        """The command was answered. How often to poll is the terminal's answer to POLL INTERVAL."""
        kind = decode.kind_of(self.command or b"")
        self.command = None
        if kind == POLLING_OFF:
            self.poll_seconds = 0
        elif kind == POLL_INTERVAL and self.default_poll_seconds:
            self.poll_seconds = decode.seconds_in(data) or self.poll_seconds

    def _fetch(self):
        answer = self.exchange(bytes((0x80, decode.FETCH, 0, 0, self.pending & 0xFF)))
        self.pending = None
        if self.command is not None and answer.data:
            self.tell_command()

    def tell_command(self):
        """Tells the client the command that waits for its answer."""
        if self.command is not None and self.is_reporting:
            self.notice("+CUSATP: " + decode.hexed(self.command))

    def _lose_power(self):
        self.has_power = False
        self._forget_session()
        self.notice("+CPIN: NOT READY")
        if self.is_phonesim:
            self.notice("+USIMSTATE: 0")

    def set_functionality(self, wanted):
        """+CFUN: off and on is a reset of the SIM, and so is on where it lost its power."""
        self.functionality = wanted
        if wanted == OFF:
            self.has_power = False
            self._forget_session()
        elif not self.has_power:
            self.power_on()
        if wanted == FULL and self.has_power:
            if self.is_told:
                self.tell_command()
            else:
                self.tell_profile()

    def power_on(self):
        self._forget_session()
        try:
            self.sim.reset()
        except PowerLost:
            self._lose_power()
            raise at.Failed(at.SIM_FAILURE) from None
        self.has_power = True
        if self.is_phonesim:
            self.notice("+USIMSTATE: 1")

    def tell_profile(self):
        """TERMINAL PROFILE: the toolkit begins."""
        self.command = None
        self.exchange(bytes((0x80, decode.PROFILE, 0, 0, len(self.profile))) + self.profile)
        self.is_told = True

    # PINs

    def is_enabled(self, key):
        """Whether a PIN is on, by the control parameters of the current DF."""
        return decode.pins_in(self.done(bytes((0x80, decode.STATUS, 0, 0, 0))).data).get(key, False)

    def tries(self, ins, key):
        """How many tries a PIN (VERIFY) or its unblock value (UNBLOCK PIN) has left; None where there is no such PIN."""
        status = self.exchange(bytes((0, ins, 0, key))).status
        return status.sw2 & 0x0F if status.startswith("63C") else 0 if status == "6983" else None

    def pin_state(self):
        """What +CPIN says that the SIM waits for."""
        if PIN1 in self.verified or not self.is_enabled(PIN1):
            return "READY"
        return "SIM PIN" if self.tries(0x20, PIN1) else "SIM PUK"

    def note_ready(self):
        """PIN 1 was verified. oFono's driver for phonesim goes on with a SIM that was put in, and is told of nothing else."""
        if self.is_phonesim:
            self.notice("+USIMSTATE: 0")
            self.notice("+USIMSTATE: 1")
