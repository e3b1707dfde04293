"""oFono, the telephony daemon that Linux telephones run, as the terminal of a card.

    from uicc import Card
    from uicc.ofono import Ofono

    with Card("examples/usim.script") as card, Ofono(card) as phone:
        phone.power_on()
        phone.enter_pin("1234")
        phone.go_online()
        print(phone.sim["SubscriberIdentity"], phone.menu)

The card is the SIM of a modem (modem.py) that oFono finds at a port of this machine; in the card's place may stand any object with its
`transmit` and `reset`. oFono runs on a D-Bus of its own, in namespaces of its own (`unshare`), where it keeps nothing: the system's bus and
what an oFono of the system keeps are not touched. All that was started ends with it. `why_not` says what of Debian's packages is missing."""
import subprocess

from . import daemon
from .card import PROFILE
from .daemon import DaemonError as OfonoError
from .modem_line import TcpLine

STORAGE = "/var/lib/ofono"
SERVICE = "org.ofono."


def why_not():
    """What of what oFono needs is missing, in words; nothing where it can be had."""
    return daemon.why_not({"ofonod": "ofono"}, STORAGE)


def version():
    return subprocess.run([daemon.sbin_which("ofonod"), "--version"], capture_output=True, text=True, check=False).stdout.strip()


class Ofono(daemon.Daemon):
    """oFono with a card."""

    def __init__(self, sim, profile=PROFILE, log=lambda line: None, **words):
        line = TcpLine("127.0.0.1", 0, log)
        super().__init__(sim, line, "ofono_client.py", str(line.address[1]), profile=profile, is_phonesim=True, log=log, **words)

    def properties(self, interface):
        """The properties of an interface of the modem; none where oFono doesn't have it (now)."""
        try:
            return self.ask("get", SERVICE + interface)
        except OfonoError:
            return {}

    # the telephone

    @property
    def sim(self):
        return self.properties("SimManager")

    @property
    def toolkit(self):
        return self.properties("SimToolkit")

    @property
    def menu(self):
        """The texts of the main menu's entries."""
        return [text for text, _ in self.toolkit.get("MainMenu", [])]

    @property
    def interfaces(self):
        return [name.removeprefix(SERVICE) for name in self.properties("Modem").get("Interfaces", [])]

    def power_on(self):
        """Switches the modem on, and waits until oFono knows what the SIM waits for."""
        self.ask("set", SERVICE + "Modem", "Powered", True)
        return self.until(lambda: self.sim.get("Retries") and self.sim["PinRequired"])

    def power_off(self):
        self.ask("set", SERVICE + "Modem", "Powered", False)

    def enter_pin(self, value):
        """Enters PIN 1, and waits until oFono has read the IMSI."""
        self.ask("call", SERVICE + "SimManager", "EnterPin", "pin", value)
        return self.until_ready()

    def unblock_pin(self, unblock, value):
        self.ask("call", SERVICE + "SimManager", "ResetPin", "puk", unblock, value)
        return self.until_ready()

    def until_ready(self):
        return self.until(lambda: "SimToolkit" in self.interfaces and self.sim.get("SubscriberIdentity"))

    def go_online(self):
        """Switches the radio on, by which the toolkit begins."""
        self.ask("set", SERVICE + "Modem", "Online", True)

    def register_agent(self, is_wanted=True):
        """Has an agent answer what the card begins by itself; without one oFono can show and ask nothing then."""
        self.ask("agent", is_wanted)

    def answer(self, *answers):
        """What the user answers next: a value, None for a text that was seen, or an answer of tools/ofono_client.py."""
        self.ask("answers", *(answer if isinstance(answer, dict) else {"value": answer} for answer in answers))

    def asked(self):
        """What oFono asked the user since this was asked last."""
        return self.ask("asked")

    def asked_when(self):
        """The same, each after the moment at which it was asked, by the clock of `time.monotonic`."""
        return self.ask("asked when")

    def pick(self, number, *answers):
        """Picks an entry of the main menu, from 0, and gives the answers to what the card asks then."""
        self.answer(*answers)
        self.ask("pick", number)


GO_BACK, END_SESSION, BUSY, NOTHING = {"error": "GoBack"}, {"error": "EndSession"}, {"error": "Busy"}, {}
