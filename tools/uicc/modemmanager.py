"""ModemManager, the daemon that desktops have for modems, as the user of a card: what it reads of it, and PIN 1.

It takes the modem at a Unix socket, by its interface for tests. It knows nothing of the toolkit."""
import os
import subprocess
import tempfile

from . import Card, daemon
from .daemon import DaemonError
from .modem_line import UnixLine
from .ofono_tries import ICCID, IMSI, OTHER_PIN, PIN, TELEPHONE, UNBLOCK, Report, Wrong, expect
from .sim import PIN1, Recorded

NOTHING = "--"


def why_not():
    """What of what ModemManager needs is missing, in words; nothing where it can be had."""
    return daemon.why_not({"ModemManager": "modemmanager", "mmcli": "modemmanager"})


def version():
    ran = subprocess.run([daemon.sbin_which("mmcli"), "--version"], capture_output=True, text=True, check=False)
    return ran.stdout.split("\n")[0].split()[-1]


class ModemManager(daemon.Daemon):
    """ModemManager with a card."""

    def __init__(self, sim, log=lambda line: None, **words):
        self._place = tempfile.TemporaryDirectory(prefix="uicc-modem-")
        path = os.path.join(self._place.name, "modem")
        super().__init__(sim, UnixLine(path, log), "modemmanager_client.py", path, log=log, **words)

    def close(self):
        super().close()
        self._place.cleanup()

    @property
    def state(self):
        """What it knows of the modem; nothing before it has looked."""
        try:
            return self.ask("-m", "any")["modem"]
        except DaemonError:
            return {}

    @property
    def sim(self):
        """What it knows of the SIM, without what it doesn't know."""
        try:
            found = self.ask("-i", "any")["sim"]["properties"]
        except DaemonError:
            return {}
        return {name: value for name, value in found.items() if value != NOTHING}

    def is_in(self, *states):
        return self.state.get("generic", {}).get("state") in states

    def until_known(self):
        """Waits until it has looked at the modem."""
        return self.until(lambda: self.is_in("locked", "disabled", "registered", "enabled", "failed"))

    def tries(self):
        """The tries that are left, as it tells them."""
        return self.state.get("generic", {}).get("unlock-retries", [])


def refused(phone, *words):
    try:
        phone.ask(*words)
    except DaemonError:
        return
    raise Wrong("it is taken")


def blocked(phone):
    for _ in range(3):
        refused(phone, "-i", "any", "--pin=0000")
    if not phone.until(lambda: phone.state.get("generic", {}).get("unlock-required") == "sim-puk"):
        raise Wrong("the unblock value isn't asked for")


def unlocked(phone, *words):
    phone.ask("-i", "any", *words)
    if not phone.until(lambda: phone.is_in("disabled")):
        raise Wrong(f"the modem is {phone.state.get('generic', {}).get('state')}")


def switched(phone, word, is_on):
    phone.ask("-i", "any", word, "--pin=" + OTHER_PIN)
    with phone.modem.lock:
        expect(phone.modem.is_enabled(PIN1), is_on, "that PIN 1 is on")


def wrong_pin(phone):
    refused(phone, "-i", "any", "--pin=0000")
    if not phone.until(lambda: "sim-pin (2)" in phone.tries()):
        raise Wrong(f"the tries that are left are {', '.join(phone.tries())}")


def all_tries(tell=lambda verdict: None, keep=None):
    """A report of all tries; `keep` is a folder for the traces."""
    report, lines = Report(tell), []
    with Card(TELEPHONE) as card, ModemManager(Recorded(card, lines.append)) as phone:
        phone.until_known()
        report.attempt("PIN 1 is asked for", lambda: expect(phone.state["generic"]["unlock-required"], "sim-pin", "what is asked for"))
        report.attempt("the tries that are left are told", lambda: expect(
            phone.tries(), ["sim-pin (3)", "sim-puk (10)", "sim-pin2 (3)", "sim-puk2 (10)"], "the tries"))
        report.attempt("EF_ICCID is the card's identifier", lambda: expect(phone.sim.get("iccid"), ICCID, "iccid"))
        report.attempt("EF_SPN is the operator's name", lambda: expect(phone.sim.get("operator-name"), "Example Mobile", "operator-name"))
        report.attempt("a wrong PIN is refused", lambda: wrong_pin(phone))
        report.attempt("the right PIN is taken", lambda: unlocked(phone, "--pin=" + PIN))
        report.attempt("EF_IMSI and EF_AD are the subscriber and the network", lambda: expect(
            (phone.sim.get("imsi"), phone.sim.get("operator-code")), (IMSI, "00101"), "the subscriber and the network"))
        report.attempt("PIN 1 is changed", lambda: phone.ask("-i", "any", "--pin=" + PIN, "--change-pin=" + OTHER_PIN))
        report.attempt("PIN 1 is disabled", lambda: switched(phone, "--disable-pin", False))
        report.attempt("PIN 1 is enabled", lambda: switched(phone, "--enable-pin", True))
    with Card(TELEPHONE) as card, ModemManager(Recorded(card, lines.append)) as phone:
        phone.until_known()
        report.attempt("three wrong ones block PIN 1", lambda: blocked(phone))
        report.attempt("the unblock value sets a new PIN 1", lambda: unlocked(phone, "--puk=" + UNBLOCK, "--pin=" + OTHER_PIN))
    if keep:
        with open(os.path.join(keep, "modemmanager.trace"), "w", encoding="ascii") as out:
            out.writelines(line + "\n" for line in lines)
    return report.verdicts
