"""A daemon of a telephone, as oFono and ModemManager are, with a card: the card is the SIM of a modem that the daemon finds at a line.

The daemon runs on a D-Bus of its own, in namespaces of its own (`unshare`), so that nothing of the system's is touched. A client beside it
(tools/ofono_client.py, tools/modemmanager_client.py), which the system's Python runs as it has D-Bus, starts both and has the daemon do
what it is asked for. All of them end together."""
import functools
import json
import os
import shutil
import subprocess
import sys
import tempfile
import threading
import time

from . import process
from .modem import Modem

TOOLS = os.path.join(process.TOP, "tools")
# the processes of the client, and what it mounts, end with it
UNSHARE = ("unshare", "--map-root-user", "--mount", "--pid", "--fork", "--kill-child", "--mount-proc")
SECONDS = 60
WAIT = 0.02


class DaemonError(Exception):
    """A daemon can't be had, or refused what it was asked for."""


@functools.cache
def python_with_dbus():
    """A Python that has D-Bus and its main loop: the system's, as a rule."""
    for python in dict.fromkeys(("/usr/bin/python3", sys.executable)):
        words = [python, "-c", "import dbus, gi"]
        if os.path.exists(python) and subprocess.run(words, capture_output=True, check=False).returncode == 0:
            return python
    return None


def sbin_which(name):
    return shutil.which(name) or shutil.which(name, path="/usr/sbin:/sbin")


def why_not(programs, folder=None):
    """What of some programs (with the names of their packages), of D-Bus and of namespaces, in which a folder can be hidden, is missing, in
    words; nothing where all is here."""
    programs = {**programs, "dbus-daemon": "dbus", "unshare": "util-linux"}
    missing = [f"{name} (apt-get install {package})" for name, package in programs.items() if not sbin_which(name)]
    if not python_with_dbus():
        missing.append("D-Bus for Python (apt-get install python3-dbus python3-gi)")
    if missing:
        return "missing: " + ", ".join(missing)
    words = ["mount", "-t", "tmpfs", "daemon", folder] if folder else ["true"]
    tried = subprocess.run([*UNSHARE, *words], stdin=subprocess.DEVNULL, capture_output=True, text=True, check=False)
    return f"no namespaces can be made here: {tried.stderr.strip()}" if tried.returncode else ""


class Daemon:
    """A daemon with a card. `line` is where it finds the modem, `client` the file of tools/ that starts it, which is given a folder and
    `place`. `modem` is the modem; what the daemon itself writes of what it does is in `log`."""

    def __init__(self, sim, line, client, place, **words):
        self._line, self._fault = line, None
        self.modem = Modem(sim, line.write, **words)
        self._folder = tempfile.TemporaryDirectory(prefix="uicc-daemon-")
        self._server = threading.Thread(target=self._serve, daemon=True)
        self._server.start()
        environment = {**os.environ, "PATH": os.environ.get("PATH", "") + ":/usr/sbin:/sbin"}
        command = [*UNSHARE, python_with_dbus() or sys.executable, "-B", os.path.join(TOOLS, client), self._folder.name, place]
        self._client = subprocess.Popen(command, stdin=subprocess.PIPE, stdout=subprocess.PIPE, stderr=subprocess.PIPE, text=True,
                                        env=environment)
        try:
            self._answer()
        except BaseException:
            self.close()
            raise

    def _serve(self):
        try:
            self._line.serve(self.modem)
        except Exception as fault:
            # the card ended: whoever asks next is told
            self._fault = fault

    def __enter__(self):
        return self

    def __exit__(self, *_):
        self.close()

    def close(self):
        """Ends the daemon, and the modem."""
        for stream in (self._client.stdin, self._client.stdout):
            stream.close()
        self._client.stderr.read()
        self._client.stderr.close()
        self._client.wait()
        self._line.stop()
        self._server.join()
        self._line.close()
        self._folder.cleanup()

    @property
    def log(self):
        with open(os.path.join(self._folder.name, "daemon.log"), encoding="utf-8", errors="replace") as text:
            return text.read()

    def ask(self, *request):
        """What the client answers to a request. DaemonError, where it is refused."""
        try:
            self._client.stdin.write(json.dumps(request) + "\n")
            self._client.stdin.flush()
        except BrokenPipeError:
            pass
        return self._answer()

    def _answer(self):
        line = self._client.stdout.readline()
        if self._fault:
            raise self._fault
        if not line:
            said = self._client.stderr.read().strip().splitlines()
            raise DaemonError(f"it ended: {said[-1] if said else 'it said nothing'}")
        answer = json.loads(line)
        if "error" in answer:
            raise DaemonError(answer["error"])
        return answer["answer"]

    def until(self, look, seconds=SECONDS):
        """What a look finds, as soon as it finds something; the last that it found, where the time is over."""
        end = time.monotonic() + seconds
        found = look()
        while not found and time.monotonic() < end:
            time.sleep(WAIT)
            found = look()
        return found
