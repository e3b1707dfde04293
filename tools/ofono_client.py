"""Runs oFono, the telephony daemon of Linux telephones, with a modem at a port, and has it do what lines of standard input ask. For
tools/uicc/daemon.py, which starts it in namespaces of its own. Wants Debian's ofono, dbus, python3-dbus and python3-gi.

    ofono_client.py FOLDER PORT

It puts an empty folder in the place of oFono's /var/lib/ofono, and starts a bus at a socket in FOLDER and oFono on it. Then each line of
standard input is a request, a list in JSON, whose answer is printed as a line:

    ["get", INTERFACE]                   its properties
    ["set", INTERFACE, NAME, VALUE]      a property: true, false or a list of texts
    ["call", INTERFACE, METHOD, VALUE..] what a method of the modem answers
    ["pick", NUMBER]                     entry NUMBER of the main menu, from 0, for a session of its own
    ["agent", true | false]              whether there is an agent for what the card begins by itself
    ["answers", ANSWER..]                what the agents answer next: {"value": ..}, {"error": "GoBack"}, or {} for nothing at all
    ["asked"]                            what the agents were asked since it was asked last: [METHOD, VALUE..] each
    ["asked when"]                       the same, each in a list after the moment at which it was asked, in seconds of the system's clock
    ["within", SECONDS, REQUEST..]       another request, for whose answer of oFono's so long is waited, and not 60 seconds

An answer is {"answer": ..} or {"error": ..}. Where no answer was given, the agents say by themselves that a text was seen, a tone played
and a question confirmed, and to other questions they say nothing. It ends when standard input does."""
import collections
import contextlib
import json
import os
import subprocess
import sys
import time

import dbus
import dbus.lowlevel
import dbus.mainloop.glib
from gi.repository import GLib

STORAGE = "/var/lib/ofono"
SERVICE, MODEM, TOOLKIT = "org.ofono", "/phonesim", "org.ofono.SimToolkit"
AGENT, STANDING, OF_SESSION = "org.ofono.SimToolkitAgent", "/standing", "/session"
ERRORS = "org.ofono.Error."
SECONDS, SECONDS_TO_START = 60, 120
BUS = """<!DOCTYPE busconfig PUBLIC "-//freedesktop//DTD D-BUS Bus Configuration 1.0//EN"
 "http://www.freedesktop.org/standards/dbus/1.0/busconfig.dtd">
<busconfig>
  <listen>unix:path={path}</listen>
  <policy context="default">
    <allow send_destination="*"/>
    <allow receive_sender="*"/>
    <allow own="*"/>
  </policy>
</busconfig>
"""
SETTINGS = "[phonesim]\nAddress=127.0.0.1\nPort={port}\n"
PLUGINS = "phonesim,atmodem"
# what a terminal says to a card that asks for its language
LANGUAGE = "en_GB.UTF-8"
YES, SEEN, NOTHING = {"value": True}, {"value": None}, {}
# what agents are asked: the type of the answer, and what is answered where no answer was given
QUESTIONS = {
    "RequestSelection": ("y", NOTHING), "DisplayText": ("", SEEN), "RequestInput": ("s", NOTHING), "RequestDigits": ("s", NOTHING),
    "RequestKey": ("s", NOTHING), "RequestDigit": ("s", NOTHING), "RequestQuickDigit": ("s", NOTHING), "RequestConfirmation": ("b", YES),
    "ConfirmCallSetup": ("b", YES), "PlayTone": ("", SEEN), "LoopTone": ("", NOTHING), "DisplayActionInformation": ("", NOTHING),
    "ConfirmLaunchBrowser": ("b", YES), "DisplayAction": ("", NOTHING), "ConfirmOpenChannel": ("b", YES),
}


def yes_or_no(value):
    """What a user says to a question that wants yes or no, in a word or as a truth."""
    words = {"yes": True, "no": False, True: True, False: False}
    if not isinstance(value, (str, bool)) or value not in words:
        raise ValueError(f"{value} is neither yes nor no")
    return words[value]


KINDS = {"s": str, "y": int, "b": yes_or_no}


def plain(value):
    """A value of D-Bus as JSON has it."""
    if isinstance(value, dbus.Boolean):
        return bool(value)
    if isinstance(value, dict):
        return {str(name): plain(one) for name, one in value.items()}
    if isinstance(value, (list, tuple)):
        return [plain(one) for one in value]
    return int(value) if isinstance(value, int) else str(value)


class Client:
    """Talks to oFono on a bus, and is the agents that it asks."""

    def __init__(self, bus):
        self.bus = bus
        self.answers, self.asked = collections.deque(), []
        self.seconds = SECONDS
        bus.add_message_filter(self.on_message)

    def on_message(self, bus, message):
        if not isinstance(message, dbus.lowlevel.MethodCallMessage) or message.get_interface() != AGENT:
            return dbus.lowlevel.HANDLER_RESULT_NOT_YET_HANDLED
        name = message.get_member()
        self.asked.append([time.monotonic(), [name, *plain(message.get_args_list())]])
        reply = self.reply(message, *QUESTIONS[name]) if name in QUESTIONS else None
        if reply is not None and not message.get_no_reply():
            bus.send_message(reply)
        return dbus.lowlevel.HANDLER_RESULT_HANDLED

    def reply(self, message, kind, default):
        """What the user says to a question; None where he says nothing."""
        answer = self.answers.popleft() if self.answers else default
        if "error" in answer:
            return dbus.lowlevel.ErrorMessage(message, ERRORS + answer["error"], answer["error"])
        if "value" not in answer:
            return None
        reply = dbus.lowlevel.MethodReturnMessage(message)
        if kind:
            try:
                reply.append(KINDS[kind](answer["value"]), signature=kind)
            except (TypeError, ValueError, OverflowError):
                return dbus.lowlevel.ErrorMessage(message, ERRORS + "EndSession", "the answer is of another kind than the question")
        return reply

    def interface(self, name):
        return dbus.Interface(self.bus.get_object(SERVICE, MODEM, introspect=False), name)

    def get(self, interface):
        return self.interface(interface).GetProperties(timeout=self.seconds)

    def set(self, interface, name, value):
        value = dbus.Array(value, signature="s") if isinstance(value, list) else dbus.Boolean(value)
        return self.interface(interface).SetProperty(name, value, signature="sv", timeout=self.seconds)

    def call(self, interface, method, *values):
        return getattr(self.interface(interface), method)(*values, timeout=self.seconds)

    def pick(self, number):
        return self.interface(TOOLKIT).SelectItem(dbus.Byte(number), dbus.ObjectPath(OF_SESSION), signature="yo", timeout=self.seconds)

    def agent(self, is_wanted):
        toolkit = self.interface(TOOLKIT)
        (toolkit.RegisterAgent if is_wanted else toolkit.UnregisterAgent)(dbus.ObjectPath(STANDING), timeout=self.seconds)

    def answer_next(self, *answers):
        self.answers = collections.deque(answers)

    def asked_when(self):
        asked, self.asked = self.asked, []
        return asked

    def asked_since(self):
        return [question for _, question in self.asked_when()]

    def carry_out(self, request):
        self.seconds = SECONDS
        if request[0] == "within":
            self.seconds, request = request[1], request[2:]
        todo = {"get": self.get, "set": self.set, "call": self.call, "pick": self.pick, "agent": self.agent, "answers": self.answer_next,
                "asked": self.asked_since, "asked when": self.asked_when}
        try:
            found = todo[request[0]](*request[1:])
        except (dbus.DBusException, TypeError, ValueError, KeyError) as fault:
            return {"error": str(fault)}
        return {"answer": None if found is None else found if request[0] == "asked when" else plain(found)}


def until(look, what):
    """Waits for something, and answers it."""
    end = time.monotonic() + SECONDS_TO_START
    while time.monotonic() < end:
        found = look()
        if found:
            return found
        time.sleep(0.02)
    raise TimeoutError(f"{what} didn't come in {SECONDS_TO_START} seconds")


def connected(address):
    with contextlib.suppress(dbus.DBusException):
        return dbus.bus.BusConnection(address)
    return None


def bus_in(folder, log):
    """The address of a bus of its own, at a socket in a folder, and a connection to it."""
    if not os.path.isabs(folder):
        raise SystemExit(f"{folder}: the folder of a bus is named from the root, so that nothing is left where this happens to run")
    path, settings = os.path.join(folder, "bus"), os.path.join(folder, "bus.conf")
    with open(settings, "w", encoding="ascii") as out:
        out.write(BUS.format(path=path))
    subprocess.Popen(["dbus-daemon", "--config-file", settings, "--nofork", "--nopidfile"], stdin=subprocess.DEVNULL, stdout=log, stderr=log)
    address = "unix:path=" + path
    return address, until(lambda: connected(address), "the bus")


def started(folder, port):
    """A bus of its own with oFono on it."""
    subprocess.run(["mount", "-t", "tmpfs", "ofono", STORAGE], check=True)
    configuration = os.path.join(folder, "phonesim.conf")
    with open(configuration, "w", encoding="ascii") as out:
        out.write(SETTINGS.format(port=port))
    with open(os.path.join(folder, "daemon.log"), "w", encoding="utf-8") as log:
        address, bus = bus_in(folder, log)
        environment = {**os.environ, "DBUS_SYSTEM_BUS_ADDRESS": address, "OFONO_PHONESIM_CONFIG": configuration, "OFONO_AT_DEBUG": "1",
                       "LANG": LANGUAGE}
        subprocess.Popen(["ofonod", "--nodetach", "--debug", "--plugin", PLUGINS], env=environment, stdin=subprocess.DEVNULL, stdout=log,
                         stderr=log)
    until(lambda: bus.name_has_owner(SERVICE), "oFono")
    return bus


def main():
    folder, port = sys.argv[1:]
    loop = GLib.MainLoop()
    dbus.mainloop.glib.DBusGMainLoop(set_as_default=True)
    client = Client(started(folder, port))
    print(json.dumps({"answer": "ready"}), flush=True)

    def on_input(_source, _condition):
        line = sys.stdin.readline()
        if not line:
            loop.quit()
            return False
        print(json.dumps(client.carry_out(json.loads(line))), flush=True)
        return True

    GLib.io_add_watch(GLib.IOChannel.unix_new(0), GLib.PRIORITY_DEFAULT, GLib.IO_IN | GLib.IO_HUP, on_input)
    loop.run()


if __name__ == "__main__":
    main()
