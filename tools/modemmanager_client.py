"""Runs ModemManager with a modem at a Unix socket, and has its program mmcli ask it. For tools/uicc/daemon.py, which starts it in
namespaces of its own. Wants Debian's modemmanager, dbus, python3-dbus and python3-gi.

    modemmanager_client.py FOLDER SOCKET
    modemmanager_client.py --authority ADDRESS

It starts a bus at a socket in FOLDER, ModemManager on it, and in the place of PolicyKit an authority that allows all to who is on this bus.
ModemManager is told of the modem by its interface for tests: by a kernel event it takes a terminal only if sysfs has it, and sysfs has no
terminal of a pty. Then each line of standard input is a request, a list in JSON of words for mmcli, whose answer is printed as a line:
{"answer": what mmcli printed as JSON} or {"error": ..}. It ends when standard input does."""
import json
import os
import subprocess
import sys

import dbus
import dbus.lowlevel
import dbus.mainloop.glib
from gi.repository import GLib
from ofono_client import bus_in, until

SERVICE, PLACE = "org.freedesktop.ModemManager1", "/org/freedesktop/ModemManager1"
TESTS = SERVICE + ".Test"
POLICY_KIT, ALLOWED = "org.freedesktop.PolicyKit1", (True, False, dbus.Dictionary({}, signature="ss"))
OPTIONS = ("--debug", "--no-auto-scan", "--test-enable", "--test-no-udev", "--test-no-qrtr", "--test-no-suspend-resume")
SECONDS = 60


def allow(bus, message):
    """PolicyKit's answers: everything is allowed, and it has no properties."""
    if not isinstance(message, dbus.lowlevel.MethodCallMessage) or not message.get_path().startswith("/org/freedesktop/PolicyKit1"):
        return dbus.lowlevel.HANDLER_RESULT_NOT_YET_HANDLED
    reply = dbus.lowlevel.MethodReturnMessage(message)
    if message.get_member() == "CheckAuthorization":
        reply.append(ALLOWED, signature="(bba{ss})")
    elif message.get_member() == "GetAll":
        reply.append(dbus.Dictionary({}, signature="sv"), signature="a{sv}")
    bus.send_message(reply)
    return dbus.lowlevel.HANDLER_RESULT_HANDLED


def authority(address):
    """Stands in PolicyKit's place, until the bus ends."""
    dbus.mainloop.glib.DBusGMainLoop(set_as_default=True)
    bus = dbus.bus.BusConnection(address)
    bus.add_message_filter(allow)
    bus.request_name(POLICY_KIT)
    GLib.MainLoop().run()


def started(folder, path):
    """A bus of its own with ModemManager on it, which has the modem. The address of the bus."""
    with open(os.path.join(folder, "daemon.log"), "w", encoding="utf-8") as log:
        address, bus = bus_in(folder, log)
        quiet = {"stdin": subprocess.DEVNULL, "stdout": log, "stderr": log}
        subprocess.Popen([sys.executable, "-B", os.path.abspath(__file__), "--authority", address], **quiet)
        until(lambda: bus.name_has_owner(POLICY_KIT), "an authority")
        subprocess.Popen(["ModemManager", *OPTIONS], env={**os.environ, "DBUS_SYSTEM_BUS_ADDRESS": address}, **quiet)
    until(lambda: bus.name_has_owner(SERVICE), "ModemManager")
    tests = dbus.Interface(bus.get_object(SERVICE, PLACE, introspect=False), TESTS)
    tests.SetProfile("uicc", "generic", dbus.Array([path], signature="s"), signature="ssas", timeout=SECONDS)
    return address


def asked(words, environment):
    ran = subprocess.run(["mmcli", "--output-json", *words], capture_output=True, text=True, check=False, env=environment)
    if ran.returncode != 0:
        return {"error": ran.stderr.strip() or f"mmcli ended with {ran.returncode}"}
    try:
        return {"answer": json.loads(ran.stdout)}
    except ValueError:
        return {"answer": ran.stdout.strip()}


def main():
    first, second = sys.argv[1:]
    if first == "--authority":
        authority(second)
        return
    environment = {**os.environ, "DBUS_SYSTEM_BUS_ADDRESS": started(first, second)}
    print(json.dumps({"answer": "ready"}), flush=True)
    for line in sys.stdin:
        print(json.dumps(asked(json.loads(line), environment)), flush=True)


if __name__ == "__main__":
    main()
