"""Programs that speak PC/SC as terminals under test: the card is in the virtual reader (tools/reader), with the player before it."""
import argparse
import importlib.machinery
import importlib.util
import os
import sys
import threading
import time

from . import atr, process
from .card import PowerLost
from .undertest import Lost, UnderTest, instruction

READER = os.path.join(process.TOP, "tools", "reader")
PORT = 35963


def reader_tool():
    loader = importlib.machinery.SourceFileLoader("reader", READER)
    module = importlib.util.module_from_spec(importlib.util.spec_from_loader("reader", loader))
    loader.exec_module(module)
    return module


class AsSimulator:
    """A player with the calls of a simulator, which the reader has."""

    def __init__(self, player):
        self.player = player

    def exchange(self, command, _word="apdu"):
        try:
            answer = self.player.transmit(command)
        except PowerLost:
            return None
        return answer.data + answer.status.to_bytes(2, "big")

    def reset(self):
        try:
            self.player.reset()
        except PowerLost:
            return False
        return True


class OfReader(UnderTest):
    """Any program of PC/SC: it sees a card that is taken out and put in for each sequence. Its user is a person who is told what to
    do."""
    name = "a program of PC/SC"
    seconds = 60
    longest = 20
    has_person = True
    is_seen = False

    def __init__(self, port=PORT, tell=lambda text: print(text, file=sys.stderr, flush=True)):
        self.tool, self.port, self.tell = reader_tool(), port, tell
        self.given = argparse.Namespace(protocol=self.tool.AS_THEY_COME, atr=atr.OF_BOTH, cut=None, host="localhost", port=port)
        self.tool.log = lambda text: None
        self.link, self.server, self.fault, self.player = None, None, None, None

    def begin(self, player):
        self.player = player
        self._take_out()
        inserted = self.tool.Inserted(self.given, AsSimulator(player), None)
        try:
            self.link = self.tool.connect(self.given.host, self.given.port)
        except OSError as fault:
            raise Lost(f"nothing listens at port {self.port}: is pcscd running, with vsmartcard-vpcd? ({fault.strerror or fault})") from None
        self.tell("  the card is in the reader")
        self.server = threading.Thread(target=self._serve, args=(self.link, inserted), daemon=True)
        self.server.start()

    def _serve(self, link, inserted):
        gone = (self.tool.Gone, self.tool.Pulled, self.tool.Unseen, OSError, ValueError)
        try:
            self.tool.serve(link, inserted)
        except gone as fault:
            self.fault = fault

    def _take_out(self):
        if self.link is None:
            return
        try:
            self.link.shutdown(2)
        except OSError:
            pass
        self.link.close()
        self.server.join()
        self.link = None
        # pcscd has to see that there is no card
        time.sleep(self.tool.SECONDS_AWAY)

    def missing(self):
        return None if self.player.exchanges else "no program sent the card a command"

    def poll(self):
        """It polls by itself, as terminals do."""

    def happen(self, said):
        if said.word == "time":
            time.sleep(said.value)
        elif (said.word, said.act) != ("net", "poll"):
            self.tell("  " + instruction(said))

    def must_show(self, note):
        self.tell(f"  it must show now: {note}")

    def end(self):
        self._take_out()

    def close(self):
        self._take_out()
