"""What a modem has as its SIM: a card, or an object between the card and the modem. The classes here stand between them, and so may
a player that sends commands of its own."""
import typing

from . import at, decode, process
from .card import Answer, PowerLost

PIN1, PIN2 = 0x01, 0x81
# a status, and the number of the error that a modem answers for it; those that aren't here are unknown
ERRORS = (
    ("63C0", at.PUK_WANTED), ("63C", at.WRONG_PASSWORD), ("6983", at.PUK_WANTED), ("6982", at.PIN_WANTED), ("9300", at.SIM_BUSY),
    ("6581", at.MEMORY_FAILURE), ("6A84", at.MEMORY_FULL), ("6A82", at.NOT_FOUND), ("6A83", at.NOT_FOUND), ("6A88", at.NOT_FOUND),
    ("6D00", at.NOT_SUPPORTED), ("6E00", at.NOT_SUPPORTED), ("6A81", at.NOT_SUPPORTED), ("6881", at.NOT_SUPPORTED),
    ("6882", at.NOT_SUPPORTED), ("698", at.NOT_ALLOWED), ("6700", at.BAD_PARAMETERS), ("6A8", at.BAD_PARAMETERS),
    ("6B00", at.BAD_PARAMETERS), ("6C", at.BAD_PARAMETERS), ("6F", at.SIM_FAILURE), ("64", at.SIM_FAILURE),
)


class Sim(typing.Protocol):
    """What a modem has as its SIM. A Card is one."""

    def transmit(self, command: bytes) -> Answer:
        """The answer to the bytes of a command. PowerLost, where the power was lost in it."""

    def reset(self) -> None:
        """A reset, or the power on. PowerLost, where it is lost in that."""


def is_done(status):
    return status == "9000" or status.startswith("91")


def error_of(status):
    """The number of the error that a status is."""
    return next((number for beginning, number in ERRORS if status.startswith(beginning)), at.UNKNOWN)


class Recorded:
    """A SIM whose trace is kept: `keep` takes each line of it."""

    def __init__(self, sim, keep):
        self.sim, self.keep = sim, keep

    def transmit(self, command):
        self.keep("> " + decode.hexed(command))
        try:
            answer = self.sim.transmit(command)
        except PowerLost:
            self.keep(process.CUT)
            raise
        self.keep("< " + decode.hexed(answer.data) + str(answer.status))
        return answer

    def reset(self):
        try:
            self.sim.reset()
        except PowerLost:
            self.keep(process.CUT)
            raise
        self.keep(process.RESET)


class Cutting:
    """A card whose power is cut, once, in a memory write of a command: of the one with a number, or of the first that makes so many
    writes (None)."""

    def __init__(self, card, number, write):
        self.card, self.number, self.write = card, number, write
        self.count, self.is_to_come = 0, True

    def transmit(self, command):
        self.count += 1
        if self.is_to_come and self.number in (None, self.count):
            self.card.cut(self.write)
        try:
            return self.card.transmit(command)
        except PowerLost:
            self.is_to_come = False
            raise

    def reset(self):
        self.card.reset()
