"""The handset in Python as a program of PC/SC, for tools/check: it takes the card in the first reader as a telephone does, and polls. Its user
does nothing. Wants python3-pyscard, and tools/ among the folders of Python's modules.

It takes each card that is put in, until it is ended."""
import contextlib
import sys
import time

sys.dont_write_bytecode = True
import pcsc_client
from smartcard.Exceptions import CardConnectionException, NoCardException
from smartcard.scard import (
    SCARD_PROTOCOL_T0, SCARD_PROTOCOL_T1, SCARD_RESET_CARD, SCARD_SHARE_SHARED, SCARD_STATE_EMPTY, SCARD_STATE_PRESENT, SCardReconnect)
from uicc import Answer, PowerLost, Terminal

SECONDS_TO_POLL = 0.1


class InReader:
    """The card in the first reader, with the calls of a Card."""

    def __init__(self):
        self.connection, self.trace = pcsc_client.connection(), []

    def transmit(self, command):
        try:
            data, sw1, sw2 = self.connection.transmit(list(command))
        except CardConnectionException as fault:
            raise PowerLost(str(fault)) from None
        return Answer(bytes(data), sw1 << 8 | sw2)

    def reset(self):
        protocols = SCARD_PROTOCOL_T0 | SCARD_PROTOCOL_T1
        failed, _ = SCardReconnect(self.connection.component.hcard, SCARD_SHARE_SHARED, protocols, SCARD_RESET_CARD)
        if failed:
            raise PowerLost("the card isn't there")


def serve():
    """Has the handset use the card, until that is taken out."""
    card = InReader()
    terminal = Terminal(card)
    terminal.start()
    while not terminal.is_silent:
        terminal.poll()
        time.sleep(SECONDS_TO_POLL)
    # at once: a connection that is left later would take the power from the next card
    pcsc_client.left(card.connection)


def main():
    while True:
        # a while without a card, or one that goes again before it is taken; SystemError is pyscard's, of a context that it can't take
        with contextlib.suppress(TimeoutError, CardConnectionException, NoCardException, SystemError):
            pcsc_client.awaited(SCARD_STATE_PRESENT)
            serve()
            pcsc_client.awaited(SCARD_STATE_EMPTY)


if __name__ == "__main__":
    main()
