"""Speaks to the card in the first reader by PC/SC, for tools/check. Wants python3-pyscard.

A line of standard input is a command in hexadecimal digits: its answer is printed, or `pulled` where the card was pulled out in
it. The line `back` waits until the reader has been seen empty and a card is in it again, `off` takes the power from the card and
gives it again, and `reset` resets it; each is printed when it is done."""
import contextlib
import sys
import time

from smartcard.Exceptions import CardConnectionException, NoCardException
from smartcard.System import readers
from smartcard.scard import (
    SCARD_PROTOCOL_T0, SCARD_PROTOCOL_T1, SCARD_RESET_CARD, SCARD_SCOPE_USER, SCARD_SHARE_SHARED, SCARD_STATE_EMPTY,
    SCARD_STATE_PRESENT, SCARD_STATE_UNAWARE, SCardEstablishContext, SCardGetStatusChange, SCardReconnect, SCardReleaseContext)

SECONDS = 20
MILLISECONDS_A_LOOK = 200


def connection():
    made = readers()[0].createConnection()
    made.connect()
    return made


def left(card):
    with contextlib.suppress(CardConnectionException, NoCardException):
        card.disconnect()


def awaited(state):
    """Waits until the first reader is seen in a state."""
    _, context = SCardEstablishContext(SCARD_SCOPE_USER)
    try:
        name, seen = str(readers()[0]), SCARD_STATE_UNAWARE
        until = time.monotonic() + SECONDS
        while time.monotonic() < until:
            _, found = SCardGetStatusChange(context, MILLISECONDS_A_LOOK, [(name, seen)])
            seen = found[0][1]
            if seen & state:
                return
    finally:
        # a context that isn't given back is one less for those who come after
        SCardReleaseContext(context)
    raise TimeoutError(f"the reader was not seen {'empty' if state == SCARD_STATE_EMPTY else 'with a card'} for {SECONDS} seconds")


def answered(card, command):
    try:
        data, sw1, sw2 = card.transmit(list(command))
    except CardConnectionException:
        return "pulled"
    return (bytes(data) + bytes((sw1, sw2))).hex().upper()


def main():
    awaited(SCARD_STATE_PRESENT)
    card = connection()
    for line in map(str.strip, sys.stdin):
        if line == "back":
            # at once: a connection that is left later would take the power from the card that is back
            left(card)
            awaited(SCARD_STATE_EMPTY)
            awaited(SCARD_STATE_PRESENT)
            card = connection()
            print(line, flush=True)
        elif line == "off":
            left(card)
            card = connection()
            print(line, flush=True)
        elif line == "reset":
            protocols = SCARD_PROTOCOL_T0 | SCARD_PROTOCOL_T1
            failed, _ = SCardReconnect(card.component.hcard, SCARD_SHARE_SHARED, protocols, SCARD_RESET_CARD)
            print(line if failed == 0 else f"{line} failed", flush=True)
        else:
            print(answered(card, bytes.fromhex(line)), flush=True)
    left(card)


if __name__ == "__main__":
    main()
