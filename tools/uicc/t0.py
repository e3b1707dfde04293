"""TPDUs of T=0, as the link between a terminal and the card takes them (docs/SCRIPT.md)."""

HEADER = 5
GET_RESPONSE = 0xC0
READ_BINARY, READ_RECORD, FETCH, STATUS, CHANNEL = 0xB0, 0xB2, 0x12, 0xF2, 0x70


def is_outgoing(ins, p1):
    """Whether the data of a command go from the card, so that none follow its header."""
    return ins in (READ_BINARY, READ_RECORD, FETCH, STATUS) or (ins == CHANNEL and p1 == 0)


def passed(tpdu):
    """The bytes of the command that the link passes to the card for a TPDU; None where it answers by itself: GET RESPONSE, and
    bytes that are no TPDU."""
    if len(tpdu) < HEADER or tpdu[1] == GET_RESPONSE:
        return None
    count = 0 if is_outgoing(tpdu[1], tpdu[2]) else tpdu[4]
    if len(tpdu) - HEADER != count:
        return None
    return tpdu if count or is_outgoing(tpdu[1], tpdu[2]) else tpdu[:4]
