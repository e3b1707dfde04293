"""Answers to reset (ISO 7816-3, 8.2; ETSI TS 102 221, 6.3): what they offer, whether they have the form, and those of this card."""
import functools
import operator

DIRECT, INVERSE = 0x3B, 0x3F
# TS and at most 32 characters after it
LONGEST = 33
# T=15 stands for bytes that are of no protocol
GLOBAL = 15
# TA1: the highest speed, 512 over 16
SPEED = 0x95
# of T=1: blocks of up to 254 bytes, and how long is waited for a block and for a character
BLOCKS = bytes((0xFE, 0x45))
# of T=15: all classes of voltage, and the clock may be stopped in either state
ELECTRICAL = 0xC7
# objects of the card's services: a card with an MF; and of what it can do: selection by path and by identifier, short identifiers,
# record numbers, data in bytes, four logical channels of which it gives the number
SERVICES, CAPABILITIES = bytes((0x31, 0x00)), bytes((0x73, 0x36, 0x21, 0x13))
HISTORICAL = bytes((0x80,)) + SERVICES + CAPABILITIES


class Unfit(ValueError):
    """Why bytes are no answer to reset."""


def check(content):
    """TCK: all bytes after TS, and it, come to nothing by exclusive or."""
    return functools.reduce(operator.xor, content[1:], 0)


def made(interface):
    """An answer to reset with these interface bytes after TA1, and the historical bytes of this card."""
    content = bytes((DIRECT, 0x90 | len(HISTORICAL), SPEED)) + interface + HISTORICAL
    return content + bytes((check(content),))


# T=0 alone, and T=0 and T=1
OF_T0 = made(bytes((0x80, 0x10 | GLOBAL, ELECTRICAL)))
OF_BOTH = made(bytes((0x80, 0xB1)) + BLOCKS + bytes((0x10 | GLOBAL, ELECTRICAL)))


def protocols(content):
    """The protocols that an answer to reset offers, in order. Unfit, where the bytes are none."""
    if not 2 <= len(content) <= LONGEST:
        raise Unfit(f"an answer to reset has 2 to {LONGEST} bytes, and not {len(content)}")
    if content[0] not in (DIRECT, INVERSE):
        raise Unfit(f"an answer to reset begins with 3B or 3F, and not {content[0]:02X}")
    named, follow, at = [], content[1] >> 4, 2
    while follow:
        at += (follow & 0b0111).bit_count()
        if not follow & 0b1000:
            break
        if at >= len(content):
            raise Unfit("the answer to reset ends before all of its interface bytes")
        named.append(content[at] & 0x0F)
        follow, at = content[at] >> 4, at + 1
    has_check = any(named)
    size = at + (content[1] & 0x0F) + has_check
    if len(content) != size:
        raise Unfit(f"the first bytes of the answer to reset say that it has {size} bytes, and not {len(content)}")
    if has_check and check(content):
        raise Unfit(f"the last byte of the answer to reset is {check(content[:-1]):02X} for these bytes, and not {content[-1]:02X}")
    return [protocol for protocol in dict.fromkeys(named) if protocol != GLOBAL] or [0]
