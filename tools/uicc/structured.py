"""Contents of several fields, as tables of them: the parameters of short messages, names of networks, identities of IMS, the files of EPS
and of the 5G system (3GPP TS 31.102, 4.2 and 4.4.11; 3GPP TS 31.103, 4.2; 3GPP TS 24.008, 10.5.3.5a).

Each kind has a function that makes bytes of the fields, `encode_..`, and one that reads them, `.._of`; both raise BadContent."""
import ipaddress

from . import alphabet, tlv
from .coding import (
    DIALLED, UPDATES, BadContent, coded_text, decode_plmn, dialled_digits, encode_plmn, exact_bytes, is_blank, is_digits, packed, text_of)

BLANK = 0xFF


def spelled(tag, value):
    """An object of a file, with the shortest length (ISO 7816-4, 5.2.2.2)."""
    return bytes((tag,)) + tlv.length_of(value) + value


def objects(content):
    """Each tag and value of a list of objects."""
    at = 0
    while at < len(content):
        try:
            length, start = tlv.length_at(content, at + 1)
        except tlv.BadTlv as fault:
            raise BadContent(f"the object {content[at]:02X}: {fault}") from None
        if start + length > len(content):
            raise BadContent(f"the object {content[at]:02X} has {length} bytes, and {len(content) - start} are there")
        yield content[at], content[start:start + length]
        at = start + length


def objects_of(content):
    """The objects of a content after which FF stand."""
    content = bytes(content)
    end = content.rstrip(b"\xFF")
    try:
        return list(objects(end))
    except BadContent:
        # a value may end with FF
        return list(objects(content[:len(end) + missing(end)]))


def missing(content):
    """How many bytes are missing of the last object."""
    at = 0
    while at + 1 < len(content):
        try:
            length, start = tlv.length_at(content, at + 1)
        except tlv.BadTlv:
            return 0
        at = start + length
    return max(0, at - len(content))


# short message parameters

PARAMETERS = 28
NO_ADDRESS = b"\xFF" * 12
DAY, WEEK = 24 * 60, 7 * 24 * 60


def minutes_of(validity):
    """The minutes of a validity period in one byte (3GPP TS 23.040, 9.2.3.12.1)."""
    if validity < 144:
        return 5 * (validity + 1)
    if validity < 168:
        return 12 * 60 + 30 * (validity - 143)
    return DAY * (validity - 166) if validity < 197 else WEEK * (validity - 192)


def validity_of(minutes):
    found = next((validity for validity in range(256) if minutes_of(validity) == minutes), None)
    if found is None:
        raise BadContent(f"no validity period has {minutes} minutes: it has 5, 10 .. 720, 750 .. 1440, or whole days up to 30, or weeks up to 63")
    return found


def address(number, in_digits):
    """A number with its length, in digits or in bytes, and its kind; FF where it is empty."""
    digits = number.removeprefix("+")
    if not digits:
        return NO_ADDRESS
    if any(digit not in DIALLED[:14] for digit in digits) or len(digits) > 20:
        raise BadContent(f"`{number}` is no number of at most 20 digits")
    filled = digits + "F" * (len(digits) % 2)
    coded = bytes(DIALLED.index(filled[n + 1]) << 4 | DIALLED.index(filled[n]) for n in range(0, len(filled), 2))
    return (bytes((len(digits) if in_digits else 1 + len(coded), 0x91 if number.startswith("+") else 0x81)) + coded).ljust(12, b"\xFF")


def address_of(content, in_digits):
    size = (content[0] + 1) // 2 + 1 if in_digits else content[0]
    if not 1 <= size <= 11:
        raise BadContent(f"the length of its number is {content[0]:02X}")
    return dialled_digits(content[2:1 + size], content[1])


def encode_parameters(given, length):
    if length < PARAMETERS:
        raise BadContent(f"a record of parameters has at least {PARAMETERS} bytes, and not {length}")
    name = coded_text(given.get("name", ""), length - PARAMETERS).ljust(length - PARAMETERS, b"\xFF")
    # an address that is empty is none
    told = [given.get(key, "") != "" for key in ("destination", "centre", "protocol", "coding", "validity")]
    if not any(told) and not given.get("name"):
        return b"\xFF" * length
    indicators = 0xFF & ~sum(1 << place for place, there in enumerate(told) if there)
    last = [given.get(key, BLANK) for key in ("protocol", "coding")]
    last.append(validity_of(given["validity"]) if "validity" in given else BLANK)
    return (name + bytes((indicators,)) + address(given.get("destination", ""), True) + address(given.get("centre", ""), False) + bytes(last))


def parameters_of(record):
    if is_blank(record):
        return {}
    if len(record) < PARAMETERS:
        raise BadContent(f"a record of parameters has at least {PARAMETERS} bytes, and not {len(record)}")
    name, rest = text_of(record[:-PARAMETERS]), record[-PARAMETERS:]
    found = {"name": name} if name else {}
    if not rest[0] & 1:
        found["destination"] = address_of(rest[1:13], True)
    if not rest[0] & 2:
        found["centre"] = address_of(rest[13:25], False)
    for place, key in enumerate(("protocol", "coding")):
        if not rest[0] >> 2 + place & 1:
            found[key] = rest[25 + place]
    if not rest[0] & 0x10:
        found["validity"] = minutes_of(rest[27])
    return found


# names of networks

def encode_network_name(text):
    """A name with the byte that says its coding: seven bits a code where the alphabet has all its letters, else UCS2."""
    try:
        if alphabet.first_beyond(text) is not None:
            return b"\x90" + alphabet.ucs2(text)
    except alphabet.NoLetter as fault:
        raise BadContent(f"`{text}` can't be written: {fault}") from None
    codes = alphabet.codes_of(text)
    content = alphabet.packed(codes)
    return bytes((0x80 | 8 * len(content) - 7 * len(codes),)) + content


def network_name_of(content):
    scheme, spare = content[0] >> 4 & 7, content[0] & 7
    if scheme == 1:
        return alphabet.ucs2_text(content[1:])
    if scheme:
        raise BadContent(f"{content[0]:02X} begins no name of a network")
    return alphabet.letters_of(alphabet.unpacked(content[1:], (8 * (len(content) - 1) - spare) // 7))


def encode_names(given, length):
    content = b"".join(spelled(tag, encode_network_name(given[key])) for key, tag in (("full", 0x43), ("short", 0x45)) if key in given)
    return content.ljust(length or 0, b"\xFF")


def names_of(record):
    if is_blank(record):
        return {}
    found = dict(objects_of(record))
    if 0x43 not in found:
        raise BadContent("a record begins with the full name of a network, 43")
    return {key: network_name_of(found[tag]) for key, tag in (("full", 0x43), ("short", 0x45)) if tag in found}


def encode_areas(given, size):
    """A network and its areas from one to another, whose codes have so many bytes, and the record of their name; 0 is the network's own."""
    return (encode_plmn(given["plmn"]) + exact_bytes(given.get("from", "00" * size), size, "an area")
            + exact_bytes(given.get("to", "FF" * (size - 1) + "FE"), size, "an area") + bytes((given["name"],)))


def areas_of(record, size):
    if is_blank(record):
        return {}
    if len(record) != 4 + 2 * size:
        raise BadContent(f"a record of a network's areas has {4 + 2 * size} bytes, and not {len(record)}")
    return {"plmn": decode_plmn(record[:3]), "from": record[3:3 + size].hex().upper(), "to": record[3 + size:3 + 2 * size].hex().upper(),
            "name": record[-1]}


def encode_displayed(plmns):
    return spelled(0xA3, spelled(0x80, b"".join(map(encode_plmn, plmns))))


def displayed_of(content):
    found = dict(objects_of(dict(objects_of(content))[0xA3]))[0x80]
    return [plmn for n in range(0, len(found) - 2, 3) if (plmn := decode_plmn(found[n:n + 3]))]


# mailboxes

MAILBOXES = ("voice", "fax", "email", "other", "video")


def encode_mailboxes(given, length):
    return bytes(given.get(key, 0) for key in MAILBOXES[:length or 4])


def mailboxes_of(record):
    return {key: number for key, number in zip(MAILBOXES, record) if number} if not is_blank(record) else {}


# locations: what identifies the subscriber for a while, the area, and whether the network knows it

STATUSES = {0: "updated", 1: "not updated", 2: "roaming not allowed"}


def status_code(word, known):
    found = next((code for code, name in known.items() if name == word), None)
    if found is None:
        raise BadContent(f"`{word}` is no status: {', '.join(known.values())}")
    return found


def encode_packet_location(given):
    return (exact_bytes(given.get("ptmsi", "FFFFFFFF"), 4, "a P-TMSI") + exact_bytes(given.get("signature", "FFFFFF"), 3, "a signature")
            + encode_plmn(given["plmn"]) + exact_bytes(given.get("area", "0000"), 2, "a location area")
            + exact_bytes(given.get("routing", "FF"), 1, "a routing area")
            + bytes((status_code(given.get("status", "not updated"), UPDATES),)))


def packet_location_of(content):
    if len(content) != 14:
        raise BadContent(f"packet switched location information has 14 bytes, and not {len(content)}")
    return {"ptmsi": content[:4].hex().upper(), "signature": content[4:7].hex().upper(), "plmn": decode_plmn(content[7:10]),
            "area": content[10:12].hex().upper(), "routing": content[12:13].hex().upper(), "status": UPDATES[content[13] & 7]}


def encode_location(given, identity, area):
    """A GUTI of so many bytes, and an area whose code has so many."""
    return (exact_bytes(given.get("guti", "FF" * identity), identity, "a GUTI") + encode_plmn(given["plmn"])
            + exact_bytes(given.get("area", "00" * area), area, "a tracking area")
            + bytes((status_code(given.get("status", "not updated"), STATUSES),)))


def location_of(content, identity, area):
    if len(content) != identity + area + 4:
        raise BadContent(f"its location information has {identity + area + 4} bytes, and not {len(content)}")
    return {"guti": content[:identity].hex().upper(), "plmn": decode_plmn(content[identity:identity + 3]),
            "area": content[identity + 3:-1].hex().upper(), "status": STATUSES[content[-1] & 7]}


# 5GS

def encode_access_identities(numbers):
    if any(number not in (1, 2) for number in numbers):
        raise BadContent("an access identity is 1 (multimedia priority) or 2 (mission critical): those from 11 to 15 are access control "
                         "classes")
    return bytes((sum(1 << number - 1 for number in set(numbers)), 0, 0, 0))


def access_identities_of(content):
    return [number for number in (1, 2) if content[0] >> number - 1 & 1]


def encode_routing(digits):
    if not is_digits(digits) or not 1 <= len(digits) <= 4:
        raise BadContent(f"a routing indicator has 1 to 4 digits, and `{digits}` is none")
    return packed(digits, 2) + b"\xFF\xFF"


def routing_of(content):
    digits = ""
    for byte in content[:2]:
        for half in (byte & 15, byte >> 4):
            digits += str(half) if half < 10 else ""
    return digits


def encode_concealing(given):
    """What the SUCI is calculated by: protection schemes with the place of their key, the most wanted first, and the home network's keys."""
    schemes = b"".join(bytes((one["scheme"], one.get("key", 0))) for one in given.get("schemes", []))
    keys = b"".join(spelled(0x80, bytes((one["id"],))) + spelled(0x81, hexadecimal(one["key"]))
                    for one in given.get("keys", []))
    return spelled(0xA0, schemes) + spelled(0xA1, keys)


def concealing_of(content):
    found = dict(objects_of(content))
    schemes, keys = found[0xA0], list(objects(found.get(0xA1, b"")))
    return {"schemes": [{"scheme": schemes[n], "key": schemes[n + 1]} for n in range(0, len(schemes) - 1, 2)],
            "keys": [{"id": keys[n][1][0], "key": keys[n + 1][1].hex().upper()} for n in range(0, len(keys) - 1, 2)]}


def hexadecimal(digits):
    try:
        return bytes.fromhex(digits)
    except ValueError:
        raise BadContent(f"`{digits}` are no bytes in hexadecimal digits, two each") from None


IDENTIFIERS = {"network_specific": 0x80, "global_line": 0x81, "global_cable": 0x82}


def encode_identifiers(given):
    return b"".join(spelled(IDENTIFIERS[key], text.encode()) for key, text in given.items())


def identifiers_of(content):
    found = dict(objects_of(content))
    return {key: found[tag].decode() for key, tag in IDENTIFIERS.items() if tag in found}


# identities and addresses of IMS

def encode_uri(text, length):
    return spelled(0x80, text.encode()).ljust(length or 0, b"\xFF") if text else b""


def uri_of(content):
    return dict(objects_of(content))[0x80].decode() if not is_blank(content) else ""


def encode_address(text, length):
    try:
        number = ipaddress.ip_address(text)
        content = bytes((1 if number.version == 4 else 2,)) + number.packed
    except ValueError:
        content = b"\x00" + text.encode()
    return spelled(0x80, content).ljust(length or 0, b"\xFF") if text else b""


def server_of(content):
    if is_blank(content):
        return ""
    found = dict(objects_of(content))[0x80]
    return found[1:].decode() if found[0] == 0 else str(ipaddress.ip_address(found[1:]))
