"""What the bytes of standard files say: each kind of content is decoded to words, and encoded from them.

Decoding raises BadContent where the bytes can't be right, encoding where the words can't."""
import difflib

from . import rules, structured
from .coding import (
    UPDATES, BadContent, coded_text, decode_plmn, dialled_digits, digits_of, encode_plmn, exact_bytes, is_blank, is_digits,
    packed, text_of)
from .names import by_name, table

IMSI_DIGITS = 15
# the services of an emergency call, by the bits of its category (3GPP TS 24.008, 10.5.4.33)
EMERGENCIES = ("police", "ambulance", "fire brigade", "marine guard", "mountain rescue", "manual eCall", "automatic eCall", "spare")
# the first of them that isn't for a number that is dialled; and the byte of a number without category
FIRST_UNDIALLED, NO_CATEGORY = 5, 0xFF


def decode_iccid(content):
    digits = digits_of(content)
    if len(digits) < 18:
        raise BadContent(f"an ICCID has 18 to 20 digits, and this one {len(digits)}")
    return digits + ("" if len(digits) == 18 or luhn(digits[:-1]) == digits[-1] else f" (its check digit would be {luhn(digits[:-1])})")


def check_iccid(content):
    """BadContent, where the check digit of an ICCID is wrong: one of 18 digits may have none."""
    digits = digits_of(content)
    if is_blank(content):
        raise BadContent("it is blank")
    if len(digits) > 18 and luhn(digits[:-1]) != digits[-1]:
        raise BadContent(f"the check digit of {digits} is {digits[-1]}, and should be {luhn(digits[:-1])}")


def check_imsi(content):
    """BadContent, where an IMSI hasn't the digits that nearly every one has."""
    digits = "" if is_blank(content) else decode_imsi(content)
    if digits and len(digits) != IMSI_DIGITS:
        raise BadContent(f"{digits} has {len(digits)} digits: nearly all IMSIs have {IMSI_DIGITS}")


def check_ecc(record):
    """BadContent, where the category of an emergency number has bits of services that nobody dials, or a spare one."""
    wrong = [name for bit, name in enumerate(EMERGENCIES) if bit >= FIRST_UNDIALLED and record[-1] >> bit & 1]
    if record[-1] != NO_CATEGORY and wrong:
        raise BadContent(f"its category {record[-1]} is for {' and '.join(wrong)}, which no number is dialled for: a category is the sum of "
                         f"{', '.join(f'{1 << bit} ({name})' for bit, name in enumerate(EMERGENCIES[:FIRST_UNDIALLED]))}")


def luhn(digits):
    """The check digit after some digits (ITU-T E.118)."""
    total = 0
    for place, digit in enumerate(reversed(digits)):
        value = int(digit) * (1 if place % 2 else 2)
        total += value - 9 if value > 9 else value
    return str(-total % 10)


def encode_iccid(digits):
    if not 18 <= len(digits) <= 20:
        raise BadContent(f"an ICCID has 18 to 20 digits, and not {len(digits)}")
    return packed(digits, 10)


def decode_imsi(content):
    length, coded = content[0], content[1:]
    if not 1 <= length <= 8 or length > len(coded):
        raise BadContent(f"its length byte is 1 to 8, and not {length:02X}")
    parity = coded[0] & 15
    digits = digits_of(bytes((coded[0] >> 4 | 0xF0,))) + digits_of(coded[1:length])
    if not is_blank(coded[length:]):
        raise BadContent("bytes that are used stand after its end")
    if parity not in (1, 9) or (parity == 9) != (len(digits) % 2 == 1):
        right = 9 if len(digits) % 2 else 1
        raise BadContent(f"its parity half byte is {parity:X}, and {right} for {len(digits)} digits")
    return digits


def encode_imsi(digits):
    if not is_digits(digits) or not 6 <= len(digits) <= 15:
        raise BadContent(f"an IMSI has 6 to 15 digits, and `{digits}` is none")
    coded = ("9" if len(digits) % 2 else "1") + digits
    coded = packed(coded, (len(coded) + 1) // 2)
    return bytes((len(coded),)) + coded.ljust(8, b"\xFF")


# PLMNs

def decode_plmns(content):
    found = [decode_plmn(content[n:n + 3]) for n in range(0, len(content) - 2, 3)]
    return ", ".join(plmn for plmn in found if plmn) or "none"


ACCESS = {"UTRAN": 0x8000, "E-UTRAN": 0x4000, "GSM": 0x0080, "GSM COMPACT": 0x0040, "NG-RAN": 0x0800}


# a place of a list that holds no PLMN, with no technology: so many cards fill it up, and here it is FF else
UNUSED, NO_PLMN = "unused", b"\xFF\xFF\xFF\0\0"


def decode_plmns_act(content):
    return ", ".join(text for text in plmns_act(content) if text != UNUSED) or "none"


def plmns_act(content):
    """The entries of a list of PLMNs with technologies, but for places of FF."""
    found = []
    for n in range(0, len(content) - 4, 5):
        plmn = decode_plmn(content[n:n + 3])
        if bytes(content[n:n + 5]) == NO_PLMN:
            found.append(UNUSED)
        if plmn:
            bits = int.from_bytes(content[n + 3:n + 5], "big")
            known = [name for name, bit in ACCESS.items() if bits & bit]
            # bits that no name says stand in digits
            by = "+".join(known) if known and sum(ACCESS[name] for name in known) == bits else f"{bits:04X}"
            found.append(f"{plmn} by {by}")
    return found


def encode_plmns(plmns):
    return b"".join(map(encode_plmn, plmns))


def encode_plmns_act(plmns):
    """Each is a PLMN, and after it `by` and access technologies joined by +, or their two bytes: 0000 is none of them."""
    content = b""
    for text in plmns:
        if text == UNUSED:
            content += NO_PLMN
            continue
        plmn, _, by = text.partition(" by ")
        coded = encode_plmn(plmn)
        if not by:
            raise BadContent(f"`{text}` says no access technology: `{plmn} by GSM+UTRAN` does, of {', '.join(ACCESS)}")
        content += coded + technologies(by)
    return content


def technologies(by):
    """The two bytes of access technologies that are joined by +, or written in hexadecimal digits."""
    names = by.upper().split("+")
    if all(name in ACCESS for name in names):
        return sum(ACCESS[name] for name in set(names)).to_bytes(2, "big")
    try:
        return exact_bytes(by, 2, "technologies")
    except BadContent:
        raise BadContent(f"`{by}` is no access technology: {', '.join(ACCESS)}") from None


# names and numbers

# what follows the name in a record of numbers
DIALLING = 14


def dialling_parts(record):
    """The name, the number and its kind in a record that isn't blank."""
    if len(record) < DIALLING:
        raise BadContent(f"a record of numbers has at least {DIALLING} bytes, and not {len(record)}")
    name, rest = record[:-DIALLING], record[-DIALLING:]
    length, kind = rest[0], rest[1]
    if length == 0xFF:
        return text_of(name), "", kind
    if not 1 <= length <= 11:
        raise BadContent(f"the length of its number is 1 to 11, and not {length:02X}")
    return text_of(name), dialled_digits(rest[2:1 + length], kind), kind


def decode_dialling(record):
    if is_blank(record):
        return None
    name, number, _ = dialling_parts(record)
    return f"{name}: {number or 'no number'}"


def encode_dialling(entry, length):
    """`entry` has a name and a number, which begins with + where it is international."""
    if length < 14:
        raise BadContent(f"a record of numbers has at least 14 bytes, and not {length}")
    name = coded_text(entry.get("name", ""), length - 14).ljust(length - 14, b"\xFF")
    return name + structured.address(str(entry.get("number", "")), False) + b"\xFF\xFF"


def decode_spn(content):
    shown = content[0]
    if shown == 0xFF and is_blank(content[1:]):
        return "none"
    when = ["the network's name is shown too"] if shown & 1 else ["the network's name isn't asked for at home"]
    when += ["it isn't shown abroad"] if shown & 2 else []
    return f"{text_of(content[1:])} ({', '.join(when)})"


def encode_spn(name, size=17, shown=1):
    return bytes((shown,)) + coded_text(name, size - 1).ljust(size - 1, b"\xFF")


# bits

def decode_acc(content):
    found = [str(number) for number in classes_of(content) if number != 10]
    return f"class{'es' * (len(found) != 1)} {', '.join(found)}" if found else "no class"


def encode_acc(classes):
    bits = 0
    for number in classes:
        if not 0 <= number <= 15 or number == 10:
            raise BadContent(f"an access control class is 0 to 9 or 11 to 15, and not {number}")
        bits |= 1 << number
    return bits.to_bytes(2, "big")


MODES = {0x00: "normal", 0x80: "type approval", 0x01: "normal, with features of the specification",
         0x81: "type approval, with features of the specification", 0x02: "maintenance", 0x04: "cell test"}


def decode_ad(content):
    mode = MODES.get(content[0], f"mode {content[0]:02X}")
    if len(content) < 4:
        return f"{mode} operation"
    if content[3] & 15 not in (2, 3):
        raise BadContent(f"a network's code has 2 or 3 digits in an IMSI, and not {content[3] & 15}")
    return f"{mode} operation, the network's code has {content[3] & 15} digits"


def encode_ad(given):
    mode = next((byte for byte, name in MODES.items() if name == given.get("mode", "normal")), None)
    if mode is None:
        known = ", ".join(f'"{name}"' for name in MODES.values())
        raise BadContent(f'mode is "{given["mode"]}", and has to be one of {known}')
    if given.get("network_digits", 2) not in (2, 3):
        raise BadContent(f"network_digits is {given['network_digits']}, and has to be 2 or 3")
    return bytes((mode, 0, 0, given.get("network_digits", 2)))


# the kinds of tables of services, and the bits that each service has in one
SERVICES = {"ust": 1, "sst": 2, "ist": 1, "est": 1}


def decode_ust(content):
    return decode_bits(content, table("files")["ust"])


def decode_bits(content, names):
    """The services that are on, with their numbers."""
    found = []
    for place in range(8 * len(content)):
        if content[place // 8] >> place % 8 & 1:
            found.append(f"{place + 1} {names[place]}" if place < len(names) else str(place + 1))
    return ", ".join(found) or "none"


def classes_of(content):
    bits = int.from_bytes(content, "big")
    return [number for number in range(16) if bits >> number & 1]


def decode_sst(content):
    names, found = table("files")["sst"], []
    for place in range(4 * len(content)):
        bits = content[place // 4] >> 2 * (place % 4) & 3
        if bits:
            found.append((f"{place + 1} {names[place]}" if place < len(names) else str(place + 1)) + " (not active)" * (bits != 3))
    return ", ".join(found) or "none"


# as many as a file of 255 bytes tells of
MOST_SERVICES = 2040


def services(given, kind):
    """The numbers of services that are said by numbers, by names, or by the one file that a service is for (`FDN`, `EF_FDN`)."""
    known = {name.lower(): number for number, name in enumerate(table("files")[kind], 1)}
    for one in given:
        if isinstance(one, int) and not isinstance(one, bool) and 1 <= one <= MOST_SERVICES:
            yield one
            continue
        word = str(one).lower()
        several = services_of_file(str(one), kind)
        number = known.get(word) or (several[0] if len(several) == 1 else None)
        if number is None and several:
            raise BadContent(f"`{one}` is a file of {len(several)} services, {' and '.join(map(str, several))}: a number or a name says which")
        if number is None:
            meant = difflib.get_close_matches(word, known, 1)
            raise BadContent(f"`{one}` is no service by number or name" + (f", but `{table('files')[kind][known[meant[0]] - 1]}` is" if meant else "")
                             + f": tools/profile services {kind} lists them")
        yield number


def services_of_file(word, kind):
    """The numbers of the services that a standard file is for, by the file's name."""
    return sorted({number for entry in by_name(word) for number in entry.get("needs", {}).get(kind, ())})


def encode_ust(given, size=None, kind="ust"):
    bits = 0
    for number in services(given, kind):
        bits |= 1 << number - 1
    return sized(bits, size or max(1, (bits.bit_length() + 7) // 8))


def services_on(kind, content):
    """The numbers of the services that are on in a table; None where it is blank."""
    if is_blank(content):
        return None
    width = 2 if kind == "sst" else 1
    bits = int.from_bytes(content, "little")
    return {place + 1 for place in range(8 * len(content) // width) if bits >> width * place & (1 << width) - 1 == (1 << width) - 1}


def encode_sst(given, size=None):
    bits = 0
    for number in services(given, "sst"):
        bits |= 3 << 2 * (number - 1)
    return sized(bits, size or max(2, (bits.bit_length() + 7) // 8))


def sized(bits, size):
    if bits.bit_length() > 8 * size:
        raise BadContent(f"a service stands beyond {size} bytes")
    return bits.to_bytes(size, "little")


# locations

def decode_loci(content):
    if len(content) != 11:
        raise BadContent(f"location information has 11 bytes, and not {len(content)}")
    area = location(content[4:9])
    return f"TMSI {content[:4].hex().upper()}, {area}, {UPDATES.get(content[10] & 7, 'status ' + str(content[10] & 7))}"


def location(content):
    plmn = decode_plmn(content[:3]) or "no PLMN"
    return f"{plmn} area {content[3:5].hex().upper()}"


def decode_psloci(content):
    if len(content) != 14:
        raise BadContent(f"packet switched location information has 14 bytes, and not {len(content)}")
    return (f"P-TMSI {content[:4].hex().upper()}, signature {content[4:7].hex().upper()}, {location(content[7:12])} routing area "
            f"{content[12]:02X}, {UPDATES.get(content[13] & 7, 'status ' + str(content[13] & 7))}")


def encode_loci(given):
    area = exact_bytes(given.get("area", "0000"), 2, "a location area")
    updated = next((n for n, name in UPDATES.items() if name == given.get("status", "not updated")), None)
    if updated is None:
        raise BadContent(f"`{given['status']}` is no status: {', '.join(UPDATES.values())}")
    # the byte before the status is reserved, and FF on a new card (3GPP TS 31.102, annex E)
    return exact_bytes(given.get("tmsi", "FFFFFFFF"), 4, "a TMSI") + encode_plmn(given["plmn"]) + area + b"\xFF" + bytes((updated,))


# others

def decode_languages(content):
    found = []
    for n in range(0, len(content) - 1, 2):
        pair = content[n:n + 2]
        if pair != b"\xFF\xFF":
            if not pair.isalpha():
                raise BadContent(f"{pair.hex().upper()} is no language of two letters")
            found.append(pair.decode())
    return ", ".join(found) or "none"


def encode_languages(languages):
    wrong = next((word for word in languages if len(word) != 2 or not word.isalpha() or not word.isascii() or not word.islower()), None)
    if wrong is not None:
        raise BadContent(f"a language is two lower-case letters (ISO 639), as `de`, and not `{wrong}`")
    return "".join(languages).encode()


def decode_minutes(content):
    return "no search" if content[0] == 0 else f"every {6 * content[0]} minutes"


def decode_application(record):
    if is_blank(record):
        return None
    if record[0] != 0x61:
        raise BadContent("an application begins with the template 61")
    found = dict(rules.objects(record[2:2 + record[1]]))
    return f"{text_of(found.get(0x50, b'')) or 'no label'}, {found.get(0x4F, b'').hex().upper()}"


def decode_rule(record):
    return None if is_blank(record) else rules.shown(record)


def decode_ecc(record):
    if is_blank(record):
        return None
    services = [name for bit, name in enumerate(EMERGENCIES) if record[-1] >> bit & 1]
    category = f", category {record[-1]}: {', '.join(services) or 'none'}" if len(record) > 3 and record[-1] != NO_CATEGORY else ""
    return digits_of(record[:3]) + (f" ({text_of(record[3:-1])})" if len(record) > 4 and not is_blank(record[3:-1]) else "") + category


def decode_sms(record):
    states = {0: "free", 1: "received, read", 3: "received, to be read", 5: "sent", 7: "to be sent", 0x0D: "sent, report asked for"}
    return None if record[0] & 0x1F == 0 else states.get(record[0] & 0x1F, f"status {record[0]:02X}")


def decode_smsp(record):
    if is_blank(record):
        return None
    if len(record) < structured.PARAMETERS:
        raise BadContent(f"a record of parameters has at least {structured.PARAMETERS} bytes, and not {len(record)}")
    name, rest = record[:-28], record[-28:]
    centre = rest[13:25]
    has = not rest[0] & 0x02 and 1 <= centre[0] <= 11
    parts = [text_of(name) or "no name", f"centre {dialled_digits(centre[2:1 + centre[0]], centre[1]) if has else 'none'}"]
    if not rest[0] & 0x01:
        parts.append(f"destination {structured.address_of(rest[1:13], True)}")
    parts += [f"{what} {rest[place]}" for bit, place, what in ((0x04, 25, "protocol"), (0x08, 26, "coding")) if not rest[0] & bit]
    if not rest[0] & 0x10:
        parts.append(f"validity {structured.minutes_of(rest[27])} minutes")
    return ", ".join(parts)


def decode_number(content):
    return str(int.from_bytes(content, "big"))


def decode_keys(content):
    return "none" if content[0] == 7 else f"set {content[0]}, {content[1:].hex().upper()}"


def decode_barred(record):
    return None if is_blank(record) else decode_dialling(record[:-1])


def decode_services(kind):
    return lambda content: decode_bits(content, table("files")[kind])


def told(read):
    """A decoder that tells the fields of a content, each with its name."""
    def decode_fields(content):
        found = read(content)
        return in_words(found) if found or found == 0 else None
    return decode_fields


def decode_suci(content):
    """Which schemes conceal the SUPI, the most wanted first, each with the key that it takes; and the keys by their identifiers."""
    found = structured.concealing_of(content)
    schemes = "; ".join(f"scheme {one['scheme']}" + (f" with key {one['key']} of the list" if one["key"] else "") for one in found["schemes"])
    keys = "; ".join(f"{one['id']} is {one['key']}" for one in found["keys"])
    return ", keys: ".join(part for part in (schemes, keys) if part) or None


def in_words(value):
    if isinstance(value, dict):
        return ", ".join(f"{key} {in_words(each)}" for key, each in value.items())
    if isinstance(value, list):
        return "; ".join(map(in_words, value)) or "none"
    return str(value)


DECODERS = {
    "iccid": decode_iccid, "imsi": decode_imsi, "plmns": decode_plmns, "plmns-act": decode_plmns_act, "dialling": decode_dialling,
    "spn": decode_spn, "acc": decode_acc, "ad": decode_ad, "ust": decode_ust, "sst": decode_sst, "loci": decode_loci,
    "psloci": decode_psloci, "languages": decode_languages, "minutes6": decode_minutes, "application": decode_application,
    "rule": decode_rule, "ecc": decode_ecc, "sms": decode_sms, "smsp": decode_smsp, "number": decode_number, "keys": decode_keys,
    "barred": decode_barred, "ist": decode_services("ist"), "est": decode_services("est"), "pnn": told(structured.names_of),
    "opl": told(lambda record: structured.areas_of(record, 2)), "opl5g": told(lambda record: structured.areas_of(record, 3)),
    "spdi": told(structured.displayed_of), "mbi": told(structured.mailboxes_of),
    "epsloci": told(lambda content: structured.location_of(content, 12, 2)),
    "5gsloci": told(lambda content: structured.location_of(content, 13, 3)),
    "access-identities": told(structured.access_identities_of), "routing": told(structured.routing_of),
    "suci": decode_suci, "supi-nai": told(structured.identifiers_of), "uri": told(structured.uri_of),
    "uris": told(structured.uri_of), "servers": told(structured.server_of),
}


# the protection schemes that take a key of the home network: their profiles, and the bytes of a key (3GPP TS 33.501, C.3.4)
PROFILES = {1: ("A", (32,)), 2: ("B", (33, 65))}
# how the keys of profile B begin, by their length: compressed, or both coordinates (SEC 1, 2.3.3)
POINTS = {33: ("02", "03"), 65: ("04",)}


def check_suci(content):
    """BadContent, where a protection scheme has no key that fits it, or two keys have one identifier."""
    found = structured.concealing_of(content)
    identifiers = [one["id"] for one in found["keys"]]
    wrong = [f"two keys have the identifier {one}" for one in dict.fromkeys(identifiers) if identifiers.count(one) > 1]
    wrong += [text for one in found["schemes"] if (text := wrong_key(one["scheme"], one["key"], found["keys"]))]
    if wrong:
        raise BadContent("; ".join(wrong))


def wrong_key(scheme, place, keys):
    """Why the key at a place of the list, the first one is 1, is none for a protection scheme; None where it is."""
    if scheme not in PROFILES:
        return f"scheme {scheme} takes the key {place}, and the list has {len(keys)}" if place > len(keys) else None
    name, sizes = PROFILES[scheme]
    if not 1 <= place <= len(keys):
        return f"scheme {scheme} (profile {name}) takes the key {place}, and the list has {len(keys) or 'none'}"
    key = keys[place - 1]["key"]
    size = len(key) // 2
    if size not in sizes:
        return f"scheme {scheme} (profile {name}) takes a key of {' or '.join(map(str, sizes))} bytes, and that at place {place} has {size}"
    if scheme == 2 and not key.startswith(POINTS[size]):
        return f"the key at place {place}, for scheme 2 (profile B), begins with {key[:2]}, and one of {size} bytes with {' or '.join(POINTS[size])}"
    return None


# what is said of contents that can be read, and that are hardly right
CHECKS = {"iccid": check_iccid, "imsi": check_imsi, "ecc": check_ecc, "suci": check_suci}


# those that a blank content is told to, too
OF_BLANK = ("iccid", "imsi", "ecc")


def check(kind, content):
    """BadContent, where the bytes of this kind can be read and are hardly right."""
    if kind in CHECKS and (kind in OF_BLANK or not is_blank(content)):
        CHECKS[kind](bytes(content))


def decode(kind, content):
    """What bytes of this kind say, None where they are blank or the kind isn't known. BadContent where they can't be right."""
    if kind not in DECODERS or not content or is_blank(content):
        return None
    try:
        return DECODERS[kind](bytes(content))
    except BadContent:
        raise
    except (ValueError, IndexError, KeyError) as fault:
        raise BadContent(str(fault)) from None
