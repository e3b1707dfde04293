"""How contents of files are coded: digits, PLMNs and names as bytes (3GPP TS 31.102; ETSI TS 102 221, annex A)."""
from . import alphabet


class BadContent(ValueError):
    """Bytes that can't be right, or words that no bytes say."""


def is_blank(content):
    return not content.strip(b"\xFF")


# digits: two a byte, the first in the lower half

def digits_of(content):
    """The digits up to the first half byte that is F."""
    found = ""
    for byte in content:
        for half in (byte & 15, byte >> 4):
            if half == 15:
                return found
            if half > 9:
                raise BadContent(f"{half:X} is no decimal digit")
            found += str(half)
    return found


def is_digits(text):
    return text.isascii() and text.isdecimal()


def packed(digits, size):
    """Digits two a byte, filled up with F."""
    if digits and not is_digits(digits):
        other = next(letter for letter in digits if not is_digits(letter))
        raise BadContent(f"`{digits}` are no decimal digits: `{other}` is none")
    if len(digits) > 2 * size:
        raise BadContent(f"{len(digits)} digits are more than {size} bytes hold")
    digits = digits.ljust(2 * size, "F")
    return bytes(int(digits[n + 1] + digits[n], 16) for n in range(0, 2 * size, 2))


# PLMNs

def decode_plmn(content):
    if is_blank(content):
        return None
    first, middle, last = content
    halves = [first & 15, first >> 4, middle & 15, last & 15, last >> 4, middle >> 4]
    if any(half > 9 for half in halves[:5]) or halves[5] > 9 and halves[5] != 15:
        raise BadContent(f"{content.hex().upper()} is no PLMN: its digits are decimal")
    return "".join(map(str, halves[:3])) + "-" + "".join(str(half) for half in halves[3:] if half != 15)


def encode_plmn(text):
    country, _, network = text.partition("-")
    if not (is_digits(country) and is_digits(network) and len(country) == 3 and len(network) in (2, 3)):
        raise BadContent(f"a PLMN is a country of three digits and a network of two or three, as 001-01, and not {text}")
    third = network[2] if len(network) == 3 else "F"
    return bytes(int(text, 16) for text in (country[1] + country[0], third + country[2], network[1] + network[0]))


# names and numbers

text_of = alphabet.name_of


def coded_text(text, most=None):
    """A name in bytes, of which there may be so many."""
    try:
        content = alphabet.name_bytes(text)
    except alphabet.NoLetter as fault:
        raise BadContent(f"`{text}` can't be written: {fault}") from None
    if most is not None and len(content) > most:
        raise BadContent(f"`{text}` has {len(content)} bytes, and there is room for {most}{about_length(text)}")
    return content


def about_length(text):
    """Why a name has more bytes than letters; nothing where it hasn't."""
    other = alphabet.first_beyond(text)
    if other is not None:
        return f": `{other}` isn't in the default alphabet of GSM, so that the whole name has to be in UCS2"
    escaped = next((letter for letter in text if len(alphabet.CODES[letter]) > 1), None)
    return f": `{escaped}` takes two" if escaped else ""


def dialled_digits(content, kind):
    return "+" * (kind & 0x70 == 0x10) + "".join(DIALLED[half] for byte in content for half in (byte & 15, byte >> 4)).rstrip("F")


DIALLED = "0123456789*#pw?F"


def exact_bytes(digits, size, what):
    """So many bytes, told by hexadecimal digits."""
    try:
        content = bytes.fromhex(digits)
    except ValueError:
        content = b""
    if len(content) != size:
        raise BadContent(f"{what} has {2 * size} hexadecimal digits, and `{digits}` is none")
    return content


# of what is told of a location
UPDATES = {0: "updated", 1: "not updated", 2: "PLMN not allowed", 3: "location area not allowed", 7: "reserved"}
