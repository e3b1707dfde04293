"""Letters as codes: the default alphabet of 3GPP TS 23.038 (6.2.1), UCS2, and the forms of a name in a file (ETSI TS 102 221, annex A).

A letter of the default alphabet is one code, or two, of which the first is the escape 1B. A name has them one a byte. One with other
letters is in UCS2: after 80 two bytes a letter; after 81 and 82 one byte a letter, which is a code of the alphabet, or with its highest
bit set the place of a letter among the 128 that begin at a base."""
from .names import table

ESCAPE = 0x1B
WIDE, NARROW, NARROW_ANYWHERE = 0x80, 0x81, 0x82
# how many letters of a base the bytes of a narrow form reach
REACH = 0x80
BASIC = table("alphabet")["basic"]
ESCAPED = {int(code, 16): letter for code, letter in table("alphabet")["escaped"].items()}
CODES = ({letter: bytes((code,)) for code, letter in enumerate(BASIC) if code != ESCAPE}
         | {letter: bytes((ESCAPE, code)) for code, letter in ESCAPED.items()})


class NoLetter(ValueError):
    """A letter that has no code."""

    def __init__(self, letter, where):
        self.letter = letter
        super().__init__(f"`{letter}` isn't in {where}")


def first_beyond(text):
    """The first letter of a text that isn't in the default alphabet; None where all are."""
    return next((letter for letter in text if letter not in CODES), None)


def codes_of(text):
    """A text in codes of the default alphabet, one a byte. NoLetter, where it hasn't got them all."""
    other = first_beyond(text)
    if other is not None:
        raise NoLetter(other, "the default alphabet")
    return b"".join(CODES[letter] for letter in text)


def letters_of(codes):
    """The text of such codes. What is no letter that can be shown is `\\` with its two digits."""
    found, at = "", 0
    while at < len(codes):
        size = 2 if codes[at] == ESCAPE and at + 1 < len(codes) and codes[at + 1] in ESCAPED else 1
        letter = ESCAPED[codes[at + 1]] if size == 2 else BASIC[codes[at]] if codes[at] < len(BASIC) else ""
        found += letter if letter.isprintable() and letter else "".join(f"\\{code:02X}" for code in codes[at:at + size])
        at += size
    return found


# seven bits a code

def packed(codes):
    """Codes of the default alphabet, eight in seven bytes (3GPP TS 23.038, 6.1.2)."""
    bits = sum(code << 7 * place for place, code in enumerate(codes))
    return bits.to_bytes((7 * len(codes) + 7) // 8, "little")


def unpacked(content, count):
    """So many codes that are packed in bytes."""
    bits = int.from_bytes(content, "little")
    return bytes(bits >> 7 * place & 0x7F for place in range(count))


# UCS2

def ucs2(text):
    """A text with two bytes a letter. NoLetter, where one has no code of two bytes."""
    other = next((letter for letter in text if ord(letter) > 0xFFFF or 0xD800 <= ord(letter) <= 0xDFFF), None)
    if other is not None:
        raise NoLetter(other.encode("utf-8", "replace").decode(), "UCS2")
    return text.encode("utf-16-be")


def ucs2_text(content):
    return content.decode("utf-16-be", "replace")


# names in files

def name_bytes(text):
    """A name in the default alphabet, or where it has another letter in the shortest form of UCS2. NoLetter, where no form has one."""
    if first_beyond(text) is None:
        return codes_of(text)
    wide = bytes((WIDE,)) + ucs2(text)
    return min((wide, *narrow_forms(text)), key=len)


def narrow_forms(text):
    """The forms of one byte a letter that a name has."""
    if any(letter in CODES and len(CODES[letter]) > 1 for letter in text) or len(text) > 0xFF:
        return
    others = [ord(letter) for letter in text if letter not in CODES]
    page, least = others[0] // REACH, min(others)
    if page <= 0xFF and all(other // REACH == page for other in others):
        yield bytes((NARROW, len(text), page)) + narrow_bytes(text, page * REACH)
    if max(others) < least + REACH:
        yield bytes((NARROW_ANYWHERE, len(text), least >> 8, least & 0xFF)) + narrow_bytes(text, least)


def narrow_bytes(text, base):
    return b"".join(CODES[letter] if letter in CODES else bytes((0x80 | ord(letter) - base,)) for letter in text)


def name_of(content):
    """The name that bytes say, up to the FF that fill them up."""
    form = content[0] if content else None
    if form == WIDE:
        pairs = [content[at:at + 2] for at in range(1, len(content), 2)]
        end = next((place for place, pair in enumerate(pairs) if not pair.strip(b"\xFF")), len(pairs))
        return ucs2_text(b"".join(pairs[:end]))
    if form == NARROW and len(content) >= 3:
        return narrow_text(content[3:3 + content[1]], content[2] * REACH)
    if form == NARROW_ANYWHERE and len(content) >= 4:
        return narrow_text(content[4:4 + content[1]], content[2] << 8 | content[3])
    return letters_of(content.split(b"\xFF")[0])


def narrow_text(content, base):
    """The text of one byte a letter; codes of the alphabet stand together, since one may be an escape."""
    found, codes = "", b""
    for byte in content:
        if byte < REACH:
            codes += bytes((byte,))
        else:
            found += letters_of(codes) + ucs2_text((base + byte - REACH & 0xFFFF).to_bytes(2, "big"))
            codes = b""
    return found + letters_of(codes)
