"""Objects of the toolkit in words: what a proactive command holds, and what a TERMINAL RESPONSE or an envelope must hold.

An object is its word and what it needs: `text "Toolkit Test 1"`, `item 2 "Two"`, `duration 10 seconds`, `result 00|01`. What must come may be
a pattern: hexadecimal digits, in which `?` is any digit and `*` at the end any bytes, and several of them with `|` between them."""
import dataclasses
import difflib
import re
import shlex

from . import alphabet, decode, names, tlv
from .coding import DIALLED

DEVICES = {"keypad": 0x01, "display": 0x02, "earpiece": 0x03, "card": 0x81, "terminal": 0x82, "network": 0x83,
           **{f"reader{number}": 0x10 + number for number in range(8)}, **{f"channel{number}": 0x20 + number for number in range(1, 8)}}
USUAL_TYPES = (0x81, 0x91)
UNITS = {"minutes": 0, "seconds": 1, "tenths": 2}
SEVEN_BIT, EIGHT_BIT, UCS2 = 0x00, 0x04, 0x08
# how like a name is that may be meant, and how many such are told
LIKE, MOST_HINTS = 0.7, 2
# the value of a text, where there may be none: with a coding, or without
EMPTY_TEXTS = "|00|04|08"


def letters(value):
    """The letters of a text, whose first byte says its coding."""
    coding, content = value[:1], value[1:]
    if coding == bytes((UCS2,)):
        return content.decode("utf-16-be", "replace")
    if coding == bytes((SEVEN_BIT,)):
        return alphabet.letters_of(alphabet.unpacked(content, len(content) * 8 // 7))
    return decode.printable(content)


class Wrong(Exception):
    """Why a line is bad."""


class UnknownWord(Wrong):
    """A word that is none of a list which is too long to be told with each: `tools/sequence --words` prints it."""


def likeness(words, name):
    """How much of a name the next words are, from 0 to 1."""
    return difflib.SequenceMatcher(None, " ".join(words[:len(name.split())]).lower(), name.lower()).ratio()


def unknown(words, what, known):
    """What is said where the next words make none of some names: of those the ones that may be meant."""
    begins = [name for name in known if name.split()[0].lower() == words[0].lower()]
    near = sorted(begins or [name for name in known if likeness(words, name) >= LIKE], key=lambda name: -likeness(words, name))[:MOST_HINTS]
    # of a name of several words that begins so, as many are told as the likeliest has
    count = len(near[0].split()) if begins else 1
    hint = f": is {' or '.join(f'`{name}`' for name in near)} meant?" if near else ""
    return UnknownWord(f"`{' '.join(words[:count])}` is no {what}{hint}")


def without_comment(line):
    """A line up to a # that begins a word."""
    quote, before = None, " "
    for place, letter in enumerate(line):
        if letter == "#" and before.isspace() and not quote:
            return line[:place]
        if letter in "\"'" and before != "\\":
            quote = None if quote == letter else quote or letter
        before = letter
    return line


class Words:
    """The words of a line that are still to be read; a text in quotes is one. What comes after a # at the beginning of a word is a comment:
    in a word it is a key of the telephone."""

    def __init__(self, line):
        try:
            self.left = shlex.split(without_comment(line))
        except ValueError as fault:
            raise Wrong(f"{str(fault).lower()}: quotes come in pairs") from None

    def __bool__(self):
        return bool(self.left)

    def take(self, what):
        if not self.left:
            raise Wrong(f"{what} is missing")
        return self.left.pop(0)

    def take_if(self, *words):
        return self.left.pop(0) if self.left and self.left[0] in words else None

    def take_name(self, known, what):
        """The longest name of these that the next words make, and what it stands for."""
        for count in range(len(self.left), 0, -1):
            name = " ".join(self.left[:count])
            if name in known:
                del self.left[:count]
                return known[name]
        if not self.left:
            raise Wrong(f"the {what} is missing")
        raise unknown(self.left, what, known)

    def number(self, what, least, most):
        word = self.take(what)
        if not re.fullmatch("[0-9]{1,9}", word) or not least <= int(word) <= most:
            raise Wrong(f"{what} is {least} to {most}, not {word}")
        return int(word)

    def byte(self, what):
        word = self.take(what)
        if not re.fullmatch("[0-9A-Fa-f]{2}", word):
            raise Wrong(f"{what} is two hexadecimal digits, not {word}")
        return int(word, 16)

    def hexadecimal(self, what):
        word = self.take(what)
        if not re.fullmatch("([0-9A-Fa-f]{2})*", word):
            raise Wrong(f"hexadecimal digits are wanted for {what}, two for each byte, not {word}")
        return bytes.fromhex(word)

    def pattern(self, what):
        word = self.take(what)
        if not all(re.fullmatch(r"([0-9A-Fa-f?]{2})*\*?", part) for part in word.split("|")):
            raise Wrong(f"hexadecimal digits are wanted for {what}, two for each byte, where `?` is any digit, `*` at the end any bytes, and "
                        f"`|` stands between alternatives, not {word}")
        return word.upper()

    def end(self):
        """Wrong, where words are left."""
        if self.left:
            raise Wrong(f"`{self.left[0]}` is too much")


@dataclasses.dataclass(frozen=True)
class Object:
    """An object that is spelled, or that must come: its tag, its value as a pattern, and whether it has the flag (None: either way). An
    optional one need not come."""
    tag: int
    pattern: str
    flag: bool | None = None
    optional: bool = False

    @property
    def is_exact(self):
        return not re.search("[?*|]", self.pattern)

    def spelled(self):
        """Its bytes, where it is exact."""
        return tlv.written(self.tag, bytes.fromhex(self.pattern), self.flag is not False)

    def fits(self, flag, value):
        return self.flag in (None, flag) and any(matches(part, value) for part in self.pattern.split("|"))

    @property
    def label(self):
        return label_of(self.tag)

    def told(self):
        """What it must be, in words."""
        if self.is_exact:
            return decode.object_text(self.tag, bytes.fromhex(self.pattern), False)
        return " or ".join(part or "nothing" for part in self.pattern.split("|"))


def flag_text(flag):
    """What the flag of an object's tag says: whether it has to be understood (ETSI TS 102 223, 6.5.4)."""
    return "comprehension required" if flag else "comprehension not required"


def label_of(tag):
    return names.of_toolkit("tags", tag, f"object {tag:02X}")


def matches(pattern, value):
    """Whether bytes are as a pattern says."""
    digits = decode.hexed(value)
    if pattern.endswith("*"):
        pattern, digits = pattern[:-1], digits[:len(pattern) - 1]
    return len(pattern) == len(digits) and all(want in ("?", digit) for want, digit in zip(pattern, digits))


# values

def packed(text):
    """A text in codes of seven bits, eight in seven bytes."""
    try:
        return alphabet.packed(alphabet.codes_of(text))
    except alphabet.NoLetter as fault:
        raise Wrong(f"`{fault.letter}` is no character of the GSM 7-bit default alphabet") from None


def eight_bit(text):
    try:
        return text.encode("latin-1")
    except UnicodeEncodeError as fault:
        raise Wrong(f"`{text[fault.start]}` is no character of eight bits: write `ucs2` before the text") from None


CODINGS = {"gsm7": lambda text: bytes((SEVEN_BIT,)) + packed(text), "ucs2": lambda text: bytes((UCS2,)) + text.encode("utf-16-be"),
           None: lambda text: bytes((EIGHT_BIT,)) + eight_bit(text)}


def text_value(words):
    if words.take_if("empty"):
        return EMPTY_TEXTS
    if words.take_if("none"):
        return ""
    if words.take_if("any"):
        return "*"
    if words.take_if("bytes"):
        return words.pattern("the bytes of a text")
    return CODINGS[words.take_if("gsm7", "ucs2")](words.take("the text")).hex().upper()


def alpha_bytes(words):
    """An alpha identifier or an item's text: in eight bits, or 80 and UCS2 (3GPP TS 31.102, annex A)."""
    if words.take_if("ucs2"):
        return b"\x80" + words.take("the text").encode("utf-16-be")
    return eight_bit(words.take("the text"))


def item_value(words):
    if words.take_if("none"):
        return ""
    return f"{words.number('the number of an item', 1, 255):02X}" + alpha_bytes(words).hex().upper()


def duration_value(words):
    if words.take_if("any"):
        return "????"
    count = words.number("a duration", 0, 255)
    unit = words.take("the unit of a duration (minutes, seconds or tenths)")
    if unit not in UNITS:
        raise Wrong(f"a duration is in minutes, seconds or tenths, not in {unit}")
    return f"{UNITS[unit]:02X}{count:02X}"


def events_value(words):
    """Events by their names or their codes, with commas between them; or none."""
    word, known = words.take("the events"), names.table("toolkit")["event_words"]
    if word == "none":
        return ""
    codes = [known.get(part, part) for part in word.split(",")]
    wrong = next((code for code in codes if not re.fullmatch("[0-9A-Fa-f]{2}", code)), None)
    if wrong is not None:
        raise unknown([wrong], "event, nor a code of two digits", known)
    return "".join(codes).upper()


def address_value(words):
    """A number as it is dialled, with + before an international one, and its type where that is neither of the usual two: as
    `tools/explain` shows it."""
    word = words.take("a number that is dialled")
    if not re.fullmatch(r"\+?[0-9*#pw?]{1,40}", word):
        raise Wrong(f"a number that is dialled is + and digits, *, #, p (a pause), w (a wild value) and ? (an expansion digit), and not {word}")
    digits = "".join(f"{DIALLED.index(letter):X}" for letter in word.lstrip("+"))
    digits += "F" * (len(digits) % 2)
    kind = words.byte("the type of a number") if words.take_if("type") else USUAL_TYPES[word[0] == "+"]
    return f"{kind:02X}" + "".join(digits[n + 1] + digits[n] for n in range(0, len(digits), 2))


def time_value(words):
    if words.take_if("any"):
        return "??????"
    word = words.take("a time")
    if not re.fullmatch("[0-9]{2}:[0-9]{2}:[0-9]{2}", word):
        raise Wrong(f"a time is HH:MM:SS, or any, not {word}")
    return "".join(part[::-1] for part in word.split(":"))


def length_value(words):
    return f"{words.number('the least length', 0, 255):02X}{words.number('the greatest length', 0, 255):02X}"


def size_value(words):
    return f"{words.number('a size', 0, 65535):04X}"


def icon_value(words):
    return f"{words.byte('the qualifier of an icon'):02X}{words.number('the number of an icon', 1, 255):02X}"


def number_value(what):
    return lambda words: "??" if words.take_if("any") else f"{words.number(what, 0, 255):02X}"


def bytes_value(what):
    return lambda words: words.pattern(what)


def language_value(words):
    word = words.take("a language")
    if word == "any":
        return "????"
    if not re.fullmatch("[a-z]{2}", word):
        raise Wrong(f"a language is two letters, not {word}")
    return word.encode("ascii").hex().upper()


def letters_value(what):
    return lambda words: eight_bit(words.take(what)).hex().upper()


# the words of an object, its tag, and how its value is read: first the standard's name (ETSI TS 102 223, 8), then what is shorter
READ_AS = (
    ("command-details details", 0x01, bytes_value("details")),
    ("result", 0x03, bytes_value("a result")),
    ("duration", 0x04, duration_value),
    ("alpha-identifier alpha title", 0x05, lambda words: alpha_bytes(words).hex().upper()),
    ("address", 0x06, address_value),
    ("capability-configuration-parameters capability", 0x07, bytes_value("capability configuration parameters")),
    ("subaddress", 0x08, bytes_value("a subaddress")),
    ("ss-string ss", 0x09, bytes_value("an SS string")),
    ("ussd-string ussd", 0x0A, bytes_value("a USSD string")),
    ("sms-tpdu tpdu", 0x0B, bytes_value("a TPDU")),
    ("text-string text", 0x0D, text_value),
    ("tone", 0x0E, bytes_value("a tone")),
    ("item", 0x0F, item_value),
    ("item-identifier identifier", 0x10, number_value("the number of an item")),
    ("response-length length", 0x11, length_value),
    ("file-list files", 0x12, bytes_value("a file list")),
    ("location-information location", 0x13, bytes_value("a location")),
    ("imei", 0x14, bytes_value("an IMEI")),
    ("help-request help", 0x15, lambda words: ""),
    ("network-measurement-results measurements", 0x16, bytes_value("measurements")),
    ("default-text default", 0x17, text_value),
    ("event-list events", 0x19, events_value),
    ("location-status", 0x1B, bytes_value("a location status")),
    ("icon-identifier icon", 0x1E, icon_value),
    ("item-icon-identifier-list icons", 0x1F, bytes_value("icons")),
    ("timer-identifier timer", 0x24, number_value("the number of a timer")),
    ("timer-value time", 0x25, time_value),
    ("time-left", 0x25, bytes_value("a time")),
    ("date-time-and-time-zone date", 0x26, bytes_value("a date")),
    ("at-command", 0x28, letters_value("an AT command")),
    ("at-response", 0x29, bytes_value("an AT response")),
    ("dtmf-string dtmf", 0x2C, bytes_value("digits")),
    ("language", 0x2D, language_value),
    ("timing-advance", 0x2E, bytes_value("a timing advance")),
    ("url", 0x31, letters_value("a URL")),
    ("bearer-description bearer", 0x35, bytes_value("a bearer")),
    ("channel-data data", 0x36, bytes_value("channel data")),
    ("channel-data-length count", 0x37, number_value("a count of bytes")),
    ("channel-status", 0x38, bytes_value("a channel status")),
    ("buffer-size size", 0x39, size_value),
    ("transport-level transport", 0x3C, bytes_value("a transport level")),
    ("other-address", 0x3E, bytes_value("an address")),
    ("access-technology", 0x3F, bytes_value("an access technology")),
    ("imeisv", 0x62, bytes_value("an IMEISV")),
)
OBJECTS = {word: (tag, value) for words, tag, value in READ_AS for word in words.split()}
# words that are none, where one is wanted
NO_OBJECTS = {
    "from": "`from DEVICE` stands before the objects of a command or an envelope, as in `envelope event from display events idle-screen`; other "
            "devices of a response are `object 82 8381`, say",
    **dict.fromkeys(("to", "number", "qualifier", "without"), "it stands before the objects of a command"),
    "devices": "device identities are `object 82 8281`, of an envelope also `from DEVICE` before its objects"}
# what stands in the place of an object that has no word
RAW = "object"


def raw_object(words):
    """An object by its tag, whose highest bit is the flag, and its value."""
    tag = words.byte("a tag")
    if tag in (0x00, 0x7F, 0x80, 0xFF):
        raise Wrong(f"{tag:02X} is no tag of one byte")
    return Object(tag & 0x7F, words.pattern("a value"), bool(tag & 0x80))


def read_object(words):
    optional = bool(words.take_if("optional"))
    word = words.take("an object")
    if word == RAW:
        return dataclasses.replace(raw_object(words), optional=optional)
    if word in NO_OBJECTS:
        raise Wrong(f"`{word}` is no object: {NO_OBJECTS[word]}")
    if word not in OBJECTS:
        if re.fullmatch("[0-9A-Fa-f]{2}", word):
            raise Wrong(f"`{word}` is no object: each begins with its name, as `result {word}`")
        raise unknown([word, *words.left], "object", OBJECTS)
    tag, value = OBJECTS[word]
    return Object(tag, value(words), None, optional)


def device(words):
    word = words.take("a device")
    if word not in DEVICES:
        raise Wrong(f"`{word}` is no device: {', '.join(DEVICES)}")
    return DEVICES[word]
