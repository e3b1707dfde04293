"""The lines of a script: what each says, or what is wrong with it and what would be right.

`read_line` reads a line exactly where the program does. What a line says is one of the classes here."""
import dataclasses
import difflib
import re

from . import t0

LONGEST_LINE = 600
LONGEST_COMMAND = 261
MOST_OCTETS = 255
MOST_COUNT = 999_999_999
DEEPEST = 8
RESERVED = ("3F00", "7FFF")
PIN_KEYS = (0x01, 0x81, 0x0A)
# what Notepad and other programs put before a text in UTF-8, one letter a byte
BYTE_ORDER_MARK = "\xEF\xBB\xBF"
ADMINISTRATOR = 0x0A
LONGEST_TEXT = 30
MOST_DIGITS = 20
LONGEST_PLACE = 32
MOST_CHANNELS = 7
MOST_ECHOED = 4096
PAGE = 64

# what stands in a line after its first word, as the documents show it
FORMS = {
    "df": "df PATH",
    "ef": "ef PATH t SIZE SHORT RULE, or ef PATH l (or c) LENGTH COUNT SHORT RULE",
    "ef t": "ef PATH t SIZE SHORT RULE",
    "ef l": "ef PATH l LENGTH COUNT SHORT RULE",
    "ef c": "ef PATH c LENGTH COUNT SHORT RULE",
    "fill": "fill PATH OFFSET HEX",
    "rec": "rec PATH NUMBER HEX",
    "pin": "pin KEY VALUE on UNBLOCK (or off)",
    "row": "row SHELF PRIORITY HEX",
    "start": "start",
    "apdu": "apdu HEX",
    "tpdu": "tpdu HEX",
    "reset": "reset",
    "cut": "cut K, or cut K N XX",
    "fail": "fail K XX",
    "readfail": "readfail K",
    "user": "user ok, end, back, none, press or idle, user type TEXT, user pick N, or user dial DIGITS",
    "net": "net place HEX or net poll; for `bip` net echo C N or net drop C",
    "net place": "net place HEX",
    "net poll": "net poll",
    "net echo": "net echo C N",
    "net drop": "net drop C",
    "time": "time N",
    "cmd": "cmd HEX",
}
USER_ACTS = ("ok", "end", "back", "none", "type", "pick", "press", "idle", "dial")
NET_ACTS = ("place", "poll", "echo", "drop")


class Wrong(Exception):
    """Why a line is bad."""


@dataclasses.dataclass(frozen=True)
class Start:
    pass


@dataclasses.dataclass(frozen=True)
class Reset:
    pass


@dataclasses.dataclass(frozen=True)
class Df:
    path: tuple


@dataclasses.dataclass(frozen=True)
class Ef:
    """A transparent EF has one record, which is the whole of it."""
    path: tuple
    structure: str
    length: int
    count: int
    short: int | None
    rule: tuple | None

    @property
    def size(self):
        return self.length * self.count


@dataclasses.dataclass(frozen=True)
class Fill:
    path: tuple
    offset: int
    content: bytes


@dataclasses.dataclass(frozen=True)
class Rec:
    path: tuple
    number: int
    content: bytes


@dataclasses.dataclass(frozen=True)
class Pin:
    key: int
    value: bytes
    enabled: bool
    unblock: bytes


@dataclasses.dataclass(frozen=True)
class Row:
    shelf: int
    priority: int
    content: bytes


@dataclasses.dataclass(frozen=True)
class Apdu:
    command: bytes


@dataclasses.dataclass(frozen=True)
class Tpdu:
    """A TPDU of T=0; `passed` is the command that the card is given for it, None where it is given none."""
    content: bytes

    @property
    def passed(self):
        return t0.passed(self.content)


@dataclasses.dataclass(frozen=True)
class Plan:
    """A planned fault: `word` is cut, fail or readfail."""
    word: str
    call: int
    kept: int = 0
    rest: int = 0xFF


@dataclasses.dataclass(frozen=True)
class Handset:
    """What happens at a handset: `user` and what the user does, `net` and what the network does, or `time`."""
    word: str
    act: str = ""
    value: object = None


@dataclasses.dataclass(frozen=True)
class Proactive:
    """A proactive command that a card gives its terminal."""
    command: bytes


@dataclasses.dataclass(frozen=True)
class Echo:
    """The far end of a channel gives so many bytes back."""
    channel: int
    count: int


@dataclasses.dataclass(frozen=True)
class Drop:
    """The link of a channel is lost."""
    channel: int


OF_CARD = (Df, Ef, Fill, Rec, Pin, Row)
OF_TERMINAL = (Proactive, Echo, Drop)


def shown_path(path):
    return "/".join(path) if path else "the MF"


class Words:
    """The words of a line that are still to be read."""

    def __init__(self, line):
        self.rest, self.form = line, None

    def take(self, name):
        """The next word, which has this name in the form of the line."""
        if self.rest is None:
            raise Wrong(f"{name} is missing: {self.form}")
        word, space, rest = self.rest.partition(" ")
        self.rest = rest if space else None
        if not word:
            raise Wrong(self._about_space(name))
        return word

    def _about_space(self, name):
        if self.rest is None:
            return f"a space stands at the end, and {name} is missing" if self.form else "a space stands alone"
        return f"two spaces stand before {name}: words are parted by one" if self.form else "a space stands at the beginning"

    def all(self, name):
        """All that is left of the line, with its spaces."""
        if self.rest is None:
            raise Wrong(f"{name} is missing: {self.form}")
        return self.rest

    def is_read(self):
        return self.rest is None

    def end(self):
        if self.rest is not None:
            raise Wrong(f"nothing may stand after the last word, not even a space: {self.form}" if not self.rest.strip()
                        else f"`{self.rest}` is too much: {self.form}")


def number(name, word, least, most):
    if not re.fullmatch("[0-9]+", word):
        raise Wrong(f"{name} is a decimal number, not {word}")
    if len(word) > 1 and word[0] == "0":
        raise Wrong(f"{name} has no leading zero: {int(word)}, not {word}")
    if len(word) > 9 or not least <= int(word) <= most:
        raise Wrong(f"{name} is {least} to {most}, not {word}")
    return int(word)


def in_characters(word, size):
    """The bytes of a PIN whose digits were written in the place of them; nothing where none were."""
    digits = word
    if len(word) % 2 == 0 and len(word) >= 8 and all(0x30 <= byte <= 0x39 for byte in bytes.fromhex(word)):
        digits = bytes.fromhex(word).decode()
    if not digits.isdecimal() or not 4 <= len(digits) <= size:
        return ""
    coded = digits.encode().ljust(size, b"\xFF")
    return f": the PIN {digits} is {coded.hex().upper()}"


def hexadecimal(name, word, most, exactly=None):
    if not re.fullmatch("[0-9A-Fa-f]*", word):
        other = re.search("[^0-9A-Fa-f]", word).group()
        raise Wrong(f"{name} has hexadecimal digits alone, and no `{other}`")
    if exactly is not None and len(word) != 2 * exactly:
        plural = "" if exactly == 1 else "s"
        raise Wrong(f"{name} is {exactly} byte{plural}, which is {2 * exactly} digits, and not {len(word)}{in_characters(word, exactly)}")
    if len(word) % 2 or not word:
        raise Wrong(f"{name} has an even number of digits, at least two, and not {len(word)}")
    if len(word) > 2 * most:
        raise Wrong(f"{name} has at most {most} bytes, and not {len(word) // 2}")
    return bytes.fromhex(word)


def read_path(word):
    content = hexadecimal("PATH", word, 2 * DEEPEST).hex().upper()
    if len(content) % 4:
        raise Wrong(f"PATH is identifiers of four digits each, and {len(word)} digits are none")
    path = tuple(content[n:n + 4] for n in range(0, len(content), 4))
    for identifier in path:
        if identifier in RESERVED:
            raise Wrong(f"{identifier} is no identifier in a PATH: it leads from the MF down, without the MF's own"
                        if identifier == "3F00" else f"{identifier} is no identifier in a PATH: no file may have it")
    return path


def read_short(word):
    return None if word == "-" else number("SHORT (or -)", word, 1, 30)


def read_rule(word):
    if word == "-":
        return None
    if word[4:5] != ":":
        raise Wrong(f"RULE is the identifier of an EF_ARR, a colon and a record's number, as 2F06:1, or -, not {word}")
    arr = hexadecimal("the identifier in RULE", word[:4], 2, 2).hex().upper()
    return arr, number("the record in RULE", word[5:], 1, 254)


def read_df(words):
    return Df(read_path(words.take("PATH")))


def read_ef(words):
    path, letter = read_path(words.take("PATH")), words.take("t, l or c")
    if letter not in ("t", "l", "c"):
        raise Wrong(f"the structure is t, l or c (transparent, linear fixed, cyclic), not {letter}")
    words.form = FORMS["ef " + letter]
    if letter == "t":
        length, count = number("SIZE", words.take("SIZE"), 1, 32_767), 1
    else:
        length = number("LENGTH", words.take("LENGTH"), 1, 255)
        count = number("COUNT", words.take("COUNT"), 1, 254)
    return Ef(path, letter, length, count, read_short(words.take("SHORT")), read_rule(words.take("RULE")))


def read_fill(words):
    return Fill(read_path(words.take("PATH")), number("OFFSET", words.take("OFFSET"), 0, 65_535),
                hexadecimal("HEX", words.take("HEX"), MOST_OCTETS))


def read_rec(words):
    return Rec(read_path(words.take("PATH")), number("NUMBER", words.take("NUMBER"), 0, 255),
               hexadecimal("HEX", words.take("HEX"), MOST_OCTETS))


def read_pin(words):
    word = words.take("KEY")
    if word.upper() not in (f"{key:02X}" for key in PIN_KEYS):
        raise Wrong(f"KEY is 01, 81 or 0A, not {word.upper()}")
    key = int(word, 16)
    value, switch = hexadecimal("VALUE", words.take("VALUE"), 8, 8), words.take("on or off")
    if switch not in ("on", "off"):
        raise Wrong(f"a PIN is on or off, not {switch}")
    if switch == "off" and key == ADMINISTRATOR:
        raise Wrong("the PIN 0A is always on")
    return Pin(key, value, switch == "on", hexadecimal("UNBLOCK", words.take("UNBLOCK"), 8, 8))


def read_row(words):
    return Row(number("SHELF", words.take("SHELF"), 0, 255), number("PRIORITY", words.take("PRIORITY"), 1, 255),
               hexadecimal("HEX", words.take("HEX"), MOST_OCTETS))


def read_command(words, most):
    """The bytes of a command, which is all that is left of the line."""
    digits = words.all("HEX")
    words.rest = None
    if " " in digits:
        raise Wrong("HEX is one word: no space stands between its bytes")
    return hexadecimal("HEX", digits, most)


def read_apdu(words):
    return Apdu(read_command(words, LONGEST_COMMAND))


def read_tpdu(words):
    return Tpdu(read_command(words, LONGEST_COMMAND))


def read_proactive(words):
    return Proactive(read_command(words, MOST_OCTETS))


def read_cut(words):
    call = number("K", words.take("K"), 1, MOST_COUNT)
    if words.is_read():
        return Plan("cut", call)
    kept = number("N", words.take("N"), 0, PAGE)
    return Plan("cut", call, kept, hexadecimal("XX", words.take("XX"), 1, 1)[0])


def read_fail(words):
    return Plan("fail", number("K", words.take("K"), 1, MOST_COUNT), 0, hexadecimal("XX", words.take("XX"), 1, 1)[0])


def read_read_fail(words):
    return Plan("readfail", number("K", words.take("K"), 1, MOST_COUNT))


def read_user(words):
    act = words.take("what the user does")
    if act not in USER_ACTS:
        raise Wrong(f"`{act}` is nothing that a user does: {FORMS['user']}")
    if act == "type":
        return Handset("user", act, read_typed(words))
    if act == "pick":
        return Handset("user", act, number("N", words.take("N"), 1, 255))
    if act == "dial":
        digits = words.take("DIGITS")
        if not re.fullmatch(f"[0-9]{{1,{MOST_DIGITS}}}", digits):
            raise Wrong(f"DIGITS are 1 to {MOST_DIGITS} decimal digits, not {digits}")
        return Handset("user", act, digits)
    return Handset("user", act)


def read_typed(words):
    if words.rest is None:
        raise Wrong("TEXT stands after a second space, also where it is empty: user type TEXT")
    text, words.rest = words.rest, None
    if len(text) > LONGEST_TEXT:
        raise Wrong(f"TEXT has at most {LONGEST_TEXT} characters, and not {len(text)}")
    if not re.fullmatch("[ -~]*", text):
        raise Wrong("TEXT has printable characters of ASCII alone")
    return text


def read_net(words):
    act = words.take("what the network does")
    if act not in NET_ACTS:
        raise Wrong(f"`{act}` is nothing that a network does: {FORMS['net']}")
    words.form = FORMS["net " + act]
    if act == "place":
        return Handset("net", act, hexadecimal("HEX", words.take("HEX"), LONGEST_PLACE))
    if act == "poll":
        return Handset("net", act)
    channel = number("C", words.take("C"), 1, MOST_CHANNELS)
    return Drop(channel) if act == "drop" else Echo(channel, number("N", words.take("N"), 1, MOST_ECHOED))


def read_time(words):
    return Handset("time", "", number("N", words.take("N"), 0, MOST_COUNT))


READERS = {
    "df": read_df, "ef": read_ef, "fill": read_fill, "rec": read_rec, "pin": read_pin, "row": read_row,
    "start": lambda _: Start(), "apdu": read_apdu, "tpdu": read_tpdu, "reset": lambda _: Reset(), "cut": read_cut, "fail": read_fail,
    "readfail": read_read_fail, "user": read_user, "net": read_net, "time": read_time,
    "cmd": read_proactive,
}


def is_passed(line):
    return not line or line[0] == "#"


def read_line(line):
    """What a line says that was given without its end; None where it is empty or a comment. Wrong, where it is in no form."""
    if len(line) > LONGEST_LINE:
        raise Wrong(f"a line has at most {LONGEST_LINE} bytes, also a comment, and not {len(line)}")
    if is_passed(line):
        return None
    try:
        return statement(line)
    except Wrong:
        if "\t" in line:
            raise Wrong("a tab stands in the line: words are parted by one space") from None
        if line.endswith("\r"):
            raise Wrong("a carriage return stands at the end of the script, without a line feed after it") from None
        raise


def statement(line):
    words = Words(line)
    word = words.take("the first word")
    if word not in READERS:
        raise Wrong(about_unknown(word))
    words.form = FORMS[word]
    found = READERS[word](words)
    words.end()
    return found


def about_unknown(word):
    if word.startswith(BYTE_ORDER_MARK):
        return f"a byte order mark, EF BB BF, stands before `{word.removeprefix(BYTE_ORDER_MARK)}`: a script is saved without one"
    near = difflib.get_close_matches(word.lower(), READERS, 1)
    return f"no line begins with `{word}`" + (f": {FORMS[near[0]]}" if near else "")
