"""AT commands as a modem reads them (ITU-T V.250), and the numbers of the errors that it answers (3GPP TS 27.007, 9.2)."""
import dataclasses
import string

# how a command is given: AT+X, AT+X?, AT+X=? and AT+X=..
DO, READ, TEST, SET = "do", "read", "test", "set"
# what begins the name of an extended command; all but + are a maker's own
EXTENDED = "+*%#^$_"
NAME_LETTERS = string.ascii_uppercase + string.digits + "!%-./:_"
DIAL = "D"
QUOTE = '"'

# what +CFUN says: the SIM has no power; all is on; the radio is off
OFF, FULL, RADIO_OFF = 0, 1, 4

NOT_ALLOWED, NOT_SUPPORTED = 3, 4
NO_SIM, PIN_WANTED, PUK_WANTED, SIM_FAILURE, SIM_BUSY, WRONG_PASSWORD = 10, 11, 12, 13, 14, 16
MEMORY_FULL, INVALID_INDEX, NOT_FOUND, MEMORY_FAILURE, BAD_LETTERS, BAD_PARAMETERS, UNKNOWN = 20, 21, 22, 23, 25, 50, 100
ERRORS = {
    NOT_ALLOWED: "operation not allowed", NOT_SUPPORTED: "operation not supported", NO_SIM: "SIM not inserted",
    PIN_WANTED: "SIM PIN required", PUK_WANTED: "SIM PUK required", SIM_FAILURE: "SIM failure", SIM_BUSY: "SIM busy",
    WRONG_PASSWORD: "incorrect password", MEMORY_FULL: "memory full", INVALID_INDEX: "invalid index", NOT_FOUND: "not found",
    MEMORY_FAILURE: "memory failure", BAD_LETTERS: "invalid characters in text string", BAD_PARAMETERS: "incorrect parameters",
    UNKNOWN: "unknown",
}


class NoCommand(ValueError):
    """A line that is no line of commands: it is answered ERROR."""


class Failed(Exception):
    """A command that can't be carried out; `number` is that of the error."""

    def __init__(self, number):
        super().__init__(ERRORS[number])
        self.number = number


class Final(Exception):
    """A final result that is neither OK nor an error, as NO CARRIER after a call."""


class Text(str):
    """An argument that stands in quotation marks."""


@dataclasses.dataclass(frozen=True)
class Command:
    """A command of a line: its name in capitals (`+CPIN`, `E`, `&F`, `S0`), how it is given, and its arguments, None where one is
    left out. The quotation marks of a text aren't part of it."""
    name: str
    kind: str
    arguments: tuple = ()

    def number(self, place, default=None):
        """The argument at a place, a decimal number; BAD_PARAMETERS where it is none, or is left out and there is no default."""
        text = self.text(place, "")
        if not text and default is not None:
            return default
        if not (text.isascii() and text.isdigit() and len(text) <= 9):
            raise Failed(BAD_PARAMETERS)
        return int(text)

    def text(self, place, default=None):
        """The argument at a place; BAD_PARAMETERS where it is left out and there is no default."""
        found = self.arguments[place] if place < len(self.arguments) else None
        if found is not None:
            return found
        if default is None:
            raise Failed(BAD_PARAMETERS)
        return default

    def content(self, place, default=None):
        """The argument at a place, bytes in hexadecimal digits; BAD_LETTERS where it has others."""
        text = self.text(place, default)
        if len(text) % 2 or not set(text) <= set(string.hexdigits):
            raise Failed(BAD_LETTERS)
        return bytes.fromhex(text)

    def quoted_content(self, place):
        """The argument at a place, bytes in hexadecimal digits and in quotation marks; BAD_PARAMETERS where it has none."""
        if not isinstance(self.text(place), Text):
            raise Failed(BAD_PARAMETERS)
        return self.content(place)

    def at_most(self, count):
        """BAD_PARAMETERS, where more arguments are given."""
        if len(self.arguments) > count:
            raise Failed(BAD_PARAMETERS)


def commands(line):
    """The commands of a line, in order. NoCommand, where it doesn't begin with AT, or one of them is in no form."""
    if line[:2].upper() != "AT":
        raise NoCommand(line)
    found, rest = [], spaceless(line[2:])
    while rest:
        one, rest = (extended if rest[0] in EXTENDED else basic)(rest)
        found.append(one)
        rest = rest.removeprefix(";")
    return found


def spaceless(text):
    """A text without the spaces outside of quotation marks."""
    parts = text.split(QUOTE)
    return QUOTE.join(part if place % 2 else part.replace(" ", "") for place, part in enumerate(parts))


def extended(text):
    """An extended command at the beginning of a text, and what comes after it."""
    end = 1
    while end < len(text) and text[end].upper() in NAME_LETTERS:
        end += 1
    name, rest = text[:end].upper(), text[end:]
    if end == 1:
        raise NoCommand(text)
    if rest.startswith("=?"):
        return Command(name, TEST), after_end(rest[2:])
    if rest.startswith("="):
        given, rest = arguments(rest[1:])
        return Command(name, SET, given), rest
    if rest.startswith("?"):
        return Command(name, READ), after_end(rest[1:])
    return Command(name, DO), after_end(rest)


def after_end(rest):
    if rest and rest[0] != ";":
        raise NoCommand(rest)
    return rest


def arguments(text):
    """Arguments up to a semicolon or the end of a text, and what comes after them."""
    found, at = [], 0
    while True:
        value, at = argument(text, at)
        found.append(value)
        if at >= len(text) or text[at] == ";":
            return tuple(found), text[at:]
        at += 1


def argument(text, at):
    """An argument from a place on, and the place of the comma, the semicolon or the end after it."""
    if text[at:at + 1] == QUOTE:
        end = text.find(QUOTE, at + 1)
        if end < 0 or text[end + 1:end + 2] not in ("", ",", ";"):
            raise NoCommand(text)
        return Text(text[at + 1:end]), end + 1
    end = at
    while end < len(text) and text[end] not in ",;":
        if text[end] == QUOTE:
            raise NoCommand(text)
        end += 1
    return text[at:end] or None, end


def basic(text):
    """A basic command at the beginning of a text, and what comes after it: a letter, or & and a letter, and a number; S and the
    number of a register, with its value; D and all that is dialled."""
    end = 2 if text[0] == "&" else 1
    name = text[:end].upper()
    if not name[-1:].isalpha() or not name.isascii():
        raise NoCommand(text)
    if name == DIAL:
        return Command(name, SET, (text[1:],)), ""
    number, end = digits(text, end)
    if name != "S":
        return Command(name, SET, (number or "0",)), text[end:]
    name += number
    if text[end:end + 1] == "?":
        return Command(name, READ), text[end + 1:]
    if text[end:end + 1] != "=":
        raise NoCommand(text)
    value, end = digits(text, end + 1)
    return Command(name, SET, (value or "0",)), text[end:]


def digits(text, at):
    """The decimal digits from a place on, and the place after them."""
    end = at
    while end < len(text) and text[end] in string.digits:
        end += 1
    return text[at:end], end
