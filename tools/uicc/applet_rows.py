"""What the definitions of the kinds say to the rows of applets (crates/unit_trials/data/applets.table), with nothing built: the same rows
that the code is tried with. docs/CASES.md has their words."""
import dataclasses
import difflib
import itertools
import os
import re

from . import process
from .evaluation import Made, Unknown
from .kind_faults import PARTS, parts_in_words

TABLE = os.path.join("crates", "unit_trials", "data", "applets.table")
LONG_RUN = 8
LONGEST_TEXT = 20
# what stands before why a definition says nothing, and before the line after which a row isn't tried
UNKNOWN, NOT_TRIED, NO_ROW = "not known: ", "not tried, after line ", "not a row: "
# the forms of rows, and those that go on with the applet of the rows before
FORMS = {
    "applet": ["`applet KIND KEPT`"], "wake": ["`wake KEPT`"], "on": ["`on STIMULUS`"], "boxed": ["`boxed KIND KEPT STIMULUS`"],
    "shelf": ["`shelf NUMBER`", "`shelf NUMBER KEPT STIMULUS`"],
}
OF_APPLET = ("wake", "on")


SPACED = "`5461706520696E`"
# the words of each stimulus
STIMULI = {"event": ("CODE", "BODY"), "response": ("RESULT", "ITEM", "TEXT"), "timer": ("TIMER",), "went": (), "refused": ()}


class NotARow(Exception):
    """A line is in no form of a row."""


@dataclasses.dataclass(frozen=True)
class Row:
    """A row; `of` says of one that goes on with an applet which that is, and the line that it begins at."""
    line: int
    words: tuple
    wanted: str
    differs: bool
    of: str = ""


# the words of a row

def bytes_of(word):
    found = b""
    for part in word.split("+"):
        if part.startswith('"') and part.endswith('"') and len(part) > 1:
            found += part[1:-1].encode()
        elif "*" in part:
            byte, _, count = part.partition("*")
            found += digits_of(byte) * number_of("how often a byte stands", count)
        elif part != "-":
            found += digits_of(part)
    return found


def digits_of(part):
    if not re.fullmatch(r"([0-9A-Fa-f]{2})+", part):
        raise NotARow(f"`{part}` is no bytes: these are pairs of hexadecimal digits, a text in quotes, or `-` for none")
    return bytes.fromhex(part)


def byte_of(name, word):
    if not re.fullmatch(r"[0-9A-Fa-f]{1,2}", word):
        raise NotARow(f"{name} is a byte in two hexadecimal digits, and not `{word}`")
    return int(word, 16)


def number_of(name, word, most=255):
    if not re.fullmatch(r"[0-9]+", word) or int(word) > most:
        raise NotARow(f"{name} is a number from 0 to {most}, and not `{word}`")
    return int(word)


def stimulus(words):
    name, *given = words or [""]
    if name not in STIMULI:
        raise NotARow(f"a stimulus is {', '.join(STIMULI)}, and not `{name}`")
    if len(given) != len(STIMULI[name]):
        lacking = STIMULI[name][len(given):]
        if any(word.startswith('"') and not (word.endswith('"') and len(word) > 1) for word in given):
            raise NotARow(f"a text in quotes has no space in it: it is written in hexadecimal digits, as {SPACED}")
        raise NotARow(f"`{' '.join((name, *STIMULI[name]))}` "
                      + (f"lacks {' and '.join(lacking)}" + (", which is `-` where it is empty" if lacking[-1] in ("BODY", "TEXT") else "")
                         if lacking else f"has {parts_in_words(len(given) - len(STIMULI[name]))} too many"))
    match name, given:
        case "event", [code, body]:
            return Made("Event", (byte_of("CODE", code), tuple(bytes_of(body))))
        case "response", [result, item, text]:
            return Made("Response", (byte_of("RESULT", result), number_of("ITEM", item), tuple(bytes_of(text))))
        case "timer", [number]:
            return Made("Timer", (number_of("TIMER", number),))
    return Made(name.capitalize(), ())


# an act in the words of a row

def bytes_shown(content):
    parts = []
    for byte, run in itertools.groupby(content):
        count = len(list(run))
        if count >= LONG_RUN:
            parts.append([f"{byte:02X}*{count}"])
        elif parts and len(parts[-1]) != 1:
            parts[-1].append(f"{byte:02X}" * count)
        else:
            parts.append(["", f"{byte:02X}" * count])
    return "+".join(map("".join, parts)) or "-"


def text_shown(content):
    is_plain = all(0x20 < byte < 0x7F and byte != 0x22 for byte in content)
    return '"' + bytes(content).decode() + '"' if is_plain and len(content) <= LONGEST_TEXT else bytes_shown(content)


def items_shown(items):
    return ", ".join(f"{item['id']} {text_shown(item['text'])}" for item in items) or "none"


SENT = {
    "Refresh": "refresh {}".format, "MoreTime": lambda: "more time", "PollInterval": "poll interval {} seconds".format,
    "SetUpEventList": lambda events: f"set up event list {bytes_shown(events)}", "PlayTone": "play tone {:02X}".format,
    "DisplayText": lambda text: f"display text {text_shown(text)}", "GetInkey": lambda text: f"get inkey {text_shown(text)}",
    "GetInput": lambda text, digits, least, most: f"get input {text_shown(text)} {least} to {most} {'digits' if digits else 'characters'}",
    "SelectItem": lambda title, items: f"select item {text_shown(title)} of {items_shown(items)}",
    "SetUpMenu": lambda title, items: f"set up menu {text_shown(title)} of {items_shown(items)}",
    "LocalInformation": "local information {:02X}".format,
    "TimerManagement": lambda action, timer, value: f"timer {timer} action {action} {value['hours']:02}:{value['minutes']:02}:{value['seconds']:02}",
    "IdleText": lambda text: f"idle text {text_shown(text)}",
}
ACTS = {
    "Done": lambda: "done", "Send": lambda command: "send " + SENT[command.name](*command.parts), "Keep": lambda kept: f"keep {bytes_shown(kept)}",
    "Register": "register {:02X}".format, "Deregister": "deregister {:02X}".format, "TakeTimer": lambda: "take timer",
    "FreeTimer": "free timer {}".format, "Answer": lambda allows: "allow" if allows else "bar",
}


# what a row may come to: each form, and what is of it
WORDS = {"TEXT": r'(?:"[^"]*"|[0-9A-Fa-f*+-]+)', "BYTES": "[0-9A-Fa-f*+-]+", "HH": "[0-9A-Fa-f]{2}", "N": "[0-9]+",
         "ITEMS": r'(?:none|[0-9]+ (?:"[^"]*"|[0-9A-Fa-f*+-]+)(?:, [0-9]+ (?:"[^"]*"|[0-9A-Fa-f*+-]+))*)', "TIME": "[0-9]{2}:[0-9]{2}:[0-9]{2}"}
COMES_TO = ("done", "keep BYTES", "register HH", "deregister HH", "take timer", "free timer N", "allow", "bar", "send refresh N", "send more time",
            "send poll interval N seconds", "send set up event list BYTES", "send play tone HH", "send display text TEXT", "send get inkey TEXT",
            "send get input TEXT N to N digits", "send get input TEXT N to N characters", "send select item TEXT of ITEMS",
            "send set up menu TEXT of ITEMS", "send local information HH", "send timer N action N TIME", "send idle text TEXT")


def pattern_of(form):
    return re.compile("(?:kind [0-9]+, )?" + re.sub("[A-Z]+", lambda word: WORDS[word[0]], form))


SHOWN = {"kind N": re.compile("kind [0-9]+"), **{form: pattern_of(form) for form in COMES_TO}}


def act_shown(act):
    for made in (act, *act.parts[:1]) if isinstance(act, Made) and act.name == "Send" else (act,):
        if not isinstance(made, Made) or made.name not in (SENT if made is not act else ACTS):
            raise Unknown("what is to be done is no " + ("command" if made is not act else "act"))
        if len(made.parts) != PARTS.get(made.name, 0):
            raise Unknown(f"{made.name} is done with {parts_in_words(len(made.parts))}, and has {PARTS.get(made.name, 0)}")
    try:
        return ACTS[act.name](*act.parts)
    except (AttributeError, KeyError, TypeError, ValueError):
        raise Unknown(f"{act.name} is done with parts that don't fit") from None


def spelling(row, shown):
    """Why a row differs that has the text which is shown, but in quotes; None where it differs otherwise."""
    def in_bytes(found):
        return bytes_shown(found[0][1:-1].encode())
    if row.differs or re.sub(r'"[^"]*"', in_bytes, row.wanted) != re.sub(r'"[^"]*"', in_bytes, shown):
        return None
    return f"a text stands in quotes where it has at most {LONGEST_TEXT} characters and none is a space, and otherwise in hexadecimal digits"


# rows

def rows_of(text):
    of = ""
    for number, line in enumerate(text.splitlines(), 1):
        if not line or line.startswith("#"):
            continue
        given, _, wanted = line.partition(" => ")
        words = tuple(given.split())
        is_other = words[:1] == ("differs",)
        words = words[is_other:] or ("=>",)
        if words[0] == "applet":
            of = f"of the {' '.join(words[:2])}, line {number}"
        yield Row(number, words, wanted, is_other, of if words[0] in OF_APPLET else "")


def why_never(wanted):
    """Why no row comes to this; None where one may."""
    if not wanted:
        return "what it comes to is missing, as in `on event 40 - => done`"
    if any(pattern.fullmatch(wanted) for pattern in SHOWN.values()):
        return None
    of_kind, comma, act = wanted.rpartition(", ") if wanted.startswith("kind ") else ("", "", wanted)
    near = difflib.get_close_matches(act, SHOWN, 1, 0.4)
    return f"`{wanted}` is nothing that a row comes to" + (f": is `{of_kind}{comma}{near[0]}` meant?" if near else "")


class Trial:
    """Rows carried out by the definitions, one after the other: the applet that woke last takes the next stimulus. `lost` is the row after which
    it isn't known what that one does: it could not be read, or what comes of it could not be worked out."""

    def __init__(self, known):
        self.known, self.mind, self.lost = known, None, None

    def carry_out(self, words):
        """What a row comes to."""
        word, *rest = words
        match word, rest:
            case "applet", [kind, kept]:
                return self._woken(self._shelf_of(kind), kept)
            case ("wake", [_]) | ("on", _) if not self.mind:
                raise NotARow("no `applet` stands before it")
            case "wake", [kept]:
                return self._woken(self.known.shelves_of(self.known.names[self.mind["kind"] - 1])[0], kept)
            case "on", told:
                return self._turned(told)
            case "boxed", [kind, kept, *told]:
                return self._alone(self._shelf_of(kind), kept, told)
            case "shelf", [number, kept, *told]:
                return self._alone(self._shelf(number), kept, told)
            case "shelf", [number]:
                return f"kind {self.known.data['shelves'][self._shelf(number)]}"
        raise NotARow(f"it is {' or '.join(FORMS[word])}" if word in FORMS else f"a row is {', '.join(FORMS)}, and not `{word}`")

    def _shelf_of(self, kind):
        if kind not in self.known.names:
            raise NotARow(f"there is no kind {kind}: {', '.join(self.known.names)}")
        return self.known.shelves_of(kind)[0]

    def _shelf(self, number):
        return number_of("the shelf", number, len(self.known.data["shelves"]) - 1)

    def _woken(self, shelf, kept):
        self.mind = self.known.fresh(shelf, bytes_of(kept))
        return f"kind {self.mind['kind']}"

    def _turned(self, told):
        does, self.mind = self.known.turn(self.mind, stimulus(list(told)))
        return act_shown(does)

    def _alone(self, shelf, kept, told):
        does, _ = self.known.turn(self.known.fresh(shelf, bytes_of(kept)), stimulus(list(told)))
        return f"kind {self.known.on(shelf)}, {act_shown(does)}"


    def shown(self, row):
        """What a row comes to, or why that isn't known."""
        if row.words[0] in OF_APPLET and self.lost:
            return f"{NOT_TRIED}{self.lost.line}"
        if row.words[0] == "applet":
            self.mind = self.lost = None
        try:
            return self.carry_out(row.words)
        except NotARow as fault:
            found = f"{NO_ROW}{fault}"
        except Unknown as fault:
            found = f"{UNKNOWN}{fault}"
        self.lost = self.lost or (row if row.words[0] in ("applet", *OF_APPLET) else None)
        return found


def differing(known, text):
    """The rows that differ, each with what it comes to, and how many rows there are."""
    trial, count, found = Trial(known), 0, []
    for row in rows_of(text):
        count += 1
        shown, never = trial.shown(row), why_never(row.wanted)
        if never and not shown.startswith(NOT_TRIED):
            found.append((row, f"{NO_ROW}{never}"))
            continue
        if shown.startswith(NOT_TRIED) or (shown == row.wanted) == row.differs:
            found.append((row, shown))
    return found, count


def text_here():
    with open(os.path.join(process.TOP, TABLE), encoding="utf-8") as text:
        return text.read()
