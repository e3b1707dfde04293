"""Commands, answers, proactive commands and envelopes in words.

What is decoded is a list of lines, each with its depth, a label and a text."""
import collections
import functools

from . import contents, names, rules, tlv

Line = collections.namedtuple("Line", "depth label text")

SELECT, STATUS, READ_BINARY, UPDATE_BINARY = 0xA4, 0xF2, 0xB0, 0xD6
READ_RECORD, UPDATE_RECORD, SEARCH_RECORD, INCREASE = 0xB2, 0xDC, 0xA2, 0x32
PROFILE, FETCH, RESPONSE, ENVELOPE, INSTALL, DELETE, CHANNEL = 0x10, 0x12, 0x14, 0xC2, 0xE6, 0xE4, 0x70
GET_RESPONSE = 0xC0
# before the names in a terminal's profile
KNOWS = "the terminal knows"
# DELETE FILE has its instruction byte from DELETE, and another class
CREATE_FILE, DELETE_FILE, RESIZE_FILE = 0xE0, 0xE4, 0xD4
OWN_CLASS = 0xF0
PINS = (0x20, 0x24, 0x26, 0x28, 0x2C)
PROACTIVE = 0xD0
SELECTIONS = {0: "by identifier", 3: "the parent", 4: "by DF name (AID)", 8: "by path from the MF", 9: "by path"}
# the seconds of a unit of time: minutes, seconds, tenths
UNITS = (60, 1, 0.1)
RECORD_MODES = {2: "the next record", 3: "the previous record"}


def hexed(content):
    return content.hex().upper()


def amount(count):
    return f"{count} byte" if count == 1 else f"{count} bytes"


def printable(content):
    return "".join(chr(byte) if 0x20 <= byte < 0x7F else "." for byte in content)


# commands

class Apdu:
    """A command by its parts (ISO 7816-4, 5.1); `parts` is None where the bytes are no command of the short form."""

    def __init__(self, content):
        self.content = bytes(content)
        self.header, rest = self.content[:4], self.content[4:]
        self.data, self.le, self.ok = b"", None, len(self.header) == 4
        if len(rest) == 1:
            self.le = rest[0]
        elif rest:
            sent = rest[0]
            self.ok = self.ok and sent > 0 and len(rest) in (1 + sent, 2 + sent)
            self.data = rest[1:1 + sent]
            self.le = rest[1 + sent] if len(rest) > 1 + sent else None

    @property
    def ins(self):
        return self.header[1] if self.ok else None

    @property
    def fault(self):
        """Why the bytes are no command, in words; None where they are one."""
        if self.ok:
            return None
        sent = self.content[4:5]
        if not sent:
            return f"{amount(len(self.content))}, and a command has at least 4"
        if sent == b"\0":
            return "it has 00 in the place of Lc, as lengths of two bytes begin, which no card here takes"
        return f"Lc says {sent[0]}, and {len(self.content) - 5} {'byte follows' if len(self.content) == 6 else 'bytes follow'}"

    @property
    def on_applets(self):
        """Whether its class is the one of INSTALL and DELETE."""
        return self.ok and self.header[0] & 0xF0 == OWN_CLASS

    @property
    def p1(self):
        return self.header[2]

    @property
    def p2(self):
        return self.header[3]

    @property
    def channel(self):
        """Of an interindustry class, or one of the toolkit."""
        return self.header[0] & 3 if self.header and self.header[0] & 0x70 == 0 else 0


def path_text(data):
    return "/".join(hexed(data[n:n + 2]) for n in range(0, len(data), 2))


def wanted(le):
    return "" if le is None else f", {amount(le or 256)} at most"


def title(apdu):
    """A command in one line."""
    if not apdu.ok:
        return f"no command: {apdu.fault}"
    name = names.instruction(apdu.ins, apdu.header[0])
    if name is None:
        return f"unknown instruction {apdu.ins:02X}"
    text = TITLES.get(apdu.ins, lambda _: "")(apdu)
    where = f", channel {apdu.channel}" if apdu.channel else ""
    return name + (f" {text}" if text else "") + where


def title_select(apdu):
    how = SELECTIONS.get(apdu.p1, f"P1 {apdu.p1:02X}")
    what = path_text(apdu.data) if apdu.p1 in (0, 8, 9) else hexed(apdu.data)
    back = {4: "", 0x0C: ", no data returned"}.get(apdu.p2, f", P2 {apdu.p2:02X}")
    return f"{how}{' ' + what if what else ''}{back}"


def title_binary(apdu):
    if apdu.p1 & 0x80:
        where = f"by SFI {apdu.p1 & 31}, from byte {apdu.p2}"
    else:
        where = f"from byte {apdu.p1 << 8 | apdu.p2}"
    if apdu.ins == READ_BINARY:
        return f"{where}, {'all up to 256' if apdu.le == 0 else amount(apdu.le or 0)}"
    return f"{where}: {amount(len(apdu.data))}"


def title_record(apdu):
    short, mode = apdu.p2 >> 3, apdu.p2 & 7
    if apdu.ins == SEARCH_RECORD:
        start = f"record {apdu.p1}" if apdu.p1 else "the record pointer"
        which = f"{'backward' if mode == 5 else 'forward'} from {start} for {hexed(apdu.data)}"
    elif mode == 4:
        which = str(apdu.p1) if apdu.p1 else "at the record pointer"
    else:
        which = RECORD_MODES.get(mode, f"mode {mode}")
    where = f" by SFI {short}" if short else ""
    return which + where


def title_pin(apdu):
    return f"of {names.key(apdu.p2)}" + ("" if apdu.data else ", asking for the tries that are left")


def title_channel(apdu):
    if apdu.p1 == 0x80:
        return f"close {apdu.p2 or apdu.channel}"
    return "open" + (f" {apdu.p2}" if apdu.p2 else " the next free one")


def title_increase(apdu):
    where = f" by SFI {apdu.p1 & 31}" if apdu.p1 & 0x80 else ""
    return f"by {int.from_bytes(apdu.data, 'big')}{where}"


def title_create(apdu):
    """What is asked for, as far as the bytes of the template tell."""
    made = new_file(apdu.data)
    if made is None:
        return "of no file: the template is none"
    what = KINDS.get(made.kind, f"kind {made.kind:02X}")
    if not made.length:
        return f"{what} {made.identifier}"
    size = f"{made.count} records of {amount(made.length)}" if made.structure != "t" else amount(made.length)
    return f"{what} {made.identifier} of {size}"


def title_delete(apdu):
    return f"of shelf {apdu.p2}" if apdu.on_applets else hexed(apdu.data)


def title_resize(apdu):
    if len(apdu.data) != 4:
        return hexed(apdu.data)
    return f"{hexed(apdu.data[:2])} to {amount(int.from_bytes(apdu.data[2:], 'big'))}"


TITLES = {
    SELECT: title_select, READ_BINARY: title_binary, UPDATE_BINARY: title_binary, READ_RECORD: title_record,
    UPDATE_RECORD: title_record, SEARCH_RECORD: title_record, INCREASE: title_increase, CHANNEL: title_channel,
    FETCH: lambda apdu: amount(apdu.le or 256) if apdu.le is not None else "",
    GET_RESPONSE: lambda apdu: amount(apdu.le or 256) if apdu.le is not None else "",
    STATUS: lambda apdu: "" if apdu.p2 == 0x0C else "with the FCP",
    INSTALL: lambda apdu: f"on shelf {apdu.p2}, priority {apdu.p1}",
    CREATE_FILE: title_create, DELETE: title_delete, RESIZE_FILE: title_resize,
    **{ins: title_pin for ins in PINS},
}


def details(apdu, path=None, usim=True):
    """What stands in the data of a command, object by object. `path` is that of the file which CREATE FILE makes, where it is known."""
    if not apdu.ok or not apdu.data:
        return []
    if apdu.ins == RESPONSE:
        return response(apdu.data)
    if apdu.ins == ENVELOPE:
        return template(apdu.data, "bad data")
    if apdu.ins == PROFILE:
        return [Line(0, KNOWS, ", ".join(profile(apdu.data)) or "nothing")]
    if apdu.ins == INSTALL:
        return installation(apdu.data)
    if apdu.ins == CREATE_FILE:
        return fcp(apdu.data, path, usim)
    if apdu.ins in PINS:
        return [Line(0, label, pin_value(apdu.data[n:n + 8])) for label, n in zip(("value", "new value"), range(0, len(apdu.data), 8))]
    return []


def pin_value(value):
    digits = value.rstrip(b"\xFF")
    return digits.decode() if digits.isdigit() else hexed(value)


def profile(data):
    """What the bits of a TERMINAL PROFILE say."""
    named = names.table("toolkit")["profile"]
    return [text for place, text in named.items()
            for byte, bit in [map(int, place.split("."))] if byte <= len(data) and data[byte - 1] >> bit - 1 & 1]


def installation(data):
    from . import layout
    try:
        given = layout.installation(data)
    except layout.Wrong as fault:
        return [Line(0, "bad data", str(fault))]
    return applet_lines(given.events, given.text, given.kept)


def applet_lines(events, text, kept, depth=0, table=False):
    lines = [Line(depth, "events", ", ".join(event(code) for code in events) or "none")]
    if text:
        lines.append(Line(depth, "menu entry", printable(text)))
    if kept:
        lines.append(Line(depth, "kept data", hexed(kept)))
    if table:
        lines += [Line(depth + 1, event(kept[n]), action(kept[n + 1], kept[n + 2])) for n in range(0, len(kept) - 2, 3)]
    return lines


def event(code):
    return f"{code:02X} {names.of_toolkit('events', code, 'unknown')}"


def action(code, value):
    name = names.of_toolkit("action_names", code, "does nothing")
    if code in (1, 6, 9):
        return f"{name} `{printable(bytes((value,)))}`"
    if code in (7, 8):
        return f"{name} {event(value)}"
    return name if code in (3, 10) else f"{name} {value:02X}"


# objects of the toolkit

def objects(content, depth, is_command=False):
    """The objects of a list, which may be those of a proactive command."""
    return [Line(depth, names.of_toolkit("tags", tag, f"object {tag:02X}"), object_text(tag, value, is_command))
            for tag, _, value in tlv.objects(content)]


def object_text(tag, value, is_command):
    try:
        return OBJECTS[tag](value, is_command) if tag in OBJECTS else hexed(value)
    except (IndexError, ValueError):
        return f"{hexed(value) or 'nothing'} (not of the form that it should have)"


def details_name(command):
    return names.of_toolkit("commands", command, f"type {command:02X}")


def details_text(value, _):
    number, command, qualifier = value
    name = details_name(command)
    text = names.qualifier(command, qualifier) or (f"qualifier {qualifier:02X}" if qualifier else "")
    return f"{name}, number {number}" + (f", {text}" if text else "")


def devices_text(value, _):
    source, destination = (names.of_toolkit("devices", byte, f"{byte:02X}") for byte in value)
    return f"{source} to {destination}"


def result_text(value, _):
    more = f", {hexed(value[1:])}" if len(value) > 1 else ""
    cause = names.cause(*value) if len(value) == 2 else None
    return f"{value[0]:02X} {names.of_toolkit('results', value[0], 'unknown')}{more}" + (f" {cause}" if cause else "")


def text_text(value, _):
    if not value:
        return "empty"
    coding, content = value[0], value[1:]
    if coding == 8:
        return f"`{content.decode('utf-16-be', 'replace')}`"
    return f"`{printable(content)}`" if coding == 4 else f"{names.of_toolkit('data_codings', coding, f'coding {coding:02X}')} {hexed(content)}"


def item_text(value, _):
    return f"{value[0]} `{printable(value[1:])}`" if value else "none"


def length_text(value, _):
    return f"{value[0]} to {value[1]} characters"


def duration_text(value, _):
    return f"{value[1]} {('minutes', 'seconds', 'tenths of a second')[value[0]]}"


def timer_text(value, _):
    hours, minutes, seconds = ((byte & 15) * 10 + (byte >> 4) for byte in value)
    return f"{hours:02}:{minutes:02}:{seconds:02}"


def location_text(value, _):
    text = contents.decode_plmn(value[:3]) or "no PLMN"
    return f"{text}, area {hexed(value[3:5])}, cell {hexed(value[5:])}" if len(value) >= 7 else hexed(value)


def address_text(value, _):
    """A number as it is dialled: with a + before an international one, and with its type where that is another one than usual."""
    kind = "" if value[0] in (0x81, 0x91) else f" type {value[0]:02X}"
    return contents.dialled_digits(value[1:], value[0]) + kind


def bearer_text(value, _):
    more = f", {hexed(value[1:])}" if len(value) > 1 else ""
    return f"{value[0]:02X} {names.of_toolkit('bearers', value[0], 'unknown')}{more}"


def channel_data_text(value, _):
    is_text = value and all(0x20 <= byte < 0x7F for byte in value)
    return (hexed(value) or "none") + (f" `{printable(value)}`" if is_text else "")


def channel_length_text(value, is_command):
    """The bytes that a command asks for, or those that wait or have room: FF are as many or more then."""
    count = int.from_bytes(value, "big")
    return amount(count) + (" or more" if value == b"\xFF" and not is_command else "")


def channel_status_text(value, _):
    number, state = value[0] & 7, value[1]
    if not number:
        return "no channel is open" if not any(value) else hexed(value)
    why = names.of_toolkit("channel_states", state, f"{state:02X}") if state else ""
    return f"channel {number}, its link is {'up' if value[0] & 0x80 else 'down'}" + (f": {why}" if why else "")


def buffer_size_text(value, _):
    return amount(int.from_bytes(value, 'big')) if len(value) == 2 else hexed(value)


OBJECTS = {
    0x01: details_text, 0x02: devices_text, 0x03: result_text, 0x04: duration_text, 0x05: lambda value, _: f"`{printable(value)}`",
    0x06: address_text, 0x0D: text_text, 0x17: text_text,
    0x0E: lambda value, _: f"{value[0]:02X} {names.of_toolkit('tones', value[0], 'unknown')}",
    0x0F: item_text, 0x10: lambda value, _: str(value[0]), 0x11: length_text, 0x13: location_text,
    0x19: lambda value, _: ", ".join(event(code) for code in value) or "none",
    0x1B: lambda value, _: names.of_toolkit("location_status", value[0], f"{value[0]:02X}"),
    0x24: lambda value, _: str(value[0]), 0x25: timer_text, 0x2D: lambda value, _: value.decode("ascii"),
    0x35: bearer_text, 0x36: channel_data_text, 0x37: channel_length_text, 0x38: channel_status_text, 0x39: buffer_size_text,
}


def template(data, bad, is_command=False):
    """A template and its objects; `bad` says what is none."""
    try:
        tag, content = tlv.template(data)
        found = objects(content, 1, is_command)
    except tlv.BadTlv as fault:
        return [Line(0, bad, str(fault))]
    return [Line(0, names.of_toolkit("templates", tag, f"template {tag:02X}"), ""), *found]


def proactive(data):
    """A proactive command, as FETCH answers it."""
    return template(data, "bad proactive command", True)


# a terminal over no card

def is_of_terminal(command, answer):
    """Whether a proactive command and a terminal's response are these bytes, and not a command and the answer of a card: that would
    end with a status, which begins with 6 or 9."""
    return bool(command and answer) and answer[:2] == b"\x81\x03" and answer[-2] >> 4 not in (6, 9)


def title_proactive(data):
    """A proactive command in one line."""
    try:
        tag, content = tlv.template(data)
        details = tlv.first(content, 0x01) if tag == PROACTIVE else None
    except tlv.BadTlv:
        details = None
    return details_name(details[1]) if details and len(details) == 3 else "no proactive command"


def kind_of(data):
    """The type of a proactive command; None where the bytes are none."""
    try:
        details = tlv.first(tlv.template(data)[1], 0x01)
    except tlv.BadTlv:
        return None
    return details[1] if details and len(details) == 3 else None


def seconds_in(data):
    """The duration in the data of a response, in seconds; None where it has none."""
    try:
        value = tlv.first(data, 0x04)
    except tlv.BadTlv:
        return None
    return value[1] * UNITS[value[0]] if value and len(value) == 2 and value[0] < len(UNITS) else None


def result_of(data):
    """The result in a terminal's response; None where there is none."""
    try:
        return tlv.first(data, 0x03) or None
    except tlv.BadTlv:
        return None


def title_response(data):
    result = result_of(data)
    return object_text(0x03, result, False) if result else "no response"


def is_done(data):
    """Whether a terminal's response says that the command was carried out, if only in part."""
    result = result_of(data)
    return bool(result) and result[0] < 0x10


def response(data):
    """A terminal's response, object by object."""
    try:
        return objects(data, 0)
    except tlv.BadTlv as fault:
        return [Line(0, "bad data", str(fault))]


# control parameters

# A file that CREATE FILE asks for: the byte of its kind, its identifier, its structure (None: a DF) and short identifier as a line of a
# script has them, and the length and number of its records; a transparent one has one of all its bytes.
NewFile = collections.namedtuple("NewFile", "kind identifier structure length count short rule")
STRUCTURES = {0x41: "t", 0x42: "l", 0x46: "c"}
KIND_OF = {None: 0x78, **{structure: kind for kind, structure in STRUCTURES.items()}}


def new_file(data):
    """The file that a template asks for; None where it is none, or one of its objects is missing."""
    try:
        found = dict(rules.objects(tlv.template(data)[1]))
        descriptor, size = found[0x82], int.from_bytes(found.get(0x80, b""), "big")
        kind, structure = descriptor[0], STRUCTURES.get(descriptor[0])
        length, count = (descriptor[3], descriptor[4]) if structure in ("l", "c") else (size, 1) if structure else (0, 0)
        short = found[0x88][0] >> 3 if found.get(0x88) else None
        rule = (hexed(found[0x8B][:2]), found[0x8B][2]) if 0x8B in found else None
        return NewFile(kind, hexed(found[0x83]), structure, length, count, short, rule)
    except (ValueError, LookupError):
        return None


def template_of(made):
    """The template that asks for a file, as CREATE FILE takes it (ETSI TS 102 222, 6.3)."""
    kind = bytes((made.kind, 0x21))
    if made.structure in ("l", "c"):
        kind += made.length.to_bytes(2, "big") + bytes((made.count,))
    found = rules.spelled(0x82, kind) + rules.spelled(0x83, bytes.fromhex(made.identifier))
    if made.structure:
        if made.rule:
            found += rules.spelled(0x8B, bytes.fromhex(made.rule[0]) + bytes((made.rule[1],)))
        found += rules.spelled(0x80, (made.length * made.count).to_bytes(2, "big"))
        found += rules.spelled(0x88, bytes((made.short << 3,)) if made.short else b"")
    return rules.spelled(0x62, found)


KINDS = {0x78: "DF", 0x38: "DF", 0x41: "transparent EF", 0x42: "linear fixed EF", 0x46: "cyclic EF"}
LIVES = {0x05: "activated", 0x04: "deactivated"}


def fcp(data, path=None, usim=True):
    """The control parameters of a file (ETSI TS 102 221, 11.1.1.3), of that at a path where it is known."""
    try:
        tag, content = tlv.template(data)
        found = list(rules.objects(content))
    except ValueError as fault:
        return [Line(0, "bad FCP", str(fault))]
    lines = [Line(0, "FCP" if tag == 0x62 else f"template {tag:02X}", "")]
    for tag, value in found:
        name, text = FCP.get(tag, (f"object {tag:02X}", hexed))
        if tag == IDENTIFIER:
            text = functools.partial(identifier_text, path=path, usim=usim)
        try:
            lines.append(Line(1, name, text(value)))
        except IndexError:
            lines.append(Line(1, name, hexed(value)))
    return lines


def descriptor_text(value):
    kind = KINDS.get(value[0] & 0x7F, f"{value[0]:02X}")
    return f"{kind}, {value[4]} records of {amount(value[2] << 8 | value[3])}" if len(value) == 5 else kind


def pin_status_text(value):
    at = value.index(0x83)
    keys = [value[n + 2] for n in range(at, len(value) - 2, 3)]
    return ", ".join(f"{names.key(key)} {'enabled' if value[2] >> 7 - n & 1 else 'disabled'}" for n, key in enumerate(keys)) or "none"


def control_parameter(data, tag):
    """The value of an object of control parameters; no bytes where there is none."""
    try:
        return dict(rules.objects(tlv.template(data)[1])).get(tag, b"")
    except ValueError:
        return b""


def descriptor_in(data):
    """The bytes of the file descriptor: five where the file has records, the fourth their length and the fifth their number."""
    return control_parameter(data, 0x82)


def pins_in(data):
    """Which PINs are on, by their keys, as control parameters say."""
    value = control_parameter(data, 0xC6)
    at = value.find(b"\x83")
    keys = [value[n + 2] for n in range(at, len(value) - 2, 3)] if at > 2 else []
    return {key: bool(value[2] >> 7 - n & 1) for n, key in enumerate(keys)}


def identifier_text(value, path=None, usim=True):
    """An identifier with the standard name of the file: that of the file at a path, or else those of all files with this identifier."""
    if path and path[-1] == hexed(value):
        entry = names.file(path, usim)
        found = [entry["name"]] if entry else []
    else:
        found = dict.fromkeys(entry["name"] for entry in names.files_of(hexed(value)))
        if len(found) > MOST_NAMES:
            found = ()
    return f"{hexed(value)} {' or '.join(found)}".rstrip()


IDENTIFIER = 0x83
# so many files with one identifier are named where it isn't known which is meant
MOST_NAMES = 3
FCP = {
    0x82: ("file descriptor", descriptor_text), IDENTIFIER: ("identifier", identifier_text),
    0x8A: ("life cycle", lambda value: LIVES.get(value[0], f"{value[0]:02X}")),
    0x8B: ("security attributes", lambda value: f"record {value[2]} of {hexed(value[:2])}"),
    0xC6: ("PINs", lambda value: pin_status_text(value) if 0x83 in value else "none"),
    0x80: ("size", lambda value: amount(int.from_bytes(value, 'big'))),
    0x88: ("SFI", lambda value: str(value[0] >> 3) if value else "none"),
}
