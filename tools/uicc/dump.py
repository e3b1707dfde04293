"""Reads what pySim-shell's `export` and `fsdump` write of a card: its files, their shapes, and what they hold as far as it is told.

`export` writes commands that would write the files again, with comments: `# directory: MF/DF.TELECOM (3f00/7f10)`,
`# file: EF.ADN (6f3a)`, `# structure: linear_fixed`, `# RAW FCP Template: 62..`, `select MF/DF.TELECOM/EF.ADN` (or one `select` for each
part of the path), `update_binary HEX`, `update_record N HEX`, and with --json `update_binary_decoded 'JSON'` and
`update_record_decoded N 'JSON'`. `fsdump` writes JSON, whose `files` has for each path its `fcp_raw` and its `body`."""
import dataclasses
import json
import re

from . import contents, forms, names, rules

STRUCTURES = {"transparent": "t", "linear_fixed": "l", "cyclic": "c"}
# the low bits of a file descriptor, and the byte of the structure in the answer of a SIM (3GPP TS 51.011, 9.2.1)
BY_DESCRIPTOR = {1: "t", 2: "l", 6: "c"}
BY_SIM = {0: "t", 1: "l", 3: "c"}
NOT_FOUND = "6a82"
# what the lines of an export begin with
WORDS = ["select", "update_binary", "update_binary_decoded", "update_record", "update_record_decoded"]
# where the card here has the files of an application
FOLDERS = {"ADF.USIM": "7F20", "ADF.ISIM": "7FF2"}
FOREIGN = "foreign"


class Unread(Exception):
    """Why something of a dump isn't read."""


@dataclasses.dataclass
class Shape:
    """As far as it is told. `short` is 0 where the card says that the file has none. `rule` is the identifier of an EF_ARR and the number
    of a record, `words` are the conditions of a SIM."""
    structure: str | None = None
    size: int | None = None
    length: int | None = None
    count: int | None = None
    short: int | None = None
    rule: tuple | None = None
    words: dict | None = None
    is_deactivated: bool = False


@dataclasses.dataclass
class DumpedFile:
    """A file under the name that the dump has for it; `identifiers` are those that it tells for the parts of the name. What it holds
    is bytes, or what JSON says where it was decoded: `whole`, or `records` by their numbers. It is `bad` where a line says already why
    it isn't read."""
    name: str
    identifiers: tuple = ()
    shape: Shape = dataclasses.field(default_factory=Shape)
    whole: object = None
    records: dict = dataclasses.field(default_factory=dict)
    bad: bool = False

    def is_told(self):
        return self.whole is not None or bool(self.records)

    def path(self):
        """The identifiers from the MF, with the folder of the card here in place of an application. Unread where it has none."""
        parts = self.name.split("/")
        found = ()
        for part, told in zip(parts, self.identifiers or ("",) * len(parts)):
            if part.upper() not in ("MF", "3F00"):
                found += (identifier(part, told, found),)
        return found


def hexadecimal(text):
    if not text:
        raise Unread("no bytes are given")
    try:
        return bytes.fromhex(text)
    except (ValueError, TypeError):
        raise Unread(f"`{text}` are no bytes in hexadecimal digits") from None


def printable(text):
    """Text of a dump in one line."""
    return "".join(letter if letter.isprintable() else "?" for letter in text)


def is_identifier(word):
    return bool(re.fullmatch("[0-9A-Fa-f]{4}", word))


def identifier(part, told, folder):
    """The identifier of a part of a name: the one that is told, or that of the standard file of this name in a folder."""
    if part in FOLDERS:
        return FOLDERS[part]
    if part.startswith("ADF."):
        raise Unread(f"a card here has no place for the files of {part}, but for those of {', '.join(FOLDERS)} alone")
    for word in (told, part):
        if is_identifier(word):
            return word.upper()
    found = names.by_name(part)
    if not found:
        raise Unread(f"no identifier is given for {part}, and no standard file known here is called so")
    return names.in_folder(found, folder)["id"]


# the shape by what the card said of the file

def shape_of(fcp):
    """The shape by the answer to SELECT: control parameters (ETSI TS 102 221, 11.1.1.3), or a SIM's."""
    try:
        return shape_by_parameters(fcp) if fcp[:1] == b"\x62" else shape_by_sim(fcp)
    except (rules.NoRule, IndexError, KeyError):
        raise Unread("its FCP can't be read") from None


def shape_by_parameters(fcp):
    found = dict(rules.objects(next(rules.objects(fcp))[1]))
    descriptor = found[0x82]
    shape = Shape(BY_DESCRIPTOR.get(descriptor[0] & 7 if descriptor[0] & 0x38 != 0x38 else None, FOREIGN))
    if 0x80 in found:
        shape.size = int.from_bytes(found[0x80], "big")
    if len(descriptor) >= 5:
        shape.length, shape.count = int.from_bytes(descriptor[2:4], "big"), descriptor[4]
    if 0x88 in found:
        shape.short = found[0x88][0] >> 3 if found[0x88] else 0
    shape.rule = rule_of(found.get(0x8B, b""))
    shape.is_deactivated = found.get(0x8A, b"")[:1] in (b"\x04", b"\x06")
    return shape


def rule_of(value):
    """The EF_ARR and the record that control parameters name: one record, or one for each security environment, of which the first."""
    if len(value) == 3:
        return value[:2].hex().upper(), value[2]
    return (value[:2].hex().upper(), value[3]) if len(value) > 3 else None


# the conditions of a SIM by half bytes (3GPP TS 51.011, 9.3)
SIM_CONDITIONS = {0: "always", 1: "pin1", 2: "pin2", 15: "never", **{level: "adm" for level in range(4, 15)}}


def sim_words(answer, structure):
    """The words of a SIM's conditions."""
    halves = {"read": answer[8] >> 4, "update": answer[8] & 15, "deactivate": answer[10] & 15, "activate": answer[10] >> 4}
    if structure == "c":
        halves["increase"] = answer[9] >> 4
    return {operation: SIM_CONDITIONS.get(half, "never") for operation, half in halves.items()}


def shape_by_sim(answer):
    shape = Shape(BY_SIM.get(answer[13], FOREIGN), int.from_bytes(answer[2:4], "big"), short=0)
    shape.words = sim_words(answer, shape.structure)
    if shape.structure in ("l", "c"):
        shape.length = answer[14]
        shape.count = shape.size // shape.length if shape.length else 0
    return shape


# the lines of `export`

class Export:
    """The files of an export, and what of it isn't read."""

    def __init__(self):
        self.files, self.faults = [], []
        self.folder, self.file = ["MF"], None
        self.told, self.shape, self.parameters = {}, Shape(), ""

    def read(self, text):
        for number, line in enumerate(text.splitlines(), 1):
            try:
                self.line(line.strip())
            except Unread as fault:
                self.faults.append(f"line {number}{f', {self.file.name}' if self.file else ''}: {fault}{self.left_out(line.strip())}")
        self.faults += [f"{file.name}: nothing is said of what it holds" for file in self.files if not file.is_told() and not file.bad]
        self.files = [file for file in self.files if not file.bad and file.is_told()]

    def left_out(self, line):
        """What of a file goes with a line that isn't read: of EF_ARR a record, whose rule no file has then, and of any other one the whole file."""
        if self.file is None:
            return ""
        if line.startswith("update_record") and self.file.name.upper().endswith("EF.ARR"):
            return "; the record is left out"
        self.file.bad = True
        return "; the file is left out"

    def line(self, line):
        if line == "#":
            self.file = None
        elif line.startswith("#"):
            self.comment(line.lstrip("#").strip())
        elif line:
            self.command(*line.partition(" ")[::2])

    def comment(self, text):
        word, colon, value = text.partition(":")
        word, value = word.strip().lower(), value.strip()
        if not colon:
            return
        if word == "directory":
            self.shape, self.parameters, self.file = Shape(), "", None
            path, told = two_parts(value)
            self.told = dict(zip(path.split("/"), told.split("/")))
        elif word == "file":
            name, told = two_parts(value)
            self.told[name] = told
        elif word == "structure":
            self.shape.structure = STRUCTURES.get(value, FOREIGN)
        elif word == "size" and value.isdecimal():
            self.shape.size = int(value)
        elif word == "raw fcp template":
            self.parameters = value
        elif word == "bad file":
            self.bad_file(*value.partition(", ")[::2])

    def bad_file(self, name, why):
        """A file that couldn't be exported. One that isn't on the card isn't spoken of."""
        if self.file and self.file.name == name:
            self.file.bad = True
        if NOT_FOUND not in why.lower():
            self.faults.append(f"{name}: the dump hasn't got it: {why}")

    def command(self, word, rest):
        if word == "select":
            self.select(rest.strip())
        elif word in ("update_binary", "update_binary_decoded"):
            self.opened().whole = value_of(word, rest)
        elif word in ("update_record", "update_record_decoded"):
            number, _, value = rest.partition(" ")
            if not number.isdecimal():
                raise Unread(f"`{number}` is no number of a record")
            self.opened().records[int(number)] = value_of(word, value)
        else:
            if word == "set_data":
                raise Unread("`set_data` writes an object of a file of the structure BER-TLV, which a card here can't hold")
            meant = forms.near(word, WORDS)
            raise Unread(f"`{word}` isn't known: " + (f"`{meant}` is" if meant else f"{', '.join(WORDS)} are"))

    def select(self, name):
        parts = name.split("/")
        path = parts if parts[0] == "MF" else [*self.folder, *parts]
        self.file = None
        if path[-1].startswith(("MF", "DF", "ADF")):
            self.folder = path
        else:
            self.folder = path[:-1]
            self.file = DumpedFile("/".join(path), tuple(self.told.get(part, "") for part in path), self.shape)
            self.files.append(self.file)
            parameters, self.shape, self.parameters = self.parameters, Shape(), ""
            if parameters:
                try:
                    self.file.shape = shape_of(hexadecimal(parameters))
                except Unread as fault:
                    self.faults.append(f"{self.file.name}: {fault}: its shape is that of what it holds")

    def opened(self):
        if self.file is None:
            raise Unread("no file is selected")
        return self.file


def two_parts(text):
    """A name, and what stands in brackets after it."""
    found = re.fullmatch(r"(\S+)\s*(?:\((.*)\))?", text)
    return (found[1], found[2] or "") if found else (text, "")


def value_of(word, text):
    """The bytes of a line, or what its JSON says."""
    text = text.strip()
    if not word.endswith("_decoded"):
        return hexadecimal(text)
    if text[:1] == text[-1:] == "'":
        text = text[1:-1]
    return json_of(text)


def json_of(text):
    try:
        return json.loads(text)
    except (ValueError, RecursionError) as fault:
        raise Unread(f"its JSON can't be read: {fault}") from None


# the JSON of `fsdump`

def read_fsdump(text):
    """The files of a dump in JSON, and what of it isn't read."""
    given = json_of(text)
    if not isinstance(given, dict) or not isinstance(given.get("files"), dict):
        raise Unread("it is JSON, and has no `files` as fsdump writes them")
    files, faults = [], []
    for name, told in given["files"].items():
        try:
            files += dumped(name, told, faults)
        except Unread as fault:
            faults.append(f"{name}: {fault}")
    return files, faults


def dumped(name, told, faults):
    """The file that an entry of fsdump tells of, in a list; none where it is a folder, or isn't on the card. What of it isn't read is
    told among the faults."""
    if not isinstance(told, dict):
        raise Unread("it is no object with a `body`")
    if "error" in told:
        error = told["error"] if isinstance(told["error"], dict) else {"message": told["error"]}
        if str(error.get("sw_actual", "")).lower() == NOT_FOUND or NOT_FOUND in str(error.get("message", "")).lower():
            return []
        raise Unread(f"the dump hasn't got it: {error.get('message') or error.get('sw_actual') or 'no reason is given'}")
    if "body" not in told:
        return []
    file, body = DumpedFile(name), told["body"]
    if told.get("fcp_raw"):
        try:
            file.shape = shape_of(hexadecimal(told["fcp_raw"]))
        except Unread as fault:
            faults.append(f"{name}: {fault}: its shape is that of what it holds")
    if isinstance(body, list) and file.shape.structure != "t":
        file.records = {number: hexadecimal(one) if isinstance(one, str) else one for number, one in enumerate(body, 1)}
    else:
        file.whole = hexadecimal(body) if isinstance(body, str) else body
    return [file]


# the words that lines of a script of uicc_run begin with
SCRIPT_LINE = re.compile(r"(df|ef|fill|rec|pin|row) [0-9A-F]|start$", re.MULTILINE)


def text_in(content):
    """The text of a dump's bytes. Unread, where they are an image or another binary file, or a script."""
    if content[:4] == b"UICC" or len(content) >= 65_536 and not content[:4].strip(b"\xFF"):
        raise Unread("it is an image of a card, and no dump: `profile export` makes a profile of it")
    try:
        text = content.decode("utf-8-sig")
    except UnicodeDecodeError:
        text = "\x00"
    if "\x00" in text:
        raise Unread("it is a binary file, and no dump of pySim-shell")
    if SCRIPT_LINE.match(text):
        raise Unread("it is a script of uicc_run, and no dump: `profile export` makes a profile of it")
    return text


def read(text):
    """The files of a dump of either form, and a line for each thing that isn't read."""
    if text.lstrip().startswith("{"):
        return read_fsdump(text)
    export = Export()
    export.read(text)
    return export.files, export.faults


# what decoded contents say, as bytes

def dialling_of(value, length):
    """The record of a phone book. A number's kind, and what lies outside of the record, are those that are read here, or none."""
    kind, digits, name = value["ton_npi"], value["dialing_nr"], value["alpha_id"]
    if not digits and not name:
        return b""
    if value["cap_conf_id"] != 255 or value["ext1_record_id"] != 255:
        raise Unread("its decoded content refers to another file")
    if digits and (kind["numbering_plan_id"] != "isdn_e164" or kind["type_of_number"] not in ("international", "unknown")):
        raise Unread("the kind of its number isn't read")
    number = "+" * (digits != "" and kind["type_of_number"] == "international") + digits
    if not length:
        raise Unread("no length is given for its records")
    return contents.encode_dialling({"name": name, "number": number}, length)


def plmns_of(value):
    return b"".join(b"\xFF\xFF\xFF" if one is None else contents.encode_plmn(f"{one['mcc']}-{one['mnc']}") for one in value)


def services_of(value, size):
    """Of a USIM, or of a SIM where each says too whether it is there."""
    if not any("allocated" in one for one in value.values()):
        return contents.encode_ust([int(number) for number, one in value.items() if one["activated"]], size)
    if any(one["allocated"] != one["activated"] for one in value.values()):
        raise Unread("a service is there and isn't active")
    return contents.encode_sst([int(number) for number, one in value.items() if one["activated"]], size)


def spn_of(value, size):
    shown = value["show_in_hplmn"] | value["hide_in_oplmn"] << 1
    return contents.encode_spn(value["spn"], size or 17, shown)


def classes_of(value):
    return contents.encode_acc([int(name.removeprefix("ACC")) for name, has in value.items() if has])


# by the kind of content
DECODED = {
    "iccid": lambda value, size: contents.encode_iccid(value["iccid"]),
    "imsi": lambda value, size: contents.encode_imsi(value["imsi"]),
    "spn": spn_of,
    "languages": lambda value, size: b"".join(b"\xFF\xFF" if one is None else contents.encode_languages([one]) for one in value),
    "plmns": lambda value, size: plmns_of(value),
    "ust": services_of,
    "sst": services_of,
    "acc": lambda value, size: classes_of(value),
    "dialling": dialling_of,
}


def bytes_of(value, path, size):
    """The bytes that a file or a record of this size holds: as they are, or of what was decoded."""
    if isinstance(value, bytes):
        return value
    if isinstance(value, dict) and list(value) == ["raw"]:
        return hexadecimal(value["raw"])
    kinds = {entry.get("content") for entry in names.files_of(path[-1])} & set(DECODED)
    try:
        return DECODED[kinds.pop()](value, size)
    except Unread:
        raise
    except (KeyError, TypeError, ValueError, AttributeError) as fault:
        told = f" ({fault})" if isinstance(fault, contents.BadContent) else ""
        raise Unread(f"its decoded content isn't read{told}: export it without --json") from None
