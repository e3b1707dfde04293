"""How profiles name files, and how what is wrong with one is told."""
import re
import typing

from . import dump, names, rules

OPERATIONS = (*rules.OPERATIONS, "increase")
# what a PIN is, and what unblocks it, where nothing is said
NO_PIN = "00000000"
PIN_KEYS = {"pin1": 0x01, "pin2": 0x81, "adm": 0x0A}
ARR = ("2F06",)
# a path whose identifiers stand together, or with something else than a slash between them
PIN_LIKE = re.compile(r"(?i)(?:^|_|\.)(?:pin|chv|puk|adm)\d?$")
PATH_OTHERWISE = re.compile(r"[0-9A-Fa-f]{4}([.\\:_ -]?[0-9A-Fa-f]{4})+")
# the keys at the top of a profile that name no file
TOP = ("like", "without", "pins", "default", "applet")


class Fault(typing.NamedTuple):
    """What is wrong with a profile: the keys that lead to it, and why."""
    path: tuple
    reason: str


class BadProfile(Exception):
    """What is wrong with a profile: a reason, and the keys that lead to it; or several such."""

    def __init__(self, reason, *path):
        self.faults = reason if isinstance(reason, list) else [Fault(path, reason)]
        super().__init__("; ".join(fault.reason for fault in self.faults))


def is_file_table(name, value):
    return isinstance(value, dict) and name not in TOP


# the names of files

def parts_of(name):
    """The identifiers of the parts of a file's name. A standard name is that of the file in the folder where it stands."""
    parts = [part for part in name.split("/") if part]
    if parts and parts[0].upper() in ("MF", "3F00"):
        parts = parts[1:]
    if not name.strip("/ "):
        raise BadProfile("a table without a name is none of a file", name)
    if not parts:
        raise BadProfile(f"[{dump.printable(name)}] is the MF, of which a profile says nothing: each file in it has a table of its own, as "
                         "[EF_ICCID]", name)
    found = ()
    for part in parts:
        found += (identifier_of(part, found if found or len(parts) > 1 else None, name),)
    return found


def identifier_of(part, folder, whole):
    """The identifier of a file by itself or by its standard name, in a folder where one is told."""
    if names.is_adf(part):
        raise BadProfile(f"[{dump.printable(whole)}] {dump.printable(part)}: a card here has no ADF: the files of a USIM lie in the DF 7F20, as "
                         "[\"7F20/EF_IMSI\"], and those of an ISIM in 7FF2", whole)
    if dump.is_identifier(part):
        return part.upper()
    found = names.by_name(part)
    if not found:
        several = PATH_OTHERWISE.fullmatch(part)
        if several:
            raise BadProfile(f"[{dump.printable(whole)}]: a path is written with slashes, [\"{'/'.join(re.findall('[0-9A-Fa-f]{4}', part))}\"]", whole)
        if PIN_LIKE.search(part):
            raise BadProfile(f"[{dump.printable(whole)}]: PINs are no files: they stand in [pins], as `pin1 = {{ value = \"1234\" }}`", whole)
        meant = names.near(part)
        raise BadProfile(f"[{dump.printable(whole)}] {dump.printable(part)}: no standard file is called so"
                         + (f", but {meant} is" if meant else "") + "; an identifier of four digits names any other", whole)
    return (names.in_folder(found, folder) if folder is not None else found[0])["id"]


def path_of(name):
    """The path of a file from the MF. A standard name alone is that of the file in its usual folder."""
    path = parts_of(name)
    if len(path) > 1 or "/" in name:
        return path
    found = names.by_name(name) or names.files_of(path[0])
    return (*names.usual_folder(found[0]), path[0]) if found and "MF" not in found[0]["in"] else path


def path_or_none(name):
    try:
        return path_of(name)
    except BadProfile:
        return None


def same_path(one, two):
    return path_or_none(one) == path_or_none(two)


def shown_name(name):
    """A name as the head of its table has it."""
    bare = all(letter.isascii() and (letter.isalnum() or letter in "-_") for letter in name) and name
    return f"[{name}]" if bare else f'["{dump.printable(name)}"]'


def told_origin(origin):
    """The head of the table that keys lead to."""
    return "[[applet]]" if origin[:1] == ("applet",) else shown_name(origin[0]) if origin else "the profile"


def is_arr_in_folder(path):
    """Whether a file is the EF_ARR of a folder, beside that of the MF."""
    return len(path) > 1 and names.name_of(path) == "EF.ARR"
