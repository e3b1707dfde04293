"""The names of commands, files, status words and the toolkit's objects: the tables of data/, which other programs read too."""
import difflib
import functools
import json
import os
import re

DATA = os.path.join(os.path.dirname(os.path.abspath(__file__)), "data")
# what the folders at these identifiers hold, as data/files.json names it: on this card the files of a USIM lie in 7F20 with those of GSM
APPLICATIONS = {"7F10": ("TELECOM",), "7F20": ("USIM", "GSM"), "7F21": ("GSM",), "7FF0": ("USIM",), "7FF2": ("ISIM",), "7FFF": ("USIM",)}
MF = "3F00"
FOLDERS = {"MF": (), "TELECOM": ("7F10",), "USIM": ("7F20",), "GSM": ("7F20",), "ISIM": ("7FF2",)}


@functools.cache
def table(name):
    with open(os.path.join(DATA, name + ".json"), encoding="utf-8") as text:
        return json.load(text)


def status(word):
    """A status word in words, by its four digits, or as the number that prints so."""
    word = str(word)
    for pattern, text in table("status")["words"]:
        if re.fullmatch(pattern.replace("X", "[0-9A-F]"), word):
            return text.format(low=int(word[2:], 16) or 256, digit=int(word[3], 16))
    return "no status word of this card"


def instruction(ins, class_=0x00):
    """The name of a command by its instruction byte, and where commands share it, by its class; None where there is none."""
    entry = table("commands")["commands"].get(f"{ins:02X}")
    return entry and entry.get("classes", {}).get(f"{class_ & 0xF0:02X}", entry["name"])


def key(reference):
    return table("commands")["keys"].get(f"{reference:02X}", f"key reference {reference:02X}")


def of_toolkit(kind, value, default=None):
    """The name of a byte among the toolkit's `commands`, `tags`, `results` .."""
    return table("toolkit")[kind].get(f"{value:02X}", default)


def qualifier(command, value):
    return table("toolkit")["qualifiers"].get(f"{command:02X}", {}).get(f"{value:02X}")


def cause(result, value):
    """The name of the byte after a result that gives its cause."""
    return table("toolkit")["result_causes"].get(f"{result:02X}", {}).get(f"{value:02X}")


@functools.cache
def files_of(identifier):
    return [entry for entry in table("files")["files"] if entry["id"] == identifier]


def is_usim(paths):
    """Whether 7F20 is a USIM's on a card with files at these paths: EF.DIR is there, or a file of the MF or of it that only a USIM has."""
    return ("2F00",) in paths or ("7F20", "6F08") in paths or ("7F20", "6F20") not in paths


def places(folder, usim=True):
    """What a folder may hold the standard files of, the likeliest first: those of a DF go by its name."""
    if not folder:
        return ("MF",)
    if folder[-1] in APPLICATIONS:
        found = APPLICATIONS[folder[-1]]
        return found if usim or len(found) == 1 else found[1:]
    entry = file(folder, usim)
    return (entry["name"].partition(".")[2],) if entry and entry["name"].startswith("DF.") else ()


def usual_folder(entry):
    """The path of the folder in which a standard file lies."""
    return folder_of(entry["in"][0])


def folder_of(place):
    """The path of a folder by its name in data/files.json."""
    if place in FOLDERS:
        return FOLDERS[place]
    above = next(one for one in table("files")["files"] if one["name"] == "DF." + place)
    return (*usual_folder(above), above["id"])


def in_folder(found, folder, usim=True):
    """Of several standard files that one which lies in a folder; else the first."""
    return next((entry for place in places(folder, usim) for entry in found if place in entry["in"]), found[0])


@functools.cache
def file(path, usim=True):
    """The standard file at a path from the MF; None where there is none: an identifier means something in its DF alone. In 7F20 it is that
    of a USIM where `usim` is so, else that of GSM."""
    if not path:
        return files_of("3F00")[0]
    found = files_of(path[-1])
    for place in places(path[:-1], usim):
        for entry in found:
            if place in entry["in"]:
                return entry
    return None


# what the folders hold whose files are found by their standard short identifiers
BY_SHORT = {(): ("MF",), ("7F10",): ("TELECOM",), ("7F20",): ("USIM", "GSM")}


def by_short(df, number, usim=True):
    """The standard file of a DF that has this short identifier; None where there is none."""
    held = BY_SHORT.get(tuple(df), ())
    found = (entry for entry in table("files")["files"] if entry.get("short") == number and set(held) & set(entry["in"]))
    return next((entry for entry in found if file((*df, entry["id"]), usim) is entry), None)


def name_of(path, usim=True):
    """The standard name of the file at a path, or else its identifier."""
    entry = file(path, usim)
    return entry["name"] if entry else path[-1]


def shown(path, usim=True):
    """A path with its standard name after it. A file of the MF without one has the MF before it: else it would look like an identifier alone."""
    text = "/".join(path) if path else MF
    entry = file(path, usim)
    return f"{text} {entry['name']}" if entry else text if len(path) != 1 else f"{MF}/{text}"


# how the AIDs of 3GPP begin, USIM's and ISIM's among them
TELEPHONES = "A000000087"


def is_adf(word):
    """Whether a part of a path names an ADF, also by its AID, which no card here has."""
    return normal(word).startswith(("ADF", TELEPHONES)) or word.upper() == "7FFF"


def normal(word):
    """A name as it is compared: EF_IMSI, EF.IMSI and ef.imsi are one."""
    return word.replace("_", ".").upper()


@functools.cache
def by_name(word):
    """The standard files of a name, with or without its EF. or DF."""
    wanted = normal(word)
    return [entry for entry in table("files")["files"]
            if wanted in (normal(entry["name"]), normal(entry["name"]).partition(".")[2])]


@functools.cache
def known():
    """The names of all standard files, as tables of a profile are called."""
    return sorted({entry["name"].replace(".", "_") for entry in table("files")["files"]})


def near(word):
    """Of which standard name a word is a slip, in the form of a profile's table; None where it is of none."""
    prefix, _, name = normal(word).rpartition(".")
    by_normal = {normal(each).partition(".")[2]: each for each in known() if normal(each).startswith(prefix)}
    found = difflib.get_close_matches(name, by_normal, 1)
    return by_normal[found[0]] if found else None
