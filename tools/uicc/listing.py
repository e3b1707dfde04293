"""Lists of what a profile may name: the standard files, with their places, shapes and keys, and the services of a table."""
from . import fields, names, tree

# the table of services of each kind, by the file that holds it
HOLDERS = {"ust": "EF_UST", "sst": "EF_SST", "ist": "EF_IST", "est": "EF_EST"}
FILES_HEAD = ("file", "place", "what it is", "key", "SFI", "title")
MOST_FILES = 4


def rows(words=()):
    """The files whose line has all of these words, a row each."""
    for entry in names.table("files")["files"]:
        row = (entry["name"].replace(".", "_"), place_of(entry), shape_of(entry), key_of(entry), str(entry.get("short", "")), entry["title"])
        text = " ".join(row).lower()
        if entry["name"] != "MF" and all(word.lower().replace(".", "_") in text for word in words):
            yield row


def place_of(entry):
    """The usual place of a file, and the other DFs in which the standards have it."""
    usual = names.usual_folder(entry)
    others = dict.fromkeys("/".join(names.folder_of(place)) for place in entry["in"])
    others.pop("/".join(usual), None)
    return "/".join((*usual, entry["id"])) + (f" (also {', '.join(others)})" if others else "")


def shape_of(entry):
    if "structure" not in entry:
        return "DF"
    what = tree.STRUCTURES[entry["structure"]]
    if "length" in entry:
        return f"{what}, {entry['length']}"
    return f"{what}, {entry['least']} or more" if "least" in entry else what


def key_of(entry):
    kind = fields.KINDS.get(entry.get("content"))
    return kind.key if kind else ""


def file_lines(words=()):
    found = list(rows(words))
    return in_columns([FILES_HEAD, *found]) if found else []


def service_lines(kind, words=()):
    """The services of a kind by their numbers, each with the files that it is for; of these those whose line has all of the words, and
    nothing where none has."""
    files = {}
    for entry in names.table("files")["files"]:
        for number in entry.get("needs", {}).get(kind, ()):
            files.setdefault(number, {})[entry["name"].replace(".", "_")] = None
    table = [("service", f"in {HOLDERS[kind]}", "files")]
    for number, name in enumerate(names.table("files")[kind], 1):
        own = list(files.get(number, ()))
        text = " ".join((str(number), name, *own)).lower()
        if all(word.lower().replace(".", "_") in text for word in words):
            table.append((str(number), name, ", ".join(own[:MOST_FILES]) + ", .." * (len(own) > MOST_FILES)))
    return in_columns(table) if len(table) > 1 else []


def in_columns(table):
    widths = [max(len(row[column]) for row in table) for column in range(len(table[0]))]
    return ["  ".join(text.ljust(width) for text, width in zip(row, widths)).rstrip() for row in table]
