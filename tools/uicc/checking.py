"""Whether a card is as it should be: the mandatory files of its kind, their shapes, what they hold, their services and rules."""
import contextlib
import typing

from . import access, contents, fields, layout, names, rules, tree
from .coding import BadContent

# what a terminal reads before a PIN is entered (ETSI TS 102 221, 13; 3GPP TS 31.102, 4.2)
READ_BY_ALL = {("2F00",), ("2F05",), ("2F06",), ("2FE2",), ("7F20", "6F46"), ("7F20", "6FAD"), ("7F20", "6FB7")}
TELECOM, IMSI, ACC = ("7F10",), ("7F20", "6F07"), ("7F20", "6F78")
# administrative data, and the networks that are the subscriber's own
AD, HOME = ("7F20", "6FAD"), ("7F20", "6F62")
# the file that says which of the services for fixed dialling, barred dialling and access points are enabled (3GPP TS 31.102, 4.2.47)
ENABLED = "EF.EST"
# as many services are hardly on one after the other at the end of a table that isn't filled up with FF
MOST_AT_END = 16
# the service table of a kind of card
TABLES = {"usim": (("7F20", "6F38"), "ust"), "sim": (("7F20", "6F38"), "sst")}


class Finding(typing.NamedTuple):
    """What a card lacks, or what can't be right in it, and the paths of the files that it is of. `is_of_rules`: a run of the card has it
    too, so that lint tells it."""
    text: str
    paths: tuple = ()
    is_of_rules: bool = False


def findings(card, kind):
    """What a card lacks of the mandatory files of a kind (usim or sim), and what can't be right in it, as texts."""
    return [finding.text for finding in found(card, kind)]


def found(card, kind):
    """The same, each with the files that it is of."""
    usim = kind == "usim"
    for entry in names.table("files")["files"]:
        if kind in entry.get("mandatory", ()):
            path = standard_path(entry, kind)
            if path not in card.files:
                yield Finding(f"{names.shown(path, usim)} is missing: {entry['title']}")
    for file in card.files.values():
        yield from wrong_identifier(file, usim)
        if not file.is_df:
            yield from wrong_file(card, file, usim)
    yield from unreadable(card, usim)
    for pin in card.pins.values():
        digits = pin.unblock.rstrip(b"\xFF")
        if pin.key != layout.ADM and digits.isdigit() and len(digits) < len(pin.unblock):
            yield Finding(f"{names.key(pin.key)}: its UNBLOCK PIN has {len(digits)} digits, and should have {len(pin.unblock)}")
    yield from wrong_services(card, kind)
    yield from wrong_class(card, usim)
    yield from wrong_digits(card, usim)
    for files, rule, why in access.pointless(card):
        yield Finding(f"{names.shown(files[0].path, usim)}, rule {rule[0]}:{rule[1]}, {why}{access.others(files)}",
                      tuple(file.path for file in files), True)


def notes(card, kind):
    """What is right of a card, and what a terminal may miss in it all the same."""
    if kind != "usim":
        return
    moved = [names.name_of(file.path) for file in card.files.values() if file.path[:1] == TELECOM and len(file.path) == 2 and not file.is_df
             and "USIM" in (names.file(file.path) or {"in": ()})["in"] and ("7F20", file.path[-1]) not in card.files]
    moved = [name for name in moved if name != "EF.ARR"]
    if moved:
        yield (f"{', '.join(moved)} {'lies' if len(moved) == 1 else 'lie'} in 7F10, where a terminal of 2G looks for "
               f"{'it' if len(moved) == 1 else 'them'}: TS 31.102 has {'it' if len(moved) == 1 else 'them'} in ADF.USIM, which is 7F20 here")


def wrong_identifier(file, usim):
    """A file never has the identifier of a DF that it lies in (ETSI TS 102 221, 8.3)."""
    if file.path and file.path[-1] in ("3F00", *file.path[:-1]):
        yield Finding(f"{names.shown(file.path, usim)}: no file has the identifier of a DF that it lies in", (file.path,))


def wrong_class(card, usim):
    """An access control class from 0 to 9 that isn't the last digit of the IMSI, by which cards are commonly given theirs."""
    imsi, acc = (card.files.get(path) for path in (IMSI, ACC))
    with contextlib.suppress(BadContent, IndexError):
        if imsi and acc and imsi.structure == acc.structure == "t" and not contents.is_blank(imsi.content):
            digit = int(contents.decode_imsi(bytes(imsi.content))[-1])
            classes = [number for number in contents.classes_of(bytes(acc.content)) if number < 10]
            if len(classes) == 1 and classes != [digit]:
                yield Finding(f"{names.shown(ACC, usim)} has class {classes[0]}, and the IMSI ends with {digit}: by its last digit cards are "
                              f"commonly given their class", (ACC, IMSI))


def wrong_digits(card, usim):
    """A home network of the IMSI's country whose code has other digits than the IMSI has after the country, as many as EF_AD says."""
    imsi, data, home = (card.files.get(path) for path in (IMSI, AD, HOME))
    with contextlib.suppress(BadContent, ValueError, IndexError, KeyError):
        if imsi and data and home and not contents.is_blank(imsi.content):
            digits, count = contents.decode_imsi(bytes(imsi.content)), fields.mode_of(bytes(data.content))["network_digits"]
            country, network = contents.plmns_act(bytes(home.content))[0].split(" ")[0].split("-")
            if digits.startswith(country) and count in (2, 3) and digits[3:3 + count] != network:
                yield Finding(f"{names.shown(HOME, usim)} has {country}-{network} first, and the IMSI is of {country}-{digits[3:3 + count]}: "
                              f"by {names.name_of(AD, usim)} its network's code has {count} digits", (AD, HOME, IMSI))


def unreadable(card, usim):
    """Files that everybody must be able to read, and that ask for a PIN."""
    for path in sorted(READ_BY_ALL & card.files.keys()):
        file = card.files[path]
        if file.rule and not card.about_rule(file):
            asked = access.condition(card, file, "read")
            if access.effective(card, asked) != access.EVERYBODY:
                yield Finding(f"{names.shown(path, usim)}: everybody must be able to read it, and its rule says `{rules.in_words(asked)}`", (path,))


def standard_path(entry, kind):
    return (entry["id"],) if "MF" in entry["in"] else ("7F20", entry["id"])


def wrong_file(card, file, usim):
    name = names.shown(file.path, usim)
    why = card.about_rule(file) if file.rule else None
    if why:
        yield Finding(f"{name}: its rule {file.rule[0]}:{file.rule[1]} allows nothing: {why}", (file.path,), True)
    yield from (Finding(text, (file.path,)) for text in otherwise(file, names.file(file.path, usim), name))


def otherwise(file, entry, name):
    """What the standard has otherwise of a file, as texts."""
    if not entry or "structure" not in entry:
        return
    if file.structure != entry["structure"]:
        yield f"{name} is {tree.STRUCTURES[file.structure]}, and should be {tree.STRUCTURES[entry['structure']]}"
        return
    what = "bytes" if file.structure == "t" else "bytes a record"
    if file.length != entry.get("length", file.length):
        yield f"{name} has {file.length} {what}, and should have {entry['length']}"
    elif file.length < entry.get("least", 0):
        yield f"{name} has {tree.plural(file.length, 'byte')}{what.removeprefix('bytes')}, and should have at least {entry['least']}"
    elif "content" in entry:
        yield from wrong_content(file, entry, name)


def wrong_content(file, entry, name):
    for number, record in enumerate(file.records(), 1):
        try:
            contents.decode(entry["content"], record)
            contents.check(entry["content"], record)
        except BadContent as fault:
            yield f"{name}{'' if file.structure == 't' else f', record {number}'}: {fault}"


def wrong_services(card, kind):
    """Files that are there without a service that they are for, and services whose files aren't there."""
    path, table = TABLES[kind]
    services, usim = card.files.get(path), kind == "usim"
    if services is None or services.structure != "t":
        return
    on = contents.services_on(table, bytes(services.content))
    if on is None:
        return
    known, name, files_for = names.table("files")[table], names.name_of(path, usim), {}
    first = 8 * len(bytes(services.content).rstrip(b"\xFF")) // contents.SERVICES[table] + 1
    if max(on, default=0) >= first + MOST_AT_END - 1:
        yield Finding(f"{names.shown(path, usim)} ends with bytes FF, so that all services from {first} on are on: a table of services is filled "
                      "up with 00", (path,))
    else:
        first = max(on, default=0) + 1
    here = [(file, entry) for file in card.files.values() if not file.is_df and (entry := names.file(file.path, usim))]
    for file, entry in here:
        needs = entry.get("needs", {}).get(table, ())
        if needs and not on.intersection(needs):
            wanted = " or ".join(f"{number} ({known[number - 1]})" for number in needs)
            yield Finding(f"{names.shown(file.path, usim)} is there, and its service {wanted} is off in {name}", (file.path, path))
    for entry in names.table("files")["files"]:
        for number in entry.get("needs", {}).get(table, ()):
            files_for.setdefault(number, []).append(entry["name"])
    # those that stand before what is filled up with FF
    on = {number for number in on if number < first}
    beyond = sorted(number for number in on if number > len(known))
    if beyond:
        told = f"service {beyond[0]} is" if len(beyond) == 1 else f"services {', '.join(map(str, beyond))} are"
        yield Finding(f"{told} on in {name}, and the standard's list ends with {len(known)}", (path,))
    there = {entry["name"] for _, entry in here}
    for number in sorted(on.intersection(files_for)):
        # a file of several services is none of one of them alone
        own = [one for one in files_for[number] if one != ENABLED] or files_for[number]
        if not there.intersection(own):
            few = list(dict.fromkeys(own))[:3]
            yield Finding(f"service {number} ({known[number - 1]}) is on in {name}, and no file of it is there: {', '.join(few)}", (path,))
        elif ENABLED in files_for[number] and ENABLED not in there:
            yield Finding(f"service {number} ({known[number - 1]}) is on in {name}, and {ENABLED} isn't there, which says whether it is enabled",
                          (path,))
