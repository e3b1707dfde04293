"""How two cards differ: their files by names, with what they hold and who may do what with them, their PINs and their applets."""
import dataclasses
import os

from . import access, contents, decode, fields, kinds, layout, names, rules, tree
from .follow import is_usim_card

ONE, OTHER = "- ", "+ "
# how much of what is alike stands before a difference in a long text
BEFORE = 20


@dataclasses.dataclass(frozen=True)
class Difference:
    """What differs, and a line for each thing of it that one card has (`- `) or the other one (`+ `). It is `of_state` where it is no
    part of what a card is made with."""
    what: str
    lines: tuple
    of_state: bool = False


def differences(one, other, exactly=False):
    """Where two cards differ. Rules are the same where they say the same; `exactly`: where they are the same records."""
    usim = is_usim_card(one)
    for path in dict.fromkeys([*one.files, *other.files]):
        if path:
            lines = tuple(of_file(one, other, path, usim, exactly))
            if lines:
                yield Difference(names.shown(path, usim), lines)
            files = one.files.get(path), other.files.get(path)
            if all(files) and files[0].active != files[1].active:
                yield Difference(names.shown(path, usim), tuple(pair(*("activated" if file.active else "deactivated" for file in files))), True)
    for key in sorted({*one.pins, *other.pins}):
        yield from of_pin(one.pins.get(key), other.pins.get(key), names.key(key))
    for shelf in sorted({*one.rows, *other.rows}):
        lines = tuple(pair(row_words(one.rows.get(shelf)), row_words(other.rows.get(shelf))))
        if lines:
            yield Difference(f"applet on shelf {shelf}", lines)


def pair(one, other, label=""):
    """The lines of two texts that differ; None is for what isn't there."""
    if one != other:
        head = f"{label}: " if label else ""
        if one is not None:
            yield f"{ONE}{head}{one}"
        if other is not None:
            yield f"{OTHER}{head}{other}"


def of_file(one, other, path, usim, exactly):
    files = [card.files.get(path) for card in (one, other)]
    if None in files or files[0].is_df or files[1].is_df:
        yield from pair(*(file and (("DF" if file.is_df else "EF") + f", {tree.facts(card, file)}" * (not file.is_df))
                          for card, file in zip((one, other), files)))
        return
    yield from pair(*(f"{tree.STRUCTURES[file.structure]}, {tree.shape(file)}" for file in files), "shape")
    yield from pair(*(str(file.short or "none") for file in files), "SFI")
    if exactly:
        yield from pair(*(f"{file.rule[0]}:{file.rule[1]}" if file.rule else "none" for file in files), "rule")
    for operation in access.OPERATIONS:
        if any(operation in access.operations_on(file) for file in files):
            yield from pair(*(rules.in_words(access.condition(card, file, operation)) for card, file in zip((one, other), files)), operation)
    yield from of_content(*files, usim, exactly)


def of_content(one, other, usim, exactly):
    entry = names.file(one.path, usim) or {}
    kind = entry.get("content") if entry.get("structure") == one.structure == other.structure else None
    if one.structure == "t" and other.structure == "t":
        if one.content != other.content:
            services = of_services(kind, one.content, other.content)
            yield from services or pair(*texts(kind, bytes(one.content), bytes(other.content)), "holds")
        return
    for number in range(1, max(one.count, other.count) + 1):
        records = [file.record(number) if number <= file.count else None for file in (one, other)]
        if not exactly and entry.get("name") == "EF.ARR" and None not in records and records[0].rstrip(b"\xFF") == records[1].rstrip(b"\xFF"):
            # the same rule, in a longer record
            continue
        if records[0] != records[1]:
            yield from pair(*texts(kind, *records), f"record {number}")


def of_services(kind, one, other):
    """The services that one table alone has on, with their names; none where the tables differ otherwise."""
    if kind not in contents.SERVICES:
        return []
    on, known = [contents.services_on(kind, bytes(content)) or set() for content in (one, other)], names.table("files")[kind]
    found = [(sign, sorted(own - others)) for sign, own, others in ((ONE, *on), (OTHER, *reversed(on)))]
    return [f"{sign}on: {', '.join(service_shown(number, known) for number in own)}" for sign, own in found if own]


def service_shown(number, known):
    return f"{number} ({known[number - 1]})" if number <= len(known) else str(number)


def texts(kind, *held):
    """What two contents say, or their bytes where they say the same: from where they differ, where they are long."""
    said = [content if content is None else tree.whole_meaning(kind, content) or "blank" for content in held]
    if said[0] == said[1]:
        return by_fields(kind, *held) or by_bytes(*held)
    if None in said:
        return said
    begin = len(os.path.commonprefix(said))
    begin = max(0, begin - BEFORE) if max(map(len, said)) > tree.LONGEST else 0
    return [".." * bool(begin) + tree.shortened(text[begin:]) for text in said]


def by_fields(kind, one, other):
    """The fields that differ in two contents, by the keys of a profile; nothing where these say the same, or don't say it."""
    try:
        values = [fields.KINDS[kind].value(content) for content in (one, other)]
    except (KeyError, IndexError, ValueError, TypeError):
        return None
    if values[0] == values[1]:
        return None
    if all(isinstance(value, dict) for value in values):
        values = [{key: value[key] for key in value if value[key] != beside.get(key)} for value, beside in (values, values[::-1])]
    return [contents.in_words(value) or "nothing" for value in values]


def by_bytes(one, other):
    """The bytes of two contents: of those of one length, from the first that differs to the last."""
    if len(one) != len(other):
        return [decode.hexed(one), decode.hexed(other)]
    places = [place for place, (mine, yours) in enumerate(zip(one, other)) if mine != yours]
    first, last = places[0], places[-1]
    where = f"byte {first + 1}" if first == last else f"bytes {first + 1} to {last + 1}"
    return [f"{where}: {tree.shortened(decode.hexed(content[first:last + 1]))}" for content in (one, other)]


def of_pin(one, other, name):
    yield from (Difference(name, lines) for lines in [tuple(pair(pin_words(one), pin_words(other)))] if lines)
    if one and other and (one.tries, one.unblock_tries) != (other.tries, other.unblock_tries):
        lines = pair(*(f"{pin.tries} tries left" + f", {pin.unblock_tries} of its UNBLOCK PIN" * (pin.key != layout.ADM) for pin in (one, other)))
        yield Difference(name, tuple(lines), True)


def pin_words(pin):
    """What a PIN holds; of ADM1 without what would unblock it, which nothing does."""
    if pin is None:
        return None
    unblocked = "" if pin.key == layout.ADM else f", UNBLOCK PIN {decode.pin_value(pin.unblock)}"
    return f"{decode.pin_value(pin.value)}, {'enabled' if pin.enabled else 'disabled'}{unblocked}"


def row_words(row):
    if row is None:
        return None
    kind = kinds.of_program().does_on(row.shelf)
    text = f", menu entry `{row.text.decode('latin-1')}`" if row.text else ""
    events = " ".join(f"{code:02X}" for code in row.events) or "none"
    return f"{kind}, priority {row.priority}, events {events}{text}, keeps {decode.hexed(row.kept) or 'nothing'}"
