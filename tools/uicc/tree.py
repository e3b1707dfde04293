"""A card as a tree of its files with what they hold, its PINs and its applets."""
import textwrap

from . import contents, decode, kinds, layout, names
from .follow import is_usim_card

STRUCTURES = {"t": "transparent", "l": "linear fixed", "c": "cyclic"}
LONGEST = 100


def shape(file):
    if file.structure == "t":
        return plural(file.size, "byte")
    return f"{plural(file.count, 'record' if file.structure == 'l' else 'cyclic record')} of {file.length}"


def plural(count, what):
    return f"{count} {what}{'s' * (count != 1)}"


def facts(card, file):
    """The shape of a file, its short identifier, and who may do what with it."""
    found = [shape(file)]
    if file.short:
        found.append(f"SFI {file.short}")
    if file.rule:
        found.append(f"rule {file.rule[0]}:{file.rule[1]}")
        if card.about_rule(file):
            found[-1] += " (allows nothing)"
    if not file.active:
        found.append("deactivated")
    return ", ".join(found)


def shortened(text):
    return text if len(text) <= LONGEST else text[:LONGEST - 2] + ".."


def held(file, usim):
    """What a file holds: the number of each record that isn't blank, the kind of its content, and its bytes; of a transparent file the number
    is None."""
    entry = names.file(file.path, usim)
    kind = entry.get("content") if entry and entry.get("structure", file.structure) == file.structure else None
    found = [(None, bytes(file.content))] if file.structure == "t" else enumerate(map(bytes, file.records()), 1)
    return [(number, kind, content) for number, content in found if not contents.is_blank(content)]


def meanings(file, usim):
    """What a file holds, a line for each record that isn't blank, as far as there is room in it."""
    return [numbered(number, shortened(whole_meaning(kind, content))) for number, kind, content in held(file, usim)]


def numbered(number, text):
    return text if number is None else f"{number}: {text}"


def told(number, kind, content, whole):
    """The same in as many lines as it takes; of bytes that aren't decoded, unless `whole`, no more than one."""
    words = in_words(kind, content)
    text = words or in_bytes(content)
    return wrapped(numbered(number, text if words or whole else shortened(text)))


def wrapped(text):
    return textwrap.wrap(text, LONGEST, subsequent_indent="  ", break_on_hyphens=False)


def whole_meaning(kind, content):
    """The decoded content, or its bytes; None where it is blank."""
    return None if contents.is_blank(content) else in_words(kind, content) or in_bytes(content)


def in_words(kind, content):
    """The decoded content; None where its kind isn't known."""
    try:
        return contents.decode(kind, content) if kind else None
    except contents.BadContent as fault:
        return f"not right ({fault}): {decode.hexed(content)}"


def in_bytes(content):
    return decode.hexed(content.rstrip(b"\xFF")) + " .." * content.endswith(b"\xFF")


def lines(card, with_contents=True, whole=False):
    """The tree, line by line. What is decoded goes on in a next line where it is long; bytes that aren't end with `..` there, unless they are
    shown whole."""
    usim = is_usim_card(card)
    yield "MF 3F00"
    yield from below(card, (), "", usim, with_contents, whole)
    for pin in sorted(card.pins.values(), key=lambda pin: (0x01, 0x81, 0x0A).index(pin.key)):
        state = "enabled" if pin.enabled else "disabled"
        unblocked = ("can't be unblocked" if pin.key == layout.ADM else
                     f"UNBLOCK PIN {decode.pin_value(pin.unblock)}, {pin.unblock_tries} tries left")
        yield f"{names.key(pin.key)}: {decode.pin_value(pin.value)}, {state}, {pin.tries} tries left, {unblocked}"
    for row in sorted(card.rows.values(), key=lambda row: row.shelf):
        known = kinds.of_program()
        yield f"applet on shelf {row.shelf}: {known.does_on(row.shelf)}, priority {row.priority}"
        for line in decode.applet_lines(row.events, row.text, row.kept, table=known.is_table(row.shelf)):
            yield f"    {'  ' * line.depth}{line.label}: {line.text}"


def below(card, path, margin, usim, with_contents, whole):
    children = card.children(path)
    for place, file in enumerate(children):
        last = place == len(children) - 1
        branch, rest = ("└─ ", "   ") if last else ("├─ ", "│  ")
        entry = names.file(file.path, usim)
        name = f"{file.path[-1]} {entry['name'] if entry else ''}".rstrip() + " (the files of ADF.USIM here)" * (usim and file.path == ("7F20",))
        if file.is_df:
            yield f"{margin}{branch}{name}"
            yield from below(card, file.path, margin + rest, usim, with_contents, whole)
        else:
            yield f"{margin}{branch}{name:<18} {facts(card, file)}"
            if with_contents:
                for one in held(file, usim):
                    for text in told(*one, whole):
                        yield f"{margin}{rest}     {text}"
