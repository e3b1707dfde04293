"""The lines of a script before its `start` that describe a card as it is held."""
from . import building, grammar

BLANK = b"\xFF"


def lines(card):
    """Lines that describe a card. What none says isn't in them: tries that were taken, and files that are deactivated."""
    found = [f"pin {pin.key:02X} {pin.value.hex().upper()} {'on' if pin.enabled else 'off'} {pin.unblock.hex().upper()}" for pin in card.pins.values()]
    for file in card.files.values():
        if file.path:
            found += of_file(file)
    return found + [of_row(row) for row in sorted(card.rows.values(), key=lambda row: row.sequence)]


def of_file(file):
    name = "".join(file.path)
    if file.is_df:
        return [f"df {name}"]
    content = bytes(file.content)
    head = building.ef_line(grammar.Ef(file.path, file.structure, file.length, file.count, file.short, file.rule), file.rule)
    if file.structure == "t":
        parts = [(at, content[at:at + grammar.MOST_OCTETS]) for at in range(0, len(content), grammar.MOST_OCTETS)]
        return [head, *(f"fill {name} {at} {part.hex().upper()}" for at, part in parts if part.strip(BLANK))]
    return [head, *(f"rec {name} {number} {record.hex().upper()}" for number, record in enumerate(file.records(), 1) if record.strip(BLANK))]


def of_row(row):
    parts = (bytes(row.events), row.text)
    content = b"".join(bytes((len(part),)) + part for part in parts) + row.kept
    return f"row {row.shelf} {row.priority} {content.hex().upper()}"
