"""Who may do what with the files of a card, as a table: a row a file, a column an operation."""
import csv
import io

from . import access, names, rules
from .follow import is_usim_card

HEAD = ("file", *access.OPERATIONS)


def rows(card):
    """Each EF by its name, with a cell for each operation: the condition in words, empty where the operation isn't of such a file."""
    usim = is_usim_card(card)
    for file in card.files.values():
        if not file.is_df:
            yield names.shown(file.path, usim), [cell(card, file, operation) for operation in access.OPERATIONS]


def cell(card, file, operation):
    if operation not in access.operations_on(file):
        return ""
    tree = access.condition(card, file, operation)
    left = access.effective(card, tree)
    words, why = rules.in_words(left), about(card, tree)
    if left == tree:
        return words
    return f"{words} (not {rules.in_words(tree)}: {why})" if why else f"{words} (its rule says {rules.in_words(tree)})"


def about(card, tree):
    """Which PINs are why less is left of a condition than its rule says; nothing where none is."""
    absent = [key for key in access.keys_of(tree) if key not in card.pins]
    off = [key for key in access.keys_of(tree) if key in card.pins and not card.pins[key].enabled]
    parts = [f"{names.key(key)} is off" for key in sorted(off)] + [f"{names.key(key)} isn't there" for key in sorted(absent)]
    return ", ".join(parts)


def outcomes(card, wanted):
    """For each operation the names of the files with which everybody may do it, or nobody."""
    usim = is_usim_card(card)
    for operation in access.OPERATIONS:
        found = [names.shown(file.path, usim) for file in card.files.values() if not file.is_df and operation in access.operations_on(file)
                 and access.effective(card, access.condition(card, file, operation)) == wanted]
        if found:
            yield operation, found


def lines(card):
    """The table, what is open to everybody, and what to nobody."""
    table = [HEAD, *((name, *cells) for name, cells in rows(card))]
    widths = [max(len(row[column]) for row in table) for column in range(len(HEAD))]
    for row in table:
        yield "  ".join(text.ljust(width) for text, width in zip(row, widths)).rstrip()
    for wanted, title in ((access.EVERYBODY, "open to everybody"), (access.NOBODY, "open to nobody")):
        yield ""
        yield title
        found = list(outcomes(card, wanted))
        for operation, files in found:
            yield f"  {operation:<10}  {', '.join(files)}"
        if not found:
            yield "  nothing"
    yield ""
    yield "SELECT and STATUS ask for no rule; CREATE FILE, DELETE FILE, RESIZE FILE, INSTALL and DELETE ask for ADM1"


def as_csv(card):
    """The table alone, as CSV."""
    text = io.StringIO()
    writer = csv.writer(text, lineterminator="\n")
    writer.writerow(HEAD)
    writer.writerows((name, *cells) for name, cells in rows(card))
    return text.getvalue()
