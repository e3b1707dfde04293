"""Many cards of one profile: a row of a list for each, with its numbers and PINs."""
import codecs
import collections
import contextlib
import csv
import io
import itertools
import os
import re
import subprocess
import typing

from . import checking, contents, fields, follow, forms, lint, names, process, profile
from .coding import BadContent, is_blank

# a column of the list, and the keys of a profile that it says; any other is called FILE:KEY
COLUMNS = {
    "iccid": ("EF_ICCID", "iccid"), "imsi": ("EF_IMSI", "imsi"), "spn": ("EF_SPN", "name"),
    "pin1": ("pins", "pin1", "value"), "unblock1": ("pins", "pin1", "unblock"), "pin2": ("pins", "pin2", "value"),
    "unblock2": ("pins", "pin2", "unblock"), "adm": ("pins", "adm", "value"), "acc": ("EF_ACC", "acc"), "msisdn": ("EF_MSISDN", "number"),
}
# those that say a part of what a file holds, beside which the rest of it stays
OF_PARTS = ("spn", "msisdn")
# what lists of operators call some of them
ALSO = {"puk1": "unblock1", "puk2": "unblock2"}
# names of columns that others use
SLIPS = {"puk": "unblock1", "unblock": "unblock1", "pin": "pin1", "adm1": "adm", "number": "msisdn", "chv1": "pin1", "chv2": "pin2"}
# columns that say what no card here has
NO_KEY = "a card here has no AUTHENTICATE, so that it has no key for it"
ABSENT = {**dict.fromkeys(("ki", "k", "op", "opc", "ki_enc", "eki"), NO_KEY),
          **{f"adm{number}": "a card here has the PINs pin1, pin2 and adm alone" for number in range(2, 10)}}
# what two cards may not have alike, and what they should not
ALIKE, HARDLY_ALIKE = ("iccid", "imsi"), ("unblock1", "unblock2", "adm")
# columns of numbers so long that a spreadsheet may round them, and how it writes them then
OF_NUMBERS, ROUNDED = ("iccid", "imsi", "msisdn", "adm"), re.compile(r"\d+(?:[.,]\d+)?[Ee]\+\d+")
REPORT = "report.csv"
# the ending of a file that isn't whole yet
NEW = ".new"
# how many files are named that would be lost
MOST_NAMED = 10


class BadList(Exception):
    """What is wrong with a list: a line for each thing."""


class Rows(list):
    """The rows of a list, each with its line, and a value for each column that isn't empty; `faults` are those lines that are no row."""

    def __init__(self, rows, faults):
        super().__init__(rows)
        self.faults = faults


class Doubt(typing.NamedTuple):
    """What is doubtful in a batch, and the lines of the cards that it is of."""
    lines: tuple
    text: str


class Card:
    """A row of the list, and the card that it becomes."""

    def __init__(self, line, values, made):
        self.line, self.values, self.made = line, values, made
        card = lint.read(made.text).card
        self.usim = follow.is_usim_card(card)
        self.found = list(checking.found(card, "usim" if self.usim else "sim"))
        self.sizes = {path: file.size for path, file in card.files.items() if file.structure == "t"}
        self.files = len(card.files) - 1
        # what it has in the end, whether its row says it or the profile
        self.own = own_of(card)

    @property
    def name(self):
        return self.values["iccid"]

    def warnings(self, doubts):
        """What is doubtful in the card: what `check` tells of it, or else `build`, and what it shouldn't have like others."""
        return ([finding.text for finding in self.found] or self.made.warnings) + [text for lines, text in doubts if self.line in lines]


def own_of(card):
    """What should be a card's alone, by the columns that say it; where it has none, nothing."""
    found, file = {}, card.files.get(("7F20", "6F07"))
    with contextlib.suppress(BadContent):
        if file and not file.is_df and not is_blank(file.content):
            found["imsi"] = contents.decode_imsi(bytes(file.content))
    for column, key, part in (("unblock1", 0x01, "unblock"), ("unblock2", 0x81, "unblock"), ("adm", 0x0A, "value")):
        if key in card.pins:
            found[column] = pin_text(getattr(card.pins[key], part))
    return found


def pin_text(value):
    """The digits of a PIN, or else its bytes."""
    digits = value.rstrip(b"\xFF")
    return digits.decode() if digits.isdigit() else value.hex().upper()


def rows_in(content, name, ignored=()):
    """The rows of a list's bytes, but for columns that are ignored. BadList, where its first line is wrong, or it has no row."""
    try:
        text = content.decode("utf-8-sig")
    except UnicodeDecodeError as fault:
        line = content.count(b"\n", 0, fault.start) + 1
        coding = "it is UTF-16" if content.startswith((codecs.BOM_UTF16_LE, codecs.BOM_UTF16_BE)) else "it isn't UTF-8"
        raise BadList(f"{name}, line {line}: {coding}: a spreadsheet saves a list that is read here as `CSV UTF-8`") from None
    head = text.partition("\n")[0]
    delimiter = max(",;\t", key=head.count)
    reader, found, faults = csv.reader(io.StringIO(text, newline=""), delimiter=delimiter), [], []
    try:
        columns = [column_of(word.strip()) for word in next(reader, [])]
        left_out = {column_of(word.strip()) for word in ignored}
        check_columns(columns, name, left_out)
        for cells in reader:
            if not any(cell.strip() for cell in cells):
                continue
            if len(cells) != len(columns):
                faults.append((reader.line_num, f"it has {len(cells)} cells, and the first line {len(columns)}"))
                continue
            found.append((reader.line_num, {column: cell.strip() for column, cell in zip(columns, cells) if cell.strip() and column not in left_out}))
    except csv.Error as fault:
        raise BadList(f"{name}, line {reader.line_num}: {fault}") from None
    if not found:
        raise BadList(fault_lines(faults, name) or f"{name} has no row of a card")
    return Rows(found, faults)


def fault_lines(faults, name):
    """Faults of lines of a list, in their order."""
    return "\n".join(f"{name}, line {line}: {text}" for line, text in sorted(faults))


def column_of(word):
    """A column by the first line of a list: that of a file keeps its letters."""
    return word if ":" in word else ALSO.get(word.lower(), word.lower())


def check_columns(columns, name, left_out):
    """BadList, with all that is wrong with the first line of a list, but for columns that are left out."""
    if any(column.lstrip("+").isdecimal() for column in columns):
        raise BadList(f"{name}, line 1: the first line names the columns, as `iccid,imsi,pin1`, and this one has the numbers of a card")
    faults = [f"no column `{column}` stands there, which --ignore names" for column in sorted(left_out - set(columns))]
    columns = [column for column in columns if column not in left_out]
    faults += [fault for column in dict.fromkeys(columns) if (fault := about_column(column))]
    faults += [f"the column `{column}` stands there twice" for column in dict.fromkeys(columns) if columns.count(column) > 1]
    if "iccid" not in columns:
        faults.append("the column `iccid` is missing, by which the cards are called")
    if faults:
        raise BadList("\n".join(f"{name}, line 1: {fault}" for fault in faults))


def about_column(column):
    """What is wrong with a column; None where nothing is."""
    if column.startswith(":") or column.endswith(":"):
        return f"the column `{column}`: a column of a file is FILE:KEY, as EF_SMSP:centre"
    if ":" in column:
        try:
            field_of(*column.split(":", 1))
        except (BadContent, profile.BadProfile) as fault:
            return f"the column `{column}`: {fault}"
        return None
    if column in ABSENT:
        return f"{ABSENT[column]}: the column `{column}` has no place; `--ignore {column}` passes it over"
    if column in COLUMNS:
        return None
    plain = column.replace(" ", "").replace("_", "")
    meant = SLIPS.get(plain) or ALSO.get(plain) or forms.near(plain, list(COLUMNS))
    return f"no column is called `{column}`, " + (f"but `{meant}` is" if meant else f"but {', '.join(COLUMNS)} are, and FILE:KEY, as EF_SMSP:centre")


# a column of a file: the kind of what the file holds, and the form of what a cell says: of a whole content (`within` is empty), or of what
# these keys lead to in its table, in a list always that of the first entry; `key` is that of the table of the file
Field = collections.namedtuple("Field", "kind within form key")


def field_of(file, key):
    """What a column FILE:KEY says, or FILE:KEY.KEY. BadContent, where it says nothing."""
    path = profile.path_of(file)
    entry = names.file(path, True) or names.file(path, False)
    if key in fields.KEYS:
        kind = fields.kind_for(key, entry)
        return Field(kind, (), kind.form, key)
    if key in profile.OF_FILE:
        return Field(None, (), profile.OF_FILE[key][0], key)
    if key in profile.CHANGES_OF_SERVICES:
        profile.numbers_of(key, [], (entry or {}).get("content"))
        return Field(None, (), fields.SERVICES, key)
    kind = fields.KINDS.get((entry or {}).get("content"))
    within = within_of(kind.form) if kind else {}
    if key not in within:
        known = [*within, *([kind.key] if kind else ()), fields.HEX]
        raise BadContent(f"`{key}` isn't known: {', '.join(known)} {'is' if len(known) == 1 else 'are'}")
    return Field(kind, tuple(key.split(".")), within[key], kind.key)


def within_of(form, above=""):
    """What the table of a form has, by its keys; what a table within it has, by both keys with a point between them."""
    found, table = {}, forms.table_in(form)
    for key, one in (table.keys if table else {}).items():
        found |= {above + key: one, **within_of(one, f"{above}{key}.")}
    return found


def wrong_numbers(values):
    """What is wrong with the numbers of a row, by their columns."""
    found = {}
    if "iccid" not in values:
        found["iccid"] = "it has no iccid"
    else:
        try:
            contents.encode_iccid(values["iccid"])
        except BadContent as fault:
            found["iccid"] = f"iccid `{values['iccid']}`: {fault}"
    found |= {column: f"{column} `{values[column]}`: a spreadsheet has rounded it, and its cells have to be of text"
              for column in OF_NUMBERS if ROUNDED.fullmatch(values.get(column, ""))}
    if "acc" in values and not all(word.isdecimal() and word.isascii() and int(word) <= 15 for word in values["acc"].split()):
        found["acc"] = f"acc `{values['acc']}`: it is a class from 0 to 15, or several with spaces between them"
    return found


def alike(rows, column):
    """For each row that has the same in a column as an earlier one its line, and that it has."""
    first = {}
    for line, values in rows:
        value = values.get(column)
        if value is not None and first.setdefault(value, line) != line:
            yield line, f"its {column} {value} is that of line {first[value]}"


def doubts_of_alike(made, rows, name):
    """What cards have alike that each should have for itself."""
    for column in HARDLY_ALIKE:
        yield from (Doubt((line,), text) for line, text in alike(rows, column))
        yield from alike_by_profile(made, column, name)


def doubts_told(made, alike_ones, list_name):
    """What is doubtful in cards, a line each: what some have alike, and what is so of one alone."""
    by_text = {}
    for card in made:
        # what a run of the card has too is among the profile's warnings
        for text in (*card.made.warnings, *(finding.text for finding in card.found if not finding.is_of_rules)):
            by_text.setdefault(text, []).append(card.line)
    return [f"{list_name}, {lines_of(lines)}: {text}" for lines, text in [*alike_ones, *((lines, text) for text, lines in by_text.items())]]


def notes(made):
    """A line for each file that isn't of the same size on all cards."""
    sizes = {}
    for card in made:
        for path, size in card.sizes.items():
            sizes.setdefault(path, set()).add(size)
    for path, found in sizes.items():
        if len(found) > 1:
            shown = ", ".join(map(str, sorted(found)))
            yield f"{names.shown(path, made[0].usim)} has {shown} bytes by what each card holds: `size` in the profile gives all the same"


def lines_of(lines):
    lines = [str(line) for line in lines]
    more = f" and {len(lines) - MOST_NAMED} more" if len(lines) > MOST_NAMED else ""
    return f"line{'s' * (len(lines) > 1)} {', '.join(lines[:MOST_NAMED])}{more}"


def alike_by_profile(made, column, name):
    """What several cards have alike since the profile, called so, says it and not each row."""
    groups = {}
    for card in made:
        if column in card.own:
            groups.setdefault(card.own[column], []).append(card)
    for value, alike_ones in groups.items():
        if len(alike_ones) > 1 and any(column not in card.values for card in alike_ones):
            yield Doubt(tuple(card.line for card in alike_ones), f"their cards have the same {column}, {value}, which {name} or its template says: "
                        f"a column `{column}` gives each its own")


def keys_of(values, base):
    """The profile that a row says, to be laid over another one."""
    found = {}
    for column, value in values.items():
        if ":" in column or column in OF_PARTS:
            file, key = column.split(":", 1) if ":" in column else COLUMNS[column]
            lay_field(found, base, file, field_of(file, key), value)
            continue
        *above, last = COLUMNS[column]
        table = found
        for key in above:
            table = table.setdefault(key, {})
        table[last] = [int(word) for word in value.split()] if column == "acc" else value
    return found


def lay_field(found, base, file, field, cell):
    """Lays what a cell says of a file into the profile that its row says. Beside a field what the profile has of the file stays: the other
    fields, and the other entries."""
    table, value, key = found.setdefault(file, {}), value_of(field.form, cell), field.key
    if field.within and key not in table:
        table[key] = said_before(base.get(profile.same_file(base, file), {}), field.kind, file)
    table[key] = with_field(field.kind and field.kind.form, table.get(key), field.within, value)


def value_of(form, cell):
    """What a cell says. A list is written as in TOML; a cell without its brackets is a list of one entry."""
    if not isinstance(form, forms.ListOf) or cell.startswith("["):
        return forms.of_text(form, cell)
    is_number = int in form.one.classes and cell.isascii() and cell.isdecimal()
    return [int(cell) if is_number else forms.of_text(form.one, cell)]


def said_before(given, kind, file):
    """What the table of a file says by the key of its kind, also where it says it in bytes; None where it says nothing. BadContent, where
    no words say what the bytes do: beside a field nothing else of them would stay."""
    plain = next((key for key in given if key in fields.PLAIN), None)
    if plain is None:
        return given.get(kind.key)
    try:
        content = fields.PLAIN[plain].encoded(given[plain], None)
        if kind.of_records:
            return [same_value(kind, record) for record in (content if isinstance(content, list) else [content])]
        return same_value(kind, content)
    except (ValueError, KeyError, IndexError, TypeError):
        raise BadContent(f"[{file}] {plain}: no words say what these bytes do, and beside a part of it nothing else would stay: "
                         f"say it by `{kind.key}`") from None


def same_value(kind, content):
    """What bytes say, in words that say all of them: BadContent, where they say a part alone."""
    value = kind.value(content)
    again = kind.encoded([value] if kind.of_records else value, len(content))
    again = again[0] if kind.of_records else again
    if again.ljust(len(content), b"\xFF") != content:
        raise BadContent("these bytes hold more than words say of them")
    return value


def with_field(form, told, within, value):
    """What is told by a form, with another value where these keys lead to: of a list in its first entry. A table that is told by a text alone
    is told by its first key."""
    if not within:
        return value
    if isinstance(form, forms.ListOf):
        first, *others = told or [None]
        return [with_field(form.one, first, within, value), *others]
    keys, (key, *rest) = forms.table_in(form).keys, within
    table = told if isinstance(told, dict) else {} if told is None else {next(iter(keys)): told}
    return {**table, key: with_field(keys[key], table.get(key), rest, value)}


def cards(content, name, rows, list_name, step):
    """The card of each row, over the profile of these bytes. BadList, with all rows that no card can be made of."""
    base = profile.tables_in(content, name)
    found, faults = [], [*rows.faults, *(fault for column in ALIKE for fault in alike(rows, column))]
    for line, values in rows:
        wrong = wrong_numbers(values)
        faults += [(line, text) for text in wrong.values()]
        try:
            said = {column: value for column, value in values.items() if column not in wrong}
            lines, warnings = profile.made(profile.merged(base, keys_of(said, base)))
            found.append(Card(line, values, profile.Made(lines, [fault.reason for fault in warnings])))
        except profile.BadProfile as bad:
            faults += [(line, fault.reason) for fault in bad.faults]
        except BadContent as fault:
            faults.append((line, str(fault)))
        step()
    if faults:
        raise BadList(fault_lines(faults, list_name))
    same = [f"{list_name}, {lines_of(lines)}: {text}" for lines, text in alike_by_profile(found, "imsi", name)]
    if same:
        raise BadList("\n".join(same))
    return found


def write(made, folder, with_images, with_force, step, alike_ones=()):
    """A script for each card in a folder, and an image where they are wanted; then the report, whose path is answered. Cards that are
    there are written over with force alone, and a report that is there stays beside the new one. No script is written beside an image that
    would stay as it was."""
    os.makedirs(folder, exist_ok=True)
    endings = (".script", ".img") if with_images else (".script",)
    if not with_force:
        refuse_to_lose([os.path.join(folder, card.name + ending) for card in made for ending in endings])
    if not with_images:
        refuse_older_images([os.path.join(folder, card.name + ".img") for card in made])
    for card in made:
        path = os.path.join(folder, card.name)
        with whole_file(path + ".script") as made_first, open(made_first, "w", encoding=process.ENCODING, errors="replace", newline="\n") as out:
            out.write(card.made.text)
        if with_images:
            with whole_file(path + ".img") as made_first:
                make_image(card, made_first)
        step()
    report = next(path for path in report_paths(folder) if not os.path.exists(path))
    with open(report, "x", encoding="utf-8", newline="") as out:
        writer = csv.writer(out, lineterminator="\n")
        writer.writerow(["script", "line", "iccid", "imsi", "files", "warnings"])
        for card in made:
            writer.writerow([card.name + ".script", card.line, card.values["iccid"], card.own.get("imsi", ""), card.files,
                             "; ".join(card.warnings(alike_ones))])
    return report


def refuse_to_lose(paths):
    """BadList, where some of these files are there: it names them."""
    there = [path for path in paths if os.path.exists(path)]
    if there:
        raise BadList(f"nothing is written: {listed(there)} would be written over; --force does so")


def refuse_older_images(paths):
    """BadList, where some of these images are there: they would be of other cards than the new scripts beside them."""
    there = [path for path in paths if os.path.exists(path)]
    if there:
        raise BadList(f"nothing is written: {listed(there)} would stay as the image of an earlier card; --images with --force writes it anew")


def listed(paths):
    more = f" and {len(paths) - MOST_NAMED} more" if len(paths) > MOST_NAMED else ""
    return ", ".join(paths[:MOST_NAMED]) + more


def report_paths(folder):
    """Where a report may be: report.csv, report-2.csv .."""
    stem, ending = os.path.splitext(REPORT)
    return (os.path.join(folder, stem + (f"-{number}" if number > 1 else "") + ending) for number in itertools.count(1))


@contextlib.contextmanager
def whole_file(path):
    """A place beside a file, for what takes the file's place once all of it is there."""
    made_first = path + NEW
    try:
        yield made_first
        os.replace(made_first, path)
    finally:
        with contextlib.suppress(FileNotFoundError):
            os.remove(made_first)


def make_image(card, path):
    """The file that the memory of a card is in, as the program makes it."""
    done = subprocess.run([process.program(), "play", "--image", path], input=card.made.text, encoding=process.ENCODING, errors="replace",
                          stdout=subprocess.DEVNULL, stderr=subprocess.PIPE, check=False)
    if done.returncode:
        raise BadList(f"{path.removesuffix(NEW)} can't be made: uicc_run ended with {done.returncode} {done.stderr.strip()}".rstrip())
