"""Writes the profile of a card: the other way round than `profile`. Files, PINs, rules and applets are said in words where these become the
same bytes, and in hexadecimal digits elsewhere."""
import tomllib

from . import comparing, dump, fields, layout, lint, located, names, profile, profile_names, rules

NO_SHORT = 0
BLANK = "FF"
PIN_NAMES = {key: name for name, key in profile.PIN_KEYS.items()}


NO_RULE = 'rule = "none"'


class Writer:
    """Writes the profile of a card. `default` are the words of a [default] that stands before it, which holds for all files. A file that
    names no rule has those of `words` for its path, or the `untold` lines, or where it is EF_ARR `untold_arr`. `comments` has a line for
    some paths. EF_ARR is written `with_arr` alone, and else left to the words."""

    def __init__(self, card, default=None, with_arr=True, words=None, untold=(), untold_arr=(NO_RULE,), comments=None):
        self.card, self.default, self.with_arr = card, default or {}, with_arr
        self.words, self.untold, self.untold_arr, self.comments = words or {}, untold, untold_arr, comments or {}
        self.usim = profile.is_usim(card.files)
        self.arrs = {file.path: trimmed(file.records()) for file in card.files.values()
                     if file.structure == "l" and (file.path == profile.ARR or profile.is_arr_in_folder(file.path))}

    def text(self):
        lines = []
        if self.card.pins:
            lines += ["[pins]", *map(pin_line, self.card.pins.values()), ""]
        # those in the MF first: their names have no folder
        for file in sorted(self.card.files.values(), key=lambda file: len(file.path) > 1):
            if file.path and (not file.is_df or not self.card.children(file.path)) and (self.with_arr or file.path != profile.ARR):
                lines += [*self._file(file), ""]
        for row in sorted(self.card.rows.values(), key=lambda row: getattr(row, "sequence", 0)):
            lines += [*applet_lines(row), ""]
        return "\n".join(lines)

    def _file(self, file):
        if file.path in self.comments:
            yield "# " + dump.printable(self.comments[file.path])
        yield f"[{table_name(file.path, self.usim)}]"
        if file.is_df:
            yield "folder = true"
        elif file.path == profile.ARR:
            yield from self._arr_lines(file)
        else:
            yield from file_lines(file, self.usim)
            yield from self._rule_lines(file)

    def _arr_lines(self, file):
        yield f"{fields.RECORDS} = {located.written([record.hex().upper() or BLANK for record in self.arrs[file.path]])}"
        # the records of words stand after those that are there
        added = [rule for rule in self._rules_of_words() if rule not in self.arrs[file.path]]
        yield f"length = {max([file.length, *map(len, added)])}"
        yield f"count = {max(file.count, len(self.arrs[file.path]) + len(added)) if added else file.count}"
        if (file.short or NO_SHORT) != 6:
            yield f"short = {file.short or NO_SHORT}"
        yield from self._rule_lines(file)

    def _rules_of_words(self):
        """The rules that words say for files which name none, each once."""
        lines = [self.untold, *([] if self.card.files[profile.ARR].rule else [self.untold_arr])]
        words = [*self.words.values(), *(tomllib.loads("\n".join(each)) for each in lines)]
        return dict.fromkeys(rules.written(each) for each in words if each and "rule" not in each)

    def _rule_lines(self, file):
        """Who may do what with a file: in words, where the builder finds the same record by them."""
        if not file.rule:
            words = self.words.get(file.path)
            yield from word_lines(words) if words else self.untold_arr if file.path == profile.ARR else self.untold
            return
        words = None if self.card.about_rule(file) else words_of(self.card.rule_file(file).record(file.rule[1]))
        told = words and self._told(file, words)
        if told is None:
            comment = f"  # {'; '.join(f'{key}: {who}' for key, who in words.items())}" if words else ""
            yield f'rule = "{file.rule[0]}:{file.rule[1]}"{comment}'
        else:
            yield from word_lines(told)

    def _told(self, file, words):
        """The words that a file's table has for its rule: what the default doesn't say; None where they become another record."""
        told = {operation: who for operation, who in words.items() if self.default.get(operation) != who}
        if file.path == profile.ARR and not told:
            told = words
        whole = {**self.default, **told}
        return told if rules.written(whole) == rules.written(words) and self._found(file, whole) == file.rule else None

    def _found(self, file, words):
        """The rule that words become in the profile."""
        content = rules.written(words)
        if not self.with_arr:
            return file.rule if file.rule[0] == profile.ARR[-1] else None
        near = profile.nearest_arr({path for path in self.arrs if len(path) > 1}, file.path)
        for path in (near, profile.ARR):
            if path in self.arrs and content in self.arrs[path]:
                return path[-1], self.arrs[path].index(content) + 1
        return None


def trimmed(records):
    """The bytes of records up to the last that isn't blank, each without the FF at its end."""
    found = [record.rstrip(b"\xFF") for record in records]
    while found and not found[-1]:
        found.pop()
    return found


def words_of(record):
    """A rule in the words of a profile; None where these don't become the same bytes."""
    try:
        found = {operation: who for named, who in rules.read(record) for operation in named}
        return found if rules.written(found) == record.rstrip(b"\xFF") else None
    except rules.NoRule:
        return None


def word_lines(words):
    return [f"{operation} = {located.written(who)}" for operation, who in words.items()]


def pin_line(pin):
    """The line of a PIN. Nothing unblocks ADM1: what it holds for that is told only where a profile without it would have other bytes."""
    value, unblock = digits_of(pin.value), digits_of(pin.unblock)
    said = [f"value = {located.written(value)}"]
    if pin.key != layout.ADM or unblock != profile_names.NO_PIN:
        said.append(f"unblock = {located.written(unblock)}")
    if not pin.enabled:
        said.append("on = false")
    return f"{PIN_NAMES[pin.key]} = {{ {', '.join(said)} }}"


def digits_of(content):
    """A PIN as digits where it has 4 to 8, else its bytes."""
    digits = content.rstrip(b"\xFF")
    return digits.decode() if 4 <= len(digits) <= 8 and digits.isdigit() else content.hex().upper()


# files

def table_name(path, usim):
    """The name of a file's table: with the standard name of the file where it has one that leads there."""
    words = [names.name_of(path, usim).replace(".", "_"), path[-1]]
    wholes = [name for word in words for name in ((word, "MF/" + word) if len(path) == 1 else ("/".join((*path[:-1], word)),))]
    whole = next(name for name in wholes if profile.path_or_none(name) == path)
    return located.written(whole) if "/" in whole else whole


def file_lines(file, usim):
    """What the table of a file says: what it holds, and its shape where the standard doesn't say it already."""
    entry = names.file(file.path, usim) or {}
    yield from content_lines(file, entry, usim)
    if file.structure == "t":
        if entry.get("structure") != "t" or entry.get("length") != file.length:
            yield f"size = {file.length}"
    else:
        yield f"length = {file.length}"
        yield f"count = {file.count}"
        if (file.structure == "c") != (entry.get("structure") == "c"):
            yield f"cyclic = {'true' if file.structure == 'c' else 'false'}"
    if (file.short or NO_SHORT) != entry.get("short", NO_SHORT):
        yield f"short = {file.short or NO_SHORT}"


def content_lines(file, entry, usim):
    """What a file holds: in words where these become the same bytes, and else in hexadecimal digits; nothing where it is blank."""
    records = trimmed(file.records())
    if not records:
        return
    words = words_for(file, entry, usim, len(records)) if entry.get("structure") == file.structure else None
    if words:
        yield words
    elif file.structure == "t":
        yield f'hex = "{records[0].hex().upper()}"'
    else:
        yield f"records = {located.written([record.hex().upper() or BLANK for record in records])}"


def words_for(file, entry, usim, told):
    """The line that says a file's content in words, that of so many records; None where none becomes the same bytes."""
    kind = fields.KINDS.get(entry.get("content"))
    if kind is None or kind.value is None:
        return None
    try:
        value = [kind.value(record) for record in file.records()[:told]] if kind.of_records else kind.value(bytes(file.content))
        if kind.form.wrong(value):
            return None
        shape = {"size": file.length} if file.structure == "t" else {"length": file.length, "count": file.count}
        _, content = profile.described(file.path, {kind.key: value} | shape, usim)
    except (KeyError, IndexError, ValueError):
        return None
    made = [content] if file.structure == "t" else content
    made = b"".join(record.ljust(file.length, b"\xFF") for record in made).ljust(file.size, b"\xFF")
    return f"{kind.key} = {located.written(value)}" if made == file.content else None


# applets

def applet_lines(row):
    words = {code: word for word, code in names.table("toolkit")["event_words"].items()}
    yield "[[applet]]"
    yield f"shelf = {row.shelf}"
    if row.priority != 1:
        yield f"priority = {row.priority}"
    yield f"events = {located.written([words[f'{code:02X}'] for code in row.events])}"
    if row.text:
        yield f"menu = {located.written(row.text.decode('utf-8', 'replace'))}"
    if row.kept:
        yield f'keeps = "{row.kept.hex().upper()}"'


def lost(card, text):
    """What of a card its profile doesn't say: a line for each thing that differs in the card that is built of it."""
    for file in card.files.values():
        if not file.active:
            yield f"{names.shown(file.path)} is deactivated, which no profile says"
    for pin in card.pins.values():
        if pin.tries != 3 or pin.unblock_tries != 10:
            yield f"{names.key(pin.key)} has {pin.tries} tries and {pin.unblock_tries} of its UNBLOCK PIN left, which no profile says"
    for difference in comparing.differences(card, card_of(text), exactly=True):
        if not difference.of_state:
            yield f"{difference.what}: {'; '.join(difference.lines)}"


def of_card(card):
    """The profile of a card. Where the words of its files become its EF_ARR, that isn't written."""
    default = common_words(card)
    head = "".join(line + "\n" for line in ["[default]", *word_lines(default), ""]) if default else ""
    for with_arr in (False, True):
        text = Writer(card, default, with_arr, untold=(NO_RULE,) if default else ()).text()
        text = text.replace("[pins]", head + "[pins]", 1) if card.pins else head + text
        if with_arr or not any(True for _ in comparing.differences(card, card_of(text), exactly=True)):
            return text
    return text


def common_words(card):
    """The words of the rule that most files name of those by which nobody but the administrator changes anything: they hold for files that
    are added later. Where no file names such a rule, those of the rule that most files name; none where no file has words."""
    found = [words for file in card.files.values() if file.rule and not card.about_rule(file)
             if (words := words_of(card.rule_file(file).record(file.rule[1])))]
    closed = [words for words in found if all(who in ("adm", "never") for operation, who in words.items() if operation != "read")]
    return max(closed or found, key=found.count) if len(found) > 1 else {}


def card_of(text):
    """The card that is made of a profile's text; an empty one where it can't be made."""
    try:
        return lint.read(profile.made_in(text.encode(), "profile").text).card
    except profile.BadProfile:
        return layout.Card()


