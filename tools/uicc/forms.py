"""What values of TOML have to be: each form says of a value what is wrong with it, and nothing where it is in order."""
import datetime
import difflib
import tomllib


def called(value):
    """What a value of TOML is."""
    if isinstance(value, bool):
        return "true or false"
    if isinstance(value, int):
        return "a number"
    if isinstance(value, float):
        return "a number with a point"
    if isinstance(value, str):
        return "text"
    if isinstance(value, list):
        return "a list"
    if isinstance(value, dict):
        return "a table"
    return "a date or a time" if isinstance(value, (datetime.date, datetime.time)) else "nothing known"


def near(word, known):
    """Of which known word another one is a slip; None where it is of none."""
    found = difflib.get_close_matches(str(word).lower(), known, 1, 0.65)
    return found[0] if found else None


def table_in(form):
    """The table that a value is told by, or each entry of a list; None where it is told by none."""
    if isinstance(form, ListOf):
        return table_in(form.one)
    return form if isinstance(form, TableOf) else form.table if isinstance(form, OneOf) and isinstance(form.table, TableOf) else None


def of_text(form, text):
    """The value that a text says without the quotes of TOML: itself, where it may be a text and begins no table."""
    if str in form.classes and not (dict in form.classes and text.startswith("{")):
        return text
    try:
        return tomllib.loads(f"value = {text}")["value"]
    except (tomllib.TOMLDecodeError, RecursionError):
        return text


def about(subject, wrong):
    """What is said of a subject, where a form finds something wrong: of itself, or of a part of it."""
    return subject + ("" if wrong.startswith(":") else " ") + wrong


class Form:
    """A value that is of one of some classes of Python; true and false are no numbers here."""

    def __init__(self, name, *classes):
        self.name, self.classes = name, classes

    def is_of(self, value):
        return isinstance(value, self.classes) and (bool in self.classes or not isinstance(value, bool))

    def wrong(self, value):
        """The first thing that is wrong with a value; None where nothing is."""
        return next(self.faults(value), None)

    def faults(self, value):
        """All that is wrong with a value."""
        if self.is_of(value):
            yield from self.faults_within(value)
        else:
            yield f"is {called(value)}, and has to be {self.name}"

    def faults_within(self, _value):
        """All that is wrong with a value of these classes."""
        return iter(())


class Bounded(Form):
    """A whole number between two others."""

    def __init__(self, least, most):
        super().__init__(f"a number from {least} to {most}", int)
        self.least, self.most = least, most

    def faults_within(self, value):
        if not self.least <= value <= self.most:
            yield f"is {value}, and has to be {self.name}"


class ListOf(Form):
    def __init__(self, one, name):
        super().__init__(f"a list of {name}", list)
        self.one = one

    def faults_within(self, value):
        for place, each in enumerate(value, 1):
            yield from (f": {about(f'entry {place}', wrong)}" for wrong in self.one.faults(each))


class TableOf(Form):
    """A table with these keys alone. `slips` says of other words what is meant with them."""

    def __init__(self, keys, needed=(), slips=None):
        super().__init__(f"a table of {', '.join(keys)}", dict)
        self.keys, self.needed, self.slips = keys, needed, slips or {}

    def faults_within(self, value):
        for key, each in value.items():
            yield from (f": {about(f'`{key}`', wrong)}" for wrong in self.faults_of_key(key, each))
        yield from (f"has no `{key}`" for key in self.needed if key not in value)

    def faults_of_key(self, key, value):
        """All that is wrong with a key and its value."""
        why = self.wrong_key(key)
        return iter((why,)) if why else self.keys[key].faults(value)

    def wrong_key(self, key):
        """Why a key has no place in the table; None where it has one."""
        if key in self.keys:
            return None
        if key in self.slips:
            return f"isn't known: {self.slips[key]}"
        meant = near(key, list(self.keys))
        return f"isn't known: `{meant}` is" if meant else f"isn't known: {', '.join(self.keys)} are"


class OneOf(Form):
    """A value that is of one of two forms; of a table the second one says what is wrong."""

    def __init__(self, simple, table):
        super().__init__(f"{simple.name}, or {table.name}", *simple.classes, *table.classes)
        self.simple, self.table = simple, table

    def faults_within(self, value):
        return (self.table if isinstance(value, dict) else self.simple).faults(value)


TEXT = Form("text in quotes", str)
NUMBER = Form("a number", int)
TRUTH = Form("true or false", bool)
NUMBER_OR_TEXT = Form("a number, or text in quotes", int, str)
TEXTS = ListOf(TEXT, "texts")
