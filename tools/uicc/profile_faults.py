"""What is wrong with a profile before anything is made of it: keys that aren't known, and values that are of another form."""
from . import dump, fields, forms, layout, names
from .coding import BadContent
from .profile_names import OPERATIONS, PIN_KEYS, BadProfile, Fault, path_of, shown_name

# what a table of a file may have beside its content: what it has to be, and how that is written
OF_FILE = {
    "size": (forms.Bounded(1, 32_767), "17"),
    "length": (forms.Bounded(1, 255), "28"),
    "count": (forms.Bounded(1, 254), "10"),
    "cyclic": (forms.TRUTH, "true"),
    "short": (forms.Bounded(0, 30), "7"),
    "rule": (forms.TEXT, '"2F06:1"'),
    "folder": (forms.TRUTH, "true"),
    **{operation: (forms.TEXT, '"pin1 or adm"') for operation in OPERATIONS},
}
SHAPE = "`size` makes a file transparent, `length` and `count` one with records, and `cyclic = true` a cyclic one"
BY_ADM = "{} asks for the administrator's PIN, and no rule of a file says otherwise"
LEFT_OUT = '`without = ["EF_NETPAR"]` at the top of a profile leaves files of the template out'
# what is meant by other words for those
SLIPS = {
    **dict.fromkeys(("absent", "remove", "removed", "exclude"), LEFT_OUT),
    "write": "it is called `update`", "search": "who may read may search too: `read`", "invalidate": "it is called `deactivate`",
    "rehabilitate": "it is called `activate`", "delete": BY_ADM.format("DELETE FILE"), "create": BY_ADM.format("CREATE FILE"),
    "resize": BY_ADM.format("RESIZE FILE"), "sfi": "it is called `short`", "structure": SHAPE, "type": SHAPE, "record_length": "it is called `length`",
    "record_count": "it is called `count`", "content": "it is called `hex`, or `records`", "data": "it is called `hex`, or `records`",
}
PIN = forms.TableOf({"value": forms.TEXT, "unblock": forms.TEXT, "on": forms.TRUTH},
                    slips={"puk": "it is called `unblock`", "pin": "it is called `value`", "off": "`on = false` is"})
UNBLOCK = 'the UNBLOCK PIN (PUK) stands with its PIN: pin1 = { value = "1234", unblock = "12345678" }'
# PINs that other cards have, beside those that a card here has
BEYOND = {f"{word}{number}": f"a card here has the PINs {', '.join(PIN_KEYS)} alone" for word in ("pin", "chv", "adm") for number in range(2, 9)}
PINS = forms.TableOf(dict.fromkeys(PIN_KEYS, PIN), slips={
    **BEYOND, "adm1": "it is called `adm`", "puk": UNBLOCK, "puk1": UNBLOCK, "puk2": UNBLOCK, "pin": "it is called `pin1`",
    "chv1": "it is called `pin1`", "chv2": "it is called `pin2`"})
DEFAULT = forms.TableOf(dict.fromkeys(OPERATIONS, forms.TEXT))
APPLET = forms.TableOf({"kind": forms.TEXT, "shelf": forms.Bounded(0, layout.SHELVES - 1), "priority": forms.Bounded(1, 255),
                        "events": forms.TEXTS, "menu": forms.TEXT, "keeps": forms.TEXT, "keeps_text": forms.TEXT,
                        "on": forms.Form("a table", dict)})
# the keys at the top of a profile that name no file, and how they are written
AT_TOP = {
    "like": (forms.TEXT, 'like = "usim"'),
    "without": (forms.TEXTS, 'without = ["EF_NETPAR"]'),
    "pins": (PINS, '[pins] and below it pin1 = { value = "1234", unblock = "12345678" }'),
    "default": (DEFAULT, '[default] and below it read = "always"'),
    "applet": (forms.ListOf(APPLET, "tables"), '[[applet]] and below it kind = "greeter"'),
}
# what stands before the dot of a file's name
NAMES_BEFORE_A_DOT = ("EF", "DF", "ADF")
# how the keys in those tables are written
EXAMPLES = {
    **{key: '{ value = "1234", unblock = "12345678" }' for key in PIN_KEYS}, "adm": '{ value = "88888888" }',
    **{operation: '"pin1 or adm"' for operation in OPERATIONS},
    "kind": '"greeter"', "shelf": "6", "priority": "1", "events": '["location"]', "menu": '"Tools"', "keeps": '"0102"',
    "keeps_text": '"Hello"', "on": '{ location = ["show A"] }',
}


# what is wrong with a profile before anything is made of it

def faults_at_top(profile):
    for name, value in profile.items():
        if name in AT_TOP:
            form, example = AT_TOP[name]
            yield from faults_of_table(name, value, form, example)
        elif not isinstance(value, dict):
            yield Fault((name,), dump.printable(about_top(name, value)))


def about_top(name, value):
    """What is said of a key at the top that is no table."""
    meant = forms.near(name, list(AT_TOP))
    if meant:
        return f"`{name}` isn't known at the top of a profile: `{meant}` is"
    if name.upper().startswith(("EF", "DF")) or dump.is_identifier(name):
        return f"`{name}` is {forms.called(value)}, and has to be a table: {shown_name(name)} and below it what the file holds"
    return f"`{name}` isn't known at the top of a profile: `like`, `without`, [pins], [default], [[applet]] and tables of files are"


def faults_of_table(name, value, form, example):
    """What is wrong with a table at the top, or with each of a list of them, a fault for each key."""
    if isinstance(form, forms.ListOf) and isinstance(value, list):
        for place, each in enumerate(value):
            yield from (Fault((name, place, *keys), reason) for keys, reason in faults_of_part(f"[[{name}]]", each, form.one, example))
    else:
        yield from (Fault((name, *keys), reason) for keys, reason in faults_of_part(f"[{name}]", value, form, example))


def faults_of_part(head, value, form, example):
    if not isinstance(form, forms.TableOf) or not isinstance(value, dict):
        for wrong in form.faults(value):
            yield (), dump.printable(f"{forms.about(head.strip('[]'), wrong)}: {example}")
        return
    for key, each in value.items():
        for within, wrong in faults_of_key(form, key, each):
            yield (key, *within), dump.printable(forms.about(f"{head} {key}", wrong) + (f": {key} = {EXAMPLES[key]}" if key in EXAMPLES else ""))


def faults_of_key(form, key, value):
    """What is wrong with a key of a table, and of a table in it with each of its keys, which leads to what is wrong."""
    inner = form.keys.get(key)
    if not isinstance(inner, forms.TableOf) or not isinstance(value, dict):
        yield from (((), wrong) for wrong in form.faults_of_key(key, value))
        return
    for part, each in value.items():
        yield from (((part,), f": {forms.about(f'`{part}`', wrong)}") for wrong in inner.faults_of_key(part, each))


def faults_of_file(name, given, usim):
    """What is wrong with the table of a file."""
    if name.upper() in NAMES_BEFORE_A_DOT and any(isinstance(each, dict) for each in given.values()):
        yield from (Fault((name, key), dump.printable(about_dot(name, key))) for key in given)
        return
    try:
        path = path_of(name)
    except BadProfile as bad:
        yield Fault((name,), str(bad))
        return
    entry = names.file(path, usim)
    yield from (Fault((name, *keys), f"{shown_name(name)} {reason}") for keys, reason in faults_of_keys(path, given, entry))


def about_dot(name, key):
    """What is said of a file's name with a dot that stands in no quotes: TOML has a table in another one there."""
    return f"[{name}.{key}]: a dot without quotes makes a table within another one: it is written [{name}_{key}], or [\"{name}.{key}\"]"


def faults_of_keys(path, given, entry):
    folder = is_folder(path, entry)
    if folder and given != {"folder": True}:
        yield (), (f"is a DF{f' ({entry_name})' if (entry_name := entry and entry['name']) else ''}: its files have tables of their own, "
                   f"as [\"{'/'.join(path)}/EF_IMSI\"]; `folder = true` alone makes an empty one")
        return
    if "folder" in given and given != {"folder": True}:
        yield ("folder",), "says `folder`, and the table of a DF has nothing else"
    told = [key for key in given if key in fields.KEYS]
    for key, value in given.items():
        if key in OF_FILE:
            form, example = OF_FILE[key]
            example = standard_example(key, entry) or example
            found = form.faults(value)
        elif key in fields.KEYS:
            found, example = faults_of_content(key, value, entry)
        else:
            found, example = [about_key(key, value, entry)], None
        for wrong in found:
            yield (key,), dump.printable(forms.about(key, wrong) + (f": {key} = {example}" if example else ""))
    if len(told) > 1:
        yield (told[1],), f"says what it holds by {' and '.join(told)}, and one of them does"
    words = [key for key in OPERATIONS if key in given]
    if "rule" in given and words:
        yield ("rule",), f"says who may do what by `rule` and by {', '.join(words)}, and one of them does"


def standard_example(key, entry):
    """What the standard has for a key of a file's shape, as text; None where it has nothing."""
    fits = entry and (key == "short" or key == "size" and entry.get("structure") == "t" or key == "length" and entry.get("structure") in ("l", "c"))
    found = entry.get("short" if key == "short" else "length") if fits else None
    return str(found) if found else None


def is_folder(path, entry):
    return entry["name"].startswith(("DF.", "MF")) if entry else path[-1][:2] in ("3F", "5F", "7F")


def faults_of_content(key, value, entry):
    """What is wrong with what a file holds, and an example of what it may hold."""
    try:
        kind = fields.kind_for(key, entry)
    except BadContent as fault:
        return [str(fault)], None
    return kind.form.faults(value), kind.example


def about_key(key, value, entry):
    if isinstance(value, dict):
        return "is a table in it: a file in a DF is called [\"7F20/EF_IMSI\"], in quotes and with a slash"
    if key.lower() in SLIPS:
        return f"isn't known: {SLIPS[key.lower()]}"
    meant = forms.near(key, list(OF_FILE))
    return f"isn't known: `{meant}` is" if meant else fields.about_unknown(key, entry)
