"""Makes the lines of a script of a profile."""
import contextlib

from . import access, coding, dump, fields, forms, grammar, kinds, layout, names, rules, structured, tree
from .coding import BadContent
from .profile_names import ARR, NO_PIN, OPERATIONS, PIN_KEYS, Fault, is_arr_in_folder, is_file_table, path_of, told_origin

MOST_EVENTS = len(layout.EVENTS)
LONGEST_COMMENT = 130
UNBLOCK_DIGITS = 8


# the shape and the content of a file

def described(path, given, usim):
    """The shape and the content of a file, as its table says them."""
    entry = names.file(path, usim) or {}
    key = next((key for key in given if key in fields.KEYS), None)
    kind = fields.kind_for(key, entry or None) if key else None
    has_records = kind.of_records if kind else "count" in given or "length" in given or "size" not in given and entry.get("structure") in ("l", "c")
    short = given.get("short", entry.get("short")) or None
    return (records_described if has_records else bytes_described)(path, given, entry, kind, short)


def bytes_described(path, given, entry, kind, short):
    for word in ("length", "count", "cyclic"):
        if word in given:
            raise BadContent(f"`{word}` is of files with records, and `{kind.key if kind else 'size'}` of those without")
    size = given.get("size", entry.get("length") if entry.get("structure") == "t" else None)
    content = kind.encoded(given[kind.key], size) if kind else b""
    size = size or max(len(content), entry.get("least", 0) if entry.get("structure") == "t" else 0)
    if not size:
        raise BadContent("its size is not said: `size = 17`")
    if len(content) > size:
        raise BadContent(f"its content has {len(content)} bytes, and its size is {size}")
    return grammar.Ef(path, "t", size, 1, short, None), content


def records_described(path, given, entry, kind, short):
    if "size" in given:
        raise BadContent("`size` is of files without records: these have `length` and `count`")
    length = given.get("length", entry.get("length") if entry.get("structure") in ("l", "c") else None) or (kind.usual if kind else None)
    content = kind.encoded(given[kind.key], length) if kind else []
    least = entry.get("least", 0) if entry.get("structure") in ("l", "c") else 0
    length = length or max([least, *map(len, content)])
    count = given.get("count", max(1, len(content)))
    if len(content) > count:
        raise BadContent(f"it has {len(content)} records, and room for {count}: `count = {len(content)}`")
    if not length:
        raise BadContent("the length of its records is not said: `length = 28`")
    longest = max(map(len, content), default=0)
    if longest > length:
        raise BadContent(f"a record of it has {longest} bytes, and their length is {length}")
    cyclic = given.get("cyclic", entry.get("structure") == "c")
    return grammar.Ef(path, "c" if cyclic else "l", length, count, short, None), content


def faults_of_entries(path, given, usim):
    """What is wrong with each entry of a list of what a file holds, where it has several."""
    key = next((key for key in given if key in fields.KEYS), None)
    if key is None or not isinstance(given[key], list) or len(given[key]) < 2:
        return
    for place, entry in enumerate(given[key], 1):
        try:
            described(path, given | {key: [entry]}, usim)
        except ValueError as fault:
            yield f"entry {place}: {fault}"


class Builder:
    """Makes the lines of a script of a profile, and notes of each line by which keys it is said."""

    def __init__(self, profile, usim):
        self.profile, self.usim = profile, usim
        self.default = profile.get("default", {})
        self.lines, self.origins, self.origin = [], [], ()
        self.rules, self.paths, self.faults, self.doubts = [], [], [], []
        self.arrs = {}

    def build(self):
        """Makes the lines of the script, but for those of which `faults` say why they can't be made."""
        self.default = {operation: who for operation, who in self.default.items() if self._is_condition(operation, who, "default")}
        files = [(name, value) for name, value in self.profile.items() if is_file_table(name, value)]
        for name, given in files:
            if is_arr_in_folder(path_of(name)):
                with self._told(name, fields.RECORDS):
                    self.arrs[path_of(name)] = [structured.hexadecimal(record).rstrip(b"\xFF") for record in given.get(fields.RECORDS, [])]
        name, given = next((file for file in files if path_of(file[0]) == ARR), ("EF_ARR", {}))
        self._kept_rules(name, given)
        described = [self._described(*file) for file in files if path_of(file[0]) != ARR]
        shape = self._arr(name, given)
        self._pins()
        self._rule_file(name, shape)
        for name, path, file, rule in sorted(filter(None, described), key=lambda file: (len(file[1]), file[1][:-1])):
            self.origin = (name,)
            self._folder(path[:-1])
            self._put(path, file, rule)
        self._applets()
        self._emit("start")

    @contextlib.contextmanager
    def _told(self, *path):
        """What is wrong in here is a fault of these keys."""
        try:
            yield
        except (ValueError, layout.Wrong, grammar.Wrong) as fault:
            keys = " ".join(key for key in path[1:] if isinstance(key, str))
            self.faults.append(Fault(path, dump.printable(f"{told_origin(path)}{f' {keys}' if keys else ''}: {fault}")))

    def _emit(self, *lines):
        self.lines += lines
        self.origins += [self.origin] * len(lines)

    def say(self, text):
        """A comment, in lines that a script takes."""
        text = dump.printable(text)
        while len(text) > LONGEST_COMMENT:
            at = text.rfind(" ", 1, LONGEST_COMMENT)
            at = at if at > 0 else LONGEST_COMMENT
            self._emit("# " + text[:at])
            text = text[at:].lstrip(" ")
        self._emit("# " + text)

    # rules

    def _rule(self, words, path=()):
        """The EF_ARR and the number of the record in it that say this of a file: a record that the profile has as it is in the nearest
        EF_ARR, or one that is written for it in that of the MF, where each rule has one."""
        content = rules.written({operation: who for operation, who in words.items() if operation in OPERATIONS})
        if not content:
            return None
        near = nearest_arr(self.arrs, path)
        if content in self.arrs.get(near, ()):
            return near[-1], self.arrs[near].index(content) + 1
        if len(content) > 0xFF:
            raise BadContent(f"its rule has {len(content)} bytes, and a record at most 255")
        if content not in self.rules:
            self.rules.append(content)
        return "2F06", self.rules.index(content) + 1

    def _is_condition(self, operation, who, *path):
        """Whether words say who may do something; a fault, where they don't."""
        before = len(self.faults)
        with self._told(*path, operation):
            rules.written({operation: who})
        return len(self.faults) == before

    def _rule_of(self, name, given):
        """The rule of a file: the identifier of an EF_ARR and the number of a record; None where it has none."""
        if "rule" in given:
            return named_rule(given["rule"])
        said = [operation for operation in OPERATIONS if operation in given]
        wrong = [operation for operation in said if not self._is_condition(operation, given[operation], name)]
        if wrong:
            return None
        for operation in said:
            self._doubt_condition(name, operation, given[operation])
        return self._rule({**self.default, **given}, path_of(name))

    def _doubt_condition(self, name, operation, who):
        """Notes a condition of which a part makes no difference."""
        (_, _, tree), = rules.pairs(rules.written({operation: who}))
        left = access.left_of(tree)
        if left != tree:
            self.doubts.append(Fault((name, operation), f"{told_origin((name,))} {operation}: `{who}` comes to `{rules.in_words(left)}`"))

    def _kept_rules(self, name, given):
        """The records of EF_ARR that the profile has as they are: they keep their numbers."""
        with self._told(name):
            other = next((key for key in given if key not in (fields.RECORDS, "length", "count", "short", "rule", *OPERATIONS)), None)
            if other:
                raise BadContent(f"`{other}` isn't said of EF_ARR: it is linear fixed, and `{fields.RECORDS}` are what it holds")
            self.rules += [structured.hexadecimal(record).rstrip(b"\xFF") for record in given.get(fields.RECORDS, [])]

    def _arr(self, name, given):
        """The shape of EF_ARR and its own rule; None where there is none. The rules that words say stand after the records that the
        profile has as they are."""
        with self._told(name):
            if not given and not self.rules:
                return None
            says_who = any(key in given for key in (*OPERATIONS, "rule"))
            rule = self._rule_of(name, given) if says_who else self._rule({"read": "always", "update": "adm"})
            longest = max(map(len, self.rules), default=0)
            length, count = given.get("length", longest or 1), given.get("count", len(self.rules) or 1)
            if longest > length or len(self.rules) > count:
                raise BadContent(f"it has {len(self.rules)} rules of at most {longest} bytes, and room for {count} of {length}")
            return grammar.Ef(ARR, "l", length, count, given.get("short", 6) or None, rule)
        return None

    def _described(self, name, given):
        """A file's name, path, shape with content, and rule; None where something is wrong with it."""
        path = path_of(name)
        if given == {"folder": True}:
            return name, path, None, None
        rule = None
        with self._told(name):
            rule = self._rule_of(name, given)
        try:
            made = described(path, given, self.usim)
            if "increase" in given and made[0].structure != "c":
                self.doubts.append(Fault((name, "increase"), f"{told_origin((name,))} increase: INCREASE is of cyclic files alone, and this one is "
                                         + tree.STRUCTURES[made[0].structure]))
            return name, path, made, rule
        except ValueError as fault:
            keys = [key for key in given if key in fields.KEYS]
            for reason in list(faults_of_entries(path, given, self.usim)) or [fault]:
                with self._told(name, *keys):
                    raise BadContent(reason) from None
        return None

    # lines

    def _pins(self):
        pins = self.profile.get("pins", {})
        for name, given in pins.items():
            self.origin = ("pins", name)
            found = {}
            for what in ("value", "unblock"):
                with self._told("pins", name, what):
                    found[what] = pin_value(given.get(what, NO_PIN))
            unblock = str(given.get("unblock", NO_PIN))
            if "unblock" in found and len(unblock) < UNBLOCK_DIGITS:
                self.doubts.append(Fault(("pins", name, "unblock"), f"[pins] {name} unblock: an UNBLOCK PIN has {UNBLOCK_DIGITS} digits, and "
                                                                    f"{unblock} has {len(unblock)}"))
            if len(found) == 2:
                on = given.get("on", True)
                self.say(f"{names.key(PIN_KEYS[name])}: {given.get('value', '00000000')}, {'on' if on else 'off'}")
                self._emit(f"pin {PIN_KEYS[name]:02X} {found['value']} {'on' if on else 'off'} {found['unblock']}")
        if pins:
            self._emit("")

    def _rule_file(self, name, shape):
        if shape is None:
            return
        self.origin = (name,)
        self.say("EF.ARR: who may do what with the files")
        self._emit(ef_line(shape, shape.rule))
        for number, content in enumerate(self.rules, 1):
            if content:
                self.say(f"{number}: {rule_shown(content)}")
                self._emit(f"rec 2F06 {number} {content.hex().upper()}")
        self._emit("")

    def _folder(self, path):
        for depth in range(1, len(path) + 1):
            if path[:depth] not in self.paths:
                self.paths.append(path[:depth])
                entry = names.file(path[:depth], self.usim)
                if entry:
                    self.say(f"{entry['name']}: {entry['title']}")
                self._emit(f"df {''.join(path[:depth])}", "")

    def _put(self, path, file, rule):
        if file is None:
            self._folder(path)
            return
        shape, content = file
        name = "".join(path)
        self._say_what(path, shape, content)
        self._emit(ef_line(shape, rule))
        if shape.structure == "t":
            for at in range(0, len(content), grammar.MOST_OCTETS):
                self._emit(f"fill {name} {at} {content[at:at + grammar.MOST_OCTETS].hex().upper()}")
        else:
            self._emit(*(f"rec {name} {number} {record.hex().upper()}" for number, record in enumerate(content, 1) if record))
        self._emit("")

    def _say_what(self, path, shape, content):
        entry = names.file(path, self.usim)
        if not entry:
            return
        held = layout.File(path, shape.structure, shape.length, shape.count)
        whole = content if shape.structure == "t" else b"".join(record.ljust(shape.length, b"\xFF") for record in content)
        held.content = bytearray(whole.ljust(shape.size, b"\xFF"))
        meaning = "; ".join(tree.meanings(held, self.usim))
        self.say(f"{entry['name']}, {entry['title']}" + (f": {meaning}" if meaning else ""))

    # applets

    def _applets(self):
        applets = [(place, applet) for place, applet in enumerate(self.profile.get("applet", [])) if applet is not None]
        taken = [applet["shelf"] for _, applet in applets if "shelf" in applet]
        for place, applet in applets:
            self.origin = ("applet", place)
            with self._told("applet", place):
                shelf = applet.get("shelf")
                if shelf is None:
                    shelf = free_shelf(applet.get("kind"), taken)
                    taken.append(shelf)
                wrong = list(faults_of_words(applet))
                for reason in wrong:
                    with self._told("applet", place):
                        raise BadContent(f"the applet on shelf {shelf}: {reason}")
                if not wrong:
                    self._applet(shelf, applet)

    def _applet(self, shelf, applet):
        try:
            content = applet_content(applet)
            given = layout.installation(content)
        except (ValueError, layout.Wrong) as fault:
            raise BadContent(f"the applet on shelf {shelf}: {fault}") from None
        does = kinds.of_program().does_on(shelf)
        self.say(f"an applet on shelf {shelf} that {does}: events {', '.join(f'{code:02X}' for code in given.events) or 'none'}"
                 + (f", menu entry `{given.text.decode()}`" if given.text else ""))
        for event, actions in applet.get("on", {}).items():
            self.say(f"on {event}: {', '.join(actions)}")
        self._emit(f"row {shelf} {applet.get('priority', 1)} {content.hex().upper()}", "")


def named_rule(word):
    """The rule that a profile names: the identifier of an EF_ARR and the number of a record; None where everybody may do all."""
    try:
        return None if word == "none" else grammar.read_rule(word if word != "-" else "")
    except grammar.Wrong:
        raise BadContent(f"`rule` is an EF_ARR and the number of a record in it, as \"2F06:3\", or \"none\", by which everybody may do all, "
                         f"and not \"{word}\"") from None


def nearest_arr(arrs, path):
    """The path of the EF_ARR that the files of a folder find first, of some; None where none stands above a file."""
    for depth in range(len(path) - 1, 0, -1):
        found = next((arr for arr in arrs if arr[:-1] == path[:depth]), None)
        if found:
            return found
    return None


def ef_line(shape, rule):
    """The line that describes a file."""
    bounds = shape.length if shape.structure == "t" else f"{shape.length} {shape.count}"
    return f"ef {''.join(shape.path)} {shape.structure} {bounds} {shape.short or '-'} {':'.join(map(str, rule)) if rule else '-'}"


def rule_shown(content):
    try:
        return rules.shown(content)
    except rules.NoRule as fault:
        return f"no rule: {fault}"


def free_shelf(kind, taken):
    known = kinds.of_program()
    if kind not in known.names:
        raise BadContent(f"an applet has a shelf, or a kind of {', '.join(known.names)}, and not {kind or 'neither'}")
    free = [shelf for shelf in known.shelves_of(kind) if shelf not in taken]
    if not free:
        raise BadContent(f"no shelf of a {kind} is free")
    return free[0]


def pin_value(digits):
    digits = str(digits)
    if len(digits) == 16 and all(digit in "0123456789abcdefABCDEF" for digit in digits):
        return digits.upper()
    if not coding.is_digits(digits) or not 4 <= len(digits) <= 8:
        raise BadContent(f"a value is 4 to 8 digits, or 16 hexadecimal ones, and not {digits}")
    return digits.encode().ljust(8, b"\xFF").hex().upper()


def event_code(word):
    words = names.table("toolkit")["event_words"]
    if word not in words:
        meant = forms.near(word, list(words))
        raise BadContent(f"`{word}` is no event{f', but `{meant}` is' if meant else ''}: {', '.join(words)}")
    return int(words[word], 16)


def faults_of_words(applet):
    """What is wrong with each word of an applet's table."""
    for event, actions in applet.get("on", {}).items():
        yield from told_by(event_code, event)
        wrong = forms.TEXTS.wrong(actions)
        if wrong:
            yield f"on: {forms.about(f'`{event}`', wrong)}: on = {{ location = [\"show A\"] }}"
            continue
        for action in actions:
            yield from told_by(action_bytes, action)
    for event in applet.get("events", ()):
        yield from told_by(event_code, event)
    if "keeps" in applet and "keeps_text" in applet:
        yield "what it keeps is said by `keeps` and by `keeps_text`, and one of them does"
    yield from told_by(structured.hexadecimal, applet.get("keeps", ""))


def told_by(read, word):
    """Why a word can't be read; nothing where it can."""
    try:
        read(word)
    except ValueError as fault:
        yield str(fault)


def applet_content(applet):
    """The data of a `row` line: the codes of events, the menu text, and what the applet keeps."""
    on = applet.get("on", {})
    kept = structured.hexadecimal(applet.get("keeps", "")) or applet.get("keeps_text", "").encode()
    kept += b"".join(bytes((event_code(event),)) + action_bytes(text) for event, actions in on.items() for text in actions)
    if "events" in applet:
        events = [event_code(word) for word in applet["events"]]
    else:
        later = {text.partition(" ")[2].strip() for actions in on.values() for text in actions if text.startswith("register ")}
        events = [event_code(word) for word in on if word not in ("menu", "timer") and word not in later]
    menu = applet.get("menu", "").encode()
    if len(events) > MOST_EVENTS or len(menu) > layout.LONGEST_MENU_TEXT:
        raise BadContent(f"it has at most {MOST_EVENTS} events, and a menu text of at most {layout.LONGEST_MENU_TEXT} bytes")
    return bytes((len(events), *events, len(menu))) + menu + kept


def action_bytes(text):
    """An action of the applet that is made of a table, and its value."""
    word, _, value = text.partition(" ")
    actions = names.table("toolkit")["actions"]
    if word not in actions:
        meant = forms.near(word, list(actions))
        raise BadContent(f"`{text}` is no action{f', but `{meant}` is' if meant else ''}: {', '.join(actions)}")
    code = int(actions[word], 16)
    if word in ("show", "key", "idle"):
        if len(value) != 1 or not value.isascii():
            raise BadContent(f"`{text}`: {word} has one character")
        return bytes((code, ord(value)))
    if word in ("register", "deregister"):
        return bytes((code, event_code(value)))
    if word in ("more-time", "timer"):
        if value:
            raise BadContent(f"`{text}`: {word} has nothing after it")
        return bytes((code, 0))
    if len(value) != 2 or any(digit not in "0123456789abcdefABCDEF" for digit in value):
        raise BadContent(f"`{text}`: {word} has a byte, two hexadecimal digits")
    return bytes((code, int(value, 16)))
