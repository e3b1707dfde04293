"""TOML: read with the lines on which its keys stand, so that what is wrong with a value can be told with its line, and written."""
import re
import tomllib

# what a line may end with where a value ends that goes over lines
ENDS = ("]", "}", '"""', "'''")
LEADING_ZERO = re.compile(r"=\s*0\d")
CURLY = re.compile("[\u201c\u201d\u201e\u2018\u2019]")
# a word after a key that isn't in quotes
BARE = re.compile(r"=\s*(?!(?:true|false|inf|nan)\b)[A-Za-z_+]")
INSIDE = re.compile(r'=\s*"[^"]*"\s*[^\s,\]}#"]')
# what no bracket is looked for in: texts, and a comment
OF_TEXT = re.compile(rb'"(?:[^"\\]|\\.)*"|\'[^\']*\'|#.*')
HEAD_OF_TABLE, HEAD_OF_VALUE = re.compile(rb"""\s*\[{1,2}[\w."'/ -]+\]{1,2}\s*(#.*)?$"""), re.compile(rb"""\s*(\w|"[^"]*"|-)+\s*=""")
# so many lines are one statement at most
LONGEST_STATEMENT = 400
# what Python says of a key or a table that stands there already
TWICE = ("Cannot overwrite a value", "Cannot declare", "Cannot mutate immutable namespace")
# an entry of a list, at the beginning of a line
AFTER_COMMA = re.compile(r'\s*["{\'\d]')
AT_LINE = re.compile(r" \(at line (\d+), column \d+\)$")


class Unreadable(Exception):
    """Why a text is no TOML, with the line where that shows; None where it shows nowhere."""

    def __init__(self, reason, line=None):
        super().__init__(reason)
        self.line = line


def read(content):
    """The tables of a file's bytes, and its text."""
    try:
        text = content.decode("utf-8-sig")
    except UnicodeDecodeError as fault:
        raise Unreadable("it isn't UTF-8, as TOML is", content.count(b"\n", 0, fault.start) + 1) from None
    try:
        return tomllib.loads(text), text
    except tomllib.TOMLDecodeError as fault:
        raise told(str(fault), text) from None
    except RecursionError:
        raise Unreadable("its lists or tables stand too deep in each other", deepest(text)) from None
    except ValueError as fault:
        raise Unreadable(f"a value in it can't be read: {fault}") from None


def read_on(content):
    """The tables of a file's bytes, its text, and what can't be read of it. A statement that is no TOML by itself is passed over: a line, or
    what stands in a bracket that isn't closed. There are no tables where that doesn't help."""
    faults = []
    while True:
        try:
            given, text = read(content)
            return given, text, faults
        except Unreadable as fault:
            lines = content.split(b"\n")
            place, end, why = wrong_statement(lines, fault)
            if place is None or not any(line.strip() for line in lines[place:end]):
                return None, None, faults or [fault]
            faults.append(why)
            lines[place:end] = [b""] * (end - place)
            content = b"\n".join(lines)


def wrong_statement(lines, fault):
    """From which line to which a statement is no TOML by itself, and why; the places are None where the fault may come of another one."""
    if fault.line is None:
        return None, None, fault
    at = fault.line - 1
    if is_wrong_alone(lines[at]) or str(fault).startswith(TWICE):
        return at, end_of(lines, at), fault
    place = first_unread(lines)
    if place is None:
        return None, None, fault
    end, closing = end_of_brackets(lines, place)
    if closing is None:
        return None, None, fault
    return place, end, Unreadable(f"`{closing}` is missing", place + 1) if closing else fault


def is_wrong_alone(line):
    """Whether a line is wrong by itself, and not for what stands before or after it."""
    if any(opened(line)) or b'"""' in line or b"'''" in line:
        return False
    try:
        tomllib.loads(line.decode())
    except (ValueError, RecursionError):
        return True
    return False


def opened(line):
    """How many more brackets of each kind a line opens than it closes, whatever stands in its texts and its comment."""
    plain = OF_TEXT.sub(b"", line)
    return [plain.count(one) - plain.count(other) for one, other in ((b"[", b"]"), (b"{", b"}"))]


def end_of(lines, place):
    """The place after a line, or after the table whose head it is."""
    end = place + 1
    if lines[place].lstrip().startswith(b"["):
        while end < len(lines) and not lines[end].lstrip().startswith(b"["):
            end += 1
    return end


def first_unread(lines):
    """The line with which the first statement begins that is no TOML; None where each is."""
    at = 0
    while at < len(lines):
        for end in range(at + 1, min(at + LONGEST_STATEMENT, len(lines)) + 1):
            try:
                tomllib.loads(b"\n".join(lines[at:end]).decode())
                break
            except (ValueError, RecursionError):
                pass
        else:
            return at
        at = end
    return None


def end_of_brackets(lines, place):
    """The place after the brackets that a statement opens, and the bracket that is missing there; no text where all are closed, and None
    where it opens none. Brackets that aren't closed end before the next statement."""
    depths = opened(lines[place])
    if not any(depth > 0 for depth in depths):
        return None, None
    if lines[place].lstrip().startswith(b"["):
        return end_of(lines, place), "]"
    end = place + 1
    while any(depth > 0 for depth in depths):
        if end == len(lines) or HEAD_OF_TABLE.match(lines[end]) or depths[1] <= 0 and HEAD_OF_VALUE.match(lines[end]):
            return end, "]" if depths[0] > 0 else "}"
        depths = [one + other for one, other in zip(depths, opened(lines[end]))]
        end += 1
    return end, ""


def deepest(text):
    """The line with the most brackets."""
    lines = lines_in(text)
    return 1 + max(range(len(lines)), key=lambda place: lines[place].count("[") + lines[place].count("{"))


def lines_in(text):
    return text.replace("\r\n", "\n").split("\n")


def told(reason, text):
    """The fault of a text with its line, and a word on what is wrong most often."""
    found = AT_LINE.search(reason)
    line = int(found[1]) if found else None
    lines = lines_in(text)
    shown = lines[min(line or len(lines), len(lines)) - 1]
    hint = hint_by(reason, shown) or hint_for(shown)
    return Unreadable((reason[:found.start()] if found else reason) + hint, line or len(lines) or None)


def hint_by(reason, line):
    """What Python's reason means on such a line; nothing where it says so itself."""
    if reason.startswith(TWICE):
        return ": it stands there twice"
    if reason.startswith("Unclosed") and AFTER_COMMA.match(line):
        return ": a comma is missing before it"
    return ": a table in { } stands in one line" if reason.startswith("Invalid initial") and opened(line.encode())[1] > 0 else ""


def hint_for(line):
    """What is wrong most often with such a line; nothing where that isn't known."""
    if LEADING_ZERO.search(line):
        return ": digits that begin with 0 stand in quotes"
    curly = CURLY.search(line)
    if curly:
        return f": {curly.group()} is no quote here, but \" is"
    plain = line.replace('\\"', "")
    if plain.count('"') % 2 or INSIDE.search(plain):
        return ": a quote is missing, or one stands in the text, where it is written \\\""
    return ": text stands in quotes" if BARE.search(line) else ""


def written(value):
    """A value as TOML, in one line."""
    if isinstance(value, bool):
        return "true" if value else "false"
    if isinstance(value, str):
        return '"' + "".join(letter_written(letter) for letter in value) + '"'
    if isinstance(value, list):
        return "[" + ", ".join(map(written, value)) + "]"
    if isinstance(value, dict):
        return "{ " + ", ".join(f"{key} = {written(each)}" for key, each in value.items()) + " }" if value else "{}"
    return str(value)


def letter_written(letter):
    if letter in '"\\':
        return "\\" + letter
    return letter if letter.isprintable() else f"\\U{ord(letter):08X}"


class Lines:
    """On which line each key of a text stands that is TOML."""

    def __init__(self, text):
        self.lines, self.found, self.lists = lines_in(text), {}, {}
        self.table = ()
        at = 0
        while at < len(self.lines):
            given, end = self._statement(at)
            self._note(given, at + 1, self.lines[at].lstrip().startswith("["))
            at = end

    def _statement(self, at):
        """What the statement says that begins on a line, and the place after it."""
        for end in range(at + 1, len(self.lines) + 1):
            if end > at + 1 and not self.lines[end - 1].partition("#")[0].rstrip().endswith(ENDS):
                continue
            try:
                return tomllib.loads("\n".join(self.lines[at:end])), end
            except (ValueError, RecursionError):
                continue
        return {}, at + 1

    def _note(self, given, line, is_header):
        path = () if is_header else self.table
        while isinstance(given, dict) and given:
            key = next(iter(given))
            path, given = (*path, key), given[key]
            if is_header and isinstance(given, list):
                self.lists[path] = self.lists.get(path, -1) + 1
                path, given = (*path, self.lists[path]), given[0]
            elif is_header and path in self.lists:
                path = (*path, self.lists[path])
            self.found.setdefault(path, line)
        if is_header:
            self.table = path

    def of(self, path):
        """The line of a key, or else of the nearest table that it stands in; 1 where none is there."""
        for depth in range(len(path), 0, -1):
            if path[:depth] in self.found:
                return self.found[path[:depth]]
        return 1
