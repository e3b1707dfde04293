"""Reads definitions of specs/ into lists, as far as they are such as the tables of the applets are: functions by clauses over numbers, lists,
records and constructors.

A definition is the list of its clauses, each with its patterns and its body; a body is a list that begins with what it is, so that data in
JSON can hold it: `number`, `name`, `call`, `lambda`, `if`, `let`, `list`, `pair`, `record`, `field`, or an operator with its two sides."""
import difflib
import os
import re

TOKEN = re.compile(r"""\s*(?:--[^\n]*\n?\s*)*(
    0x[0-9A-Fa-f]+ | "[^"\n]*" | [A-Za-z_][\w'-]*(?:\.(?:[A-Za-z_][\w'-]*|\d+))* | \d+
    | && | \|\| | == | \+\+ | [∷+*/%(){}\[\],;=.λ∘<>≤↦|-] | \S )""", re.VERBOSE)
CLAUSE = re.compile(r"([a-z_][\w'-]*)(?=\s|$)")
USE = re.compile(r"^use (Rattle\.[\w.◌-]+?)\.\{([^}]*)\}", re.MULTILINE)
HEAD = re.compile(r"^(?:abbrev |unfoldable )?(?:pub )?([a-z_][\w'-]*) :", re.MULTILINE)
CONSTANT = re.compile(r"^pub const (\w+): ([^=]+?) =\s*([^;]+);", re.MULTILINE)
# from the loosest on; each with whether it groups to the right
LEVELS = ((("||",), True), (("&&",), True), (("==",), False), (("∷", "++"), True), (("+", "-"), False), (("*", "/", "%"), False))
WORDS = ("if", "then", "else", "let", "in", "record", "λ", "where", "elim", "case")
ENDS = (")", "}", "]", ",", ";", "=", "then", "else", "in", None)


class Unreadable(Exception):
    """A definition is in another form than those that are read here; `line` is that of the clause in its file, where it is known."""

    line = None


class Reader:
    """The tokens of a text, one after the other."""

    def __init__(self, text):
        self.tokens = [found for found in TOKEN.findall(text) if found]
        self.at = 0

    def peek(self):
        return self.tokens[self.at] if self.at < len(self.tokens) else None

    def next(self, wanted="more"):
        token = self.peek()
        if token is None:
            raise Unreadable(f"it ends where {wanted} has to stand")
        self.at += 1
        return token

    def expect(self, wanted):
        token = self.next(f"`{wanted}`")
        if token != wanted:
            raise Unreadable(f"`{token}` stands where `{wanted}` is read")

    def name(self):
        token = self.next("a name")
        if not re.fullmatch(r"[A-Za-z_][\w'-]*", token) or token in WORDS:
            raise Unreadable(f"`{token}` stands where a name is read")
        return token

    # patterns

    def patterns(self):
        """Those before the `=` of a clause."""
        found = []
        while self.peek() != "=":
            found.append(self.pattern_atom())
        self.expect("=")
        return found

    def pattern(self):
        """One in parentheses: a constructor with its parts, the head and the rest of a list, or a pair."""
        parts = [self.pattern_atom()]
        if parts[0][0] == "made" and not parts[0][2]:
            while self.peek() not in ("∷", ",", ")"):
                parts[0][2].append(self.pattern_atom())
        if self.peek() == "∷":
            self.next()
            return ["head", parts[0], self.pattern()]
        if self.peek() == ",":
            self.next()
            return ["pair", parts[0], self.pattern()]
        return parts[0]

    def pattern_atom(self):
        token = self.next("a pattern")
        if token == "(":
            found = self.pattern()
            self.expect(")")
            return found
        if token == "[":
            self.expect("]")
            return ["empty"]
        if token == "_":
            return ["any"]
        if token in ("true", "false"):
            return ["truth", token == "true"]
        if re.match(r"\d", token):
            return ["number", int(token, 0)]
        if re.fullmatch(r"[A-Z][\w]*", token):
            return ["made", token, []]
        if re.fullmatch(r"[a-z_][\w'-]*", token) and token not in WORDS:
            return ["bound", token]
        raise Unreadable(f"`{token}` stands in a pattern")

    # expressions

    def expression(self):
        if self.peek() == "λ":
            self.next()
            names = []
            while self.peek() != ".":
                names.append(self.name())
            self.expect(".")
            return ["lambda", names, self.expression()]
        if self.peek() == "if":
            self.next()
            condition = self.expression()
            self.expect("then")
            first = self.expression()
            self.expect("else")
            return ["if", condition, first, self.expression()]
        if self.peek() == "let":
            self.next()
            name = self.name()
            self.expect("=")
            value = self.expression()
            self.expect("in")
            return ["let", name, value, self.expression()]
        return self.operation(0)

    def operation(self, level):
        if level == len(LEVELS):
            return self.call()
        marks, is_right = LEVELS[level]
        left = self.operation(level + 1)
        while self.peek() in marks:
            mark = self.next()
            right = self.operation(level) if is_right else self.operation(level + 1)
            left = [mark, left, right]
            if is_right:
                break
        return left

    def call(self):
        parts = [self.atom()]
        while self.peek() not in ENDS and not any(self.peek() in marks for marks, _ in LEVELS):
            parts.append(self.expression() if self.peek() == "λ" else self.atom())
        return parts[0] if len(parts) == 1 else ["call", parts[0], parts[1:]]

    def atom(self):
        token = self.next("a value")
        if token == "(":
            found = self.expression()
            if self.peek() == ",":
                self.next()
                found = ["pair", found, self.expression()]
            self.expect(")")
            return self.fields(found)
        if token == "[":
            self.expect("]")
            return ["list"]
        if token == "record":
            return self.record()
        if token.startswith('"'):
            return ["list", *(["number", ord(letter)] for letter in token[1:-1])]
        if re.match(r"\d", token):
            return ["number", int(token, 0)]
        if token in ("true", "false"):
            return ["truth", token == "true"]
        if re.match(r"[A-Za-z_]", token) and token not in WORDS:
            name, *fields = token.split(".")
            found = ["name", name]
            for field in fields:
                found = ["field", found, field]
            return found
        raise Unreadable(f"`{token}` stands in it")

    def fields(self, found):
        """What stands in parentheses may have a field taken, as `(f x).y`."""
        while self.peek() == "." and self.at + 1 < len(self.tokens):
            self.next()
            for field in self.next().split("."):
                found = ["field", found, field]
        return found

    def record(self):
        base = None if self.peek() == "{" else self.atom()
        self.expect("{")
        fields = {}
        while self.peek() != "}":
            name = self.name()
            self.expect("=")
            fields[name] = self.expression()
            if self.peek() == ";":
                self.next()
        self.expect("}")
        return ["record", base, fields]


def as_body(text):
    """The expression that a text is."""
    reader = Reader(text)
    found = reader.expression()
    if reader.peek() is not None:
        raise Unreadable(f"`{reader.peek()}` stands after it")
    return found


def clause(text):
    head, _, body = text.partition("=")
    # a `==` is no end of the patterns
    reader = Reader(head + "=")
    reader.next()
    return [reader.patterns(), as_body(body)]


class NoHead(Exception):
    """A file has no head of a definition: `line` is that of one which is called nearly so."""
    line = None


class File:
    """The definitions of a file of specs/."""

    def __init__(self, path):
        with open(path, encoding="utf-8") as text:
            self.text = text.read()
        self.path = path
        # from where each name that the file uses comes
        self.uses = {name.strip().split(" as ")[-1]: (place, name.strip().split(" as ")[0])
                     for place, names in USE.findall(self.text) for name in names.split(",")}
        self.heads = {found[1]: found.end() for found in HEAD.finditer(self.text)}

    def no_head(self, name):
        """Why a name has no head here, with the one that is called nearly so and has no clauses of its own."""
        near = [head for head in difflib.get_close_matches(name, self.heads) if not self.texts(head)]
        fault = NoHead(f"no `abbrev` of {name} stands in {os.path.basename(self.path)}" + (f": is it called `{near[0]}` there?" if near else ""))
        fault.line = self.line_of(near[0]) if near else None
        return fault

    def line_of(self, name):
        """The number of the line on which the head of a definition stands."""
        return self.text.count("\n", 0, self.heads[name]) + 1

    def texts(self, name):
        """The clauses under a name as they stand, each with the number of its first line."""
        lines = self.text[self.heads[name]:].split("\n")[1:]
        found = []
        for number, line in enumerate(lines, self.line_of(name) + 1):
            if line.startswith("--") or not line.strip():
                if found:
                    break
                continue
            if re.match(rf"{re.escape(name)}(?=\s)", line):
                found.append((number, line))
            elif line.startswith((" ", "\t")) and found:
                found[-1] = found[-1][0], found[-1][1] + "\n" + line
            elif found or not line.startswith("unfolding"):
                break
        return found

    @staticmethod
    def offset_of(text, word):
        """On which line of a clause a word stands first, from 0 on."""
        word = shown_word(word)
        found = re.search(rf"(?<![\w'+]){re.escape(word)}(?![\w'+])", text)
        return text.count("\n", 0, found.start()) if found else 0

    def clauses(self, name):
        """What is defined under a name, clause by clause."""
        found = []
        if name not in self.heads:
            raise self.no_head(name)
        for number, text in self.texts(name):
            try:
                found.append(clause(text))
            except Unreadable as fault:
                fault.line = number
                raise
        if not found:
            raise Unreadable(f"`{name}` has no clauses in {os.path.basename(self.path)}")
        return found


def shown_word(word):
    """A name as a file imports it, as it stands in a text: `++` for `◌++◌`."""
    return "if" if word.startswith("if◌") else word.strip("◌")


def names_in(body):
    """The names of functions and constants that stand in a body, those that it binds too."""
    if not isinstance(body, list):
        return set()
    if body[:1] == ["name"]:
        return {body[1]}
    if body[:1] == ["record"]:
        return names_in(body[1]) | set().union(*map(names_in, body[2].values()))
    return set().union(*map(names_in, body))


def parts_of(body):
    """The bodies that stand in a body."""
    kind, *rest = body
    if kind in ("name", "number", "truth"):
        return []
    if kind == "record":
        return [*filter(None, rest[:1]), *rest[1].values()]
    if kind == "call":
        return [rest[0], *rest[1]]
    if kind == "field":
        return rest[:1]
    # what a `let` and a lambda bind is no body
    return rest[1:] if kind in ("let", "lambda") else rest


# the signs of a body, by the names under which a file imports them
SIGNS = {"∷": "◌∷◌", "++": "◌++◌", "+": "◌+◌", "-": "◌-◌", "*": "◌*◌", "/": "◌/◌", "%": "◌%◌", "&&": "◌&&◌", "||": "◌||◌", "==": "◌==◌", "if": "if◌then◌else◌"}


def used_in(patterns, body):
    """What a clause uses that its file has to define or import: names, and signs as `◌++◌`."""
    found, bound = set(), set()
    for pattern in patterns:
        part, names = used_in_pattern(pattern)
        found |= part
        bound |= names
    return found | used_in_body(body, bound)


def used_in_pattern(pattern):
    """What a pattern uses, and what it binds."""
    kind = pattern[0]
    found, bound = {"empty": {"[]"}, "head": {"◌∷◌"}, "made": {pattern[-2]} if kind == "made" else set()}.get(kind, set()), set()
    if kind == "truth":
        found = {"true" if pattern[1] else "false"}
    if kind == "bound":
        bound = {pattern[1]}
    parts = pattern[2] if kind == "made" else pattern[1:] if kind in ("head", "pair") else []
    for part in parts:
        of_part, names = used_in_pattern(part)
        found, bound = found | of_part, bound | names
    return found, bound


def used_in_body(body, bound):
    kind, *parts = body
    if kind == "name":
        return {parts[0]} - bound
    if kind == "truth":
        return {"true" if parts[0] else "false"}
    if kind == "number":
        return set()
    if kind == "lambda":
        return used_in_body(parts[1], bound | set(parts[0]))
    if kind == "let":
        return used_in_body(parts[1], bound) | used_in_body(parts[2], bound | {parts[0]})
    if kind == "record":
        return set().union(*(used_in_body(part, bound) for part in [*filter(None, parts[:1]), *parts[1].values()]))
    if kind == "field":
        return used_in_body(parts[0], bound)
    if kind == "call":
        return set().union(*(used_in_body(part, bound) for part in [parts[0], *parts[1]]))
    if kind == "list":
        # a text is a list of numbers, which needs no import
        return set() if parts else {"[]"}
    own = {SIGNS[kind]} if kind in SIGNS else set()
    return own.union(*(used_in_body(part, bound) for part in parts))


def constants_of(path):
    """The constants of a source of Rust: numbers, and texts as lists of bytes."""
    with open(path, encoding="utf-8") as text:
        found = CONSTANT.findall(text.read())
    made = {}
    for name, _, value in found:
        value = value.strip()
        if value.startswith('b"'):
            made[name] = list(value[2:-1].encode("latin-1").decode("unicode_escape").encode("latin-1"))
        elif value.startswith("b'"):
            made[name] = ord(value[2:-1])
        elif re.fullmatch(r"(0x[0-9A-Fa-f_]+|[0-9_]+)(u8|u16|u32|usize)?", value):
            made[name] = int(re.sub(r"(u8|u16|u32|usize)$", "", value).replace("_", ""), 0)
        elif re.fullmatch(r"&\[.*\]", value, re.DOTALL):
            made[name] = [int(one, 0) for one in re.findall(r"0x[0-9A-Fa-f]+|\d+", value)]
    return made
