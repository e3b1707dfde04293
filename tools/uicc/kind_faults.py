"""What the prover or the compiler would not take in the kinds of applets of the sources, as far as that is seen with nothing built: names that a
file doesn't import, acts and commands with another number of parts, cases of which no clause is, texts that are too long, and phases of the
code whose numbers aren't those of the definition."""
import os
import re

from . import antt, kinds, rooms

CODE, MINDS = ("boxed_applets", "src"), ("boxed_applets", "specs")
# how many parts an act or a command has
PARTS = {
    "Refresh": 1, "PollInterval": 1, "SetUpEventList": 1, "PlayTone": 1, "DisplayText": 1, "GetInkey": 1, "GetInput": 4, "SelectItem": 2, "SetUpMenu": 2,
    "LocalInformation": 1, "TimerManagement": 3, "IdleText": 1, "Send": 1, "Keep": 1, "Register": 1, "Deregister": 1, "FreeTimer": 1, "Answer": 1,
}
# what a value is made by: all constructors of a type, each with how many parts it has
TYPES = (
    {"Event": 2, "Response": 3, "Went": 0, "Refused": 0, "Timer": 1}, {"Some": 1, "None": 0}, {"[]": 0, "∷": 2}, {"true": 0, "false": 0}, {",": 2},
)
# the functions that make a turn, with the place of the phase after it
# the parts of each stimulus
STIMULUS_PARTS = {"Event": ("code", "body"), "Response": ("result", "item", "text"), "Timer": ("timer",), "Went": (), "Refused": ()}
TURNS = {"turn": 2, "keeping": 2}


def findings(crates):
    """A file, a line and why, each."""
    collected = kinds.collected_turns(crates)
    return sorted(set(of_definitions(collected) + rooms.findings(collected))) + Phases(crates, collected).findings()


# definitions

def of_definitions(collected):
    """What is wrong with the definitions themselves."""
    found = [(collected.places[name], collected.lines[name] or 1, f"the definition of {name} isn't read: {why}")
             for name, why in collected.unreadable.items() if name in collected.places]
    for name, clauses in collected.definitions.items():
        file = collected.file(collected.places[name])
        for (line, text), (patterns, body) in zip(file.texts(name), clauses):
            wrong = unknown(file, patterns, body) + wrong_patterns(patterns) + wrong_counts(body) + wrong_constants(collected.constants, body)
            found += [(file.path, line + file.offset_of(text, word), f"{name}{why}") for word, why in wrong]
        case = uncovered([patterns for patterns, _ in clauses])
        if case:
            found.append((file.path, file.line_of(name), f"{name}: no clause is of the case `{' '.join((name, *case))}`"))
    return found


def unknown(file, patterns, body):
    """The words of a clause that its file doesn't know, each with what is said of it."""
    return [(word, f" uses `{antt.shown_word(word)}`, which the file neither defines nor imports")
            for word in sorted(antt.used_in(patterns, body) - {*file.heads, *file.uses})]


def wrong_patterns(patterns):
    """The stimuli of a clause's patterns that stand with another number of parts than they have."""
    found = []
    for pattern in patterns:
        if pattern[0] == "made":
            parts = STIMULUS_PARTS.get(pattern[1])
            if parts is not None and len(pattern[2]) != len(parts):
                found.append((pattern[1], f": {pattern[1]} stands with {parts_in_words(len(pattern[2]))}, and has {len(parts)}"
                              + (f", {' and '.join(parts)}" if parts else "")))
    return found


def wrong_counts(body, given=0):
    """The acts and commands of a body that stand with another number of parts than they have."""
    if body[0] == "name":
        wanted = PARTS.get(body[1], given)
        return [(body[1], f": {body[1]} stands with {parts_in_words(given)}, and has {wanted}")] if given != wanted else []
    if body[0] == "call":
        return wrong_counts(body[1], len(body[2])) + [each for part in body[2] for each in wrong_counts(part)]
    return [each for part in antt.parts_of(body) for each in wrong_counts(part)]


def parts_in_words(count):
    return "no part" if count == 0 else "one part" if count == 1 else f"{count} parts"


def wrong_constants(constants, body):
    """The texts of the code that stand in a body without `.now`, which are the letters of a text, and the numbers that have it."""
    if body[0] == "name":
        return [(body[1], f": {body[1]} is a text of the code, whose characters are {body[1]}.now")] if isinstance(constants.get(body[1]), (list, tuple)) else []
    if body[0] == "field" and body[1][0] == "name" and body[1][1] in constants:
        is_number = isinstance(constants[body[1][1]], int)
        return [(body[1][1], f": {body[1][1]} is a number of the code, and has no .{body[2]}")] if is_number else []
    return [each for part in antt.parts_of(body) for each in wrong_constants(constants, part)]


# cases

def uncovered(rows):
    """A case that none of some clauses is of, by their patterns; None where each case has one, or that isn't known."""
    if not rows or not rows[0]:
        return None if rows else []
    heads = [as_made(row[0]) for row in rows]
    made = {name for name, _ in filter(None, heads)}
    known = next((of_type for of_type in TYPES if made & {*of_type}), {})
    if made - {*known} - {int}:
        return None
    if not known or {*known} - made:
        rest = uncovered([row[1:] for row, head in zip(rows, heads) if head is None])
        absent = next((name for name in known if name not in made), None)
        return None if rest is None else [shown_case(absent, ["_"] * known[absent]) if made and absent else "_", *rest]
    for name, count in known.items():
        taken = [(head[1] if head else [["any"]] * count) + row[1:] for row, head in zip(rows, heads) if head is None or head[0] == name]
        rest = uncovered(taken) if taken else ["_"] * (count + len(rows[0]) - 1)
        if rest is not None:
            return [shown_case(name, rest[:count]), *rest[count:]]
    return None


def as_made(pattern):
    """The constructor of a pattern and its parts; None where any value is of it."""
    kind, *parts = pattern
    if kind in ("any", "bound"):
        return None
    if kind == "number":
        # numbers have no end
        return int, []
    if kind == "truth":
        return str(parts[0]).lower(), []
    return {"empty": ("[]", []), "head": ("∷", parts), "pair": (",", parts)}.get(kind) or (parts[0], parts[1])


def shown_case(name, parts):
    if name in ("∷", ","):
        return f"({parts[0]} ∷ {parts[1]})" if name == "∷" else f"({parts[0]}, {parts[1]})"
    return f"({' '.join((name, *parts))})" if parts else name


# the code beside the definitions

class Phases:
    """The files with the minds of the kinds, and the code whose phases have numbers there."""

    def __init__(self, crates, collected):
        self.folder = kinds.source(crates, *MINDS)
        self.declared = declared_phases(kinds.source(crates, *CODE))
        self.names = kinds.kinds_in(collected.definitions["by_kind"])
        self.collected = collected

    def findings(self):
        found, left = [], dict(self.declared)
        for path in (os.path.join(self.folder, name) for name in sorted(os.listdir(self.folder)) if name.endswith(".antt")):
            file = antt.File(path)
            module = next((place.split(".")[4] for place, _ in file.uses.values() if place.endswith(".Phase")), None)
            if module and "phase_of" in file.heads:
                found += self._of_mind(file, module, left.pop(module, None))
        return found + [(path, 1, "no file of boxed_applets/specs gives its phases numbers (phase_of)") for path, _, _ in left.values()]

    def _of_mind(self, file, module, declared):
        """What is wrong with the mind of a kind."""
        code, line = f"boxed_applets/src/{module}.rt", file.line_of("phase_of")
        if declared is None:
            return [(file.path, line, f"{code}, whose phases have numbers here, has no phases or isn't there")]
        path, phases, numbers_of_kind = declared
        numbers = [pair for _, clause in file.texts("phase_of") for pair in re.findall(r"^phase_of (\w+) = *(\S+)", clause)]
        return ([(file.path, line, why) for why in wrong_numbers(numbers, phases, code, file)]
                + self._of_kind(file, path, numbers_of_kind, numbers))

    def _of_kind(self, file, path, numbers_of_kind, numbers):
        """What is wrong with the number of the kind, and with phases to which its table never turns."""
        name = next((head.removesuffix("_mind") for head in file.heads if head.endswith("_mind")), None)
        if name not in self.names:
            return []
        number, found = self.names.index(name) + 1, []
        for line, clause in file.texts(f"{name}_mind"):
            wrong = [int(given) for given in re.findall(r"\b(?:mind_of|fresh) (\d+)", clause) if int(given) != number]
            found += [(file.path, line, f"{name} is kind {number}, and not {given}") for given in wrong]
        found += [(path, line, f"{name} is kind {number}, and not {given}") for line, given in numbers_of_kind if given != number]
        turned = turned_to(self.collected, name)
        for phase, given in numbers if turned is not None else ():
            if given.isdigit() and int(given) not in turned:
                found.append((file.path, file.line_of("phase_of"), f"phase_of gives {phase} the number {given}, to which no turn of {name} leads"))
        return found


def wrong_numbers(numbers, phases, code, file):
    """What is wrong with the numbers of the phases."""
    numbered = {phase for phase, _ in numbers}
    for number in sorted({number for _, number in numbers}):
        alike = [phase for phase, other in numbers if other == number]
        if len(alike) > 1:
            yield f"phase_of gives {' and '.join(alike)} the same number, {number}"
    for phase in phases:
        if phase not in numbered and "_" not in numbered:
            yield f"phase_of has no number for {phase}, a phase of {code}"
    for phase in sorted(numbered - {*file.uses, "_"}):
        yield f"phase_of uses `{phase}`, which the file neither defines nor imports"


def turned_to(collected, name):
    """The phases to which the turns of a kind lead; None where that isn't known."""
    found, waiting, seen = {0}, [name], set()
    while waiting:
        each = waiting.pop()
        if each in seen or each not in collected.definitions:
            continue
        seen.add(each)
        for _, body in collected.definitions[each] if each not in TURNS else ():
            phases = phases_in(body)
            if None in phases:
                return None
            found |= phases
            waiting += antt.names_in(body)
    return None if seen & {*collected.unreadable} or name not in seen else found


def phases_in(body):
    """The phases that stand in the turns of a body; None for one that is no number."""
    found = set().union(*map(phases_in, antt.parts_of(body)))
    if body[0] == "call" and body[1][0] == "name" and body[1][1] in TURNS:
        phase = body[2][TURNS[body[1][1]]:][:1]
        found.add(phase[0][1] if phase and phase[0][0] == "number" else None)
    return found


def declared_phases(folder):
    """The files of the applets' code that declare phases, by their modules: the path, the names of the phases, and the lines at which the code
    says of which kind it is, each with that number."""
    found = {}
    for name in sorted(os.listdir(folder)):
        path = os.path.join(folder, name)
        with open(path, encoding="utf-8") as source:
            text = source.read()
        declared = re.search(r"^enum Phase \{\n(.*?)^\}", text, re.MULTILINE | re.DOTALL)
        if declared:
            said = [(text.count("\n", 0, each.start(1)) + 1, int(each[1]))
                    for each in re.finditer(r"(?:\bfn kind\(&self\) -> u8 \{\s*|≡ fresh )(\d+)", text)]
            found[name.removesuffix(".rt")] = path, re.findall(r"^    (\w+)", declared[1], re.MULTILINE), said
    return found
