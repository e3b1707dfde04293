"""Which kinds of applets there are, on which shelves they stand, and what each does at an event: by the definitions of the sources, which the
code is proved to follow.

`data/kinds.json` has them for where no sources are; `tools/applet write` writes it, and a test compares it with the sources. Of a program
that is built here, or of a draft, the sources themselves are asked. What a kind is called in a sentence (`does`) stands in that file alone.
`kind_faults` tells what the prover would not take of them."""
import functools
import hashlib
import json
import os
import re
import sys

from . import antt, evaluation, names, process

PLACE = os.path.join(names.DATA, "kinds.json")
TABLE = "table"
# where the sources say it
TURNS, MINDS = ("applet_trait", "specs", "Turns.antt"), ("applet_trait", "specs", "Minds.antt")
SHELVES, SIZES = ("boxed_applets", "specs", "Casts.antt"), ("card_state", "src", "sizes.rt")
HOW_MANY = 32
# what isn't read from a definition, but is here once for all
PRIMITIVES = ("value_in",)


class Faulty(Exception):
    """The sources say in no form that is known here which kinds there are."""


class Kinds:
    """The kinds of applets. `fault` says why they may be others than those of the program, `lacking` names those that it doesn't have."""

    def __init__(self, data, fault=None, lacking=()):
        self.data, self.fault, self.lacking = data, fault, tuple(lacking)
        self.names = [kind["name"] for kind in data["kinds"]]
        self._meaning = evaluation.Definitions(data["definitions"], data["constants"])

    def on(self, shelf):
        """The number of the kind on a shelf, from 1 on."""
        return self.data["shelves"][shelf]

    def name_on(self, shelf):
        return self.names[self.on(shelf) - 1]

    def does_on(self, shelf):
        """What the applet on a shelf does, after the words `an applet that`."""
        return self.data["kinds"][self.on(shelf) - 1]["does"]

    def is_table(self, shelf):
        """Whether the applet on a shelf does what its bytes say."""
        return self.name_on(shelf) == TABLE

    def shelves_of(self, name):
        return [shelf for shelf, kind in enumerate(self.data["shelves"]) if self.names[kind - 1] == name]

    def fresh(self, shelf, kept):
        """The mind of the applet on a shelf that woke with what it keeps."""
        return self._meaning.call("fresh", self.on(shelf), tuple(kept))

    def turn(self, mind, stimulus):
        """What an applet of this mind does at a stimulus, and its mind then. `evaluation.Unknown`, where that can't be worked out."""
        name = self.names[mind["kind"] - 1]
        if name in self.data["unreadable"]:
            raise evaluation.Unknown(f"the definition of {name} is in a form that isn't read here: {self.data['unreadable'][name]}")
        found = self._meaning.call("act", mind, stimulus)
        return found["does"], found["next"]


# what the sources say

def source(crates, *place):
    return os.path.join(crates, *place)


class Collected:
    """The definitions that some others are made of, wherever they stand."""

    def __init__(self, crates):
        self.crates, self.files, self.definitions, self.constants, self.unreadable = crates, {}, {}, {}, {}
        # the file of each definition, and the line where one begins to be unreadable
        self.places, self.lines = {}, {}

    def file(self, path):
        if path not in self.files:
            self.files[path] = antt.File(path)
        return self.files[path]

    def add(self, path, name):
        """A definition of a file, and all that it names."""
        if name in self.definitions or name in self.unreadable:
            return
        self.places[name] = path
        try:
            self.definitions[name] = found = self.file(path).clauses(name)
        except (antt.Unreadable, antt.NoHead, OSError) as fault:
            self.unreadable[name] = str(fault)
            self.lines[name] = getattr(fault, "line", None)
            return
        for used in sorted(set().union(*(antt.names_in(body) for _, body in found))):
            self._use(path, used)

    def _use(self, path, name):
        if name in PRIMITIVES:
            return
        if name in self.file(path).heads:
            self.add(path, name)
        elif name in self.file(path).uses:
            module, own = self.file(path).uses[name]
            parts = module.split(".")
            if parts[2:4] == ["specs", "declared"]:
                # what else is declared there are types and their constructors
                if "TheConstants" in parts:
                    self._constant(parts[1], parts[4], name, own)
            elif parts[2:3] == ["specs"] and os.path.isdir(source(self.crates, parts[1])):
                self.add(source(self.crates, parts[1], "specs", *parts[3:-1], parts[-1] + ".antt"), own)

    def _constant(self, crate, module, name, own):
        found = antt.constants_of(source(self.crates, crate, "src", module + ".rt"))
        if own in found:
            self.constants[name] = found[own]
        else:
            self.unreadable[name] = f"{own} is no constant that is read here"

    def made_of(self, name, seen=()):
        """What a definition lacks that is made of some which can't be read, or None."""
        if name in self.unreadable:
            return f"{name}: {self.unreadable[name]}"
        if name in seen or name not in self.definitions:
            return None
        used = set().union(*(antt.names_in(body) for _, body in self.definitions[name]))
        return next(filter(None, (self.made_of(each, (*seen, name)) for each in sorted(used))), None)


def collected_from(crates, path, name, *needed):
    """A definition with all that it is made of, of which some are needed."""
    collected = Collected(crates)
    collected.add(path, name)
    for each in (name, *needed):
        if each not in collected.definitions:
            raise Faulty(f"the definition of {each} isn't read: {collected.unreadable.get(each, 'it is not there')}")
    return collected


def kinds_in(by_kind):
    """The names of the kinds, from 1 on: those of the chain that parts them."""
    (_, chain), = by_kind
    found = []
    while chain[0] == "if":
        if chain[1] != ["==", ["name", "kind"], ["number", len(found) + 1]]:
            raise Faulty(f"the kinds of by_kind are not numbered from 1 on: {chain[1]}")
        found.append(chain[2][1][1])
        chain = chain[3]
    return found


def collected_turns(crates):
    """What applets do, with all that it is made of."""
    collected = collected_from(crates, source(crates, *TURNS), "act", "by_kind")
    collected.add(source(crates, *MINDS), "fresh")
    return collected


def of_sources(crates, known=()):
    """The kinds as the sources have them; `known` are those whose words stand in data/kinds.json."""
    placed = collected_from(crates, source(crates, *SHELVES), "applet_on", "fresh")
    collected = collected_turns(crates)
    found = kinds_in(collected.definitions["by_kind"])
    last = antt.constants_of(source(crates, *SIZES)).get("LAST_KIND")
    if last != len(found):
        raise Faulty(f"LAST_KIND of card_state is {last}, and by_kind of applet_trait has {len(found)} kinds")
    meaning = evaluation.Definitions(placed.definitions, placed.constants)
    does = {kind["name"]: kind["does"] for kind in known}
    of_shelves = [meaning.call("applet_on", shelf).parts[0]["kind"] for shelf in range(HOW_MANY)]
    unreadable = {name: collected.made_of(name) for name in found if collected.made_of(name)}
    return {
        "kinds": [{"name": name, "does": does.get(name, f"is a {name}")} for name in found], "shelves": of_shelves,
        "constants": dict(sorted(collected.constants.items())), "definitions": dict(sorted(collected.definitions.items())), "unreadable": unreadable,
    }


def of_file():
    with open(PLACE, encoding="utf-8") as text:
        return json.load(text)


def written(data):
    """The text of data/kinds.json: a line for each thing that may change."""
    def lines(value):
        return ",\n".join(f"  {json.dumps(name)}: {json.dumps(one, ensure_ascii=False)}" for name, one in value.items())
    parts = [' "kinds": [\n' + ",\n".join("  " + json.dumps(kind) for kind in data["kinds"]) + "\n ]", f' "shelves": {json.dumps(data["shelves"])}']
    parts += [f' "{name}": {{\n{lines(data[name])}\n }}' if data[name] else f' "{name}": {{}}' for name in ("constants", "definitions", "unreadable")]
    return "{\n" + ",\n".join(parts) + "\n}\n"


# those of the program

def are_of_sources():
    """Whether the program that runs is of the sources here: a draft, or one that is built here."""
    named = os.environ.get("UICC_RUN")
    return os.path.isdir(os.path.join(process.TOP, "crates")) and (named == process.DRAFT if named else os.access(process.BUILT, os.X_OK))


@functools.cache
def told(by_sources):
    data = of_file()
    if not by_sources:
        return Kinds(data)
    try:
        return Kinds(of_sources(os.path.join(process.TOP, "crates"), data["kinds"]))
    except (Faulty, OSError, evaluation.Unknown) as fault:
        return Kinds(data, f"the kinds of applets can't be read from the sources, and are those of {os.path.relpath(PLACE, process.TOP)}: {fault}")


def of_program():
    """The kinds of the program that runs."""
    known = told(are_of_sources())
    lacking = [] if are_of_sources() else not_released(known.names)
    if not lacking:
        return known
    return Kinds(known.data, f"the released program runs, which has no {' and no '.join(lacking)}: with UICC_RUN=draft in the environment that of the sources does",
                 lacking)


@functools.cache
def warn():
    """Says on standard error, once, where the program that runs lacks a kind which the sources have, or is of other sources than stand here, as the
    launcher does."""
    known = of_program()
    if known.lacking:
        print(f"uicc: {known.fault}", file=sys.stderr, flush=True)
    elif is_of_other_sources():
        print("uicc_run: the released program runs, and the sources that stand here are other ones: with UICC_RUN=draft in the environment theirs runs, "
              "with nothing proved", file=sys.stderr, flush=True)


def released_list():
    """What the released program was made of, the sums by their files, where that program runs and the sources stand here; otherwise nothing."""
    if os.environ.get("UICC_RUN") or os.access(process.BUILT, os.X_OK) or not os.path.isdir(os.path.join(process.TOP, "crates")):
        return {}
    try:
        with open(os.path.join(os.path.dirname(process.RELEASED), "release.txt"), encoding="utf-8") as text:
            return {path: found for found, path in re.findall(r"^([0-9a-f]{64})  (crates[./]\S+)$", text.read(), re.MULTILINE)}
    except OSError:
        return {}


def not_released(found):
    """Those of some kinds that the released program doesn't have, where that is the one which runs: the list of what it was made from names no code
    of theirs."""
    listed = {found[1] for found in map(re.compile(r"crates/boxed_applets/src/(\w+)\.rt").fullmatch, released_list()) if found}
    return [name for name in found if name + "s" not in listed] if listed else []


def is_of_other_sources():
    """Whether a source stands otherwise here than the released program was made of."""
    for path, wanted in released_list().items():
        try:
            with open(os.path.join(process.TOP, path), "rb") as content:
                if hashlib.sha256(content.read()).hexdigest() != wanted:
                    return True
        except OSError:
            return True
    return False
