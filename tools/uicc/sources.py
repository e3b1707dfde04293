"""What the crates' sources declare and cite: the definitions of specs/, the functions, types, constants and clauses of src/."""
import dataclasses
import functools
import os
import re

from uicc import process

CRATES = os.path.join(process.TOP, "crates")
KITS = ("arrayvec", "hex", "itoa", "linked_list_allocator", "memchr", "rand_core", "rand_pcg", "thiserror", "core", "std_alloc")

NAME = r"[^\s(){}\[\]:;,.|]+"
SPEC = re.compile(rf"^(?:(?:abbrev|unfoldable|opaque|pub|record|data) )+({NAME})(?= )")
LEMMA = re.compile(rf"^(?:[a-z]+ )*({NAME}) :")
SPEC_FIELD = re.compile(rf"^  pub ({NAME}) :")
SPEC_VARIANT = re.compile(r"^  ([A-Za-z]\w*) :")
ITEM = re.compile(r"^\s*(?:pub(?:\([a-z]+\))? )?(?:const |unsafe )*(fn|struct|enum|trait|const|type|mod|static|macro_rules)!? (\w+)")
GHOST = re.compile(r"^\s*ghost (?!use\b)(?:fn )?(\w+)")
CLAUSE = re.compile(r"^\s*(ensures|requires)(?: (\w+))? \{")
VARIANT = re.compile(r"^\s+([A-Z]\w*)(?:\(|\{| \{|,|$)")
FIELD = re.compile(r"^\s+(?:pub )?([a-z]\w*): ")
USE = re.compile(r"^\s*(pub |ghost )?use Rattle\.([\w.]+?)(?:\.\{(.*)\})?(?: as (\w+))?;?$")
WORD = re.compile(r"[A-Za-z_]\w*")
CITED = ("record", "data", "definition", "struct", "enum", "trait", "const")

# the functions whose clauses are the theorem: a run, what the program answers, and the program itself
THEOREM = (("uicc_run", "run"), ("uicc_run", "answer"), ("uicc_program", "serve"))


@dataclasses.dataclass(frozen=True)
class Declared:
    """A name that a file declares. `home` is the crate and the module that a `use` names: `declared` for a file of src/, whatever stands
    after it (`TheVariants`, `TheConstants`, `TheInside`)."""
    crate: str
    home: str
    name: str
    kind: str
    path: str
    line: int
    comment: str
    inside: str = ""


@functools.cache
def crates(text=None):
    """Each crate with the libraries that its row names, in the order of crates.txt."""
    if text is None:
        with open(os.path.join(process.TOP, "crates.txt"), encoding="utf-8") as lines:
            text = lines.read()
    named = (line.split(":") for line in text.splitlines() if line.strip() and not line.startswith("#"))
    return {name.strip(): below.split() for name, below in named}


def files_below(crate, folder, ending):
    """The files of a crate, by their paths from the top."""
    for place, _, names in sorted(os.walk(os.path.join(CRATES, crate, folder))):
        for name in sorted(names):
            if name.endswith(ending):
                yield os.path.relpath(os.path.join(place, name), process.TOP)


def lines_of(path):
    with open(os.path.join(process.TOP, path), encoding="utf-8") as text:
        return text.read().splitlines()


# what a file declares

def comment_above(lines, at, mark):
    """The lines of comment that stand directly above a place, as one text; attributes, fixities and the head of a block may stand
    between."""
    found = []
    for line in reversed(lines[:at]):
        word = line.strip()
        if word.startswith(mark) and not word.startswith("-- ----"):
            found.insert(0, word.removeprefix(mark).strip())
        elif found or not (word.startswith(("#[", "infix")) or word.endswith("mutual")):
            break
    return " ".join(found)


def kind_of(line):
    words = line.split()
    return next((word for word in ("record", "data") if word in words[:words.index(":") if ":" in words else len(words)]), "definition")


def module_of(path):
    """The module that a `use` names for a file of specs/: `specs/Runs.antt` is `Runs`."""
    return os.path.splitext(path.split("/", 3)[3])[0].replace("/", ".")


def unblocked(lines):
    """Lines in which what stands in a `mutual` or a `module` block is not indented."""
    in_block = False
    for line in lines:
        if line and not line.startswith((" ", "--")):
            in_block = line.split()[-1] == "mutual" or line.startswith("module ")
        yield line.removeprefix("  ") if in_block else line


def declared_by_spec(crate, path, lines):
    home, last = module_of(path), ""
    for at, line in enumerate(unblocked(lines)):
        found = SPEC.match(line)
        field = SPEC_FIELD.match(line) or SPEC_VARIANT.match(line)
        if found:
            last = found.group(1)
            yield Declared(crate, home, last, kind_of(line), path, at + 1, comment_above(lines, at, "--"))
        elif field and last:
            yield Declared(crate, home, field.group(1), "field", path, at + 1, "", last)
        elif line and not line.startswith((" ", "-")):
            last = ""


def declared_by_source(crate, path, lines):
    """Items with their clauses, variants and fields."""
    last, kind = "", ""
    for at, line in enumerate(lines):
        item, ghost, clause = ITEM.match(line), GHOST.match(line), CLAUSE.match(line)
        if item:
            kind, last = item.groups()
            yield Declared(crate, "declared", last, kind, path, at + 1, comment_above(lines, at, "///"))
        elif ghost:
            yield Declared(crate, "declared", ghost.group(1), "ghost", path, at + 1, comment_above(lines, at, "///"))
        elif clause and clause.group(2):
            yield Declared(crate, "declared", clause.group(2), "clause", path, at + 1, comment_above(lines, at, "//"), last)
        elif kind in ("enum", "struct"):
            found = (VARIANT if kind == "enum" else FIELD).match(line)
            if found:
                yield Declared(crate, "declared", found.group(1), "variant" if kind == "enum" else "field", path, at + 1, "", last)
            elif line.startswith("}"):
                kind = ""


@functools.cache
def declared():
    """All that the crates declare, crate by crate."""
    found = []
    for crate in crates():
        for path in files_below(crate, "specs", ".antt"):
            found += declared_by_spec(crate, path, lines_of(path))
        for path in files_below(crate, "src", ".rt"):
            found += declared_by_source(crate, path, lines_of(path))
    return found


@functools.cache
def lemmas(crate):
    """The names of what specs/ and proofs/ prove."""
    paths = (*files_below(crate, "specs", ".antt"), *files_below(crate, "proofs", ".antt"))
    return {found.group(1) for path in paths for line in lines_of(path) if (found := LEMMA.match(line))}


def definitions():
    """What contracts can cite."""
    return [one for one in declared() if one.kind in CITED]


# what a file cites

def used(lines):
    """What the `use` lines of a file say: the name that stands in the file, the crate, the module and the name there, and whether it is
    handed on."""
    for line in lines:
        found = USE.match(line)
        if not found:
            continue
        parts = found.group(2).split(".")
        if len(parts) < 2 or parts[1] != "specs":
            continue
        crate, inside = parts[0], parts[2:]
        home = "declared" if inside[:1] == ["declared"] else ".".join(inside)
        for item in (found.group(3) or "").split(", "):
            if item:
                name, _, alias = item.partition(" as ")
                yield alias or name, crate, home, name, found.group(1) == "pub "


def handed_on():
    """Where a name is declared that another module hands on."""
    return {(crate, module_of(path), alias): (origin, home, name)
            for crate in crates() for path in files_below(crate, "specs", ".antt")
            for alias, origin, home, name, public in used(lines_of(path)) if public}


def origin_of(key, handing):
    while key in handing and handing[key] != key:
        key = handing[key]
    return key


def places(path, lines):
    """Each line that may cite something, with what it belongs to: a definition, or an item and its clause."""
    item, clause = "", ""
    for line in unblocked(lines) if path.endswith(".antt") else lines:
        if USE.match(line) or line.lstrip().startswith(("--", "//")):
            continue
        if path.endswith(".antt"):
            found = SPEC.match(line)
            item = found.group(1) if found else item
        else:
            found, named = ITEM.match(line), CLAUSE.match(line)
            item, clause = (found.group(2), "") if found else (item, clause)
            clause = named.group(2) or named.group(1) if named else clause
        yield line, item, clause


def citations():
    """Who cites each definition: crate, home and name with the places (path, item, clause) that name it."""
    handing, found = handed_on(), {}
    known = {(one.crate, one.home, one.name) for one in definitions()}
    for crate in crates():
        for path in (*files_below(crate, "src", ".rt"), *files_below(crate, "specs", ".antt")):
            lines = lines_of(path)
            aliases = {alias: origin_of((origin, home, name), handing) for alias, origin, home, name, _ in used(lines)}
            if path.endswith(".antt"):
                home = module_of(path)
                aliases.update({name: (crate, home, name) for one, at, name in known if (one, at) == (crate, home)})
            for line, item, clause in places(path, lines):
                for word in WORD.findall(line):
                    key = aliases.get(word)
                    if key in known and item and item != word:
                        found.setdefault(key, {})[(path, item, clause)] = True
    return {key: list(where) for key, where in found.items()}


@functools.cache
def of_theorem(functions=THEOREM):
    """The definitions of specs/ that the clauses of these functions, each a crate and a name, cite, and those that these cite in turn."""
    cites, todo = {}, []
    for key, where in citations().items():
        for path, item, clause in where:
            crate, folder = path.split("/")[1:3]
            if folder == "specs":
                cites.setdefault((crate, module_of(path), item), []).append(key)
            elif clause and (crate, item) in functions:
                todo.append(key)
    found = set()
    while todo:
        key = todo.pop()
        if key not in found:
            found.add(key)
            todo += cites.get(key, [])
    return [one for one in definitions() if one.home != "declared" and (one.crate, one.home, one.name) in found]


def text_of(one):
    """The lines of a definition of specs/, with the comment above it."""
    lines = lines_of(one.path)
    first = one.line - 1
    while first and lines[first - 1].strip().startswith("--") and not lines[first - 1].strip().startswith("-- ----"):
        first -= 1
    last = one.line
    while last < len(lines) and lines[last].strip():
        last += 1
    return lines[first:last]
