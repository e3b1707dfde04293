"""A new kind of applet in the sources: its files, and what changes in those that are there. It does nothing yet, and is proved as it stands.
Also a text that applets show, in each place where it stands."""
import os
import re

from . import antt, kinds, rooms

NUMBERS = ("no", "one", "two", "three", "four", "five", "six", "seven", "eight", "nine", "ten", "eleven", "twelve")
# words that a kind can't be called by
WORDS = frozenset("""as async await box break const continue crate dyn else enum extern false fn for ghost if impl in let loop match mod move mut pub
    ref return self static struct super trait true type union unsafe use where while yield abbrev data elim open record ruleset syntax tactic
    unfoldable unfolding""".split())
MOST_KINDS = kinds.HOW_MANY
SOURCE = """\
//! The applet that {does}.
ghost use Rattle.std.specs.Prelude.{{◌≡◌, []}};
ghost use Rattle.applet_trait.specs.Minds.{{fresh}};

use crate::acts::be_done;
use crate::states::State;
use applet_trait::{{Act, Applet, Stimulus}};
use uicc_types::Kept;

#[derive(Clone, Copy)]
enum Phase {{
    /// It waits for an event. Done always leads here.
    Ready,
}}

/// Kind {number}: it {does}.
#[derive(Drop)]
pub struct {type} {{
    state: State<Phase>,
}}

impl {type} {{
    /// One that keeps nothing yet.
    pub fn new() -> Self
        ensures {{ ⟦<{type} as Applet>⟧.mind result ≡ fresh {number} [] }}
    {{
        {type} {{
            state: State::new(Phase::Ready),
        }}
    }}
}}

#[tactic(auto, unfolding(applet_trait::specs::Turns::act))]
impl Applet for {type} {{
    ghost use Rattle.boxed_applets.specs.{module}.{{{name}_mind}};

    ghost mind = {{ {name}_mind }};

    fn kind(&self) -> u8 {{
        {number}
    }}

    fn wake(&mut self, kept: &Kept) {{
        self.state.wake(Phase::Ready, kept);
    }}

    fn step(&mut self, stimulus: &Stimulus) -> Act {{
        let mut does = Act::Done;
        self.step_into(stimulus, &mut does);
        does
    }}

    fn step_into(&mut self, stimulus: &Stimulus, does: &mut Act) {{
        self.state.settle(stimulus);
        self.state.phase = Phase::Ready;
        be_done(does);
    }}
}}
"""
MIND = """\
-- The mind of the applet that {does}.
use Rattle.std.specs.Prelude.{{ℕ}}
use Rattle.applet_trait.specs.Minds.{{AppletState}}
use Rattle.boxed_applets.specs.States.{{mind_of}}
use Rattle.boxed_applets.specs.declared.{file}.Phase.{{Phase}}
use Rattle.boxed_applets.specs.declared.{file}.Phase.TheVariants.{{Ready}}
use Rattle.boxed_applets.specs.declared.{file}.{type}.{{{type}}}

-- the number of a phase in the table of the kind
abbrev phase_of : Phase → ℕ
phase_of Ready = 0

abbrev pub {name}_mind : {type} → AppletState
{name}_mind {name} = mind_of {number} phase_of {name}.state
"""
TABLE = """
-- Kind {number}, the {name}, {does}.

abbrev pub {name} : AppletState → Stimulus → Turn
{name} mind _ = done mind
"""
LAWFUL = """\
{name}_lawful : (mind : AppletState) (stimulus : Stimulus) → mind.asked ≡ None → IsLawful mind.kind mind.kept ({name} mind stimulus)
{name}_lawful mind _ none = lawful_done mind none

"""
PROPER = """\
{name}_proper : (mind : AppletState) (stimulus : Stimulus) → IsProperTurn ({name} mind stimulus)
{name}_proper mind _ = proper_done mind

"""
ROWS = """\
# The applet that {does}: nothing yet.
applet {name} - => kind {number}
on event 40 - => done
on event 43 00 => done
on response 00 0 - => done
boxed {name} "AB" event 40 - => kind {number}, done

"""


# a line for each kind in the trials of units
LINES = (
    "    {name}: {type},\n", "            {name}: {type}::new(),\n", '        "{name}" => Some(Kind::{type}),\n',
    "            Some(Kind::{type}) => show_asked(&mut self.{name}, asked, row),\n", "        Some(Kind::{type}) => in_box!(alloc, {type}::new()),\n",
)


class Refused(Exception):
    """There can be no such kind or text, or the sources are in another form than those that are known here."""


class Text:
    """A file of the sources whose text is changed; what is to be changed has to stand there, once where no count is given."""

    def __init__(self, crates, *place):
        self.place, self.path = "/".join(("crates", *place)), os.path.join(crates, *place)
        try:
            with open(self.path, encoding="utf-8") as text:
                self.text = text.read()
        except FileNotFoundError:
            raise Refused(f"{self.place} isn't there") from None

    def replace(self, old, new, count=1):
        if self.text.count(old) != count:
            raise Refused(f"{self.place} has `{old.strip()}` {self.text.count(old)} times, and not {count}: it is to be changed by hand")
        self.text = self.text.replace(old, new)

    def match(self, pattern):
        found = re.search(pattern, self.text, re.MULTILINE)
        if not found:
            raise Refused(f"{self.place} has nothing like `{pattern}`: it is to be changed by hand")
        return found

    def sub(self, pattern, new):
        found = self.match(pattern)
        made = new(found) if callable(new) else found.expand(new)
        self.text = self.text[:found.start()] + made + self.text[found.end():]

    def add_line(self, line, like):
        """Puts a line among those that begin alike, in their order."""
        lines = self.text.split("\n")
        places = [at for at, one in enumerate(lines) if one.startswith(like)]
        if not places:
            raise Refused(f"{self.place} has no line that begins with `{like}`: it is to be changed by hand")
        after = next((at for at in places if lines[at] > line), places[-1] + 1)
        self.text = "\n".join([*lines[:after], line, *lines[after:]])

    def before(self, mark, text):
        self.replace(mark, text + mark)

    def many(self, old, new):
        """Replaces each, of which there is one at least."""
        self.replace(old, new, max(1, self.text.count(old)))


class Kind:
    """A new kind, by its name and what it does in a few words."""

    def __init__(self, crates, name, does):
        self.crates = crates
        known = kinds.of_sources(crates)
        self.names = [kind["name"] for kind in known["kinds"]]
        self.number = len(self.names) + 1
        self.shelf = MOST_KINDS + 7 - self.number
        self.is_of = known["shelves"][self.shelf]
        self.last = self.names[-1]
        self.words = {"name": name, "type": type_of(name), "file": name + "s", "module": type_of(name) + "s", "number": self.number, "does": does}
        self.refuse(name, does)

    def refuse(self, name, does):
        if not re.fullmatch(r"[a-z]+(_[a-z]+)*", name):
            raise Refused(f"a kind is called by lower-case letters, as `reminder` or `night_owl`, and not {name}")
        if not re.fullmatch(r"[a-z][ -~]{0,60}", does) or re.search(r"[.*/{}\"\\]", does):
            raise Refused(f"what it does are a few words that go on after `the applet that`, as `reminds of a call`, and not {does}")
        if self.shelf <= 0:
            raise Refused("no shelf is left for another kind")
        taken = self.taken()
        for word in (name, self.words["type"], self.words["file"], name + "_mind", name + "_lawful", name + "_proper"):
            if word in taken:
                raise Refused(f"`{word}` is a name of the sources already")

    def taken(self):
        """The names that stand where this kind's are to stand."""
        found = set(WORDS)
        for place in ("specs/Tables", "specs/Turns", "specs/Minds", "proofs/IsLawfulLemmas", "proofs/IsProperActLemmas"):
            file = antt.File(os.path.join(self.crates, "applet_trait", place + ".antt"))
            found |= set(file.uses) | set(file.heads)
        source = os.path.join(self.crates, "boxed_applets", "src")
        for file in os.listdir(source):
            with open(os.path.join(source, file), encoding="utf-8") as text:
                found |= set(re.findall(r"\b[A-Za-z_]\w*", text.read())) if file == "lib.rt" else {file.removesuffix(".rt")}
        return found | {"State", "Phase", "Act", "Applet", "Stimulus", "Kept", "Self"}

    def file(self, *place):
        return Text(self.crates, *place)

    def new_files(self):
        """The files of the kind, by their places."""
        return {("boxed_applets", "src", self.words["file"] + ".rt"): SOURCE.format(**self.words),
                ("boxed_applets", "specs", self.words["module"] + ".antt"): MIND.format(**self.words)}

    def changed(self):
        """The files that are there, changed."""
        return [*self._counted(), *self._table(), *self._boxes(), *self._rows()]

    def _counted(self):
        """How many kinds there are, where it stands."""
        before, now = self.number - 1, self.number
        sizes, numbers = self.file("card_state", "src", "sizes.rt"), self.file("uicc_run", "specs", "StandardNumbers.antt")
        registration = self.file("card_state", "proofs", "IsRegistrationLemmas.antt")
        checks = self.file("layout_section", "proofs", "ChecksLemmas.antt")
        sizes.replace(f"pub const LAST_KIND: u8 = {before};", f"pub const LAST_KIND: u8 = {now};")
        numbers.sub(rf"^(  pub applets : bound\.LAST_KIND .*\n +≡ ){before}(?= ∷)", rf"\g<1>{now}")
        found = [sizes, numbers]
        # these two have the number in their steps, where they don't name LAST_KIND
        for text, words in ((registration, "row.kind ≤"), (checks, "(row k).kind")):
            if f"{words} {before}" in text.text:
                text.many(f"{words} {before}", f"{words} {now}")
                found.append(text)
        return found

    def _table(self):
        """What it does, and that this is lawful and proper."""
        tables, turns = self.file("applet_trait", "specs", "Tables.antt"), self.file("applet_trait", "specs", "Turns.antt")
        lawful = self.file("applet_trait", "proofs", "IsLawfulLemmas.antt")
        proper = self.file("applet_trait", "proofs", "IsProperActLemmas.antt")
        name = self.words["name"]
        tables.text = tables.text.replace(f"of the {counted(self.number - 1)} kinds", f"of the {counted(self.number)} kinds")
        tables.text = tables.text.rstrip("\n") + "\n" + TABLE.format(**self.words)
        for text in (turns, lawful, proper):
            text.sub(r"^(use Rattle\.applet_trait\.specs\.Tables\.\{[^}]*)\}", rf"\1, {name}}}")
        turns.sub(r"^    else done mind(\)*)$", rf"    else (if kind == {self.number} then {name} mind stimulus\n    else done mind\1)")
        lawful.before("by_kind_lawful : ", LAWFUL.format(**self.words))
        lawful.sub(r"^(    \(either _ \(\w+_lawful mind stimulus none\)) (\(lawful_done mind none\)\)+)$",
                   rf"\1\n    (either _ ({name}_lawful mind stimulus none) \2)")
        proper.before("by_kind_proper : ", PROPER.format(**self.words))
        proper.sub(r"^(    \(either _ \(\w+_proper mind stimulus\)) (\(proper_done mind\)\)+)$",
                   rf"\1\n    (either _ ({name}_proper mind stimulus) \2)")
        return [tables, turns, lawful, proper]

    def _boxes(self):
        """Its place among the applets, and on a shelf."""
        library, specs = self.file("boxed_applets", "src", "lib.rt"), self.file("boxed_applets", "specs", "Lib.antt")
        casts, serve = self.file("boxed_applets", "src", "casts.rt"), self.file("uicc_program", "proofs", "serve", "Answers.antt")
        library.add_line(f"mod {self.words['file']};", "mod ")
        library.add_line(f"pub use {self.words['file']}::{self.words['type']};", "pub use ")
        specs.add_line(f"pub mod {self.words['module']}", "pub mod ")
        arm = r"\$crate::in_box!\(\$alloc, \$crate::(\w+)::new\(\), \|\$applet\| \$does\),"
        found = casts.match(rf"^            _ => {arm}$")
        before, last = found[0].replace("_ =>", f"{self.number - 1} =>"), found[0].replace(f"::{found[1]}::", f"::{self.words['type']}::")
        casts.replace(found[0], f"{before}\n{last}")
        self._prove_arm(serve)
        return [library, specs, casts, serve]

    def _prove_arm(self, serve):
        """The loop that puts the boxes on their shelves has a case for each kind, the last one of all others."""
        before, now = self.number - 1, self.number
        goal = rf"in_default\+in_Continue-boxed_applet-boxed_applet-{before}\+in_ok-put_on_shelf-{before}"
        found = serve.match(rf"^  \| ({goal}) w ↦ .*$")
        named = found[1].replace("in_default", f"in-{before}-boxed_applet", 1)

        def last(text):
            return re.sub(rf"(?<=[a-z])-{before}(?=[+ .]|$)", f"-{now}", text)
        serve.replace(found[0], found[0].replace(found[1], named) + "\n" + last(found[0]))
        serve.replace(found[1] + "}", f"{named}, {last(found[1])}}}")

    def _rows(self):
        """It stands among the kinds of the trials of units, with rows of its own."""
        source, table = self.file("unit_trials", "src", "applets.rt"), self.file("unit_trials", "data", "applets.table")
        stdout = self.file("unit_trials", "stdout")
        kind = self.words["type"]
        source.sub(r"^use boxed_applets::\{\n    ([^}]*?),?\n\};", lambda found: imported(found[1], kind))
        for line in LINES:
            last = line.format(name=self.last, type=type_of(self.last))
            source.replace(last, last + line.format(**self.words))
        source.replace(f"    {type_of(self.last)},\n}}", f"    {type_of(self.last)},\n    {kind},\n}}")
        table.before("# One applet of each kind in a box", ROWS.format(**self.words))
        table.sub(rf"^(shelf {self.shelf} => kind )\d+", rf"\g<1>{self.number}")
        table.text = re.sub(rf"^(shelf {self.shelf} .* => kind )\d+, .*$", rf"\g<1>{self.number}, done", table.text, flags=re.MULTILINE)
        rows = ROWS.count("=>")
        stdout.sub(r"^(\d+) rows, 0 differ", lambda found: f"{int(found[1]) + rows} rows, 0 differ")
        return [source, table, stdout]


def type_of(name):
    return "".join(word.capitalize() for word in name.split("_"))


def counted(number):
    return NUMBERS[number] if number < len(NUMBERS) else str(number)


def imported(names, kind):
    """The line of imports with one name more, in rustfmt's order and width."""
    found = [name.strip() for name in names.replace("\n", " ").split(",") if name.strip()]
    upper, lower = sorted([*(name for name in found if name[0].isupper()), kind]), [name for name in found if name[0].islower()]
    lines, line = [], "   "
    for name in [*upper, *lower]:
        if len(line) + len(name) + 2 > 100:
            lines.append(line)
            line = "   "
        line += f" {name},"
    return "use boxed_applets::{\n" + "\n".join([*lines, line]) + "\n};"


def write(kind):
    """Writes the kind into the sources: all of it, or nothing. Answers the places that are new and those that were changed."""
    changed, new = kind.changed(), kind.new_files()
    for place, text in new.items():
        with open(os.path.join(kind.crates, *place), "w", encoding="utf-8") as out:
            out.write(text)
    return ["/".join(("crates", *place)) for place in new], put(changed)


def with_article(name):
    return f"{'an' if name[0] in 'aeiou' else 'a'} {name}"


def put(changed):
    """Writes files that were changed, and answers their places."""
    for text in changed:
        with open(text.path, "w", encoding="utf-8") as out:
            out.write(text.text)
    return [text.place for text in changed]


# the texts of applets

def why_no_text(text):
    """Which of its characters a text may not have, or how many it has."""
    wrong = next((letter for letter in text if not re.fullmatch(r"[ !#-\[\]-~]", letter)), None)
    return f"not {len(text)} as this one" if wrong is None else f"`{wrong}` is none"


def put_text(crates, name, text):
    """Puts a text under a name wherever the sources have it: a new one, or another one under a name that is there. Answers the places
    that were changed, and the text that was there."""
    if not re.fullmatch(r"[A-Z]+(_[A-Z]+)*", name):
        raise Refused(f"a text is called by capital letters, as `ASK_FOR_NOTE`, and not {name}")
    if not re.fullmatch(rf'[ !#-\[\]-~]{{1,{rooms.MOST}}}', text):
        raise Refused(f'a text has 1 to {rooms.MOST} characters from 20 to 7E, without `"` and `\\`, and {why_no_text(text)}')
    room = rooms.room_for(kinds.collected_turns(crates), name)
    if room and len(text) > room[0]:
        raise Refused(rooms.why_too_long(name, len(text), room))
    texts, numbers = Text(crates, "applet_trait", "src", "texts.rt"), Text(crates, "uicc_run", "specs", "StandardNumbers.antt")
    old = antt.constants_of(texts.path).get(name)
    spelled = "(" + " ∷ ".join(f"0x{byte:02X}" for byte in text.encode()) + " ∷ [])"
    row = numbers.match(r"^  pub texts : (.*) ∷ \[\]\n +≡ (.*) ∷ \[\]$")
    names, values = re.findall(r"text\.(\w+)\.now", row[1]), re.findall(r"\([^)]*\)", row[2])
    if old is None:
        return put([*new_text(crates, texts, name, text), in_row(numbers, row, [*names, name], [*values, spelled])]), None
    shown = bytes(old).decode()
    texts.replace(f'pub const {name}: &[u8] = b"{shown}";', f'pub const {name}: &[u8] = b"{text}";')
    values[names.index(name)] = spelled
    return put([texts, in_row(numbers, row, names, values), *in_proofs(crates, shown, text)]), shown


def new_text(crates, texts, name, text):
    """A constant more, which the tables may name."""
    tables = Text(crates, "applet_trait", "specs", "Tables.antt")
    if name in tables.match(r"^use Rattle\.applet_trait\.specs\.declared\.numbers\.TheConstants\.\{(.*)\}$")[1].split(", "):
        raise Refused(f"`{name}` is the name of a number already")
    texts.text = texts.text.rstrip("\n") + f'\n\npub const {name}: &[u8] = b"{text}";\n'
    tables.sub(r"^(use Rattle\.applet_trait\.specs\.declared\.texts\.TheConstants\.\{[^}]*)\}", rf"\1, {name}}}")
    return [texts, tables]


def in_row(numbers, row, names, values):
    """The row that pins the texts, with these."""
    found = f"  pub texts : {' ∷ '.join(f'text.{name}.now' for name in names)} ∷ []\n      ≡ {' ∷ '.join(values)} ∷ []"
    numbers.text = numbers.text.replace(row[0], found)
    return numbers


def in_proofs(crates, old, new):
    """The proofs that show a text, with another one in its place."""
    folder = os.path.join(crates, "applet_trait", "proofs")
    paths = sorted(os.path.join(place, name) for place, _, names in os.walk(folder) for name in names if name.endswith(".antt"))
    for path in paths:
        text = Text(crates, *os.path.relpath(path, crates).split(os.sep))
        if f'show (codes "{old}")' in text.text:
            text.many(f'show (codes "{old}")', f'show (codes "{new}")')
            yield text


def places_with(crates, text):
    """What shows a text, and nobody changes: stored rows, cases, worked proofs and what programs print, examples and documents. Their files, and
    how many lines do."""
    top = os.path.dirname(crates)
    shows = showing(text)
    for path in [*(os.path.join(crates, path) for path in files_above(crates)), *files_beside(top)]:
        with open(path, encoding="utf-8", errors="replace") as content:
            count = sum(bool(shows.search(line)) for line in content)
        if count:
            yield os.path.relpath(path, top), count


def showing(text):
    """Lines that show a text: in quotes, as a trace notes it or as the bytes of an object, and in a proof."""
    quoted, digits, length = re.escape(text), text.encode().hex().upper(), len(text)
    as_object = rf"(?:8D|0D){length + 1:02X}04{digits}|(?:85|05){length:02X}{digits}|(?:8F|0F){length + 1:02X}[0-9A-F]{{2}}{digits}"
    in_proof = " ∷ ".join(f"0x{byte:02X}" for byte in text.encode())
    return re.compile(rf"[\"\'`“]{quoted}[\"\'`”]|\* (?:text|ask|idle) {quoted}$|{as_object}|{in_proof}")


def files_above(crates):
    """The files of the crates that stand on the applets' one, in which a text may be shown."""
    with open(os.path.join(os.path.dirname(crates), "crates.txt"), encoding="utf-8") as rows:
        below = {line.split(":")[0].split()[0]: line.split(":")[1].split() for line in rows if re.match(r"\w", line)}
    above = {"applet_trait"}
    while more := {name for name, parts in below.items() if above & {*parts}} - above:
        above |= more
    for name in sorted(above - {"applet_trait"}):
        for part in ("data", os.path.join("proofs", "worked"), "stdin", "stdout"):
            yield from (os.path.relpath(path, crates) for path in files_in(os.path.join(crates, name, part)))


def files_beside(top):
    """The examples, the documents and the tests of the tools."""
    for part in ("README.md", "docs", "examples", os.path.join("tools", "tests")):
        yield from files_in(os.path.join(top, part))


def files_in(place):
    """A file, or all files of a folder."""
    if os.path.isfile(place):
        yield place
    for folder, folders, names in os.walk(place):
        folders[:] = sorted(name for name in folders if name != "__pycache__")
        yield from (os.path.join(folder, name) for name in sorted(names))
