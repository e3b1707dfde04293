"""Cases: scripts together with what each of their lines must show (docs/CASES.md). Reads them as crates/run_cases does."""
import dataclasses
import re

ALWAYS, MET, UNMET = "always", "met", "unmet"
SETTING_UP = ("#blank", "#plan", "#bytes", "#boxes", "#source", "#sink", "#switch", "#power")
# what a line of a trace begins with, as a line of a case does, and as a further alternative of one
SIGNS = ("#<", "#>", "#!", "#*")
WHOLE = ("< ", "> ", "! ", "* ")
EXPECTING = ("#<", "#>", "#!", "#*", "#=", "#..", "#met")


class Mistake(Exception):
    """A line is none of a case."""


@dataclasses.dataclass
class Expectation:
    """Lines of which one must be shown; None where any number of lines may be. `line` is the number of it in the file."""
    when: str
    lines: list | None
    line: int


@dataclasses.dataclass
class Setup:
    blank: bool = False
    patches: list = dataclasses.field(default_factory=list)
    boxes: str = "all"
    source: str = ""
    sink: str = ""
    switch: str = ""
    powered: bool = True
    armed: bool = False


@dataclasses.dataclass
class Run:
    """`begins` and `ends` are the numbers of the lines in the file that begin it and have its status."""
    setup: Setup
    words: list
    begins: int
    ends: int = 0
    script: str = ""
    plan_at: int | None = None
    expectations: list = dataclasses.field(default_factory=list)
    status: int = 0
    met_status: int = 0
    shows: list = dataclasses.field(default_factory=list)
    calls: tuple | None = None
    # what is noted of boxes: a case of the library alone
    marks: str | None = None
    left: str | None = None


@dataclasses.dataclass
class Case:
    name: str
    line: int
    must_differ: bool = False
    both_stores: bool = False
    in_turn: bool = False
    plans: list = dataclasses.field(default_factory=list)
    least: int = 1
    runs: list = dataclasses.field(default_factory=list)
    mistake: str | None = None
    # whether it is a script alone, which no word of a case stands around
    plain: bool = False

    def beyond_program(self):
        """Why the program alone can't carry the case out, since what it asks for is within the library; None where it can."""
        for run in self.runs:
            setup = run.setup
            for asked, why in ((setup.boxes != "all", "other applets"), (setup.source, "a script that can't be read on"),
                               (setup.sink, "a trace that can't be written on"), (not setup.powered, "a memory without power"),
                               (setup.armed, "a fault before the script begins"), (run.calls, "the calls of source and sink"),
                               (setup.switch, "a memory that shows other bytes"),
                               ((run.marks, run.left) != (None, None), "what is done with boxes")):
                if asked:
                    return f"asks for {why}, which the program can't be given"
        return None


def number(word, most=2 ** 32 - 1):
    if not re.fullmatch(r"\+?[0-9]+", word) or int(word) > most:
        raise Mistake("a number is wanted")
    return int(word)


def content(word):
    if not re.fullmatch("(?:[0-9A-Fa-f]{2})*", word):
        raise Mistake("hexadecimal digits are wanted")
    return bytes.fromhex(word)


def patch(text):
    at, _, digits = text.partition(" ")
    return number(at), content(digits)


def is_remark(word):
    return word == "#" or word.startswith("##")


class RunDraft:
    """A run of which some lines were read."""

    def __init__(self, run):
        self.run, self.over, self.command, self.when = run, False, None, ALWAYS

    def read(self, place, line):
        word, _, rest = line.partition(" ")
        if word in ("#<", "#>", "#!", "#*"):
            self._expect(self.when, line[1:], place)
            self._keep(line)
        elif word == "#=":
            self._expect(self.when, rest, place)
            self._keep(line)
        elif word == "#met":
            self._expect(MET, rest, place)
            self.when = UNMET
            self._keep(line)
        elif (word, rest) == ("#..", ""):
            self.command = None
            self.run.expectations.append(Expectation(self.when, None, place))
            self._keep(line)
        elif is_remark(word):
            self._keep(line)
        elif (word, rest) == ("#end", ""):
            self.over = True
        elif self.over:
            raise Mistake("the script has ended")
        elif (word, rest) == ("#plan", ""):
            self.run.plan_at = len(self.run.script)
        elif word.startswith("#"):
            self._begin(None)
            self._generate(word, rest)
        else:
            self._begin("> " + rest.upper() if word == "apdu" else None)
            self._keep(line)

    def _begin(self, command):
        self.command, self.when = command, ALWAYS

    def _keep(self, line):
        if not self.over:
            self.run.script += line + "\n"

    def _generate(self, word, rest):
        count, _, text = rest.partition(" ")
        if word == "#repeat":
            self.run.script += (text + "\n") * number(count)
        elif word == "#chars":
            self.run.script += text * number(count) + "\n"
        elif word == "#raw":
            self.run.script += content(rest).decode("latin-1")
        elif word == "#crlf":
            self.run.script += rest + "\r\n"
        elif word.startswith(SIGNS):
            raise Mistake(f"a space stands between `{word[:2]}` and what is shown: `{word[:2]} {word[2:]}`")
        else:
            raise Mistake("no word of a script with expectations")

    def _expect(self, when, text, place):
        lines, command = alternatives(text), self.command
        self.command = None
        if command and all(line.startswith(("< ", "! ")) for line in lines):
            self.run.expectations.append(Expectation(ALWAYS, [command], place))
        self.run.expectations.append(Expectation(when, lines, place))

    def ended(self, status, place):
        unmet, _, met = status.partition(" met ")
        self.run.status, self.run.met_status, self.run.ends = number(unmet), number(met or unmet), place
        return self.run


class CaseDraft:
    """A case of which some lines were read."""

    def __init__(self, name, line):
        self.case, self.setup, self.draft = Case(name, line), Setup(), None
        self.is_set_up = False

    def read(self, place, line):
        """After a mistake all other lines are passed over."""
        if self.case.mistake:
            return
        try:
            self._understand(place, line)
        except Mistake as fault:
            self.case.mistake = f"line {place} of the file: {fault}"

    def _understand(self, place, line):
        word, _, rest = line.partition(" ")
        if self.draft is None:
            self._set(place, word, rest)
        elif word == "#status":
            self.case.runs.append(self.draft.ended(rest, place))
            self.draft = None
        else:
            self.draft.read(place, line)

    def _set(self, place, word, rest):
        """Takes a line that stands before, between or after the runs."""
        if word == "#run":
            self.draft = RunDraft(Run(self.setup, rest.split(), place))
            self.setup = Setup()
            self.is_set_up = False
            return
        if word in SETTING_UP:
            self.is_set_up = True
        if (word, rest) == ("#blank", ""):
            self.setup.blank = True
        elif (word, rest) == ("#plan", ""):
            self.setup.armed = True
        elif word == "#bytes":
            self.setup.patches.append(patch(rest))
        elif word in ("#boxes", "#source", "#sink", "#switch"):
            setattr(self.setup, word[1:], rest)
        elif word == "#power" and rest == "off":
            self.setup.powered = False
        elif word in ("#shows", "#calls", "#marks", "#left"):
            self._ask_of_last_run(word, rest)
        elif (word, rest) != ("", "") and not is_remark(word):
            self._set_case(word, rest)

    def _set_case(self, word, rest):
        case = self.case
        if (word, rest) == ("#must", "differ"):
            case.must_differ = True
        elif (word, rest) == ("#stores", "both"):
            case.both_stores = True
        elif (word, rest) == ("#in-turn", ""):
            case.in_turn = True
        elif word == "#each":
            for text in rest.split(" | "):
                if "K" not in text:
                    raise Mistake("a plan has K in place of its call")
                case.plans.append(text)
        elif word == "#at-least":
            case.least = number(rest)
        else:
            raise Mistake("no word of a case")

    def _ask_of_last_run(self, word, rest):
        if not self.case.runs:
            raise Mistake("no run stands before it")
        if word == "#shows":
            self.case.runs[-1].shows.append(patch(rest))
        elif word in ("#marks", "#left"):
            setattr(self.case.runs[-1], word[1:], rest)
        else:
            takes, _, puts = rest.partition(" ")
            self.case.runs[-1].calls = number(takes), number(puts)

    def ended(self):
        if not self.case.mistake:
            if self.draft is not None:
                self.case.mistake = "a run has no #status"
            elif not self.case.runs:
                self.case.mistake = "it has no run"
            elif self.is_set_up:
                self.case.mistake = "no run follows what is set up"
            elif not self.case.plans and any(run.plan_at is not None or run.setup.armed for run in self.case.runs):
                self.case.mistake = "a #plan stands in a case without #each"
        return self.case


def read(text, name, words=("play",)):
    """The cases in the text of a file; a text without `#case` and `#run` is one script, with this name and these words."""
    lines = text.removesuffix("\n").split("\n")
    lines = [line.removesuffix("\r") for line in lines]
    if not any(line.split(" ")[0] in ("#case", "#run") for line in lines):
        return [plain(lines, name, words)]
    found, draft, begun = [], CaseDraft("a case without a name", 1), False
    for place, line in enumerate(lines, 1):
        if line.startswith("#case "):
            found += [draft.ended()] if begun else []
            draft, begun = CaseDraft(line[len("#case "):], place), True
        else:
            draft.read(place, line)
            begun = begun or not (not line or is_remark(line.split(" ")[0]))
    return found + ([draft.ended()] if begun else [])


def plain(lines, name, words):
    """A script alone: what it must show stands in it, and its status is 0 or that of a line `#status`."""
    draft = CaseDraft(name, 1)
    draft.case.plain = True
    draft.draft = RunDraft(Run(Setup(), list(words), 0))
    for place, line in enumerate(lines, 1):
        draft.read(place, line)
        if draft.draft is None:
            return draft.ended()
    if draft.draft and not draft.case.mistake:
        draft.case.runs.append(draft.draft.ended("0", len(lines) + 1))
        draft.draft = None
    return draft.ended()


# whether a trace is as it must be

@dataclasses.dataclass(frozen=True)
class Turn:
    """Where a run stands in a repetition."""
    call: int
    met: bool
    in_turn: bool


@dataclasses.dataclass
class Difference:
    """`place` lines of the trace are as they must be; `wanted` may stand there (None: the end), or something else is wrong."""
    place: int
    what: str
    wanted: list | None = None
    run: int = 0
    expectation: Expectation | None = None


def is_wanted(when, turn):
    return when == ALWAYS or (when == MET) == bool(turn and turn.met)


def permitted(expectation, turn):
    """Those of the alternatives that may be shown in this turn."""
    lines = expectation.lines
    if turn is None or len(lines) < 2 or expectation.when != ALWAYS:
        return lines
    if turn.in_turn:
        is_last = turn.call == len(lines)
        return [] if turn.call > len(lines) or is_last == turn.met else lines[turn.call - 1:turn.call]
    if not turn.met:
        return lines[-1:]
    return lines[:1] if turn.call == 1 else lines


ANY_ANSWER = "< *"
OPEN = ".."
OF_BYTES = ("< ", "> ")
NOTE = "* "
LEAST_ANSWER = 4


def is_pattern(wanted):
    """Whether a line of bytes leaves some of them open."""
    return wanted.startswith(OF_BYTES) and OPEN in wanted


def alternatives(text):
    """The lines of which one must be shown. Mistake, where one can never be."""
    lines = text.split(" | ")
    for line in lines[1:]:
        if lines[0].startswith(WHOLE) and not line.startswith(WHOLE):
            raise Mistake(f"a further alternative is a whole line of the trace: `{lines[0]} | {lines[0][:2]}{line}`")
    return [understood(line) for line in lines]


def refuse_unlike(wanted):
    """Mistake, where a line of bytes is none that a trace can have."""
    digits = wanted[2:]
    if "|" in digits:
        raise Mistake("alternatives stand with a space on each side of `|`, and each is a whole line of the trace: `#< 9110 | < 9000`")
    if "?" in digits:
        raise Mistake("`?` is no pattern here: `..` stands for any bytes, and `#< *` for any answer")
    if not re.fullmatch("(?:[0-9A-Fa-f]{2})*", digits):
        raise Mistake(f"bytes are hexadecimal digits without spaces, two for each, and not `{digits}`")
    if digits != digits.upper():
        raise Mistake(f"a trace has its hexadecimal digits in capital letters: `{digits.upper()}`")
    if wanted.startswith("< ") and len(digits) < LEAST_ANSWER:
        raise Mistake(f"an answer ends with a status of two bytes, and `{digits}` is none")


def understood(wanted):
    """A line that must be shown, as it is compared. Mistake, where it leaves something open in no form."""
    if wanted == ANY_ANSWER or not wanted.startswith(OF_BYTES):
        return wanted
    if "*" in wanted:
        raise Mistake("`*` stands for any answer alone, as in `#< *`; some bytes of a line are left open by `..`, as in `#< ..9000`")
    if is_pattern(wanted) and not set(" |?") & set(wanted[2:]):
        parts = wanted[2:].split(OPEN)
        if any(not re.fullmatch("(?:[0-9A-Fa-f]{2})*", part) for part in parts):
            raise Mistake("`..` stands for whole bytes, any number of them, between hexadecimal digits of whole bytes")
        return wanted[:2] + OPEN.join(parts).upper()
    refuse_unlike(wanted)
    return wanted


def is_one(line, wanted):
    """Whether a line of a trace is the one that must be shown."""
    if wanted == ANY_ANSWER:
        return line.startswith("< ")
    if not is_pattern(wanted):
        return line == wanted
    parts = wanted[2:].split(OPEN)
    return bool(re.fullmatch(wanted[:2] + "(?:[0-9A-F]{2})*".join(parts), line))


def is_shown(line, alternatives):
    return any(is_one(line, wanted) for wanted in alternatives)


def wanted_lines(run, turn):
    """Each line that must be shown: its expectation and what it may be; None in place of any number of lines."""
    return [(one, None if one.lines is None else permitted(one, turn)) for one in run.expectations if is_wanted(one.when, turn)]


def stretches(wanted):
    parts = [[]]
    for one, alternatives in wanted:
        if alternatives is None:
            parts.append([])
        else:
            parts[-1].append((one, alternatives))
    return parts


def mismatch_at(stretch, lines, begins):
    for place, (one, alternatives) in enumerate(stretch, begins):
        if place >= len(lines) or not is_shown(lines[place], alternatives):
            return Difference(place, "", alternatives, expectation=one)
    return None


def first_mismatch(parts, lines):
    first, others = parts[0], parts[1:]
    found = mismatch_at(first, lines, 0)
    if found:
        return found
    passed = len(first)
    if not others:
        return Difference(passed, "") if passed < len(lines) else None
    for stretch in others[:-1]:
        at = next((n for n in range(passed, len(lines) + 1) if mismatch_at(stretch, lines, n) is None), None)
        if at is None:
            return mismatch_at(stretch, lines, passed)
        passed = at + len(stretch)
    return mismatch_at(others[-1], lines, max(passed, len(lines) - len(others[-1])))


def difference(run, trace, status, image, turn):
    """The first difference between what a run left and what it must; None where there is none."""
    found = first_mismatch(stretches(wanted_lines(run, turn)), trace)
    if found:
        found.what = "the trace"
        return found
    wanted = run.met_status if turn and turn.met else run.status
    if status != wanted:
        return Difference(len(trace), f"status {status}, expected {wanted}")
    for at, shown in run.shows:
        if image is not None and image[at:at + len(shown)] != shown:
            got = image[at:at + len(shown)].hex().upper()
            return Difference(len(trace), f"the memory has {got} at {at}, expected {shown.hex().upper()}")
    return None
