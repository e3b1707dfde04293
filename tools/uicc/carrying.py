"""Carries out cases by the program: each run in a process of its own, over one image that the runs of a case share."""
import dataclasses
import os

from . import cases, process

JOURNAL_SIZE, PAGES_SIZE = 65_536, 71_680
MOST_CALLS = 100


@dataclasses.dataclass
class Left:
    trace: list
    status: int
    image: bytes
    said: str


@dataclasses.dataclass
class Verdict:
    """How a case went: how many runs were carried out, what differed first, with which plan, and the runs that did."""
    runs: int = 0
    difference: cases.Difference | None = None
    plan: str = ""
    turn: cases.Turn | None = None
    lefts: list = dataclasses.field(default_factory=list)
    mistake: str | None = None
    skipped: str | None = None
    in_pages: bool = False

    def differs(self):
        return bool(self.difference or self.mistake)


def parsed_words(words):
    """The options of words in form, as {name: value}; None where they are none of a run over a memory, as those of `bip`."""
    commands = {"play": 1, "open": 1, "phone": 1, "load": 3}
    if not words or words[0] not in commands:
        return None
    options, rest = {}, words[commands[words[0]]:]
    if words[0] == "load" and not (len(words) >= 3 and is_number(words[1], 999_999_999) and is_number(words[2], 1_000_000)):
        return None
    values = {"--store": ("journal", "pages"), "--image": None, **({"--link": ("t0",)} if words[0] == "phone" else {})}
    while rest:
        if len(rest) < 2 or rest[0] not in values or rest[0] in options:
            return None
        if values[rest[0]] is not None and rest[1] not in values[rest[0]]:
            return None
        options[rest[0]] = rest[1]
        rest = rest[2:]
    return options


def is_number(word, most):
    return word.isascii() and word.isdigit() and len(word) <= 9 and (word == "0" or word[0] != "0") and int(word) <= most


class Device:
    """The memory that the runs of a case share, in a file where one is needed: what the program takes without one is blank too."""

    def __init__(self, folder, needed=True):
        self.path, self.needed = os.path.join(folder, "image"), needed
        self.content = b"\xFF" * JOURNAL_SIZE

    def prepare(self, setup, size):
        if setup.blank:
            self.content = b""
        content = bytearray(self.content[:size].ljust(size, b"\xFF"))
        for at, part in setup.patches:
            part = part[:max(0, size - at)]
            content[at:at + len(part)] = part
        self.content = bytes(content)

    def is_under(self, words):
        """Whether a run of these words is given the memory."""
        return self.needed and parsed_words(words) is not None

    def play(self, words, script):
        """Plays a script over the memory, if the words are those of such a run, and takes what it leaves."""
        options = parsed_words(words)
        if not self.is_under(words):
            trace, status, said = process.played(words, script)
            return Left(trace, status, self.content, said)
        with open(self.path, "wb") as out:
            out.write(self.content)
        words = [*words, "--image", self.path]
        if "--image" in options:
            at = words.index("--image")
            words = words[:at] + words[at + 2:]
        trace, status, said = process.played(words, script)
        with open(self.path, "rb") as image:
            self.content = image.read()
        return Left(trace, status, self.content, said)


def words_of(run, in_pages):
    return [*run.words, "--store", "pages"] if in_pages else list(run.words)


def size_for(words, size):
    options = parsed_words(words)
    return size if options is None else PAGES_SIZE if options.get("--store") == "pages" else JOURNAL_SIZE


def script_of(run, plan):
    if run.plan_at is None:
        return run.script
    return run.script[:run.plan_at] + plan + "\n" + run.script[run.plan_at:]


def carried_out(case, in_pages, plan):
    """What each of the case's runs leaves."""
    lefts = []
    with process.folder_in_memory() as folder:
        device = Device(folder, needs_image(case))
        for run in case.runs:
            words = words_of(run, in_pages)
            device.prepare(run.setup, size_for(words, len(device.content)))
            lefts.append(device.play(words, script_of(run, plan)))
    return lefts


def needs_image(case):
    """Whether a case asks for its memory: it stays from run to run, is set up, or is looked at."""
    first = case.runs[0]
    return len(case.runs) > 1 or bool(first.setup.patches or first.shows) or "--image" in first.words


def compared(case, lefts, turn):
    """The first difference of all runs."""
    passed = 0
    for number, (run, left) in enumerate(zip(case.runs, lefts), 1):
        found = cases.difference(run, left.trace, left.status, left.image, turn)
        if found:
            found.run = number
            return passed + found.place, found
        passed += sum(len(line) + 1 for line in left.trace)
    return None


def in_store(case, in_pages):
    """Carries out a case in the store that its words name, or in pages."""
    verdict = Verdict(in_pages=in_pages)
    if not case.plans:
        verdict.lefts = carried_out(case, in_pages, "")
        verdict.runs = len(verdict.lefts)
        found = compared(case, verdict.lefts, None)
        verdict.difference = found and found[1]
        return verdict
    for plan in case.plans:
        with_plan(case, plan, verdict)
        if verdict.difference:
            break
    return verdict


def with_plan(case, shape, verdict):
    """Carries out a case with the plan at each call, until it isn't met."""
    for call in range(1, MOST_CALLS + 1):
        plan = shape.replace("K", str(call), 1)
        lefts = carried_out(case, verdict.in_pages, plan)
        verdict.runs += len(lefts)
        turns = [cases.Turn(call, met, case.in_turn) for met in (True, False)]
        met = compared(case, lefts, turns[0])
        if met is None:
            continue
        unmet = compared(case, lefts, turns[1])
        verdict.plan, verdict.lefts = plan, lefts
        if unmet:
            verdict.turn, (_, verdict.difference) = (turns[0], met) if met[0] > unmet[0] else (turns[1], unmet)
        elif call - 1 < case.least:
            verdict.difference = cases.Difference(0, f"the plan was met at {call - 1} calls, expected at least {case.least}")
        return
    verdict.difference = cases.Difference(0, "each plan was met")


def verdict_of(case):
    """Carries out a case in its stores and with its plans."""
    if case.mistake:
        return Verdict(mistake=case.mistake)
    why = case.beyond_program()
    if why:
        return Verdict(skipped=why)
    first = in_store(case, False)
    if first.difference or not case.both_stores:
        return first
    second = in_store(case, True)
    second.runs += first.runs
    return second
