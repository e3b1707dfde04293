"""What a power cut leaves: a script is played once for each memory write of a command, with that write cut, torn or failing.

What is left is told by what commands read back, or by the image of the memory, entry by entry."""
import collections
import concurrent.futures
import dataclasses

from . import decode, follow, kept, lint, names, t0
from . import process as simulator
from .grammar import Apdu, Handset, Plan, Reset, Tpdu

# the ways in which a write goes wrong: the power is lost in it, or it fails and the card goes on
CUTS = (
    ("cut, all its bytes FF", "cut {call}"),
    ("cut half way, then 5A", "cut {call} {half} 5A"),
)
FAILURES = (
    ("fails, all its bytes FF", "fail {call} FF"),
)
WAYS = CUTS + FAILURES
# what came of a write that went wrong: in which way, what the trace shows for the command, what is left, and what `between` is there
Left = collections.namedtuple("Left", "way shown state half")
# more writes than any command makes
MOST_CALLS = 1000
# the status where the memory fails in a reset
EEPROM_FAILED = 6
# a write is at most a page, and `cut` takes no longer beginning
PAGE = 64
PLANS = ("cut ", "fail ", "readfail ")
SENDING = ("apdu ", "tpdu ")
READ_BINARY, UPDATE_BINARY, READ_RECORD, UPDATE_RECORD, SEARCH, INCREASE = 0xB0, 0xD6, 0xB2, 0xDC, 0xA2, 0x32
WRITING = (UPDATE_BINARY, UPDATE_RECORD, INCREASE)
SELECT, VERIFY, CHANGE, DISABLE, ENABLE, UNBLOCK = 0xA4, 0x20, 0x24, 0x26, 0x28, 0x2C
PINS = (VERIFY, CHANGE, DISABLE, ENABLE, UNBLOCK)
LIVES = (0x04, 0x44)
# what is sent again as it is, so that the same file is the current one and may be read
REPEATED = (SELECT, VERIFY, 0x70)
# P1 of SELECT: a path from the current DF
CHILD, WITH_PARAMETERS, WITHOUT_PARAMETERS = 0x09, 0x04, 0x0C
SELECT_MF = bytes.fromhex("00A40004023F00")
# statuses of commands that were carried out: fewer bytes were there than Le, a deactivated file was selected
WARNINGS = ("6282", "6283")
# modes of a record command, in the lower three bits of its P2; the others are a short identifier
PREVIOUS, BY_NUMBER = 3, 4
MOST_RECORDS = 254
ANOTHER_SCRIPT = "name a script after --back"
VALUE = 8
# what is read back, and how the last line counts it
STATES = {
    "same": "what was before and is after",
    "before": "what was before",
    "between": "what is between",
    "after": "what is after",
    "NEITHER": "NEITHER",
}
TRIES_LEFT = "63C"


@dataclasses.dataclass(frozen=True)
class Shard:
    """One of so many parts of a work, each as large as the others."""
    number: int
    count: int

    def of(self, whole):
        return whole[self.number - 1::self.count]


ALL = Shard(1, 1)


class Unplayable(Exception):
    """Why a script can't be tried."""


class Untold(Unplayable):
    """What a command changes can't be read back by commands."""


def last_command(lines):
    for at in range(len(lines) - 1, -1, -1):
        if is_sent(lines[at]):
            return at
    raise Unplayable("the script has no `apdu` line after `start`")


def is_sent(line):
    """Whether a line has the card carry out a command: a TPDU that the link answers by itself has not."""
    return line.startswith("apdu ") or line.startswith("tpdu ") and t0.passed(bytes_of(line)) is not None


def unplanned(lines):
    """The lines without those at the end that plan something for the next command."""
    end = max((n for n, line in enumerate(lines) if line == "reset" or is_sent(line)), default=-1) + 1
    return [*lines[:end], *(line for line in lines[end:] if not line.startswith(PLANS))]


def bytes_of(line):
    try:
        return bytes.fromhex(line.split(" ", 1)[1])
    except ValueError:
        raise Unplayable(f"this line sends no bytes: {line}") from None


def line_of(command):
    return "apdu " + command.hex().upper()


def readings_of(command):
    """The bytes of the commands that read what a command changes, None where its bytes alone don't tell."""
    ins = command[1] if len(command) > 3 else None
    if ins in PINS:
        return readings_of_pin(command)
    if ins in follow.ON_CHILDREN:
        return readings_of_child(command)
    if len(command) < 6:
        return None
    if ins == UPDATE_BINARY:
        return [bytes((command[0], READ_BINARY, *command[2:5]))]
    if ins == UPDATE_RECORD and names_record(command):
        return [bytes((command[0], READ_RECORD, *command[2:5]))]
    return None


def select_child(command, p2):
    """SELECT of the file that a command makes, deletes or resizes; None where it names none."""
    apdu = decode.Apdu(command)
    path = follow.Follower().child(apdu) if apdu.ok else None
    return path and bytes((apdu.channel, SELECT, CHILD, p2, 2)) + bytes.fromhex(path[-1])


def readings_of_child(command):
    """The control parameters tell whether a file is there, and its size; its first bytes, whether what it held came with it."""
    select = select_child(command, WITH_PARAMETERS)
    if select and command[1] == follow.RESIZE_FILE:
        return [select, bytes((select[0], READ_BINARY, 0, 0, 0))]
    return select and [select]


def names_record(command):
    """Whether a record command names its record by a number. P1 is 0 where it is the record at the pointer."""
    return command[3] & 7 == BY_NUMBER and command[2] != 0


def records_of(command):
    """The bytes of the commands that read all records of the file in which a command writes a record that it doesn't name."""
    if len(command) >= 6 and (command[1] == INCREASE or command[1] == UPDATE_RECORD and not names_record(command)):
        return [read_record(command, number) for number in range(1, MOST_RECORDS + 1)]
    return None


def read_record(command, number):
    """READ RECORD in the file of a record command, whatever the length. INCREASE has another class than it and its own P1."""
    short = command[3] & 0xF8
    if command[1] == INCREASE:
        short = (command[2] & 0x1F) << 3 if command[2] & 0x80 else 0
    return bytes((command[0] & 0x7F, READ_RECORD, number, short | BY_NUMBER, 0))


def read_by_short(command):
    """The read that makes the EF current which a command names by its short identifier, None where it names none."""
    ins, p1, p2 = command[1:4]
    if ins in (READ_BINARY, UPDATE_BINARY) and p1 & 0x80:
        return bytes((command[0], READ_BINARY, p1, 0, 1))
    by_short = p1 & 0x80 if ins == INCREASE else ins in (READ_RECORD, UPDATE_RECORD, SEARCH) and p2 & 0xF8
    return read_record(command, 1) if by_short else None


def is_done(answer):
    """Whether an answer of a trace says that a command was carried out."""
    return answer[-4:] == "9000" or answer[-4:-2] in ("91", "61")


def exchanges(trace):
    """The commands of a trace since its last reset, with their answers; without power these are `cut` and `off`."""
    since = max((n for n, line in enumerate(trace) if line == simulator.RESET), default=-1) + 1
    pairs = zip(trace[since:], trace[since + 1:])
    return [(bytes.fromhex(line[2:]), shown[2:]) for line, shown in pairs if line.startswith("> ")]


def repeated(known):
    """What makes the same files current after a reset, and presents the same values, of commands and their answers."""
    done = [command for command, answer in known if is_done(answer) or answer[-4:] in WARNINGS]
    return [again for again in map(again_current, done) if again]


def again_current(command):
    """What makes the file current again that a command made so, or presents its value again; None where it did neither."""
    if command[1] in REPEATED:
        return command
    return select_child(command, WITHOUT_PARAMETERS) if command[1] == follow.CREATE_FILE else read_by_short(command)


def telling(command, old, new):
    """Which records tell whether a command was carried out, counted from 0, of what is read of all before and after."""
    differing = [n for n in range(len(old)) if old[n] != new[n]]
    if not differing and command[1] == UPDATE_RECORD:
        return [n for n in range(len(new)) if new[n][:-4] == command[5:5 + command[4]].hex().upper()]
    first, last = differing[0] if differing else 0, len(old) - 1
    # the place of the last record of a cyclic file is the one that is written
    may_be_cyclic = command[1] == INCREASE or command[3] & 7 == PREVIOUS
    return sorted({first, last}) if may_be_cyclic else [first]


def readings_of_pin(command):
    """The tries come first, those of the unblock value for UNBLOCK."""
    class_, ins, key = command[0], command[1], command[3]
    tries = bytes((class_, UNBLOCK if ins == UNBLOCK else VERIFY, 0, key))
    if ins in (CHANGE, UNBLOCK) and len(command) >= 5 + 2 * VALUE:
        return [tries, bytes((class_, VERIFY, 0, key, VALUE)) + command[5 + VALUE:5 + 2 * VALUE]]
    return [tries, SELECT_MF] if ins in (DISABLE, ENABLE) else [tries]


def with_parameters(select):
    """The SELECT that answers the control parameters of the file."""
    return select[:3] + bytes((0x04,)) + select[4:]


def reading_back(known, command, answer, read):
    """The commands that read back what a command changes that is answered so. `known` are the commands before it, with their
    answers; `read` answers what some commands read before it and after."""
    before = repeated(known)
    if command[1:2] and command[1] in LIVES and before and before[-1][1] == SELECT:
        return [*before[:-1], with_parameters(before[-1])]
    every = records_of(command)
    readings = record_readings(before, every, command, answer, read) if every else readings_of(command)
    if readings is None:
        raise Untold(f"it isn't known what reads back what the last command changes: {ANOTHER_SCRIPT}")
    return readings if command[1] in PINS else [*before, *readings]


def record_readings(before, every, command, answer, read):
    """The reads of the records that tell, of the reads of every record."""
    if not is_done(answer):
        raise Untold(f"the command is answered {answer}, so that the record it would write isn't found: {ANOTHER_SCRIPT}")
    old, new = (answers[len(before):] for answers in read([*before, *every]))
    count = sum(map(is_done, old))
    if not count:
        raise Untold(f"the record that is written isn't found, as the first one is read with {old[0]}: {ANOTHER_SCRIPT}")
    return [every[n] for n in telling(command, old[:count], new[:count])] or None


def run_over(words, lines, image):
    """The trace and the status of a run, over a copy of an image where there is one."""
    if image is None:
        return simulator.run(words, lines)
    played = kept.Played(words, lines, image)
    return played.trace, played.status


def play(words, lines, image=None):
    """The lines that the trace shows up to its last reset, and the answers after it."""
    trace, status = run_over(words, lines, image)
    if status != 0:
        raise Unplayable(f"uicc_run ended with status {status}: {trace[-1] if trace else 'no trace'}")
    if simulator.RESET not in trace:
        raise Unplayable("the power is lost in the reset that should come after the command")
    reset = len(trace) - 1 - trace[::-1].index(simulator.RESET)
    return trace[:reset], [line[2:] for line in trace[reset + 1:] if line.startswith("< ")]


class Trial:
    """The script's beginning, its last command, and what reads back."""

    def __init__(self, section, lines, back, words=("play",), image=None):
        self.words, self.image, at = list(words), image, last_command(lines)
        self.begin, self.command = [*section, "start", *unplanned(lines[:at])], lines[at]
        *known, (command, self.answer) = exchanges(self.play(self.command, "reset")[0])
        if back is None:
            self.back = list(map(line_of, reading_back(known, command, self.answer, self.read)))
        else:
            self.back = back
        self.old, self.new = self.both(self.back)
        if back is None and command[1] in WRITING and is_done(self.answer) and not is_done(self.new[-1]):
            raise Untold(f"what is written isn't known, as it is read with {spaced(self.new[-1])}: {ANOTHER_SCRIPT}")

    def both(self, back):
        """The answers to lines after a reset: where the command isn't sent, and where it is carried out."""
        return [self.play(*sent, "reset", *back)[1] for sent in ([], [self.command])]

    def play(self, *lines):
        return play(self.words, [*self.begin, *lines], self.image)

    def read(self, commands):
        return self.both(list(map(line_of, commands)))

    def run(self, *plan):
        """What the trace shows for the command, and what is read back."""
        trace, answers = self.play(*plan, self.command, "reset", *self.back)
        return trace[-1], answers

    def rows(self):
        """A row for each write and each way, until a write is not reached any more."""
        half = max(1, min(PAGE, (len(bytes_of(self.command)) - 4) // 2))
        for call in range(1, MOST_CALLS):
            for name, plan in WAYS:
                shown, answers = self.run(plan.format(call=call, half=half))
                if name == WAYS[0][0] and shown != simulator.CUT:
                    return
                yield call, name, shown, answers

    def state(self, answers):
        if answers == self.old:
            return "same" if self.old == self.new else "before"
        if answers == self.new:
            return "after"
        return "between" if answers and self.is_between(answers[0]) else "NEITHER"

    def is_between(self, tries):
        """Whether a PIN command has taken its try."""
        before = self.old[0]
        return (bytes_of(self.command)[1] in PINS and before.startswith(TRIES_LEFT)
                and tries == f"{TRIES_LEFT}{int(before[-1], 16) - 1:X}")

    def half_done(self):
        """What is half done where the state is between."""
        which = "the UNBLOCK PIN" if bytes_of(self.command)[1] == UNBLOCK else "the PIN"
        return f"one try of {which} is taken"

    def told(self, answers):
        """What tells one state from the other: the answers that aren't the same before and after, or each answer once."""
        if bytes_of(self.command)[1] in PINS and len(self.old) == len(self.new) > 1:
            # a VERIFY that reads back takes a try itself, so that each answer is told, in the order of what reads back
            return ", ".join(map(spaced, answers))
        if self.old == self.new or not len(answers) == len(self.old) == len(self.new):
            return ", ".join(map(spaced, dict.fromkeys(answers)))
        differing = [n for n in range(len(answers)) if self.old[n] != self.new[n] or answers[n] != self.old[n]]
        return ", ".join(spaced(answers[n]) for n in differing)


# what the image of the memory tells

def command_of(said):
    """The bytes of the command that a line has the card carry out; None where it is another line."""
    if isinstance(said, Tpdu):
        return said.passed
    return said.command if isinstance(said, Apdu) else None


class Step:
    """A line of a script that is cut: its number, its text, what it says, and where it is played: the place from which a run
    continues, and the lines from there on up to it, without its own plans."""

    def __init__(self, words, script, at, place=None):
        self.phone = words[0] == "phone"
        self.at, self.place = at, place or kept.beginning(words, script)
        self.number, self.said = script.steps[at]
        self.line = script.lines[self.number - 1]
        self.before = unplanned(kept.lines_of(script, self.place.at, at))

    def play(self, *sent):
        """Plays the lines before the step, and then these."""
        after = [] if self.phone or sent and sent[-1] == "reset" or not sent else ["reset"]
        return self.place.play([*self.before, *sent, *after])

    def title(self):
        command = command_of(self.said)
        return decode.title(decode.Apdu(command)) if command else self.line

    def half(self):
        command = command_of(self.said)
        size = len(command) - 4 if command else 16
        return max(1, min(PAGE, size // 2))


class Outcome:
    """What came of a step: its answer, what was before and after, and for each write how each way of it was shown and left."""

    def __init__(self, step):
        self.step, self.answer, self.writes, self.runs = step, "", [], 0
        self.counts = dict.fromkeys(STATES, 0)

    def try_all(self):
        step = self.step
        self.old, self.new = step.play(), step.play(step.line)
        self.runs = 2
        if self.new.status not in (0, EEPROM_FAILED):
            raise simulator.Ended(self.new.trace[-1] if self.new.trace else "", self.new.status, self.new.said)
        known = len(self.old.trace)
        self.answer = shown_of(self.new.trace[known:], step)
        for call in range(1, MOST_CALLS):
            ways = []
            for name, plan in WAYS:
                played = step.play(plan.format(call=call, half=step.half()), step.line)
                self.runs += 1
                shown = shown_of(played.trace[known:], step)
                if name == WAYS[0][0] and simulator.CUT not in played.trace[known:]:
                    return self
                state = self.state(played.entries)
                ways.append(Left(name, shown, state, self.half_done(played.entries) if state == "between" else ""))
                self.counts[state] += 1
            self.writes.append(ways)
        return self

    def lefts(self, ways):
        """What came of each write that went wrong in one of these ways."""
        named = [name for name, _ in ways]
        return [left for write in self.writes for left in write if left.way in named]

    def half_done(self, entries):
        """Which part of a step was done and which wasn't, in words."""
        old, new = self.old.entries, self.new.entries
        keys = dict.fromkeys([*old, *new])
        changing = [key for key in keys if old.get(key) != new.get(key) or entries.get(key) != old.get(key)]
        tried = [try_taken(key, old[key], entries[key]) for key in changing if key[0] == "pin" and is_try_taken(old.get(key), entries.get(key))]
        done = [entry_name(key) for key in changing if key[0] != "pin" and entries.get(key) == new.get(key)]
        parts = [entry_name(key) for key in changing if entries.get(key) not in (old.get(key), new.get(key)) and key[0] == "row"]
        return "; ".join(tried + [f"{name} is done" for name in done] + [f"{name} is done in part" for name in parts])

    def state(self, entries):
        old, new = self.old.entries, self.new.entries
        if entries == old:
            return "same" if old == new else "before"
        if entries == new:
            return "after"
        return "between" if self.is_between(entries) else "NEITHER"

    def is_between(self, entries):
        """Whether each entry is as before or after, in a step that may make several commits; or a PIN has lost the try alone."""
        old, new = self.old.entries, self.new.entries
        if entries is None or old is None or new is None:
            return False
        changed = [key for key in {*entries, *old, *new} if entries.get(key) != old.get(key)]
        if all(key[0] == "pin" for key in changed):
            return all(is_try_taken(old.get(key), entries.get(key)) or entries.get(key) == new.get(key) for key in changed)
        return makes_commits(self.step) and all(is_passed(key, entries, old, new) for key in changed)


def is_try_taken(old, found):
    """Of a PIN's value, whether it is enabled, its unblock value, its tries and those of the unblock value."""
    if not old or not found or found[:3] != old[:3]:
        return False
    return (found[3], found[4]) in ((old[3] - 1, old[4]), (old[3], old[4] - 1))


def try_taken(key, old, found):
    """Which try a PIN has lost."""
    return f"one try of the UNBLOCK PIN of {entry_name(key)} is taken" if found[4] < old[4] else f"one try of {entry_name(key)} is taken"


def makes_commits(step):
    """Whether a step may make several commits: applets run in it."""
    command = command_of(step.said)
    if command:
        return decode.Apdu(command).ins in (decode.PROFILE, decode.ENVELOPE, decode.RESPONSE, decode.STATUS, decode.FETCH)
    return isinstance(step.said, (Handset, Reset))


def is_passed(key, entries, old, new):
    """Whether an entry is as after, or is a row of which each part is as before or after."""
    found, first, last = entries.get(key), old.get(key), new.get(key)
    if found == last:
        return True
    return key[0] == "row" and None not in (found, first, last) and all(part in (one, other) for part, one, other in zip(found, first, last))


def shown_of(trace, step):
    """What the trace shows first for a step: the answer to its command, or what came in place of it."""
    answers = [line for line in trace if not line.startswith(("> ", "* "))]
    if command_of(step.said):
        return answers[0] if answers else ""
    return simulator.CUT if simulator.CUT in answers else "< 6581" if "< 6581" in answers else answers[0] if answers else ""


def cuttable(script):
    """The places of the steps of a script that may be cut: those that send a command or reset the card."""
    return [place for place, (_, said) in enumerate(script.steps)
            if not isinstance(said, Plan) and (not isinstance(said, Tpdu) or said.passed)]


def read_script(path, word, image=None):
    """A script that can be played by this word of the command line, over an image where one is given. Unplayable, where one of its lines is
    bad."""
    with open(path, encoding=simulator.ENCODING, newline="\n") as text:
        script = lint.read(text.read(), word)
    script.image = image
    first = script.first()
    if first:
        raise Unplayable(f"{path}: line {first.line}: {first.reason}")
    return script


def all_outcomes(words, script, jobs, progress, shard=ALL):
    """What came of each step of a script, or of those of a shard, tried in parallel."""
    places = kept.places(words, script)
    steps = [Step(words, script, at, kept.nearest(places, at)) for at in shard.of(cuttable(script))]

    def tried(step):
        outcome = Outcome(step).try_all()
        progress.step()
        return outcome
    with concurrent.futures.ThreadPoolExecutor(jobs) as pool:
        return list(pool.map(tried, steps))


def changes(old, new):
    """Which entries of a card aren't the same before and after, in words."""
    if old is None or new is None:
        return [] if old == new else ["the card"]
    return [entry_name(key) for key in dict.fromkeys([*old, *new]) if old.get(key) != new.get(key)]


def otherwise(old, new):
    """What of a card is otherwise than it should be, in words."""
    if old is None or new is None:
        return changes(old, new)
    return [f"{entry_name(key)} {'is missing' if key not in new else 'is too much' if key not in old else 'differs'}"
            for key in dict.fromkeys([*old, *new]) if old.get(key) != new.get(key)]


def entry_name(key):
    kind, which = key
    if kind == "pin":
        return names.key(which)
    return f"the applet on shelf {which}" if kind == "row" else names.shown(which)


def spaced(answer):
    """An answer with its status apart."""
    return f"{answer[:-4]} {answer[-4:]}".strip()
