"""Writes into a script that leaves lines open by `#..` what its lines show: what is met stays, also each `#..`; what isn't is written anew, and
what stands in no line is written below the line of the script that shows it.

Of all ways to lay the lines that are expected beside those that are shown it takes the one by which the fewest are lost."""
import dataclasses

from . import cases

GAP = "#.."
# what it costs to lose a line that is expected: to write another one in its place, of another sign, of another line of the script; to take it
# away. And to add one. What is lost counts first.
REPLACED, OF_OTHER_SIGN, OF_OTHER_LINE, TAKEN_AWAY, ADDED, ELSEWHERE = 1000, 100, 50, 1200, 1, 0.01
# what is done next: two lines are laid beside each other, one is taken away or added, a gap takes one more or ends; or all is done
BESIDE, AWAY, ADD, PASS, CLOSE, END = range(6)


@dataclasses.dataclass(frozen=True)
class Wanted:
    """A line that is expected, or a gap: the lines of which one must be shown, and the number of the script's line that it stands below. Where it
    stands right below a command (`above`) and is its answer, that `command` must be shown before it."""
    text: str
    below: int
    lines: tuple = ()
    above: str | None = None

    @property
    def is_gap(self):
        return self.text == GAP

    @property
    def command(self):
        return self.above if self.lines and all(map(is_answer, self.lines)) else None

    @property
    def span(self):
        """How many lines that are shown it stands for."""
        return 2 if self.command else 1


@dataclasses.dataclass(frozen=True)
class Shown:
    """A line that is shown, and the number of the script's line that shows it; whether it is the command that this line is."""
    text: str
    place: int
    is_command: bool = False

    @property
    def is_answer(self):
        return is_answer(self.text)


def is_answer(line):
    return line.startswith(("< ", "! "))


def expecting(line):
    """The line that says that this is shown."""
    return "#" + line if line.startswith(cases.WHOLE) else "#= " + line


def command_of(line):
    word, _, rest = line.partition(" ")
    return "> " + rest.upper() if word == "apdu" else None


def wanted_in(body):
    """The lines of a script that say what is shown, in order."""
    below, command = 0, None
    for number, line in enumerate(body, 1):
        if line.split(" ")[0] in cases.EXPECTING:
            lines = () if line == GAP else tuple(cases.alternatives(line[len("#= "):] if line.startswith("#= ") else line[1:]))
            yield Wanted(line, below, lines, command)
            command = None
        elif not line.startswith("#"):
            below, command = number, command_of(line)


def cost_beside(one, shown):
    """What it costs to lay the next lines that are shown beside one that is expected; None where they can't stand together."""
    if len(shown) < one.span:
        return None
    line = shown[one.span - 1]
    if one.command and (shown[0].text != one.command or not line.is_answer):
        return None
    elsewhere = line.place != one.below
    if cases.is_shown(line.text, one.lines):
        return ELSEWHERE * elsewhere
    if line.is_command or one.above and not one.command and line.is_answer:
        # a command stands there already, and what is right below it would be its answer
        return None
    return REPLACED + OF_OTHER_SIGN * (one.lines[0][:2] != line.text[:2]) + OF_OTHER_LINE * elsewhere


def best_ways(wanted, shown):
    """For each number of lines that are accounted for on both sides what is done next."""
    ways, after = [], None
    for i in range(len(wanted), -1, -1):
        costs, row = [0.0] * (len(shown) + 1), bytearray(len(shown) + 1)
        for j in range(len(shown), -1, -1):
            costs[j], row[j] = next_way(wanted[i] if i < len(wanted) else None, shown[j:j + 2], costs[j + 1] if j < len(shown) else 0.0, after, j)
        after = costs
        ways.append(row)
    return ways[::-1]


def next_way(one, next_shown, cost_of_rest, after, j):
    """The cheapest way on from a line that is expected, if there is one, and those that are shown next; and what it costs. `after` has the costs
    from the next line on that is expected."""
    found = []
    if one and one.is_gap:
        found += [(cost_of_rest, PASS)] if next_shown else []
        found.append((after[j], CLOSE))
    else:
        cost = cost_beside(one, next_shown) if one else None
        found += [] if cost is None else [(cost + after[j + one.span], BESIDE)]
        found += [(ADDED + cost_of_rest, ADD)] if next_shown else []
        found += [(TAKEN_AWAY + after[j], AWAY)] if one else []
    return min(found, key=lambda way: way[0], default=(0.0, END))


def steps(wanted, shown):
    """What is done, in order: for each line that is expected what stands in its place, and before it the lines that are added."""
    ways, i, j = best_ways(wanted, shown), 0, 0
    added = []
    while (way := ways[i][j]) != END:
        if way == BESIDE:
            line = shown[j + wanted[i].span - 1].text
            yield added, wanted[i].text if cases.is_shown(line, wanted[i].lines) else expecting(line)
            i, j, added = i + 1, j + wanted[i].span, []
        elif way in (AWAY, CLOSE):
            yield added, wanted[i].text if way == CLOSE else None
            i, added = i + 1, []
        else:
            added += [shown[j]] if way == ADD else []
            j += 1
    yield added, None


def filled(body, places, lines):
    """The lines of a script with what is shown."""
    doing = steps(list(wanted_in(body)), [Shown(line, place, line == command_of(body[max(0, place - 1)])) for line, place in zip(lines, places)])
    made, (added, text), current = [], next(doing), 0
    for number, line in enumerate(body, 1):
        if line.split(" ")[0] in cases.EXPECTING:
            put(made, added)
            made += [] if text is None else [text]
            added, text = next(doing)
        else:
            made.append(line)
            current = current if line.startswith("#") else number
        put(made, added, current)
    put(made, added)
    return made


def put(made, added, up_to=None):
    """Adds the lines that belong below lines of the script up to one of them; a command, which stands above, with its answer."""
    while added and (up_to is None or added[0].place <= up_to):
        line = added.pop(0)
        if not (added and added[0].is_answer and command_of(made[-1]) == line.text):
            made.append(expecting(line.text))
