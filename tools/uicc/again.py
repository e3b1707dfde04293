"""What becomes of a card where a script was stopped in the midst and is run again from its beginning, as a personalisation does it.

The script is stopped at each memory write of each of its steps, as the power is lost in it or the write fails; then the card is reset, and
all lines after `start` are played once more over what was left. It is said whether the card ends as it would have."""
import collections
import concurrent.futures

from . import cutting, kept, trace
from . import process as simulator

# How a script ended that was stopped in this way and run again: which entries of the card aren't as they would have been, and the lines
# that were answered with another status than at first, or else the first that was answered otherwise: (line, what it showed at first,
# what it shows now) each.
Ended = collections.namedtuple("Ended", "way otherwise other_answers")


# how the statuses begin of a command that is done
DONE = ("9000", "91", "61", "62")


class Whole:
    """A script that is played with nothing cut: its lines, what they show, and what the card holds in the end."""

    def __init__(self, words, script):
        self.words, self.script = words, script
        self.lines = kept.lines_of(script, 0, len(script.steps))
        self.begin, self.places = kept.beginning(words, script), trace.places(script)
        self.once = self.begin.play([*self.lines, "reset"])
        if self.once.status != 0:
            raise simulator.Ended(self.once.trace[-1] if self.once.trace else "", self.once.status, self.once.said)

    def refused(self):
        """The lines of the script that are refused where nothing is cut, each with its status."""
        return [(number, shown[-4:]) for number, shown in zip(self.places, self.once.trace)
                if shown.startswith("< ") and not shown[-4:].startswith(DONE)]

    def stopped(self, sent):
        """Plays these lines, and then the whole script again. Where the card couldn't be reset in them, it is opened anew."""
        again = [*self.lines, "reset"]
        played = self.begin.play([*sent, "reset", *again])
        if played.status == cutting.EEPROM_FAILED:
            played = kept.Place(["open", *kept.options_of(self.words)], 0, ["start"], played.image).play(again)
        return played

    def ended(self, way, played):
        """How a run of it ended, after what stopped it."""
        shown = played.trace[-len(self.once.trace):]
        differing = [(number, first, now) for number, first, now in zip(self.places, self.once.trace, shown) if first != now]
        by_status = tuple(one for one in differing if one[1][-4:] != one[2][-4:])
        return Ended(way, cutting.otherwise(self.once.entries, played.entries), by_status or tuple(differing[:1]))


class Repeated:
    """What came of a script that was stopped at each write of one of its steps, and run again: how it ended for each write and way.
    `between` is how it ends where it is stopped after the step, with nothing cut."""

    def __init__(self, whole, at):
        self.whole, self.step = whole, cutting.Step(whole.words, whole.script, at)
        self.writes, self.between = [], None

    def try_all(self):
        step, whole = self.step, self.whole
        uncut = whole.stopped([*step.before, step.line])
        self.between = whole.ended("", uncut)
        for call in range(1, cutting.MOST_CALLS):
            ended = []
            for way, plan in cutting.WAYS:
                played = whole.stopped([*step.before, plan.format(call=call, half=step.half()), step.line])
                if way == cutting.WAYS[0][0] and played.trace == uncut.trace:
                    return self
                ended.append(whole.ended(way, played))
            self.writes.append(ended)
        return self

    @property
    def ends(self):
        return [ended for write in self.writes for ended in write]


def all_repeated(words, script, jobs, progress, shard=cutting.ALL):
    """What came of each step of a script, or of those of a shard, tried in parallel."""
    whole = Whole(words, script)

    def tried(at):
        repeated = Repeated(whole, at).try_all()
        progress.step()
        return repeated
    with concurrent.futures.ThreadPoolExecutor(jobs) as pool:
        return list(pool.map(tried, shard.of(cutting.cuttable(script))))
