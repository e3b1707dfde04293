"""Runs over an image of their own, in memory; and images that are kept along a script, from which a run may continue.

A script of many commands is not played from its beginning for each run: at some places of it the image is kept, with the lines that
have the card stand as it stood there, the same files selected and the same values presented. Each such place was tried: what is played
from it shows the same, and leaves the same, as what is played from the place before it.

A handset can't be made to stand as it stood, but for a reset: after it, it is as after `start`. So a run for a handset continues from the
resets of its script, over a card that is described as it stood there."""
import functools
import itertools
import os

from . import decode, follow, image, section, trace
from . import process as simulator
from .grammar import Apdu, Plan, Reset, Tpdu

# so many steps of a script from one place at which the image is kept to the next
STEPS_BETWEEN = 10
READ_BINARY, UPDATE_BINARY, READ_RECORD, UPDATE_RECORD = (
    decode.READ_BINARY, decode.UPDATE_BINARY, decode.READ_RECORD, decode.UPDATE_RECORD)
# mode of a record command that names the record by its number
BY_NUMBER = 4


class Played:
    """What a run over an image of its own leaves: its trace, its status, and what the card holds, entry by entry. `begun` is the
    image that it continues from; without one the memory is blank."""

    def __init__(self, words, lines, begun=None):
        with simulator.folder_in_memory() as place:
            path = os.path.join(place, "image")
            if begun is not None:
                with open(path, "wb") as content:
                    content.write(begun)
            text = "".join(line + "\n" for line in lines)
            self.trace, self.status, self.said = simulator.played([*words, "--image", path], text)
            if words[0] == "phone":
                # a handset would go on at a reset: the card is opened alone, which finishes what was begun
                simulator.played(["open", *options_of(words), "--image", path], "start\n")
            with open(path, "rb") as content:
                self.image = content.read()

    @functools.cached_property
    def entries(self):
        return entries_of(image.settled(self.image))


@functools.lru_cache(maxsize=1024)
def entries_of(settled):
    return image.state(settled)


def options_of(words):
    """The options of a run's words that its image is to be opened with too."""
    at = words.index("--store") if "--store" in words else len(words)
    return list(words[at:at + 2])


class Place:
    """A place of a script, before the step with this number, from which runs continue: by these words, over this image, with these
    lines first, which show so many lines of a trace."""

    def __init__(self, words, at, begin, begun=None, known=0):
        self.words, self.at, self.begin, self.begun, self.known = words, at, begin, begun, known

    def play(self, lines):
        return Played(self.words, [*self.begin, *lines], self.begun)


def beginning(words, script):
    """The place before the first step of a script."""
    return Place(words, 0, [line for line in simulator.card_section(script.lines)[0] if is_said(line)] + ["start"], script.image)


def is_said(line):
    return line and not line.startswith("#")


def lines_of(script, first, end):
    """The lines of some steps of a script."""
    return [script.lines[number - 1] for number, _ in script.steps[first:end]]


def places(words, script, between=STEPS_BETWEEN):
    """The places of a script at which runs may continue, in order; the first is its beginning."""
    if words[0] == "phone":
        return restarts(words, script, between)
    found = [beginning(words, script)]
    bounds = [at for at in range(between, len(script.steps), between) if not isinstance(script.steps[at - 1][1], Plan)]
    if not bounds:
        return found
    shown = Shown(found[0], script)
    for at, end in zip(bounds, [*bounds[1:], len(script.steps)]):
        # what goes on from a place shows the same as the whole script, or the place is none any more
        while (whole := going_on(script, found[-1], end, shown)) is None:
            found.pop()
        place = tried_place(words, script, found[-1], at, shown)
        goes_on = place and going_on(script, place, end, shown)
        if goes_on and image.settled(goes_on.image) == image.settled(whole.image):
            found.append(place)
    return found


def restarts(words, script, between):
    """The places of a handset's script: some of its resets, where the rest shows the same, and leaves the same, over a card that is described
    as it stood there. The handset knows nothing else from before it that the rest would show."""
    found = [beginning(words, script)]
    bounds = [at for at, (_, said) in enumerate(script.steps) if isinstance(said, Reset)]
    if not bounds:
        return found
    whole = found[0].play(lines_of(script, 0, len(script.steps)))
    marks = [place for place, line in enumerate(whole.trace) if line == simulator.RESET]
    if len(marks) != len(bounds):
        # some of them are a REFRESH, or in one the power was lost
        return found
    for at, mark in zip(bounds, marks):
        if at + 1 - found[-1].at < between:
            continue
        held = found[-1].play(lines_of(script, found[-1].at, at)).image
        place = Place(words, at + 1, [*section.lines(image.card_in(held)), "start"])
        rest = place.play(lines_of(script, at + 1, len(script.steps)))
        is_same = rest.trace == whole.trace[mark + 1:] and image.settled(rest.image) == image.settled(whole.image)
        if is_same and image.settled(described(place).image) == image.settled(held):
            place.known = len(place.play([]).trace)
            found.append(place)
    return found


def described(place):
    """The card of a handset, before the handset is switched on."""
    return Place(["play", *options_of(place.words)], 0, place.begin).play([])


def nearest(found, at):
    """The last place that isn't after a step."""
    return max((place for place in found if place.at <= at), key=lambda place: place.at)


class Shown:
    """What the trace of a whole script shows of each of its steps, played from its beginning."""

    def __init__(self, begin, script):
        lines = begin.play(lines_of(script, 0, len(script.steps))).trace
        counts = [trace.lines_shown(said) for _, said in script.steps]
        ends = list(itertools.accumulate(counts))
        self.of = [lines[end - count:end] for end, count in zip(ends, counts)]

    def between(self, first, end):
        return [line for shown in self.of[first:end] for line in shown]


def going_on(script, place, end, shown):
    """The run that continues from a place up to a step; None where it shows something else than the whole script."""
    played = place.play(lines_of(script, place.at, end))
    same = place.at == 0 or played.trace[place.known:] == shown.between(place.at, end)
    return played if same else None


def tried_place(words, script, before, at, shown):
    """The place before a step, with the image that stands there; None where its lines show something else than before, or change what
    the card holds."""
    begun = before.play(lines_of(script, before.at, at)).image
    steps = kept_steps(script, at, shown)
    if steps is None or image.is_unfinished(begun):
        return None
    begin = ["start", *(script.lines[script.steps[n][0] - 1] for n in steps)]
    place = Place(["open", *options_of(words)], at, begin, begun)
    stands = place.play([])
    if stands.trace != [line for n in steps for line in shown.of[n]] or image.settled(stands.image) != image.settled(begun):
        return None
    place.known = len(stands.trace)
    return place


def kept_steps(script, at, shown):
    """The steps since the last reset that have the card stand as it stands before a step; None where it has no power there."""
    since = max((n + 1 for n in range(at) if isinstance(script.steps[n][1], Reset)), default=0)
    marks = [line for line in shown.between(max(0, since - 1), at) if line.startswith("! ")]
    if marks and marks[-1] != simulator.RESET:
        return None
    kept, planned = [], []
    for n in range(since, at):
        said = script.steps[n][1]
        if isinstance(said, Plan):
            planned.append(n)
        elif planned or not passes(said):
            kept += [*planned, n]
            planned = []
    return kept


def passes(said):
    """Whether a line has the card read or write a file, and leaves it selected what was, with no record pointer moved."""
    command = said.passed if isinstance(said, Tpdu) else said.command if isinstance(said, Apdu) else None
    apdu = decode.Apdu(command) if command else None
    if not apdu or not apdu.ok or apdu.on_applets:
        return False
    if apdu.ins in (READ_BINARY, UPDATE_BINARY):
        return not follow.short_identifier(apdu)
    return apdu.ins in (READ_RECORD, UPDATE_RECORD) and apdu.p2 == BY_NUMBER and apdu.p1 != 0
