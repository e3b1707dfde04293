"""Writes into a script with expectations what its lines show."""
import os

from . import carrying, cases, filling, lint, process, trace
from .filling import GAP


class Unwritable(Exception):
    """Why the answers of a case can't be written."""


def places_of(run, words, left, before):
    """For each line of a run's trace, the number of the line of its script that shows it."""
    mode = next((mode for mode in lint.MODES if words[:1] == [mode]), "play")
    script = lint.read(run.script, mode)
    if "start" not in script.lines:
        return [len(script.lines)] * len(left.trace)
    if mode in ("play", "open"):
        found = trace.places(script)[:len(left.trace)]
    else:
        found = prefix_places(script, words, left.trace, before)
    first = script.first()
    last = first.line if first else len(script.lines)
    return found + [min(last, len(script.lines))] * (len(left.trace) - len(found))


def prefix_places(script, words, shown, before):
    """The script is played up to each of its lines, over the memory as it was: it shows the more, the further it goes."""
    found = []
    with process.folder_in_memory() as folder:
        for number in [trace.start_of(script)] + [number for number, _ in script.steps]:
            text = "".join(line + "\n" for line in script.lines[:number])
            part = part_played(folder, words, text, before)[:len(shown)]
            if part != shown[:len(part)]:
                raise Unwritable("its script shows something else when it is played in part")
            found += [number] * (len(part) - len(found))
    return found


def part_played(folder, words, text, before):
    """The trace of a script over a memory that holds these bytes, or a blank one."""
    if before is None:
        return process.played(words, text)[0]
    path = os.path.join(folder, "image")
    with open(path, "wb") as out:
        out.write(before)
    return process.played([*words, "--image", path], text)[0]


def expecting(command, shown):
    """The lines that say that this is shown below a line of the script."""
    lines = list(shown)
    if command and lines[:1] == ["> " + command.upper()] and lines[1:2] and lines[1].startswith(("< ", "! ")):
        lines = lines[1:]
    return [filling.expecting(line) for line in lines]


def kept_or_new(old, new):
    """The lines that stand below a line of the script, where they leave open what is shown; or else those that say it."""
    fits = len(old) == len(new) and all(cases.is_shown(one[1:], wanted[1:].split(" | ")) for one, wanted in zip(new, old))
    return old if fits else new


def refuse_faulty(run, left):
    """A script that the program doesn't play to its end is no example of itself, but where its status says that it is meant so."""
    if left.status not in (1, 2, 8) or run.status == left.status:
        return
    if left.status == 1:
        raise Unwritable("its words are in no form of the command line")
    first = lint.read(run.script, next((mode for mode in lint.MODES if run.words[:1] == [mode]), "play")).first()
    raise Unwritable(f"line {first.line} of its script: {first.reason}" if first else f"its run ended with {left.trace[-1:]}")


def with_words(text, name, words):
    """The text of a script alone as a case that says by which words it is run, so that the file is run so ever after; any other text, and
    one for `play`, as it is."""
    if words == ["play"] or not cases.read(text, name, words)[0].plain:
        return text
    body = text if text.endswith("\n") or not text else text + "\n"
    has_status = any(line.startswith("#status ") for line in body.splitlines())
    title = os.path.splitext(os.path.basename(name))[0]
    return f"#case {title}\n#run {' '.join(words)}\n{body}" + ("" if has_status else "#status 0\n")


def written(text, case, run, left, before):
    """The text of a file with what a run showed in place of what it was expected to show. Script lines keep their places."""
    if case.plans:
        raise Unwritable("it is carried out with many plans, and shows something else with each")
    places = places_of(run, run.words, left, before)
    lines = text.removesuffix("\n").split("\n")
    head, body = lines[:run.begins], lines[run.begins:run.ends - 1]
    tail = lines[run.ends - 1:]
    if any(line.split(" ")[0] in ("#repeat", "#chars", "#raw", "#crlf", "#end", "#met", "#plan") for line in body):
        raise Unwritable("lines of its script are made by words of the case")
    if any(line == GAP for line in body):
        made = filling.filled(body, places, left.trace)
    else:
        made = line_by_line(body, places, left.trace)
    if tail and tail[0].startswith("#status"):
        tail[0] = f"#status {left.status}"
    elif left.status != 0:
        made.append(f"#status {left.status}")
    return "\n".join([*head, *made, *tail]) + "\n"


def line_by_line(body, places, shown):
    """A script with what each line of it showed below that line."""
    made, below = [], {}
    for place, line in zip(places, shown):
        below.setdefault(place, []).append(line)
    pending, old = [], []
    for number, line in enumerate(body, 1):
        if line.split(" ")[0] in cases.EXPECTING:
            old.append(line)
            continue
        made += kept_or_new(old, pending)
        pending, old = [], []
        made.append(line)
        if number in below:
            word, _, rest = line.partition(" ")
            pending = expecting(rest if word == "apdu" else None, below[number])
    return made + kept_or_new(old, pending)


def filled(text, name, words, number):
    """The text of a file with the answers of the case at a place written into it, where its runs differ. A line of the trace may
    name a line of the script, whose place moves with what is written above it: so it is done until nothing differs."""
    for _ in range(4):
        case = cases.read(text, name, words)[number]
        if case.mistake:
            raise Unwritable(case.mistake)
        why = case.beyond_program()
        if why:
            raise Unwritable(why)
        changed = one_written(text, case)
        if changed is None:
            return text
        text = changed
    raise Unwritable("what it shows depends on what is written into it")


def one_written(text, case):
    """The text with the first run written anew that differs; None where none does."""
    with process.folder_in_memory() as folder:
        device = carrying.Device(folder, carrying.needs_image(case))
        for run in case.runs:
            device.prepare(run.setup, carrying.size_for(run.words, len(device.content)))
            before = device.content if device.is_under(run.words) else None
            left = device.play(run.words, run.script)
            if cases.difference(run, left.trace, left.status, left.image, None):
                refuse_faulty(run, left)
                return written(text, case, run, left, before)
    return None
