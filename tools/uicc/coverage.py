"""What sequences cover: proactive commands with their qualifiers and general results, and how often each passed."""
import collections

from . import names, verdict
from .sequence import Give, Respond, Restart

RESULT = 0x03
HEADS = ("command", "qualifier", "result", "31.124", "sequences", *verdict.VERDICTS)


def results_in(step):
    """The general results that a response may have, each with its name."""
    pattern = next((one.pattern for one in step.objects if one.tag == RESULT), "")
    codes = dict.fromkeys(part[:2] for part in pattern.split("|"))
    return " or ".join(f"{code} {names.table('toolkit')['results'].get(code, '')}".strip() for code in codes) or "any"


def covered(sequence):
    """Each command of a sequence with the general results that its response may have."""
    given = None
    for step in sequence.steps:
        if isinstance(step, Give):
            given = step
        elif given and isinstance(step, Respond):
            yield given, results_in(step)
        elif given and isinstance(step, Restart):
            yield given, "the card is reset"


def title_of(given):
    """What a command is, and its qualifier; without details it is neither."""
    return (given.name, qualifier_text(given)) if given.has_details else ("(no details)", "")


def qualifier_text(given):
    kind, qualifier = given.details[1:]
    name = names.qualifier(kind, qualifier)
    return f"{qualifier:02X}" + (f" {name}" if name else "")


def rows(outcomes):
    """A row for each command, qualifier and result: how many sequences have it, and how many of them ended with which verdict. The
    sections are those of the sequences that end with this command: the ones before it prepare it."""
    counts, sections = collections.defaultdict(collections.Counter), collections.defaultdict(set)
    for outcome in outcomes:
        sequence = outcome.sequence
        keys = {(given.details[1], *title_of(given), result): given for given, result in covered(sequence)}
        for key, given in keys.items():
            counts[key][outcome.verdict] += 1
            if sequence.section and given is sequence.commands()[-1]:
                sections[key].add(sequence.section)
    for key in sorted(counts):
        found = [counts[key][kind] for kind in verdict.VERDICTS]
        yield [*key[1:], " ".join(sorted(sections[key])), str(sum(found)), *(str(count or "") for count in found)]


def table(outcomes):
    """The lines of a table."""
    lines = [list(HEADS), *rows(outcomes)]
    widths = [max(len(line[n]) for line in lines) for n in range(len(HEADS))]
    for line in lines:
        yield "  ".join(f"{word:<{width}}" for word, width in zip(line, widths)).rstrip()
