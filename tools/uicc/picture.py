"""Pictures of what was tried, as SVG."""
import collections
from xml.sax.saxutils import escape

COLOURS = {"same": "#b9bcc2", "before": "#4c78a8", "between": "#e8a838", "after": "#54a24b", "NEITHER": "#d62728"}
MEANINGS = {"same": "the command changes nothing", "before": "as before", "between": "between", "after": "as after", "NEITHER": "NEITHER"}
# how a script ends that is run again
AS_IT_WOULD, OTHERWISE = "#54a24b", "#d62728"
ENDS = [(AS_IT_WOULD, "ends as it would have"), (OTHERWISE, "ends otherwise")]
ROW, CELL, GAP, LEFT, TOP = 20, 18, 3, 430, 74
LONGEST_TITLE = 54
# a row of a picture: a step, what it is answered, a note in the place of cells, and for each write the stripes of its ways, from the top down
Row = collections.namedtuple("Row", "step answer note writes")
Stripe = collections.namedtuple("Stripe", "colour text")


def of_cuts(name, outcomes):
    """A row for each command, a cell for each of its writes."""
    rows = []
    for outcome in outcomes:
        refused = outcome.answer.startswith("< ") and not outcome.answer[-4:].startswith(("9000", "91", "62"))
        writes = [[Stripe(COLOURS[left.state], f"{left.way}: {left.shown}, {MEANINGS[left.state]}" + (f" ({left.half})" if left.half else ""))
                   for left in ways] for ways in outcome.writes]
        rows.append(Row(outcome.step, answer_shown(outcome.answer), "refused" if refused and not writes else "", writes))
    return drawn(f"What a power cut leaves: {name}", [(colour, MEANINGS[state]) for state, colour in COLOURS.items()], rows)


def of_again(name, repeated):
    """The same of a script that is run again from its beginning, after it was stopped in a write."""
    rows = [Row(one.step, "", "", [[Stripe(OTHERWISE if ended.otherwise else AS_IT_WOULD,
                                           f"{ended.way}: {', '.join(ended.otherwise) or 'as it would have'}") for ended in write]
                                   for write in one.writes]) for one in repeated]
    return drawn(f"Stopped in a write, and run again: {name}", ENDS, rows)


def drawn(title, legend, rows):
    most = max((len(row.writes) for row in rows), default=0)
    width, height = LEFT + max(most * CELL + 20, 330), TOP + ROW * len(rows) + 16
    lines = [f'<svg xmlns="http://www.w3.org/2000/svg" width="{width}" height="{height}" font-family="sans-serif" font-size="12">',
             f'<rect width="{width}" height="{height}" fill="white"/>',
             f'<text x="10" y="20" font-size="14" font-weight="bold">{escape(title)}</text>',
             '<text x="10" y="38" fill="#555">a row is a command, a cell a memory write: cut, torn half way, failing, from the top down</text>']
    x = 10
    for colour, meaning in legend:
        lines.append(f'<rect x="{x}" y="48" width="11" height="11" fill="{colour}"/><text x="{x + 16}" y="58">{meaning}</text>')
        x += 30 + 7 * len(meaning)
    for place, row in enumerate(rows):
        lines += row_lines(row, TOP + ROW * place)
    return "\n".join([*lines, "</svg>"]) + "\n"


def row_lines(row, y):
    title = row.step.title()
    title = title if len(title) <= LONGEST_TITLE else title[:LONGEST_TITLE - 2] + ".."
    colour = "#999" if row.note or not row.writes else "black"
    yield f'<text x="30" y="{y + 13}" text-anchor="end" fill="#777">{row.step.number}</text>'
    yield f'<text x="38" y="{y + 13}" fill="{colour}">{escape(title)}</text>'
    if row.answer:
        yield f'<text x="{LEFT - 12}" y="{y + 13}" text-anchor="end" fill="{colour}">{escape(row.answer)}</text>'
    if row.note:
        yield f'<text x="{LEFT}" y="{y + 13}" fill="#999">{row.note}</text>'
    yield from (cell(LEFT + CELL * place, y, stripes) for place, stripes in enumerate(row.writes))


def cell(x, y, stripes):
    """A write: a stripe for each way, from the top down."""
    height = (ROW - GAP) / len(stripes)
    return "".join(f'<rect x="{x}" y="{y + place * height:.2f}" width="{CELL - GAP}" height="{height - 0.6:.2f}" '
                   f'fill="{stripe.colour}"><title>{escape(stripe.text)}</title></rect>' for place, stripe in enumerate(stripes))


def answer_shown(answer):
    """A status, or what came in its place."""
    return answer[-4:] if answer.startswith("< ") else answer.removeprefix("! ")
