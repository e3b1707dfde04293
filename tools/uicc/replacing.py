"""Which file a result may be written over: one that would be made anew all the same, and none that somebody's work is in."""
import os
import re
import zlib

from . import lint, mistaken, names, process


# how the bytes of what programs make begin: a picture, a capture (pcapng), a report in XML
PICTURE, CAPTURE, REPORT = (b"<svg",), (b"\x0A\x0D\x0D\x0A",), (b"<?xml",)


# how many are named that would be lost
MOST_NAMED = 5
# the comment of a built script by which it is seen later whether somebody changed it
AS_BUILT = re.compile(r"# as built, the lines before start have the checksum ([0-9A-F]{8})")


class Kept(mistaken.Mistaken):
    """A file stays as it is: something would be lost."""


def expect_result(path, begins, *sources):
    """Kept, where what is made would be written over one of its sources, or over a file that doesn't begin as an earlier result does, with one of
    these; None stands for a trace. A file with nothing in it is free."""
    if path is None or not os.path.isfile(path):
        return
    if any(source and os.path.exists(source) and os.path.samefile(path, source) for source in sources):
        raise Kept(f"nothing is written: {path} is what this is made of, and would be lost: the result goes to another file")
    with open(path, "rb") as there:
        content = there.read()
    if content and not (mistaken.kind_of(content) == mistaken.TRACE if begins is None else content.startswith(begins)):
        kind = mistaken.kind_of(content)
        what = mistaken.ABOUT[kind][0] if kind else "no earlier result"
        raise Kept(f"nothing is written: {path} is {what}, and would be lost: the result goes to another file")


def expect_described(path, lines, text):
    """Kept, where a script describes a file, a PIN or an applet that the new one hasn't: a line for it was put in by hand, or the profile had it."""
    old, new = (lint.read("".join(line + "\n" for line in each)).card for each in (lines, text.splitlines()))
    gone = [names.shown(one, names.is_usim(old.files)) for one in old.files if one not in new.files]
    gone += [names.key(key) for key in old.pins if key not in new.pins]
    gone += [f"the applet on shelf {shelf}" for shelf in old.rows if shelf not in new.rows]
    if gone:
        more = f" and {len(gone) - MOST_NAMED} more" if len(gone) > MOST_NAMED else ""
        raise Kept(f"nothing is written: {path} describes {', '.join(gone[:MOST_NAMED])}{more}, which the new script doesn't; --force writes over "
                   "it")


def checksum(lines):
    """The checksum of a script's lines before `start`, one byte a letter, but for the comment that has it."""
    content = "".join(line + "\n" for line in process.card_section(lines)[0] if not AS_BUILT.fullmatch(line))
    return f"{zlib.crc32(content.encode(process.ENCODING)):08X}"


def as_built(text):
    """A script that was built, with the checksum of its lines before the last one, `start`."""
    *lines, start = process.lines_in(text.encode().decode(process.ENCODING))
    comment = f"# as built, the lines before {start} have the checksum {checksum(lines)}"
    return "".join(line + "\n" for line in (*lines, comment, start)).encode(process.ENCODING).decode()


def expect_as_built(path, lines, text):
    """Kept, where somebody changed a script after it was built, and the new one hasn't that change. Of one without a checksum nothing is known."""
    found = next((match for line in lines if (match := AS_BUILT.fullmatch(line))), None)
    if not found or found[1] == checksum(lines):
        return
    new = set(process.lines_in(text.encode().decode(process.ENCODING)))
    other = [str(number) for number, line in enumerate(process.card_section(lines)[0], 1) if line not in new and not AS_BUILT.fullmatch(line)]
    more = f" and {len(other) - MOST_NAMED} more" if len(other) > MOST_NAMED else ""
    which = f" (the new script hasn't line{'s' * (len(other) > 1)} {', '.join(other[:MOST_NAMED])}{more})" if other else ""
    raise Kept(f"nothing is written: {path} was changed by hand after it was built{which}; --force writes over it")


def expect_free(path, text, source):
    """Kept, where a result would be written over what it is made of, or over a file that holds something else. Of a script that a profile was
    built to, all before `start` is made anew; so one with nothing after it may go, where the new one has all files, PINs and applets of it, and
    nobody changed its lines."""
    if not os.path.isfile(path):
        return
    if os.path.samefile(path, source):
        raise Kept(f"nothing is written: {path} is what this is made of, and would be lost; --force writes over it")
    with open(path, "rb") as there:
        content = there.read()
    if content == text.encode():
        return
    if mistaken.kind_of(content) != mistaken.SCRIPT or mistaken.kind_of(text.encode()) != mistaken.SCRIPT:
        raise Kept(f"nothing is written: {path} would be written over; --force does so")
    lines = process.lines_in(content.decode(process.ENCODING))
    steps = process.card_section(lines)[1]
    if not any(steps):
        expect_described(path, lines, text)
        expect_as_built(path, lines, text)
    else:
        raise Kept(f"nothing is written: {path} has lines after `start` ({len(steps)}), which would be lost; --force writes over them. Kept in a file "
                   "of their own, they are put after a script that is built by `cat`")
