"""Reports of what was tried, for programs: the Test Anything Protocol, and JUnit's XML for build servers."""
import dataclasses
import os
import re
from xml.sax.saxutils import escape, quoteattr

from . import process, replacing

PASSED, FAILED, SKIPPED = "passed", "failed", "skipped"
# what no XML may have in it
NOT_OF_XML = re.compile("[^\t\n\r\x20-\ud7ff\ue000-\ufffd\U00010000-\U0010ffff]")


@dataclasses.dataclass(frozen=True)
class Result:
    """A case: the file that it is of, its name, how it went, and in a word why, with lines that say more; `line` is that at which it begins, or
    at which it failed."""
    path: str
    name: str
    kind: str
    seconds: float = 0.0
    why: str = ""
    lines: tuple = ()
    line: int | None = None


def tap(results):
    """The lines of the Test Anything Protocol."""
    yield "TAP version 13"
    yield f"1..{len(results)}"
    for number, one in enumerate(results, 1):
        name = one.name.replace("#", "\\#")
        yield f"{'not ok' if one.kind == FAILED else 'ok'} {number} - {name}" + (f" # SKIP {one.why}" if one.kind == SKIPPED else "")
        if one.kind == FAILED:
            yield from ("#" + line for line in one.lines)


def refuse_unwritable(path, *sources):
    """OSError, where no file can be written at a path, and Kept, where a source of it or something else than a report is there; what is there stays as it is."""
    replacing.expect_result(path, replacing.REPORT, *sources)
    is_there = os.path.exists(path)
    with open(path, "a", encoding="utf-8"):
        pass
    if not is_there:
        os.remove(path)


def portable(path):
    """A path that is the same on each machine: from the folder on in which this runs, or from that of the tools, where it lies below."""
    path = os.path.abspath(path)
    for top in (os.getcwd(), process.TOP):
        short = os.path.relpath(path, top)
        if not short.startswith(os.pardir):
            return short
    return os.path.basename(path)


def junit(results, suite, seconds):
    """The text of a report in JUnit's form."""
    kinds = [one.kind for one in results]
    lines = ['<?xml version="1.0" encoding="UTF-8"?>',
             f'<testsuite name={quoteattr(suite)} tests="{len(results)}" failures="{kinds.count(FAILED)}" '
             f'skipped="{kinds.count(SKIPPED)}" time="{seconds:.3f}">']
    for one in results:
        place = quoteattr(portable(one.path))
        line = "" if one.line is None else f' line="{one.line}"'
        head = f'  <testcase classname={place} name={quoteattr(one.name)} file={place}{line} time="{one.seconds:.3f}"'
        if one.kind == PASSED:
            lines.append(head + "/>")
        elif one.kind == SKIPPED:
            lines += [head + ">", f"    <skipped message={quoteattr(one.why)}/>", "  </testcase>"]
        else:
            text = escape("\n".join(one.lines))
            lines += [head + ">", f"    <failure message={quoteattr(one.why)}>{text}</failure>", "  </testcase>"]
    return NOT_OF_XML.sub("?", "\n".join([*lines, "</testsuite>"])) + "\n"
