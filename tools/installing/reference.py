#!/usr/bin/env python3
"""Writes docs/MODULE.md, the reference of the module `uicc`, from the texts and types of its public names.

    tools/installing/reference.py"""
import inspect
import os
import re
import sys
import textwrap

sys.dont_write_bytecode = True
TOOLS = os.path.dirname(os.path.dirname(os.path.abspath(__file__)))
sys.path.insert(0, TOOLS)
import uicc

PAGE = os.path.join(os.path.dirname(TOOLS), "docs", "MODULE.md")
WIDTH = 120
LONGEST_DEFAULT = 12
MODULE = re.compile(r"\b(uicc\.)?(\w+\.)(?=[A-Z])")
HEAD = """\
# The module `uicc`

What a program or a test has of the simulated card in Python, name by name. [TOOLS.md](TOOLS.md#a-card-in-python) shows it on a task, and
`examples/applet-tests` is a project of tests with pytest. The module is typed. This page is written by
`tools/installing/reference.py` from the texts in its source.
"""


def text_of(what, margin=""):
    """What the source says of something, in lines of the page; none where it says nothing of its own."""
    said = inspect.getdoc(what) or ""
    if said.startswith(f"{getattr(what, '__name__', '')}("):
        # the signature that a dataclass has in the place of a text
        return ""
    return textwrap.indent(said, margin)


def told(annotation):
    """A type as it stands in the source, without the module that has it."""
    return MODULE.sub("", annotation if isinstance(annotation, str) else inspect.formatannotation(annotation))


def parameter(given):
    if given.kind is given.VAR_KEYWORD:
        return "**" + given.name
    typed = "" if given.annotation is given.empty else f": {told(given.annotation)}"
    if given.default is given.empty:
        return given.name + typed
    default = repr(given.default)
    return f"{given.name}{typed} = {default if len(default) <= LONGEST_DEFAULT else '..'}"


def called(name, function):
    """How a method is called, with its types."""
    given = inspect.signature(function)
    parts = ", ".join(parameter(part) for part in given.parameters.values() if part.name not in ("self", "cls"))
    answers = "" if given.return_annotation is given.empty else f" -> {told(given.return_annotation)}"
    return "\n".join(textwrap.wrap(f"{name}({parts}){answers}", WIDTH, subsequent_indent="    ", break_long_words=False))


def members(kind):
    """The public methods and values of a class, in the order of its source."""
    for name, member in vars(kind).items():
        if name.startswith("_"):
            continue
        if isinstance(member, property):
            yield name, member.fget, True
        elif isinstance(member, (classmethod, staticmethod)):
            yield f"{kind.__name__}.{name}", member.__func__, False
        elif inspect.isfunction(member):
            yield name, member, False


def part_of(name):
    """The part of the page about one public name."""
    kind = getattr(uicc, name)
    lines = [f"## {name}", "", text_of(kind), ""]
    fields = getattr(kind, "__dataclass_fields__", {})
    if fields:
        lines += ["It has " + ", ".join(f"`{field}`" for field in fields) + ".", ""]
    found = list(members(kind))
    if found:
        block = []
        for member, function, is_value in found:
            shown = f"{member}: {told(inspect.signature(function).return_annotation)}" if is_value else called(member, function)
            block += [shown, *([said] if (said := text_of(function, "    ")) else []), ""]
        lines += ["```text", *block[:-1], "```", ""]
    return "\n".join(lines)


def page():
    return HEAD + "\n" + "\n".join(part_of(name) for name in uicc.__all__).rstrip("\n") + "\n"


if __name__ == "__main__":
    with open(PAGE, "w", encoding="utf-8") as out:
        out.write(page())
