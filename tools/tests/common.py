"""What the tests of tools/ share."""
import contextlib
import dataclasses
import importlib.machinery
import importlib.util
import io
import os
import sys
import unittest.mock

sys.dont_write_bytecode = True
TOOLS = os.path.dirname(os.path.dirname(os.path.abspath(__file__)))
sys.path.insert(0, TOOLS)

# Answers each line as a card without files does: 9000 to a command and to a TPDU, power lost at a planned cut; to a proactive command
# that no channel is open. GET RESPONSE as a TPDU leaves the cut planned.
STAND_IN = """#!/usr/bin/env python3
import sys
cut = off = False
for line in sys.stdin:
    word, _, rest = line.strip().partition(" ")
    if word == "cut":
        cut = True
    elif word == "reset":
        off = False
        print("! reset", flush=True)
    elif word == "tpdu" and rest[2:4] == "C0":
        print("> " + rest + "\\n< 6985", flush=True)
    elif word in ("apdu", "tpdu"):
        print("> " + rest, flush=True)
        print("! cut" if cut else "! off" if off else "< 9000", flush=True)
        cut, off = False, off or cut
    elif word == "cmd":
        print("> " + rest, flush=True)
        print("< 810301440082028281830100B8020000", flush=True)
    elif word == "net":
        print("* event D60B99010A82028281B8020105", flush=True)
    elif line.strip() == "df DEAD" or word == "worn":
        print("uicc_run: no space is left", file=sys.stderr, flush=True)
        print("eeprom failed", flush=True)
        sys.exit(6)
    elif word == "bad":
        print("line 1", flush=True)
        sys.exit(2)
"""

# what is said once of a process where the release is of other sources than stand here, which is none of a test's matters
OTHER_SOURCES = "uicc_run: the released program runs, and the sources that stand here are other ones: "


def load(name):
    """A command of tools/ as a module."""
    loader = importlib.machinery.SourceFileLoader(name, os.path.join(TOOLS, name))
    module = importlib.util.module_from_spec(importlib.util.spec_from_loader(name, loader))
    loader.exec_module(module)
    return module


@dataclasses.dataclass(frozen=True)
class Done:
    """What a command printed, and the status that it ended with."""
    returncode: int
    stdout: str
    stderr: str


def in_process(name, *words, text=""):
    """A command of tools/ in this process: to start one for each question takes longer than all the rest."""
    command, streams = load(name), [io.TextIOWrapper(io.BytesIO(part), encoding="utf-8", newline="") for part in (text.encode(), b"", b"")]
    with contextlib.ExitStack() as stack:
        for place, given in (("argv", [name, *words]), *zip(("stdin", "stdout", "stderr"), streams)):
            stack.enter_context(unittest.mock.patch.object(sys, place, given))
        try:
            status = command.main()
        except SystemExit as end:
            status = end.code
    out, said = (written(stream) for stream in streams[1:])
    return Done(status or 0, out, "".join(line for line in said.splitlines(keepends=True) if not line.startswith(OTHER_SOURCES)))


def written(stream):
    stream.flush()
    return stream.buffer.getvalue().decode()
