#!/usr/bin/env python3
"""Makes sessions of a handset at random, and compares the trace of `uicc_run phone` with that of a Terminal in Python.

    tools/tests/fuzz_terminal.py [--count N] [--seed N] [--jobs N] [--to FOLDER]

A session is a card with applets of all kinds and the lines of a handset over it: what its user does, what the network tells, time that
passes, resets, and memory that loses power or fails. --to writes the scripts to a folder, and runs nothing."""
import argparse
import concurrent.futures
import os
import random
import sys
import tempfile

sys.dont_write_bytecode = True
HERE = os.path.dirname(os.path.abspath(__file__))
sys.path.insert(0, os.path.dirname(HERE))
from uicc import Card, Ended, Terminal, kinds, process, terminal

SHELVES = 16
MENU, BARS, TABLE = "menu", "barrier", "table"
DOWNLOADED = (0x00, 0x01, 0x02, 0x03, 0x04, 0x05, 0x07, 0x09, 0x0A)
PROFILE, STATUS, CALL_CONTROL, MENU_ENTRY, TIMER = 0x40, 0x41, 0x45, 0x43, 0x44
ACTIONS = range(0x01, 0x0C)
PLACES = ("00F11000010002", "00F110", "62F22000FF0001020304", "01" * 32)


class Maker:
    """A session; most of its lines have something to do."""

    def __init__(self, seed):
        self.random = random.Random(seed)
        self.controlled = False

    def chance(self, share):
        return self.random.random() < share

    def some(self, *choices):
        return self.random.choice(choices)

    def events(self, kind):
        """The events that an applet of a kind does something for, and now and then others."""
        liked = {MENU: [], "watcher": [0x03, 0x04, 0x05], BARS: [],
                 TABLE: self.random.sample((PROFILE, STATUS, 0x03, 0x04, 0x05), self.random.randint(1, 3))}.get(kind, [PROFILE])
        found = [code for code in liked if self.chance(0.9)]
        if self.chance(0.2):
            found.append(self.random.choice((*DOWNLOADED, STATUS)))
        if kind in (BARS, TABLE) and not self.controlled and self.chance(0.6):
            self.controlled = True
            found.append(CALL_CONTROL)
        return list(dict.fromkeys(found))

    def argument(self, action):
        if action == 0x04:
            return self.some(0x00, 0x00, 0x01, 0x03)
        if action == 0x05:
            return self.some(0x03, 0x04, 0x04, 0x00)
        if action in (0x07, 0x08):
            return self.some(0x03, 0x04, 0x05, STATUS, 0x01)
        return self.random.randrange(256) if self.chance(0.1) else self.random.randrange(0x20, 0x7F)

    def table(self, events):
        """What an applet made of a table keeps."""
        triples = []
        for _ in range(self.random.randint(1, 10)):
            action = self.random.choice(ACTIONS)
            triples.append(bytes((self.random.choice((*events, MENU_ENTRY, TIMER)), action, self.argument(action))))
        return b"".join(triples)

    def row(self, shelf):
        kind = kinds.of_program().name_on(shelf)
        events = self.events(kind)
        menu = self.some(b"", b"Menu", b"A", b"0123456789") if kind != MENU else b"Menu"
        kept = {BARS: self.some(b"", b"123"), "notebook": self.some(b"", b"Milk"), TABLE: self.table(events)}.get(kind, b"")
        content = bytes((len(events), *events, len(menu))) + menu + kept
        return f"row {shelf} {self.random.randint(1, 3)} {content.hex().upper()}"

    def typed(self):
        return "user type " + self.some("", "1", "x", "123", "Milk", "0123456789", "twenty characters ok", "x" * 30)

    def line(self):
        makers = (
            (20, lambda: "user ok"), (14, lambda: f"user pick {self.random.randint(1, SHELVES if self.chance(0.9) else 255)}"),
            (12, self.typed), (6, lambda: f"user pick {self.random.randint(1, 2)}"),
            (4, lambda: "user end"), (3, lambda: "user back"), (3, lambda: "user none"), (6, lambda: "user press"), (6, lambda: "user idle"),
            (6, lambda: f"user dial {self.some('1', '123', '1234567', '5550100', '1' * 20)}"),
            (8, lambda: f"net place {self.random.choice(PLACES)}"), (6, lambda: "net poll"),
            (8, lambda: f"time {self.some(0, 1, 59, 299, 300, 301, 100000, 360000, 999999)}"),
            (2, lambda: "reset"), (1, lambda: f"cut {self.random.randint(1, 6)}"),
            (1, lambda: f"cut {self.random.randint(1, 6)} {self.random.randint(0, 64)} {self.random.randrange(256):02X}"),
            (1, lambda: f"fail {self.random.randint(1, 6)} {self.random.randrange(256):02X}"),
            (1, lambda: f"readfail {self.random.randint(1, 40)}"))
        return self.random.choices([maker for _, maker in makers], [weight for weight, _ in makers])[0]()

    def lines(self):
        shelves = self.random.sample(range(SHELVES), self.random.choice((0, 1, 2, 3, 5, 8)))
        return ["ef 2FE2 t 10 - -", *(self.row(shelf) for shelf in shelves), "start",
                *(self.line() for _ in range(self.random.choice((5, 20, 40))))]


def python_trace(path, lines):
    """The trace of a Terminal over the card of a script, for the lines after its start."""
    with Card(path) as card:
        handset = Terminal(card)
        try:
            handset.start()
            for line in lines:
                handset.line(line)
        except Ended as fault:
            return [*card.trace, fault.line]
        return card.trace


def disagreement(seed):
    """Where the traces of a session differ, and how many lines they have."""
    lines = Maker(seed).lines()
    text = "".join(line + "\n" for line in lines)
    shown, _, _ = process.played(["phone"], text)
    with tempfile.TemporaryDirectory() as folder:
        path = os.path.join(folder, "session.script")
        with open(path, "w", encoding="ascii") as out:
            out.write(text)
        found = python_trace(path, lines[lines.index("start") + 1:])
    if shown == found:
        return None, len(shown)
    at = next((n for n, (one, other) in enumerate(zip(shown, found)) if one != other), min(len(shown), len(found)))
    return f"seed {seed}, line {at + 1} of the trace: phone shows {shown[at:at + 2]}, and the Terminal {found[at:at + 2]}", len(shown)


def compared(seeds, jobs=None):
    """The disagreements over sessions, and how many lines their traces have together."""
    progress, wrong, lines = terminal.Progress(len(seeds), "sessions"), [], 0
    with concurrent.futures.ThreadPoolExecutor(jobs or os.cpu_count()) as pool:
        for found, count in pool.map(disagreement, seeds):
            progress.step()
            wrong += [found] if found else []
            lines += count
    progress.end()
    return wrong, lines


def main():
    words = argparse.ArgumentParser(description=__doc__, formatter_class=argparse.RawDescriptionHelpFormatter)
    words.add_argument("--count", type=int, default=200)
    words.add_argument("--seed", type=int, default=0)
    words.add_argument("--jobs", type=int, default=os.cpu_count())
    words.add_argument("--to", metavar="FOLDER")
    given = words.parse_args()
    seeds = range(given.seed, given.seed + given.count)
    if given.to:
        for seed in seeds:
            with open(os.path.join(given.to, f"{seed}.script"), "w", encoding="ascii") as out:
                out.write("".join(line + "\n" for line in Maker(seed).lines()))
        return 0
    wrong, lines = compared(seeds, given.jobs)
    for why in wrong[:20]:
        print(why)
    print(f"{given.count} sessions, {lines} lines of trace, {len(wrong)} on which phone and the Terminal don't agree")
    return 1 if wrong else 0


if __name__ == "__main__":
    sys.exit(main())
