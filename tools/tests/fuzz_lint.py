#!/usr/bin/env python3
"""Makes scripts at random, and compares what tools/lint says of the first bad line with what the program says.

    tools/tests/fuzz_lint.py [--count N] [--seed N] [--jobs N] [--to FOLDER]

Half of the scripts describe cards whose lines are right or nearly so, at the bounds of what a line may say and a card may hold, or
what happens to a terminal's channels (`bip`); the others are the examples with bytes and words put in, taken out or changed. Every
second one for a handset is played over the T=0 link. --to writes those for `play` to a folder, and runs nothing."""
import argparse
import concurrent.futures
import os
import random
import sys

sys.dont_write_bytecode = True
HERE = os.path.dirname(os.path.abspath(__file__))
sys.path.insert(0, os.path.dirname(HERE))
from uicc import lint, process, stored, terminal

EXAMPLES = os.path.join(process.TOP, "examples")
NUMBERS = ("0", "1", "2", "30", "31", "32", "64", "65", "127", "128", "253", "254", "255", "256", "300", "32767", "32768", "65535", "65536",
           "7", "8", "4096", "4097", "999999999", "1000000000", "007", "00", "-1", "+1", "1.0", "", "x", "4294967296", "20", "16", "15")
IDENTIFIERS = ("2FE2", "2F00", "7F10", "7F20", "6F07", "6F3A", "6F3B", "5F3A", "6f07", "2F06")
RESERVED = ("3F00", "7FFF")
CODES = (0, 1, 2, 3, 4, 5, 6, 7, 8, 9, 10, 11, 0x40, 0x41, 0x42, 0x43, 0x45)
WORDS = ("df", "ef", "fill", "rec", "pin", "row", "start", "apdu", "tpdu", "reset", "cut", "fail", "readfail", "user", "net", "time",
         "cmd", "echo", "drop", "on", "off", "t", "l", "c", "-", "2F06:1", "2F06:0", "2F06:255", "01", "81", "0A", "0a", "02", "#", " ",
         "\t", "\r", "ok", "type", "pick", "Hi")


class Maker:
    def __init__(self, seed):
        self.random = random.Random(seed)
        self.dfs, self.files = [""], []

    def chance(self, share):
        return self.random.random() < share

    def some(self, *choices):
        return self.random.choice(choices)

    def number(self, low, high):
        if self.chance(0.02):
            return self.random.choice(NUMBERS)
        return str(self.random.choice((low, high, self.random.randint(low, high), self.random.randint(low, min(high, low + 40)))))

    def hex(self, low, high):
        if self.chance(0.02):
            return self.some("", "0", "0G", "00 00", "AABBC", "0x00")
        high = max(low, high)
        count = self.random.choice((low, self.random.randint(low, high), self.random.randint(low, min(high, low + 8)))
                                   if self.chance(0.98) else (high, high + 1))
        text = bytes(self.random.randrange(256) for _ in range(count)).hex()
        return text if self.chance(0.2) else text.upper()

    def identifier(self):
        if self.chance(0.01):
            return self.random.choice(RESERVED)
        return self.random.choice(IDENTIFIERS) if self.chance(0.3) else f"{self.random.randrange(0x10000):04X}"

    def new_path(self):
        """A path that is new, mostly."""
        for _ in range(9):
            path = self.random.choice(self.dfs) + self.identifier()
            if path not in self.dfs and path not in [file[0] for file in self.files] or self.chance(0.02):
                break
        return path

    def known(self, *structures):
        """A file that was described, mostly of one of these structures."""
        found = [file for file in self.files if file[1] in structures or self.chance(0.02)]
        return self.random.choice(found) if found else None

    def df(self):
        path = self.new_path()
        self.dfs.append(path)
        return f"df {path}"

    def ef(self):
        path, letter = self.new_path(), self.some("t", "l", "c")
        short = self.some("-", "-", self.number(1, 30))
        rule = self.some("-", "-", f"{self.identifier()}:{self.number(1, 254)}")
        if letter == "t":
            size = self.number(1, self.some(20, 300, 32767))
            self.files.append((path, letter, int(size) if size.isdigit() else 1, 1))
            return f"ef {path} t {size} {short} {rule}"
        length, count = self.number(1, self.some(20, 255)), self.number(1, self.some(5, 254))
        self.files.append((path, letter, int(length) if length.isdigit() else 1, int(count) if count.isdigit() else 1))
        return f"ef {path} {letter} {length} {count} {short} {rule}"

    def fill(self):
        found = self.known("t")
        if not found:
            return self.ef()
        path, _, size, _ = found
        offset = self.random.choice((0, max(0, size - 1), self.random.randint(0, size), size + 1 if self.chance(0.1) else 0))
        return f"fill {path} {offset if self.chance(0.95) else self.number(0, 65535)} {self.hex(1, min(255, max(1, size - offset + self.chance(0.05))))}"

    def rec(self):
        found = self.known("l", "c")
        if not found:
            return self.ef()
        path, _, length, count = found
        number = self.random.choice((1, count, count + 1, 0) if self.chance(0.1) else (1, count))
        return f"rec {path} {number} {self.hex(1, min(255, length + self.chance(0.05)))}"

    def pin(self):
        key = self.some("01", "81", "0A", "0A", "0a", "02" if self.chance(0.1) else "01")
        switch = self.some("on", "on", "off") if key.lower() != "0a" or self.chance(0.05) else "on"
        return f"pin {key} {self.hex(8, 8)} {switch} {self.hex(8, 8)}"

    def row(self):
        codes = bytes(self.random.sample(CODES[:-2] if self.chance(0.9) else CODES, self.random.choice((0, 0, 1, 2, 3, 12))))
        if self.chance(0.97):
            codes = bytes(code for code in codes if code not in (6, 8, 0x42, 0x43))
        if self.chance(0.05):
            codes += b"\x45"
        text = bytes(self.random.randrange(32, 127) for _ in range(self.random.choice((0, 0, 4, 10, 11) if self.chance(0.1) else (0, 4))))
        kept = bytes(self.random.randrange(256) for _ in range(self.random.choice((0, 3, 32, 33, 64, 65) if self.chance(0.1) else (0, 3))))
        content = bytes((len(codes),)) + codes + bytes((len(text),)) + text + kept
        if self.chance(0.03):
            content = content[:self.random.randint(0, len(content))]
        if self.chance(0.02):
            content = bytes((self.random.randrange(256),)) + content[1:]
        return f"row {self.number(0, 31)} {self.number(1, 255)} {content.hex().upper()}"

    def big(self):
        """A file of many bytes, so that a card is full soon."""
        path = self.random.choice(self.dfs) + f"{self.random.randrange(0x4000, 0x7000):04X}"
        size = self.some(20000, 30000, 32767, 29760, 29761, 1024, 2048, 2049, 59520 - 32767, 61568 - 32767, 61568 - 32768)
        self.files.append((path, "t", size, 1))
        return f"ef {path} t {size} - -"

    def section(self):
        makers = [self.df, self.ef, self.ef, self.fill, self.rec, self.pin, self.row]
        if self.chance(0.25):
            makers += [self.big] * 3
        count = self.random.choice((3, 8, 20, 40))
        if self.chance(0.05):
            return [f"df {n:04X}" for n in self.random.sample(range(0x4000, 0x6000), 126)] + [self.random.choice(makers)() for _ in range(6)]
        if self.chance(0.05):
            return [f"row {shelf} 1 0001{self.hex(1, 1) or '41'}" for shelf in range(self.random.randint(14, 18))]
        return [self.random.choice(makers)() for _ in range(count)]

    def steps(self, mode):
        """What makes the steps of a script: those for its mode, and now and then one for another."""
        commands = [lambda: f"apdu {self.hex(1, 30)}", lambda: f"tpdu {self.hex(1, 30)}"]
        others = [lambda: "reset", lambda: f"cut {self.number(1, 9)}",
                  lambda: f"cut {self.number(1, 9)} {self.number(0, 64)} {self.hex(1, 1)}"]
        handset = [lambda: f"user {self.some('ok', 'end', 'back', 'none', 'press', 'idle', 'on')}",
                   lambda: f"user type {self.some('', 'Hi', 'a b', 'x' * 30, 'x' * 31, chr(0xE9))}",
                   lambda: f"user pick {self.number(1, 255)}", lambda: f"user dial {self.some('1', '1' * 20, '1' * 21, '12a')}",
                   lambda: f"net place {self.hex(1, 33)}", lambda: "net poll", lambda: f"time {self.number(0, 3)}"]
        channels = [lambda: f"cmd {self.hex(1, 255)}", lambda: f"net echo {self.number(1, 7)} {self.number(1, 4096)}",
                    lambda: f"net drop {self.number(1, 7)}"]
        if self.chance(0.03):
            return commands + others + handset + channels + [self.ef, lambda: "start"]
        return {"phone": others + handset, "bip": channels}.get(mode, commands + others)

    def made(self, mode):
        """The lines of a script that is right or nearly so, and how many of them are to be spoilt."""
        section = [] if mode == "bip" and self.chance(0.95) else self.section()
        steps = [self.random.choice(self.steps(mode))() for _ in range(self.random.choice((0, 2, 6)))]
        return [*section, "start", *steps], self.random.choice((0, 0, 0, 1))

    def example(self):
        """The mode of an example, its lines, and how many of them are to be spoilt."""
        path = os.path.join(EXAMPLES, self.random.choice(sorted(name for name in os.listdir(EXAMPLES) if name.endswith(".script"))))
        mode = stored.mode_of(stored.read(path))
        return "play" if mode == "open" else mode, process.lines_of(path), self.random.choice((0, 1, 1, 2, 5))

    def spoilt(self, line):
        """A line with something put in, taken out or changed."""
        kind = self.random.randrange(8)
        if kind == 0:
            words = line.split(" ")
            words[self.random.randrange(len(words))] = self.random.choice(WORDS + NUMBERS)
            return " ".join(words)
        at = self.random.randint(0, len(line))
        if kind == 1:
            return line[:at] + self.random.choice(WORDS) + line[at:]
        if kind == 2:
            return line[:at] + line[at + 1:]
        if kind == 3:
            return line[:at] + chr(self.random.choice((0, 9, 13, 32, 35, 48, 65, 102, 127, 128, 133, 233, 255))) + line[at + 1:]
        if kind == 4:
            return line + self.some(" ", "\r", " -", "\t", " #")
        if kind == 5:
            return self.some("", "#" + line, "#" + "x" * self.some(598, 599, 600, 601), "x" * 601, self.some("apdu ", "tpdu ") + "00" * self.some(261, 262))
        if kind == 6:
            return "".join(letter.swapcase() if letter.isascii() else letter for letter in line)
        return line.replace(" ", "  ", 1)

    def script(self):
        """The text of a script, and the word that it is for."""
        mode = self.some("play", "play", "phone", "bip")
        if self.chance(0.5):
            lines, spoil = self.made(mode)
        else:
            mode, lines, spoil = self.example()
        if self.chance(0.02):
            mode = self.some("play", "phone", "bip")
        for _ in range(spoil):
            if lines:
                at = self.random.randrange(len(lines))
                if self.chance(0.1):
                    lines.insert(at, lines.pop(self.random.randrange(len(lines))))
                elif self.chance(0.05):
                    del lines[at]
                else:
                    lines[at] = self.spoilt(lines[at])
        end = self.some("\n", "\n", "\n", "\r\n")
        text = end.join(lines) + (end if self.chance(0.9) else self.some("", "\r", "\n\n"))
        return text, mode


def told(script):
    """What the program should end with, as (status, last line); 0 where it ends with another status than those of a bad line."""
    first = script.first()
    return (0, "") if first is None else (lint.STATUSES[first.kind], f"line {first.line}")


def disagreement(seed):
    """Why lint and the program don't agree on a script; None where they do."""
    text, mode = Maker(seed).script()
    script = lint.read(text, mode)
    words = [mode, "--link", "t0"] if mode == "phone" and seed % 2 else [mode]
    trace, status, _ = process.played(words, text)
    shown = (status, trace[-1] if trace else "") if status in (2, 8) else (0, "")
    if status == 6:
        # a planned fault in a reset ends the run before the lines after it are read
        return None
    if shown != told(script):
        return f"seed {seed} ({mode}): the program ended with {status} {trace[-1:]}, and lint says {script.first()}"
    return None


def main():
    words = argparse.ArgumentParser(description=__doc__, formatter_class=argparse.RawDescriptionHelpFormatter)
    words.add_argument("--count", type=int, default=1000)
    words.add_argument("--seed", type=int, default=0)
    words.add_argument("--jobs", type=int, default=os.cpu_count())
    words.add_argument("--to", metavar="FOLDER")
    given = words.parse_args()
    seeds = range(given.seed, given.seed + given.count)
    if given.to:
        for seed in seeds:
            text, mode = Maker(seed).script()
            if mode == "play":
                with open(os.path.join(given.to, f"{seed}.script"), "w", encoding=process.ENCODING, newline="\n") as out:
                    out.write(text)
        return 0
    progress, wrong = terminal.Progress(given.count, "scripts"), []
    with concurrent.futures.ThreadPoolExecutor(given.jobs) as pool:
        for found in pool.map(disagreement, seeds):
            progress.step()
            wrong += [found] if found else []
    progress.end()
    for why in wrong[:20]:
        print(why)
    print(f"{given.count} scripts, {len(wrong)} on which lint and the program don't agree")
    return 1 if wrong else 0


if __name__ == "__main__":
    sys.exit(main())
