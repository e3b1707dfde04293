#!/usr/bin/env python3
"""Stands in for the program in tests, with an image: a card of transparent and linear files and PIN 1, without access rules.

It writes as a journal does: the pieces of a commit, the open gate, the places themselves, the closed gate. So a cut at each of these
leaves what is before or after. It knows SELECT, READ and UPDATE BINARY, READ and UPDATE RECORD by number, and VERIFY.

SMALL_CARD_TEARS in the environment has it write the places without a journal, so that a cut tears them. A test may have it in its own
process by `played`."""
import os
import sys

sys.dont_write_bytecode = True
sys.path.insert(0, os.path.dirname(os.path.dirname(os.path.abspath(__file__))))
from uicc import image, lint
from uicc.grammar import Apdu, Reset, read_line

CLOSED = 0xA5


class Cut(Exception):
    """The power was lost in a write."""


class Failed(Exception):
    """A write failed."""


def spelled(card):
    """The image of a card that a script describes."""
    content = bytearray(b"\xFF" * image.JOURNAL_SIZE)
    content[:8] = b"UICC" + bytes((image.WIDE, 0, 0, 0))
    content[image.PINS:image.NODES] = bytes(image.NODES - image.PINS)
    content[image.UPPER_ROWS:image.UPPER_ROWS + 1024] = bytes(1024)
    for slot, key in enumerate((0x01, 0x81, 0x0A)):
        pin = card.pins.get(key)
        if pin:
            at = image.PINS + image.PIN_WIDTH * slot
            content[at:at + image.PIN_WIDTH] = bytes((key, pin.enabled, pin.tries, pin.unblock_tries)) + pin.value + pin.unblock
    content[image.NODES:image.NODES + 16 * 128] = bytes(16 * 128)
    place, numbers = 3968, {}
    for number, file in enumerate(card.files.values()):
        numbers[file.path] = number
        kind = {None: 0x78, "t": 0x41, "l": 0x42, "c": 0x46}[file.structure]
        identifier = bytes.fromhex(file.path[-1] if file.path else "3F00")
        rule = (bytes((file.rule[1],)) + bytes.fromhex(file.rule[0])) if file.rule else bytes(3)
        length = 0 if file.structure in (None, "t") else file.length
        node = (bytes((1, kind)) + identifier + bytes((numbers.get(file.path[:-1], 0), file.short or 0, 5)) + rule
                + (place if file.size else 0).to_bytes(2, "big") + file.size.to_bytes(2, "big") + bytes((length, 0)))
        content[image.NODES + 16 * number:image.NODES + 16 * (number + 1)] = node
        content[place:place + file.size] = file.content
        place += file.size
    return content


class SmallCard:
    def __init__(self, content):
        self.content, self.power, self.plan, self.calls = content, True, None, 0
        self.restart()

    def restart(self):
        self.content[:] = image.recovered(bytes(self.content))
        self.content[image.GATE] = CLOSED
        self.card, self.current, self.power = image.card_in(bytes(self.content)), None, True

    def program(self, at, part):
        self.calls += 1
        if self.plan and self.plan.call == self.calls:
            kept = part[:self.plan.kept]
            self.content[at:at + len(part)] = kept + bytes((self.plan.rest,)) * (len(part) - len(kept))
            raise Cut if self.plan.word == "cut" else Failed
        self.content[at:at + len(part)] = part

    def commit(self, at, part):
        if "SMALL_CARD_TEARS" not in os.environ:
            entry = bytes((1,)) + at.to_bytes(2, "big") + len(part).to_bytes(2, "big") + part
            self.program(image.ENTRIES, entry)
            self.program(image.GATE, bytes((image.OPEN_GATE,)))
        self.program(at, part)
        if "SMALL_CARD_TEARS" not in os.environ:
            self.program(image.GATE, bytes((CLOSED,)))

    def place(self, path):
        number = list(self.card.files).index(path)
        node = self.content[image.NODES + 16 * number:image.NODES + 16 * (number + 1)]
        return int.from_bytes(node[10:12], "big")

    def sent(self, command):
        """What the trace shows for a command."""
        if not self.power:
            self.plan = None
            return "! off"
        try:
            answer = self.answer(command)
        except Cut:
            self.power, answer = False, None
        except Failed:
            self.restart()
            answer = b"\x65\x81"
        self.plan, self.calls = None, 0
        if answer is None:
            return "! cut"
        self.card = image.card_in(image.recovered(bytes(self.content)))
        return "< " + answer.hex().upper()

    def answer(self, command):
        ins, p1, p2, data = command[1], command[2], command[3], command[5:]
        if ins == 0xA4:
            return self.select(p1, p2, data)
        if ins == 0x20:
            return self.verify(data)
        if ins in (0xB0, 0xD6) and p1 & 0x80:
            self.current = next((path for path, file in self.card.files.items() if file.short == p1 & 31), None)
            p1 = 0
        if self.current is None:
            return b"\x69\x86"
        file = self.card.files[self.current]
        at = p1 << 8 | p2 if ins in (0xB0, 0xD6) else (p1 - 1) * file.length
        if ins in (0xB0, 0xB2):
            return bytes(file.content[at:at + (command[4] or file.length)]) + b"\x90\x00"
        if ins in (0xD6, 0xDC):
            self.commit(self.place(self.current) + at, data)
            return b"\x90\x00"
        return b"\x6D\x00"

    def select(self, p1, p2, data):
        path = tuple(data[n:n + 2].hex().upper() for n in range(0, len(data), 2))
        if path == ("3F00",):
            path = ()
        found = path if path in self.card.files else next((one for one in self.card.files if p1 == 0 and one[-1:] == path), None)
        if found is None:
            return b"\x6A\x82"
        file = self.card.files[found]
        self.current = None if file.is_df else found
        shape = b"\x82\x02\x78\x21" if file.is_df else b"\x82\x02\x41\x21" if file.structure == "t" else bytes(
            (0x82, 5, 0x42, 0x21, 0, file.length, file.count))
        fcp = bytes((0x62, len(shape))) + shape if p2 == 4 else b""
        return fcp + b"\x90\x00"

    def verify(self, data):
        pin, at = self.card.pins[0x01], image.PINS
        if data and pin.tries:
            self.commit(at + 2, bytes((pin.tries - 1,)))
            if data != pin.value:
                return bytes((0x63, 0xC0 | pin.tries - 1))
            self.commit(at + 2, b"\x03")
            return b"\x90\x00"
        return bytes((0x63, 0xC0 | pin.tries)) if pin.tries else b"\x69\x83"


def section(given):
    """The lines up to `start`."""
    lines = []
    for line in given:
        lines.append(line)
        if line.strip() == "start":
            return lint.read("".join(lines))
    return lint.read("".join(lines))


def run(words, lines, say):
    """Plays lines as they come, says each line of the trace, and answers the status."""
    path = words[words.index("--image") + 1] if "--image" in words else None
    script = section(lines)
    bad = script.first()
    if bad:
        say(f"line {bad.line}")
        return lint.STATUSES[bad.kind]
    if words[0] == "open":
        with open(path, "rb") as file:
            content = bytearray(file.read())
        if content[:4] != b"UICC":
            say("not a card 0")
            return 7
    else:
        content = spelled(script.card)
    card = SmallCard(content)
    for line in lines:
        said = read_line(line.rstrip("\n"))
        if isinstance(said, Apdu):
            say("> " + said.command.hex().upper())
            say(card.sent(said.command))
        elif isinstance(said, Reset):
            card.restart()
            say("! reset")
        elif said is not None:
            card.plan, card.calls = said, 0
    if path:
        with open(path, "wb") as file:
            file.write(card.content)
    return 0


def played(words, text):
    """As `uicc.process.played` has it."""
    trace = []
    status = run(words, iter(text.splitlines(keepends=True)), trace.append)
    return trace, status, ""


if __name__ == "__main__":
    sys.exit(run(sys.argv[1:], iter(sys.stdin.readline, ""), lambda line: print(line, flush=True)))
