"""What a card holds, as the lines before `start` describe it or an image has it: its PINs, files and rows, and its bounds."""
import dataclasses

from . import rules
from .grammar import Df, Ef, Fill, Pin, Rec, Row, Wrong, shown_path

# the key of the administrator, which nothing unblocks
ADM = 0x0A
MOST_FILES = 128
ALL_BYTES = 61_568
# with more bytes of files than this a card has no room for rows that only a wide one holds
WIDE_BYTES = 59_520
SHELVES = 32
LOWER_SHELVES = 16
NARROW_KEPT = 32
LONGEST_KEPT = 64
LONGEST_MENU_TEXT = 10
MOST_MENU_ENTRIES = 16
EVENTS = (0x00, 0x01, 0x02, 0x03, 0x04, 0x05, 0x07, 0x09, 0x0A, 0x40, 0x41, 0x45)
CALL_CONTROL = 0x45


class NoRoom(Wrong):
    """There is no room for what a line describes."""


@dataclasses.dataclass
class File:
    """A file of the card. A transparent EF has one record. `line` is that of the script, where it has one."""
    path: tuple
    structure: str | None = None
    length: int = 0
    count: int = 0
    short: int | None = None
    rule: tuple | None = None
    content: bytearray = dataclasses.field(default_factory=bytearray)
    active: bool = True
    line: int = 0

    @property
    def is_df(self):
        return self.structure is None

    @property
    def size(self):
        return self.length * self.count

    def record(self, number):
        return bytes(self.content[(number - 1) * self.length:number * self.length])

    def records(self):
        return [self.record(number) for number in range(1, self.count + 1)]

    def resize(self, size):
        """A transparent EF gets so many bytes: those that it has, as far as there is room for them, and then FF."""
        self.content = bytearray(self.content[:size].ljust(size, b"\xFF"))
        self.length = size


@dataclasses.dataclass
class PinState:
    key: int
    value: bytes
    enabled: bool
    unblock: bytes
    tries: int = 3
    unblock_tries: int = 10
    line: int = 0


@dataclasses.dataclass
class Registered:
    """An applet that is registered on a shelf."""
    shelf: int
    priority: int
    events: tuple
    text: bytes
    kept: bytes
    line: int = 0


@dataclasses.dataclass
class Installation:
    events: tuple
    text: bytes
    kept: bytes


def counted(what, content):
    """A length, so many bytes, and what stands after them."""
    if not content:
        raise Wrong(f"HEX ends before the length of {what}")
    count, rest = content[0], content[1:]
    if count > len(rest):
        raise Wrong(f"HEX ends in {what}: {count} bytes are to come, and {len(rest)} are there")
    return rest[:count], rest[count:]


def installation(content):
    """What the data of a `row` line or of INSTALL say."""
    codes, rest = counted("the codes of events", content)
    text, kept = counted("the menu text", rest)
    for place, code in enumerate(codes):
        if code not in EVENTS:
            raise Wrong(f"{code:02X} is no event that an applet is registered for: these are {' '.join(f'{e:02X}' for e in EVENTS)}")
        if code in codes[:place]:
            raise Wrong(f"the event {code:02X} stands there twice")
    if len(text) > LONGEST_MENU_TEXT:
        raise Wrong(f"a menu text has at most {LONGEST_MENU_TEXT} bytes, and not {len(text)}")
    if len(kept) > LONGEST_KEPT:
        raise Wrong(f"an applet keeps at most {LONGEST_KEPT} bytes, and not {len(kept)}")
    return Installation(tuple(codes), text, kept)


class Card:
    """The files by their paths, in the order in which they were described, with the MF first; the PINs and rows by their keys
    and shelves."""

    def __init__(self):
        self.files = {(): File(())}
        self.pins, self.rows = {}, {}
        # whether it was made with room for 32 applets; None while lines describe it
        self.was_wide = None

    @property
    def is_wide(self):
        """Whether it has room for 32 applets, and for fewer bytes of files, which is settled when it is made."""
        return self.total() <= WIDE_BYTES if self.was_wide is None else self.was_wide

    # what lines describe

    def add(self, said, line=0):
        """Adds what a line says. Wrong, and no change, where it may not stand there; NoRoom where there is none for it."""
        if isinstance(said, Df):
            self._add_file(File(said.path, line=line))
        elif isinstance(said, Ef):
            self._add_ef(said, line)
        elif isinstance(said, Fill):
            self._fill(said)
        elif isinstance(said, Rec):
            self._set_record(said)
        elif isinstance(said, Pin):
            self._add_pin(said, line)
        elif isinstance(said, Row):
            self._add_row(said, line)

    def total(self):
        return sum(file.size for file in self.files.values())

    def make(self, path, made):
        """Adds a file that CREATE FILE asked for."""
        self.files[path] = File(path, made.structure, made.length, made.count, made.short, made.rule,
                                bytearray(b"\xFF" * (made.length * made.count)))

    def children(self, path):
        return [file for file in self.files.values() if file.path and file.path[:-1] == path]

    def _free_place(self, path):
        above = path[:-1]
        for depth in range(1, len(above) + 1):
            found = self.files.get(above[:depth])
            if found is None:
                raise Wrong(f"{shown_path(above[:depth])} isn't there: `df {''.join(above[:depth])}` has to stand before this line")
            if not found.is_df:
                raise Wrong(f"{shown_path(above[:depth])} is an EF, and no DF (line {found.line})")
        if path in self.files:
            raise Wrong(f"{shown_path(path)} is there already (line {self.files[path].line})")

    def _add_file(self, file):
        self._free_place(file.path)
        self._room_for(file.size)
        self.files[file.path] = file

    def _room_for(self, size):
        if len(self.files) >= MOST_FILES:
            raise NoRoom(f"a card has at most {MOST_FILES} files, the MF counted with them")
        total = self.total() + size
        if total > ALL_BYTES:
            raise NoRoom(f"all files have at most {ALL_BYTES:,} bytes together: with these {size:,} they would have {total:,}")
        wide = next((row for row in self.rows.values() if needs_wide(row.shelf, row.kept)), None)
        if total > WIDE_BYTES and wide:
            raise NoRoom(f"with the applet on shelf {wide.shelf} (line {wide.line}) all files have at most {WIDE_BYTES:,} bytes "
                         f"together: with these {size:,} they would have {total:,}")

    def _add_ef(self, said, line):
        self._free_place(said.path)
        taken = next((file for file in self.children(said.path[:-1]) if said.short and file.short == said.short), None)
        if taken:
            raise Wrong(f"the SFI {said.short} is taken by {shown_path(taken.path)} (line {taken.line})")
        self._add_file(File(said.path, said.structure, said.length, said.count, said.short, said.rule,
                            bytearray(b"\xFF" * said.size), line=line))

    def found(self, path):
        for depth in range(1, len(path) + 1):
            file = self.files.get(path[:depth])
            if file is None:
                raise Wrong(f"{shown_path(path[:depth])} isn't there: a line before has to describe it")
            if file.is_df and depth == len(path):
                raise Wrong(f"{shown_path(path)} is a DF, and has no bytes of its own")
            if not file.is_df and depth < len(path):
                raise Wrong(f"{shown_path(path[:depth])} is an EF, and no DF (line {file.line})")
        return self.files[path]

    def _fill(self, said):
        file = self.found(said.path)
        if file.structure != "t":
            raise Wrong(f"{shown_path(said.path)} has records (line {file.line}): rec PATH NUMBER HEX writes one")
        end = said.offset + len(said.content)
        if end > file.size:
            raise Wrong(f"{shown_path(said.path)} has {file.size} bytes (line {file.line}), and HEX would end after byte {end}")
        file.content[said.offset:end] = said.content

    def _set_record(self, said):
        file = self.found(said.path)
        if file.structure == "t":
            raise Wrong(f"{shown_path(said.path)} is transparent (line {file.line}): fill PATH OFFSET HEX writes its bytes")
        if not 1 <= said.number <= file.count:
            raise Wrong(f"NUMBER is 1 to {file.count}, as {shown_path(said.path)} has so many records (line {file.line}), "
                        f"not {said.number}")
        if len(said.content) > file.length:
            raise Wrong(f"a record of {shown_path(said.path)} has {file.length} bytes (line {file.line}), and HEX has "
                        f"{len(said.content)}")
        at = (said.number - 1) * file.length
        file.content[at:at + file.length] = said.content.ljust(file.length, b"\xFF")

    def _add_pin(self, said, line):
        if said.key in self.pins:
            raise Wrong(f"the PIN {said.key:02X} is there already (line {self.pins[said.key].line})")
        self.pins[said.key] = PinState(said.key, said.value, said.enabled, said.unblock, line=line)

    def _add_row(self, said, line):
        if said.shelf >= SHELVES:
            raise Wrong(f"SHELF is 0 to {SHELVES - 1}, not {said.shelf}")
        given = installation(said.content)
        if said.shelf in self.rows:
            raise Wrong(f"an applet is registered on shelf {said.shelf} already (line {self.rows[said.shelf].line})")
        control = next((row for row in self.rows.values() if CALL_CONTROL in row.events), None)
        if CALL_CONTROL in given.events and control:
            raise Wrong(f"one applet at most has call control (event 45), and that on shelf {control.shelf} has it "
                        f"(line {control.line})")
        if given.text and sum(bool(row.text) for row in self.rows.values()) >= MOST_MENU_ENTRIES:
            raise Wrong(f"at most {MOST_MENU_ENTRIES} applets have an entry in the menu")
        if self.total() > WIDE_BYTES and needs_wide(said.shelf, given.kept):
            raise NoRoom(f"where the files have more than {WIDE_BYTES:,} bytes together ({self.total():,} here), there are shelves "
                         f"0 to {LOWER_SHELVES - 1} alone, and an applet keeps at most {NARROW_KEPT} bytes")
        self.rows[said.shelf] = Registered(said.shelf, said.priority, given.events, given.text, given.kept, line)

    # who may do what

    def rule_file(self, file):
        """The EF whose records say who may do what with a file: that of the identifier in its own DF, or in the nearest above."""
        for depth in range(len(file.path) - 1, -1, -1):
            found = self.files.get((*file.path[:depth], file.rule[0]))
            if found is not None and not found.is_df:
                return found
        return None

    def about_rule(self, file):
        """Why the rule of a file allows nothing; None where it is in order."""
        arr, number = file.rule
        found = self.rule_file(file)
        if found is None:
            return f"{arr} is neither in its own DF nor in one above"
        if found.structure != "l":
            return f"{shown_path(found.path)} is no linear fixed file"
        if number > found.count:
            return f"{shown_path(found.path)} has {found.count} records, and no record {number}"
        try:
            rules.read(found.record(number))
        except rules.NoRule as fault:
            return f"record {number} of {shown_path(found.path)} is no rule: {fault}"
        return None


def needs_wide(shelf, kept):
    return shelf >= LOWER_SHELVES or len(kept) > NARROW_KEPT
