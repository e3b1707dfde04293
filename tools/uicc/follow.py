"""Follows the commands of a trace: which file is the current one on each logical channel, so that what is read can be decoded."""
from . import contents, decode, layout, names
from .decode import CREATE_FILE, DELETE_FILE, INCREASE, READ_BINARY, READ_RECORD, RESIZE_FILE, SEARCH_RECORD, SELECT, UPDATE_BINARY, UPDATE_RECORD

BY_IDENTIFIER, PARENT, FROM_MF, FROM_DF = 0x00, 0x03, 0x08, 0x09
BY_NUMBER = 4
DISABLE, ENABLE, UNBLOCK, DEACTIVATE, ACTIVATE = 0x26, 0x28, 0x2C, 0x04, 0x44
MEMORY_PROBLEM = "6581"
ON_CHILDREN = (CREATE_FILE, DELETE_FILE, RESIZE_FILE)
# the answers after which a command with a short identifier has made its EF the current one; by 61XX the data of a TPDU wait
TAKEN = ("9000", "91", "6282", "61")


def is_taken(status):
    return status.startswith(TAKEN)


def is_selected(status):
    return status == "9000" or status.startswith(("91", "61")) or status == "6283"


class Follower:
    """`card` is a layout.Card that says which files there are, and is changed where files are made, resized and deleted; without it
    paths alone are followed."""

    def __init__(self, card=None):
        self.card = card
        if card:
            card.was_wide = card.is_wide
        self.usim = card is None or is_usim_card(card)
        self.reset()

    def reset(self):
        # the current DF of each open channel, and its current EF or None, by their paths
        self.current = {0: ((), None)}
        # the keys that were verified
        self.verified = set()

    def of(self, apdu):
        return self.current.get(apdu.channel, ((), None))

    def select(self, apdu):
        """The path that a SELECT leads to, as far as that is known."""
        df, ef = self.of(apdu)
        path = tuple(decode.hexed(apdu.data[n:n + 2]) for n in range(0, len(apdu.data) - 1, 2))
        if apdu.p1 == PARENT:
            return df[:-1]
        if apdu.p1 == FROM_MF:
            return path[1:] if path[:1] == ("3F00",) else path
        if apdu.p1 == FROM_DF:
            return df + path
        if apdu.p1 != BY_IDENTIFIER or not path:
            return None
        return self._by_identifier(df, path[0])

    def _by_identifier(self, df, identifier):
        if identifier == "3F00":
            return ()
        if df and df[-1] == identifier:
            return df
        files = self.card.files if self.card else None
        if files is None:
            # without a card a known DF is one below the MF, and other files lie in the current DF
            entry = names.files_of(identifier)
            if entry and entry[0]["name"].startswith("DF.") and "MF" in entry[0]["in"]:
                return (identifier,)
            return df + (identifier,)
        if df + (identifier,) in files:
            return df + (identifier,)
        if len(df) > 1 and df[-2] == identifier:
            return df[:-1]
        if df and df[:-1] + (identifier,) in files and files[df[:-1] + (identifier,)].is_df:
            return df[:-1] + (identifier,)
        return None

    def short(self, df, number):
        """The path of the EF with a short identifier."""
        if self.card:
            return next((file.path for file in self.card.children(df) if file.short == number), None)
        entry = names.by_short(df, number, self.usim)
        return (*df, entry["id"]) if entry else None

    def target(self, apdu):
        """The path of the EF that a command works on."""
        df, ef = self.of(apdu)
        number = short_identifier(apdu)
        return self.short(df, number) if number else ef

    def child(self, apdu):
        """The path of the file that CREATE FILE makes, or that DELETE FILE or RESIZE FILE names; None where the data name none."""
        made = decode.new_file(apdu.data) if apdu.ins == CREATE_FILE else None
        if apdu.on_applets or apdu.ins == CREATE_FILE and made is None or len(apdu.data) < 2:
            return None
        return self.of(apdu)[0] + (made.identifier if made else decode.hexed(apdu.data[:2]),)

    def take(self, apdu, status):
        """Takes note of a command that was answered so."""
        if status == MEMORY_PROBLEM:
            # the card opens its memory anew, and nothing is selected or verified then
            self.reset()
        elif not apdu.ok:
            return
        elif apdu.on_applets:
            self._change_row(apdu, status)
        elif apdu.ins in decode.PINS:
            self._present(apdu, status)
        elif apdu.ins == SELECT and is_selected(status):
            self._selected(apdu)
        elif apdu.ins == decode.CHANNEL and is_taken(status):
            self._channel(apdu)
        elif apdu.ins in ON_CHILDREN and is_taken(status):
            self._change_child(apdu, self.child(apdu))
        elif is_taken(status):
            self._work_on_file(apdu)

    def _work_on_file(self, apdu):
        if short_identifier(apdu):
            df, _ = self.of(apdu)
            self.current[apdu.channel] = (df, self.short(df, short_identifier(apdu)))
        file = self.card.files.get(self.target(apdu)) if self.card else None
        if not file or file.is_df:
            return
        if apdu.ins == UPDATE_BINARY:
            at = apdu.p2 if short_identifier(apdu) else apdu.p1 << 8 | apdu.p2
            file.content[at:at + len(apdu.data)] = apdu.data
        elif apdu.ins == UPDATE_RECORD and apdu.p2 & 7 == BY_NUMBER and apdu.p1:
            file.content[(apdu.p1 - 1) * file.length:apdu.p1 * file.length] = apdu.data
        elif apdu.ins in (DEACTIVATE, ACTIVATE):
            file.active = apdu.ins == ACTIVATE

    def _present(self, apdu, status):
        """A value of a key was presented: a wrong one takes the mark of a verified key away, and a right one gives it, but for
        DISABLE PIN."""
        if not apdu.data:
            return
        if status.startswith("63C"):
            self.verified.discard(apdu.p2)
        elif is_taken(status):
            if apdu.ins != DISABLE:
                self.verified.add(apdu.p2)
            pin = self.card.pins.get(apdu.p2) if self.card else None
            if pin and apdu.ins in (DISABLE, ENABLE, UNBLOCK):
                pin.enabled = apdu.ins != DISABLE

    def _change_row(self, apdu, status):
        if not self.card or not is_taken(status):
            return
        if apdu.ins == decode.DELETE:
            self.card.rows.pop(apdu.p2, None)
        elif apdu.ins == decode.INSTALL:
            given = layout.installation(apdu.data)
            self.card.rows[apdu.p2] = layout.Registered(apdu.p2, apdu.p1, given.events, given.text, given.kept)

    def _selected(self, apdu):
        path = self.select(apdu)
        if path is None:
            self.current[apdu.channel] = (self.of(apdu)[0], None)
        elif self.is_df(path):
            self.current[apdu.channel] = (path, None)
        else:
            self.current[apdu.channel] = (path[:-1], path)

    def _change_child(self, apdu, path):
        if path is None:
            return
        if apdu.ins == CREATE_FILE:
            made = decode.new_file(apdu.data)
            if self.card:
                self.card.make(path, made)
            self.current[apdu.channel] = (path[:-1], path) if made.structure else (path, None)
        elif apdu.ins == DELETE_FILE:
            if self.card:
                self.card.files.pop(path, None)
            self.current = {channel: (df, None if ef == path else ef) for channel, (df, ef) in self.current.items()}
        elif self.card and path in self.card.files:
            self.card.files[path].resize(int.from_bytes(apdu.data[2:], "big"))

    def is_df(self, path):
        if self.card and path in self.card.files:
            return self.card.files[path].is_df
        entry = names.file(path, self.usim)
        return not path or bool(entry and entry["name"].startswith("DF"))

    def _channel(self, apdu):
        if apdu.p1 == 0x80:
            self.current.pop(apdu.p2 or apdu.channel, None)
        else:
            self.opened = apdu.p2

    def opened_as(self, number, origin):
        """A channel was opened from another one: it has its DF, or the MF where that is the basic one."""
        self.current[number] = (self.current.get(origin, ((), None))[0] if origin else (), None)

    def meaning(self, path, content):
        """What the content of a file says; None where it isn't known, as where this is only a part of it."""
        entry = path and names.file(path, self.usim)
        if not entry or "content" not in entry:
            return None
        file = self.card.files.get(path) if self.card else None
        if file and (file.structure != entry.get("structure") or len(content) != file.length):
            return None
        try:
            return contents.decode(entry["content"], content)
        except contents.BadContent as fault:
            return f"not right: {fault}" if file else None


def short_identifier(apdu):
    """The short identifier in a command; 0 where it has none."""
    if apdu.ins in (READ_BINARY, UPDATE_BINARY, INCREASE):
        return apdu.p1 & 31 if apdu.p1 & 0x80 else 0
    if apdu.ins in (READ_RECORD, UPDATE_RECORD, SEARCH_RECORD):
        return apdu.p2 >> 3
    return 0


def is_usim_card(card):
    """Whether 7F20 of a card is a USIM's."""
    return names.is_usim(card.files)
