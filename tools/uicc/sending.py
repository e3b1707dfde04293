"""Which applets of the card send given proactive commands: rows of a script, for a handset that can't be given commands otherwise."""
from . import decode, names, tlv

TABLE, NOTE, CLOCK = 6, 5, 2
MOST_TRIPLES = 10
LONGEST_NOTE = 32
STATUS, PROFILE = 0x41, 0x40
# events that an applet may be registered for and that stay in the terminal's list: the card lists 04 and 05 anew once they were told
STAYING = (0x00, 0x01, 0x02, 0x03, 0x07, 0x09, 0x0A)
ACTIONS = {name: int(code, 16) for name, code in names.table("toolkit")["actions"].items()}
TITLE = b"Menu"
NOTE_QUESTION = bytes.fromhex("23018202" "8182" "8D06044E6F74653F" "91020014")
POLL_INTERVAL = bytes.fromhex("0300820281828402011E")
TIMER_STARTED = bytes.fromhex("270082028182A40101A503005000")
ITEM, EVENTS = 0x0F, 0x19


def body(raw):
    """A command without its number: what is left after that, of its details and after them."""
    return raw[raw.index(b"\x81\x03") + 3:] if b"\x81\x03" in raw[:5] else raw


def row(shelf, events, menu=b"", kept=b""):
    content = bytes((len(events), *events, len(menu))) + menu + kept
    return f"row {shelf} 1 {decode.hexed(content)}"


def of_letter(text):
    """The letter of a text object that is all that is left of a command; None where that is another one."""
    return text[3] if len(text) == 4 and text[:3] == b"\x8D\x02\x04" else None


def action_of(raw):
    """The action of a table that sends a command, and its argument; None where there is none."""
    kind, qualifier, rest = body(raw)[0], body(raw)[1], body(raw)[6:]
    devices = body(raw)[2:6]
    letter = of_letter(rest)
    to_terminal, to_display, to_earpiece = (devices == b"\x82\x02\x81" + bytes((to,)) for to in (0x82, 0x02, 0x03))
    if kind == 0x21 and qualifier == 0x80 and to_display and letter is not None:
        return ACTIONS["show"], letter
    if kind == 0x22 and qualifier == 0x01 and to_terminal and letter is not None:
        return ACTIONS["key"], letter
    if kind == 0x28 and qualifier == 0x00 and to_terminal and letter is not None:
        return ACTIONS["idle"], letter
    if kind == 0x20 and qualifier == 0x00 and to_earpiece and rest[:2] == b"\x8E\x01" and len(rest) == 3:
        return ACTIONS["tone"], rest[2]
    if kind == 0x02 and qualifier == 0x00 and to_terminal and not rest:
        return ACTIONS["more-time"], 0
    if kind == 0x26 and to_terminal and not rest:
        return ACTIONS["local"], qualifier
    if kind == 0x01 and qualifier in (0x03, 0x04) and to_terminal and not rest:
        return ACTIONS["refresh"], qualifier
    return None


def table_rows(commands):
    """An applet made of a table that sends commands one after the other, when it is asked by STATUS."""
    actions = [action_of(raw) for raw in commands]
    if None in actions or len(actions) > MOST_TRIPLES:
        return None
    return [row(TABLE, [STATUS], kept=b"".join(bytes((STATUS, *action)) for action in actions))]


def note_rows(commands):
    """The applet with a note shows it, or asks for one, when the profile is told."""
    if len(commands) != 1:
        return None
    if body(commands[0]) == NOTE_QUESTION:
        return [row(NOTE, [PROFILE])]
    head, text = body(commands[0])[:6], body(commands[0])[6:]
    note = text[3:]
    if head != bytes.fromhex("218082028102") or text[:3] != bytes((0x8D, 1 + len(note), 0x04)) or not 1 <= len(note) <= LONGEST_NOTE:
        return None
    return [row(NOTE, [PROFILE], kept=note)]


def menu_rows(commands):
    """The card sets its menu up by itself: an applet for each entry, in the order of their shelves."""
    if len(commands) != 1 or body(commands[0])[:12] != bytes.fromhex("250082028182" "8504") + TITLE:
        return None
    items = [value for tag, _, value in tlv.objects(body(commands[0])[6:]) if tag == ITEM]
    shelves = [value[0] - 1 for value in items if value]
    if len(shelves) != len(items) or shelves != sorted(set(shelves)) or any(not 0 <= shelf < 16 for shelf in shelves):
        return None
    return [row(shelf, [], value[1:]) for shelf, value in zip(shelves, items)]


def event_rows(commands):
    """The card tells which events its applets are registered for."""
    if len(commands) != 1 or body(commands[0])[:7] != bytes.fromhex("05008202818299"):
        return None
    events = tlv.first(body(commands[0])[6:], EVENTS)
    if not events or list(events) != sorted(set(events)) or not set(events) <= set(STAYING):
        return None
    return [row(TABLE, events)]


def poll_rows(commands):
    """The card asks to be polled where an applet is registered for STATUS."""
    return [row(TABLE, [STATUS])] if [body(raw) for raw in commands] == [POLL_INTERVAL] else None


def clock_rows(commands):
    """The applet that keeps a clock starts its timer when the profile is told."""
    return [row(CLOCK, [PROFILE])] if [body(raw) for raw in commands] == [TIMER_STARTED] else None


def rows_for(commands):
    """The rows by which the card sends just these commands; None where its applets can't."""
    for make in (table_rows, note_rows, menu_rows, event_rows, poll_rows, clock_rows):
        try:
            found = make(commands)
        except (IndexError, tlv.BadTlv):
            continue
        if found:
            return found
    return None
