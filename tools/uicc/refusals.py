"""Why a card refuses a command: which condition of the access rule isn't met (6982), which of their causes 6985, 6A84 and 6A89
have, which object of CREATE FILE has no place (6A80), and that a SELECT asks for an ADF (6A82, 6A86)."""
import re

from . import decode, follow, layout, names, rules, tlv

STATUSES = ("6700", "6982", "6985", "6A80", "6A82", "6A84", "6A86", "6A89", "6B00")
NO_ADF = "a card here has no ADF: the files of a USIM lie in 7F20, and those of an ISIM in 7FF2"
# P1 of a SELECT by a DF name (AID), and the identifier of the ADF that is active
BY_NAME, ACTIVE_ADF = 0x04, bytes.fromhex("7FFF")
KEY_WORD = r"\b(?:" + "|".join(rules.KEYS) + r")\b"
ADM = 0x0A
DEACTIVATE, ACTIVATE, ENABLE = 0x04, 0x44, 0x28
# what a rule has to allow for an instruction
OPERATIONS = {
    decode.READ_BINARY: "read", decode.READ_RECORD: "read", decode.SEARCH_RECORD: "read", decode.UPDATE_BINARY: "update",
    decode.UPDATE_RECORD: "update", decode.INCREASE: "increase", DEACTIVATE: "deactivate", ACTIVATE: "activate",
}
WITH_ADM = follow.ON_CHILDREN


def reason(follower, apdu, status, card=None):
    """Why a command was answered so; None where that isn't known. `follower` has taken all commands before it; `card` is what the card
    holds now, and what the follower knows of it without one."""
    card = card or follower.card
    if not apdu.ok:
        return None
    if status == "6982":
        return of_security(follower, apdu, card)
    if status == "6985":
        return of_conditions(follower, apdu, card)
    if status == "6A84":
        return of_room(follower, apdu, card)
    if status == "6B00":
        return of_offset(follower, apdu, card)
    if status == "6A89":
        return of_doubles(follower, apdu, card)
    if status in ("6A82", "6A86"):
        return NO_ADF if asks_for_adf(apdu) else None
    return of_form(apdu, status)


# 6A82 and 6A86

def asks_for_adf(apdu):
    """Whether a SELECT is of an ADF: by its AID, or by a path that begins with 7FFF."""
    return apdu.ins == decode.SELECT and (apdu.p1 == BY_NAME or apdu.data.startswith(ACTIVE_ADF))


# 6982

def of_security(follower, apdu, card):
    if apdu.on_applets or apdu.ins in WITH_ADM:
        return not_met(ADM, card)
    operation, path = OPERATIONS.get(apdu.ins), follower.target(apdu)
    file = card.files.get(path) if card and path else None
    if operation is None or file is None or file.rule is None:
        return None
    rule = f"rule {file.rule[0]}:{file.rule[1]}"
    broken = card.about_rule(file)
    if broken:
        return f"{rule} allows nothing: {broken}"
    pairs = rules.read(card.rule_file(file).record(file.rule[1]))
    conditions = [condition for named, condition in pairs if operation in named or rules.INSTRUCTIONS.get(apdu.ins) in named]
    asked = [condition for condition in conditions if keys_in(condition)]
    missing = dict.fromkeys(key for condition in asked for key in keys_in(condition) if not is_met(key, follower, card))
    if not missing:
        return f"{rule} lets nobody {operation}"
    return f"{rule} asks for {named_keys(' or '.join(asked))} to {operation}; {', '.join(not_met(key, card) for key in missing)}"


def keys_in(condition):
    """The keys of a condition in words."""
    return [rules.KEYS[word] for word in re.findall(KEY_WORD, condition)]


def named_keys(condition):
    return re.sub(KEY_WORD, lambda found: names.key(rules.KEYS[found.group()]), condition)


def is_met(key, follower, card):
    """Whether the condition of a key holds: it is on the card, and was verified or is disabled."""
    pin = card.pins.get(key)
    return pin is not None and (key in follower.verified or not pin.enabled)


def not_met(key, card):
    is_there = card is None or key in card.pins
    return f"{names.key(key)} isn't {'verified' if is_there else 'on the card'}"


# 6985

def of_conditions(follower, apdu, card):
    if apdu.on_applets:
        return of_applet(apdu, card)
    if apdu.ins == decode.DELETE_FILE:
        return of_deletion(follower, apdu, card)
    if apdu.ins in OPERATIONS or apdu.ins == decode.RESIZE_FILE:
        path = follower.child(apdu) if apdu.ins in follow.ON_CHILDREN else follower.target(apdu)
        return f"{names.shown(path, follower.usim)} is deactivated" if path else "the file is deactivated"
    return CONDITIONS.get(apdu.ins)


CONDITIONS = {
    ENABLE: "the PIN is enabled already", decode.FETCH: "no command waits to be fetched",
    decode.RESPONSE: "no command that was fetched waits for a response", decode.CHANNEL: "that channel is closed already",
    decode.GET_RESPONSE: "no data wait",
}


def of_applet(apdu, card):
    if apdu.ins == decode.DELETE:
        return "the applet waits for a response, or to send"
    if card is None:
        return None
    if apdu.p2 in card.rows:
        return "an applet is registered there already"
    other = next((row.shelf for row in card.rows.values() if layout.CALL_CONTROL in row.events), None)
    return None if other is None else f"the applet on shelf {other} has call control already"


def of_deletion(follower, apdu, card):
    path = follower.child(apdu)
    inside = card.children(path) if card and path else []
    if inside:
        return f"{names.shown(inside[0].path, follower.usim)} lies in it"
    channel = next((number for number, (df, _) in follower.current.items() if path and df[:len(path)] == path), None)
    return None if channel is None else f"it is the current DF of channel {channel}"


# 6A89

def of_doubles(follower, apdu, card):
    """Which file of the DF has the identifier, or the short identifier, that a new one is to have."""
    made, path = decode.new_file(apdu.data), follower.child(apdu)
    if card is None or made is None or path is None:
        return None
    if path in card.files:
        return f"{names.shown(path, follower.usim)} is there already"
    other = next((file for file in card.children(path[:-1]) if made.short and file.short == made.short), None)
    return other and f"{names.shown(other.path, follower.usim)} has the SFI {made.short}"


# 6B00

def of_offset(follower, apdu, card):
    """Which bytes UPDATE BINARY would have written, and how many the file has."""
    file = card.files.get(follower.target(apdu)) if card else None
    if apdu.ins != decode.UPDATE_BINARY or file is None or file.structure != "t":
        return None
    offset = apdu.p2 if apdu.p1 & 0x80 else apdu.p1 << 8 | apdu.p2
    return f"{len(apdu.data)} bytes from offset {offset} on, and the file has {file.size}"


# 6A80 and 6700

# the objects of CREATE FILE that a card here takes, in their order, and how a DF is described
OF_DF = (0x82, 0x83)
OF_EF = (*OF_DF, 0x8B, 0x80, 0x88)
OPTIONAL = 0x8B
DF = 0x78


def of_form(apdu, status):
    """What of ETSI TS 102 222 a card here doesn't take in the data of CREATE FILE and RESIZE FILE."""
    if apdu.on_applets:
        return None
    if (apdu.ins, status) == (decode.CREATE_FILE, "6A80"):
        return of_template(apdu.data)
    if (apdu.ins, status) == (decode.RESIZE_FILE, "6700"):
        return "here its data are four bytes, the identifier and the size, and no template" if apdu.data[:1] == b"\x62" else None
    return None


def of_template(data):
    """Which object of a template has no place in it, or is missing; None where neither is so."""
    try:
        found = list(rules.objects(tlv.template(data)[1]))
    except ValueError as fault:
        return str(fault)
    is_df = any(tag == OF_DF[0] and value[:1] == bytes((DF,)) for tag, value in found)
    taken, tags = (OF_DF if is_df else OF_EF), [tag for tag, _ in found]
    listed = f"{'a DF' if is_df else 'an EF'} has {' '.join(f'{tag:02X}' for tag in taken)}, in this order"
    other = next((tag for tag in tags if tag not in taken), None)
    if other is not None:
        return f"the object {other:02X} isn't taken: {listed}"
    missing = next((tag for tag in taken if tag not in tags and tag != OPTIONAL), None)
    if missing is not None:
        return f"the object {missing:02X} is missing: {listed}"
    return None if tags == [tag for tag in taken if tag in tags] else f"its objects stand in another order: {listed}"


# 6A84

def of_room(follower, apdu, card):
    if card is None:
        return None
    if apdu.on_applets:
        return of_room_for_applet(apdu, card)
    if apdu.ins == decode.RESIZE_FILE:
        return of_room_for_bytes(card, int.from_bytes(apdu.data[2:], "big"))
    if len(card.files) >= layout.MOST_FILES:
        return f"the card has {layout.MOST_FILES} files already"
    made = decode.new_file(apdu.data)
    if made is None:
        return None
    return of_room_for_bytes(card, made.length * made.count) if made.structure else "no number above that of its DF is free"


def of_room_for_applet(apdu, card):
    try:
        given = layout.installation(apdu.data)
    except layout.Wrong:
        return None
    if not card.is_wide and layout.needs_wide(apdu.p2, given.kept):
        return (f"its files leave room for the shelves 0 to {layout.LOWER_SHELVES - 1} alone, and for {layout.NARROW_KEPT} bytes that an "
                "applet keeps")
    entries = sum(bool(row.text) for row in card.rows.values())
    if given.text and entries >= layout.MOST_MENU_ENTRIES:
        return f"{entries} applets have an entry in the menu already"
    return "no sequence number is left"


def of_room_for_bytes(card, size):
    free = (layout.WIDE_BYTES if card.is_wide else layout.ALL_BYTES) - card.total()
    told = f"{size:,} bytes are wanted, and {free:,} are free"
    return told if size > free else f"{told}, not so many of them in one piece"
